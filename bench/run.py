#!/usr/bin/env python3
"""Prints how fast the program is, beside others that this system's packages have, as one table of Markdown.

    run.py FOLDER PROGRAM [ROUNDS] [--gfm]

With --gfm the program reads GitHub's constructs, and is measured beside cmark-gfm with all of its extensions, md4c with
GitHub's dialect (without footnotes and the tag filter), and pulldown-cmark with its own (without literals and the filter).
FOLDER has the texts of corpus.py in `corpus`, and what peers.sh builds. For each text the programs run in turn,
round for round, and the least processor time of each counts. Memory is the peak, in multiples of the text. Instructions are
those of callgrind on the first million bytes less those of an empty text.
"""
import os
import re
import subprocess
import sys
import tempfile

from timing import GFM, least, memory

TEXTS = ("readmes", "readmes-small", "readmes-medium", "readmes-large", "plain", "links", "emphasis", "code", "tables")
COUNTED = 1_000_000
STARTS = 200


def programs(folder, own, is_gfm):
    if is_gfm:
        return {"this program": [own, "--gfm"], "md4c": [folder + "/md4c", "--gfm"],
                "pulldown-cmark": [folder + "/pulldown-cmark", "--gfm"], "cmark-gfm": GFM}
    return {"this program": [own], "md4c": [folder + "/md4c"], "pulldown-cmark": [folder + "/pulldown-cmark"],
            "cmark": ["cmark", "--unsafe"], "cmark-gfm": ["cmark-gfm", "--unsafe"]}


def counted(command, path, folder):
    """The instructions of a run, by callgrind."""
    words = ["valgrind", "--tool=callgrind", "--callgrind-out-file=" + folder + "/callgrind", *command]
    with open(path, "rb") as text:
        ran = subprocess.run(words, stdin=text, stdout=subprocess.DEVNULL, stderr=subprocess.PIPE, text=True)
    return int(re.search(r"Collected : (\d+)", ran.stderr)[1])


def instructions(commands, path, starts, folder):
    """For each command its instructions a byte, its start left out."""
    with open(path, "rb") as text, open(folder + "/part", "wb") as part:
        taken = text.read(COUNTED)
        taken = taken[: taken.rfind(b"\n") + 1]
        part.write(taken)
    return {name: (counted(command, folder + "/part", folder) - starts[name]) / len(taken)
            for name, command in commands.items()}


def print_table(texts, commands, rounds):
    with tempfile.TemporaryDirectory() as folder:
        open(folder + "/empty", "w").close()
        starts = {name: counted(command, folder + "/empty", folder) for name, command in commands.items()}
        print("| Text | Program | MB a second | This program is so many times as fast | Memory, of the text | Instructions a byte |")
        print("|---|---|---|---|---|---|")
        for name in TEXTS:
            path = "%s/%s.md" % (texts, name)
            size, best = os.path.getsize(path), least(commands, path, rounds)
            counts = instructions(commands, path, starts, folder)
            for i, (program, seconds) in enumerate(best.items()):
                head = "`%s`, %.1f MB" % (name, size / 1e6) if i == 0 else ""
                print("| %s | %s | %.0f | %.2f | %.1f | %.0f |"
                      % (head, program, size / seconds / 1e6, seconds / best["this program"],
                         memory(commands[program], path) / size, counts[program]), flush=True)
        best = least(commands, folder + "/empty", STARTS)
        for program, seconds in best.items():
            print("| an empty text | %s | %.2f ms | %.2f | %.1f MB | %d in all |"
                  % (program, seconds * 1e3, seconds / best["this program"],
                     memory(commands[program], folder + "/empty") / 1e6, starts[program]))


def main():
    is_gfm, words = "--gfm" in sys.argv, [word for word in sys.argv[1:] if word != "--gfm"]
    print_table(words[0] + "/corpus", programs(words[0], words[1], is_gfm), int(words[2]) if len(words) > 2 else 20)


main()
