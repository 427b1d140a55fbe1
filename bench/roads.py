#!/usr/bin/env python3
"""Compares the events of random texts by both roads, by `parse` and by the machines, or times both roads.

    roads.py PROGRAM [COUNT [SEED]]   COUNT texts, 20,000 if it isn't given, an eighth each by eight sets of options. Prints the
                                      texts whose events differ by more than white space and cuts of data, and the counts
    roads.py PROGRAM --families [N]   processor times of both roads on families of texts at sizes n, 2n and 4n
    roads.py --texts COUNT SEED       prints a file of random texts for crates/tests_roads/data
    roads.py --rows                   prints such a file of the texts of tests/rows, without the examples of CommonMark

PROGRAM is crates/tests_roads/out/tests_roads (`rt run` there builds it).
"""
import glob
import os
import random
import subprocess
import sys
import tempfile

from families import FAMILIES, GFM_FAMILIES
from timing import least

BLOCKS = ["a", "b", " ", " ", "  ", "    ", "   ", "\n", "\n", "\n", "\n\n", "> ", ">", "- ", "-", "+ ", "* ", "1. ", "2. ", "1) ", "```",
          "~~~", "$$", "# ", "##", "===", "---", "***", "<div>", "</div>", "<b>", "<?", "?>", "<pre>", "<!--", "-->", "[a]: x", "[a]",
          "'t'", "\"", "[b]:", "\\", "  \n", "|", "| a |", "| - |", ":-", "-|-", "[ ] ", "[x] ", "[^a]:", "[^a]", "+++"]
INLINE = ["*", "**", "_", "`", "``", "$", "]", "(", ")", "![", "](", "](x)", "[]", "<", ">", "<a>", "</a>", "<xx:y>", "a@b.c", "@", "&amp;",
          "&#10;", "\\\n", "!", "é", ".", "(/u 't')", "=", "==", "~", "~~", "www.a.b", "http://a", "[^", "\0", "\ufeff"]
ENDINGS = ["\r", "\r\n", "\t"]
LINES = ["> ", "- ", "1. ", "[^a]: ", "a", "\n", "\n", "\n\n", "  ", "    ", " ", "#", "```", "---", "| a |\n| - |", "\t", "[a]: b"]
POOLS = [BLOCKS, BLOCKS, BLOCKS + ENDINGS, BLOCKS + INLINE, BLOCKS + INLINE + ENDINGS, LINES]
OPTIONS = ["CommonMark", "Gfm", "Everything", "Blocks", "Leaves", "BlocksWithoutDefinitions", "Extensions", "CommonMarkAndTables"]
ROUNDS = 3
ROWS = os.path.join(os.path.dirname(os.path.dirname(os.path.realpath(__file__))), "tests", "rows")
# Examples that have a file of their own, and rows whose texts aren't read, but words or names.
OTHER_ROWS = ("commonmark/", "made.rows", "names.rows", "numbers.rows", "words.rows", "wrong_events.rows")


def text(numbers):
    pool = numbers.choice(POOLS)
    parts = numbers.randint(1, numbers.choice([6, 10, 16, 16, 32]))
    mark = "\ufeff" if numbers.random() < 0.03 else ""
    return mark + "".join(numbers.choice(pool) for _ in range(parts))


def pictured(source):
    """A text with pictures in place of control characters and of spaces before line endings."""
    out = []
    for at, character in enumerate(source):
        ends = at + 1 == len(source) or source[at + 1] == "\n"
        if character != "\n" and character < " " or character == " " and ends:
            out.append(chr(0x2400 + ord(character)))
        elif character == "\ufeff" or "\u2400" <= character <= "\u2421":
            out.append("\u241b%X;" % ord(character))
        else:
            out.append(character)
    return "".join(out)


def file_of(title, texts):
    return title + "\n" + "".join("@text\n%s\n" % it for it in texts)


def texts(count, seed):
    numbers = random.Random(seed)
    return [text(numbers) for _ in range(count)]


def row_texts():
    """The texts of rows as they are written, each once."""
    found = {}
    for path in sorted(glob.glob(ROWS + "/**/*.rows", recursive=True)):
        if os.path.relpath(path, ROWS).startswith(OTHER_ROWS):
            continue
        with open(path, encoding="utf-8", newline="") as file:
            for source in file.read().split("\n@row")[1:]:
                row = source.partition("\n")[2].split("\n@table ")[0]
                found[row.split("\n@is\n")[0]] = None
    return list(found)


def compare(program, count, seed):
    each = count // len(OPTIONS)
    with tempfile.TemporaryDirectory() as folder:
        for at, options in enumerate(OPTIONS):
            with open("%s/%s.texts" % (folder, options), "w", newline="") as file:
                file.write(file_of("Random texts.", [pictured(it) for it in texts(each, seed * len(OPTIONS) + at)]))
        lines = "".join("%s %s\n" % (it, it) for it in OPTIONS)
        return subprocess.run([program], input=lines.encode(), cwd=folder).returncode


def time_families(program, n):
    commands = {road: [program, road] for road in ("machines", "parse")}
    print("| Family | machines at n, 2n, 4n (ms) | Growth | `parse` at 4n (ms) | Times |")
    print("|---|---|---|---|---|")
    with tempfile.TemporaryDirectory() as folder:
        path = folder + "/text"
        for name, made in {**FAMILIES, **GFM_FAMILIES}.items():
            rows = []
            for k in (1, 2, 4):
                with open(path, "w") as out:
                    out.write(made(n * k))
                rows.append(least(commands, path, ROUNDS))
            own = [row["machines"] * 1000 for row in rows]
            other = rows[2]["parse"] * 1000
            shown = ", ".join("%.1f" % it for it in own)
            print("| %s | %s | %.1f | %.1f | %.1f |" % (name, shown, own[2] / own[0], other, own[2] / other), flush=True)


def main():
    words = sys.argv[1:]
    if words[0] == "--texts":
        title = "Random texts (`bench/roads.py %s`)." % " ".join(words)
        print(file_of(title, [pictured(it) for it in texts(int(words[1]), int(words[2]))]), end="")
    elif words[0] == "--rows":
        print(file_of("The texts of `tests/rows` (`bench/roads.py --rows`).", row_texts()), end="")
    elif words[1:2] == ["--families"]:
        time_families(words[0], int(words[2]) if len(words) > 2 else 10000)
    else:
        count = int(words[1]) if len(words) > 1 else 20000
        seed = int(words[2]) if len(words) > 2 else 1
        sys.exit(compare(words[0], count, seed))


if __name__ == "__main__":
    main()
