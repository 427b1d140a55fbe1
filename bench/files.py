#!/usr/bin/env python3
"""Times builds of markdown-lint or markdown-fmt on Markdown files, one after the other, and compares what they print.

usage: bench/files.py [--rounds N] [--instructions] PROGRAM.. -- WORD.. < NAMES

PROGRAM is a build. WORD is an argument, such as --gfm or --check; the files come after the words. NAMES has the name of a file in each
line. Equal files count once, and files that aren't UTF-8 don't count. For each build it prints megabytes a second, by the least processor
time of N rounds (15), in which the builds run in turn; with --instructions also the instructions a byte of one run, by callgrind. It
fails if two builds print different bytes. The files are copies, so a build may change them: each run begins with the same texts.
"""
import argparse
import os
import re
import subprocess
import sys
import tempfile


def copies(names, folder):
    """Writes the texts of files to a folder, each once. Returns the names of the copies, and the number of all bytes."""
    texts = {}
    for name in names:
        try:
            with open(name, "rb") as file:
                text = file.read()
            text.decode("utf-8")
        except (OSError, UnicodeDecodeError):
            continue
        texts.setdefault(text)
    for number, text in enumerate(texts):
        with open(f"{folder}/{number}.md", "wb") as file:
            file.write(text)
    return [f"{number}.md" for number in range(len(texts))], sum(map(len, texts))


def run(command, folder):
    """Runs a command in a copy of a folder. Returns its output and its processor time in seconds."""
    with tempfile.TemporaryDirectory() as room, tempfile.TemporaryFile() as out:
        subprocess.run(["cp", "-r", f"{folder}/.", room], check=True)
        child = subprocess.Popen(command, cwd=room, stdin=subprocess.DEVNULL, stdout=out)
        _, status, used = os.wait4(child.pid, 0)
        child.returncode = os.waitstatus_to_exitcode(status)
        if child.returncode not in (0, 1):
            sys.exit(f"{command[0]}: status {child.returncode}")
        out.seek(0)
        return out.read(), used.ru_utime + used.ru_stime


def instructions(command, folder):
    """The instructions of a run."""
    with tempfile.TemporaryDirectory() as room:
        subprocess.run(["cp", "-r", f"{folder}/.", room], check=True)
        words = ["valgrind", "--tool=callgrind", "--callgrind-out-file=/dev/null", *command]
        ran = subprocess.run(words, cwd=room, stdin=subprocess.DEVNULL, stdout=subprocess.DEVNULL, stderr=subprocess.PIPE, text=True)
        return int(re.search(r"Collected : (\d+)", ran.stderr)[1])


def main():
    before, _, words = " ".join(sys.argv[1:]).partition(" -- ")
    wanted = argparse.ArgumentParser(usage=__doc__)
    wanted.add_argument("--rounds", type=int, default=15)
    wanted.add_argument("--instructions", action="store_true")
    wanted.add_argument("programs", nargs="+")
    options = wanted.parse_args(before.split())
    programs = [os.path.abspath(program) for program in options.programs]
    with tempfile.TemporaryDirectory() as folder:
        files, size = copies(sys.stdin.read().splitlines(), folder)
        commands = [[program, *words.split(), *files] for program in programs]
        print(f"{len(files)} files, {size} bytes")
        best = [float("inf")] * len(programs)
        for _ in range(options.rounds):
            outputs = []
            for at, command in enumerate(commands):
                output, seconds = run(command, folder)
                outputs.append(output)
                best[at] = min(best[at], seconds)
            if any(output != outputs[0] for output in outputs):
                sys.exit("the builds print different bytes")
        for program, command, seconds in zip(programs, commands, best):
            line = f"{program}: {size / seconds / 1e6:.1f} MB/s"
            if options.instructions:
                line += f", {instructions(command, folder) / size:.0f} instructions a byte"
            print(line)


main()
