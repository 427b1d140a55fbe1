#!/usr/bin/env python3
"""Mends copies of Markdown files with markdown-lint, and prints figures.

usage: bench/fix.py MARKDOWN-LINT MARKDOWN < NAMES

MARKDOWN is the program that makes HTML: its pages of each text before and after are compared. NAMES has the name of a file in each line.
A file whose name ends in .gz is unpacked. Equal files count once, and files that aren't UTF-8 don't count.
"""
import gzip
import os
import re
import resource
import subprocess
import sys
import tempfile
from collections import Counter


def texts(names):
    """The texts of files, each once."""
    found = {}
    for name in names:
        try:
            with (gzip.open if name.endswith(".gz") else open)(name, "rb") as file:
                text = file.read()
            text.decode()
        except (OSError, UnicodeDecodeError):
            continue
        found.setdefault(text)
    return list(found)


def read_all(folder, count):
    """The texts of the copies."""
    found = []
    for number in range(count):
        with open(f"{folder}/{number}.md", "rb") as file:
            found.append(file.read())
    return found


def lint(program, folder, count, *words):
    """How many findings of each rule are printed, and the seconds of the processor."""
    before = resource.getrusage(resource.RUSAGE_CHILDREN)
    names = [f"{number}.md" for number in range(count)]
    run = subprocess.run([program, "--gfm", "--disable", "missing-file", *words, *names], cwd=folder, stdout=subprocess.PIPE, check=False)
    if run.returncode not in (0, 1):
        sys.exit(f"markdown-lint ended with status {run.returncode}")
    after = resource.getrusage(resource.RUSAGE_CHILDREN)
    seconds = after.ru_utime + after.ru_stime - before.ru_utime - before.ru_stime
    return Counter(re.findall(r"\(([a-z-]+)\)$", run.stdout.decode(errors="replace"), re.MULTILINE)), seconds


def page(program, text):
    return subprocess.run([program, "--gfm", "--dangerous"], input=text, stdout=subprocess.PIPE, check=True).stdout


def main():
    if len(sys.argv) != 3:
        sys.exit(__doc__.strip())
    program, reader = map(os.path.abspath, sys.argv[1:])
    before = texts(sys.stdin.read().splitlines())
    with tempfile.TemporaryDirectory() as folder:
        for number, text in enumerate(before):
            with open(f"{folder}/{number}.md", "wb") as file:
                file.write(text)
        found, lint_seconds = lint(program, folder, len(before))
        left, seconds = lint(program, folder, len(before), "--fix")
        memory = resource.getrusage(resource.RUSAGE_CHILDREN).ru_maxrss * 1024
        once = read_all(folder, len(before))
        lint(program, folder, len(before), "--fix")
        twice = read_all(folder, len(before))
    size = sum(map(len, before))
    print(f"files: {len(before)}, bytes: {size}, largest: {max(map(len, before))}")
    print(f"changed: {sum(a != b for a, b in zip(before, once))}, by a second run: {sum(a != b for a, b in zip(once, twice))}")
    print(f"other pages: {sum(page(reader, a) != page(reader, b) for a, b in zip(before, once) if a != b)}")
    print(f"seconds: {seconds:.1f}, MB/s: {size / seconds / 1e6:.2f}, without --fix: {lint_seconds:.1f}, memory: {memory / 1e6:.0f} MB")
    print(f"findings: {found.total()}, left: {left.total()}")
    for rule in sorted(found):
        if left[rule] != found[rule]:
            print(f"  {rule}: {found[rule]}, left: {left[rule]}")


main()
