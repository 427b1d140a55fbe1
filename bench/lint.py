#!/usr/bin/env python3
"""Compares what markdown-lint finds with what mdl finds (Debian package ruby-mdl), by file, line and rule.

    lint.py MARKDOWN-LINT [--list RULE] [COUNT] [FOLDER..]

It draws COUNT files, 150 if none is given, from the Markdown files of the folders, /usr if none is given, of 400 bytes to
40,000. It prints a table: for each rule that both have the lines that both find, that mdl finds alone, and that
markdown-lint finds alone, and the first of each. Findings one line apart count as the same, and those of MD022 two: after
a heading mdl reports the heading, and markdown-lint what follows. mdl's rules are set as markdown-lint's are (STYLE).
With `--list MD022` it prints each place that only one of them finds by that rule, with its line, and no table.
"""
import json
import os
import random
import re
import shutil
import subprocess
import sys
import tempfile
import time
from collections import defaultdict

# All rules of mdl, with the choices of markdown-lint.
STYLE = """all
rule 'MD007', :indent => 2
rule 'MD009', :br_spaces => 2
rule 'MD010', :ignore_code_blocks => true
rule 'MD026', :punctuation => '.,;:!'
rule 'MD029', :style => :ordered
"""


def names(folders):
    for top in folders:
        for folder, _, files in os.walk(top):
            for name in files:
                path = os.path.join(folder, name)
                if name.endswith(".md") and os.path.isfile(path) and 400 <= os.path.getsize(path) <= 40000:
                    yield path


def is_utf8(path):
    with open(path, "rb") as file:
        try:
            file.read().decode()
        except UnicodeDecodeError:
            return False
    return True


def found_here(program, files):
    """The findings as a set of file, line and number, and the seconds."""
    start = time.monotonic()
    run = subprocess.run([program, "--frontmatter", "--gfm", "--json", *files], stdout=subprocess.PIPE, check=False)
    seconds = time.monotonic() - start
    found = (json.loads(line) for line in run.stdout.decode().splitlines())
    return {(it["file"], it["line"], it["number"] or it["rule"]) for it in found}, seconds


def found_by_mdl(files):
    with open("style.rb", "w", encoding="utf-8") as file:
        file.write(STYLE)
    start = time.monotonic()
    words = ["mdl", "--style", "style.rb", *files]
    run = subprocess.run(words, stdout=subprocess.PIPE, stderr=subprocess.DEVNULL, check=False)
    seconds = time.monotonic() - start
    found = set()
    for line in run.stdout.decode(errors="replace").splitlines():
        if match := re.match(r"(.*):(\d+): (MD\d+) ", line):
            found.add((match[1], int(match[2]), match[3]))
    return found, seconds


def compare(here, mdl):
    """For each rule: the findings of both, of mdl alone, and of markdown-lint alone."""
    rows = defaultdict(lambda: ([], [], []))

    def near(it, found):
        reach = 2 if it[2] == "MD022" else 1
        return any((it[0], it[1] + by, it[2]) in found for by in range(-reach, reach + 1))

    for it in sorted(mdl):
        rows[it[2]][0 if near(it, here) else 1].append(it)
    for it in sorted(here):
        if not near(it, mdl):
            rows[it[2]][2].append(it)
    return rows


def line_of(path, number):
    with open(path, encoding="utf-8") as file:
        return next((line.rstrip("\n") for at, line in enumerate(file, 1) if at == number), "")


def print_list(rows):
    both, theirs, ours = rows
    for who, found in (("mdl", theirs), ("here", ours)):
        for path, line, _ in found:
            print(f"{who:4} {path}:{line}: {line_of(path, line)!r}")
    print(f"both {len(both)}, mdl alone {len(theirs)}, markdown-lint alone {len(ours)}")


def main():
    words = sys.argv[1:]
    rule = None
    if "--list" in words[:-1]:
        at = words.index("--list")
        rule = words[at + 1]
        del words[at:at + 2]
    if not words:
        sys.exit(__doc__)
    program = os.path.realpath(words[0])
    count = int(words[1]) if len(words) > 1 else 150
    if not shutil.which("mdl"):
        sys.exit("mdl isn't installed: apt-get install ruby-mdl")
    every = sorted(it for it in names(words[2:] or ["/usr"]) if is_utf8(it))
    files = random.Random(1).sample(every, min(count, len(every)))
    with tempfile.TemporaryDirectory() as folder:
        # Elsewhere no file of settings is found.
        os.chdir(folder)
        here, seconds = found_here(program, files)
        mdl, mdl_seconds = found_by_mdl(files)
    if rule:
        print_list(compare(here, mdl)[rule])
        return
    numbers = {it[2] for it in here}
    print(f"{len(files)} of {len(every)} files; markdown-lint {seconds:.2f} s, mdl {mdl_seconds:.2f} s")
    print(f"{'rule':17} {'both':>6} {'mdl':>6} {'here':>6}  the first of mdl alone, and of markdown-lint alone")
    for rule, (both, theirs, ours) in sorted(compare(here, mdl).items()):
        mark = "" if rule in numbers or ours else " (not here)"
        first = " ".join(f"{it[0]}:{it[1]}" for it in theirs[:1] + ours[:1])
        print(f"{rule:17} {len(both):6} {len(theirs):6} {len(ours):6}  {first}{mark}")


main()
