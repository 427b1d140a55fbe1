#!/usr/bin/env python3
"""Formats copies of Markdown files with markdown-fmt, and prints figures.

usage: bench/format.py PROGRAM [READER [WORD..]] < NAMES
       bench/format.py PROGRAM --hostile

PROGRAM is markdown-fmt. NAMES has the name of a file in each line. A file whose name ends in .gz is unpacked. Equal files count once, and
files that aren't UTF-8 don't count. READER is another program that makes HTML, such as `cmark-gfm --unsafe -e table`: its pages of each
text before and after are compared, too.

--hostile prints the seconds of the processor for texts that are long, deep, or have many edits that change the page, and for
texts twice as long.
"""
import gzip
import os
import resource
import subprocess
import sys
import tempfile


def texts(names):
    """The texts of files, each once."""
    found = {}
    for name in names:
        try:
            with (gzip.open if name.endswith(".gz") else open)(name, "rb") as file:
                text = file.read()
            text.decode("utf-8")
        except (OSError, UnicodeDecodeError):
            continue
        found.setdefault(text)
    return list(found)


def read_all(folder, count):
    """The texts of the copies."""
    found = []
    for number in range(count):
        with open(f"{folder}/{number}.md", "rb") as file:
            found.append(file.read())
    return found


def format_all(program, folder, count):
    """Formats the copies in one process. Returns the seconds of the processor that it takes."""
    began = processor_time()
    subprocess.run([program, "--gfm", *[f"{number}.md" for number in range(count)]], cwd=folder, check=True)
    return processor_time() - began


def processor_time():
    """The seconds of the processor that programs took."""
    taken = resource.getrusage(resource.RUSAGE_CHILDREN)
    return taken.ru_utime + taken.ru_stime


def page(reader, text):
    """The page that another program makes."""
    return subprocess.run(reader, input=text, capture_output=True, check=True).stdout


# What a hostile text repeats, and how many times.
HOSTILE = (
    ("* a\n", 150_000),
    ("# a\nb\n", 150_000),
    ("> ", 50_000),
    ("1) ", 10_000),
    ("_a ", 100_000),
    ("|a|\n|-|\n|b|\n\n", 30_000),
    ("*foo __bar *baz bim__ bam*\n\n", 10_000),
    ("- *foo __bar *baz bim__ bam*\n", 3_000),
)


def hostile_seconds(program, text):
    """The seconds of the processor that a text takes on standard input."""
    began = processor_time()
    subprocess.run([program, "--gfm"], input=text.encode(), stdout=subprocess.DEVNULL, check=True)
    return processor_time() - began


def print_hostile(program):
    for words, count in HOSTILE:
        once, twice = (hostile_seconds(program, words * times + "a\n") for times in (count, 2 * count))
        print(f"{words!r} {count} times: {once:.2f} s, twice as many: {twice:.2f} s", flush=True)


def main():
    if len(sys.argv) < 2:
        sys.exit(__doc__.strip())
    program, reader = os.path.abspath(sys.argv[1]), sys.argv[2:]
    if reader == ["--hostile"]:
        print_hostile(program)
        return
    before = texts(sys.stdin.read().splitlines())
    with tempfile.TemporaryDirectory() as folder:
        for number, text in enumerate(before):
            with open(f"{folder}/{number}.md", "wb") as file:
                file.write(text)
        seconds = format_all(program, folder, len(before))
        memory = resource.getrusage(resource.RUSAGE_CHILDREN).ru_maxrss * 1024
        once = read_all(folder, len(before))
        format_all(program, folder, len(before))
        twice = read_all(folder, len(before))
    size = sum(map(len, before))
    print(f"files: {len(before)}, bytes: {size}, largest: {max(map(len, before))}")
    print(f"changed: {sum(a != b for a, b in zip(before, once))}, bytes after: {sum(map(len, once))}")
    print(f"changed by a second run: {sum(a != b for a, b in zip(once, twice))}")
    print(f"seconds of the processor: {seconds:.1f}, MB/s: {size / seconds / 1e6:.2f}, memory: {memory / 1e6:.0f} MB")
    if reader:
        others = sum(page(reader, a) != page(reader, b) for a, b in zip(before, once) if a != b)
        print(f"other pages by {reader[0]}: {others}")


main()
