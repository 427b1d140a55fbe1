#!/usr/bin/env python3
"""Prints what it takes to tell that a page is safe: instructions a byte, and megabytes a second.

    safe_page.py [PROGRAM [PAGE..]]

PROGRAM is `crates/markdown_safe`, built by `rt run`. `valgrind` counts instructions on pages of growing size; those of an
empty page are taken off. The second family has all its tags open at once, which a list of open tags pays for. Each PAGE must
be safe. It is timed as the least user time of five runs that check it 20 times, with reading and the check for UTF-8.
"""
import os
import re
import resource
import subprocess
import sys

HERE = os.path.dirname(os.path.abspath(__file__))
PARAGRAPH = '<p>a <em>b</em> &amp; <a href="https://a.b/c" title="d">e</a><br />\nf</p>\n'
FAMILIES = {
    "paragraphs": lambda size: PARAGRAPH * (size // len(PARAGRAPH)),
    "tags in each other": lambda size: "<em>" * (size // 9) + "</em>" * (size // 9),
}


def instructions(program, page):
    """The instructions of a run, which must find the page safe."""
    words = ["valgrind", "--tool=callgrind", "--callgrind-out-file=/dev/null", program]
    run = subprocess.run(words, input=page.encode(), capture_output=True, check=True)
    return int(re.search(rb"Collected : (\d+)", run.stderr).group(1))


def seconds(program, names):
    """The user time of a run on files, which must all be safe pages."""
    before = resource.getrusage(resource.RUSAGE_CHILDREN).ru_utime
    subprocess.run([program, *names], check=True)
    return resource.getrusage(resource.RUSAGE_CHILDREN).ru_utime - before


def main():
    program = sys.argv[1] if len(sys.argv) > 1 else HERE + "/../crates/markdown_safe/out/markdown_safe"
    start = instructions(program, "")
    for name, page_of in FAMILIES.items():
        for size in (100000, 200000, 400000):
            page = page_of(size)
            print("%s, %d bytes: %.1f instructions a byte" % (name, len(page), (instructions(program, page) - start) / len(page)))
    for page in sys.argv[2:]:
        time = min(seconds(program, [page] * 20) for _ in range(5))
        print("%s, %d bytes: %.0f MB/s" % (page, os.path.getsize(page), os.path.getsize(page) * 20 / time / 1e6))


main()
