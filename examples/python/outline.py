#!/usr/bin/env python3
"""Prints the table of contents of a Markdown file: a line for each heading, with its slug.

    outline.py LIBRARY FILE
"""
import sys

from markdown_proved import load

with open(sys.argv[2], "rb") as file:
    for it in load(sys.argv[1]).outline(file.read(), gfm=True, frontmatter=True):
        sys.stdout.buffer.write(f"{'  ' * (it.rank - 1)}{' '.join(it.text.splitlines())} (#{it.slug})\n".encode())
