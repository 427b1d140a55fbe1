#!/usr/bin/env python3
"""Reads a Markdown file, and writes a table of contents: a list of the headings, each with a link to its line.

    contents.py LIBRARY FILE
"""
import re
import sys

from markdown_proved import FRONTMATTER, GFM, load

HEADINGS = {"HeadingAtx", "HeadingSetext"}
TARGETS = {"Resource", "Reference"}
TITLES = {"HeadingAtxText", "HeadingSetextText"}
TEXT = {"Data", "CodeTextData", "LineEnding", "CharacterEscapeValue"}


def escape(text):
    """Text as Markdown: with a backslash before punctuation, and a space for each line ending."""
    return re.sub(r"([!-/:-@\[-`{-~])", r"\\\1", re.sub(r"\r\n|\r|\n", " ", text))


def headings(library, text):
    """The rank, line and title of each heading of a text; the title is Markdown."""
    targets = start = rank = is_title = 0
    for event in library.events(text, GFM | FRONTMATTER):
        if event.name in TARGETS:
            targets += 1 if event.enters else -1
        if event.name in TITLES:
            is_title = event.enters
        if event.enters:
            start = event.offset
            if event.name in HEADINGS:
                rank, line, title = 0, event.line, ""
        elif event.name in HEADINGS:
            yield rank, line, title
        elif event.name == "HeadingAtxSequence":
            rank = rank or event.offset - start  # the second is a closing sequence
        elif event.name == "HeadingSetextUnderlineSequence":
            rank = 1 if text[start:start + 1] == b"=" else 2
        elif is_title and targets == 0:
            part = text[start:event.offset].decode()
            if event.name in TEXT:
                title += escape(part)
            elif event.name.startswith("CharacterReference") and event.name != "CharacterReference":
                title += part


library, path = sys.argv[1:]
with open(path, "rb") as file:
    for rank, line, title in headings(load(library), file.read()):
        sys.stdout.buffer.write(f"{'  ' * (rank - 1)}- [{title}]({path}#L{line})\n".encode())
