#!/usr/bin/env python3
"""Runs the inputs of docs/DEPARTURES.md through two programs, and writes what they print beside them.

usage: bin/departures.py [--check] MARKDOWN [CMARK [CMARK_GFM]]     MARKDOWN is the program of this repository

A row is `| INPUT | HERE | CMARK |`; the marks for line endings, tabs, bars and characters that don't show are those of the page.
In a table whose head names `--dangerous` the programs print HTML as it stands; in one whose head names `--gfm` the other
program is cmark-gfm with all of its extensions. With --check nothing is written, and the status is 1 where the page would
change.
"""
import os
import re
import subprocess
import sys

PAGE = os.path.join(os.path.dirname(os.path.realpath(__file__)), "DEPARTURES.md")
MARKS = {"\n": "⏎", "\r": "␍", "\t": "→", "|": "¦"}
HIDDEN = re.compile("[\x00-\x08\x0b\x0c\x0e-\x1f\x7f-\xa0\u2028\ufeff]")


def shown(text):
    """A text as code in a table."""
    for byte, mark in MARKS.items():
        text = text.replace(byte, mark)
    text = HIDDEN.sub(lambda found: f"⟨U+{ord(found[0]):04X}⟩", text)
    if "`" in text or text != text.strip(" "):
        fence = "`" * (1 + max(map(len, re.findall("`+", text)), default=1))
        return f"{fence} {text} {fence}"
    return f"`{text}`" if text else ""


def meant(cell):
    """The text that a cell shows."""
    text = cell.strip()
    fence = re.match("`+", text)
    if not fence:
        return text
    size = len(fence[0])
    text = text[size:-size]
    if text[:1] == text[-1:] == " " and text.strip(" "):
        text = text[1:-1]
    for byte, mark in MARKS.items():
        text = text.replace(mark, byte)
    return re.sub("⟨U\\+([0-9A-F]+)⟩", lambda found: chr(int(found[1], 16)), text)


def printed(words, text):
    """What a program prints, without an ending after the last line."""
    ran = subprocess.run(words, input=text.encode(), stdout=subprocess.PIPE, timeout=60, check=True)
    return ran.stdout.decode(errors="backslashreplace").removesuffix("\n")


def commands(head, markdown, cmark, cmark_gfm):
    """What is run for the rows of a table with this head."""
    here, there = [markdown], [cmark]
    if "--gfm" in head:
        here.append("--gfm")
        there = [cmark_gfm]
        for extension in ["footnotes", "table", "strikethrough", "autolink", "tagfilter", "tasklist"]:
            there += ["-e", extension]
    if "--dangerous" in head:
        here.append("--dangerous")
        there.append("--unsafe")
    return here, there


def run(page, *programs):
    """The page with what the programs print."""
    lines, words = [], commands("", *programs)
    for line in page.split("\n"):
        cells = line.split("|")[1:-1] if line.startswith("|") else []
        if len(cells) == 3 and cells[0].strip().startswith("Input"):
            words = commands(cells[0], *programs)
        elif len(cells) == 3 and not cells[0].startswith("---"):
            text = meant(cells[0])
            here = printed(words[0], text)
            there = printed(words[1], text)
            line = f"| {shown(text)} | {shown(here)} | {'the same' if here == there else shown(there)} |"
        lines.append(line)
    return "\n".join(lines)


def main(words):
    is_check, words = words[:1] == ["--check"], [it for it in words if it != "--check"]
    if len(words) not in (1, 2, 3):
        sys.exit(__doc__)
    with open(PAGE, encoding="utf-8") as file:
        page = file.read()
    text = run(page, *words, *["cmark", "cmark-gfm"][len(words) - 1:])
    if is_check:
        return int(text != page)
    with open(PAGE, "w", encoding="utf-8") as file:
        file.write(text)
    return 0


if __name__ == "__main__":
    sys.exit(main(sys.argv[1:]))
