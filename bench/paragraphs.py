#!/usr/bin/env python3
"""Writes plain paragraphs of about so many bytes: lines of 60 to 90 bytes, 3 to 9 lines a paragraph.

    paragraphs.py BYTES > FILE
"""
import random
import sys

WORDS = """markdown text line column paragraph block quote list item code fence heading break link image title label
reference definition emphasis strong character escape entity table row cell footnote option construct container leaf
document tree content ending space tab byte the of and to in a is that for it as with on by this be are from or an""".split()


def line(rng):
    out, size = [], rng.randint(60, 90)
    while sum(map(len, out)) + len(out) < size:
        out.append(rng.choice(WORDS))
    text = " ".join(out)
    return text.replace(" and ", " & ", 1) if rng.random() < 0.05 else text


def main():
    rng, left = random.Random(1), int(sys.argv[1])
    while left > 0:
        paragraph = "\n".join(line(rng) for _ in range(rng.randint(3, 9))) + "\n\n"
        sys.stdout.write(paragraph)
        left -= len(paragraph)


if __name__ == "__main__":
    main()
