#!/usr/bin/env python3
"""Writes the texts that programs are timed on, each of about so many bytes, and prints their names.

    corpus.py FOLDER [BYTES]

`readmes-small`, `-medium` and `-large` are READMEs and other Markdown files of this system's packages (/usr), below 2,000
bytes, below 10,000, and above; `readmes` has all of them. Bytes that are no UTF-8 are left out, and files that leave a
block open, so that what follows them would be code or HTML. The others are made: `plain` of paragraphs alone, `links`,
`emphasis`, `code` and `tables` of what they are named after, in paragraphs of the same words.
"""
import gzip
import os
import random
import subprocess
import sys

from paragraphs import WORDS

SIZES = (("small", 0, 2000), ("medium", 2000, 10000), ("large", 10000, 400000))


def names():
    for folder, _, files in os.walk("/usr"):
        for name in files:
            plain = name[:-3] if name.endswith(".gz") else name
            if plain.lower().endswith(".md") or plain.startswith("README") and "." not in plain[6:]:
                yield folder + "/" + name


def text_of(path):
    with (gzip.open(path) if path.endswith(".gz") else open(path, "rb")) as file:
        return file.read(400001).decode("utf-8", "ignore")


def is_closed(text):
    """Whether a paragraph after a text is one."""
    page = subprocess.run(["cmark"], input=(text + "\n\nEND\n").encode(), stdout=subprocess.PIPE, check=True).stdout
    return page.endswith(b"\n<p>END</p>\n")


def readmes():
    """The texts of the system's files, each once, shuffled."""
    texts = {text_of(path) for path in names() if os.path.isfile(path)}
    found = sorted(text for text in texts if 0 < len(text) <= 400000 and is_closed(text))
    random.Random(1).shuffle(found)
    return found


def words(rng, low, high):
    return " ".join(rng.choice(WORDS) for _ in range(rng.randint(low, high)))


def links(rng):
    kind, text, page = rng.randrange(4), words(rng, 1, 3), "/".join(rng.sample(WORDS, 2))
    return ("[%s](https://example.com/%s)" % (text, page), "[%s](<%s.html> \"%s\")" % (text, page, words(rng, 1, 4)),
            "<https://example.com/%s>" % page, "![%s](%s.png)" % (text, page))[kind]


def emphasis(rng):
    mark = rng.choice(("*", "**", "_", "__", "***"))
    return mark + words(rng, 1, 4) + mark


def code(rng):
    return "`" + words(rng, 1, 3) + "`"


def paragraph(rng, construct):
    """Lines in which every fourth piece is of a construct."""
    pieces = [construct(rng) if i % 4 == 1 else words(rng, 1, 5) for i in range(rng.randint(8, 40))]
    return "\n".join(" ".join(pieces[i : i + 4]) for i in range(0, len(pieces), 4)) + "\n\n"


def code_block(rng):
    lines = "".join("    " * rng.randrange(4) + words(rng, 1, 8) + ";\n" for _ in range(rng.randint(3, 20)))
    return paragraph(rng, code) + "```rust\n" + lines + "```\n\n"


def table(rng):
    row = lambda: "| " + " | ".join(words(rng, 1, 3) for _ in range(4)) + " |\n"
    return row() + "|---|:--|--:|---|\n" + "".join(row() for _ in range(rng.randint(3, 15))) + "\n"


def made(kind, size):
    rng, parts, length = random.Random(1), [], 0
    while length < size:
        parts.append(kind(rng) if kind in (code_block, table) else paragraph(rng, kind))
        length += len(parts[-1])
    return "".join(parts)


def repeated(texts, size):
    """The texts one after another, again and again up to a size. None gives an empty text."""
    whole = "\n\n".join(texts) + "\n\n"
    return whole * max(1, size // max(1, len(whole.encode()))) if texts else ""


def main():
    folder, size = sys.argv[1], int(sys.argv[2]) if len(sys.argv) > 2 else 10_000_000
    found = readmes()
    corpora = {"readmes-" + name: repeated([t for t in found if low <= len(t) < high], size) for name, low, high in SIZES}
    corpora["readmes"] = repeated(found, size)
    corpora["plain"] = made(lambda rng: words(rng, 1, 5), size)
    corpora.update(links=made(links, size), emphasis=made(emphasis, size), code=made(code_block, size))
    corpora["tables"] = made(table, size)
    os.makedirs(folder, exist_ok=True)
    for name, text in corpora.items():
        with open("%s/%s.md" % (folder, name), "w", newline="") as out:
            out.write(text)
        print("%s: %d bytes" % (name, len(text.encode())))


if __name__ == "__main__":
    main()
