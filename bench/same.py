#!/usr/bin/env python3
"""Formats and mends copies of Markdown texts, and prints how many readers would see a change.

usage: bench/same.py FOLDER < NAMES
       bench/same.py FOLDER --random COUNT

FOLDER has the programs markdown, markdown-fmt and markdown-lint. NAMES has the name of a file in each line. Equal files count once, and files that
aren't UTF-8 don't count. For each program and its flags it prints the number of texts that change, that a second run changes, whose pages differ by
the same flags, by all and by none, whose frontmatter differs, and whose footnotes do. Tables are laid out with --gfm, so the page by no flags may differ
then, and isn't compared. Footnotes are compared on the page by all flags, after a call of each label is put behind the frontmatter.

--random tries texts of random lines with footnotes, fences, lists, math and tables in place of files. Pages aren't made then.
"""
import random
import re
import subprocess
import sys
import tempfile
from pathlib import Path

WRITERS = [("markdown-fmt", []), ("markdown-fmt", ["--gfm"]), ("markdown-fmt", ["--all"])]
WRITERS += [("markdown-lint", ["--fix"]), ("markdown-lint", ["--gfm", "--fix"]), ("markdown-lint", ["--all", "--fix"])]
ALL = ["--gfm", "--frontmatter", "--math", "--mark"]
FRONTMATTER = re.compile(rb"(?:\xef\xbb\xbf)?(---|\+\+\+)[ \t]*(?:\r\n?|\n)(?:.*(?:\r\n?|\n))*?\1[ \t]*(?:\r\n?|\n|\Z)")
FOOTNOTE = re.compile(rb"^[ >\t]*(?:[-+*] |\d+[.)] )*\[\^([^\]\s]+)\]:", re.M)
# How many files a program is given at once.
MOST = 2000
# What random lines are made of.
STARTS = ["", "", "", "> ", "- ", "* ", "+ ", "1. ", "    ", "  ", "[^a]: ", "[^b]: ", "    [^c]: ", "> [^d]: "]
LINES = ["a", "_b_", "**c**", "*foo __bar *baz bim__ bam*", "```", "~~~", "~~~ rust x", "***", "---", "===", "# d", "##  e ##", "[^a]", "z[^b]", "$$", "$x_1$",
         "|a|b|", "|-|-|", "a|b", "-|-", "1|2|_3_", "[x]:y", "[x]: y 'z'", "~~_a~~ b_", "==_a== b_", "https://a.b/_c_/d", "<p>", "...", "+++", "", "", "e  ", "f\\"]


def texts_of(names):
    """The texts of files, each once."""
    found = {}
    for name in names:
        try:
            text = Path(name).read_bytes()
            text.decode()
        except (OSError, UnicodeDecodeError):
            continue
        found.setdefault(text)
    return list(found)


def random_texts(count):
    """Texts of random lines."""
    make = random.Random(count)
    found = {}
    while len(found) < count:
        lines = ["".join(make.choice(STARTS) for _ in range(make.choice((1, 1, 2)))) + make.choice(LINES) for _ in range(make.randint(1, 8))]
        found.setdefault(("\n".join(lines) + "\n").encode())
    return list(found)


def changed(program, words, texts, folder):
    """What a program makes of texts, each a file that it changes in place."""
    after = []
    for start in range(0, len(texts), MOST):
        files = [folder / f"{number}.md" for number in range(len(texts[start:start + MOST]))]
        for file, text in zip(files, texts[start:]):
            file.write_bytes(text)
        done = subprocess.run([program, *words, *(it.name for it in files)], cwd=folder, capture_output=True, check=False)
        if done.returncode > 1 or done.stderr:
            sys.exit(f"{program}: {done.stderr[:300]}")
        after += [file.read_bytes() for file in files]
    return after


def page(program, words, text):
    """The page of a text, with raw HTML and all URLs."""
    return subprocess.run([program, "--dangerous", *words], input=text, capture_output=True, check=True).stdout


def front(text):
    """The frontmatter of a text."""
    match = FRONTMATTER.match(text)
    return match[0] if match else b""


def with_calls(text, labels):
    """A text with calls of footnotes after its frontmatter."""
    size = len(front(text))
    return text[:size] + b"".join(b"[^" + label + b"]" for label in labels) + b"\n\n" + text[size:]


def differ(program, words, pairs):
    """How many pairs of texts have other pages."""
    return sum(page(program, words, one) != page(program, words, other) for one, other in pairs)


def figures(programs, writer, words, texts, folder, with_pages):
    """What a program does to texts, by name."""
    once = changed(programs / writer, words, texts, folder)
    twice = changed(programs / writer, words, once, folder)
    pairs = [(one, other) for one, other in zip(texts, once) if one != other]
    found = {"changed": len(pairs), "changed twice": sum(one != other for one, other in zip(once, twice))}
    found["frontmatter"] = sum(front(one) != front(other) for one, other in pairs)
    if with_pages:
        reader = programs / "markdown"
        flags = ALL if "--all" in words else [it for it in words if it != "--fix"]
        noted = [(with_calls(one, labels), with_calls(other, labels)) for one, other in pairs if (labels := FOOTNOTE.findall(one))]
        found["page by the flags"] = differ(reader, flags, pairs)
        found["page by all"] = differ(reader, ALL, pairs)
        found["texts with footnotes"] = len(noted)
        found["footnotes"] = differ(reader, ALL, noted)
        if not flags:
            found["page by none"] = differ(reader, [], pairs)
    return found


def main():
    if len(sys.argv) not in (2, 4):
        sys.exit(__doc__)
    programs = Path(sys.argv[1]).resolve()
    texts = random_texts(int(sys.argv[3])) if len(sys.argv) == 4 else texts_of(sys.stdin.read().split("\n"))
    print(f"{len(texts)} texts")
    with tempfile.TemporaryDirectory() as folder:
        for writer, words in WRITERS:
            found = figures(programs, writer, words, texts, Path(folder), len(sys.argv) == 2)
            print(writer, *words, *(f"· {name}: {number}" for name, number in found.items()), flush=True)


if __name__ == "__main__":
    main()
