#!/usr/bin/env python3
"""Compares the contracts of public functions with those of an earlier revision: prints what was lost, and what is new.

usage: bin/clauses.py REVISION

A contract is the head of a `pub fn` with its `requires` and `ensures`, word for word, and the type whose `impl` it stands in. Crates
and files don't count, so a function may move. Tests don't count. The exit status is 1 if a contract was lost.
"""
import collections
import os
import re
import subprocess
import sys

TOP = os.path.dirname(os.path.dirname(os.path.realpath(__file__)))
HEAD = re.compile(r"^( *)pub (?:const |unsafe |extern \"C\" )*fn (\w+)")
IMPL = re.compile(r"^(?:unsafe )?(?:impl|pub trait|trait)\b(.*?)\{?$")


def contracts(text):
    """The contracts of a file: the block that each stands in, and its lines."""
    lines, block, at = text.split("\n"), "", 0
    while at < len(lines):
        line = lines[at]
        if line.startswith("}"):
            block = ""
        elif match := IMPL.match(line):
            block = match[1].strip()
        elif match := HEAD.match(line):
            indent, head = match[1], []
            while at < len(lines):
                line = lines[at]
                ends = line in (indent + "{", indent + "{}") or re.search(r"(\{|\{\}|;)$", line) and not re.match(r" *(requires|ensures)\b", line)
                inner = line.startswith(indent + "    ") or line.startswith(indent + ")")
                if ends and not (inner and not re.search(r"\) (-> .*)?(\{|\{\}|;)$", line)):
                    head.append(re.sub(r" *(\{|\{\}|;)$", "", line).strip())
                    break
                head.append(line.strip())
                at += 1
            yield block, "\n".join(it for it in head if it)
        at += 1


def found(files):
    return collections.Counter(it for text in files for it in contracts(text))


def texts_now():
    names = subprocess.run(["git", "ls-files", "crates"], cwd=TOP, capture_output=True, text=True, check=True).stdout.split()
    for name in names:
        if counts(name) and os.path.isfile(os.path.join(TOP, name)):
            with open(os.path.join(TOP, name), encoding="utf-8") as file:
                yield file.read()


def texts_of(revision):
    """The files of a revision, by one `git archive`."""
    import io
    import tarfile

    packed = subprocess.run(["git", "archive", revision, "crates"], cwd=TOP, capture_output=True, check=True).stdout
    with tarfile.open(fileobj=io.BytesIO(packed)) as files:
        for it in files:
            if it.isfile() and counts(it.name):
                yield files.extractfile(it).read().decode("utf-8")


def counts(name):
    return name.endswith(".rt") and not name.startswith("crates/tests_")


def show(what, kept):
    for (block, head), count in sorted(kept.items()):
        print(f"{what}{f' ({count} times)' if count > 1 else ''}: {block}".rstrip(": "))
        print("    " + head.replace("\n", "\n    "))


def main(words):
    if len(words) != 1 or words[0].startswith("-"):
        sys.exit(__doc__)
    then, now = found(texts_of(words[0])), found(texts_now())
    lost, new = then - now, now - then
    show("lost", lost)
    show("new", new)
    print(f"{sum(then.values())} contracts then, {sum(now.values())} now: {sum(lost.values())} lost, {sum(new.values())} new")
    return 1 if lost else 0


if __name__ == "__main__":
    sys.exit(main(sys.argv[1:]))
