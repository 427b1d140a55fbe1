#!/usr/bin/env python3
"""Prints what a construct costs in this repository: how many files name it, by group, and how large specifications and proofs are.

usage: bin/house.py            the figures, one a line

Files are those of git that end in `.rt` or `.antt`, in `crates/`. Counts by group use the first word of the crate's name.

  files that name strikethrough  the word in any case, in code, specifications, proofs or comments
  files that name Math           the leaf `Math`, or the word in a comment; not imports of std's module `proofs.Math`
  .. without tests, ..           the same, without tests, examples, benchmarks and the machines
  by cases over leaves           specifications and proofs (without tests, examples, machines and events) in which clauses of one function take
                                 two thirds of the constructors of InlineLeaf or more
  by cases over spans            those in which clauses of one function take two or more of SpanKind's
  by cases over the four kinds   those in which clauses of one function take Leaf, Span, Linked and Call
  by cases over blocks           those in which clauses of one function take two thirds of the constructors of LeafBlock or of PageLeaf or more
  by cases over the five kinds   those in which clauses of one function take four or more of Leaf, Holds, a list, Ending and Blank
  names with two types           names that specifications of definition_page and of html_bytes both have, with different types
  lines                          of all files in `src`, `specs` and `proofs`

Before the trees had kinds of parts, `Inline` and `Block` had these leaves and spans as constructors of their own: the counts by cases are the same there.
"""
import collections
import re
import subprocess
import sys
from pathlib import Path

TOP = Path(__file__).resolve().parent.parent
# Groups whose files count apart: tests and examples, and the machines of the road by states.
TESTS = ("tests_", "examples_")
MACHINES = ("engine_", "state_", "markdown_engine")
# The constructors of the definition's trees, by which files go by cases: what they are of, their names, and how many of them one function has to take.
LEAF = "Data Escape Character Code Math Autolink Literal Html EscapedBreak TrailingBreak LineEnd TaskCheck".split()
SPAN = "Emphasis Strong Strikethrough Mark".split()
PART = "Leaf Span Linked Call".split()
BLOCK = "Paragraph Heading Break IndentedCode FencedCode Html Table Definition".split()
CHILD = "Leaf Holds Items ItemList Ending Blank".split()
CASES = (("leaves", LEAF, 8), ("spans", SPAN, 2), ("the four kinds of inline parts", PART, 4), ("blocks", BLOCK, 6), ("the five kinds of blocks", CHILD, 4))
# Groups in which no case counts: their names, such as those of events, are others.
APART = ("tests and examples", "machines", "event", "parse", "compile")
# The leaf, not std's module.
MATH = re.compile(r"(?<!proofs\.)\bMath\b")


def tracked(*endings):
    names = subprocess.run(["git", "ls-files", "crates"], cwd=TOP, capture_output=True, text=True, check=True).stdout.split()
    return [it for it in names if it.endswith(endings) and (TOP / it).is_file()]


def group_of(file):
    crate = file.split("/")[1]
    if crate.startswith(TESTS):
        return "tests and examples"
    if crate.startswith(MACHINES):
        return "machines"
    return crate.split("_")[0]


def by_group(files):
    counts = collections.Counter(map(group_of, files))
    return f"{len(files)} ({', '.join(f'{name} {count}' for name, count in sorted(counts.items()))})"


def main():
    files = tracked(".rt", ".antt")
    text = {it: (TOP / it).read_text(encoding="utf-8") for it in files}
    print("files that name strikethrough:", by_group([it for it in files if "strikethrough" in text[it].lower()]))
    named = [it for it in files if MATH.search(text[it])]
    print("files that name Math:", by_group(named))
    inner = [it for it in named if group_of(it) not in ("tests and examples", "machines")]
    print("files that name Math, without tests, examples and machines:", len(inner))
    for what, names, least in CASES:
        rows = []
        for it in files:
            if not it.endswith(".antt") or group_of(it) in APART:
                continue
            heads = re.findall(r"^\s*([\w-]+)(?: [^\n=]*?)? \(?(?:\w+\.)?(" + "|".join(names) + r")\b[^\n]*=", text[it], re.M)
            cases = collections.defaultdict(set)
            for function, name in heads:
                cases[function].add(name)
            if any(len(found) >= least for found in cases.values()):
                rows.append(it)
        print(f"files by cases over {what}:", by_group(rows))
    names = collections.defaultdict(dict)
    for it in files:
        if "/specs/" in it:
            for name, said in re.findall(r"^\s*(?:abbrev )?pub (?:abbrev )?([\w-]+) : ([^\n]*)$", text[it], re.M):
                names[name].setdefault(it.split("/")[1], set()).add(said)
    twice = [name for name, where in names.items() if {"definition_page", "html_bytes"} <= set(where) and where["definition_page"] != where["html_bytes"]]
    print("names in definition_page and html_bytes with two types:", len(twice))
    for part in ("src", "specs", "proofs"):
        print(f"lines of {part}:", sum(text[it].count("\n") for it in files if f"/{part}/" in it))
    return 0


if __name__ == "__main__":
    sys.exit(main())
