#!/usr/bin/env python3
"""Checks the layers of crates.txt, and prints what breaks them.

usage: bin/layers.py --check

The first word of a crate's name is its layer. A crate may depend on crates of its own layer and of those below, in the order of LAYERS.
Each crate that it lists must be named by its sources, and stand above it in crates.txt.
"""
import os
import re
import subprocess
import sys

TOP = os.path.dirname(os.path.dirname(os.path.realpath(__file__)))
# From the bottom up; in a line, layers that may depend on one another. A name that ends in `_` is a prefix.
LAYERS = (
    "markdown_options",
    "markdown_compile_options",
    "definition_",
    "markdown_definition",
    "text_",
    "inline_",
    "block_",
    "html_",
    "laws_",
    "markdown_tables markdown_settings markdown_devices",
    "markdown",
    "markdown_program",
    "engine_ markdown_engine",
    "state_",
    "markdown_inline markdown_states",
    "event_",
    "compile_ parse_",
    "markdown_html markdown_block markdown_links markdown_outline",
    "markdown_input lint_ format_",
    "markdown_format format_settings",
    "markdown_events markdown_lint markdown_fmt markdown_safe markdown_c_options markdown_buffers",
    "markdown_c",
    "tests_ wrong_",
    "examples_",
)


def layer_of(crate):
    """The number of the line of LAYERS that names the crate, or whose prefix it has."""
    for whole in (True, False):
        for number, line in enumerate(LAYERS):
            if any(crate == it if whole else it.endswith("_") and crate.startswith(it) for it in line.split()):
                return number
    return None


def crates():
    """The crates of crates.txt, in order, and what each depends on."""
    with open(os.path.join(TOP, "crates.txt"), encoding="utf-8") as file:
        for line in file:
            if match := re.match(r"(\w+)[^:#\n]*:(.*)", line):
                yield match[1], match[2].split()


def sources(crate):
    names = subprocess.run(["git", "ls-files", f"crates/{crate}"], cwd=TOP, capture_output=True, text=True, check=True).stdout.split()
    for name in names:
        if name.endswith((".rt", ".antt")) and os.path.isfile(os.path.join(TOP, name)):
            with open(os.path.join(TOP, name), encoding="utf-8") as file:
                yield file.read()


def faults():
    every, seen = dict(crates()), set()
    for crate, uses in every.items():
        layer, words = layer_of(crate), set()
        for text in sources(crate):
            words.update(re.findall(r"\w+", text))
        if layer is None:
            yield f"{crate} has no layer"
        for it in uses:
            if it not in words:
                yield f"{crate} lists {it}, which its sources don't name"
            if it in every and it not in seen:
                yield f"{crate} stands before {it}"
            if it in every and layer is not None and (layer_of(it) or 0) > layer:
                yield f"{crate} depends on {it}, which is of a higher layer"
        if uses != sorted(set(uses), key=uses.index):
            yield f"{crate} lists a crate twice"
        seen.add(crate)


def main(words):
    if words != ["--check"]:
        sys.exit(__doc__)
    found = list(faults())
    print("\n".join(found) or f"{len(dict(crates()))} crates keep their layers")
    return 1 if found else 0


if __name__ == "__main__":
    sys.exit(main(sys.argv[1:]))
