#!/usr/bin/env python3
"""Prints how many events a second one of the two ways from a text to its events has, and its time.

    engine.py [machines|parse] [BYTES] [plain|dense] [PROGRAM]

PROGRAM is `crates/tests_roads`, built by `rt run`. A plain text has paragraphs of words, a dense one a construct in
every seven bytes. The best of 20 rounds counts; reading the text is part of the time.
"""
import os
import subprocess
import sys
import tempfile
import time

HERE = os.path.dirname(os.path.abspath(__file__))
ROUNDS = 20
DENSE = b"a [b](c 'd') *e* **f** `g` &amp; \\! <h:i> <j k='l'> ![m](n) [o] ~p~\n" * 4 + b"\n"


def seconds(program, count, path):
    """The time of a run, and how many events it printed."""
    with open(path, "rb") as text:
        start = time.perf_counter()
        out = subprocess.run([program, count], stdin=text, stdout=subprocess.PIPE, check=True).stdout
        return time.perf_counter() - start, int(out)


def write(path, size, kind):
    """Writes a text of about so many bytes."""
    with open(path, "wb") as out:
        if kind == "dense":
            out.write(DENSE * (int(size) // len(DENSE)))
        else:
            subprocess.run([sys.executable, HERE + "/paragraphs.py", size], stdout=out, check=True)


def main():
    count = sys.argv[1] if len(sys.argv) > 1 else "machines"
    size = sys.argv[2] if len(sys.argv) > 2 else "10000000"
    kind = sys.argv[3] if len(sys.argv) > 3 else "plain"
    program = sys.argv[4] if len(sys.argv) > 4 else HERE + "/../crates/tests_roads/out/tests_roads"
    with tempfile.TemporaryDirectory() as folder:
        path = folder + "/text"
        write(path, size, kind)
        best, counted = min(seconds(program, count, path) for _ in range(ROUNDS))
    print("%d events by %s in %.1f ms: %.0f million a second" % (counted, count, best * 1000, counted / best / 1e6))


main()
