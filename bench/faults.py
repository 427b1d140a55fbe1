#!/usr/bin/env python3
"""Prints what programs do on a full disk, out of memory, and on text that isn't UTF-8: a row for each program that is there.

    bench/faults.py [PROGRAM]

PROGRAM is the one built here. The others are taken from the PATH. $DISCOUNT names the program of discount, if it isn't `markdown`.
Status 0 means that a program reports no fault. `(cut)` means that it printed a part of the page, or reported no fault.

- Full disk: standard output is /dev/full, for texts of one line and of 4,000 and 20,000 lines.
- Out of memory: the second text at eight limits of memory (RLIMIT_DATA) between what an empty text needs and what this one needs.
- Not UTF-8: `a`, a byte FF, `b`.
"""
import os
import re
import resource
import signal
import subprocess
import sys

HERE = os.path.dirname(os.path.realpath(__file__))
LINE = b"- a *b* & c [d](e) `f` <https://g.h>\n"
TEXT = LINE * 4000
LIMITS = 8
STEP = 1 << 16

PEERS = [
    ("cmark", ["cmark"]),
    ("cmark-gfm", ["cmark-gfm"]),
    ("pulldown-cmark", ["pulldown-cmark"]),
    ("pandoc", ["pandoc", "-f", "commonmark", "-t", "html"]),
    ("discount", [os.environ.get("DISCOUNT", "markdown")]),
    ("python3-markdown", ["markdown_py"]),
]


def run(command, text, limit=None, out=subprocess.PIPE):
    """The status, the output and the error message of a command: its first line, or the last of a traceback."""
    def confine():
        resource.setrlimit(resource.RLIMIT_CORE, (0, 0))
        if limit is not None:
            resource.setrlimit(resource.RLIMIT_DATA, (limit, limit))
    try:
        done = subprocess.run(command, input=text, stdout=out, stderr=subprocess.PIPE, preexec_fn=confine, timeout=120)
    except subprocess.TimeoutExpired:
        return "hangs", b"", ""
    lines = done.stderr.decode("utf-8", "replace").strip().splitlines()
    message = lines[-1 if lines[0].startswith("Traceback") else 0] if lines else ""
    return done.returncode, done.stdout or b"", message


def shown(status, message):
    """A status in words, with the message."""
    if isinstance(status, int) and status < 0:
        status = signal.Signals(-status).name
    elif isinstance(status, int):
        status = f"status {status}"
    return status + (f", `{message[:60]}`" if message else "")


def on_full_disk(command):
    found = []
    for text in (LINE, TEXT, TEXT * 5):
        with open("/dev/full", "wb") as full:
            status, _, message = run(command, text, out=full)
        found.append(shown(status, message))
    return found[0] if len(set(found)) == 1 else "; then ".join(found)


def least_limit(command, text, page):
    """The least limit at which a command prints this page, up to STEP."""
    low, high = 0, 1 << 24
    while run(command, text, high)[:2] != (0, page):
        low, high = high, 2 * high
        if high > 1 << 36:
            return None
    while high - low > STEP:
        middle = (low + high) // 2
        if run(command, text, middle)[:2] == (0, page):
            high = middle
        else:
            low = middle
    return high


def out_of_memory(command):
    page = run(command, TEXT)[1]
    low, high = least_limit(command, b"", run(command, b"")[1]), least_limit(command, TEXT, page)
    if low is None or high is None:
        return "not found out"
    found = []
    for k in range(LIMITS):
        status, output, message = run(command, TEXT, low + (high - STEP - low) * k // LIMITS)
        if (status, output) != (0, page):
            found.append(shown(status, re.sub(r"\d+", "N", message)) + (" (cut)" if output or status == 0 else ""))
    return "; ".join(f"{found.count(how)} × {how}" for how in sorted(set(found), key=found.count, reverse=True))


def not_utf8(command):
    status, output, message = run(command, b"a\xffb\n")
    return shown(status, message) + (", prints " + str(output)[2:-1] if output else "")


def main(words):
    here = words[0] if words else HERE + "/../crates/markdown_program/out/markdown_program"
    print("| Program | Full disk | Out of memory | Not UTF-8 |")
    print("|---|---|---|---|")
    for name, command in [("this program", [here])] + PEERS:
        try:
            is_there = name != "discount" or b"discount" in run(command + ["--version"], b"")[1]
            run(command, b"")
        except OSError:
            is_there = False
        if not is_there:
            print(f"faults.py: there is no {name}", file=sys.stderr)
            continue
        print(f"| {name} | {on_full_disk(command)} | {out_of_memory(command)} | {not_utf8(command)} |", flush=True)


main(sys.argv[1:])
