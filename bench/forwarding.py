#!/usr/bin/env python3
"""Prints where a program loads bytes that it has only just stored, by other pieces than it loads them.

    forwarding.py PROGRAM TEXT [ROWS]

A processor hands a load what a store before it wrote, as long as that store alone wrote all of it. Where bytes come of two
stores, or of one and of memory, the load waits until they are in the cache. That happens where a value goes through memory:
it is written field by field, and copied by wider loads. `valgrind` traces the program on TEXT, which should be short, as
60 KB; so this counts by a model, and times nothing. A row says how often, the load and its function, and the last store of
those bytes.
"""
import bisect
import collections
import os
import re
import subprocess
import sys
import tempfile

# For so many instructions a store is taken to be on its way.
WINDOW = 60


def functions(program):
    """The starts of the functions, and their names."""
    lines = subprocess.run(["nm", "-n", program], capture_output=True, text=True, check=True).stdout.splitlines()
    found = [line.split(" ", 2) for line in lines if re.match(r"[0-9a-f]+ [tT] ", line)]
    return [int(it[0], 16) for it in found], [it[2] for it in found]


def entry(program):
    said = subprocess.run(["readelf", "-h", program], capture_output=True, text=True, check=True).stdout
    return int(re.search(r"Entry point address:\s+0x([0-9a-f]+)", said)[1], 16)


def trace(program, text, path):
    words = ["valgrind", "--tool=lackey", "--trace-mem=yes", "--log-file=" + path, program]
    with open(text, "rb") as read:
        subprocess.run(words, stdin=read, stdout=subprocess.DEVNULL, check=True)


def waits(path):
    """How often each load waited, the last store of its bytes, and how many instructions there were."""
    counts, lasts, stores, latest = collections.Counter(), {}, [], {}
    at = instructions = 0
    with open(path, encoding="ascii", errors="replace") as lines:
        for line in lines:
            kind = line[:2]
            if kind == "I ":
                instructions += 1
                at = int(line[3:line.index(",")], 16)
            elif kind in (" L", " S", " M"):
                start, size = line[3:].split(",")
                place = range(int(start, 16), int(start, 16) + int(size))
                if kind != " S":
                    known = {latest.get(it, -1) for it in place}
                    last = max(known)
                    if len(known) > 1 and instructions - stores[last][0] <= WINDOW:
                        counts[at, len(place)] += 1
                        lasts[at, len(place)] = stores[last]
                if kind != " L":
                    latest.update((it, len(stores)) for it in place)
                    stores.append((instructions, at, len(place)))
    return counts, lasts, instructions


def main():
    program, text = sys.argv[1:3]
    rows = int(sys.argv[3]) if len(sys.argv) > 3 else 20
    starts, names = functions(program)
    first = entry(program)
    with tempfile.TemporaryDirectory() as folder:
        path = folder + "/trace"
        trace(program, text, path)
        counts, lasts, instructions = waits(path)
        with open(path, encoding="ascii", errors="replace") as lines:
            places = (int(it[3:it.index(",")], 16) for it in lines if it.startswith("I "))
            base = next(it - first for it in places if it % 4096 == first % 4096 and it < 1 << 24)

    def named(place):
        index = bisect.bisect_right(starts, place - base) - 1
        return "%s %#x" % (names[index] if index >= 0 else "?", place - base)

    size = os.path.getsize(text)
    print("%d loads wait, in %d instructions: %.3f a byte" % (sum(counts.values()), instructions, sum(counts.values()) / size))
    for (load, width), count in counts.most_common(rows):
        _, store, stored = lasts[load, width]
        print("%d: %d bytes in %s, of %d stored in %s" % (count, width, named(load), stored, named(store)))


main()
