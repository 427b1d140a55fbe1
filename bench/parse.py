#!/usr/bin/env python3
"""Compares `parse` with the page that `to_html` makes, and with pulldown-cmark's events and their places.

    bench/parse.py LIBRARY PEERS FILE..

LIBRARY is the folder of the C library, as `./install.sh --library` makes it. PEERS is a folder that `bench/peers.sh` filled. All
read CommonMark from memory and drop what they find: an array of events with their places, or a page. Prints instructions a byte,
by callgrind, of each file and of all; then how many MB a second each reads of all files in one text, the least time of seven.
"""
import os
import re
import subprocess
import sys
import tempfile
import time

TOP = os.path.dirname(os.path.dirname(os.path.realpath(__file__)))


def built(library, folder):
    program = os.path.join(folder, "parse")
    archives = [os.path.join(at, name) for at, _, names in os.walk(library) for name in names if re.fullmatch(r"libmarkdown.*\.a", name)]
    source = os.path.join(TOP, "bench", "parse.c")
    subprocess.run(["cc", "-O2", "-I", os.path.join(TOP, "include"), "-o", program, source, archives[0]], check=True)
    return program


def instructions(command, data):
    """The instructions of one reading: those of eleven less those of one, by ten."""
    def counted(times):
        words = ["valgrind", "--tool=callgrind", "--callgrind-out-file=/dev/null", *command, str(times)]
        run = subprocess.run(words, input=data, capture_output=True, check=True)
        return int(re.search(rb"Collected : (\d+)", run.stderr).group(1))
    return (counted(11) - counted(1)) / 10


def seconds(command, data, times):
    """The processor time of one reading, without that of the start."""
    def took(times):
        start = os.times()
        subprocess.run([*command, str(times)], input=data, stdout=subprocess.DEVNULL, check=True)
        end = os.times()
        return end.children_user + end.children_system - start.children_user - start.children_system
    return (took(times + 1) - took(1)) / times


def main(library, peers, paths):
    with tempfile.TemporaryDirectory() as folder:
        parse = built(library, folder)
        ways = {"parse": [parse, "events"], "to_html": [parse, "page"], "pulldown-cmark": [os.path.join(peers, "offsets")]}
        sums, size, whole, ratios = dict.fromkeys(ways, 0), 0, b"", []
        for path in paths:
            with open(path, "rb") as file:
                data = file.read()
            counts = {way: instructions(command, data) for way, command in ways.items()}
            size += len(data)
            whole += data + b"\n\n"
            ratios.append(counts["parse"] / counts["to_html"])
            for way in ways:
                sums[way] += counts[way]
            print("%s: %d bytes; %s" % (path, len(data), ", ".join("%s %.0f" % (way, counts[way] / max(1, len(data))) for way in ways)), flush=True)
        events = int(subprocess.run([parse, "count", "1"], input=whole, capture_output=True, check=True).stdout)
        print("all: %d bytes, some %d events; instructions a byte: %s" % (size, events, ", ".join("%s %.1f" % (way, sums[way] / size) for way in ways)))
        print("parse takes %.2f times the instructions of to_html, at least %.2f, at most %.2f; %.0f an event" % (
            sums["parse"] / sums["to_html"], min(ratios), max(ratios), sums["parse"] / events))
        times = max(1, 20_000_000 // len(whole))
        best = dict.fromkeys(ways, float("inf"))
        for _ in range(7):
            for way, command in ways.items():
                best[way] = min(best[way], seconds(command, whole, times))
        print("MB a second: %s" % ", ".join("%s %.0f" % (way, len(whole) / best[way] / 1e6) for way in ways))


if __name__ == "__main__":
    if len(sys.argv) < 4:
        sys.exit(__doc__)
    main(sys.argv[1], sys.argv[2], sys.argv[3:])
