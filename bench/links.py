#!/usr/bin/env python3
"""Compares where the links of Markdown files lead with the URLs of their pages.

    PYTHONPATH=packaging/python bench/links.py LIBRARY FILE..

LIBRARY is libmarkdown-proved.so. Pages are made by GFM without footnotes, which have URLs of their own, and with every protocol. A
link in the description of an image isn't in the page, so it is left out. Prints each file that differs, and the sums.
"""
import html
import re
import sys

from markdown_proved import load

KEPT = re.compile(rb"[!#$&-;=?-Z_a-z~]|%[0-9A-Za-z]{2}")
OPTIONS = {"gfm": True, "footnotes": False}


def encoded(destination):
    """A destination as a page prints it, before it is escaped."""
    data, at, out = destination.encode(), 0, []
    while at < len(data):
        found = KEPT.match(data, at)
        out.append(found[0].decode() if found else "%%%02X" % data[at])
        at = found.end() if found else at + 1
    return "".join(out)


def printed(links):
    """The links that a page has an element for."""
    end = 0
    for link in links:
        if link.kind != "definition" and link.offset >= end:
            yield link
            if link.kind == "image":
                end = link.end_offset


def main(library, paths):
    library, files, links, differing = load(library), 0, 0, 0
    for path in paths:
        with open(path, "rb") as file:
            text = file.read().decode("utf-8", "ignore")
        page = library.to_html(text, dangerous_protocol=True, **OPTIONS)
        wanted = [html.unescape(url) for url in re.findall(r' (?:href|src)="([^"]*)"', page)]
        found = [encoded(link.destination) for link in printed(library.links(text, **OPTIONS))]
        files, links = files + 1, links + len(found)
        if found != wanted:
            differing += 1
            print(path, next(((a, b) for a, b in zip(found, wanted) if a != b), (len(found), len(wanted))))
    print(f"{files} files, {links} links, {differing} files differ")
    return differing != 0


if __name__ == "__main__":
    sys.exit(main(sys.argv[1], sys.argv[2:]))
