#!/usr/bin/env python3
"""Prints the links of Markdown files that lead to no file.

    links.py LIBRARY FILE..
"""
import os
import re
import sys
from urllib.parse import unquote

from markdown_proved import load

library = load(sys.argv[1])
for page in sys.argv[2:]:
    with open(page, "rb") as file:
        found = library.links(file.read(), gfm=True, frontmatter=True)
    for link in found:
        path = unquote(re.split("[?#]", link.destination)[0])
        # (A reference leads where its definition does, which is checked itself.)
        if link.definition is None and path and ":" not in path and not os.path.exists(os.path.join(os.path.dirname(page), path)):
            print(f"{page}:{link.line}:{link.column}: no file {path}")
