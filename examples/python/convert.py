#!/usr/bin/env python3
"""Reads Markdown from standard input, and writes its HTML to standard output.

    convert.py LIBRARY [--gfm] [--dangerous] [--plain] [--math] [--frontmatter] [--strikethrough] [--task-list-items]
        [--tables] [--autolink-literals] [--footnotes] [--tagfilter] [--mark]
"""
import sys

from markdown_proved import load

options = {word.lstrip("-").replace("-", "_"): True for word in sys.argv[2:]}
sys.stdout.buffer.write(load(sys.argv[1]).to_html(sys.stdin.buffer.read(), **options))
