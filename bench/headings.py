#!/usr/bin/env python3
"""Times how long headings with equal texts take to get ids that differ: by `outline` and on the page of the library for C, beside
programs on the PATH.

    headings.py [LIBRARY] [--most N] [--limit SECONDS]

Texts are n times `# a` with an empty line after it, for n = 1,000 and its doubles up to N (16,000). Of a program it prints the least
processor time of three runs, less that of one heading, which is its start; of LIBRARY that of the call. A program that takes more
than the limit (60 seconds) gets no larger text. Programs of Debian are those of python3-markdown, python3-markdown2,
python3-mdit-py-plugins, kramdown, node-marked, lowdown, hugo (which has goldmark) and pandoc. One is left out if three headings
don't get three ids.
"""
import argparse
import os
import re
import resource
import shutil
import subprocess
import sys
import tempfile
import time
from pathlib import Path

sys.path.insert(0, str(Path(__file__).resolve().parent.parent / "tests" / "python"))
from library import OK, Library  # noqa: E402
from options import OPTIONS  # noqa: E402

LEAST, ROUNDS = 1000, 3
MARKDOWN_IT = """
import sys
from markdown_it import MarkdownIt
from mdit_py_plugins.anchors import anchors_plugin
sys.stdout.write(MarkdownIt().use(anchors_plugin, max_level=6).render(open(sys.argv[1]).read()))
"""
# What each program is called with, before the path of the text.
PROGRAMS = {
    "Python-Markdown, `toc`": ["markdown_py", "-x", "toc"],
    "markdown2, `header-ids`": ["markdown2", "-x", "header-ids"],
    "markdown-it-py, `anchors_plugin`": ["/usr/bin/python3", "-c", MARKDOWN_IT],
    "kramdown": ["kramdown"],
    "marked": ["marked", "-i"],
    "lowdown": ["lowdown", "-Thtml"],
    "pandoc": ["pandoc", "-f", "gfm", "-t", "html"],
    "hugo": ["hugo"],
}


def bound(limit):
    """Gives a process so many seconds of processor time."""
    return lambda: resource.setrlimit(resource.RLIMIT_CPU, (limit, limit))


def text_of(count):
    return "# a\n\n" * count


class Folder:
    """A folder with a text, which is a site of hugo, too."""

    def __init__(self, path):
        self.path = Path(path)
        for name in ("content", "layouts"):
            (self.path / name).mkdir()
        (self.path / "layouts" / "index.html").write_text("{{ .Content }}", encoding="utf-8")
        (self.path / "config.toml").write_text('disableKinds = ["taxonomy", "term", "RSS", "sitemap", "robotsTXT", "404"]\n', encoding="utf-8")

    def words(self, program):
        if program == "hugo":
            return ["hugo", "--source", str(self.path), "--destination", str(self.path / "page")]
        return [*PROGRAMS[program], str(self.path / "content" / "_index.md")]

    def run(self, program, count, limit):
        """The page of so many headings and the processor time, or None if it takes longer than the limit."""
        (self.path / "content" / "_index.md").write_text(text_of(count), encoding="utf-8")
        with open(self.path / "out", "wb") as out:
            child = subprocess.Popen(self.words(program), stdin=subprocess.DEVNULL, stdout=out, stderr=subprocess.DEVNULL, preexec_fn=bound(limit))
        _, status, used = os.wait4(child.pid, 0)
        child.returncode = status
        taken = used.ru_utime + used.ru_stime
        if taken >= limit:
            return None
        file = self.path / ("page/index.html" if program == "hugo" else "out")
        return file.read_text(encoding="utf-8") if status == 0 else "", taken

    def seconds(self, program, count, limit):
        found = []
        for _ in range(ROUNDS):
            one = self.run(program, count, limit)
            if one is None:
                return None
            found.append(one[1])
        return min(found)


def seconds_of_library(library, count):
    """The processor time of a call, with room for its headings."""
    data, options, found = text_of(count).encode(), OPTIONS["CommonMark"], []
    for _ in range(ROUNDS):
        start = time.process_time()
        status, listed, *_ = library.outline_in(data, options, count, 10 * count)
        found.append(time.process_time() - start)
        if status != OK or listed != count:
            sys.exit(f"markdown_list_outline_with: status {status}, {listed} headings")
    return min(found)


def seconds_of_page(library, count):
    """The processor time of a conversion with ids of headings."""
    text, options, found = text_of(count), OPTIONS["HeadingIds"], []
    library.page(text, options)  # The buffer has room now.
    for _ in range(ROUNDS):
        start = time.process_time()
        page = library.page(text, options)
        found.append(time.process_time() - start)
    if page.count('<h1 id="') != count:
        sys.exit("a heading has no id")
    return min(found)


def row(name, cells):
    print("| " + " | ".join([name, *cells]) + " |", flush=True)


def cell(seconds):
    return "–" if seconds is None else f"{1000 * seconds:.1f}" if seconds < 0.1 else f"{1000 * seconds:,.0f}"


def main():
    words = argparse.ArgumentParser(usage=__doc__)
    words.add_argument("library", nargs="?", type=Path)
    words.add_argument("--most", type=int, default=16 * LEAST)
    words.add_argument("--limit", type=int, default=60)
    given = words.parse_args()
    counts = [LEAST]
    while 2 * counts[-1] <= given.most:
        counts.append(2 * counts[-1])
    row("Milliseconds for n equal headings", ["start", *(f"{count:,}" for count in counts)])
    row("---", ["---:"] * (len(counts) + 1))
    if given.library:
        library = Library(given.library.resolve())
        if hasattr(library, "outline_in"):
            row("this library, `outline`", ["", *(cell(seconds_of_library(library, count)) for count in counts)])
            row("this library, a page with ids", ["", *(cell(seconds_of_page(library, count)) for count in counts)])
        else:
            print("tests/python/library.py calls no outline", file=sys.stderr)
    for program, called in PROGRAMS.items():
        with tempfile.TemporaryDirectory() as path:
            folder = Folder(path)
            one = folder.run(program, 3, given.limit) if shutil.which(called[0]) else None
            if one is None or len(set(re.findall(r'\bid="?([^">]+)', one[0]))) != 3:
                print(f"{program}: isn't there, or gives no three ids", file=sys.stderr)
                continue
            start = folder.seconds(program, 1, given.limit)
            taken = []
            for count in counts:
                seconds = None if taken and taken[-1] is None else folder.seconds(program, count, given.limit)
                taken.append(None if seconds is None else max(0.0, seconds - start))
            row(program, [cell(start), *map(cell, taken)])


if __name__ == "__main__":
    main()
