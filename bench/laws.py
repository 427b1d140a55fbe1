#!/usr/bin/env python3
"""Tries what is proved of pages on the built program, with random texts: a safe page, quoted and listed texts, other line
endings, and escaped lines. Each law's premises hold of the texts that it is tried on (docs/LAWS.md).

    laws.py PROGRAM [TEXTS] [SEED]

The status is 1 where a page breaks a law; the text and the page are printed then.
"""
import random
import re
import subprocess
import sys

PIECES = """a b word one two *a* **b** _c_ *d **e ` `` `f` <b> </b> <!--c--> <http://a.b> <a@b.c> [a] [b](c) ![d](e "f") [g]: h
\\ \\* &amp; &#65; &nope; " ' < > ( ) ! # ## - + * 1. 2) > >> --- === ~~~ ``` <div> <pre> é — 🪐 javascript:x http://a""".split(" ")
JOINTS = [" "] * 8 + ["\n"] * 5 + ["", "\n\n", "  \n", "\\\n", "\n    ", "\n  ", "\n> ", "\n- ", "\n1. "]
PUNCTUATION = "!\"#$%&'()*+,-./:;<=>?@[\\]^_`{|}~"
REFERENCES = ("&amp;", "&lt;", "&gt;", "&quot;")
VOID = {"hr": [()], "br": [()], "img": [("src", "alt"), ("src", "alt", "title")]}
PLAIN = "blockquote pre p h1 h2 h3 h4 h5 h6 ul em strong code ol li".split()
START = {**{name: [()] for name in PLAIN}, "a": [("href",), ("href", "title")]}
START["code"].append(("class",))
START["ol"] = [(), ("start",)]
TAG = re.compile(r'<(/?)([a-z0-9]+)((?: [a-z]+="(?:[^<>"&]|&(?:amp|lt|gt|quot);)*")*)( ?/?)>')
ATTRIBUTE = re.compile(r' ([a-z]+)="([^"]*)"')
PROTOCOLS = {"href": {"http", "https", "irc", "ircs", "mailto", "xmpp"}, "src": {"http", "https"}}


def random_text(rng, endings=True):
    return "".join(rng.choice(PIECES) + rng.choice(JOINTS if endings else [" ", ""]) for _ in range(rng.randint(1, 40)))


def is_permitted(name, value):
    if name not in PROTOCOLS:
        return True
    for code, text in zip(REFERENCES, "&<>\""):
        value = value.replace(code, text) if code != "&amp;" else value
    protocol = re.match(r"([^:?#/]*):", value.replace("&amp;", "&"))
    return not protocol or protocol.group(1).lower() in PROTOCOLS[name]


def is_safe(page):
    """Whether a page is text, references, and tags of the table, each closed by its own end."""
    opened, at = [], 0
    while at < len(page):
        if page[at] == "<":
            tag = TAG.match(page, at)
            if not tag:
                return False
            end, name, attributes, void = tag.groups()
            found = ATTRIBUTE.findall(attributes)
            if end:
                if found or void or not opened or opened.pop() != name:
                    return False
            elif tuple(a for a, _ in found) not in (VOID if void == " /" else START).get(name, []):
                return False
            elif not all(is_permitted(a, value) for a, value in found):
                return False
            elif void != " /":
                opened.append(name)
            at = tag.end()
        elif page[at] == "&":
            code = next((c for c in REFERENCES if page.startswith(c, at)), None)
            if not code:
                return False
            at += len(code)
        elif page[at] in ">\"":
            return False
        else:
            at += 1
    return not opened


def squeeze(page):
    """A page without the runs of CR and LF at its ends, after `>` and before `<`."""
    return re.sub(r"(?<=>)[\r\n]+|[\r\n]+(?=<)|^[\r\n]+|[\r\n]+\Z", "", page)


def with_front(first, other, text):
    return first + text.replace("\n", "\n" + other) if not text.endswith("\n") else first + text[:-1].replace("\n", "\n" + other) + "\n"


class Laws:
    def __init__(self, program):
        self.program = program

    def html(self, text, *words):
        run = subprocess.run([self.program, *words], input=text.encode(), stdout=subprocess.PIPE, check=True)
        return run.stdout.decode()

    def safe(self, rng, words):
        text = random_text(rng)
        return text, [] if is_safe(self.html(text)) else ["no safe page"]

    def quoted(self, rng, words):
        text, wrong = random_text(rng), []
        page, once = self.html(text, *words), text
        for _ in range(2):
            once, page = with_front("> ", "> ", once), "<blockquote>" + page + "</blockquote>"
            if squeeze(self.html(once, *words)) != squeeze(page):
                wrong.append(once)
        return text, wrong

    def listed(self, rng, words):
        text = "a\n\nb\n\n" + random_text(rng)
        page = self.html(with_front("+ ", "  ", text), *words)
        return text, [] if squeeze(page) == squeeze("<ul><li>" + self.html(text, *words) + "</li></ul>") else [page]

    def ended(self, rng, words):
        text, wrong = random_text(rng).replace("&", "") + "\n", []
        page = self.html(text, *words)
        for ending in ("\r", "\r\n"):
            if self.html(text.replace("\n", ending), *words) != page.replace("\n", ending):
                wrong.append(ending)
        return text, wrong

    def escaped(self, rng, words):
        line = random_text(rng, endings=False).strip() or "a"
        text = "".join("\\" + c if c in PUNCTUATION else c for c in line)
        want = line
        for character, code in (("&", "&amp;"), ("<", "&lt;"), (">", "&gt;"), ("\"", "&quot;")):
            want = want.replace(character, code)
        page = self.html(text, *words)
        return text, [] if page == "<p>" + want + "</p>" else [page]


def main():
    laws, count = Laws(sys.argv[1]), int(sys.argv[2]) if len(sys.argv) > 2 else 5000
    rng, broken = random.Random(int(sys.argv[3]) if len(sys.argv) > 3 else 1), 0
    for name in ("safe", "quoted", "listed", "ended", "escaped"):
        for i in range(count // 5):
            text, wrong = getattr(laws, name)(rng, ["--dangerous"] if i % 2 else [])
            if wrong:
                broken += 1
                print(name, repr(text), wrong[0], sep="\n  ")
        print(f"{name}: {count // 5} texts")
    return 1 if broken else 0


if __name__ == "__main__":
    sys.exit(main())
