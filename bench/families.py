#!/usr/bin/env python3
"""Times a program on families of texts at sizes n, 2n and 4n, beside md4c, pulldown-cmark and cmark where they are on the
PATH. They run in turn, and the least processor time counts.

    families.py PROGRAM [N] [--gfm | --math]

With --gfm these are families of GitHub's constructs, beside cmark-gfm. With --math they are those of math, frontmatter and
marked text, alone, and the program is the example in C (examples/run.sh says how it is built), since the program has no such flags.

Growth is the time at 4n by that at n: at most about 4 where time is linear. Of the others the time at 4n is printed, and
the growth of their own times.
"""
import shutil
import sys
import tempfile

from timing import GFM, least

ROUNDS = 7


def growing(byte, size):
    """Runs of growing lengths, of so many bytes together."""
    return "".join(byte * (i + 1) + " " for i in range(int((2 * size) ** 0.5)))


def deep_list(depth):
    return "".join("  " * i + "- a\n" for i in range(depth))


FAMILIES = {
    "deep quotes": lambda n: ">" * (n // 10) + " a\n",
    "lines in 50 quotes": lambda n: ("> " * 50 + "a\n") * (n // 100),
    # the text grows with the square of the depth
    "deep list": lambda n: deep_list(int((n * 4) ** 0.5)),
    "item markers on a line": lambda n: "- " * (n // 20) + "x\n",
    "long list": lambda n: "- a\n" * n,
    "loose list": lambda n: "- a\n\n" * n,
    "blank lines in a deep list": lambda n: deep_list(200) + "\n" * n + "b\n",
    # as many open items as half the blank lines, which all other programs take through each of them
    "blank lines in a list as deep": lambda n: "- " * (n // 100) + "a\n" + "\n" * (n // 50) + "b\n",
    "blank lines of code in a list as deep": lambda n: "- " * (n // 100) + "```\n" + "\n" * (n // 50),
    "blank lines in a quoted list as deep": lambda n: "> " + "- " * (n // 100) + "a\n" + ">\n" * (n // 50) + "b\n",
    "blank lines after a quote in a list as deep": lambda n: "- " * (n // 100) + "> a\n" + "\n" * (n // 50) + "b\n",
    "one long paragraph": lambda n: "lorem ipsum dolor sit amet\n" * n,
    "indented code": lambda n: "    a\n\n" * n,
    "unclosed fence": lambda n: "```\n" + "x\n" * n,
    "unclosed comment": lambda n: "<!--\n" + "x\n" * n,
    "HTML blocks": lambda n: "<div>\na\n</div>\n\n" * n,
    "setext headings": lambda n: "a\n===\n\n" * n,
    "breaks": lambda n: "- - -\n" * n,
    "definitions": lambda n: "[a]: /b 'c'\n" * n,
    "definitions, each a paragraph": lambda n: "[a]: b\nc\n\n" * n,
    "definitions and underlines": lambda n: "[a]: b\n=\n" * n,
    "unclosed titles": lambda n: "[a]: b\n'\n\n" * (n // 2) + "[a]: b\n\"\n" * (n // 2),
    "unclosed labels": lambda n: "[a\n" * n,
    "tables of text": lambda n: "| a | b |\n" * n,
    "`*a `": lambda n: "*a " * n + "\n",
    "`_a `": lambda n: "_a " * n + "\n",
    "`a**b`": lambda n: "a**b" * n + "\n",
    "`*a **b `": lambda n: "*a **b " * n + "\n",
    "deep emphasis": lambda n: "*a " * n + "b*" * n + "\n",
    "long runs": lambda n: "*" * n + "a" + "*" * n + "\n",
    "emphasis": lambda n: "*a* **b** " * n + "\n",
    "runs after `>`": lambda n: ">*a*\n" * n,
    "`[`": lambda n: "[" * n + "\n",
    "`![`": lambda n: "![" * n + "\n",
    "`[a](`": lambda n: "[a](" * n + "\n",
    "`[a](b(c`": lambda n: "[a](b(c" * n + "\n",
    "`[a](b 'c`": lambda n: "[a](b 'c" * n + "\n",
    "nested brackets": lambda n: "[" * n + "a" + "]" * n + "\n",
    "nested links": lambda n: "[" * n + "a" + "](b)" * n + "\n",
    "nested images": lambda n: "![" * n + "a" + "](b)" * n + "\n",
    "links": lambda n: "[a](b 'c') " * n + "\n",
    "references to one definition": lambda n: "[a] " * n + "\n\n[a]: b 'c'\n",
    "references to many definitions": lambda n: "".join("[%d]: b\n" % i for i in range(n)) + "\n" + "".join("[%d] " % i for i in range(n)) + "\n",
    "references without definitions": lambda n: "[a] " * n + "\n",
    "code spans": lambda n: "`a` " * n + "\n",
    "backticks of growing lengths": lambda n: growing("`", n) + "\n",
    "`$a `": lambda n: "$a " * n + "\n",
    "dollars of growing lengths": lambda n: growing("$", n) + "\n",
    "one long run of dollars": lambda n: "$" * n + "\n",
    "`~~a `": lambda n: "~~a " * n + "\n",
    "tildes of growing lengths": lambda n: growing("~", n) + "\n",
    "`<`": lambda n: "<" * n + "\n",
    "`<a `": lambda n: "<a " * n + "\n",
    "`<a b='`": lambda n: "<a b='" * n + "\n",
    "raw HTML": lambda n: "<a b='c'> " * n + "\n",
    "`<!-- a`": lambda n: "<!-- a" * n + "\n",
    "autolinks": lambda n: "<http://a.b> " * n + "\n",
    "`&`": lambda n: "&" * n + "\n",
    "named references": lambda n: "&amp;" * n + "\n",
    "backslashes": lambda n: "\\*" * n + "\n",
    "hard breaks": lambda n: "a  \n" * n,
    "spaces in a text": lambda n: "a" + " " * n + "b\n",
    "spaces": lambda n: " " * n + "a\n",
    "tabs": lambda n: "\t" * n + "a\n",
}

GFM_FAMILIES = {
    "a wide table": lambda n: "|a" * n + "|\n" + "|-" * n + "|\n" + "|b" * n + "|\n",
    "a long table": lambda n: "|a|b|\n|-|-|\n" + "|c|d|\n" * n,
    # the page grows with the square of the size: each row has all cells of the head
    "short rows under a wide head": lambda n: "|a" * int(n**0.5) + "|\n" + "|-" * int(n**0.5) + "|\n" + "|b|\n" * int(n**0.5),
    "long rows under a narrow head": lambda n: "|a|\n|-|\n" + ("|b" * 100 + "|\n") * (n // 100),
    "bars without a table": lambda n: "| a | b\n" * n,
    "rows of delimiters": lambda n: "|-|-|\n" * n,
    "tables in quotes": lambda n: "> |a|\n> |-|\n> |b|\n\n" * n,
    "many footnotes": lambda n: "".join("[^%d] " % i for i in range(n)) + "\n\n" + "".join("[^%d]: a\n\n" % i for i in range(n)),
    "calls of one footnote": lambda n: "[^a] " * n + "\n\n[^a]: b\n",
    "footnotes that call each other": lambda n: "[^0]\n\n" + "".join("[^%d]: [^%d]\n\n" % (i, i + 1) for i in range(n)),
    "footnotes in each other": lambda n: "[^a]:" * (n // 20) + " b\n",
    "footnotes that nobody calls": lambda n: "".join("[^%d]: a\n\n" % i for i in range(n)),
    "calls without footnotes": lambda n: "[^a] " * n + "\n",
    "`[^`": lambda n: "[^" * n + "\n",
    "`![^a]`": lambda n: "![^a]" * n + "\n\n[^a]: b\n",
    "calls in descriptions": lambda n: "![" * n + "[^a]" + "](b)" * n + "\n\n[^a]: c\n",
    "`www.`": lambda n: "www." * n + "\n",
    "`www.a `": lambda n: "www.a " * n + "\n",
    "`www.a_`": lambda n: "www.a_" * n + "\n",
    "`*www.a_`": lambda n: "*www.a_" * n + "\n",
    "`_www.a.`": lambda n: "_www.a." * n + "b_c\n",
    "`&www.a_`": lambda n: "*&www;www.a_" * n + "\n",
    "`www.a_b@`": lambda n: "*www.a_b@" * n + "\n",
    "`http://a_b `": lambda n: "http://a_b " * n + "\n",
    "`http://a_b`": lambda n: "1http://a_b" * n + "\n",
    "`http://`": lambda n: "http://" * n + "\n",
    "`http://a.b/)))`": lambda n: "http://a.b/" + ")" * n + "\n",
    "`http://a.b/((`": lambda n: "http://a.b/" + "(" * n + ")" * n + "\n",
    "`http://a.b&x;&x;`": lambda n: "http://a.b" + "&x;" * n + "\n",
    "`http://a.b/))) `": lambda n: ("http://a.b/" + ")" * 100 + " ") * (n // 100) + "\n",
    "`a@b`": lambda n: "a@b" * n + "\n",
    "`a@b.c `": lambda n: "a@b.c " * n + "\n",
    "`@`": lambda n: "@" * n + "\n",
    "`a.` before `@b.c`": lambda n: "a." * n + "@b.c\n",
    "`a@b.` ": lambda n: "a@" + "b." * n + "\n",
    "`mailto:`": lambda n: "mailto:" * n + "a@b.c\n",
    "`[a@b.c](d)`": lambda n: "[a@b.c](d)" * n + "\n",
    "nested links with literals": lambda n: "![" * n + "www.a" + "](b)" * n + "\n",
    "`~a~`": lambda n: "~a~ " * n + "\n",
    "`~~~a`": lambda n: "a~~~b" * n + "\n",
    "tasks": lambda n: "- [ ] a\n" * n,
}

MATH_FAMILIES = {
    "`$a `": lambda n: "$a " * n + "\n",
    "`$a$ `": lambda n: "$a$ " * n + "\n",
    "dollars of growing lengths": lambda n: growing("$", n) + "\n",
    "dollars and backticks": lambda n: growing("$", n) + growing("`", n) + "\n",
    "`==a `": lambda n: "==a " * n + "\n",
    "`==a== `": lambda n: "==a== " * n + "\n",
    "`a==b`": lambda n: "a==b" * n + "\n",
    "`a===b`": lambda n: "a===b" * n + "\n",
    "equals signs of growing lengths": lambda n: growing("=", n) + "\n",
    "equals signs and asterisks": lambda n: "==a **b " * n + "c== d** " * n + "\n",
    "unclosed math": lambda n: "$$\n" + "x\n" * n,
    "math in blocks": lambda n: "$$\na\n$$\n" * n,
    "unclosed frontmatter": lambda n: "---\n" + "a\n" * n,
    "unclosed frontmatter of plus signs": lambda n: "+++\n" + "a\n" * n,
    "frontmatter": lambda n: "---\n" + "a\n" * n + "---\n",
    "fences that don't end frontmatter": lambda n: "---\n" + "---a\n" * n,
}


def times(text, n, commands, path):
    """For each command the seconds at n, 2n and 4n."""
    rows = {name: [] for name in commands}
    for k in (1, 2, 4):
        with open(path, "w") as out:
            out.write(text(n * k))
        for name, seconds in least(commands, path, ROUNDS).items():
            rows[name].append(seconds)
    return rows


def main():
    flags = [word for word in sys.argv[1:] if word in ("--gfm", "--math")]
    words = [word for word in sys.argv[1:] if word not in flags]
    n = int(words[1]) if len(words) > 1 else 100000
    if "--gfm" in flags:
        families, peers = GFM_FAMILIES, {"cmark-gfm": GFM}
    elif "--math" in flags:
        flags, families, peers = ["--math", "--frontmatter", "--mark"], MATH_FAMILIES, {}
    else:
        families, peers = FAMILIES, {name: [name] for name in ("md4c", "pulldown-cmark", "cmark")}
    others = [name for name in peers if shutil.which(name)]
    commands = {"": [words[0], *flags], **{name: peers[name] for name in others}}
    print("| Family | n, 2n, 4n (ms) | Growth |" + "".join(" %s | |" % name for name in others))
    print("|---|---|---|" + "---|---|" * len(others))
    with tempfile.TemporaryDirectory() as folder:
        for name, text in families.items():
            rows = times(text, n, commands, folder + "/text")
            own = rows.pop("")
            shown = ", ".join("%.1f" % (t * 1000) for t in own)
            beside = "".join(" %.1f | %.1f |" % (t[2] * 1000, t[2] / t[0]) for t in rows.values())
            print("| %s | %s | %.1f |%s" % (name, shown, own[2] / own[0], beside), flush=True)


if __name__ == "__main__":
    main()
