#!/usr/bin/env python3
"""Changes pages, and prints what comes of a Markdown file: recipes to be copied.

    recipes.py LIBRARY FILE

Each but the tree takes a page, and is a regular expression over it. That is exact for safe pages: a text has no `<`, `>` or `"`, nor
has a value, so a tag is what is between `<` and `>`, and elements of one name that can't be nested end at the next end tag. With
`dangerous` a page may hold anything, and none of this is sound.
"""
import json
import re
import sys
from html import unescape

from markdown_proved import load

EMOJI = {":smile:": "\U0001f604", ":tada:": "\U0001f389"}


def escape(text):
    """A text as safe pages spell it."""
    return text.replace("&", "&amp;").replace('"', "&quot;").replace("<", "&lt;").replace(">", "&gt;")


def plain_text(page):
    """What a page says, without tags. It has the footnotes too, but nothing of images."""
    return unescape(re.sub("<[^>]*>", "", page))


def with_heading_ids(page, headings, prefix=""):
    """Gives each heading the slug of its text as an id, as GitHub does; of a text without headings in footnotes. The author chooses
    slugs, so give a prefix to a stranger's."""
    slugs = (heading.slug for heading in headings)
    return re.sub("<(h[1-6])>", lambda found: f'<{found[1]} id="{escape(prefix)}{next(slugs)}">', page)


def contents(page):
    """The rank, the id and the HTML of each heading with an id, but that of the footnotes, which has a class."""
    return [(int(rank), name, html) for rank, name, html in re.findall(r'(?s)<h([1-6]) id="([^"]*)">(.*?)</h', page)]


def with_links(page, change):
    """Passes each URL of a link or an image to a function, and puts its result there. Check protocols that it adds."""
    return re.sub('(<a href|<img src)="([^"]*)"', lambda found: f'{found[1]}="{escape(change(unescape(found[2])))}"', page)


def to_html_files(url):
    """A URL of a `.md` file as that of its page; URLs with a protocol stay."""
    return url if re.match(r"[\w+.-]*:|//", url) else re.sub(r"\.md(?=$|[?#])", ".html", url)


def with_colors(page, color):
    """Passes the language and the text of each fenced code to a function, and puts its HTML there."""
    block = r'(?s)<pre><code class="language-([^"]*)">(.*?)</code></pre>'
    return re.sub(block, lambda found: color(unescape(found[1]), unescape(found[2])), page)


def with_text(page, change):
    """Passes each text outside of code to a function, and puts its result there."""
    parts = re.split("(?s)(<code.*?</code>|<[^>]*>)", page)
    return "".join(part if place % 2 else escape(change(unescape(part))) for place, part in enumerate(parts))


def with_emoji(text):
    return re.sub(r":\w+:", lambda found: EMOJI.get(found[0], found[0]), text)


def with_own_label(page, prefix):
    """Gives the heading of the footnotes an id of its own, for pages that stand in one document."""
    return re.sub(' (id|aria-describedby)="footnote-label"', lambda found: f' {found[1]}="{escape(prefix)}footnote-label"', page)


def tree(events):
    """The events of a text as nested objects: what is inside of what, from which byte to which."""
    open_nodes = [{"name": "Document", "children": []}]
    for event in events:
        if event.enters:
            open_nodes.append({"name": event.name, "line": event.line, "start": event.offset})
        else:
            node = open_nodes.pop()
            node["end"] = event.offset
            open_nodes[-1].setdefault("children", []).append(node)
    return open_nodes[0]


def main():
    library = load(sys.argv[1])
    with open(sys.argv[2], encoding="utf-8") as file:
        text = file.read()
    page = library.to_html(text, gfm=True, frontmatter=True, prefix="note-")
    headed = with_heading_ids(page, library.outline(text, gfm=True, frontmatter=True))
    linked, smiling, labelled = with_links(page, to_html_files), with_text(page, with_emoji), with_own_label(page, "note-")
    colored = with_colors(page, lambda language, code: f"<pre><mark>{escape(language)}</mark>{escape(code)}</pre>")
    sys.stdout.reconfigure(encoding="utf-8")
    # The lines of the page that a recipe has changed.
    old = page.split("\n")
    for name, made in ("ids", headed), ("links", linked), ("emoji", smiling), ("an own label", labelled), ("colors", colored):
        print(f"==== {name}", *(line for line in made.split("\n") if line not in old), sep="\n")
    print("==== contents", *contents(headed), sep="\n")
    print("==== plain text", *plain_text(page).split(), sep="\n")
    print("==== tree", json.dumps(tree(library.events("# A *b*")), indent=1), sep="\n")
    print("==== safe pages", [library.is_safe_page(made) for made in (linked, smiling, labelled)], sep="\n")


if __name__ == "__main__":
    main()
