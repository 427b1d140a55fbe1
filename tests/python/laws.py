"""Laws of pages (docs/LAWS.md): what the page becomes if a text is quoted, listed, escaped, or given other line endings."""
import re
import string

ENDING = re.compile(r"(\r\n|\n|\r)(?=.)", re.S)
SQUEEZED = re.compile(r"(^|(?<=>))[\r\n]+|[\r\n]+(?=<|$)")
ENCODED = str.maketrans({"\0": "\uFFFD", '"': "&quot;", "&": "&amp;", "<": "&lt;", ">": "&gt;"})
IN_ONE_LINE = str.maketrans("\t\n\r", "   ")
HEADING_ID = re.compile('(<h[1-6]) id="([^"]*)">')
LINK_REL = re.compile('(<a href="[^"]*"(?: title="[^"]*")?) rel="[^"]*">')
# Links and images of a safe page without these attributes. Links of footnotes have others.
LINK = re.compile('<a href="([^"]*)"((?: title="[^"]*")?)>')
IMAGE = re.compile('<img src="([^"]*)" alt="([^"]*)"((?: title="[^"]*")?) />')
IS_ROOTED = re.compile("[/#?]|[^/#?]*:|$")
PUNCTUATION = re.compile("([" + re.escape(string.punctuation) + "])")


def without_attributes(page, options):
    """A page without what no safe page has: ids of headings, and what the options print at links and images."""
    if options.has_switch("heading_ids"):
        page = HEADING_ID.sub(r"\1>", page)
    if options.rel.length:
        page = LINK_REL.sub(r"\1>", page)
    return page.replace(' loading="lazy" />', " />") if options.has_switch("lazy_images") else page


def based(base, url):
    """A URL behind a base, if it is a relative path."""
    return url if IS_ROOTED.match(url) else base + url


def with_attributes(page, options):
    """A safe page without attributes with those that options print, but for the ids of headings."""
    prefix = options.text("id_prefix") if options.has_switch("heading_ids") else ""
    base, rel = options.text("link_base"), options.text("rel")
    image_base, lazy = options.text("image_base") or base, ' loading="lazy"' if options.has_switch("lazy_images") else ""

    def link(found):
        url, title = found.groups()
        url = f"#{prefix}{url[1:]}" if url.startswith("#") and url != "#" else based(base, url)
        return f'<a href="{url}"{title}' + (f' rel="{rel}">' if rel else ">")

    return IMAGE.sub(lambda found: f'<img src="{based(image_base, found[1])}" alt="{found[2]}"{found[3]}{lazy} />', LINK.sub(link, page))


def attributes_fault(library, text, options, more):
    """What is wrong with the page of a text by more options, which only add attributes to the safe page by other options, or None."""
    page, found = library.page(text, options), library.page(text, more)
    ids = [it[1] for it in HEADING_ID.findall(found)]
    if HEADING_ID.sub(r"\1>", found) != with_attributes(page, more):
        return f"attributes: {found!r} of {page!r}"
    if not more.has_switch("heading_ids"):
        return "ids without the option" if ids else None
    prefix, notes = more.text("id_prefix"), more.text("prefix")
    taken = ("footnote-label", notes + "fn-", notes + "fnref-")
    wanted = [prefix + it for it in library.slugs(text, options) if it]
    wanted = [it for it in wanted if it != taken[0] and not it.startswith(taken[1:])]
    # A footnote that isn't called isn't printed; others stand at the end of the page.
    are_right = set(ids) <= set(wanted) if options.is_on("gfm_footnote_definition") else ids == wanted
    return None if are_right and len(set(ids)) == len(ids) else f"ids {ids}, not {wanted}"


def prefixed(text, first, other):
    """A text with a prefix before its first line, and another before each other line."""
    return first + ENDING.sub(lambda found: found[0] + other, text)


def squeeze(page):
    """A page without the line endings at its start and its end, after > and before <."""
    return SQUEEZED.sub("", page)


def may_be_inside(text, options):
    return "\t" not in text and not (options.is_on("frontmatter") or options.is_on("gfm_footnote_definition"))


def is_listed(library, text, options):
    """Whether a text in a list item has the page of a list around its page."""
    listed = library.page(prefixed(text, "+ ", "  "), options)
    return squeeze(listed) == squeeze("<ul><li>" + library.page(text, options) + "</li></ul>")


def keeps_quotes(library, text, page, options):
    for _ in range(2):
        quoted = prefixed(text, "> ", "> ")
        quoted_page = library.page(quoted, options)
        if squeeze(quoted_page) != squeeze(f"<blockquote>{page}</blockquote>"):
            return False
        text, page = quoted, quoted_page
    return True


def keeps_endings(library, text, page, options):
    return all(library.page(text.replace("\n", it), options) == page.replace("\n", it) for it in ("\r", "\r\n"))


def broken_law(library, text, options):
    """A law that the page of a text breaks, or None."""
    page, begins_with_mark = library.page(text, options), text.startswith("\uFEFF")
    if may_be_inside(text, options):
        if text and not begins_with_mark and options.is_on("block_quote") and not keeps_quotes(library, text, page, options):
            return "a quoted text has a quote of its page"
        lists = options.is_on("list_item") and not options.is_on("gfm_task_list_item")
        if lists and not is_listed(library, "a\n\nb\n\n" + text, options):
            return "a listed text has a list around its page"
    if "\n" in text and "\r" not in text and "&" not in text and not keeps_endings(library, text, page, options):
        return "with another line ending a text has its page with that ending"
    line = text.translate(IN_ONE_LINE).strip(" ")
    if line and not line.startswith("\uFEFF") and options.is_on("character_escape"):
        if library.page(PUNCTUATION.sub(r"\\\1", line), options) != f"<p>{line.translate(ENCODED)}</p>":
            return "an escaped line has a paragraph that says it"
    return None


def broken_without_footnotes(library, text, options):
    """A law that the page of a text breaks without footnotes and frontmatter, with task lists or without, or None."""
    fewer = options.without("gfm_footnote_definition", "gfm_label_start_footnote", "frontmatter")
    broken = broken_law(library, text, fewer)
    if broken is None and fewer.is_on("gfm_task_list_item"):
        broken = broken_law(library, text, fewer.without("gfm_task_list_item"))
    return broken
