// Tries markdown.wasm under Node: the 652 examples of CommonMark, a page with each feature, refusals, and that memory is freed.
// The last line is `N passed, M failed`.
//
//     node web/tests/node.mjs FOLDER
//
// FOLDER is what bin/wasm has made.
import { readdirSync, readFileSync } from "node:fs";
import { pathToFileURL } from "node:url";

const top = new URL("../../", import.meta.url);
const { load, DANGEROUS, FRONTMATTER, GFM, MARK, MATH, PLAIN } = await import(new URL("markdown.mjs", pathToFileURL(`${process.argv[2]}/`)));
const markdown = await load();
let passed = 0, failed = 0;

function check(what, isRight) {
    if (isRight) passed++;
    else {
        failed++;
        console.error(`failed: ${what}`);
    }
}

function fault(call) {
    try {
        call();
        return null;
    } catch (fault) {
        return fault.message;
    }
}

const same = (what, found, wanted) => check(`${what}: ${JSON.stringify(found)}`, JSON.stringify(found) === JSON.stringify(wanted));

// The examples are rows, in the format of tests/rows.
const decoded = text => text.replace(/\u241b([0-9A-F]+);|[\u2400-\u2420]/g,
    (picture, code) => String.fromCodePoint(code ? parseInt(code, 16) : picture.codePointAt(0) - 0x2400));
const fieldsOf = row => decoded(row.slice(row.indexOf("\n") + 1)).split("\n@is\n");
const rowsOf = file => file.slice(0, -1).split("\n@table ").slice(1).flatMap(table => table.split("\n@row").slice(1)).map(fieldsOf);

const folder = new URL("tests/rows/commonmark/", top);
let examples = 0;
for (const name of readdirSync(folder)) {
    for (const [text, html] of rowsOf(readFileSync(new URL(name, folder), "utf8"))) {
        examples++;
        check(`${name}: ${text}`, markdown.toHtml(text, DANGEROUS) === html);
    }
}
check(`${examples} examples`, examples === 652);

const read = name => readFileSync(new URL(`crates/examples_library/${name}`, top), "utf8");
check("a page with each feature", markdown.toHtml(read("stdin"), GFM + MATH + FRONTMATTER + MARK) === read("stdout"));
check("the version", readFileSync(new URL("include/markdown.h", top), "utf8").includes(`MARKDOWN_VERSION_TEXT "${markdown.version}"`));
check("safe", markdown.toHtml("<b>a</b> [b](javascript:c)") === '<p>&lt;b&gt;a&lt;/b&gt; <a href="">b</a></p>');
check("plain", markdown.toHtml("# a", PLAIN) === "<p># a</p>");
check("an empty text", markdown.toHtml("") === "");
check("a page far longer than its text", markdown.toHtml('"'.repeat(1000)) === `<p>${"&quot;".repeat(1000)}</p>`);
same("options", markdown.toHtml("~~a~~ www.b.c", { gfm: true, autolinkLiterals: false }), "<p><del>a</del> www.b.c</p>");
same("flags and options", markdown.toHtml("~~a~~ $b$", { flags: GFM, mathText: true }), '<p><del>a</del> <code class="language-math math-inline">b</code></p>');
same("a construct that is off", markdown.toHtml("# a\n\n*b*", { headingAtx: false }), "<p># a</p>\n<p><em>b</em></p>");
same("a construct beside plain", markdown.toHtml("# *a*", { plain: true, headingAtx: true }), "<h1>*a*</h1>");
same("one tilde", markdown.toHtml("~a~", { strikethrough: true, singleTilde: false }), "<p>~a~</p>");
same("HTML without protocols", markdown.toHtml("<b> [c](d:e)", { dangerousHtml: true }), '<p><b> <a href="">c</a></p>');
same("a line ending", markdown.toHtml("- a", { lineEnding: "\r\n" }), "<ul>\r\n<li>a</li>\r\n</ul>");
same("checkable tasks", markdown.toHtml("- [ ] a", { gfm: true, checkableTasks: true }), '<ul>\n<li><input type="checkbox" /> a</li>\n</ul>');
same("ids", markdown.toHtml("# A *b*\n# a b\n# !", { headingIds: true }), '<h1 id="a-b">A <em>b</em></h1>\n<h1 id="a-b-1">a b</h1>\n<h1>!</h1>');
same("lazy images", markdown.toHtml("![a](b 'c')", { lazyImages: true }), '<p><img src="b" alt="a" title="c" loading="lazy" /></p>');
same("listed HTML", markdown.toHtml("a<br>b <x>c</x>", { listedHtml: true }), "<p>a<br />b &lt;x&gt;c&lt;/x&gt;</p>");
same("listed HTML beside dangerous HTML", markdown.toHtml("a <x>", { listedHtml: true, dangerousHtml: true }), "<p>a <x></p>");
same("ids by a sum of flags", markdown.toHtml("# ~a~", { flags: 4, headingIds: true }), '<h1 id="a"><del>a</del></h1>');
same("ids beside a prefix", fault(() => markdown.toHtml("# a", { headingIds: true, prefix: "b" })), "headingIds needs the default prefix of footnotes");
const note = "a[^b]\n\n[^b]: c";
const texts = { prefix: 'a"&', footnoteLabel: "<N>", footnoteLabelTag: "h3", footnoteLabelAttributes: "hidden", footnoteBackLabel: "B$&" };
same("texts", markdown.toHtml(note, { footnotes: true, ...texts }), [
    '<p>a<sup><a href="#a&quot;&amp;fn-b" id="a&quot;&amp;fnref-b" data-footnote-ref="" aria-describedby="footnote-label">1</a></sup></p>',
    '<section data-footnotes="" class="footnotes"><h3 id="footnote-label" hidden>&lt;N&gt;</h3>', "<ol>", '<li id="a&quot;&amp;fn-b">',
    '<p>c <a href="#a&quot;&amp;fnref-b" data-footnote-backref="" aria-label="B$&amp;" class="data-footnote-backref">↩</a></p>',
    "</li>", "</ol>", "</section>", "",
].join("\n"));
const tables = readFileSync(new URL("tests/rows/gfm_footnote_options.rows", top), "utf8").slice(0, -1).split("\n@table ").slice(1);
const asked = [
    { prefix: "x<" }, { prefix: "" }, { footnoteLabel: "Notes & more" }, { footnoteLabelTag: "h1" }, { footnoteLabelAttributes: 'class="x" hidden' },
    { footnoteBackLabel: 'Zurück "oben"' },
];
check("tables of texts", tables.length === asked.length);
tables.forEach((table, place) => table.split("\n@row").slice(1).map(fieldsOf)
    .forEach(([text, html]) => same("texts of a table", markdown.toHtml(text, { gfm: true, ...asked[place] }), html)));
const linked = '[a](#user-content-fn-b "user-content-fn-b") `<li id="user-content-fn-b">` <li id="user-content-fn-b">';
same("links beside texts", markdown.toHtml(linked, { prefix: "c" }), markdown.toHtml(linked));
same("the default texts", markdown.toHtml(note, { footnotes: true, prefix: "user-content-" }), markdown.toHtml(note, { footnotes: true }));
same("texts with raw HTML", fault(() => markdown.toHtml("", { prefix: "a", dangerous: true })), "texts of footnotes need safe HTML");
same("a text of a wrong type", fault(() => markdown.toHtml("", { prefix: 1 })), "prefix must be a string");
same("events with a text", fault(() => markdown.events("", { prefix: "a" })), null);
same("an unknown option", fault(() => markdown.toHtml("", { gmf: true })), "unknown option gmf");
same("an option of a wrong type", fault(() => markdown.toHtml("", { gfm: 1 })), "gfm must be a boolean");
same("a text of a wrong type", fault(() => markdown.events(3)), "the text must be a string or a Uint8Array");
same("a safe page", [markdown.toHtml("<script> [a](javascript:b)"), "<p onclick=alert()>a</p>"].map(page => markdown.isSafePage(page)), [true, false]);

const events = markdown.events("> # é *b*\n").filter(event => event.name === "Emphasis");
same("events", events.map(({ kind, offset, line, column, columns, text }) => [kind, offset, line, column, columns, text]), [
    ["enter", 7, 1, 8, 0, "*b*"], ["exit", 10, 1, 11, 0, "*b*"],
]);
same("texts of bytes", [...markdown.events(new TextEncoder().encode("é *b*")).find(event => event.name === "Emphasis").text], [42, 98, 42]);
const listed = markdown.links("> [a *b*][C] ![d](e\\*&amp;f)\n> <g@h.i>\twww.é.j\n\n[c]: <k l>\n[C]: m", { gfm: true });
same("links", listed.map(({ kind, destination, line, column, endLine, endColumn }) => [kind, destination, line, column, endLine, endColumn]), [
    ["link", "k l", 1, 3, 1, 13], ["image", "e*&f", 1, 14, 1, 29], ["autolink", "mailto:g@h.i", 2, 3, 2, 10],
    ["literal", "http://www.é.j", 2, 13, 2, 21], ["definition", "k l", 4, 1, 4, 11], ["definition", "m", 5, 1, 5, 7],
]);
same("texts of links", listed.slice(0, 2).map(link => link.text), ["[a *b*][C]", "![d](e\\*&amp;f)"]);
check("definitions of links", listed[0].definition === listed[4] && listed.slice(1).every(link => link.definition === null));
same("links of bytes", markdown.links(new TextEncoder().encode("é [a](b)")).map(({ offset, endOffset, text }) => [offset, endOffset, [...text]]), [
    [3, 9, [91, 97, 93, 40, 98, 41]],
]);
same("no links", markdown.links(""), []);
check("many links", markdown.links("[a](b)".repeat(20000)).length === 20000);
same("a long destination", markdown.links(`[a](b${"&ngE;".repeat(10000)})`).map(link => link.destination.length), [20001]);
const headed = markdown.outline("# É *b* &amp; [c](d)\n> e\n> f\n> ---\n# é b  c\n");
same("headings", headed.map(({ rank, text, slug, line, column, endLine, endColumn }) => [rank, text, slug, line, column, endLine, endColumn]), [
    [1, "É b & c", "é-b--c", 1, 1, 1, 22], [2, "e\nf", "ef", 2, 3, 4, 6], [1, "é b  c", "é-b--c-1", 5, 1, 5, 10],
]);
same("offsets of headings", headed.map(({ offset, endOffset }) => [offset, endOffset]), [[0, 21], [24, 35], [36, 45]]);
same("headings of bytes", markdown.outline(new TextEncoder().encode("# é")).map(heading => heading.text), ["é"]);
same("no headings", markdown.outline("a"), []);
same("many headings", markdown.outline("# a\n".repeat(20000)).at(-1).slug, "a-19999");
same("sanitized", markdown.sanitize("<b onclick=a>é</b><script>"), "<b>é</b>&lt;script&gt;");
same("sanitized bytes", [...markdown.sanitize(new TextEncoder().encode("<i>a"))], [...new TextEncoder().encode("<i>a</i>")]);
same("no script", markdown.sanitize("<a href=javascript:a>b</a><img src=c onerror=d>"), '<a href="">b</a><img src="c" />');
same("other protocols", markdown.sanitize("<a href=b:c></a><img src=d:e>", { dangerousProtocol: true }), '<a href="b:c"></a><img src="d:e" />');
same("other protocols of images", markdown.sanitize("<a href=b:c></a><img src=d:e>", { anyImageProtocol: true }), '<a href=""></a><img src="d:e" />');
same("an option of Markdown", fault(() => markdown.sanitize("", { gfm: true })), "unknown option gfm");
same("a page far longer than its HTML", markdown.sanitize('"'.repeat(1000)).length, 6000);
const kept = readFileSync(new URL("tests/rows/sanitized.rows", top), "utf8").split("\n@table ")[1].split("\n@row").slice(1).map(fieldsOf);
kept.forEach(([html, page]) => same(`sanitized ${html}`, markdown.sanitize(html), page));
same("decoded", markdown.decode("a&amp;\\*&copy;"), "a&*©");
same("a label", markdown.normalizeLabel(" Á\n b "), "á b");
check("many events", markdown.events("*a* ".repeat(20000)).length > 200000);

check("wrong flags", fault(() => markdown.toHtml("a", 2048)) === "wrong flags" && fault(() => markdown.toHtml("a", 2 ** 32)) === "wrong flags");
check("no UTF-8", fault(() => markdown.convert(new Uint8Array([97, 255]))) === "input is not UTF-8");

// How many bytes of memory the engine has for the module, after a collection.
async function held() {
    for (let i = 0; i < 5; i++) {
        gc();
        await new Promise(done => setTimeout(done, 20));
    }
    return process.memoryUsage().arrayBuffers + process.memoryUsage().external;
}
const large = "A *paragraph* of `text` with [a link](b).\n\n".repeat(25000);
const first = markdown.toHtml(large).length;
if (typeof gc === "function") {
    const before = await held();
    for (let i = 0; i < 20; i++) check("a large text again", markdown.toHtml(large).length === first);
    check("memory stays", (await held()) <= before + (1 << 20));
    check("brackets", markdown.toHtml("[".repeat(2_000_000)).length === 2_000_007);
    check("memory is freed", (await held()) <= before + (1 << 20));
}
console.log(`${passed} passed, ${failed} failed`);
process.exitCode = failed ? 1 : 0;
