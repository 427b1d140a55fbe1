// The page: converts the text area's text as it changes, and shows it in the frame, which runs no script.
import { DANGEROUS, GFM, load } from "./markdown.mjs";

const at = id => document.getElementById(id);

const EXAMPLE = `# Hello, *world*

Change this text. A [link](https://example.com "title"), \`code\`,
~~struck out~~ and www.example.com.

1. first
2. second
   - [x] done
   - [ ] to do

| name | size |
|:-----|-----:|
| one  |   10 |
| two  |    2 |

> A quote with a footnote.[^1]

\`\`\`rust
fn main() {}
\`\`\`

Safe: <b>tags</b> are text, and [this link](javascript:alert(1)) is empty.

[^1]: The note.
`;

// A style sheet with light and dark colours, in one of them.
const inScheme = (style, scheme) =>
    scheme ? style.replace("(prefers-color-scheme: dark)", scheme === "dark" ? "all" : "not all").replace("light dark", scheme) : style;

const escaped = html => html.replaceAll("&", "&amp;").replaceAll("<", "&lt;");

// Links open in a new tab, but those to footnotes lead there in the frame.
const framed = (style, html) =>
    `<!doctype html><meta charset="utf-8"><base href="about:srcdoc" target="_blank"><style>${style}</style>${html}`;

function show(markdown, style) {
    const text = at("text").value, scheme = at("scheme").value;
    const flags = (at("gfm").checked ? GFM : 0) + (at("safe").checked ? 0 : DANGEROUS);
    const began = performance.now();
    let html;
    try {
        html = markdown.toHtml(text, flags);
    } catch (fault) {
        at("status").textContent = fault.message;
        return;
    }
    const took = performance.now() - began;
    const shown = at("source").checked ? `<pre><code>${escaped(html)}</code></pre>` : html.replaceAll('href="#', 'target="_self" href="#');
    at("page").srcdoc = framed(inScheme(style, scheme), shown);
    at("status").textContent = `${text.length} characters to ${html.length} of HTML in ${took.toFixed(1)} ms. Version ${markdown.version}.`;
    at("warning").textContent = at("safe").checked ? "" : "Not safe: only for text of authors whom you trust.";
}

try {
    const [markdown, style] = await Promise.all([load(), fetch("page.css").then(it => it.text())]);
    const own = document.querySelector("style"), ownStyle = own.textContent;
    at("text").value = new URLSearchParams(location.search).get("text") ?? EXAMPLE;
    for (const id of ["text", "gfm", "safe", "source"]) at(id).addEventListener("input", () => show(markdown, style));
    at("scheme").addEventListener("input", () => {
        own.textContent = inScheme(ownStyle, at("scheme").value);
        show(markdown, style);
    });
    show(markdown, style);
} catch (fault) {
    at("status").textContent = `Not loaded: ${fault.message}`;
}
