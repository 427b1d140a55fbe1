#!/usr/bin/env node
// Reads Markdown from a file or from standard input, and writes its HTML to standard output. The exit status is 0 if the whole HTML
// was written, 2 for a wrong command line, and 1 for any other fault.
import { readFileSync, writeSync } from "node:fs";
import { load } from "./markdown.mjs";

// The words are those of the program for Debian that have no value.
const USAGE = `usage: markdown-proved [OPTION..] [FILE]

Converts Markdown to safe HTML on standard output. It reads the file, or standard input, whose name is -.

    --gfm          read GitHub Flavored Markdown
    --mark         read ==text== as marked text
    --math         read $a$, and blocks between lines of $$, as math
    --frontmatter  leave out metadata at the start of the input, between lines of --- or +++
    --heading-ids  print ids of headings, as GitHub makes them
    --lazy-images  print loading="lazy" in images
    --listed-html  keep raw HTML by a list of elements and attributes, and escape the rest; --dangerous keeps all of it
    --dangerous    keep raw HTML and URLs with any protocol; only for input from trusted authors
    --plain        turn every construct off, also with other options
    -h, --help     print this
    -V, --version  print the version
`;
const FLAGS = ["gfm", "mark", "math", "frontmatter", "heading-ids", "lazy-images", "listed-html", "dangerous", "plain"];
const WRONG = "wrong command line; --help lists the words";

function write(fd, bytes) {
    for (let at = 0; at < bytes.length; ) at += writeSync(fd, bytes, at);
}

// Whether one of the two spellings is among the words.
const asks = (words, short, long) => words.includes(short) || words.includes(long);

// The options and the file of a command line, or null if it is wrong. After `--` each word is a file.
function read(words) {
    const end = words.indexOf("--"), options = {};
    const isOption = (word, place) => word.startsWith("-") && word !== "-" && (end < 0 || place < end);
    const names = words.filter(isOption).map(word => word.slice(2));
    const files = words.filter((word, place) => place !== end && !isOption(word, place));
    for (const name of names) options[name.replace(/-./g, part => part[1].toUpperCase())] = true;
    const isRight = words.filter(isOption).every(word => word.startsWith("--")) && names.every(name => FLAGS.includes(name));
    return isRight && files.length < 2 ? { options, file: files[0] ?? "-" } : null;
}

async function main(words) {
    const before = words.slice(0, words.includes("--") ? words.indexOf("--") : undefined);
    if (asks(before, "-h", "--help")) return write(1, Buffer.from(USAGE));
    if (asks(before, "-V", "--version")) return write(1, Buffer.from(`markdown-proved ${(await load()).version}\n`));
    const asked = read(words);
    if (asked === null) return fail(2, WRONG);
    let text;
    try {
        text = readFileSync(asked.file === "-" ? 0 : asked.file);
    } catch {
        return fail(1, "cannot read");
    }
    const page = (await load()).convert(text, asked.options);
    try {
        write(1, page);
    } catch {
        fail(1, "cannot write");
    }
}

function fail(status, why) {
    process.exitCode = status;
    write(2, Buffer.from(`markdown-proved: ${why}\n`));
}

main(process.argv.slice(2)).catch(fault => fail(1, fault.message));
