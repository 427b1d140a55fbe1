// Markdown to HTML, to events, links and headings, and HTML to a safe page: the library as a WebAssembly module, for browsers and Node.
//
//     import { load } from "./markdown.mjs";
//     const markdown = await load();
//     markdown.toHtml("# Hello, *world*", { gfm: true });
import { EVENT_NAMES } from "./names.mjs";

// Flags, to be added up. include/markdown.h says what each does.
export const DANGEROUS = 1, PLAIN = 2, STRIKETHROUGH = 4, MATH = 8, FRONTMATTER = 16, TASK_LIST_ITEMS = 32, TABLES = 64;
export const AUTOLINK_LITERALS = 128, FOOTNOTES = 256, TAGFILTER = 512, MARK = 1024;
export const GFM = STRIKETHROUGH + TASK_LIST_ITEMS + TABLES + AUTOLINK_LITERALS + FOOTNOTES + TAGFILTER;

const OK = 0, ROOM = 1;
const WRONG_FLAGS = "wrong flags", OUT_OF_MEMORY = "out of memory";
const FAULTS = ["", "", "input is not UTF-8", WRONG_FLAGS, "input is too large", OUT_OF_MEMORY];

// Options that are flags. That of GitHub comes first, so that the others may turn off what it turns on.
const FLAGS = {
    gfm: GFM, dangerous: DANGEROUS, plain: PLAIN, strikethrough: STRIKETHROUGH, math: MATH, frontmatter: FRONTMATTER,
    taskListItems: TASK_LIST_ITEMS, tables: TABLES, autolinkLiterals: AUTOLINK_LITERALS, footnotes: FOOTNOTES,
    tagfilter: TAGFILTER, mark: MARK,
};
// The constructs of the struct markdown_options, in the order of their numbers, and the flags that turn them on, if not all do.
const CONSTRUCTS = {
    attention: 0, autolink: 0, blockQuote: 0, characterEscape: 0, characterReference: 0, codeIndented: 0, codeFenced: 0,
    codeText: 0, definition: 0, frontmatter: FRONTMATTER, gfmAutolinkLiteral: AUTOLINK_LITERALS, gfmFootnoteDefinition: FOOTNOTES,
    gfmLabelStartFootnote: FOOTNOTES, gfmStrikethrough: STRIKETHROUGH, gfmTable: TABLES, gfmTaskListItem: TASK_LIST_ITEMS,
    hardBreakEscape: 0, hardBreakTrailing: 0, headingAtx: 0, headingSetext: 0, htmlFlow: 0, htmlText: 0, labelStartImage: 0,
    labelStartLink: 0, labelEnd: 0, listItem: 0, mark: MARK, mathFlow: MATH, mathText: MATH, thematicBreak: 0,
};
// The switches of that struct, in the order of their numbers, and the flags that turn them on; 0 is never, -1 always.
const SWITCHES = {
    anyImageProtocol: 0, dangerousHtml: DANGEROUS, dangerousProtocol: DANGEROUS, tagfilter: TAGFILTER, checkableTasks: 0,
    singleTilde: -1, singleDollar: -1, headingIds: 0, lazyImages: 0, listedHtml: 0,
};
const DANGEROUS_HTML = 2, HEADING_IDS = 128;
const LINE_ENDINGS = ["\n", "\r", "\r\n"];
// The texts of that struct, and what the module prints for them.
const TEXTS = {
    prefix: "user-content-", footnoteLabel: "Footnotes", footnoteLabelTag: "h2", footnoteLabelAttributes: 'class="sr-only"',
    footnoteBackLabel: "Back to content",
};
const NAMES = new Set(["lineEnding", ...[FLAGS, CONSTRUCTS, SWITCHES, TEXTS].flatMap(Object.keys)]);
const STRINGS = new Set(["lineEnding", ...Object.keys(TEXTS)]);
// The sizes of structs.
const OPTIONS_SIZE = 168, EVENT_SIZE = 32, LINK_SIZE = 88, HEADING_SIZE = 96;
// The options of HTML that is sanitized.
const SANITIZING = new Set(["anyImageProtocol", "dangerousProtocol"]);

const LINK_KINDS = ["link", "image", "autolink", "literal", "definition"];
const NO_DEFINITION = 2n ** 64n - 1n;

// A page of WebAssembly's memory.
const PAGE = 65536;
// An instance whose memory has grown past this many bytes is replaced after the call, so that the engine can free it.
const KEPT = 64 << 20;

const encoder = new TextEncoder();
const decoder = new TextDecoder("utf-8", { ignoreBOM: true });

const roundUp = (n, to) => Math.ceil(n / to) * to;

// A heap in the module's own memory. Only the block allocated last is freed by itself: a call keeps nothing, so `reset` frees
// everything before the next one.
class Heap {
    #memory;
    #base;
    #top;
    #last = 0;

    // The functions that the module imports. Each gets numbers of 64 bits. The first two write their result at `to`: a byte
    // that says whether there was memory, and the address.
    imports = {
        rattle_alloc: (to, size, align) => this.#answer(Number(to), this.allocate(Number(size || align), Number(align))),
        rattle_realloc: (to, at, old, size, align) =>
            this.#answer(Number(to), this.#reallocate(Number(at), Number(old), Number(size || align), Number(align))),
        rattle_dealloc: at => {
            if (Number(at) === this.#last) this.#top = this.#last;
        },
    };

    start({ memory, __heap_base: base }) {
        this.#memory = memory;
        this.#base = roundUp(Number(base.value), 16);
        this.reset();
    }

    reset() {
        this.#top = this.#base;
        this.#last = 0;
    }

    // Returns the address of a new block, or null if there is no memory.
    allocate(size, align = 16) {
        const at = roundUp(this.#top, Math.max(align, 16));
        if (!this.#reach(at + size)) return null;
        this.#last = at;
        this.#top = at + size;
        return at;
    }

    #reallocate(at, old, size, align) {
        if (at === this.#last && this.#reach(at + size)) {
            this.#top = at + size;
            return at;
        }
        const moved = this.allocate(size, align);
        if (moved !== null) new Uint8Array(this.#memory.buffer).copyWithin(moved, at, at + Math.min(old, size));
        return moved;
    }

    #answer(to, at) {
        const view = new DataView(this.#memory.buffer);
        view.setUint8(to, at === null ? 0 : 1);
        view.setBigUint64(to + 8, BigInt(at ?? 16), true);
    }

    // Returns whether the memory reaches to `end`, after it has grown by half if need be, or else as much as needed.
    #reach(end) {
        const size = this.#memory.buffer.byteLength;
        if (end <= size) return true;
        const needed = Math.ceil((end - size) / PAGE);
        for (const pages of [Math.max(needed, Math.ceil(size / PAGE / 2)), needed]) {
            try {
                this.#memory.grow(pages);
                return true;
            } catch (fault) {
                if (!(fault instanceof RangeError)) throw fault;
            }
        }
        return false;
    }
}

// What begins or ends at a point of a text.
class Event {
    #list;
    #index;

    constructor(list, index, view) {
        this.#list = list;
        this.#index = index;
        this.kind = view.getUint8(26) === 0 ? "enter" : "exit";
        this.name = EVENT_NAMES[view.getUint16(24, true)];
        this.offset = integer(view, 0);
        this.line = integer(view, 8);
        this.column = integer(view, 16);
        this.columns = view.getUint8(27);
    }

    get text() {
        const other = this.#list[others(this.#list)[this.#index]].offset;
        return sourceOf.get(this.#list).part(Math.min(this.offset, other), Math.max(this.offset, other));
    }
}

// What leads somewhere, or defines where a label leads.
class Link {
    #source;

    constructor(source, view) {
        this.#source = source;
        this.kind = LINK_KINDS[view.getUint8(80)];
        this.destination = "";
        this.definition = null;
        this.offset = integer(view, 0);
        this.line = integer(view, 8);
        this.column = integer(view, 16);
        this.endOffset = integer(view, 24);
        this.endLine = integer(view, 32);
        this.endColumn = integer(view, 40);
    }

    get text() {
        return this.#source.part(this.offset, this.endOffset);
    }
}

// A heading, by a view of its struct and the texts and slugs of all.
class Heading {
    constructor(texts, view) {
        const part = at => decoder.decode(texts.subarray(integer(view, at), integer(view, at) + integer(view, at + 8)));
        this.rank = view.getUint8(88);
        this.text = part(56);
        this.slug = part(72);
        this.offset = integer(view, 0);
        this.line = integer(view, 8);
        this.column = integer(view, 16);
        this.endOffset = integer(view, 24);
        this.endLine = integer(view, 32);
        this.endColumn = integer(view, 40);
    }
}

// The texts of lists of events, and for each event the index of its exit or enter.
const sourceOf = new WeakMap(), othersOf = new WeakMap();

function others(list) {
    let found = othersOf.get(list);
    if (found === undefined) {
        const entered = [];
        found = new Uint32Array(list.length);
        list.forEach((event, index) => {
            if (event.kind === "enter") entered.push(index);
            else {
                const start = entered.pop();
                found[start] = index;
                found[index] = start;
            }
        });
        othersOf.set(list, found);
    }
    return found;
}

// Views of the structs of this size in an array.
const viewsOf = (array, size) =>
    Array.from({ length: array.length / size }, (_, place) => new DataView(array.buffer, array.byteOffset + place * size, size));

const integer = (view, at) => Number(view.getBigUint64(at, true));

// A text as it was given, in UTF-8.
class Source {
    constructor(text) {
        this.isString = typeof text === "string";
        if (!this.isString && !(text instanceof Uint8Array)) throw new TypeError("the text must be a string or a Uint8Array");
        this.bytes = this.isString ? encoder.encode(text) : text;
    }

    part(start, end) {
        return this.isString ? decoder.decode(this.bytes.subarray(start, end)) : this.bytes.slice(start, end);
    }
}

// The tags of footnotes, with the texts above. A page without raw HTML, or with raw HTML by the list, has such a tag only where a
// footnote or a call is, since a text has no `<`, no value has a `"`, and no tag of the list has an id.
const FOOTNOTE_TAGS = new RegExp([
    '<a href="#user-content-(?<called>fn-[^"]*)" id="user-content-(?<call>[^"]*)"(?= data-footnote-ref="")',
    '<li id="user-content-(?<footnote>fn-[^"]*)">',
    '<a href="#user-content-(?<back>[^"]*)" data-footnote-backref="" aria-label="Back to content"',
    '(?<heading><h2 id="footnote-label" class="sr-only">Footnotes</h2>)',
].join("|"), "g");

const REFERENCES = { "&": "&amp;", '"': "&quot;", "<": "&lt;", ">": "&gt;", "\0": "\ufffd" };
const escaped = text => decoder.decode(encoder.encode(text)).replace(/[&"<>\0]/g, byte => REFERENCES[byte]);

// A page with other texts of footnotes. (The module owns no strings, so it prints the default ones.)
function withTexts(page, texts) {
    const { prefix, footnoteLabel, footnoteLabelTag, footnoteLabelAttributes, footnoteBackLabel } = { ...TEXTS, ...texts };
    const [ids, label, tag, back] = [prefix, footnoteLabel, footnoteLabelTag, footnoteBackLabel].map(escaped);
    return page.replace(FOOTNOTE_TAGS, (...found) => {
        const { called, call, footnote, back: to } = found.at(-1);
        if (called !== undefined) return `<a href="#${ids}${called}" id="${ids}${call}"`;
        if (footnote !== undefined) return `<li id="${ids}${footnote}">`;
        if (to !== undefined) return `<a href="#${ids}${to}" data-footnote-backref="" aria-label="${back}"`;
        return `<${tag} id="footnote-label" ${footnoteLabelAttributes}>${label}</${tag}>`;
    });
}

// The numbers that are turned on by flags or by options of their own, added up.
function numbers(table, flags, options) {
    return Object.entries(table).reduce((sum, [name, flag], place) => {
        const own = name in FLAGS ? undefined : options[name]; // a construct's own name wins over plain
        const isOn = own ?? (flag === -1 || (flag !== 0 && (flags & flag) !== 0));
        return isOn ? sum + 2 ** place : sum;
    }, 0);
}

// The numbers of the struct markdown_options, and its texts that are given.
function read(options) {
    const given = typeof options === "number" ? { flags: options } : options ?? {};
    if (typeof given !== "object") throw new TypeError("options must be an object or a sum of flags");
    let flags = given.flags ?? 0;
    if (flags >>> 0 !== flags || flags >= 2 * MARK) throw new Error(WRONG_FLAGS);
    for (const [name, value] of Object.entries(given)) {
        if (name === "flags" || value === undefined) continue;
        if (!NAMES.has(name)) throw new TypeError(`unknown option ${name}`);
        const type = STRINGS.has(name) ? "string" : "boolean";
        if (typeof value !== type) throw new TypeError(`${name} must be a ${type}`);
    }
    for (const [name, flag] of Object.entries(FLAGS)) {
        if (given[name] !== undefined) flags = given[name] ? flags | flag : flags & ~flag;
    }
    const ending = LINE_ENDINGS.indexOf(given.lineEnding ?? "\n");
    if (ending < 0) throw new TypeError("lineEnding must be LF, CR or both");
    const texts = Object.fromEntries(Object.keys(TEXTS).filter(name => given[name] !== undefined).map(name => [name, given[name]]));
    const switches = numbers(SWITCHES, flags, given);
    // A tag of raw HTML that isn't of the list could be one of a footnote.
    if (Object.keys(texts).length > 0 && (switches & DANGEROUS_HTML) !== 0) throw new TypeError("texts of footnotes need safe HTML");
    // (The module leaves out the ids that footnotes with the default prefix may have.)
    if (texts.prefix !== undefined && (switches & HEADING_IDS) !== 0) throw new TypeError("headingIds needs the default prefix of footnotes");
    const core = Object.fromEntries(Object.entries(CONSTRUCTS).map(([name, flag]) => [name, flag || -1]));
    const none = Object.fromEntries(Object.keys(CONSTRUCTS).map(name => [name, 0]));
    return {
        constructs: numbers(flags & PLAIN ? none : core, flags, given),
        switches,
        ending,
        texts,
    };
}

class Markdown {
    #module;
    #heap;
    #exports;

    constructor(module, heap, instance) {
        this.#module = module;
        this.#use(heap, instance);
    }

    get version() {
        const version = this.#exports.markdown_version();
        return [version >> 16, version >> 8 & 255, version & 255].join(".");
    }

    toHtml(text, options) {
        if (typeof text !== "string") throw new TypeError("the text must be a string");
        return decoder.decode(this.convert(encoder.encode(text), options));
    }

    convert(text, options) {
        const { bytes } = new Source(text);
        const room = bytes.length + Math.ceil(bytes.length / 4) + 64;
        const { constructs, switches, ending, texts } = read(options);
        const [page] = this.#call("markdown_convert_by_numbers", bytes, [BigInt(constructs), switches, ending], [{ size: 1, room }]);
        return Object.keys(texts).length === 0 ? page : encoder.encode(withTexts(decoder.decode(page), texts));
    }

    isSafePage(page) {
        const number = this.#call("markdown_check_page", new Source(page).bytes, null, [], 4);
        return number[0] === 1;
    }

    events(text, options) {
        const source = new Source(text);
        const room = (source.bytes.length >> 1) + 64; // READMEs have an event for three bytes
        const [array] = this.#call("markdown_list_events_with", source.bytes, read(options), [{ size: EVENT_SIZE, room }]);
        const list = [];
        for (let at = 0; at < array.length; at += EVENT_SIZE) list.push(new Event(list, list.length, new DataView(array.buffer, at)));
        sourceOf.set(list, source);
        return list;
    }

    links(text, options) {
        const source = new Source(text);
        const size = source.bytes.length;
        const arrays = [{ size: LINK_SIZE, room: (size >> 6) + 16 }, { size: 1, room: (size >> 1) + 64 }];
        const [array, destinations] = this.#call("markdown_list_links_with", source.bytes, read(options), arrays);
        const views = viewsOf(array, LINK_SIZE);
        const list = views.map(view => new Link(source, view));
        const isReference = view => view.getBigUint64(72, true) !== NO_DEFINITION;
        views.forEach((view, index) => {
            const start = integer(view, 56);
            if (!isReference(view)) list[index].destination = decoder.decode(destinations.subarray(start, start + integer(view, 64)));
        });
        // A reference shares the destination of its definition.
        views.forEach((view, index) => {
            if (isReference(view)) list[index].definition = list[integer(view, 72)];
            if (isReference(view)) list[index].destination = list[index].definition.destination;
        });
        return list;
    }

    outline(text, options) {
        const source = new Source(text);
        const size = source.bytes.length;
        const arrays = [{ size: HEADING_SIZE, room: (size >> 6) + 16 }, { size: 1, room: (size >> 2) + 64 }];
        const [array, texts] = this.#call("markdown_list_outline_with", source.bytes, read(options), arrays);
        return viewsOf(array, HEADING_SIZE).map(view => new Heading(texts, view));
    }

    sanitize(html, options) {
        const given = { ...options }, unknown = Object.keys(given).find(name => !SANITIZING.has(name));
        if (unknown !== undefined) throw new TypeError(`unknown option ${unknown}`);
        return this.#changed("markdown_sanitize_with", html, read(given));
    }

    decode(text) {
        return this.#changed("markdown_decode", text);
    }

    normalizeLabel(label) {
        return this.#changed("markdown_normalize_label", label);
    }

    #changed(name, text, options = null) {
        const source = new Source(text);
        const room = source.bytes.length + (source.bytes.length >> 2) + 64;
        const [bytes] = this.#call(name, source.bytes, options, [{ size: 1, room }]);
        return source.isString ? decoder.decode(bytes) : bytes;
    }

    // Calls a function of the library with a text, options or numbers if it takes some, arrays to be filled and a number of this size, and
    // returns these arrays, or the number's bytes.
    #call(name, text, options, arrays, number = 0) {
        try {
            const filled = this.#filled(this.#exports[name], text, options, arrays, number);
            if (this.#exports.memory.buffer.byteLength > KEPT) this.#replace();
            return filled;
        } catch (fault) {
            // After a trap, as a stack overflow, the instance can't be used again.
            this.#replace();
            throw fault;
        }
    }

    #filled(call, text, options, arrays, number) {
        for (;;) {
            this.#heap.reset();
            const words = [this.#put(text), BigInt(text.length)];
            if (Array.isArray(options)) words.push(...options);
            else if (options !== null) words.push(this.#putOptions(options));
            const places = arrays.map(({ size, room }) => ({ at: this.#reserve(size * room), used: this.#reserve(8) }));
            arrays.forEach(({ room }, index) => words.push(places[index].at, BigInt(room), places[index].used));
            const out = number === 0 ? [] : [this.#reserve(number)];
            const status = call(...words, ...out);
            const bytes = new Uint8Array(this.#exports.memory.buffer);
            const part = (at, size) => bytes.slice(Number(at), Number(at) + size);
            const used = places.map(place => integer(new DataView(bytes.buffer), Number(place.used)));
            if (status === OK && number !== 0) return part(out[0], number);
            if (status === OK) return arrays.map(({ size }, index) => part(places[index].at, used[index] * size));
            if (status !== ROOM) throw new Error(FAULTS[status]);
            arrays.forEach((array, index) => (array.room = Math.max(array.room, used[index])));
        }
    }

    // The address of a new block of the module's memory.
    #reserve(size) {
        const at = this.#heap.allocate(size);
        if (at === null) throw new Error(OUT_OF_MEMORY);
        return BigInt(at);
    }

    #put(bytes) {
        const at = this.#reserve(bytes.length);
        new Uint8Array(this.#exports.memory.buffer).set(bytes, Number(at));
        return at;
    }

    // (Calls that take the struct read no texts of it; each is empty here.)
    #putOptions({ constructs, switches, ending }) {
        const at = this.#reserve(OPTIONS_SIZE);
        const view = new DataView(this.#exports.memory.buffer, Number(at));
        view.setBigUint64(0, BigInt(OPTIONS_SIZE), true);
        view.setBigUint64(8, BigInt(constructs), true);
        view.setUint32(16, switches, true);
        view.setUint32(20, ending, true);
        for (let text = 24; text < OPTIONS_SIZE; text += 16) {
            view.setBigUint64(text, at, true);
            view.setBigUint64(text + 8, 0n, true);
        }
        return at;
    }

    #use(heap, instance) {
        this.#heap = heap;
        this.#exports = instance.exports;
        heap.start(instance.exports);
    }

    // Takes a new instance. (A browser that allows none here, without waiting, goes on with the old one.)
    #replace() {
        const heap = new Heap();
        try {
            this.#use(heap, new WebAssembly.Instance(this.#module, { heap: heap.imports }));
        } catch (fault) {
            if (!(fault instanceof RangeError)) throw fault;
        }
    }
}

// Returns the module's bytes at a URL, compiled.
async function compile(url) {
    if (url.protocol === "file:") {
        const { readFile } = await import("node:fs/promises");
        return WebAssembly.compile(await readFile(url));
    }
    const response = await fetch(url);
    if (!response.ok) throw new Error(`${url}: ${response.status}`);
    // (a server that doesn't know the type of .wasm)
    if (response.headers.get("content-type") !== "application/wasm") return WebAssembly.compile(await response.arrayBuffer());
    return WebAssembly.compileStreaming(response);
}

export async function load(source = new URL("markdown.wasm", import.meta.url)) {
    let module = source;
    if (typeof source === "string" || source instanceof URL) module = await compile(new URL(source, import.meta.url));
    else if (!(source instanceof WebAssembly.Module)) module = await WebAssembly.compile(source);
    const heap = new Heap();
    return new Markdown(module, heap, await WebAssembly.instantiate(module, { heap: heap.imports }));
}
