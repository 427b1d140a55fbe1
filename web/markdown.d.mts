/** Keep HTML and every protocol of the input. Only for input from trusted authors. */
export declare const DANGEROUS: 1;
/** Turn every construct off: the input is paragraphs. This wins over the flags below. */
export declare const PLAIN: 2;
/** `~~a~~` and `~a~` are struck through. */
export declare const STRIKETHROUGH: 4;
/** `$a$` and `$$a$$` are math, and so is a block between lines of `$$`. */
export declare const MATH: 8;
/** Skip metadata at the start of the input, between lines of `---` or of `+++`. */
export declare const FRONTMATTER: 16;
/** An item that begins with `[ ]` or `[x]` has a check box. */
export declare const TASK_LIST_ITEMS: 32;
/** A row of delimiters below a line, as `| - | - |`, makes a table. */
export declare const TABLES: 64;
/** `www.a.b`, `https://a.b` and `a@b.c` are links. */
export declare const AUTOLINK_LITERALS: 128;
/** `[^a]` calls the footnote that `[^a]: b` defines. */
export declare const FOOTNOTES: 256;
/** With `DANGEROUS`: escape `<` before nine names, as `script`. */
export declare const TAGFILTER: 512;
/** `==a==` is marked text. */
export declare const MARK: 1024;
/** GitHub Flavored Markdown: the sum of the flags that GitHub turns on. */
export declare const GFM: 996;

/** How a text is read. A construct that isn't given is on if CommonMark has it, or if another option turns it on. */
export interface ReadOptions {
    /** A sum of flags, to which the options below add. */
    flags?: number;
    /** What GitHub turns on: strikethrough, task list items, tables, links, footnotes, tag filter. */
    gfm?: boolean;
    /** Turn every construct off: the input is paragraphs. This wins over the options below that have no name of a construct. */
    plain?: boolean;
    /** `~~a~~` and `~a~` are struck through. */
    strikethrough?: boolean;
    /** `$a$` and `$$a$$` are math, and so is a block between lines of `$$`. */
    math?: boolean;
    /** Skip metadata at the start of the input, between lines of `---` or of `+++`. */
    frontmatter?: boolean;
    /** An item that begins with `[ ]` or `[x]` has a check box. */
    taskListItems?: boolean;
    /** A row of delimiters below a line, as `| - | - |`, makes a table. */
    tables?: boolean;
    /** `www.a.b`, `https://a.b` and `a@b.c` are links. */
    autolinkLiterals?: boolean;
    /** `[^a]` calls the footnote that `[^a]: b` defines. */
    footnotes?: boolean;
    /** `==a==` is marked text. */
    mark?: boolean;
    /** One tilde strikes text, as in `~a~`. On by default. */
    singleTilde?: boolean;
    /** One dollar makes math, as in `$a$`. On by default. */
    singleDollar?: boolean;
    attention?: boolean;
    autolink?: boolean;
    blockQuote?: boolean;
    characterEscape?: boolean;
    characterReference?: boolean;
    codeIndented?: boolean;
    codeFenced?: boolean;
    codeText?: boolean;
    definition?: boolean;
    gfmAutolinkLiteral?: boolean;
    gfmFootnoteDefinition?: boolean;
    gfmLabelStartFootnote?: boolean;
    gfmStrikethrough?: boolean;
    gfmTable?: boolean;
    gfmTaskListItem?: boolean;
    hardBreakEscape?: boolean;
    hardBreakTrailing?: boolean;
    headingAtx?: boolean;
    headingSetext?: boolean;
    htmlFlow?: boolean;
    htmlText?: boolean;
    labelStartImage?: boolean;
    labelStartLink?: boolean;
    labelEnd?: boolean;
    listItem?: boolean;
    mathFlow?: boolean;
    mathText?: boolean;
    thematicBreak?: boolean;
}

/** How a text is read, and how its HTML is printed. */
export interface Options extends ReadOptions {
    /** Keep HTML and every protocol of the input. Only for input from trusted authors. */
    dangerous?: boolean;
    /** Keep HTML of the input. */
    dangerousHtml?: boolean;
    /** Keep every protocol of links and images. */
    dangerousProtocol?: boolean;
    /** Keep every protocol of images. */
    anyImageProtocol?: boolean;
    /** With HTML that is kept: escape `<` before nine names, as `script`. */
    tagfilter?: boolean;
    /** Check boxes of items aren't disabled. */
    checkableTasks?: boolean;
    /**
     * What the ids of footnotes begin with. By default `user-content-`. This and the next four throw a `TypeError` if HTML of the
     * input is kept.
     */
    prefix?: string;
    /** The heading above footnotes. By default `Footnotes`. */
    footnoteLabel?: string;
    /** The name of its tag. By default `h2`. Never take it from an input. */
    footnoteLabelTag?: string;
    /** Its attributes, printed as given. By default `class="sr-only"`. Never take them from an input. */
    footnoteLabelAttributes?: string;
    /** The label of the link from a footnote to its call. By default `Back to content`. */
    footnoteBackLabel?: string;
    /** Headings have ids, as GitHub makes them. Throws a `TypeError` beside `prefix`. */
    headingIds?: boolean;
    /** Images have `loading="lazy"`. */
    lazyImages?: boolean;
    /**
     * Keep HTML of the input by a list of elements and attributes, and escape the rest. With `dangerousHtml` all of it is kept. Show
     * the page in an element such as `div`, and not in `p` or `span`.
     */
    listedHtml?: boolean;
    /** What ends a line of the HTML if the input has no line ending. By default LF. */
    lineEnding?: "\n" | "\r" | "\r\n";
}

/** Which URLs are kept of HTML. By default only those with a permitted protocol or none. */
export interface SanitizeOptions {
    /** Keep every protocol of links and images. */
    dangerousProtocol?: boolean;
    /** Keep every protocol of images. */
    anyImageProtocol?: boolean;
}

/** Something begins or ends at a point of a text. */
export interface Event<Text extends string | Uint8Array = string> {
    readonly kind: "enter" | "exit";
    /** What begins or ends: `Paragraph`, .. */
    readonly name: string;
    /** How many bytes of the text in UTF-8 are before. */
    readonly offset: number;
    /** The line, from 1. */
    readonly line: number;
    /** The column, from 1: a byte takes one, a tab goes to the next stop. */
    readonly column: number;
    /** Within the tab at `offset`: how many of its columns are before. Otherwise 0. */
    readonly columns: number;
    /** What is between the enter and the exit. */
    readonly text: Text;
}

/** A link, an image, or a definition of where a label leads. */
export interface Link<Text extends string | Uint8Array = string> {
    /** `[a](b)`, `![a](b)`, `<https://a.b>`, `www.a.b`, or `[a]: b`. */
    readonly kind: "link" | "image" | "autolink" | "literal" | "definition";
    /** Where it leads, not percent-encoded; `mailto:` is before an email address, and `http://` before `www.`. */
    readonly destination: string;
    /** For a link or an image by reference: the definition that its label leads to. Otherwise null. */
    readonly definition: Link<Text> | null;
    /** How many bytes of the text in UTF-8 are before. */
    readonly offset: number;
    /** The line of its start, from 1. */
    readonly line: number;
    /** The column of its start, from 1. */
    readonly column: number;
    /** How many bytes of the text in UTF-8 are before its end. */
    readonly endOffset: number;
    /** The line of its end, from 1. */
    readonly endLine: number;
    /** The column of its end, from 1. */
    readonly endColumn: number;
    /** The link as it is written. */
    readonly text: Text;
}

/** A heading. */
export interface Heading {
    /** From 1 to 6. */
    readonly rank: number;
    /** What it says: without tags and images, with escapes and character references replaced. */
    readonly text: string;
    /** What GitHub uses as its id. No other heading of the text has it. It may be empty. */
    readonly slug: string;
    /** How many bytes of the text in UTF-8 are before. */
    readonly offset: number;
    /** The line of its start, from 1. */
    readonly line: number;
    /** The column of its start, from 1. */
    readonly column: number;
    /** How many bytes of the text in UTF-8 are before its end. */
    readonly endOffset: number;
    /** The line of its end, from 1. */
    readonly endLine: number;
    /** The column of its end, from 1. */
    readonly endColumn: number;
}

/**
 * An instance of the library. It keeps nothing between calls. Texts are strings, or bytes in UTF-8; a lone surrogate in a string is
 * converted to U+FFFD. Options are an object, or a sum of flags. Without options the HTML is safe to show.
 *
 * All calls throw a `TypeError` for an unknown option or one of a wrong type, and an `Error`: "wrong flags", "input is not UTF-8",
 * "input is too large" or "out of memory".
 */
export interface Markdown {
    /** The version, as `0.1.0`. */
    readonly version: string;
    /** Returns the HTML of `text`. */
    toHtml(text: string, options?: Options | number): string;
    /** Returns the HTML of a text in UTF-8, in UTF-8. */
    convert(text: Uint8Array, options?: Options | number): Uint8Array;
    /**
     * Returns whether `page` is HTML as the converter prints it without `dangerous`: known tags, each closed, with known attributes,
     * and no script, whatever text it was made of.
     */
    isSafePage(page: string | Uint8Array): boolean;
    /** Returns the events of `text`, in order: what begins and ends where. */
    events<Text extends string | Uint8Array>(text: Text, options?: ReadOptions | number): Event<Text>[];
    /**
     * Returns the links, images, autolinks, literals and definitions of `text`, in the order in which they start: where each is, and
     * where it leads. A link by reference has the destination of its definition.
     */
    links<Text extends string | Uint8Array>(text: Text, options?: ReadOptions | number): Link<Text>[];
    /** Returns the headings of `text`, in the order in which they start, those in quotes, items and footnotes too. */
    outline(text: string | Uint8Array, options?: ReadOptions | number): Heading[];
    /**
     * Returns what is kept of `html`, HTML of any origin, by a fixed list of elements and attributes. Other tags are printed as text,
     * comments are dropped, and elements that aren't closed are closed. Without options it has no script, and no URL with a
     * protocol that isn't allowed. Put it into a block, such as `div`, not into `p` or `span`.
     */
    sanitize<Text extends string | Uint8Array>(html: Text, options?: SanitizeOptions): Text;
    /**
     * Returns what `text` stands for as a destination, a title or an info: escapes and character references are replaced, and
     * spaces and tabs around line endings are dropped.
     */
    decode<Text extends string | Uint8Array>(text: Text): Text;
    /** Returns the form in which a label, without its brackets, matches others: its case folded, and one space for white space. */
    normalizeLabel<Text extends string | Uint8Array>(label: Text): Text;
}

/**
 * Compiles and starts the library.
 * @param source where markdown.wasm is, or what is in it; by default the file beside this module
 */
export declare function load(source?: string | URL | BufferSource | WebAssembly.Module): Promise<Markdown>;
