//! Markdown to HTML, over the static library of C calls.

use std::fmt;

/// What `include/markdown.h` declares.
pub(crate) mod calls {
    pub const OK: u32 = 0;
    pub const ROOM: u32 = 1;
    pub const UTF8: u32 = 2;
    pub const FLAGS: u32 = 3;
    pub const SIZE: u32 = 4;

    pub const DANGEROUS: u32 = 1;
    pub const PLAIN: u32 = 2;
    pub const STRIKETHROUGH: u32 = 4;
    pub const MATH: u32 = 8;
    pub const FRONTMATTER: u32 = 16;
    pub const TASK_LIST_ITEMS: u32 = 32;
    pub const TABLES: u32 = 64;
    pub const AUTOLINK_LITERALS: u32 = 128;
    pub const FOOTNOTES: u32 = 256;
    pub const TAGFILTER: u32 = 512;
    pub const MARK: u32 = 1024;
    pub const COMMONMARK: u64 = 603_914_751;

    /// A text: so many bytes at a place.
    #[repr(C)]
    pub struct Text {
        start: *const u8,
        length: usize,
    }

    impl From<&str> for Text {
        fn from(text: &str) -> Text {
            Text {
                start: text.as_ptr(),
                length: text.len(),
            }
        }
    }

    #[repr(C)]
    pub struct Options {
        pub size: usize,
        pub constructs: u64,
        pub switches: u32,
        pub default_line_ending: u32,
        pub gfm_footnote_back_label: Text,
        pub gfm_footnote_clobber_prefix: Text,
        pub gfm_footnote_label: Text,
        pub gfm_footnote_label_attributes: Text,
        pub gfm_footnote_label_tag_name: Text,
        pub heading_id_prefix: Text,
        pub link_base: Text,
        pub image_base: Text,
        pub link_rel: Text,
    }

    #[link(name = "markdown-proved", kind = "static")]
    extern "C" {
        pub fn markdown_convert_with(
            text: *const u8,
            text_length: usize,
            options: *const Options,
            buffer: *mut u8,
            room: usize,
            length: *mut usize,
        ) -> u32;

        pub fn markdown_sanitize_with(
            html: *const u8,
            html_length: usize,
            options: *const Options,
            buffer: *mut u8,
            room: usize,
            length: *mut usize,
        ) -> u32;

        pub fn markdown_decode(
            text: *const u8,
            text_length: usize,
            buffer: *mut u8,
            room: usize,
            length: *mut usize,
        ) -> u32;

        pub fn markdown_normalize_label(
            label: *const u8,
            label_length: usize,
            buffer: *mut u8,
            room: usize,
            length: *mut usize,
        ) -> u32;

        pub fn markdown_check_page(page: *const u8, length: usize, is_safe: *mut u32) -> u32;
    }
}

/// How a text is read and printed; by default as CommonMark, and safely.
#[derive(Clone, Copy, Debug, Default)]
pub struct Flags {
    /// HTML of the text is printed as it is, and links may have any protocol.
    pub dangerous: bool,
    /// Every construct is off, those of the fields below too.
    pub plain: bool,
    /// `~~a~~` is struck through.
    pub strikethrough: bool,
    /// `$a$` is math, and so is a block between lines of `$$`.
    pub math: bool,
    /// Metadata at the front of a text is skipped.
    pub frontmatter: bool,
    /// An item that begins with `[ ]` or `[x]` has a check box.
    pub task_list_items: bool,
    /// A row of delimiters below a line makes a table.
    pub tables: bool,
    /// `www.a.b`, `https://a.b` and `a@b.c` are links.
    pub autolink_literals: bool,
    /// `[^a]` calls the footnote that `[^a]: b` defines.
    pub footnotes: bool,
    /// Where HTML is printed as it is, `<` before nine names is printed as text.
    pub tagfilter: bool,
    /// `==a==` is marked text.
    pub mark: bool,
}

impl Flags {
    /// These flags, and those for what GitHub does.
    pub fn with_gfm(self) -> Flags {
        Flags {
            strikethrough: true,
            task_list_items: true,
            tables: true,
            autolink_literals: true,
            footnotes: true,
            tagfilter: true,
            ..self
        }
    }

    pub(crate) fn sum(self) -> u32 {
        [
            (self.dangerous, calls::DANGEROUS),
            (self.plain, calls::PLAIN),
            (self.strikethrough, calls::STRIKETHROUGH),
            (self.math, calls::MATH),
            (self.frontmatter, calls::FRONTMATTER),
            (self.task_list_items, calls::TASK_LIST_ITEMS),
            (self.tables, calls::TABLES),
            (self.autolink_literals, calls::AUTOLINK_LITERALS),
            (self.footnotes, calls::FOOTNOTES),
            (self.tagfilter, calls::TAGFILTER),
            (self.mark, calls::MARK),
        ]
        .into_iter()
        .filter_map(|(asked, flag)| asked.then_some(flag))
        .sum()
    }
}

/// A construct of Markdown, by its number in the header.
#[derive(Clone, Copy, Debug, PartialEq, Eq)]
#[repr(u64)]
pub enum Construct {
    /// Emphasis and strong emphasis by `*` and `_` (CommonMark 6.2).
    Attention = 1,
    /// Links in angle brackets, such as `<https://example.com>` (CommonMark 6.5).
    Autolink = 2,
    /// Block quotes by `>` (CommonMark 5.1).
    BlockQuote = 4,
    /// A backslash before ASCII punctuation (CommonMark 2.4).
    CharacterEscape = 8,
    /// Characters by name or number, as `&amp;` and `&#38;` (CommonMark 2.5).
    CharacterReference = 16,
    /// Code blocks by indentation (CommonMark 4.4).
    CodeIndented = 32,
    /// Code blocks between fences of backticks or tildes (CommonMark 4.5).
    CodeFenced = 64,
    /// Code spans between backticks (CommonMark 6.1).
    CodeText = 128,
    /// Definitions of links, as `[a]: b` (CommonMark 4.7).
    Definition = 256,
    /// Metadata at the start of a text, between lines of `---` or `+++`; in neither standard.
    Frontmatter = 512,
    /// Bare links, such as `www.example.com`, and email addresses (GFM 6.9).
    GfmAutolinkLiteral = 1024,
    /// Definitions of footnotes, as `[^a]: b`; GitHub has them, and GFM has no section on them.
    GfmFootnoteDefinition = 2048,
    /// Calls of footnotes, as `[^a]`; GitHub has them, and GFM has no section on them.
    GfmLabelStartFootnote = 4096,
    /// Strikethrough by `~` (GFM 6.5).
    GfmStrikethrough = 8192,
    /// Tables (GFM 4.10).
    GfmTable = 16384,
    /// Check boxes at the start of an item, such as `[x]` (GFM 5.3).
    GfmTaskListItem = 32768,
    /// Line breaks by a backslash (CommonMark 6.7).
    HardBreakEscape = 65536,
    /// Line breaks by spaces at a line's end (CommonMark 6.7).
    HardBreakTrailing = 131072,
    /// Headings that begin with `#` (CommonMark 4.2).
    HeadingAtx = 262144,
    /// Headings with a line of `=` or `-` below (CommonMark 4.3).
    HeadingSetext = 524288,
    /// HTML blocks (CommonMark 4.6).
    HtmlFlow = 1048576,
    /// Raw HTML in text (CommonMark 6.6).
    HtmlText = 2097152,
    /// The start `![` of an image (CommonMark 6.4).
    LabelStartImage = 4194304,
    /// The start `[` of a link (CommonMark 6.3).
    LabelStartLink = 8388608,
    /// The end `]` of a link or an image (CommonMark 6.3 and 6.4).
    LabelEnd = 16777216,
    /// List items (CommonMark 5.2).
    ListItem = 33554432,
    /// Marked text by `==`; in neither standard.
    Mark = 67108864,
    /// Blocks of math between fences of dollars; in neither standard.
    MathFlow = 134217728,
    /// Math within text, between dollars; in neither standard.
    MathText = 268435456,
    /// Breaks by a line of `*`, `-` or `_` (CommonMark 4.1).
    ThematicBreak = 536870912,
}

/// What else can be on or off, by its number in the header.
#[derive(Clone, Copy, Debug, PartialEq, Eq)]
#[repr(u32)]
pub enum Switch {
    /// Images may have any protocol.
    AllowAnyImgSrc = 1,
    /// HTML of the text is printed as it is.
    AllowDangerousHtml = 2,
    /// Links and images may have any protocol.
    AllowDangerousProtocol = 4,
    /// Where HTML is printed as it is, `<` before nine names is printed as text.
    GfmTagfilter = 8,
    /// Check boxes of items aren't `disabled`.
    GfmTaskListItemCheckable = 16,
    /// One tilde strikes text too, as in `~a~`.
    GfmStrikethroughSingleTilde = 32,
    /// One dollar makes math too, as in `$a$`.
    MathTextSingleDollar = 64,
    /// Headings have ids, as GitHub makes them.
    HeadingIds = 128,
    /// Images have `loading="lazy"`.
    LazyImages = 256,
    /// HTML of the text is kept by a list of elements and attributes, and the rest of it is text. With `AllowDangerousHtml` all of
    /// it is kept.
    AllowListedHtml = 512,
}

/// What is printed at a line's end if the text has no line ending.
#[derive(Clone, Copy, Debug, PartialEq, Eq)]
#[repr(u32)]
pub enum LineEnding {
    LineFeed = 0,
    CarriageReturn = 1,
    CarriageReturnLineFeed = 2,
}

/// All that can be asked for. `Options::from(flags)` begins with flags, and each method changes one thing.
#[derive(Clone, Copy, Debug)]
pub struct Options<'a> {
    constructs: u64,
    switches: u32,
    default_line_ending: LineEnding,
    back_label: &'a str,
    clobber_prefix: &'a str,
    label: &'a str,
    label_attributes: &'a str,
    label_tag_name: &'a str,
    heading_id_prefix: &'a str,
    link_base: &'a str,
    image_base: &'a str,
    link_rel: &'a str,
}

impl From<Flags> for Options<'static> {
    fn from(flags: Flags) -> Options<'static> {
        let options = Options {
            constructs: if flags.plain { 0 } else { calls::COMMONMARK },
            switches: 0,
            default_line_ending: LineEnding::LineFeed,
            back_label: "Back to content",
            clobber_prefix: "user-content-",
            label: "Footnotes",
            label_attributes: "class=\"sr-only\"",
            label_tag_name: "h2",
            heading_id_prefix: "",
            link_base: "",
            image_base: "",
            link_rel: "",
        };
        [
            (flags.strikethrough, Construct::GfmStrikethrough),
            (flags.math, Construct::MathFlow),
            (flags.math, Construct::MathText),
            (flags.frontmatter, Construct::Frontmatter),
            (flags.task_list_items, Construct::GfmTaskListItem),
            (flags.tables, Construct::GfmTable),
            (flags.autolink_literals, Construct::GfmAutolinkLiteral),
            (flags.footnotes, Construct::GfmFootnoteDefinition),
            (flags.footnotes, Construct::GfmLabelStartFootnote),
            (flags.mark, Construct::Mark),
        ]
        .into_iter()
        .filter(|(asked, _)| *asked && !flags.plain)
        .fold(options, |options, (_, construct)| {
            options.construct(construct, true)
        })
        .switch(Switch::AllowDangerousHtml, flags.dangerous)
        .switch(Switch::AllowDangerousProtocol, flags.dangerous)
        .switch(Switch::GfmTagfilter, flags.tagfilter)
        .switch(Switch::GfmStrikethroughSingleTilde, true)
        .switch(Switch::MathTextSingleDollar, true)
    }
}

impl<'a> Options<'a> {
    /// Turns a construct on or off.
    pub fn construct(mut self, construct: Construct, on: bool) -> Self {
        let number = construct as u64;
        self.constructs = if on {
            self.constructs | number
        } else {
            self.constructs & !number
        };
        self
    }

    /// Turns a switch on or off.
    pub fn switch(mut self, switch: Switch, on: bool) -> Self {
        let number = switch as u32;
        self.switches = if on {
            self.switches | number
        } else {
            self.switches & !number
        };
        self
    }

    /// The line ending that is printed if the text has none.
    pub fn default_line_ending(mut self, ending: LineEnding) -> Self {
        self.default_line_ending = ending;
        self
    }

    /// What screen readers say of the link from a footnote back to its call.
    pub fn gfm_footnote_back_label(mut self, text: &'a str) -> Self {
        self.back_label = text;
        self
    }

    /// What the ids of footnotes and of their calls begin with. Give each text on a page another prefix.
    pub fn gfm_footnote_clobber_prefix(mut self, text: &'a str) -> Self {
        self.clobber_prefix = text;
        self
    }

    /// The heading above the footnotes.
    pub fn gfm_footnote_label(mut self, text: &'a str) -> Self {
        self.label = text;
        self
    }

    /// The attributes of that heading, printed as they are.
    pub fn gfm_footnote_label_attributes(mut self, text: &'a str) -> Self {
        self.label_attributes = text;
        self
    }

    /// The tag name of that heading, printed as it is.
    pub fn gfm_footnote_label_tag_name(mut self, text: &'a str) -> Self {
        self.label_tag_name = text;
        self
    }

    /// What the ids of headings, and links to fragments of the page, begin with if headings have ids. Give each text on a page
    /// another prefix.
    pub fn heading_id_prefix(mut self, text: &'a str) -> Self {
        self.heading_id_prefix = text;
        self
    }

    /// What is printed before the destinations of links that are relative paths.
    pub fn link_base(mut self, text: &'a str) -> Self {
        self.link_base = text;
        self
    }

    /// What is printed before the URLs of images that are relative paths. An empty text stands for `link_base`.
    pub fn image_base(mut self, text: &'a str) -> Self {
        self.image_base = text;
        self
    }

    /// The `rel` of links, except those of footnotes. If it is empty, they have none.
    pub fn link_rel(mut self, text: &'a str) -> Self {
        self.link_rel = text;
        self
    }

    pub(crate) fn for_c(&self) -> calls::Options {
        calls::Options {
            size: std::mem::size_of::<calls::Options>(),
            constructs: self.constructs,
            switches: self.switches,
            default_line_ending: self.default_line_ending as u32,
            gfm_footnote_back_label: self.back_label.into(),
            gfm_footnote_clobber_prefix: self.clobber_prefix.into(),
            gfm_footnote_label: self.label.into(),
            gfm_footnote_label_attributes: self.label_attributes.into(),
            gfm_footnote_label_tag_name: self.label_tag_name.into(),
            heading_id_prefix: self.heading_id_prefix.into(),
            link_base: self.link_base.into(),
            image_base: self.image_base.into(),
            link_rel: self.link_rel.into(),
        }
    }
}

/// Why there is no page.
#[derive(Clone, Copy, Debug, PartialEq, Eq)]
pub enum Fault {
    Size,
    Memory,
}

impl fmt::Display for Fault {
    fn fmt(&self, f: &mut fmt::Formatter) -> fmt::Result {
        f.write_str(match self {
            Fault::Size => "input is too large",
            Fault::Memory => "out of memory",
        })
    }
}

impl std::error::Error for Fault {}

/// Why a call with this status has no result.
pub(crate) fn fault_of(status: u32) -> Fault {
    match status {
        calls::SIZE => Fault::Size,
        calls::UTF8 | calls::FLAGS => {
            unreachable!("texts are UTF-8, and flags and options are known")
        }
        _ => Fault::Memory,
    }
}

/// The HTML of a text, by flags.
pub fn to_html(text: &str, flags: Flags) -> Result<String, Fault> {
    to_html_with_options(text, &flags.into())
}

/// The HTML of a text, by options.
pub fn to_html_with_options(text: &str, options: &Options) -> Result<String, Fault> {
    let options = options.for_c();
    filled(text, |buffer, room, length| {
        // SAFETY: each pointer leads to as many bytes as are told, and the buffer is borrowed by nobody else.
        unsafe {
            calls::markdown_convert_with(text.as_ptr(), text.len(), &options, buffer, room, length)
        }
    })
}

/// What is kept of any HTML, by a fixed list of elements and attributes: without scripts, and without URLs of protocols that aren't
/// allowed. Other tags are text. It belongs into a block, such as `<div>`, not into `<p>` or `<span>`.
pub fn sanitize(html: &str) -> Result<String, Fault> {
    sanitize_with_options(html, &Flags::default().into())
}

/// What is kept of any HTML. Of the options only `AllowAnyImgSrc` and `AllowDangerousProtocol` make a difference.
pub fn sanitize_with_options(html: &str, options: &Options) -> Result<String, Fault> {
    let options = options.for_c();
    // SAFETY: as above.
    filled(html, |buffer, room, length| unsafe {
        calls::markdown_sanitize_with(html.as_ptr(), html.len(), &options, buffer, room, length)
    })
}

/// What a destination, a title or an info stands for: escapes and character references are replaced, and spaces and tabs around
/// line endings are dropped.
pub fn decode(text: &str) -> Result<String, Fault> {
    // SAFETY: as above.
    filled(text, |buffer, room, length| unsafe {
        calls::markdown_decode(text.as_ptr(), text.len(), buffer, room, length)
    })
}

/// The form in which a label, without its brackets, matches other labels: its case folded, no white space at its ends, and one
/// space for white space inside.
pub fn normalize_label(label: &str) -> Result<String, Fault> {
    // SAFETY: as above.
    filled(label, |buffer, room, length| unsafe {
        calls::markdown_normalize_label(label.as_ptr(), label.len(), buffer, room, length)
    })
}

/// What a call makes of a text, in a buffer that grows until it has room.
fn filled(text: &str, call: impl Fn(*mut u8, usize, *mut usize) -> u32) -> Result<String, Fault> {
    let mut buffer = vec![0; text.len() + text.len() / 4 + 64];
    loop {
        let mut length = 0;
        match call(buffer.as_mut_ptr(), buffer.len(), &mut length) {
            calls::OK => {
                buffer.truncate(length);
                return Ok(String::from_utf8(buffer).expect("what the library writes is UTF-8"));
            }
            calls::ROOM => buffer.resize(length, 0),
            status => return Err(fault_of(status)),
        }
    }
}

/// Whether HTML of any origin is a safe page: without scripts, styles, and links to dangerous protocols.
pub fn is_safe_page(page: &str) -> Result<bool, Fault> {
    let mut is_safe = 0;
    // SAFETY: the pointer leads to as many bytes as are told.
    let status = unsafe { calls::markdown_check_page(page.as_ptr(), page.len(), &mut is_safe) };
    match status {
        calls::OK => Ok(is_safe == 1),
        _ => Err(fault_of(status)),
    }
}
