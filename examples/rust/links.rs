//! The links of Markdown, over the static library of C calls.

use crate::markdown::{fault_of, Fault, Flags, Options};
use std::ops::Range;

/// What `include/markdown.h` declares.
mod calls {
    use crate::markdown::calls::Options;

    pub const OK: u32 = 0;
    pub const ROOM: u32 = 1;
    pub const NO_DEFINITION: usize = usize::MAX;

    /// A link, as C writes it.
    #[repr(C)]
    #[derive(Clone, Copy, Default)]
    pub struct Link {
        pub offset: usize,
        pub line: usize,
        pub column: usize,
        pub end_offset: usize,
        pub end_line: usize,
        pub end_column: usize,
        pub event: usize,
        pub destination: usize,
        pub destination_length: usize,
        pub definition: usize,
        pub kind: u8,
    }

    #[link(name = "markdown-proved", kind = "static")]
    extern "C" {
        pub fn markdown_list_links_with(
            text: *const u8,
            text_length: usize,
            options: *const Options,
            links: *mut Link,
            room: usize,
            count: *mut usize,
            buffer: *mut u8,
            buffer_room: usize,
            length: *mut usize,
        ) -> u32;
    }
}

/// What leads somewhere, or defines where a label leads.
#[derive(Clone, Copy, Debug, PartialEq, Eq)]
pub enum Kind {
    /// `[a](b)`
    Link,
    /// `![a](b)`
    Image,
    /// `<https://a.b>`
    Autolink,
    /// `www.a.b`
    Literal,
    /// `[a]: b`
    Definition,
}

const KINDS: [Kind; 5] = [
    Kind::Link,
    Kind::Image,
    Kind::Autolink,
    Kind::Literal,
    Kind::Definition,
];

/// A link, an image, or a definition of where a label leads.
#[derive(Clone, Debug, PartialEq, Eq)]
pub struct Link {
    pub kind: Kind,
    /// For a link or an image by reference: the index in the list of the definition that its label leads to.
    pub definition: Option<usize>,
    /// How many bytes of the text are before.
    pub offset: usize,
    /// The line of its start, from 1.
    pub line: usize,
    /// The column of its start, from 1: a byte takes one, a tab goes to the next stop.
    pub column: usize,
    /// How many bytes of the text are before its end.
    pub end_offset: usize,
    /// The line of its end, from 1.
    pub end_line: usize,
    /// The column of its end, from 1.
    pub end_column: usize,
    /// Where its destination is among those of the list.
    destination: Range<usize>,
}

impl From<&calls::Link> for Link {
    fn from(link: &calls::Link) -> Link {
        Link {
            kind: KINDS[usize::from(link.kind)],
            definition: (link.definition != calls::NO_DEFINITION).then_some(link.definition),
            offset: link.offset,
            line: link.line,
            column: link.column,
            end_offset: link.end_offset,
            end_line: link.end_line,
            end_column: link.end_column,
            destination: link.destination..link.destination + link.destination_length,
        }
    }
}

/// The links, images, autolinks, literals and definitions of a text, in the order in which they start.
pub struct Links {
    pub links: Vec<Link>,
    destinations: String,
}

impl Links {
    /// Where a link of the list leads, not percent-encoded; `mailto:` is before an email address, and `http://` before `www.`.
    pub fn destination(&self, link: &Link) -> &str {
        &self.destinations[link.destination.clone()]
    }
}

/// The links of a text.
pub fn links(text: &str, flags: Flags) -> Result<Links, Fault> {
    let options = Options::from(flags).for_c();
    let mut array = vec![calls::Link::default(); text.len() / 64 + 16];
    let mut buffer = vec![0; text.len() / 2 + 64];
    loop {
        let (mut count, mut length) = (0, 0);
        // SAFETY: each pointer leads to as many items as are told, and array and buffer are borrowed by nobody else.
        let status = unsafe {
            calls::markdown_list_links_with(
                text.as_ptr(),
                text.len(),
                &options,
                array.as_mut_ptr(),
                array.len(),
                &mut count,
                buffer.as_mut_ptr(),
                buffer.len(),
                &mut length,
            )
        };
        match status {
            calls::OK => {
                buffer.truncate(length);
                return Ok(Links {
                    links: array[..count].iter().map(Link::from).collect(),
                    destinations: String::from_utf8(buffer)
                        .expect("what the library writes is UTF-8"),
                });
            }
            calls::ROOM => {
                array.resize(count.max(array.len()), calls::Link::default());
                buffer.resize(length.max(buffer.len()), 0);
            }
            _ => return Err(fault_of(status)),
        }
    }
}
