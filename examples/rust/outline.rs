//! The headings of Markdown, over the static library of C calls.

use crate::markdown::{fault_of, Fault, Flags, Options};
use std::ops::Range;

/// What `include/markdown.h` declares.
mod calls {
    use crate::markdown::calls::Options;

    pub const OK: u32 = 0;
    pub const ROOM: u32 = 1;

    /// A heading, as C writes it.
    #[repr(C)]
    #[derive(Clone, Copy, Default)]
    pub struct Heading {
        pub offset: usize,
        pub line: usize,
        pub column: usize,
        pub end_offset: usize,
        pub end_line: usize,
        pub end_column: usize,
        pub event: usize,
        pub text: usize,
        pub text_length: usize,
        pub slug: usize,
        pub slug_length: usize,
        pub rank: u8,
    }

    #[link(name = "markdown-proved", kind = "static")]
    extern "C" {
        pub fn markdown_list_outline_with(
            text: *const u8,
            text_length: usize,
            options: *const Options,
            headings: *mut Heading,
            room: usize,
            count: *mut usize,
            buffer: *mut u8,
            buffer_room: usize,
            length: *mut usize,
        ) -> u32;
    }
}

/// A heading.
#[derive(Clone, Debug, PartialEq, Eq)]
pub struct Heading {
    /// From 1 to 6.
    pub rank: u8,
    /// How many bytes of the text are before.
    pub offset: usize,
    /// The line of its start, from 1.
    pub line: usize,
    /// The column of its start, from 1: a byte takes one, a tab goes to the next stop.
    pub column: usize,
    /// How many bytes of the text are before its end.
    pub end_offset: usize,
    /// The line of its end, from 1.
    pub end_line: usize,
    /// The column of its end, from 1.
    pub end_column: usize,
    /// Where its text is among those of the outline.
    text: Range<usize>,
    /// Where its slug is among them.
    slug: Range<usize>,
}

impl From<&calls::Heading> for Heading {
    fn from(heading: &calls::Heading) -> Heading {
        Heading {
            rank: heading.rank,
            offset: heading.offset,
            line: heading.line,
            column: heading.column,
            end_offset: heading.end_offset,
            end_line: heading.end_line,
            end_column: heading.end_column,
            text: heading.text..heading.text + heading.text_length,
            slug: heading.slug..heading.slug + heading.slug_length,
        }
    }
}

/// The headings of a text, in the order in which they start.
pub struct Outline {
    pub headings: Vec<Heading>,
    texts: String,
}

impl Outline {
    /// What a heading of the outline says: without tags and images, with escapes and character references replaced.
    pub fn text(&self, heading: &Heading) -> &str {
        &self.texts[heading.text.clone()]
    }

    /// What GitHub uses as the id of a heading of the outline. No other heading has it. It may be empty.
    pub fn slug(&self, heading: &Heading) -> &str {
        &self.texts[heading.slug.clone()]
    }
}

/// The headings of a text.
pub fn outline(text: &str, flags: Flags) -> Result<Outline, Fault> {
    let options = Options::from(flags).for_c();
    let mut array = vec![calls::Heading::default(); text.len() / 64 + 16];
    let mut buffer = vec![0; text.len() / 4 + 64];
    loop {
        let (mut count, mut length) = (0, 0);
        // SAFETY: each pointer leads to as many items as are told, and array and buffer are borrowed by nobody else.
        let status = unsafe {
            calls::markdown_list_outline_with(
                text.as_ptr(),
                text.len(),
                &options,
                array.as_mut_ptr(),
                array.len(),
                &mut count,
                buffer.as_mut_ptr(),
                buffer.len(),
                &mut length,
            )
        };
        match status {
            calls::OK => {
                buffer.truncate(length);
                return Ok(Outline {
                    headings: array[..count].iter().map(Heading::from).collect(),
                    texts: String::from_utf8(buffer).expect("what the library writes is UTF-8"),
                });
            }
            calls::ROOM => {
                array.resize(count.max(array.len()), calls::Heading::default());
                buffer.resize(length.max(buffer.len()), 0);
            }
            _ => return Err(fault_of(status)),
        }
    }
}
