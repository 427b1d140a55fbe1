//! Markdown to events, over the static library of C calls.

use crate::markdown::{fault_of, Fault, Flags};
use crate::names::EVENT_NAMES;

/// What `include/markdown.h` declares.
mod calls {
    pub const OK: u32 = 0;
    pub const ROOM: u32 = 1;

    /// An event, as C writes it.
    #[repr(C)]
    #[derive(Clone, Copy, Default)]
    pub struct Event {
        pub offset: usize,
        pub line: usize,
        pub column: usize,
        pub name: u16,
        pub kind: u8,
        pub columns: u8,
    }

    #[link(name = "markdown-proved", kind = "static")]
    extern "C" {
        pub fn markdown_list_events(
            text: *const u8,
            text_length: usize,
            flags: u32,
            events: *mut Event,
            room: usize,
            count: *mut usize,
        ) -> u32;
    }
}

/// Whether something begins or ends.
#[derive(Clone, Copy, Debug, PartialEq, Eq)]
pub enum Kind {
    Enter,
    Exit,
}

/// Something begins or ends at a point of a text.
#[derive(Clone, Copy, Debug, PartialEq, Eq)]
pub struct Event {
    pub kind: Kind,
    /// What begins or ends: `Paragraph`, ..
    pub name: &'static str,
    /// How many bytes of the text are before.
    pub offset: usize,
    /// The line, from 1.
    pub line: usize,
    /// The column, from 1: a byte takes one, a tab goes to the next stop.
    pub column: usize,
    /// Within the tab at `offset`: how many of its columns are before. Otherwise 0.
    pub columns: u8,
}

impl From<calls::Event> for Event {
    fn from(event: calls::Event) -> Event {
        Event {
            kind: if event.kind == 0 {
                Kind::Enter
            } else {
                Kind::Exit
            },
            name: EVENT_NAMES[usize::from(event.name)],
            offset: event.offset,
            line: event.line,
            column: event.column,
            columns: event.columns,
        }
    }
}

/// The events of a text, in order: what begins and ends where.
pub fn events(text: &str, flags: Flags) -> Result<impl ExactSizeIterator<Item = Event>, Fault> {
    let mut array = vec![calls::Event::default(); text.len() / 2 + 64];
    loop {
        let mut count = 0;
        // SAFETY: each pointer leads to as many items as are told, and the array is borrowed by nobody else.
        let status = unsafe {
            calls::markdown_list_events(
                text.as_ptr(),
                text.len(),
                flags.sum(),
                array.as_mut_ptr(),
                array.len(),
                &mut count,
            )
        };
        match status {
            calls::OK => {
                array.truncate(count);
                return Ok(array.into_iter().map(Event::from));
            }
            calls::ROOM => array.resize(count, calls::Event::default()),
            _ => return Err(fault_of(status)),
        }
    }
}
