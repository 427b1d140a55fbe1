//! Reads Markdown with all extensions from standard input, and writes its events to standard output as `markdown-events` does.

mod events;
#[allow(dead_code)]
mod markdown;
mod names;

use events::{events, Kind};
use markdown::Flags;
use std::error::Error;
use std::io::{self, Read, Write};

fn main() -> Result<(), Box<dyn Error>> {
    let mut text = String::new();
    io::stdin().read_to_string(&mut text)?;
    let mut out = io::BufWriter::new(io::stdout());
    let all = Flags {
        math: true,
        frontmatter: true,
        mark: true,
        ..Flags::default()
    }
    .with_gfm();
    for event in events(&text, all)? {
        let kind = if event.kind == Kind::Enter {
            "enter"
        } else {
            "exit"
        };
        writeln!(
            out,
            "{kind} {} {}:{}({}) {}",
            event.name, event.line, event.column, event.offset, event.columns
        )?;
    }
    out.flush()?;
    Ok(())
}
