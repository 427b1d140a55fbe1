//! Reads Markdown with the extensions of GitHub from standard input, and writes its links to standard output, one a line: line, column,
//! kind and destination.

#[allow(dead_code)]
mod links;
#[allow(dead_code)]
mod markdown;

use links::{links, Kind};
use markdown::Flags;
use std::error::Error;
use std::io::{self, Read, Write};

fn main() -> Result<(), Box<dyn Error>> {
    let mut text = String::new();
    io::stdin().read_to_string(&mut text)?;
    let mut out = io::BufWriter::new(io::stdout());
    let found = links(&text, Flags::default().with_gfm())?;
    for link in &found.links {
        let kind = match link.kind {
            Kind::Link => "link",
            Kind::Image => "image",
            Kind::Autolink => "autolink",
            Kind::Literal => "literal",
            Kind::Definition => "definition",
        };
        writeln!(
            out,
            "{}:{} {kind} {}",
            link.line,
            link.column,
            found.destination(link)
        )?;
    }
    out.flush()?;
    Ok(())
}
