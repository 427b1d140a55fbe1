//! Reads Markdown with the extensions of GitHub from standard input, and writes its table of contents to standard output: a line for
//! each heading, with its slug.

#[allow(dead_code)]
mod markdown;
#[allow(dead_code)]
mod outline;

use markdown::Flags;
use outline::outline;
use std::error::Error;
use std::io::{self, Read, Write};

fn main() -> Result<(), Box<dyn Error>> {
    let mut text = String::new();
    io::stdin().read_to_string(&mut text)?;
    let mut out = io::BufWriter::new(io::stdout());
    let flags = Flags {
        frontmatter: true,
        ..Flags::default().with_gfm()
    };
    let found = outline(&text, flags)?;
    for heading in &found.headings {
        let indent = "  ".repeat(usize::from(heading.rank) - 1);
        let text = found.text(heading).replace('\n', " ");
        writeln!(out, "{indent}{text} (#{})", found.slug(heading))?;
    }
    out.flush()?;
    Ok(())
}
