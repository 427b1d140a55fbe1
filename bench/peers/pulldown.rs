//! Reads Markdown from standard input, and writes the HTML that pulldown-cmark makes of it; with --gfm, with all of GitHub's
//! constructs that it has, which are tables, footnotes, strikethrough and tasks.

use pulldown_cmark::{html, Options, Parser};
use std::env;
use std::io::{self, Read, Write};

fn main() -> io::Result<()> {
    let mut text = String::new();
    io::stdin().lock().read_to_string(&mut text)?;
    let mut page = String::with_capacity(text.len() + text.len() / 2);
    let mut options = Options::empty();
    if env::args().any(|word| word == "--gfm") {
        options = Options::ENABLE_TABLES
            | Options::ENABLE_FOOTNOTES
            | Options::ENABLE_STRIKETHROUGH
            | Options::ENABLE_TASKLISTS;
    }
    html::push_html(&mut page, Parser::new_ext(&text, options));
    io::stdout().lock().write_all(page.as_bytes())
}
