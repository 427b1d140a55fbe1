//! Reads Markdown from standard input, and writes its HTML to standard output. With `--prefix=TEXT` the ids of footnotes begin
//! with TEXT. With `--safe-page` the input is HTML, and it is written whether it is a safe page. With `--sanitize` the input is HTML,
//! and what is kept of it is written.

#[allow(dead_code)]
mod markdown;

use markdown::{is_safe_page, sanitize, to_html_with_options, Flags, Options};
use std::error::Error;
use std::io::{self, Read, Write};

fn main() -> Result<(), Box<dyn Error>> {
    let words: Vec<String> = std::env::args().skip(1).collect();
    let mut flags = Flags::default();
    let mut prefix = "user-content-";
    let (mut is_page, mut is_html) = (false, false);
    for word in &words {
        match word.as_str() {
            "--safe-page" => is_page = true,
            "--sanitize" => is_html = true,
            "--gfm" => flags = flags.with_gfm(),
            "--dangerous" => flags.dangerous = true,
            "--plain" => flags.plain = true,
            "--strikethrough" => flags.strikethrough = true,
            "--math" => flags.math = true,
            "--frontmatter" => flags.frontmatter = true,
            "--task-list-items" => flags.task_list_items = true,
            "--tables" => flags.tables = true,
            "--autolink-literals" => flags.autolink_literals = true,
            "--footnotes" => flags.footnotes = true,
            "--tagfilter" => flags.tagfilter = true,
            "--mark" => flags.mark = true,
            _ => match word.strip_prefix("--prefix=") {
                Some(text) => prefix = text,
                None => return Err(format!("an unknown word: {word}").into()),
            },
        }
    }
    let mut text = String::new();
    io::stdin().read_to_string(&mut text)?;
    if is_page {
        println!("{}", is_safe_page(&text)?);
        return Ok(());
    }
    if is_html {
        io::stdout().write_all(sanitize(&text)?.as_bytes())?;
        return Ok(());
    }
    let options = Options::from(flags).gfm_footnote_clobber_prefix(prefix);
    io::stdout().write_all(to_html_with_options(&text, &options)?.as_bytes())?;
    Ok(())
}
