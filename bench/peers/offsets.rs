//! Reads Markdown from standard input, and collects pulldown-cmark's events with their places in the text, again and again:
//! the argument says how often.

use pulldown_cmark::{Event, Parser};
use std::env;
use std::hint::black_box;
use std::io::{self, Read};
use std::ops::Range;

fn main() -> io::Result<()> {
    let mut text = String::new();
    io::stdin().lock().read_to_string(&mut text)?;
    let times: usize = env::args()
        .nth(1)
        .and_then(|word| word.parse().ok())
        .unwrap_or(1);
    for _ in 0..times {
        let events: Vec<(Event, Range<usize>)> = Parser::new(&text).into_offset_iter().collect();
        black_box(&events);
    }
    Ok(())
}
