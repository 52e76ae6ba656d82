//! Formats the policies of standard input: `format [WIDTH [INDENT]]`. The status is 0 with the result on standard output, and
//! 1 if there is none, with `LINE:COLUMN: WHY` on standard error.
use cedar_formatter::{format, place, Config};
use std::error::Error;
use std::io::{self, Read, Write};
use std::{env, process};

fn main() {
    if let Err(why) = run() {
        eprintln!("{why}");
        process::exit(1);
    }
}

fn run() -> Result<(), Box<dyn Error>> {
    let mut config = Config::default();
    let mut words = env::args().skip(1);
    if let Some(width) = words.next() {
        config.line_width = width.parse()?;
    }
    if let Some(indent) = words.next() {
        config.indent_width = indent.parse()?;
    }
    let mut text = String::new();
    io::stdin().read_to_string(&mut text)?;
    let layout = format(&text, &config).map_err(|error| match error.at() {
        Some(at) => format!("{}: {error}", place(&text, at)),
        None => error.to_string(),
    })?;
    io::stdout().write_all(layout.as_bytes())?;
    Ok(())
}
