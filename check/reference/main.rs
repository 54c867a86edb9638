//! The job language by its definition, as slowly as it reads: a second opinion on what the printer prints.
//!
//! It is written from the documents of the language alone and shares nothing with the printer. Whole pages,
//! no bands, nothing kept: each dot is asked for by itself.
//!
//!     text --lexeme--> lexemes --token--> tokens --machine--> pages of things painted --page, path--> greys

mod job;
mod lexeme;
mod machine;
mod page;
mod path;
mod refusal;
#[cfg(test)]
mod tests;
mod token;

use job::Settings;
use std::io::{Read, Write};
use std::process::ExitCode;
use token::Stage;

const USAGE: &str = "reference [--width W] [--height H] [--steps N] [--stage thin|whole] [--format text|pgm] [--count] [FILE]

Prints the job in FILE, or from standard input where FILE is absent or -, as the printer does: each row of a page as a
line, an empty line between pages, and at last 'pages P ending E'; or the one line 'refused K at P'.

  --width W       dots in a row of a page, 1 to 8192 (64)
  --height H      rows of a page, 1 to 65535 (32)
  --steps N       how many steps the job may take, up to 1000000000 (that)
  --stage S       thin: the operators of the first stage alone; whole: all (whole)
  --format F      text, or pgm: binary PGM pictures, and the last line on standard error (text)
  --count         says steps, and things and points of all pages, on standard error too";

#[derive(Clone, Copy)]
enum Format {
    Text,
    Pgm,
}

struct Options {
    settings: Settings,
    format: Format,
    count: bool,
    file: Option<String>,
}

/// A number of the command line; one beyond 64 bits stays at the largest, which is out of range too.
fn number(word: Option<String>) -> Option<u64> {
    let word = word?;
    let is_number = !word.is_empty() && word.bytes().all(|byte| byte.is_ascii_digit());
    is_number.then(|| word.parse().unwrap_or(u64::MAX))
}

fn stage(word: Option<String>) -> Option<Stage> {
    match word?.as_str() {
        "thin" => Some(Stage::Thin),
        "whole" => Some(Stage::Whole),
        _ => None,
    }
}

fn format(word: Option<String>) -> Option<Format> {
    match word?.as_str() {
        "text" => Some(Format::Text),
        "pgm" => Some(Format::Pgm),
        _ => None,
    }
}

/// The options of a command line, or nothing if it has a word that means nothing.
fn options(words: impl Iterator<Item = String>) -> Option<Options> {
    let settings = Settings { width: 64, height: 32, steps: 1_000_000_000, stage: Stage::Whole };
    let mut options = Options { settings, format: Format::Text, count: false, file: None };
    let mut words = words;
    while let Some(word) = words.next() {
        match word.as_str() {
            "--width" => options.settings.width = number(words.next())?,
            "--height" => options.settings.height = number(words.next())?,
            "--steps" => options.settings.steps = number(words.next())?,
            "--stage" => options.settings.stage = stage(words.next())?,
            "--format" => options.format = format(words.next())?,
            "--count" => options.count = true,
            "-" => options.file = None,
            _ if word.starts_with("--") => return None,
            _ => options.file = Some(word),
        }
    }
    Some(options)
}

fn text_of(file: Option<&str>) -> std::io::Result<Vec<u8>> {
    if let Some(name) = file {
        return std::fs::read(name);
    }
    let mut text = Vec::new();
    std::io::stdin().read_to_end(&mut text)?;
    Ok(text)
}

/// Prints what the options want of a job.
fn print(text: &[u8], options: &Options) -> std::io::Result<()> {
    let mut out = std::io::stdout();
    let run = match job::open_and_run(text, &options.settings) {
        Ok(run) => run,
        Err(refusal) => return writeln!(out, "{refusal}"),
    };
    match options.format {
        Format::Text => {
            let printed = job::print_text(&run, &options.settings);
            out.write_all(&printed.pages)?;
            out.write_all(printed.last_line.as_bytes())?;
        }
        Format::Pgm => {
            let printed = job::print_pgm(&run, &options.settings);
            out.write_all(&printed.pages)?;
            eprint!("{}", printed.last_line);
        }
    }
    if options.count {
        eprintln!("steps {} things {} points {}", run.steps, run.things(), run.points());
    }
    Ok(())
}

fn main() -> ExitCode {
    let Some(options) = options(std::env::args().skip(1)) else {
        eprintln!("{USAGE}");
        return ExitCode::from(2);
    };
    match text_of(options.file.as_deref()).and_then(|text| print(&text, &options)) {
        Ok(()) => ExitCode::SUCCESS,
        Err(error) => {
            eprintln!("reference: {error}");
            ExitCode::from(2)
        }
    }
}
