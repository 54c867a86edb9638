//! A job from its text to what is printed of it.

use crate::machine::{Run, run};
use crate::page::Page;
use crate::refusal::Refusal;
use crate::token::{Stage, read};

const STEPS: u64 = 1_000_000_000;
const WIDTH: u64 = 8_192;
const HEIGHT: u64 = 65_535;

/// What is given with a text.
#[derive(Debug, Clone, Copy)]
pub struct Settings {
    pub width: u64,
    pub height: u64,
    pub steps: u64,
    pub stage: Stage,
}

impl Settings {
    fn check(&self) -> Result<(), Refusal> {
        let width_is_right = (1..=WIDTH).contains(&self.width);
        let height_is_right = (1..=HEIGHT).contains(&self.height);
        if self.steps <= STEPS && width_is_right && height_is_right {
            return Ok(());
        }
        Err(Refusal::BeyondLimit { place: 0 })
    }
}

/// Opens a job in the order of checks and runs it to its end.
pub fn open_and_run(text: &[u8], settings: &Settings) -> Result<Run, Refusal> {
    let tokens = read(text, settings.stage)?;
    settings.check()?;
    Ok(run(tokens, settings.steps))
}

/// What is printed of a job: its pages or why it is refused, and the line that says how it ended.
pub struct Printed {
    pub pages: Vec<u8>,
    pub last_line: String,
}

/// All pages as rows of signs, with an empty line between pages.
pub fn print_text(run: &Run, settings: &Settings) -> Printed {
    let pages: Vec<Vec<u8>> = run.pages.iter().map(|page| rows_of_signs(page, settings)).collect();
    Printed { pages: pages.join(&b'\n'), last_line: last_line(run) }
}

/// All pages as binary PGM pictures, one after another.
pub fn print_pgm(run: &Run, settings: &Settings) -> Printed {
    let head = format!("P5\n{} {}\n255\n", settings.width, settings.height);
    let picture = |page| [head.as_bytes(), &greys(page, settings)].concat();
    Printed { pages: run.pages.iter().flat_map(picture).collect(), last_line: last_line(run) }
}

fn last_line(run: &Run) -> String {
    format!("pages {} ending {}\n", run.pages.len(), run.ending.number())
}

/// The greys of a page, row after row from the top, each row from the left.
fn greys(page: &Page, settings: &Settings) -> Vec<u8> {
    let row = |y| (0..settings.width).map(move |x| page.grey(x, y));
    (0..settings.height).flat_map(row).collect()
}

fn rows_of_signs(page: &Page, settings: &Settings) -> Vec<u8> {
    let greys = greys(page, settings);
    let rows = greys.chunks(settings.width as usize);
    rows.flat_map(|row| row.iter().map(|grey| sign(*grey)).chain([b'\n'])).collect()
}

/// Black, white, or any other grey.
fn sign(grey: u8) -> u8 {
    match grey {
        0 => b'#',
        255 => b'.',
        _ => b'+',
    }
}
