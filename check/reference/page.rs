//! Pages: things painted one over another, and the grey of each dot.

use crate::path::Path;
use std::rc::Rc;

/// The grey of a dot that nothing covers.
const WHITE: u8 = 255;

/// The clip paths in force, the oldest first.
pub type Clips = Rc<[Rc<Path>]>;

/// A path, the clips that were in force when it was painted, and its grey.
#[derive(Debug, Clone)]
pub struct Thing {
    pub path: Path,
    pub clips: Clips,
    pub grey: u8,
}

impl Thing {
    fn covers(&self, column: u64, row: u64) -> bool {
        self.path.covers(column, row) && self.clips.iter().all(|clip| clip.covers(column, row))
    }
}

/// What was painted on a page, the last on top.
#[derive(Debug, Clone, Default)]
pub struct Page {
    pub things: Vec<Thing>,
}

impl Page {
    pub fn grey(&self, column: u64, row: u64) -> u8 {
        let on_top = self.things.iter().rev().find(|thing| thing.covers(column, row));
        on_top.map_or(WHITE, |thing| thing.grey)
    }
}
