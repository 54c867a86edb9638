//! Paths, and which dots they cover: for each dot all crossings of all edges are counted.

/// A place on the page in sixteenths of a dot; y grows downwards.
#[derive(Debug, Clone, Copy, PartialEq, Eq)]
pub struct Point {
    pub x: u64,
    pub y: u64,
}

/// Finished subpaths, and at most one that is still open.
#[derive(Debug, Clone, Default, PartialEq, Eq)]
pub struct Path {
    finished: Vec<Vec<Point>>,
    open: Option<Vec<Point>>,
}

impl Path {
    pub fn has_open_subpath(&self) -> bool {
        self.open.is_some()
    }

    /// How many points all subpaths have together.
    pub fn points(&self) -> usize {
        self.subpaths().map(Vec::len).sum()
    }

    /// Finishes the open subpath and begins a new one.
    pub fn begin_subpath(&mut self, point: Point) {
        self.finished.extend(self.open.take());
        self.open = Some(vec![point]);
    }

    /// Goes on with the open subpath.
    pub fn add_point(&mut self, point: Point) {
        self.open.as_mut().expect("a subpath is open").push(point);
    }

    fn subpaths(&self) -> impl Iterator<Item = &Vec<Point>> {
        self.finished.iter().chain(&self.open)
    }

    /// Whether the dot in this column of this row is covered: its middle has an odd count of crossings.
    pub fn covers(&self, column: u64, row: u64) -> bool {
        let middle = Point { x: 16 * column + 8, y: 16 * row + 8 };
        let count: usize = self.subpaths().map(|points| crossings(points, middle)).sum();
        count % 2 == 1
    }
}

/// How many edges of a closed subpath are crossed at the middle or left of it.
fn crossings(points: &[Point], middle: Point) -> usize {
    let next = |i: usize| points[(i + 1) % points.len()];
    (0..points.len()).filter(|&i| edge_counts(points[i], next(i), middle)).count()
}

/// Whether an edge is crossed at the level of the middle, at the middle or left of it.
fn edge_counts(from: Point, to: Point, middle: Point) -> bool {
    let (upper, lower) = if from.y <= to.y { (from, to) } else { (to, from) };
    let level = middle.y;
    if level < upper.y || lower.y <= level {
        return false;
    }
    upper.x * (lower.y - level) + lower.x * (level - upper.y) <= middle.x * (lower.y - upper.y)
}
