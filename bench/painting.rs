// Times the proved `paint_band` beside a plain Rust loop of the same algorithm, on the same data.
// Both paint into bands of their own, which have to come out the same, and a few things are compared with the
// definition dot by dot. Nothing depends on a time.

use std::time::Instant;

unsafe extern "C" {
    fn raster_paint_band(path: *const u64, path_len: usize, clips: *const u64, clips_len: usize, grey: u8, bytes: *mut u8, bytes_len: usize, width: usize, first: u32, count: usize) -> bool;
}

fn proved(path: &[u64], clips: &[u64], grey: u8, bytes: &mut [u8], width: usize, first: u32, count: usize) {
    let done = unsafe { raster_paint_band(path.as_ptr(), path.len(), clips.as_ptr(), clips.len(), grey, bytes.as_mut_ptr(), bytes.len(), width, first, count) };
    assert!(done);
}

// The same algorithm in plain Rust.
mod plain {
    fn pieces(words: &[u64], size: usize, mut each: impl FnMut(&[u64])) {
        let mut rest = words;
        while let [count, others @ ..] = rest {
            let n = others.len().min(size * (*count as usize).min(others.len()));
            each(&others[..n]);
            rest = &others[n..];
        }
    }

    fn point(w: &[u64]) -> (u32, u32) {
        ((w[0] % (1 << 24)) as u32, (w[1] % (1 << 24)) as u32)
    }

    fn first_dot(upper: (u32, u32), lower: (u32, u32), level: u32) -> u64 {
        let height = (lower.1 - upper.1) as u64;
        let sum = upper.0 as u64 * (lower.1 - level) as u64 + lower.0 as u64 * (level - upper.1) as u64;
        (sum + 8 * height - 1) / (16 * height)
    }

    fn cross(bits: &mut [u64], from: (u32, u32), to: (u32, u32), level: u32, left: u64, span: &mut (usize, usize)) {
        let dot = if from.1 <= level {
            if level >= to.1 {
                return;
            }
            first_dot(from, to, level)
        } else {
            if to.1 > level {
                return;
            }
            first_dot(to, from, level)
        };
        let dot = dot.max(left);
        let at = (dot / 64) as usize;
        if at < bits.len() {
            bits[at] ^= 1 << (dot % 64);
            span.0 = span.0.min(at);
            span.1 = span.1.max(at + 1);
        }
    }

    fn cover(bits: &mut [u64], path: &[u64], level: u32, left: u64) -> (usize, usize) {
        let mut span = (bits.len(), 0);
        pieces(path, 2, |points| {
            let mut corners = points.chunks_exact(2);
            if let Some(first) = corners.next() {
                let first = point(first);
                let mut last = first;
                for w in corners {
                    let next = point(w);
                    cross(bits, last, next, level, left, &mut span);
                    last = next;
                }
                cross(bits, last, first, level, left, &mut span);
            }
        });
        if span.0 >= span.1 {
            return span;
        }
        let mut carry = 0;
        for word in &mut bits[span.0..span.1] {
            let mut w = if carry == 0 { 0 } else { u64::MAX };
            if *word != 0 {
                w = *word ^ carry;
                for k in [1, 2, 4, 8, 16, 32] {
                    w ^= w << k;
                }
            }
            *word = w;
            carry = w >> 63;
        }
        if carry != 0 {
            bits[span.1..].fill(u64::MAX);
            span.1 = bits.len();
        }
        span
    }

    fn paint(row: &mut [u8], bits: &[u64], span: (usize, usize), grey: u8) -> usize {
        let width = row.len();
        let mut painted = 0;
        let mut i = span.0;
        while i < span.1 {
            let mut from = 64 * i;
            if bits[i] == u64::MAX {
                while i < span.1 && bits[i] == u64::MAX {
                    i += 1;
                }
                row[from.min(width)..(64 * i).min(width)].fill(grey);
                painted += (64 * i).min(width) - from.min(width);
                continue;
            }
            let mut rest = bits[i];
            i += 1;
            while rest != 0 {
                let skip = rest.trailing_zeros();
                let set = rest >> skip;
                let run = set.trailing_ones();
                let start = from + skip as usize;
                let end = start + run as usize;
                row[start.min(width)..end.min(width)].fill(grey);
                painted += end.min(width) - start.min(width);
                if run >= 64 {
                    break;
                }
                from = end;
                rest = set >> run;
            }
        }
        painted
    }

    fn levels(path: &[u64]) -> (u32, u32) {
        let mut levels = (1 << 24, 0);
        pieces(path, 2, |points| {
            for w in points.chunks_exact(2) {
                let y = point(w).1;
                levels = (levels.0.min(y), levels.1.max(y));
            }
        });
        levels
    }

    // What was done: dots painted, and edges looked at.
    #[derive(Default)]
    pub struct Done {
        pub dots: usize,
        pub edges: usize,
    }

    pub fn paint_band(path: &[u64], clips: &[u64], grey: u8, bytes: &mut [u8], width: usize, first: u32, count: usize, done: &mut Done) {
        let (mut top, mut bottom) = levels(path);
        pieces(clips, 1, |clip| {
            let reached = levels(clip);
            top = top.max(reached.0);
            bottom = bottom.min(reached.1);
        });
        let above = |level: u32| (((level + 7) / 16) as usize).saturating_sub(first as usize).min(count);
        let words = width.div_ceil(64);
        let (start, end) = (above(top), above(bottom));
        if start >= end {
            return;
        }
        let mut bits = [0u64; 128];
        let mut mask = [0u64; 128];
        let (bits, mask) = (&mut bits[..words], &mut mask[..words]);
        done.edges += (end - start) * (path.len() + clips.len()) / 2;
        for r in start..end {
            let row = &mut bytes[r * width..(r + 1) * width];
            let level = 16 * (first + r as u32) + 8;
            let span = cover(bits, path, level, 0);
            if span.0 >= span.1 {
                continue;
            }
            pieces(clips, 1, |clip| {
                let mask = &mut mask[..span.1];
                let covered = cover(mask, clip, level, 64 * span.0 as u64);
                for i in span.0..span.1 {
                    bits[i] &= mask[i];
                }
                if covered.0 < covered.1 {
                    mask[covered.0..covered.1].fill(0);
                }
            });
            done.dots += paint(row, bits, span, grey);
            bits[span.0..span.1].fill(0);
        }
    }
}

// The definition itself, dot by dot, as far from the code above as can be: it shares nothing with it.
mod definition {
    type Point = (u64, u64);

    fn rises(p: Point, q: Point, a: u64, b: u64) -> bool {
        p.1 <= b && b < q.1 && p.0 * (q.1 - b) + q.0 * (b - p.1) <= a * (q.1 - p.1)
    }

    fn in_ring(ring: &[Point], a: u64, b: u64) -> bool {
        let mut inside = false;
        for k in 0..ring.len() {
            let (p, q) = (ring[k], ring[(k + 1) % ring.len()]);
            inside ^= rises(p, q, a, b) || rises(q, p, a, b);
        }
        inside
    }

    // A path of whole subpaths, and clips of such paths, as this program makes them.
    fn rings(words: &[u64]) -> Vec<Vec<Point>> {
        let mut rings = Vec::new();
        let mut at = 0;
        while at < words.len() {
            let n = words[at] as usize;
            rings.push((0..n).map(|k| (words[at + 1 + 2 * k], words[at + 2 + 2 * k])).collect());
            at += 1 + 2 * n;
        }
        rings
    }

    fn paths(words: &[u64]) -> Vec<Vec<Vec<Point>>> {
        let mut paths = Vec::new();
        let mut at = 0;
        while at < words.len() {
            let n = words[at] as usize;
            paths.push(rings(&words[at + 1..at + 1 + n]));
            at += 1 + n;
        }
        paths
    }

    fn in_path(path: &[Vec<Point>], a: u64, b: u64) -> bool {
        path.iter().fold(false, |inside, ring| inside ^ in_ring(ring, a, b))
    }

    pub fn paint(path: &[u64], clips: &[u64], grey: u8, bytes: &mut [u8], width: usize, first: u32, count: usize) {
        let (path, clips) = (rings(path), paths(clips));
        for r in 0..count {
            for x in 0..width {
                let (a, b) = (16 * x as u64 + 8, 16 * (first as u64 + r as u64) + 8);
                if in_path(&path, a, b) && clips.iter().all(|clip| in_path(clip, a, b)) {
                    bytes[r * width + x] = grey;
                }
            }
        }
    }
}

struct Random(u64);

impl Random {
    fn below(&mut self, n: u64) -> u64 {
        self.0 = self.0.wrapping_mul(6364136223846793005).wrapping_add(1442695040888963407);
        (self.0 >> 33) % n
    }
}

struct Thing {
    path: Vec<u64>,
    clips: Vec<u64>,
    grey: u8,
}

// A closed subpath of n points around a middle, each at some part of the radius. All in sixteenths of a dot.
fn round(random: &mut Random, n: u64, x: u64, y: u64, across: u64, down: u64) -> Vec<u64> {
    let mut words = vec![n];
    for k in 0..n {
        let turn = k as f64 / n as f64 * std::f64::consts::TAU;
        let part = 0.5 + random.below(512) as f64 / 1024.0;
        words.push((x as f64 + turn.cos() * part * across as f64 / 2.0).max(0.0) as u64);
        words.push((y as f64 + turn.sin() * part * down as f64 / 2.0).max(0.0) as u64);
    }
    words
}

fn things(random: &mut Random, many: usize, points: u64, across: u64, down: u64, page: u64, clips: &[u64]) -> Vec<Thing> {
    (0..many)
        .map(|k| Thing {
            path: {
                let (x, y) = (random.below(4960 * 16), random.below(page * 16));
                round(random, points, x, y, across * 16, down * 16)
            },
            clips: clips.to_vec(),
            grey: (k % 251) as u8,
        })
        .collect()
}

fn best(mut run: impl FnMut() -> f64) -> f64 {
    (0..7).map(|_| run()).fold(f64::INFINITY, f64::min)
}

fn compare(name: &str, things: &[Thing], bands: u32) {
    let (width, count) = (4960, 64);
    let mut ours = vec![255u8; width * count];
    let mut theirs = ours.clone();
    let mut same = true;
    let mut done = plain::Done::default();
    for band in 0..bands {
        ours.fill(255);
        theirs.fill(255);
        for t in things {
            proved(&t.path, &t.clips, t.grey, &mut ours, width, band * 64, count);
            plain::paint_band(&t.path, &t.clips, t.grey, &mut theirs, width, band * 64, count, &mut done);
        }
        same &= ours == theirs;
    }
    // the first few things also against the definition, which is slow
    let few = &things[..(600 / things[0].path.len()).clamp(1, things.len())];
    ours.fill(255);
    theirs.fill(255);
    for t in few {
        proved(&t.path, &t.clips, t.grey, &mut ours, width, 0, count);
        definition::paint(&t.path, &t.clips, t.grey, &mut theirs, width, 0, count);
    }
    same &= ours == theirs;
    let proved_time = best(|| {
        let start = Instant::now();
        for band in 0..bands {
            for t in things {
                proved(&t.path, &t.clips, t.grey, &mut ours, width, band * 64, count);
            }
        }
        start.elapsed().as_secs_f64()
    });
    let plain_time = best(|| {
        let mut ignored = plain::Done::default();
        let start = Instant::now();
        for band in 0..bands {
            for t in things {
                plain::paint_band(&t.path, &t.clips, t.grey, &mut theirs, width, band * 64, count, &mut ignored);
            }
        }
        start.elapsed().as_secs_f64()
    });
    let millions = |n: usize, time: f64| n as f64 / time / 1e6;
    println!(
        "| {name} | {:.2} | {:.2} | {:.0} | {:.0} | {:.0} | {:.0} | {:.2} | {} |",
        proved_time * 1e3,
        plain_time * 1e3,
        millions(done.dots, proved_time),
        millions(done.dots, plain_time),
        millions(done.edges, proved_time),
        millions(done.edges, plain_time),
        proved_time / plain_time,
        if same { "yes" } else { "NO" },
    );
}

fn main() {
    let mut random = Random(1);
    let mut clips = Vec::new();
    for k in 0..3 {
        let mut path = vec![4];
        for (x, y) in [(k, 0), (4900 - k, 20), (4800 - k, 7000), (k + 30, 6900)] {
            path.extend([x * 16, y * 16]);
        }
        clips.push(path.len() as u64);
        clips.extend(path);
    }
    println!("| data | ms proved | ms plain | M dots/s proved | M dots/s plain | M edges/s proved | M edges/s plain | ratio | same bytes |");
    println!("|---|---|---|---|---|---|---|---|---|");
    compare("4,000 shapes of 12 points, 40 x 40, one band", &things(&mut random, 4000, 12, 40, 40, 64, &[]), 1);
    compare("20,000 of 4 points, 8 x 8, one band", &things(&mut random, 20000, 4, 8, 8, 64, &[]), 1);
    compare("20 of 1,000 points, 4,000 x 1,000, one band", &things(&mut random, 20, 1000, 4000, 1000, 64, &[]), 1);
    compare("200 of 6 points, 4,000 x 1,000, one band", &things(&mut random, 200, 6, 4000, 1000, 64, &[]), 1);
    compare("the same under 3 nested clips", &things(&mut random, 200, 6, 4000, 1000, 64, &clips), 1);
    compare("8,000 of 18 points, 100 x 100, a page of 110 bands", &things(&mut random, 8000, 18, 100, 100, 7016, &[]), 110);
}
