// Times reading a text and running stored tokens. Nothing depends on a time.

use std::time::Instant;

unsafe extern "C" {
    fn text_count_tokens(source: *const u8, source_len: usize) -> u64;
    fn run_count_pages(tokens: *const u64, tokens_len: usize, words: *mut u64, words_len: usize, clips: *mut u64, clips_len: usize, steps: u32) -> u64;
}

fn tokens_of(source: &[u8]) -> u64 {
    unsafe { text_count_tokens(source.as_ptr(), source.len()) }
}

fn pages_of(tokens: &[u64], words: &mut [u64], steps: u32) -> u64 {
    let mut clips = [0u64; 1];
    unsafe { run_count_pages(tokens.as_ptr(), tokens.len(), words.as_mut_ptr(), words.len(), clips.as_mut_ptr(), clips.len(), steps) }
}

// The best of some rounds, in seconds.
fn best(rounds: usize, mut work: impl FnMut()) -> f64 {
    let mut least = f64::MAX;
    for _ in 0..rounds {
        let start = Instant::now();
        work();
        least = least.min(start.elapsed().as_secs_f64());
    }
    least
}

// A text of so many bytes: lines of a job, each with a remark of so many bytes behind it.
fn text_of(bytes: usize, remark: usize) -> Vec<u8> {
    let mut text = Vec::with_capacity(bytes);
    while text.len() + 40 + remark < bytes {
        text.extend_from_slice(b"12 345 moves 678 90 lines %");
        text.extend(std::iter::repeat_n(b'-', remark));
        text.push(b'\n');
    }
    text.resize(bytes, b' ');
    text
}

// Numbers, moves and lines, with a fill after each 60 points, as stored tokens.
fn drawing(points: u64) -> (Vec<u64>, u64) {
    let mut tokens = Vec::new();
    for i in 0..points {
        let operator = if i % 60 == 0 { 11 } else { 12 };
        tokens.extend_from_slice(&[0, 1 + i % 900, 0, 1 + i * 7 % 700, 1, operator]);
        if i % 60 == 59 {
            tokens.extend_from_slice(&[1, 13]);
        }
    }
    tokens.extend_from_slice(&[1, 20]);
    let steps = tokens.len() as u64 / 2 + 1;
    (tokens, steps)
}

fn main() {
    // dense, as long as 65,536 tokens go; and the same mix of tokens and remarks in a short and in the longest text
    for (bytes, remark) in [(16 << 10, 0), (290 << 10, 0), (16 << 10, 1_510), ((16 << 20) - 1, 1_510)] {
        let text = text_of(bytes, remark);
        let count = tokens_of(&text);
        assert!(count <= 65_536);
        let rounds = if bytes > 1_000_000 { 10 } else { 500 };
        let seconds = best(rounds, || assert_eq!(tokens_of(&text), count));
        println!("read {:>9} bytes, remarks of {remark:>5}, {count:>5} tokens {:>7.0} MB/s", text.len(), text.len() as f64 / seconds / 1e6);
    }
    let (tokens, steps) = drawing(21_000);
    let mut words = vec![0u64; 3_072];
    let seconds = best(200, || assert_eq!(pages_of(&tokens, &mut words, steps as u32), 1));
    println!("run  {steps:>9} steps of numbers, moves, lines   {:>5.0} million steps/s", steps as f64 / seconds / 1e6);
}
