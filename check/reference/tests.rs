//! Jobs worked out by hand, and the examples of the documents.

use crate::job::{Settings, open_and_run, print_pgm, print_text};
use crate::token::Stage;

const PLENTY: u64 = 1_000_000_000;

fn settings(width: u64, height: u64) -> Settings {
    Settings { width, height, steps: PLENTY, stage: Stage::Whole }
}

fn print(text: &[u8], settings: &Settings) -> String {
    match open_and_run(text, settings) {
        Err(refusal) => format!("{refusal}\n"),
        Ok(run) => {
            let printed = print_text(&run, settings);
            String::from_utf8_lossy(&printed.pages).into_owned() + &printed.last_line
        }
    }
}

/// Expects these rows and the last line behind them.
fn expect_picture(width: u64, height: u64, text: &str, rows: &[&str], last: &str) {
    let expected: String = rows.iter().chain([&last]).map(|row| format!("{row}\n")).collect();
    assert_eq!(print(text.as_bytes(), &settings(width, height)), expected, "{text}");
}

fn expect_ending(text: &str, steps: u64, pages: usize, ending: u32) {
    let run = open_and_run(text.as_bytes(), &Settings { steps, ..settings(4, 2) }).expect("it is opened");
    assert_eq!((run.pages.len(), run.ending.number()), (pages, ending), "{text} with {steps} steps");
}

/// Expects one line: a refusal, or the ending of a job that shows no page.
fn expect_line(stage: Stage, text: &[u8], line: &str) {
    let printed = print(text, &Settings { stage, ..settings(4, 2) });
    assert_eq!(printed, format!("{line}\n"), "{}", String::from_utf8_lossy(text));
}

/// Ends so with exactly this many steps, and by 8 with one less.
fn expect_steps(text: &str, steps: u64, pages: usize, ending: u32) {
    let run = open_and_run(text.as_bytes(), &settings(4, 2)).expect("it is opened");
    assert_eq!(run.steps, steps, "{text}");
    expect_ending(text, steps, pages, ending);
    let less = open_and_run(text.as_bytes(), &Settings { steps: steps - 1, ..settings(4, 2) }).expect("it is opened");
    assert_eq!(less.ending.number(), 8, "{text}");
}

#[test]
fn an_empty_page_is_white() {
    expect_picture(4, 2, "shows", &["....", "...."], "pages 1 ending 0");
}

#[test]
fn no_page_is_one_line() {
    expect_picture(4, 2, "", &[], "pages 0 ending 0");
}

#[test]
fn an_empty_line_stands_between_pages_only() {
    let text = "shows 0 0 moves 2 0 lines 2 1 lines 0 1 lines fills shows x";
    expect_picture(2, 1, text, &["..", "", "##"], "pages 2 ending 4");
}

#[test]
fn a_picture_has_the_greys_themselves() {
    let text = b"7 greys 1 0 moves 2 0 lines 2 1 lines 1 1 lines fills shows shows";
    let printed = print_pgm(&open_and_run(text, &settings(3, 1)).expect("it is opened"), &settings(3, 1));
    assert_eq!(printed.pages, b"P5\n3 1\n255\n\xff\x07\xffP5\n3 1\n255\n\xff\xff\xff");
    assert_eq!(printed.last_line, "pages 2 ending 0\n");
}

#[test]
fn a_rectangle_has_its_left_and_upper_border() {
    let text = "1 1 moves 4 1 lines 4 3 lines 1 3 lines fills shows";
    expect_picture(6, 4, text, &["......", ".###..", ".###..", "......"], "pages 1 ending 0");
}

#[test]
fn a_shared_edge_belongs_to_one_side() {
    let text = "0 0 moves 6 0 lines 0 6 lines fills 128 greys 6 0 moves 6 6 lines 0 6 lines fills shows";
    let rows = ["#####+", "####++", "###+++", "##++++", "#+++++", "++++++"];
    expect_picture(6, 6, text, &rows, "pages 1 ending 0");
}

#[test]
fn half_dots_meet_levels_and_middles() {
    let text = "8 scales 2 1 moves 7 1 lines 7 5 lines 2 5 lines fills shows";
    expect_picture(5, 3, text, &[".##..", ".##..", "....."], "pages 1 ending 0");
}

#[test]
fn a_subpath_in_another_is_a_hole() {
    let text = "0 0 moves 6 0 lines 6 6 lines 0 6 lines 2 2 moves 4 2 lines 4 4 lines 2 4 lines fills shows";
    let rows = ["######", "######", "##..##", "##..##", "######", "######"];
    expect_picture(6, 6, text, &rows, "pages 1 ending 0");
}

#[test]
fn a_clip_goes_with_back() {
    let text = "keeps 0 0 moves 3 0 lines 3 6 lines 0 6 lines clips-by
        0 0 moves 6 0 lines 6 6 lines 0 6 lines fills back 100 greys
        4 4 moves 6 4 lines 6 6 lines 4 6 lines fills shows";
    let rows = ["###...", "###...", "###...", "###...", "###.++", "###.++"];
    expect_picture(6, 6, text, &rows, "pages 1 ending 0");
}

#[test]
fn a_clip_without_a_path_hides() {
    let text = "keeps clips-by 0 0 moves 2 0 lines 2 1 lines 0 1 lines fills shows
        back 0 0 moves 1 0 lines 1 1 lines 0 1 lines fills shows";
    expect_picture(2, 1, text, &["..", "", "#."], "pages 2 ending 0");
}

#[test]
fn white_hides_what_is_under_it() {
    let text = "0 0 moves 3 0 lines 3 1 lines 0 1 lines fills 255 greys
        1 0 moves 2 0 lines 2 1 lines 1 1 lines fills shows";
    expect_picture(3, 1, text, &["#.#"], "pages 1 ending 0");
}

/// From (0, 0) one goes to (2, 1) in dots: the corner is there, and then units are two dots.
#[test]
fn shifts_and_scales_hold_for_later_points() {
    let text = "2 1 shifts 32 scales 0 0 moves 1 0 lines 1 1 lines 0 1 lines fills shows";
    expect_picture(5, 4, text, &[".....", "..##.", "..##.", "....."], "pages 1 ending 0");
}

#[test]
fn a_body_with_a_name_in_a_loop() {
    let text = "/box { copies 0 moves copies 2 adds 0 lines copies 2 adds 2 lines copies 2 lines drops fills } defines
        0 3 { copies box 3 adds } repeats drops shows";
    expect_picture(9, 3, text, &["##.##.##.", "##.##.##.", "........."], "pages 1 ending 0");
    expect_steps(text, 86, 1, 0);
}

#[test]
fn steps_are_counted_as_written() {
    expect_steps("", 1, 0, 0);
    expect_steps("shows", 2, 1, 0);
    expect_steps("x", 1, 0, 4);
    expect_steps("3 { 1 drops } repeats", 14, 0, 0);
    expect_steps("0 { 1 drops } repeats", 5, 0, 0);
    expect_steps("7 { 1 drops } when", 8, 0, 0);
    expect_steps("100000 { 1 drops } repeats", 300_005, 0, 0);
    expect_ending("shows", 1, 1, 8);
    expect_ending("", 0, 0, 8);
}

#[test]
fn operands_are_looked_at_from_the_top() {
    for (text, fault) in [
        ("1 moves", 1),
        ("{ } moves", 2),
        ("{ } 1 moves", 2),
        ("5 repeats", 2),
        ("{ } repeats", 1),
        ("/x defines", 1),
        ("1 /x defines", 2),
        ("1 2 lines", 5),
        ("1048576 0 lines", 5),
        ("256 greys", 3),
        ("1048576 0 moves", 3),
        ("back", 6),
        ("0 { 1 1 adds drops } 3 swaps drops lines", 5),
        ("/f { f } defines f", 7),
    ] {
        expect_ending(text, PLENTY, 0, fault);
    }
}

#[test]
fn limits_are_where_they_are_written() {
    for (text, ending) in [
        ("256 { 1 } repeats", 0),
        ("257 { 1 } repeats", 7),
        ("255 { 1 } repeats copies", 0),
        ("256 { 1 } repeats copies", 7),
        ("0 0 moves 1023 { 1 1 lines } repeats", 0),
        ("0 0 moves 1024 { 1 1 lines } repeats", 7),
        ("1024 { 0 0 moves } repeats", 0),
        ("1025 { 0 0 moves } repeats", 7),
        ("1024 { 0 0 moves } repeats 0 1048576 moves", 3),
        ("16 { keeps } repeats", 0),
        ("17 { keeps } repeats", 7),
        ("1024 { clips-by } repeats", 0),
        ("1025 { clips-by } repeats", 7),
        ("1023 { 0 0 moves } repeats clips-by", 0),
        ("1024 { 0 0 moves } repeats clips-by", 7),
        ("65535 scales", 0),
        ("65536 scales", 3),
        ("1048575 1048575 shifts 1 scales 15 15 moves", 0),
        ("1048575 1048575 shifts 1 scales 16 0 moves", 3),
        ("1048575 1048575 shifts 1 scales 0 16 shifts", 3),
        ("2147483647 0 adds", 0),
        ("2147483647 1 adds", 3),
        ("65535 32768 multiplies", 0),
        ("65536 32768 multiplies", 3),
        ("1 1 takes", 0),
        ("1 2 takes", 3),
        ("0 1 divides", 0),
        ("1 0 divides", 3),
    ] {
        expect_ending(text, PLENTY, 0, ending);
    }
}

#[test]
fn texts_are_refused_as_written() {
    let long = |before: &str, count| [before.as_bytes(), &vec![b'a'; count]].concat();
    let deep = |count| [vec![b'{'; count], vec![b'}'; count]].concat();
    for (text, refusal) in [
        (b"-5".to_vec(), "refused 1 at 1"),
        (b"5a".to_vec(), "refused 1 at 1"),
        (b"x/y".to_vec(), "refused 1 at 1"),
        (b"x%y".to_vec(), "refused 1 at 1"),
        (b"1\r\n".to_vec(), "refused 1 at 1"),
        (b"/".to_vec(), "refused 1 at 1"),
        (b"/ x".to_vec(), "refused 1 at 1"),
        (b"//x".to_vec(), "refused 1 at 1"),
        (b"1 }".to_vec(), "refused 1 at 2"),
        (b"{ 1".to_vec(), "refused 1 at 3"),
        (b"3 4 adds }".to_vec(), "refused 1 at 9"),
        (b"x 2147483648".to_vec(), "refused 2 at 2"),
        (b"99999999999999999999999".to_vec(), "refused 2 at 0"),
        (long("", 32), "refused 1 at 31"),
        (long("/", 32), "refused 1 at 32"),
        (deep(33), "refused 2 at 32"),
        (b"0 ".repeat(65_537), "refused 2 at 131072"),
    ] {
        expect_line(Stage::Thin, &text, refusal);
        expect_line(Stage::Whole, &text, refusal);
    }
    expect_line(Stage::Thin, b"{ 4 scales } shows", "refused 2 at 4");
    expect_line(Stage::Thin, b"shows keeps", "refused 2 at 6");
}

#[test]
fn texts_at_their_limits_are_read() {
    let deep = [vec![b'{'; 32], vec![b'}'; 32]].concat();
    let long = [b"/".to_vec(), vec![b'a'; 31]].concat();
    for text in [b"{%y\n}", &b"007"[..], b"2147483647", b"/adds", &deep, &long] {
        expect_line(Stage::Thin, text, "pages 0 ending 0");
    }
    expect_line(Stage::Thin, &long[1..], "pages 0 ending 4");
}

/// The 257th name is refused where it is first mentioned; one that is known is not.
#[test]
fn names_are_counted_once() {
    let name = |k: usize| format!("/{}{} ", (b'a' + (k / 26) as u8) as char, (b'a' + (k % 26) as u8) as char);
    let names: String = (0..256).map(name).collect();
    expect_line(Stage::Thin, format!("{{{names}}}/aa").as_bytes(), "pages 0 ending 0");
    let place = format!("refused 2 at {}", names.len() + 2);
    expect_line(Stage::Thin, format!("{{{names}}}/zz").as_bytes(), &place);
}

#[test]
fn settings_out_of_range_come_after_the_text() {
    for (width, height, steps) in [(0, 1, 1), (8_193, 1, 1), (1, 0, 1), (1, 65_536, 1), (1, 1, PLENTY + 1)] {
        let settings = Settings { width, height, steps, stage: Stage::Whole };
        assert_eq!(print(b"shows", &settings), "refused 2 at 0\n");
        assert_eq!(print(b"shows }", &settings), "refused 1 at 6\n");
    }
}
