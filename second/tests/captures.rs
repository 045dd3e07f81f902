//! The capture file and its readable text, and the samples in captures/.

mod common;

use std::fs;
use std::path::{Path, PathBuf};

use second::capture::Capture;
use second::report;
use second::run::Outcome;
use second::text;

fn samples() -> Vec<PathBuf> {
    let folder = Path::new(env!("CARGO_MANIFEST_DIR")).join("../captures");
    let mut found: Vec<PathBuf> = fs::read_dir(folder)
        .expect("the folder captures")
        .map(|entry| entry.expect("an entry").path())
        .filter(|path| path.extension().is_some_and(|ending| ending == "txt"))
        .collect();
    found.sort();
    found
}

fn sample(name: &str) -> Capture {
    let path = samples().into_iter().find(|path| path.ends_with(name));
    let text = fs::read_to_string(path.expect("the sample")).expect("its text");
    text::read(&text).expect("a capture").capture
}

#[test]
fn each_packed_sample_is_what_its_text_packs_to() {
    assert!(samples().len() >= 10);
    for path in samples() {
        let read = text::read(&fs::read_to_string(&path).expect("text")).expect("a capture");
        let capture = read.capture;
        assert_eq!(read.doubtful, [], "{path:?}");
        let packed = fs::read(path.with_extension("cap")).expect("the packed file");
        assert_eq!(capture.write(), packed, "{path:?}");
        assert_eq!(Capture::read(&packed), Ok(capture.clone()), "{path:?}");
        let again = text::read(&text::print(&capture)).expect("a capture");
        assert_eq!(again.capture, capture, "{path:?}");
        assert_eq!(again.doubtful, [], "{path:?}");
    }
}

#[test]
fn each_sample_gives_its_report() {
    for path in samples() {
        let file = fs::read(path.with_extension("cap")).expect("the packed file");
        let mut capture = Capture::read(&file).expect("a capture");
        let answer = capture.run();
        let expected = fs::read_to_string(path.with_extension("report")).expect("the report");
        assert_eq!(report::report(&capture, &answer), expected, "{path:?}");
    }
}

#[test]
fn the_stopped_sample_is_where_the_budget_stops() {
    let mut capture = sample("collatz.txt");
    let answer = capture.run();
    capture.state = Some(answer.state);
    assert_eq!(capture, sample("collatz-stopped.txt"));
    capture.run();
    assert_eq!(capture.device[..6], [0, 1, 7, 2, 5, 8]);
}

#[test]
fn the_reduction_adds_up_both_ways() {
    let mut capture = sample("reduction.txt");
    let sum: u32 = capture.device[8..]
        .iter()
        .fold(0, |sum, word| sum.wrapping_add(*word));
    capture.run();
    assert_eq!(capture.device[0], sum);
    assert_eq!(capture.device[3], 24);
    assert_eq!(capture.device[4], sum);
}

#[test]
fn the_search_finds_each_key() {
    let mut capture = sample("search.txt");
    capture.run();
    for lane in 0..13 {
        let key = capture.device[32 + lane];
        let found = capture.device[..32].iter().position(|word| *word == key);
        let expected = found.map_or(!0, |index| index as u32);
        assert_eq!(capture.device[48 + lane], expected);
    }
}

#[test]
fn the_compaction_ends_where_there_is_a_word_more() {
    let mut capture = sample("compaction.txt");
    capture.device.push(0);
    assert_eq!(capture.run().outcome, Outcome::Ended);
    let samples = capture.device[..30].iter().copied();
    let kept: Vec<u32> = samples.filter(|word| *word as i32 > 0).collect();
    assert_eq!(capture.device[31], 13);
    assert_eq!(capture.device[32..], kept);
}

/// The place and a word of the error for a changed file.
fn error(change: impl Fn(&mut Vec<u8>)) -> usize {
    let mut file = sample("collatz-stopped.txt").write();
    change(&mut file);
    Capture::read(&file).expect_err("no capture").place
}

#[test]
fn a_count_past_the_room_says_the_room() {
    let mut file = sample("collatz-stopped.txt").write();
    file[36..40].copy_from_slice(&16_777_217u32.to_le_bytes());
    let expected = Capture::read(&file).expect_err("no capture").expected;
    assert_eq!(expected, "at most 16777216 device words");
}

#[test]
fn files_of_another_shape_are_said_so_with_the_place() {
    let length = sample("collatz-stopped.txt").write().len();
    let set = |at: usize, byte: u8| error(|file| file[at] = byte);
    assert_eq!(error(|file| file.clear()), 0);
    assert_eq!(set(0, 0), 0);
    assert_eq!(set(4, 2), 4);
    assert_eq!(error(|file| file.truncate(7)), 4);
    assert_eq!(error(|file| file.truncate(50)), 48);
    assert_eq!(set(30, 2), 28, "room for code");
    assert_eq!(set(34, 1), 32, "room for registers");
    assert_eq!(set(39, 1), 36, "room for device memory");
    assert_eq!(set(43, 1), 40, "room for local memory");
    assert_eq!(set(44, 6), 44, "words of a state");
    assert_eq!(set(44, 8), 44, "words of a state");
    assert_eq!(set(48, 1), 48, "the sixth count");
    assert_eq!(error(|file| file.push(0)), length, "too long");
    assert_eq!(error(|file| file.truncate(99)), 99, "too short");
    assert_eq!(set(44, 13), length - 24, "too long by a block");
    let depth_at = length - 4 * (7 + 12) + 24;
    assert_eq!(set(depth_at, 1), depth_at, "another depth");
}
