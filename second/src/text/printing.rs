//! A capture as text, from which `read` gives the capture back, with nothing doubtful.

use super::{SETS, SETTINGS};
use crate::assembly;
use crate::capture::Capture;
use crate::numerals;
use crate::state::{Block, State};
use crate::words;

/// The most words in a line of registers.
const REGISTERS_IN_A_LINE: usize = 16;
/// The most words in a line of a memory.
const WORDS_IN_A_LINE: usize = 8;

/// A capture as text.
pub fn print(capture: &Capture) -> String {
    let s = capture.settings;
    let numbers = [capture.kernel, s.width, s.registers, s.lanes, s.budget];
    let mut text = String::new();
    for (name, number) in SETTINGS.iter().zip(numbers) {
        text += &format!("{name} {}\n", numerals::print(number));
    }
    text += &format!("\ncode\n{}", print_code(&capture.code));
    text += &section("register words", &registers(capture));
    text += &section("device words", &rows(&capture.device, WORDS_IN_A_LINE));
    text += &section("local words", &rows(&capture.local, WORDS_IN_A_LINE));
    if let Some(state) = &capture.state {
        text += &section("state", &state_lines(state));
    }
    text
}

/// A section of these lines.
fn section(name: &str, lines: &[String]) -> String {
    let lines: String = lines.iter().map(|line| format!("    {line}\n")).collect();
    format!("\n{name}\n{lines}")
}

/// The code, one line for each instruction, set in by its blocks, with its place.
fn print_code(code: &[u32]) -> String {
    use crate::operations::Operation::*;
    let mut text = String::new();
    let (mut place, mut depth) = (0, 0usize);
    while place < code.len() {
        let (line, length, operation) = match words::read(&code[place..]) {
            Ok((found, length)) => (assembly::print(&found), length, Some(found.operation)),
            Err(_) => (
                format!("word {}", numerals::hexadecimal(code[place])),
                1,
                None,
            ),
        };
        let outward = matches!(operation, Some(Else | Endif | Endloop));
        let inward = matches!(operation, Some(If | Else | Loop));
        depth = depth.saturating_sub(usize::from(outward));
        let indent = "  ".repeat(depth.min(32));
        text += &format!("    {:<40} # {place}\n", indent + &line);
        depth += usize::from(inward);
        place += length;
    }
    text
}

/// The register buffer's lines, labelled by lane where it has as many words as the settings say.
fn registers(capture: &Capture) -> Vec<String> {
    let (words, each) = (&capture.registers, capture.settings.registers);
    let expected = u64::from(capture.settings.width) * u64::from(each);
    if !words.is_empty() && words.len() as u64 == expected {
        lanes(words, each as usize)
    } else {
        rows(words, REGISTERS_IN_A_LINE)
    }
}

/// The registers of each lane under its label. Lanes with one and the same word everywhere are one line.
fn lanes(words: &[u32], each: usize) -> Vec<String> {
    let lanes: Vec<&[u32]> = words.chunks(each).collect();
    let column = format!("lanes {0}-{0}", lanes.len() - 1).len();
    let mut lines = Vec::new();
    let mut lane = 0;
    while lane < lanes.len() {
        let word = lanes[lane][0];
        let alike = lanes[lane..].iter().take_while(|words| same(words, word));
        let count = alike.count().max(1);
        let (label, rows) = match count {
            1 => (
                format!("lane {lane}"),
                rows(lanes[lane], REGISTERS_IN_A_LINE),
            ),
            _ => (
                format!("lanes {lane}-{}", lane + count - 1),
                vec![repeated(count * each, word)],
            ),
        };
        let labels = std::iter::once(label.as_str()).chain(std::iter::repeat(""));
        let labelled = labels.zip(rows);
        lines.extend(labelled.map(|(label, row)| format!("{label:<column$}  {row}")));
        lane += count;
    }
    lines
}

/// Whether every word is this one.
fn same(words: &[u32], word: u32) -> bool {
    words.iter().all(|other| *other == word)
}

/// So many words that are one and the same.
fn repeated(count: usize, word: u32) -> String {
    format!(
        "{} of {}",
        numerals::print(count as u32),
        numerals::print(word)
    )
}

/// Words in rows; rows of one and the same word are one line.
fn rows(words: &[u32], row: usize) -> Vec<String> {
    let mut lines = Vec::new();
    let mut at = 0;
    while at < words.len() {
        let run = words[at..].iter().take_while(|w| **w == words[at]).count();
        let whole = if at + run == words.len() {
            run
        } else {
            run - run % row
        };
        if whole > row {
            lines.push(repeated(whole, words[at]));
            at += whole;
        } else {
            let end = words.len().min(at + row);
            let line: Vec<String> = words[at..end].iter().map(|w| numerals::print(*w)).collect();
            lines.push(line.join(" "));
            at = end;
        }
    }
    lines
}

/// The state's lines: place and depth as numbers, sets of lanes in hexadecimal.
fn state_lines(state: &State) -> Vec<String> {
    let mut lines = vec![format!("place {}", numerals::print(state.place))];
    for (name, lanes) in SETS.iter().zip(sets(state)) {
        lines.push(format!("{name} {}", numerals::hexadecimal(lanes)));
    }
    lines.push(format!("depth {}", state.blocks.len()));
    for b in &state.blocks {
        let [part, opener] = [b.part, b.opener].map(numerals::print);
        let lanes = block_sets(b).map(numerals::hexadecimal).join(" ");
        lines.push(format!("block {part} {opener} {lanes}"));
    }
    lines
}

/// The sets of a state, in the order of `SETS`.
pub fn sets(state: &State) -> [u32; 5] {
    let [p1, p2, p3] = state.predicates;
    [state.active, state.halted, p1, p2, p3]
}

/// The sets of a block: entered, aside, again, left.
pub fn block_sets(b: &Block) -> [u32; 4] {
    [b.entered, b.aside, b.again, b.left]
}
