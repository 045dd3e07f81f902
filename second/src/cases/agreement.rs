//! Comparing the answers of another program with one's own.

use super::Case;
use super::answer::{Answer, answer};
use super::reached::Reached;
use crate::capture;
use crate::numerals;
use crate::text;

/// Compares an answer with the numbers that another program's answers go on with, and passes them.
/// An error names the first difference.
pub fn compare(expected: &Answer, found: &mut &[u32]) -> Result<(), String> {
    for part in &expected.parts {
        for (index, number) in part.numbers.iter().enumerate() {
            let what = match part.numbers.len() {
                1 => part.name.to_string(),
                _ => format!("{} [{index}]", part.name),
            };
            let Some((first, rest)) = found.split_first() else {
                return Err(format!("{what}: expected {number}, found the end"));
            };
            if first != number {
                return Err(format!(
                    "{what}: expected {number} ({number:08X}), found {first} ({first:08X})"
                ));
            }
            *found = rest;
        }
    }
    Ok(())
}

/// Compares all answers to the cases; `first` is the first case's number. Counts what is reached.
pub fn compare_all(
    cases: &[Case],
    first: u64,
    answers: &[u32],
    reached: &mut Reached,
) -> Result<(), String> {
    let mut rest = answers;
    for (number, case) in (first..).zip(cases) {
        compare(&answer(case, reached), &mut rest).map_err(|difference| {
            format!(
                "case {number}, {}: {difference}\n{}",
                name(case),
                describe(case)
            )
        })?;
    }
    match rest.len() {
        0 => Ok(()),
        more => Err(format!("after the last answer: {more} more numbers")),
    }
}

/// What a case calls.
pub fn name(case: &Case) -> &'static str {
    match case {
        Case::Read { .. } => "read one instruction",
        Case::Write { .. } => "write one instruction",
        Case::Run { capture, .. } if capture.state.is_none() => "launch",
        Case::Run { .. } => "go on with a state",
        Case::Key { .. } => "write a key",
        Case::Make { .. } => "make a day file",
        Case::File { .. } => "read a day file",
        Case::Listing { .. } => "list a day file",
        Case::Text { .. } => "text of an instruction",
    }
}

/// A case as text; a run's is its capture's.
pub fn describe(case: &Case) -> String {
    match case {
        Case::Read { words } => format!("words {}\n", hex(words)),
        Case::Write { instruction, room } | Case::Text { instruction, room } => {
            format!("{instruction:?}, room {room}\n")
        }
        Case::Run { capture, key_room } => {
            format!("{}\n# key room {key_room}\n", text::print(capture))
        }
        Case::Key {
            kernel,
            outcome,
            state,
            room,
        } => format!(
            "kernel {kernel}, {outcome:?}, room {room}, state {}\n",
            hex(&capture::state_words(state))
        ),
        Case::Make { bodies, room } => format!("room {room}, bodies {bodies:02X?}\n"),
        Case::File { file, record } => format!("record {record}, file {file:02X?}\n"),
        Case::Listing { file } => format!("file {file:02X?}\n"),
    }
}

/// Numbers as text.
pub fn hex(words: &[u32]) -> String {
    let text: Vec<String> = words.iter().map(|w| numerals::print(*w)).collect();
    text.join(" ")
}
