//! Why the capture of a text can't be replayed: the refusal with its rule, place and line, what the rule
//! expects and what was found.

use super::Text;
use crate::assembly;
use crate::blocks::{self, DEEPEST};
use crate::capture::Capture;
use crate::numerals;
use crate::operations::Operation;
use crate::refusal::Refusal;
use crate::run::{LARGEST_BUDGET, LONGEST_CODE, MOST_REGISTERS};
use crate::state::{Misfit, State, first_lanes};
use crate::words::{self, Wrong};

/// The rules of the page's table that a run tests, in order.
const RULES: [&str; 11] = [
    "a setting",
    "code too long",
    "register buffer length",
    "opcode not carried, or modifier not listed for it",
    "second word missing",
    "a field, predicate form, predicate or special number",
    "register number R or more",
    "stray ELSE, ENDIF, ENDLOOP, BREAK or CONTINUE",
    "a 33rd open block",
    "block open at the end",
    "state doesn't fit",
];

/// What a rule expects, what was found, and the line that says it, where one does.
struct Broken {
    expected: String,
    found: String,
    line: Option<usize>,
}

/// A refusal of the text's capture in words.
pub fn describe(text: &Text, refusal: Refusal) -> String {
    let Refusal { number, place } = refusal;
    let rule = RULES[number as usize - 1];
    let broken = match number {
        1 => setting(text),
        2 | 3 => length(text, number),
        11 => misfit(text),
        _ => instruction(text, number, place as usize),
    };
    let Broken {
        expected, found, ..
    } = broken;
    let line = broken.line.map(|line| format!("line {line}: "));
    let line = line.unwrap_or_default();
    format!("{line}refused {number} at place {place}, {rule}: expected {expected}, found {found}")
}

/// The first setting that isn't allowed.
fn setting(text: &Text) -> Broken {
    let s = text.capture.settings;
    let width = s.width;
    let tests = [
        (1, width, matches!(width, 8 | 16 | 32), "width 8, 16 or 32"),
        (
            2,
            s.registers,
            (1..=MOST_REGISTERS).contains(&s.registers),
            &format!("1 to {MOST_REGISTERS} registers"),
        ),
        (
            3,
            s.lanes,
            (1..=width).contains(&s.lanes),
            &format!("1 to {width} lanes"),
        ),
        (
            4,
            s.budget,
            s.budget <= LARGEST_BUDGET,
            &format!("a budget of 0 to {LARGEST_BUDGET}"),
        ),
    ];
    let first = tests.iter().find(|(_, _, allowed, _)| !allowed);
    let (index, found, _, expected) = first.expect("refusal 1 has a setting that isn't allowed");
    Broken {
        expected: expected.to_string(),
        found: found.to_string(),
        line: Some(text.lines.settings[*index]),
    }
}

/// The code, by 2, or the register buffer, by 3.
fn length(text: &Text, number: u32) -> Broken {
    let Capture {
        settings: s,
        code,
        registers,
        ..
    } = &text.capture;
    let (expected, found, section) = match number {
        2 => (format!("at most {LONGEST_CODE} words"), code.len(), 0),
        _ => {
            let words = s.width * s.registers;
            let product = format!(
                "{words} words, width {} x registers {}",
                s.width, s.registers
            );
            (product, registers.len(), 1)
        }
    };
    Broken {
        expected,
        found: found.to_string(),
        line: text.lines.sections[section],
    }
}

/// The instruction at the refusal's place, by 4 to 10.
fn instruction(text: &Text, number: u32, place: usize) -> Broken {
    let words = &text.capture.code[place..];
    let registers = text.capture.settings.registers;
    let first = numerals::hexadecimal(words[0]);
    let named = || assembly::print(&words::instruction_at(words, 0));
    let (expected, found) = match number {
        4 => ("the first word of an instruction".to_string(), first),
        5 => (
            format!("a second word after {first}"),
            "the code's end".to_string(),
        ),
        6 => (allowed(words).to_string(), shown(words)),
        7 => (format!("registers below {registers}"), named()),
        8 => (opened(words).to_string(), named()),
        9 => (format!("at most {DEEPEST} open blocks"), named()),
        _ => (
            format!("the end of the block that {} opens", named()),
            "the code's end".to_string(),
        ),
    };
    Broken {
        expected,
        found,
        line: line_of(text, place),
    }
}

/// The line that gives the word at a place of the code.
fn line_of(text: &Text, place: usize) -> Option<usize> {
    let places = &text.lines.places;
    let line = places.iter().rev().find(|(first, _)| *first <= place);
    line.map(|(_, number)| *number)
}

/// What the words of an instruction that 6 refuses should be.
fn allowed(words: &[u32]) -> &'static str {
    match words::wrong_field(words) {
        Some(Wrong::PredicateForm) => "a predicate that may stand with this instruction",
        Some(Wrong::PredicateNumber) => "p1, p2 or p3 as the predicate it sets",
        Some(Wrong::SpecialNumber) => "special number 0, 1 or 2",
        _ => "0 in every field that this instruction doesn't use",
    }
}

/// The words of the instruction that these begin with.
fn shown(words: &[u32]) -> String {
    let count = words::operation_of(words[0]).map_or(1, Operation::words);
    let shown = words[..count]
        .iter()
        .map(|word| numerals::hexadecimal(*word));
    shown.collect::<Vec<_>>().join(" ")
}

/// Where the instruction that these words begin with, refused by 8, may stand.
fn opened(words: &[u32]) -> &'static str {
    match words::operation_of(words[0]) {
        Some(Operation::Else) => "an IF with no ELSE as the innermost open block",
        Some(Operation::Endif) => "an IF as the innermost open block",
        Some(Operation::Endloop) => "a LOOP as the innermost open block",
        _ => "an open LOOP",
    }
}

/// Why the state doesn't fit.
fn misfit(text: &Text) -> Broken {
    let Capture {
        settings,
        code,
        state,
        ..
    } = &text.capture;
    let state = state.clone().unwrap_or_default();
    let launched = first_lanes(settings.lanes);
    let misfit = state.misfit(code, settings.lanes);
    let (expected, found) = match misfit.expect("refusal 11 has a state that doesn't fit") {
        Misfit::Depth => (
            format!("at most {DEEPEST} open blocks"),
            state.blocks.len().to_string(),
        ),
        Misfit::Place => (
            "the place of an instruction or of the code's end".to_string(),
            state.place.to_string(),
        ),
        Misfit::Blocks => open_blocks(code, &state),
        Misfit::Stranger => (
            format!("launched lanes alone in every set, {}", lanes(launched)),
            format!("also {}", lanes(state.every_lane() & !launched)),
        ),
        Misfit::Again => (
            "0 for the again set of an IF's block".to_string(),
            "another".to_string(),
        ),
        Misfit::Lane => (
            "each launched lane in exactly one of active, halted, aside and again".to_string(),
            format!("{} in none or several", lanes(state.misplaced(launched))),
        ),
        Misfit::Entered => (
            "each block's entered lanes to be those left, active, and aside or again in and inside it"
                .to_string(),
            "others".to_string(),
        ),
    };
    Broken {
        expected,
        found,
        line: text.lines.sections[4],
    }
}

/// The blocks that the code has open at the state's place, and those of the state, as part and opener.
fn open_blocks(code: &[u32], state: &State) -> (String, String) {
    let list = |blocks: Vec<blocks::Open>| match blocks.is_empty() {
        true => "none".to_string(),
        false => {
            let pairs = blocks.iter().map(|b| format!("{} {}", b.part, b.opener));
            pairs.collect::<Vec<_>>().join(", ")
        }
    };
    let open = blocks::open_at(code, state.place).unwrap_or_default();
    (
        format!("the blocks (part opener) {}", list(open)),
        list(state.open()),
    )
}

/// A set of lanes.
fn lanes(set: u32) -> String {
    format!("lanes {}", numerals::hexadecimal(set))
}
