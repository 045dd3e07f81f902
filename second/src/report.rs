//! The report of a replay, in plain lines.

use crate::assembly;
use crate::blocks::DEEPEST;
use crate::capture::Capture;
use crate::key;
use crate::run::{Answer, Outcome};
use crate::text::SETS;
use crate::text::printing::{block_sets, sets};
use crate::words;

/// The refusals whose place is that of an instruction.
const AT_AN_INSTRUCTION: std::ops::RangeInclusive<u32> = 7..=10;

/// The lines of a report, each beginning with its word: outcome, steps, place, instruction (where one
/// stands there, or at the refusal's place), kind (one line for each), active, halted, p1, p2, p3, depth, block (one line for each, outermost first, at most 32)
/// and, for a fault, key with the body in hexadecimal.
pub fn report(capture: &Capture, answer: &Answer) -> String {
    let state = &answer.state;
    let mut lines = vec![
        format!("outcome {}", outcome(&answer.outcome)),
        format!("steps {}", answer.steps),
        format!("place {}", state.place),
    ];
    let instruction = instruction(&capture.code, answer);
    lines.extend(instruction.map(|text| format!("instruction {text}")));
    if let Outcome::Fault(faults) = answer.outcome {
        let found = (1..).zip(faults).filter(|(_, lanes)| *lanes != 0);
        lines.extend(found.map(|(kind, lanes)| format!("kind {kind} lanes {lanes:08X}")));
    }
    let sets = SETS.iter().zip(sets(state));
    lines.extend(sets.map(|(name, lanes)| format!("{name} {lanes:08X}")));
    lines.push(format!("depth {}", state.blocks.len()));
    for b in state.blocks.iter().take(DEEPEST) {
        let lanes = block_sets(b).map(|lanes| format!("{lanes:08X}"));
        lines.push(format!("block {} {} {}", b.part, b.opener, lanes.join(" ")));
    }
    if let Some(body) = body(capture.kernel, answer) {
        let hex: String = body.iter().map(|byte| format!("{byte:02X}")).collect();
        lines.push(format!("key {hex}"));
    }
    lines.join("\n") + "\n"
}

/// The outcome's words.
fn outcome(outcome: &Outcome) -> String {
    match outcome {
        Outcome::Ended => "ended".to_string(),
        Outcome::OutOfBudget => "out of budget".to_string(),
        Outcome::Fault(_) => "fault".to_string(),
        Outcome::Refused(refusal) => {
            format!("refused {} place {}", refusal.number, refusal.place)
        }
    }
}

/// The text of the instruction at the place where the run stopped, or at the place of a refusal by 7 to
/// 10; none at the code's end, and none by another refusal.
fn instruction(code: &[u32], answer: &Answer) -> Option<String> {
    let place = match answer.outcome {
        Outcome::Refused(refusal) if AT_AN_INSTRUCTION.contains(&refusal.number) => refusal.place,
        Outcome::Refused(_) => return None,
        _ => answer.state.place,
    };
    let words = code.get(place as usize..)?;
    let (found, _) = words::read(words).ok()?;
    Some(assembly::print(&found))
}

/// The key of a fault.
pub fn body(kernel: u32, answer: &Answer) -> Option<Vec<u8>> {
    let mut output = vec![0; key::LONGEST_BODY];
    let length = key::write(kernel, &answer.outcome, &answer.state, &mut output).ok()?;
    output.truncate(length);
    Some(output)
}
