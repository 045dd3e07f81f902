//! A fault's key: the numbers of its body, the layout, and writing it.

use crate::blocks::{DEEPEST, LOOP};
use crate::bytes;
use crate::refusal::{Refusal, refuse};
use crate::run::Outcome;
use crate::state::State;
use crate::step::Faults;

/// The most bytes of a body.
pub const LONGEST_BODY: usize = 816;
/// The largest place that a body holds.
const LARGEST_PLACE: u32 = 65_535;
/// The lists of fault kinds that a body holds.
pub const KINDS: [&[u32]; 13] = [
    &[1],
    &[2],
    &[3],
    &[4],
    &[5],
    &[1, 2],
    &[1, 3],
    &[6],
    &[1, 6],
    &[2, 6],
    &[3, 6],
    &[1, 2, 6],
    &[1, 3, 6],
];
/// The most kinds that a body holds.
const MOST_KINDS: u32 = 3;

/// A body read out of bytes, as far as its listing needs it.
#[derive(Clone, Debug, PartialEq, Eq)]
pub struct Body {
    pub kernel: u32,
    pub place: u32,
    pub kinds: Vec<u32>,
    pub depth: u32,
    /// How many bytes it has.
    pub length: usize,
}

/// The body's bytes for a fault, of the layout or not.
pub fn body(kernel: u32, faults: &Faults, state: &State) -> Vec<u8> {
    let kinds = faults.iter().filter(|lanes| **lanes != 0).count();
    let mut numbers = vec![kernel, state.place, kinds as u32];
    for (kind, &lanes) in (1..).zip(faults) {
        if lanes != 0 {
            numbers.extend([kind, lanes]);
        }
    }
    numbers.extend([state.active, state.halted, state.blocks.len() as u32]);
    for b in &state.blocks {
        numbers.extend([b.part, b.opener, b.entered, b.aside, b.again, b.left]);
    }
    bytes::from_numbers(&numbers)
}

/// The body of the layout that the bytes begin with; none where they begin with no such body.
pub fn read(bytes: &[u8]) -> Option<Body> {
    let mut at = 0;
    let mut next = || {
        at += 4;
        bytes::number_at(bytes, at - 4)
    };
    let kernel = next()?;
    let place = next()?;
    let count = next()?;
    if count > MOST_KINDS {
        return None;
    }
    let mut kinds = Vec::new();
    let mut lanes = Vec::new();
    for _ in 0..count {
        kinds.push(next()?);
        lanes.push(next()?);
    }
    let (_active, _halted, depth) = (next()?, next()?, next()?);
    if place > LARGEST_PLACE || !kinds_allowed(&kinds, &lanes) || depth as usize > DEEPEST {
        return None;
    }
    for _ in 0..depth {
        let (part, opener) = (next()?, next()?);
        let (_entered, _aside, again, _left) = (next()?, next()?, next()?, next()?);
        if !block_allowed(part, opener, again) {
            return None;
        }
    }
    Some(Body {
        kernel,
        place,
        kinds,
        depth,
        length: at,
    })
}

/// Whether the kinds are a listed list, and their lane sets are not empty and don't overlap.
fn kinds_allowed(kinds: &[u32], lanes: &[u32]) -> bool {
    KINDS.contains(&kinds) && !lanes.contains(&0) && !overlap(lanes)
}

/// Whether two of the sets have a lane in common.
fn overlap(sets: &[u32]) -> bool {
    let common = |(index, set): (usize, &u32)| sets[..index].iter().any(|other| set & other != 0);
    sets.iter().enumerate().any(common)
}

/// Whether a block's numbers are of the layout.
fn block_allowed(part: u32, opener: u32, again: u32) -> bool {
    (1..=3).contains(&part) && opener <= LARGEST_PLACE && (part == LOOP || again == 0)
}

/// Writes the key of what a run answered, and says how many bytes it took. Tests 14, 13, at place 0.
/// Output past the result stays as lent.
pub fn write(
    kernel: u32,
    outcome: &Outcome,
    state: &State,
    output: &mut [u8],
) -> Result<usize, Refusal> {
    let Outcome::Fault(faults) = outcome else {
        return refuse(14, 0);
    };
    let body = body(kernel, faults, state);
    if read(&body).is_none_or(|found| found.length != body.len()) {
        return refuse(14, 0);
    }
    if output.len() < body.len() {
        return refuse(13, 0);
    }
    output[..body.len()].copy_from_slice(&body);
    Ok(body.len())
}
