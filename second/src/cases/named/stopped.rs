//! A kernel whose lanes part in a loop, stopped after each of its steps and gone on from there.

use super::{Named, launch, state};
use crate::state::State;

/// Lane 0 breaks in the first round, lane 1 continues and breaks in the second, lane 2 in the third, and
/// lane 3 halts. r0 is the lane, r1 1 and r2 0.
const CODE: &str = "
    LOCAL_STORE [r2 + 0], r1
    LOOP
      EQ p1, r0, r2
      BREAK on p1
      SUB r0, r0, r1
      EQ p2, r0, r2
      IF on p2
        CONTINUE
      ELSE
        LT p3, r1, r0
        HALT on p3
      ENDIF
    ENDLOOP
    ATOMIC_ADD r0, [r2], r1
";

/// The run from the launch to its end, a line between each two steps: place, active, halted, p1 to p3, r0 of
/// lanes 0 to 3, and the six numbers of each open block.
const LINES: &str = "
     0  15 0  0 0 0  0 1 2 3
     2  15 0  0 0 0  0 1 2 3
     3  15 0  0 0 0  0 1 2 3  | 3 2 15 0 0 0
     5  15 0  1 0 0  0 1 2 3  | 3 2 15 0 0 0
     6  14 0  1 0 0  0 1 2 3  | 3 2 15 1 0 0
     8  14 0  1 0 0  0 0 1 2  | 3 2 15 1 0 0
    10  14 0  1 2 0  0 0 1 2  | 3 2 15 1 0 0
    11   2 0  1 2 0  0 0 1 2  | 3 2 15 1 0 0  | 1 10 14 12 0 0
    12   0 0  1 2 0  0 0 1 2  | 3 2 15 1 2 0  | 1 10 14 12 0 2
    13  12 0  1 2 0  0 0 1 2  | 3 2 15 1 2 0  | 2 10 14 0 0 2
    15  12 0  1 2 8  0 0 1 2  | 3 2 15 1 2 0  | 2 10 14 0 0 2
    16   4 8  1 2 8  0 0 1 2  | 3 2 15 1 2 8  | 2 10 14 0 0 10
    17   4 8  1 2 8  0 0 1 2  | 3 2 15 1 2 8
     3   6 8  1 2 8  0 0 1 2  | 3 2 15 1 0 8
     5   6 8  3 2 8  0 0 1 2  | 3 2 15 1 0 8
     6   4 8  3 2 8  0 0 1 2  | 3 2 15 3 0 8
     8   4 8  3 2 8  0 0 0 2  | 3 2 15 3 0 8
    10   4 8  3 6 8  0 0 0 2  | 3 2 15 3 0 8
    11   4 8  3 6 8  0 0 0 2  | 3 2 15 3 0 8  | 1 10 4 0 0 0
    12   0 8  3 6 8  0 0 0 2  | 3 2 15 3 4 8  | 1 10 4 0 0 4
    13   0 8  3 6 8  0 0 0 2  | 3 2 15 3 4 8  | 2 10 4 0 0 4
    15   0 8  3 6 8  0 0 0 2  | 3 2 15 3 4 8  | 2 10 4 0 0 4
    16   0 8  3 6 8  0 0 0 2  | 3 2 15 3 4 8  | 2 10 4 0 0 4
    17   0 8  3 6 8  0 0 0 2  | 3 2 15 3 4 8
     3   4 8  3 6 8  0 0 0 2  | 3 2 15 3 0 8
     5   4 8  7 6 8  0 0 0 2  | 3 2 15 3 0 8
     6   0 8  7 6 8  0 0 0 2  | 3 2 15 7 0 8
     8   0 8  7 6 8  0 0 0 2  | 3 2 15 7 0 8
    10   0 8  7 6 8  0 0 0 2  | 3 2 15 7 0 8
    11   0 8  7 6 8  0 0 0 2  | 3 2 15 7 0 8  | 1 10 0 0 0 0
    12   0 8  7 6 8  0 0 0 2  | 3 2 15 7 0 8  | 1 10 0 0 0 0
    13   0 8  7 6 8  0 0 0 2  | 3 2 15 7 0 8  | 2 10 0 0 0 0
    15   0 8  7 6 8  0 0 0 2  | 3 2 15 7 0 8  | 2 10 0 0 0 0
    16   0 8  7 6 8  0 0 0 2  | 3 2 15 7 0 8  | 2 10 0 0 0 0
    17   0 8  7 6 8  0 0 0 2  | 3 2 15 7 0 8
    18   7 8  7 6 8  0 0 0 2
    20   7 8  7 6 8  9 10 11 2
";

/// One of these lines.
struct Between {
    state: State,
    r0: Vec<u32>,
}

fn lines() -> Vec<Between> {
    let lines = LINES.lines().filter(|line| !line.is_empty());
    lines.map(between).collect()
}

fn between(line: &str) -> Between {
    let words = line.replace('|', "");
    let numbers = words
        .split_whitespace()
        .map(|word| word.parse().expect("a number"));
    let numbers: Vec<u32> = numbers.collect();
    let (first, blocks) = numbers.split_at(10);
    let six = |numbers: &[u32]| numbers.try_into().expect("six numbers");
    let blocks: Vec<[u32; 6]> = blocks.chunks(6).map(six).collect();
    let mut state = state(first[0], first[1], first[2], &blocks);
    state.predicates.copy_from_slice(&first[3..6]);
    Between {
        state,
        r0: first[6..].to_vec(),
    }
}

/// The steps of the whole run.
const STEPS: usize = 36;

/// Device and local memory after so many steps; the store comes first, the sum last.
fn memories(steps: usize) -> [u32; 2] {
    let device = if steps == STEPS { 12 } else { 9 };
    let local = if steps == 0 { 0 } else { 1 };
    [device, local]
}

/// The launch with each budget, and the run that goes on from where it stopped.
pub fn cases() -> Vec<Named> {
    let lines = lines();
    (0..=STEPS)
        .flat_map(|steps| [stopped_after(&lines, steps), gone_on_after(&lines, steps)])
        .collect()
}

fn parted(name: &str, steps: usize) -> Named {
    let name = format!("parted lanes, {name} after {steps} of {STEPS} steps");
    launch(&name, 8, 4, 3, CODE).lent(1, &[1; 4])
}

fn stopped_after(lines: &[Between], steps: usize) -> Named {
    let launched = parted("stopped", steps)
        .budget(steps as u32)
        .lent(0, &lines[0].r0)
        .device(&[9])
        .local(&[7]);
    reaches(launched, steps, &lines[steps], memories(steps))
}

fn gone_on_after(lines: &[Between], steps: usize) -> Named {
    let [device, local] = memories(steps);
    let resumed = parted("gone on", steps)
        .lent(0, &lines[steps].r0)
        .device(&[device])
        .local(&[local])
        .resumed(lines[steps].state.clone());
    reaches(resumed, STEPS - steps, &lines[STEPS], memories(STEPS))
}

/// Says that the run comes to a line after so many steps of its own; it has ended at the code's end.
fn reaches(named: Named, steps: usize, line: &Between, [device, local]: [u32; 2]) -> Named {
    let (place, end) = (line.state.place, named.capture.code.len());
    let mut reached = match place as usize == end {
        true => named.ends(steps as u32, place),
        false => named.stops(steps as u32, place),
    };
    reached.answer.state = line.state.clone();
    reached
        .register_after(0, &line.r0)
        .device_after(&[device])
        .local_after(&[local])
}
