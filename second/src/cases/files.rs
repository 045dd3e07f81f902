//! Random keys, bodies and day files, whole and damaged.

use super::random::Random;
use crate::bytes;
use crate::dayfile;
use crate::key;
use crate::refusal::Refusal;
use crate::run::Outcome;
use crate::state::{Block, State};
use crate::step::Faults;

/// The lanes of the kinds of a fault that has a body: one of the listed lists of kinds.
pub fn faults(random: &mut Random) -> Faults {
    let kinds = random.pick(&key::KINDS);
    apart(random, kinds)
}

/// Lanes for each of these kinds, no lane in two.
fn apart(random: &mut Random, kinds: &[u32]) -> Faults {
    let mut faults = Faults::default();
    for lane in 0..32 {
        let index = match lane < kinds.len() {
            true => lane,
            false => random.below(kinds.len() + 1),
        };
        if let Some(kind) = kinds.get(index) {
            faults[*kind as usize - 1] |= 1 << lane;
        }
    }
    let turn = random.below(32) as u32;
    faults.map(|lanes| lanes.rotate_left(turn))
}

/// Lanes for each of these kinds, with one lane in both of the two kinds that are said by their index.
pub fn overlapping(random: &mut Random, kinds: &[u32], two: [usize; 2]) -> Faults {
    let mut faults = apart(random, kinds);
    let [one, other] = two.map(|index| kinds[index] as usize - 1);
    faults[one] |= 1 << faults[other].trailing_zeros();
    faults
}

/// The lanes of a fault that may have no body: any kinds with lanes apart, or any lanes.
fn unlisted(random: &mut Random) -> Faults {
    if random.chance(50) {
        let kinds: Vec<u32> = (1..=6).filter(|_| random.chance(40)).collect();
        return apart(random, &kinds);
    }
    std::array::from_fn(|_| if random.chance(50) { random.bits() } else { 0 })
}

/// What a run may have answered; mostly a fault.
pub fn outcome(random: &mut Random) -> Outcome {
    match random.below(13) {
        0 => Outcome::Ended,
        1 => Outcome::OutOfBudget,
        2 => Outcome::Refused(Refusal {
            number: 1 + random.below(11) as u32,
            place: random.below(9) as u32,
        }),
        3 | 4 => Outcome::Fault(unlisted(random)),
        _ => Outcome::Fault(faults(random)),
    }
}

/// A state of so many blocks, of a body's layout.
pub fn state(random: &mut Random, depth: usize) -> State {
    State {
        place: random.below(65_536) as u32,
        active: random.word(),
        halted: random.word(),
        predicates: [random.word(), random.word(), random.word()],
        blocks: (0..depth).map(|_| block(random)).collect(),
    }
}

fn block(random: &mut Random) -> Block {
    let part = 1 + random.below(3) as u32;
    Block {
        part,
        opener: random.below(65_536) as u32,
        entered: random.word(),
        aside: random.word(),
        again: if part == 3 { random.word() } else { 0 },
        left: random.word(),
    }
}

/// A depth: mostly small, at times 32.
pub fn depth(random: &mut Random) -> usize {
    match random.below(10) {
        0..=3 => 0,
        4..=7 => 1 + random.below(3),
        8 => random.below(32),
        _ => 32,
    }
}

/// Changes one number of a state so that its key may be of no layout.
pub fn damage_state(random: &mut Random, state: &mut State) {
    let far = random.pick(&[65_536, 0xFFFFFFFF]);
    let depth = state.blocks.len();
    if depth == 0 || random.chance(20) {
        state.place = far;
        return;
    }
    let block = &mut state.blocks[random.below(depth)];
    match random.below(5) {
        0 => block.part = random.pick(&[0, 4, far]),
        1 => block.opener = far,
        2 => (block.part, block.again) = (1 + random.below(2) as u32, 1),
        3 => block.again = random.bits(),
        _ => {
            let more = 33 - depth + random.below(3);
            state.blocks.extend(vec![
                Block {
                    part: 1,
                    ..Block::default()
                };
                more
            ]);
        }
    }
}

/// A body of the layout, as its numbers.
fn body(random: &mut Random, depth: usize) -> Vec<u8> {
    let kernel = random.word();
    key::body(kernel, &faults(random), &state(random, depth))
}

/// A body with any kinds, up to four of them in any order, and mostly of no layout.
fn unlisted_body(random: &mut Random) -> Vec<u8> {
    let count = random.below(5);
    let mut numbers = vec![random.word(), random.below(65_536) as u32, count as u32];
    for _ in 0..count {
        numbers.extend([random.below(8) as u32, 1 << random.below(4)]);
    }
    numbers.extend([random.word(), random.word(), 0]);
    bytes::from_numbers(&numbers)
}

/// Bodies one after another, some of them equal.
pub fn bodies(random: &mut Random, count: usize) -> Vec<u8> {
    let mut pool: Vec<Vec<u8>> = Vec::new();
    let mut all = Vec::new();
    for _ in 0..count {
        if pool.is_empty() || random.chance(60) {
            let depth = depth(random);
            pool.push(body(random, depth));
        }
        let index = random.below(pool.len());
        all.extend(&pool[index]);
    }
    all
}

/// So many of the smallest bodies.
pub fn small_bodies(random: &mut Random, count: usize) -> Vec<u8> {
    (0..count).flat_map(|_| body(random, 0)).collect()
}

/// The day file of bodies of the layout, with so many of them or more than it allows.
pub fn day_file(bodies: &[u8]) -> Vec<u8> {
    let mut room = vec![0; 4 + bodies.len() + bodies.len() / 32 * 8];
    let length = dayfile::make(bodies, &mut room).expect("bodies of the layout, at most 1,024");
    room.truncate(length);
    room
}

/// A number of four bytes, anywhere in the bytes or at the start of one.
fn change_number(random: &mut Random, bytes: &mut [u8], among: usize) {
    let numbers = (bytes.len() / 4).min(among);
    if numbers > 0 {
        let at = 4 * random.below(numbers);
        let old = bytes::number_at(bytes, at).unwrap_or(0);
        let new = match random.below(4) {
            0 => old.wrapping_add(1),
            1 => old.wrapping_sub(1),
            2 => random.word(),
            _ => old ^ 1 << random.below(32),
        };
        bytes[at..at + 4].copy_from_slice(&new.to_le_bytes());
    }
}

/// Damages bodies that lie one after another.
pub fn damage_bodies(random: &mut Random, bodies: &mut Vec<u8>) {
    match random.below(6) {
        0 => bodies.truncate(random.below(bodies.len() + 1)),
        1 => bodies.push(random.bits() as u8),
        2 => bodies.extend(random.bits().to_le_bytes()),
        3 | 4 => bodies.extend(unlisted_body(random)),
        _ => change_number(random, bodies, usize::MAX),
    }
}

/// Damages a day file of four bytes or more.
pub fn damage_file(random: &mut Random, file: &mut Vec<u8>) {
    match random.below(9) {
        0 => file.truncate(random.below(file.len() + 1)),
        1 => file.push(0),
        2 => file.extend([0; 32]),
        3 => change_number(random, file, usize::MAX),
        4 => change_number(random, file, 3),
        5 | 6 => {
            let count = random.pick(&[1025u32, 1026, 0x80000000, 0xFFFFFFFF]);
            file[..4].copy_from_slice(&count.to_le_bytes());
        }
        7 => file.truncate(random.below(4)),
        _ => exchange(random, file),
    }
}

/// Exchanges two entries of the table of contents.
fn exchange(random: &mut Random, file: &mut [u8]) {
    let count = bytes::number_at(file, 0).unwrap_or(0) as usize;
    if count > 1 && file.len() >= 4 + 8 * count {
        let (one, other) = (random.below(count), random.below(count));
        for byte in 4..12 {
            file.swap(8 * one + byte, 8 * other + byte);
        }
    }
}
