//! Random states to go on with: where a run stopped, any state that fits, and states that don't.

use super::damage::boundaries;
use super::random::Random;
use crate::blocks::{self, LOOP, Open};
use crate::capture::Capture;
use crate::run::Outcome;
use crate::state::{Block, State, each_lane, first_lanes};

/// Lets a launch stop after fewer steps than these, preferably inside a block, and hands in what it
/// left. A capture that is refused stays a launch.
pub fn stopped(random: &mut Random, capture: &mut Capture, steps: usize) {
    for _ in 0..4 {
        let mut tried = capture.clone();
        tried.settings.budget = random.below(steps) as u32;
        let answer = tried.run();
        if matches!(answer.outcome, Outcome::Refused(_)) {
            return;
        }
        let inside = !answer.state.blocks.is_empty();
        tried.settings.budget = capture.settings.budget;
        tried.state = Some(answer.state);
        if inside || random.chance(30) {
            *capture = tried;
            return;
        }
    }
}

/// Hands in some state that fits at a random place of checked code.
pub fn fitting(random: &mut Random, capture: &mut Capture) {
    let place = random.pick(&boundaries(&capture.code)) as u32;
    let open = blocks::open_at(&capture.code, place).expect("a boundary is a place");
    let launched = first_lanes(capture.settings.lanes);
    let mut state = State {
        place,
        blocks: open.iter().map(closed).collect(),
        ..State::default()
    };
    for lane in each_lane(launched) {
        put(random, &mut state, 1 << lane);
    }
    state.predicates = std::array::from_fn(|_| random.bits() & launched);
    agree(random, &mut state, launched);
    capture.state = Some(state);
}

/// An open block with empty sets.
fn closed(open: &Open) -> Block {
    Block {
        part: open.part,
        opener: open.opener,
        ..Block::default()
    }
}

/// Puts a lane into one of active, halted, or a block's aside or again.
fn put(random: &mut Random, state: &mut State, lane: u32) {
    let depth = state.blocks.len();
    match random.below(4 + depth) {
        0..=2 => state.active |= lane,
        3 => state.halted |= lane,
        other => {
            let block = &mut state.blocks[other - 4];
            if block.part == LOOP && random.chance(50) {
                block.again |= lane;
            } else {
                block.aside |= lane;
            }
        }
    }
}

/// Gives each block a random left set that is possible, and the entered set that follows.
fn agree(random: &mut Random, state: &mut State, launched: u32) {
    let mut stayed = state.active;
    for block in state.blocks.iter_mut().rev() {
        stayed |= block.aside | block.again;
        block.left = random.bits() & random.bits() & launched & !stayed;
        block.entered = block.left | stayed;
    }
}

/// Changes the state so that it mostly doesn't fit.
pub fn damage(random: &mut Random, capture: &mut Capture) {
    let launched = capture.settings.lanes;
    let Some(state) = &mut capture.state else {
        return;
    };
    let lane = 1 << random.below(launched.clamp(1, 32) as usize);
    let half = capture.code.len() as u32 / 2;
    match random.below(11) {
        0 => state.place = random.pick(&[0, 1, state.place + 1, 70_000, half]),
        1 => damage_blocks(random, state),
        2 => *any_set(random, state) |= stranger(random, launched),
        3 => *any_set(random, state) ^= lane,
        4 => state.active ^= lane,
        5 => state.halted |= lane,
        6 => again_of_an_if(random, state, lane),
        7 => {
            let length = 33 + random.below(8);
            state.blocks.resize(length, Block::default());
        }
        8 => *any_set(random, state) = random.bits(),
        _ => damage_entered(random, state, first_lanes(launched.min(32)), lane),
    }
}

/// Puts a lane into the entered or left set of some block, or takes it out; or puts a lane that is in
/// neither into the entered set.
fn damage_entered(random: &mut Random, state: &mut State, launched: u32, lane: u32) {
    if !state.blocks.is_empty() {
        let index = random.below(state.blocks.len());
        let block = &mut state.blocks[index];
        let outside = launched & !block.entered;
        match random.below(4) {
            0 => block.entered ^= lane,
            1 => block.left ^= lane,
            2 => block.entered |= outside & outside.wrapping_neg(),
            _ => (block.entered, block.left) = (block.entered ^ lane, block.left ^ lane),
        }
    }
}

/// A lane that wasn't launched, where there is one.
fn stranger(random: &mut Random, launched: u32) -> u32 {
    match launched {
        0..=31 => 1 << (launched as usize + random.below(32 - launched as usize)),
        _ => 1 << random.below(32),
    }
}

/// Any of the state's sets.
fn any_set<'a>(random: &mut Random, state: &'a mut State) -> &'a mut u32 {
    let sets = 5 + 4 * state.blocks.len();
    let index = random.below(sets);
    match index {
        0 => &mut state.active,
        1 => &mut state.halted,
        2..=4 => &mut state.predicates[index - 2],
        _ => {
            let block = &mut state.blocks[(index - 5) / 4];
            match (index - 5) % 4 {
                0 => &mut block.entered,
                1 => &mut block.aside,
                2 => &mut block.again,
                _ => &mut block.left,
            }
        }
    }
}

/// Other blocks: one more, one fewer, another part or opener, another order.
fn damage_blocks(random: &mut Random, state: &mut State) {
    let depth = state.blocks.len();
    if depth == 0 {
        return state.blocks.push(Block::default());
    }
    let index = random.below(depth);
    match random.below(5) {
        0 => drop(state.blocks.remove(index)),
        1 => state.blocks.insert(index, state.blocks[index]),
        2 => state.blocks[index].part = random.below(5) as u32,
        3 => state.blocks[index].opener ^= 1 << random.below(4),
        _ => state.blocks.swap(0, index),
    }
}

/// Moves a lane that waits in some IF's block to its again set, or only adds one there.
pub fn again_of_an_if(random: &mut Random, state: &mut State, lane: u32) {
    let ifs: Vec<usize> = (0..state.blocks.len())
        .filter(|index| state.blocks[*index].part != LOOP)
        .collect();
    let waiting = |index: &usize| state.blocks[*index].aside != 0;
    if let Some(index) = ifs.iter().copied().find(waiting) {
        let block = &mut state.blocks[index];
        let waits = block.aside & block.aside.wrapping_neg();
        block.again |= waits;
        block.aside &= !waits;
    } else if !ifs.is_empty() {
        state.blocks[random.pick(&ifs)].again |= lane;
    }
}
