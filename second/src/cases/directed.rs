//! Cases that are sure to reach what random ones reach seldom.

use super::code::{Coder, words_of};
use super::make::{LARGEST_TEXT_ROOM, capture, numbered, settings};
use super::random::Random;
use super::{Case, files, states};
use crate::key::LONGEST_BODY;
use crate::listing::LONGEST_FILE;
use crate::operations::Operation;
use crate::run::Outcome;
use crate::state::State;
use crate::words::Instruction;

/// The text of a whole instruction of this operation, with room for it.
pub fn text(random: &mut Random, operation: Operation) -> Case {
    Case::Text {
        instruction: numbered(random, operation),
        room: random.pick(&[LARGEST_TEXT_ROOM - 1, LARGEST_TEXT_ROOM]),
    }
}

/// A launch that carries out every instruction that isn't control.
pub fn sweep(random: &mut Random) -> Case {
    let mut settings = settings(random);
    settings.budget = 1000;
    settings.registers = random.pick(&[4, 8, 16, 256]);
    settings.lanes = settings.lanes.max(2);
    let mut capture = capture(random, settings);
    capture.device = random.words(8);
    capture.local = random.words(8);
    let mut coder = Coder::new(random, settings.registers, 8, 8);
    coder.part(settings.lanes);
    coder.sweep();
    capture.code = coder.code;
    Case::Run {
        capture,
        key_room: 0,
    }
}

/// A launch that carries out a wave operation where every lane executes, where one does, and where the others do.
/// At times the registers are all 0, or all the same number.
pub fn wave(random: &mut Random, operation: Operation) -> Case {
    let mut settings = settings(random);
    settings.budget = 100;
    settings.registers = settings.registers.max(4);
    settings.lanes = settings.lanes.max(2);
    let mut capture = capture(random, settings);
    if random.chance(30) {
        capture.registers.fill(random.pick(&[0, 0, 1, 0x80000000]));
    }
    let mut coder = Coder::new(random, settings.registers, 0, 0);
    coder.part(settings.lanes);
    coder.guarded(operation);
    capture.code = coder.code;
    Case::Run {
        capture,
        key_room: 0,
    }
}

/// Code of 65,537 words, launched or resumed.
pub fn too_long(random: &mut Random, resumed: bool) -> Case {
    let settings = settings(random);
    let mut capture = capture(random, settings);
    if resumed {
        capture.state = Some(files::state(random, 1));
    }
    capture.code = vec![random.word(); 65_537];
    Case::Run {
        capture,
        key_room: 0,
    }
}

/// Code of 65,536 words that faults at its last instruction.
pub fn longest(random: &mut Random) -> Case {
    let mut settings = settings(random);
    settings.budget = 70_000;
    let mut capture = capture(random, settings);
    capture.device.clear();
    let nop = words_of(&Instruction::plain(Operation::Nop));
    capture.code = nop.repeat(65_534);
    let load = Instruction::plain(Operation::Load);
    capture.code.extend(words_of(&load));
    Case::Run {
        capture,
        key_room: LONGEST_BODY,
    }
}

/// Blocks inside each other; with a state that no code has, or from the launch through all of them.
pub fn nested(random: &mut Random, depth: usize, resumed: bool) -> Case {
    let mut settings = settings(random);
    settings.budget = 40 + random.below(150) as u32;
    let mut capture = capture(random, settings);
    let mut coder = Coder::new(random, settings.registers, 0, 0);
    coder.nest(depth);
    capture.code = coder.code;
    if resumed {
        capture.state = Some(files::state(random, depth));
    }
    Case::Run {
        capture,
        key_room: LONGEST_BODY,
    }
}

/// A run stopped inside twelve blocks, with a lane moved to the again set of an IF among them.
pub fn again_of_an_if(random: &mut Random) -> Case {
    let settings = settings(random);
    let mut capture = capture(random, settings);
    let mut coder = Coder::new(random, settings.registers, 0, 0);
    coder.nest(12);
    capture.code = coder.code;
    capture.settings.budget = 12;
    let mut state = capture.run().state;
    states::again_of_an_if(random, &mut state, 1);
    capture.state = Some(state);
    Case::Run {
        capture,
        key_room: 0,
    }
}

/// A few control instructions in any order, with their ends missing at times.
pub fn control_only(random: &mut Random) -> Case {
    let settings = settings(random);
    let mut capture = capture(random, settings);
    let mut coder = Coder::new(random, settings.registers, 0, 0);
    let count = 1 + coder.random.below(5);
    coder.control_only(count);
    capture.code = coder.code;
    if random.chance(40) {
        capture.state = Some(State::launched(settings.lanes));
    }
    Case::Run {
        capture,
        key_room: 0,
    }
}

/// A barrier that only one lane, or all but one, gets to.
pub fn barrier(random: &mut Random) -> Case {
    let mut settings = settings(random);
    settings.registers = settings.registers.max(2);
    settings.lanes = settings.lanes.max(2);
    settings.budget = 100;
    let mut capture = capture(random, settings);
    let mut branch = Instruction::plain(Operation::If);
    (branch.predicate, branch.negate) = (1, random.chance(50));
    let mut compare = Instruction::plain(Operation::Eq);
    (compare.rd, compare.rs2) = (1, 1);
    let mut number = Instruction::plain(Operation::MovImm);
    (number.rd, number.number) = (1, random.below(settings.lanes as usize) as u32);
    let lane = Instruction::plain(Operation::MovSpecial);
    let barrier = Instruction::plain(Operation::Barrier);
    let end = Instruction::plain(Operation::Endif);
    let code = [lane, number, compare, branch, barrier, end];
    capture.code = code.iter().flat_map(words_of).collect();
    Case::Run {
        capture,
        key_room: LONGEST_BODY,
    }
}

/// A load or store that faults by these kinds: a lane by each, the others by any of them. The sums of base and
/// offset are the four numbers below 2^32, and the four from it on.
pub fn addresses(random: &mut Random, kinds: &[u32]) -> Case {
    let mut settings = settings(random);
    settings.lanes = settings.lanes.max(kinds.len() as u32);
    settings.budget = settings.budget.max(1);
    let mut capture = capture(random, settings);
    let access = access_by(random, kinds, settings.registers);
    let lanes = settings.lanes as usize;
    let turn = random.below(lanes);
    for index in 0..lanes {
        let kind = match kinds.get(index) {
            Some(kind) => *kind,
            None => random.pick(kinds),
        };
        let above = match kind {
            6 => random.below(4) as u32,
            1 => (1 + random.below(3) as u32).wrapping_neg(),
            _ => 4u32.wrapping_neg(),
        };
        let at = (index + turn) % lanes * settings.registers as usize + access.rs1 as usize;
        capture.registers[at] = access.number.wrapping_neg().wrapping_add(above);
    }
    capture.code = words_of(&access);
    Case::Run {
        capture,
        key_room: LONGEST_BODY,
    }
}

/// A load or store of a memory that these kinds are of, with an offset from 4 on.
fn access_by(random: &mut Random, kinds: &[u32], registers: u32) -> Instruction {
    let local = [Operation::LocalLoad, Operation::LocalStore];
    let device = [Operation::Load, Operation::Store];
    let from = match (kinds.contains(&3), kinds.contains(&2)) {
        (true, _) => local,
        (_, true) => device,
        _ => random.pick(&[local, device]),
    };
    let far = random.bits().clamp(4, 0xFFFFFFFC);
    Instruction {
        rd: random.below(registers as usize) as u32,
        rs1: random.below(registers as usize) as u32,
        number: random.pick(&[4, 8, 0x80000000, 0xFFFFFFFC, far]),
        ..Instruction::plain(random.pick(&from))
    }
}

/// The key of a fault of three kinds, two of which have a lane in common.
pub fn overlap(random: &mut Random, two: [usize; 2]) -> Case {
    let kinds = random.pick(&[[1, 2, 6], [1, 3, 6]]);
    Case::Key {
        kernel: random.word(),
        outcome: Outcome::Fault(files::overlapping(random, &kinds, two)),
        state: files::state(random, 1),
        room: LONGEST_BODY,
    }
}

/// A loop that lanes break, continue or halt in on one predicate or another, at times inside an IF.
pub fn jumps(random: &mut Random) -> Case {
    let mut settings = settings(random);
    settings.lanes = settings.lanes.max(2);
    settings.registers = settings.registers.max(2);
    let mut capture = capture(random, settings);
    let mut coder = Coder::new(random, settings.registers, 0, 0);
    coder.part(settings.lanes);
    coder.jumping_loop();
    capture.code = coder.code;
    if random.chance(50) {
        states::stopped(random, &mut capture, 40);
    }
    Case::Run {
        capture,
        key_room: LONGEST_BODY,
    }
}

/// A day file of 1,024 records, and a record of it.
pub fn full_file(random: &mut Random) -> Case {
    Case::File {
        file: files::day_file(&files::small_bodies(random, 1024)),
        record: random.pick(&[1, 512, 1024, 1025]),
    }
}

/// More bodies than a day file holds.
pub fn too_many(random: &mut Random) -> Case {
    Case::Make {
        bodies: files::small_bodies(random, 1025),
        room: 0,
    }
}

/// The listing of 1,024 records.
pub fn full_listing(random: &mut Random) -> Case {
    Case::Listing {
        file: files::day_file(&files::small_bodies(random, 1024)),
    }
}

/// A file one byte too long to be listed.
pub fn too_long_file() -> Case {
    Case::Listing {
        file: vec![0; LONGEST_FILE + 1],
    }
}
