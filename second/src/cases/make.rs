//! Making case after case from a seed.

use super::Case;
use super::code::{Coder, instruction, words_of};
use super::random::Random;
use super::{damage, directed, files, states};
use crate::assembly;
use crate::bytes;
use crate::capture::Capture;
use crate::key::{self, LONGEST_BODY};
use crate::operations::{Form, Operation};
use crate::run::Settings;
use crate::words::Instruction;

/// The most bytes that are lent for an instruction's text: some more than the longest has.
pub const LARGEST_TEXT_ROOM: usize = 60;

/// Case `number` of a seed, counted from 1. The first of each thousand are directed.
pub fn case(seed: u64, number: u64) -> Case {
    let random = &mut Random::new(seed, number);
    match (number - 1) % 1000 {
        0 => directed::too_long(random, false),
        1 => directed::too_long(random, true),
        2 => directed::nested(random, 32, false),
        3 => directed::nested(random, 33, false),
        4 => directed::nested(random, 33, true),
        5 => directed::barrier(random),
        6 => directed::again_of_an_if(random),
        7 => directed::too_many(random),
        8 => directed::full_file(random),
        9 => directed::full_listing(random),
        10 => directed::too_long_file(),
        11 if number % 5000 == 4012 => directed::longest(random),
        index @ 12.. => one_of_each(random, index as usize - 12),
        _ => any(random),
    }
}

/// A fault for each list of an address's kinds, a key for each two of three sets that overlap, a text for each
/// operation, a run of each wave operation, then any case.
fn one_of_each(random: &mut Random, index: usize) -> Case {
    let of_addresses = |kinds: &&[u32]| !kinds.contains(&4) && !kinds.contains(&5);
    let lists: Vec<&[u32]> = key::KINDS.into_iter().filter(of_addresses).collect();
    if let Some(kinds) = lists.get(index) {
        return directed::addresses(random, kinds);
    }
    let (index, pairs) = (index - lists.len(), [[0, 1], [0, 2], [1, 2]]);
    if let Some(two) = pairs.get(index) {
        return directed::overlap(random, *two);
    }
    let (index, all) = (index - pairs.len(), Operation::ALL);
    if let Some(operation) = all.get(index) {
        return directed::text(random, *operation);
    }
    let mut waves = all.iter().filter(|operation| operation.form().is_wave());
    match waves.nth(index - all.len()) {
        Some(operation) => directed::wave(random, *operation),
        None => any(random),
    }
}

/// A case of any kind.
fn any(random: &mut Random) -> Case {
    match random.weighted(&[10, 10, 29, 27, 7, 6, 7, 6, 2, 4, 8, 6]) {
        0 => read(random),
        1 => write(random),
        2 => run(random, false),
        3 => run(random, true),
        4 => key(random),
        5 => make(random),
        6 => file(random),
        7 => Case::Listing {
            file: some_file(random),
        },
        8 => directed::sweep(random),
        9 => directed::jumps(random),
        10 => directed::control_only(random),
        _ => text(random),
    }
}

/// Words to be read as one instruction: whole, damaged, cut off, or any.
fn read(random: &mut Random) -> Case {
    let operation = random.pick(Operation::ALL);
    let mut words = match random.below(8) {
        0..=2 => words_of(&instruction(random, operation, 256)),
        3..=6 => damage::bad_words(random, 256),
        _ => vec![random.bits(), random.bits()],
    };
    if random.chance(15) {
        words.truncate(random.below(3));
    } else if random.chance(20) {
        words.push(random.bits());
    }
    Case::Read { words }
}

/// An instruction to be written, whole or with one field changed.
fn write(random: &mut Random) -> Case {
    let operation = random.pick(Operation::ALL);
    let mut instruction = instruction(random, operation, 256);
    if random.chance(50) {
        change_field(random, &mut instruction);
    }
    let room = random.pick(&[0, 1, 2, 2, 2, 3, 4]);
    Case::Write { instruction, room }
}

/// An instruction whose text is asked for, whole or with one field changed, with about as much room.
fn text(random: &mut Random) -> Case {
    let operation = random.pick(Operation::ALL);
    let mut instruction = numbered(random, operation);
    if random.chance(50) {
        change_field(random, &mut instruction);
    }
    let whole = assembly::write(&instruction, &mut [0; LARGEST_TEXT_ROOM]).ok();
    let room = match (random.below(4), whole) {
        (0, _) | (_, None) => random.below(LARGEST_TEXT_ROOM + 1),
        (1, Some(length)) => length - 1,
        (2, Some(length)) => length,
        (_, Some(length)) => length + 1 + random.below(LARGEST_TEXT_ROOM - length),
    };
    Case::Text { instruction, room }
}

/// A random instruction of this operation, whose registers, and number where it has one, are of any length.
pub fn numbered(random: &mut Random, operation: Operation) -> Instruction {
    let registers = random.pick(&[10, 100, 256]);
    let mut instruction = instruction(random, operation, registers);
    if matches!(operation.form(), Form::Immediate | Form::Memory) {
        let edges = [0, 9_999_999, 10_000_000, 99_999_999, 0xFFFFFFFF];
        instruction.number = match random.below(3) {
            0 => random.pick(&edges),
            1 => 10u32.pow(random.below(10) as u32) - random.below(2) as u32,
            _ => random.bits() >> random.below(32),
        };
    }
    instruction
}

fn change_field(random: &mut Random, instruction: &mut Instruction) {
    let value = random.pick(&[0, 1, 2, 3, 4, 255, 256, 257, 0x80000000, 0xFFFFFFFF]);
    match random.below(8) {
        0 => instruction.rd = value,
        1 => instruction.rs1 = value,
        2 => instruction.rs2 = value,
        3 => instruction.rs3 = value,
        4 => instruction.number = value,
        5 => instruction.scope = value,
        6 => instruction.predicate = value,
        _ => instruction.negate = !instruction.negate,
    }
}

/// Settings that are allowed.
pub fn settings(random: &mut Random) -> Settings {
    let width = random.pick(&[8, 16, 32]);
    Settings {
        width,
        registers: random.pick(&[1, 2, 3, 4, 5, 6, 8, 8, 8, 12]),
        lanes: match random.below(3) {
            0 => width,
            _ => 1 + random.below(width as usize) as u32,
        },
        budget: match random.below(8) {
            0 => random.below(4) as u32,
            1 => 1000,
            _ => random.below(120) as u32,
        },
    }
}

/// A launch with no code, and buffers of random words.
pub fn capture(random: &mut Random, settings: Settings) -> Capture {
    let sizes = [0, 1, 4, 16, 32, 32, 64];
    let [device, local] = [random.pick(&sizes), random.pick(&sizes)];
    Capture {
        kernel: random.word(),
        settings,
        code: vec![],
        registers: random.words((settings.width * settings.registers) as usize),
        device: random.words(device),
        local: random.words(local),
        state: None,
    }
}

/// Room for the key: mostly enough.
fn key_room(random: &mut Random) -> usize {
    let most = LONGEST_BODY;
    random.pick(&[0, 31, 32, 56, 80, 120, 200, most, most, most + 2])
}

/// A run, launched or resumed, whole or damaged.
fn run(random: &mut Random, resumed: bool) -> Case {
    let settings = settings(random);
    let mut capture = capture(random, settings);
    let (device, local) = (capture.device.len(), capture.local.len());
    let mut coder = Coder::new(random, settings.registers, device, local);
    if coder.random.chance(97) {
        coder.program(settings.width);
    }
    capture.code = coder.code;
    if resumed {
        match random.below(5) {
            0 | 1 => states::fitting(random, &mut capture),
            _ => states::stopped(random, &mut capture, 80),
        }
        if random.chance(45) {
            states::damage(random, &mut capture);
        }
    }
    if random.chance(35) {
        damage_some(random, &mut capture);
    }
    Case::Run {
        capture,
        key_room: key_room(random),
    }
}

/// Damages the code, the settings or the register buffer, at times several of them.
fn damage_some(random: &mut Random, capture: &mut Capture) {
    loop {
        match random.weighted(&[70, 16, 14]) {
            0 => {
                let registers = capture.settings.registers.clamp(1, 256);
                damage::code(random, &mut capture.code, registers);
            }
            1 => damage::setting(random, capture),
            _ => damage::registers(random, capture),
        }
        if random.chance(70) {
            return;
        }
    }
}

fn key(random: &mut Random) -> Case {
    let depth = files::depth(random);
    let mut state = files::state(random, depth);
    if random.chance(30) {
        files::damage_state(random, &mut state);
    }
    let kinds = random.pick(&[1, 1, 2, 3]);
    let length = 24 + 8 * kinds + 24 * depth;
    Case::Key {
        kernel: random.word(),
        outcome: files::outcome(random),
        state,
        room: random.pick(&[0, length - 1, length, length + 3]),
    }
}

fn make(random: &mut Random) -> Case {
    let count = random.below(6);
    let mut bodies = files::bodies(random, count);
    let length = bodies.len() + 4 + 8 * count;
    if random.chance(35) {
        files::damage_bodies(random, &mut bodies);
    }
    Case::Make {
        bodies,
        room: random.pick(&[0, length - 1, length, length + 5, length + 30]),
    }
}

/// A day file, whole or damaged.
fn some_file(random: &mut Random) -> Vec<u8> {
    let count = random.below(6);
    let mut file = files::day_file(&files::bodies(random, count));
    while random.chance(40) {
        if file.len() >= 4 {
            files::damage_file(random, &mut file);
        }
    }
    file
}

fn file(random: &mut Random) -> Case {
    let file = some_file(random);
    let count = bytes::number_at(&file, 0).unwrap_or(0);
    let record = match random.below(4) {
        0 => random.pick(&[0, count.wrapping_add(1), 1024, 0xFFFFFFFF]),
        _ => random.below(6) as u32,
    };
    Case::File { file, record }
}
