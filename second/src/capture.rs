//! The capture file: everything that a run takes, packed as numbers of four bytes, low byte first.
//!
//! | Byte | Number |
//! |---|---|
//! | 0 | the bytes 57 43 41 50 |
//! | 4 | edition, 1 |
//! | 8 | kernel number |
//! | 12 | width |
//! | 16 | registers of each lane |
//! | 20 | launched lanes |
//! | 24 | step budget |
//! | 28 | count of code words |
//! | 32 | count of register words |
//! | 36 | count of device memory words |
//! | 40 | count of local memory words |
//! | 44 | count of state words: 0 for a launch, else 7 + 6 × depth |
//! | 48 | 0 |
//! | 52 | the words of each, in that order, to the end of the file |
//!
//! A state's words: place, active, halted, p1, p2, p3, depth, then part, opener, entered, aside,
//! again, left for each block, outermost first.

use crate::bytes;
use crate::refusal::Refusal;
use crate::run::{self, Answer, Settings};
use crate::state::{Block, State};
use crate::step::Lent;

/// The bytes 57 43 41 50 as a number.
const MARK: u32 = u32::from_le_bytes([0x57, 0x43, 0x41, 0x50]);
/// The edition of the file's shape.
const EDITION: u32 = 1;
/// The numbers before the words.
const HEADER: usize = 13;
/// The header's first count.
const COUNTS: usize = 7;
/// The words of a state with no open block.
const STATE_WORDS: usize = 7;
/// The words of an open block.
const BLOCK_WORDS: usize = 6;
/// The most open blocks of a state that is read.
pub const MOST_BLOCKS: usize = 64;
/// The most words of code, registers, device memory (64 MiB), local memory (16 MiB) and state.
pub const ROOM: [usize; 5] = [
    65_537,
    16_384,
    16_777_216,
    4_194_304,
    STATE_WORDS + BLOCK_WORDS * MOST_BLOCKS,
];
/// What the words of each are called.
const NAMES: [&str; 5] = ["code", "register", "device", "local", "state"];

/// What a capture file holds. Nothing in it is checked.
#[derive(Clone, Debug, PartialEq, Eq)]
pub struct Capture {
    pub kernel: u32,
    pub settings: Settings,
    pub code: Vec<u32>,
    pub registers: Vec<u32>,
    pub device: Vec<u32>,
    pub local: Vec<u32>,
    /// None for a launch.
    pub state: Option<State>,
}

/// Why a file is no capture: what was expected, and the byte where it isn't.
#[derive(Clone, Debug, PartialEq, Eq)]
pub struct Unreadable {
    pub place: usize,
    pub expected: String,
}

impl Capture {
    /// Launches, or goes on with the state. The buffers change as the run changes them.
    pub fn run(&mut self) -> Answer {
        self.run_watched(&mut |_, _| ())
    }

    /// The same, showing `watch` the state and the registers before each instruction.
    pub fn run_watched(&mut self, watch: &mut impl FnMut(&State, &[u32])) -> Answer {
        let mut lent = Lent {
            registers: &mut self.registers,
            device: &mut self.device,
            local: &mut self.local,
        };
        let state = self.state.as_ref();
        run::run_watched(self.settings, &self.code, state, &mut lent, watch)
    }

    /// The refusal that a launch, or a resume with the state, of it would give.
    pub fn refusal(&self) -> Option<Refusal> {
        let state = self.state.as_ref();
        run::check(self.settings, &self.code, state, self.registers.len()).err()
    }

    /// The capture file's bytes.
    pub fn write(&self) -> Vec<u8> {
        let state = self.state.as_ref().map(state_words).unwrap_or_default();
        let settings = self.settings;
        let mut numbers = vec![MARK, EDITION, self.kernel];
        numbers.extend([settings.width, settings.registers]);
        numbers.extend([settings.lanes, settings.budget]);
        let sections = [
            &self.code,
            &self.registers,
            &self.device,
            &self.local,
            &state,
            &vec![],
        ];
        numbers.extend(sections.map(|words| words.len() as u32));
        numbers.extend(sections.into_iter().flatten());
        bytes::from_numbers(&numbers)
    }

    /// Reads a capture file.
    pub fn read(file: &[u8]) -> Result<Capture, Unreadable> {
        let header = header(file)?;
        let counts = counts(&header)?;
        let end = 4 * (HEADER + counts.iter().sum::<usize>());
        if file.len() != end {
            return wrong(file.len().min(end), "the end of the file after the words");
        }
        let mut words = bytes::to_numbers(&file[4 * HEADER..]);
        let state = words.split_off(words.len() - counts[4]);
        let local = words.split_off(words.len() - counts[3]);
        let device = words.split_off(words.len() - counts[2]);
        let registers = words.split_off(counts[0]);
        Ok(Capture {
            kernel: header[2],
            settings: Settings {
                width: header[3],
                registers: header[4],
                lanes: header[5],
                budget: header[6],
            },
            code: words,
            registers,
            device,
            local,
            state: state_of(&state, end)?,
        })
    }
}

fn wrong<T>(place: usize, expected: &str) -> Result<T, Unreadable> {
    let expected = expected.to_string();
    Err(Unreadable { place, expected })
}

/// The header's numbers, where the file has them all and they begin with the mark and the edition.
fn header(file: &[u8]) -> Result<[u32; HEADER], Unreadable> {
    let mut header = [0; HEADER];
    for (index, number) in header.iter_mut().enumerate() {
        match (index, bytes::number_at(file, 4 * index)) {
            (0, Some(found)) if found != MARK => return wrong(0, "the bytes 57 43 41 50"),
            (1, Some(found)) if found != EDITION => return wrong(4, "edition 1"),
            (_, Some(found)) => *number = found,
            (_, None) => return wrong(4 * index, "a header of 52 bytes"),
        }
    }
    Ok(header)
}

/// The counts of words, where there is room for each and the state's is a state's.
fn counts(header: &[u32; HEADER]) -> Result<[usize; 5], Unreadable> {
    let counts: [usize; 5] = std::array::from_fn(|i| header[COUNTS + i] as usize);
    for (index, room) in ROOM.into_iter().enumerate() {
        if counts[index] > room {
            let expected = format!("at most {room} {} words", NAMES[index]);
            return wrong(4 * (COUNTS + index), &expected);
        }
    }
    let blocks = counts[4].wrapping_sub(STATE_WORDS);
    if counts[4] != 0 && (counts[4] < STATE_WORDS || blocks % BLOCK_WORDS != 0) {
        return wrong(
            4 * (COUNTS + 4),
            "a count of 0 or 7 + 6 x depth state words",
        );
    }
    if header[HEADER - 1] != 0 {
        return wrong(4 * (HEADER - 1), "a sixth count of 0");
    }
    Ok(counts)
}

/// A state's words.
pub fn state_words(state: &State) -> Vec<u32> {
    let [p1, p2, p3] = state.predicates;
    let mut words = vec![state.place, state.active, state.halted, p1, p2, p3];
    words.push(state.blocks.len() as u32);
    for b in &state.blocks {
        words.extend([b.part, b.opener, b.entered, b.aside, b.again, b.left]);
    }
    words
}

/// The state of these words, none for no words. `end` is the byte after them.
pub fn state_of(words: &[u32], end: usize) -> Result<Option<State>, Unreadable> {
    let Some((&[place, active, halted, p1, p2, p3, depth], rest)) = words.split_first_chunk()
    else {
        return Ok(None);
    };
    let six = |words: &[u32]| <[u32; BLOCK_WORDS]>::try_from(words).ok();
    let sixes = rest.chunks_exact(BLOCK_WORDS).filter_map(six);
    let blocks: Vec<Block> = sixes.map(Block::from).collect();
    if blocks.len() != depth as usize {
        let depth_at = end - 4 * (words.len() - (STATE_WORDS - 1));
        return wrong(depth_at, "the depth that the state's count gives");
    }
    Ok(Some(State {
        place,
        active,
        halted,
        predicates: [p1, p2, p3],
        blocks,
    }))
}
