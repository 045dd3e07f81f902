//! The state of a run, and when a handed-in state fits.

use crate::blocks::{self, DEEPEST, LOOP, Open};

/// A set of lanes: lane i is bit i.
pub type Lanes = u32;

/// An open block of a run.
#[derive(Clone, Copy, Debug, Default, PartialEq, Eq)]
pub struct Block {
    /// 1 before ELSE, 2 after, 3 loop.
    pub part: u32,
    /// The place of IF or LOOP.
    pub opener: u32,
    /// The active lanes at the opener.
    pub entered: Lanes,
    /// The waiting lanes of an IF, the broken lanes of a loop.
    pub aside: Lanes,
    /// The continued lanes of a loop.
    pub again: Lanes,
    /// The entered lanes that since halted, or broke or continued a loop opened before this block.
    pub left: Lanes,
}

impl From<[u32; 6]> for Block {
    fn from([part, opener, entered, aside, again, left]: [u32; 6]) -> Block {
        Block {
            part,
            opener,
            entered,
            aside,
            again,
            left,
        }
    }
}

/// The state of a run between two instructions.
#[derive(Clone, Debug, Default, PartialEq, Eq)]
pub struct State {
    pub place: u32,
    pub active: Lanes,
    pub halted: Lanes,
    /// p1, p2, p3.
    pub predicates: [Lanes; 3],
    /// The open blocks, outermost first; their number is the depth.
    pub blocks: Vec<Block>,
}

/// Why a handed-in state doesn't fit.
#[derive(Clone, Copy, Debug, PartialEq, Eq)]
pub enum Misfit {
    /// More than 32 open blocks.
    Depth,
    /// Neither an instruction's first word nor the end.
    Place,
    /// Other blocks than those that the code has open there.
    Blocks,
    /// A lane that wasn't launched is in some set.
    Stranger,
    /// Continued lanes in an IF's block.
    Again,
    /// A launched lane is in none, or in two, of active, halted and the sets aside.
    Lane,
    /// An entered set isn't the disjoint union it must be.
    Entered,
}

/// Lanes 0 to count-1, for a count from 0 to 32.
pub fn first_lanes(count: u32) -> Lanes {
    ((1u64 << count) - 1) as u32
}

/// The lanes of a set, rising.
pub fn each_lane(mut lanes: Lanes) -> impl Iterator<Item = usize> {
    std::iter::from_fn(move || {
        let lane = lanes.trailing_zeros() as usize;
        lanes &= lanes.wrapping_sub(1);
        (lane < 32).then_some(lane)
    })
}

impl State {
    /// The state that a launch begins with.
    pub fn launched(lanes: u32) -> State {
        State {
            active: first_lanes(lanes),
            ..State::default()
        }
    }

    /// Why this state doesn't fit checked code and the number of launched lanes; none if it fits.
    pub fn misfit(&self, code: &[u32], lanes: u32) -> Option<Misfit> {
        let launched = first_lanes(lanes);
        if self.blocks.len() > DEEPEST {
            return Some(Misfit::Depth);
        }
        let Some(open) = blocks::open_at(code, self.place) else {
            return Some(Misfit::Place);
        };
        if self.open() != open {
            Some(Misfit::Blocks)
        } else if self.every_lane() & !launched != 0 {
            Some(Misfit::Stranger)
        } else if self.blocks.iter().any(|b| b.part != LOOP && b.again != 0) {
            Some(Misfit::Again)
        } else if self.misplaced(launched) != 0 {
            Some(Misfit::Lane)
        } else if !self.entered_sets_agree() {
            Some(Misfit::Entered)
        } else {
            None
        }
    }

    /// The part and opener of each block.
    pub fn open(&self) -> Vec<Open> {
        let shape = |block: &Block| Open {
            part: block.part,
            opener: block.opener,
        };
        self.blocks.iter().map(shape).collect()
    }

    /// Every lane that is in any set of the state.
    pub fn every_lane(&self) -> Lanes {
        let [p1, p2, p3] = self.predicates;
        self.blocks
            .iter()
            .map(|b| b.entered | b.aside | b.again | b.left)
            .fold(self.active | self.halted | p1 | p2 | p3, |all, more| {
                all | more
            })
    }

    /// The launched lanes that aren't in exactly one of active, halted, or one block's aside or again.
    pub fn misplaced(&self, launched: Lanes) -> Lanes {
        let mut sets = vec![self.active, self.halted];
        for block in &self.blocks {
            sets.push(block.aside);
            sets.push(block.again);
        }
        let count = |lane: usize| sets.iter().filter(|set| *set >> lane & 1 == 1).count();
        let misplaced = each_lane(launched).filter(|lane| count(*lane) != 1);
        misplaced.fold(0, |lanes, lane| lanes | 1 << lane)
    }

    /// Whether each block's entered set is the disjoint union of its left set, the active lanes and
    /// the lanes set aside in it and inside it.
    fn entered_sets_agree(&self) -> bool {
        let mut stayed = self.active;
        for block in self.blocks.iter().rev() {
            stayed |= block.aside | block.again;
            if block.left & stayed != 0 || block.entered != block.left | stayed {
                return false;
            }
        }
        true
    }
}
