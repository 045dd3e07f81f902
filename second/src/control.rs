//! What the control operations do to the state.

use crate::blocks::{AFTER_ELSE, BEFORE_ELSE, LOOP};
use crate::operations::Operation;
use crate::state::{Block, Lanes, State};

/// Carries out a control operation with its executing lanes, and moves the place.
/// BARRIER and NOP only move it.
pub fn carry_out(operation: Operation, executing: Lanes, state: &mut State) {
    use Operation::*;
    match operation {
        If => open(state, BEFORE_ELSE, state.active & !executing),
        Loop => open(state, LOOP, 0),
        Else => change_places(state),
        Endif => state.active |= close(state).aside,
        Break => innermost_loop(state, executing).aside |= executing,
        Continue => innermost_loop(state, executing).again |= executing,
        Endloop => return end_of_loop(state),
        Halt => halt(state, executing),
        _ => (),
    }
    state.place += 1;
}

/// Opens a block; the lanes that wait in it are active no more.
fn open(state: &mut State, part: u32, waiting: Lanes) {
    state.blocks.push(Block {
        part,
        opener: state.place,
        entered: state.active,
        aside: waiting,
        ..Block::default()
    });
    state.active &= !waiting;
}

/// Closes the innermost block.
fn close(state: &mut State) -> Block {
    state.blocks.pop().expect("checked code has a block open")
}

/// ELSE: active and waiting lanes change places.
fn change_places(state: &mut State) {
    let block = state.blocks.last_mut().expect("checked code has an IF");
    block.part = AFTER_ELSE;
    std::mem::swap(&mut block.aside, &mut state.active);
}

/// Makes the lanes inactive, says in the blocks inside the innermost open loop that they left,
/// and gives that loop.
fn innermost_loop(state: &mut State, lanes: Lanes) -> &mut Block {
    state.active &= !lanes;
    let inner = state.blocks.iter().rposition(|block| block.part == LOOP);
    let found = inner.expect("checked code has a loop open");
    for block in &mut state.blocks[found + 1..] {
        block.left |= lanes;
    }
    &mut state.blocks[found]
}

/// ENDLOOP: the continued lanes join the active ones; if any is active the loop goes round,
/// otherwise it closes and its broken lanes become active.
fn end_of_loop(state: &mut State) {
    let mut block = close(state);
    state.active |= block.again;
    if state.active != 0 {
        block.again = 0;
        state.place = block.opener + 1;
        state.blocks.push(block);
    } else {
        state.active = block.aside;
        state.place += 1;
    }
}

/// HALT: the lanes halt for good.
fn halt(state: &mut State, lanes: Lanes) {
    state.active &= !lanes;
    state.halted |= lanes;
    for block in &mut state.blocks {
        block.left |= lanes;
    }
}
