//! A capture as readable text, and back.
//!
//! ```text
//! kernel 7                  # a comment goes to the line's end
//! width 8
//! registers 2
//! lanes 4
//! budget 1000
//!
//! code
//!     MOV_SPECIAL r0, lane
//!     word 0x3B000000       # a word that begins no instruction of the desk
//!
//! register words
//!     lane 0     0 5        # what stands up to the next label are the registers of lane 0
//!     lane 1     0 -1
//!     lanes 2-7  12 of 0    # twelve words of 0, for lanes 2 to 7; labels may be left out
//!
//! device words
//!     1 2 3 0xFFFFFFFF
//!
//! local words
//!
//! state                     # left out for a launch
//!     place 0
//!     active 0x0000000F
//!     halted 0
//!     p1 0
//!     p2 0
//!     p3 0
//!     depth 1
//!     block 3 0 15 0 0 0    # part, opener, entered, aside, again, left
//! ```
//!
//! The settings come first, in this order; then the sections, in this order, each of which may be left
//! out. Instructions are written as `assembly` says, numbers as `numerals` says.

pub mod printing;
pub mod reading;
pub mod refused;

pub use printing::print;
pub use reading::{Text, code, read};

/// The settings' names, in order.
const SETTINGS: [&str; 5] = ["kernel", "width", "registers", "lanes", "budget"];
/// The sections' names, in order.
const SECTIONS: [&str; 5] = [
    "code",
    "register words",
    "device words",
    "local words",
    "state",
];
/// The names of a state's numbers before its blocks, in order.
const STATE: [&str; 7] = ["place", "active", "halted", "p1", "p2", "p3", "depth"];
/// The names of a state's sets, in order.
pub const SETS: [&str; 5] = ["active", "halted", "p1", "p2", "p3"];
