//! Page 01 of the replay desk, with the requests of page 02 that have landed, written a second time, as
//! simply as possible: what the proved programs are compared with.

pub mod arithmetic;
pub mod assembly;
pub mod bench;
pub mod blocks;
pub mod bytes;
pub mod capture;
pub mod cases;
pub mod commands;
pub mod control;
pub mod dayfile;
pub mod key;
pub mod listing;
pub mod numerals;
pub mod operations;
pub mod refusal;
pub mod report;
pub mod run;
pub mod state;
pub mod step;
pub mod text;
pub mod wave;
pub mod words;
