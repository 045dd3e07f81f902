//! The day file: making it from bodies, reading it, and the first record with equal bytes.

use crate::bytes;
use crate::key;
use crate::refusal::{Refusal, refuse};

/// The most records of a day file.
pub const MOST_RECORDS: usize = 1_024;

/// Where one record lies, and the first record (counted from 1) with equal bytes.
#[derive(Clone, Copy, Debug, PartialEq, Eq)]
pub struct Record {
    pub offset: usize,
    pub length: usize,
    pub first: usize,
}

/// The lengths of the bodies that lie one after another.
/// Tests body by body 14, and before a 1,025th body 15.
fn lengths(bodies: &[u8]) -> Result<Vec<usize>, Refusal> {
    let mut lengths = Vec::new();
    let mut at = 0;
    while at < bodies.len() {
        if lengths.len() == MOST_RECORDS {
            return refuse(15, 0);
        }
        let Some(body) = key::read(&bodies[at..]) else {
            return refuse(14, at as u32);
        };
        lengths.push(body.length);
        at += body.length;
    }
    Ok(lengths)
}

/// The day file of the bodies that lie one after another.
fn file_of(bodies: &[u8]) -> Result<Vec<u8>, Refusal> {
    let lengths = lengths(bodies)?;
    let mut numbers = vec![lengths.len() as u32];
    let mut offset = 4 + 8 * lengths.len();
    for length in lengths {
        numbers.extend([offset as u32, length as u32]);
        offset += length;
    }
    let mut file = bytes::from_numbers(&numbers);
    file.extend(bodies);
    Ok(file)
}

/// Makes the day file and says how many bytes it took. Tests body by body 14, 15, then 13.
/// Output past the result stays as lent.
pub fn make(bodies: &[u8], output: &mut [u8]) -> Result<usize, Refusal> {
    let file = file_of(bodies)?;
    if output.len() < file.len() {
        return refuse(13, 0);
    }
    output[..file.len()].copy_from_slice(&file);
    Ok(file.len())
}

/// The number of records. Tests a count over 1,024 (15), then accepts exactly the files that some
/// list gives (14).
pub fn count(file: &[u8]) -> Result<usize, Refusal> {
    let Some(count) = bytes::number_at(file, 0) else {
        return refuse(14, 0);
    };
    let count = count as usize;
    if count > MOST_RECORDS {
        return refuse(15, 0);
    }
    let Some(bodies) = file.get(4 + 8 * count..) else {
        return refuse(14, 0);
    };
    match file_of(bodies) {
        Ok(made) if made == file => Ok(count),
        _ => refuse(14, 0),
    }
}

/// The record of these bytes: its entry in the table of contents, and the first with equal bytes.
fn record_of(file: &[u8], entries: &[[usize; 2]], number: usize) -> Record {
    let bytes_of = |[offset, length]: [usize; 2]| &file[offset..offset + length];
    let [offset, length] = entries[number - 1];
    let equal = |other: &[usize; 2]| bytes_of(*other) == bytes_of([offset, length]);
    let before = entries.iter().position(equal);
    Record {
        offset,
        length,
        first: before.map_or(number, |index| index + 1),
    }
}

/// All records in order. Tests 15, then 14.
pub fn records(file: &[u8]) -> Result<Vec<Record>, Refusal> {
    let count = count(file)?;
    let table = bytes::to_numbers(&file[4..4 + 8 * count]);
    let entries: Vec<[usize; 2]> = table
        .chunks_exact(2)
        .map(|entry| [entry[0] as usize, entry[1] as usize])
        .collect();
    let each = 1..=count;
    Ok(each.map(|i| record_of(file, &entries, i)).collect())
}

/// Record `number`, counted from 1. Tests 15 and 14, then 16.
pub fn record(file: &[u8], number: u32) -> Result<Record, Refusal> {
    let records = records(file)?;
    match (number as usize)
        .checked_sub(1)
        .and_then(|i| records.get(i))
    {
        Some(record) => Ok(*record),
        None => refuse(16, 0),
    }
}
