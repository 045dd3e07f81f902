//! The listing of a day file as text.

use crate::dayfile::{self, Record};
use crate::key::{self, Body};

/// The longest file that the listing takes: 64 KiB.
pub const LONGEST_FILE: usize = 65_536;

/// The text that the listing program prints for a file.
pub fn listing(file: &[u8]) -> String {
    if file.len() > LONGEST_FILE {
        return "too long\n".to_string();
    }
    let records = match dayfile::records(file) {
        Ok(records) => records,
        Err(refusal) => return format!("refused {}\n", refusal.number),
    };
    let mut text = "record first kernel place kinds depth\n".to_string();
    let mut distinct = 0;
    for (number, record) in (1..).zip(&records) {
        let body = key::read(&file[record.offset..]).expect("an accepted file has bodies");
        text += &line(number, record, &body);
        distinct += usize::from(record.first == number);
    }
    text + &format!("total {} distinct {distinct}\n", records.len())
}

/// The line of one record.
fn line(number: usize, record: &Record, body: &Body) -> String {
    let kinds: Vec<String> = body.kinds.iter().map(u32::to_string).collect();
    format!(
        "{number} {} {} {} {} {}\n",
        record.first,
        body.kernel,
        body.place,
        kinds.join(","),
        body.depth
    )
}
