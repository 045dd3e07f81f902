//! What each command does with its files.

use std::fs::{self, File, Metadata};
use std::io::{self, Write};
use std::os::unix::fs::MetadataExt;
use std::process;

use crate::capture::Capture;
use crate::numerals;
use crate::report;
use crate::run::Outcome;
use crate::text::{self, Text, refused};

/// Done, or one line that says what went wrong.
pub type Done = Result<(), String>;

/// How many lines of a text are warned about one by one.
const WARNINGS: usize = 20;

/// Prints to standard output.
pub fn say(text: &str) -> Done {
    let result = io::stdout().write_all(text.as_bytes());
    result.map_err(|error| format!("standard output: {error}"))
}

/// A file's bytes.
pub fn read_file(path: &str) -> Result<Vec<u8>, String> {
    fs::read(path).map_err(|error| format!("{path}: {error}"))
}

/// Writes a file beside its place, under a name of its own, and renames it, so that an error leaves an
/// earlier file as it was. An earlier file keeps its mode; a link, device, folder or read-only file at
/// this place is an error.
pub fn write_file(path: &str, bytes: &[u8]) -> Done {
    let earlier = replaceable(path)?;
    let beside = format!("{path}.{}.new", process::id());
    let written = File::create_new(&beside).and_then(|mut file| {
        file.write_all(bytes)?;
        if let Some(earlier) = earlier {
            file.set_permissions(earlier.permissions())?;
        }
        file.sync_all()?;
        fs::rename(&beside, path)
    });
    written.map_err(|error| {
        if error.kind() != io::ErrorKind::AlreadyExists {
            let _ = fs::remove_file(&beside);
        }
        format!("{path}: {error}")
    })
}

/// What stands at a path that may be written: nothing, or a regular file that isn't read-only.
fn replaceable(path: &str) -> Result<Option<Metadata>, String> {
    match fs::symlink_metadata(path) {
        Err(error) if error.kind() == io::ErrorKind::NotFound => Ok(None),
        Err(error) => Err(format!("{path}: {error}")),
        Ok(found) if !found.is_file() => Err(format!(
            "{path}: expected a regular file or none, found a link, folder or device"
        )),
        Ok(found) if found.permissions().readonly() => Err(format!(
            "{path}: expected a file that may be written, found a read-only one"
        )),
        Ok(found) => Ok(Some(found)),
    }
}

/// The capture of a file.
fn capture_in(path: &str) -> Result<Capture, String> {
    Capture::read(&read_file(path)?).map_err(|error| {
        let (expected, place) = (error.expected, error.place);
        format!("{path}: no capture: expected {expected} at byte {place}")
    })
}

/// Packs a readable capture. One that a launch or resume would refuse is an error, unless `any` may be
/// packed. Doubtful numbers are warned about on standard error.
pub fn pack(text_path: &str, path: &str, any: bool) -> Done {
    let text = String::from_utf8(read_file(text_path)?)
        .map_err(|_| format!("{text_path}: expected text in UTF-8"))?;
    if same_file(text_path, path) {
        return Err(format!(
            "{path}: expected another file than the text, found the text itself"
        ));
    }
    let text = text::read(&text).map_err(|error| format!("{text_path}: {error}"))?;
    for warning in warnings(&text) {
        eprintln!("second: {text_path}: {warning}");
    }
    if let Some(refusal) = text.capture.refusal().filter(|_| !any) {
        let refused = refused::describe(&text, refusal);
        return Err(format!("{text_path}: {refused}"));
    }
    write_file(path, &text.capture.write())
}

/// Whether two paths name one file, by the same words or by what stands there.
fn same_file(path: &str, other: &str) -> bool {
    let file = |path| fs::metadata(path).map(|found| (found.dev(), found.ino()));
    path == other || matches!((file(path), file(other)), (Ok(first), Ok(second)) if first == second)
}

/// A line for each line of the text that has doubtful numbers.
fn warnings(text: &Text) -> Vec<String> {
    let mut lines: Vec<(usize, &str, usize)> = Vec::new();
    for (line, found) in &text.doubtful {
        match lines.last_mut() {
            Some((last, _, more)) if last == line => *more += 1,
            _ => lines.push((*line, found, 0)),
        }
    }
    let told = lines.iter().take(WARNINGS).map(|(line, found, more)| {
        let number = numerals::parse(found).unwrap_or_default();
        let more = match more {
            0 => String::new(),
            _ => format!(", and {more} more on this line"),
        };
        format!(
            "line {line}: warning: '{found}' is read as hexadecimal, {number}{more}: 0x{found} says so"
        )
    });
    let mut told: Vec<String> = told.collect();
    if let Some((line, ..)) = lines.get(WARNINGS) {
        let count = lines.len() - WARNINGS;
        told.push(format!(
            "line {line}: warning: numbers of eight digits without a letter on {count} more lines, from this one on"
        ));
    }
    told
}

/// Prints a capture as text.
pub fn show(path: &str) -> Done {
    say(&text::print(&capture_in(path)?))
}

/// Replays a capture and prints the report. OUT gets the end state as a capture, KEY a fault's body;
/// a refused capture writes neither. Neither may be the capture, nor the other.
pub fn replay(path: &str, out: Option<&str>, key: Option<&str>) -> Done {
    let files = [Some(path), out, key];
    for (index, target) in files.iter().enumerate() {
        let mut before = files[..index].iter().flatten();
        if let Some(target) = target.filter(|target| before.any(|other| same_file(other, target))) {
            return Err(format!(
                "{target}: expected three files for capture, OUT and KEY, found one of them twice"
            ));
        }
    }
    let mut capture = capture_in(path)?;
    let answer = capture.run();
    let refused = matches!(answer.outcome, Outcome::Refused(_));
    let report = report::report(&capture, &answer);
    let body = report::body(capture.kernel, &answer);
    if let (Some(out), false) = (out, refused) {
        capture.state = Some(answer.state);
        write_file(out, &capture.write())?;
    }
    if let (Some(key), Some(body)) = (key, body) {
        write_file(key, &body)?;
    }
    say(&report)
}
