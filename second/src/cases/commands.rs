//! The commands that make, answer and compare cases.

use std::io::{self, Read, Write};
use std::process::{Command, Stdio};
use std::thread;
use std::time::{SystemTime, UNIX_EPOCH};

use super::answer::answer;
use super::reached::Reached;
use super::{Case, agreement, format, make, named};
use crate::bytes;
use crate::commands::{Done, read_file, say, write_file};

/// How many cases are handed to another program at once.
const BATCH: u64 = 1000;
/// The seed and the count of the random cases of the stored batch.
const STORED: (u64, u64) = (45, 450);

/// The seed of a text: a number, or `new` for one from the clock. It is printed on standard error.
fn seed(text: &str) -> Result<u64, String> {
    let seed = match text {
        "new" => SystemTime::now()
            .duration_since(UNIX_EPOCH)
            .map_err(|error| format!("the clock: {error}"))?
            .as_nanos() as u64,
        _ => count(text)?,
    };
    eprintln!("seed {seed}");
    Ok(seed)
}

fn count(text: &str) -> Result<u64, String> {
    text.parse()
        .map_err(|_| format!("expected a number, found '{text}'"))
}

/// Writes cases 1 to COUNT of a seed to standard output.
pub fn cases(seed_text: &str, count_text: &str) -> Done {
    write_all(&random(seed(seed_text)?, count(count_text)?))
}

/// Writes the named cases to standard output.
pub fn named() -> Done {
    write_all(&named_cases())
}

/// Writes the stored batch to standard output: the named cases, then random ones of a fixed seed.
pub fn stored() -> Done {
    let (seed, count) = STORED;
    write_all(&[named_cases(), random(seed, count)].concat())
}

/// Prints the numbers and names of the named cases.
pub fn names() -> Done {
    for (number, named) in (1..).zip(named::all()) {
        say(&format!("{number} {}\n", named.name))?;
    }
    Ok(())
}

fn random(seed: u64, count: u64) -> Vec<Case> {
    (1..=count).map(|number| make::case(seed, number)).collect()
}

fn named_cases() -> Vec<Case> {
    named::all().iter().map(named::Named::case).collect()
}

/// Writes cases to standard output.
fn write_all(cases: &[Case]) -> Done {
    let mut output = io::BufWriter::new(io::stdout().lock());
    let mut written = Ok(());
    for case in cases {
        written = written.and_then(|()| output.write_all(&case.write()));
    }
    written
        .and_then(|()| output.flush())
        .map_err(|error| format!("standard output: {error}"))
}

/// Answers the cases on standard input, on standard output.
pub fn answers() -> Done {
    let mut input = Vec::new();
    io::stdin()
        .read_to_end(&mut input)
        .map_err(|error| format!("standard input: {error}"))?;
    let reached = &mut Reached::default();
    let mut output = io::BufWriter::new(io::stdout().lock());
    for case in format::read_all(&input)? {
        let written = output.write_all(&answer(&case, reached).write());
        written.map_err(|error| format!("standard output: {error}"))?;
    }
    output
        .flush()
        .map_err(|error| format!("standard output: {error}"))
}

/// Compares a file of answers with the second program's own to a file of cases.
pub fn compare(cases_path: &str, answers_path: &str) -> Done {
    let cases = read_cases(cases_path)?;
    let answers = read_file(answers_path)?;
    let reached = &mut Reached::default();
    same(&cases, 1, &answers, reached)?;
    say(&format!("{} cases agree\n", cases.len()))
}

/// Prints how often the cases of a file reach each thing, and fails where one is never reached.
pub fn reached(cases_path: &str) -> Done {
    let reached = &mut Reached::default();
    for case in read_cases(cases_path)? {
        answer(&case, reached);
    }
    say(&reached.table())?;
    reached.check()
}

/// Case NUMBER of a file, counted from 1.
fn one_case(cases_path: &str, number_text: &str) -> Result<Case, String> {
    let cases = read_cases(cases_path)?;
    let index = count(number_text)?.checked_sub(1);
    let found = index.and_then(|index| cases.into_iter().nth(index as usize));
    found.ok_or(format!("{cases_path}: no case {number_text}"))
}

/// Prints one case of a file as text, and the answer's parts.
pub fn case(cases_path: &str, number_text: &str) -> Done {
    let case = one_case(cases_path, number_text)?;
    let (name, text) = (agreement::name(&case), agreement::describe(&case));
    say(&format!("# {name}\n{text}\n"))?;
    for part in answer(&case, &mut Reached::default()).parts {
        let numbers = agreement::hex(&part.numbers);
        say(&format!("{}: {numbers}\n", part.name))?;
    }
    Ok(())
}

/// Writes the capture of a run among the cases.
pub fn extract(cases_path: &str, number_text: &str, path: &str) -> Done {
    match one_case(cases_path, number_text)? {
        Case::Run { capture, .. } => write_file(path, &capture.write()),
        other => Err(format!(
            "expected a run, found: {}",
            agreement::name(&other)
        )),
    }
}

/// Hands cases 1 to COUNT of a seed to another program, batch by batch, and compares its answers.
/// Then prints how often each thing was reached, and fails where one never was.
pub fn against(seed_text: &str, count_text: &str, program: &[&str]) -> Done {
    let (seed, count) = (seed(seed_text)?, count(count_text)?);
    let reached = &mut Reached::default();
    let mut first = 1;
    while first <= count {
        let last = count.min(first + BATCH - 1);
        let cases: Vec<Case> = (first..=last).map(|n| make::case(seed, n)).collect();
        let input = cases.iter().flat_map(Case::write).collect();
        let answers = ask(program, input)?;
        same(&cases, first, &answers, reached)
            .map_err(|difference| format!("seed {seed}, {difference}"))?;
        if last % (100 * BATCH) == 0 {
            eprintln!("{last} cases agree");
        }
        first = last + 1;
    }
    say(&reached.table())?;
    say(&format!("seed {seed}: {count} cases agree\n"))?;
    reached.check()
}

/// What a program prints for this input.
fn ask(program: &[&str], input: Vec<u8>) -> Result<Vec<u8>, String> {
    let wrong = |error: io::Error| format!("{}: {error}", program[0]);
    let mut child = Command::new(program[0])
        .args(&program[1..])
        .stdin(Stdio::piped())
        .stdout(Stdio::piped())
        .spawn()
        .map_err(wrong)?;
    let mut stdin = child.stdin.take().expect("standard input is a pipe");
    let writer = thread::spawn(move || stdin.write_all(&input));
    let output = child.wait_with_output().map_err(wrong)?;
    let written = writer.join().expect("the writer doesn't panic");
    if !output.status.success() {
        return Err(format!("{}: {}", program[0], output.status));
    }
    written.map_err(wrong)?;
    Ok(output.stdout)
}

fn read_cases(path: &str) -> Result<Vec<Case>, String> {
    format::read_all(&read_file(path)?).map_err(|error| format!("{path}: {error}"))
}

/// Compares answers as bytes.
fn same(cases: &[Case], first: u64, answers: &[u8], reached: &mut Reached) -> Done {
    if answers.len() % 4 != 0 {
        return Err("the answers' length isn't a multiple of 4".to_string());
    }
    agreement::compare_all(cases, first, &bytes::to_numbers(answers), reached)
}
