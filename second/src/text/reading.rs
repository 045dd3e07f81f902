//! The capture of a text. An error says the line, what was expected and what was found.

use super::{SECTIONS, SETTINGS, STATE};
use crate::assembly;
use crate::capture::{self, Capture};
use crate::numerals;
use crate::run::Settings;
use crate::state::{Block, State};
use crate::words;

/// What a text says, and where it says it.
#[derive(Clone, Debug, PartialEq, Eq)]
pub struct Text {
    pub capture: Capture,
    pub lines: LineNumbers,
    /// The numbers that could be meant as decimal and were read as hexadecimal, by line.
    pub doubtful: Vec<(usize, String)>,
}

/// The numbers of the lines at which things stand, counted from 1.
#[derive(Clone, Debug, PartialEq, Eq)]
pub struct LineNumbers {
    /// Of the settings, in order.
    pub settings: [usize; 5],
    /// Of the sections' names, in order, where they stand.
    pub sections: [Option<usize>; 5],
    /// Of the lines of code.
    pub places: Places,
}

/// The place of the first word of each line of code, and the line's number.
type Places = Vec<(usize, usize)>;

/// A line without its comment, and its number.
type Line<'a> = (usize, &'a str);

/// The lines of the settings or of a section.
#[derive(Default)]
struct Part<'a> {
    /// The line of the section's name, where it stands.
    name: Option<usize>,
    lines: Vec<Line<'a>>,
    /// The line after them, and what is found there.
    after: (usize, String),
}

impl<'a> Part<'a> {
    /// The line with this index, or an error that says what was expected.
    fn line(&self, index: usize, expected: &str) -> Result<Line<'a>, String> {
        let (number, found) = &self.after;
        let missing = || format!("line {number}: expected {expected}, found {found}");
        self.lines.get(index).copied().ok_or_else(missing)
    }

    /// An error where there are more lines than these.
    fn ends_after(&self, count: usize, expected: &str) -> Result<(), String> {
        match self.lines.get(count) {
            None => Ok(()),
            Some((number, line)) => Err(format!(
                "line {number}: expected {expected}, found '{line}'"
            )),
        }
    }
}

/// The capture of a text.
pub fn read(text: &str) -> Result<Text, String> {
    let [settings, code, registers, device, local, state] = &split(text)?;
    let numbers = named(settings, SETTINGS)?;
    settings.ends_after(SETTINGS.len(), "the name of a section")?;
    let [kernel, width, each, lanes, budget] = numbers.map(|(_, number)| number);
    let (code_words, places) = code_words(code)?;
    let [_, register_room, device_room, local_room, _] = capture::ROOM;
    let parts = [code, registers, device, local, state];
    Ok(Text {
        capture: Capture {
            kernel,
            settings: Settings {
                width,
                registers: each,
                lanes,
                budget,
            },
            code: code_words,
            registers: register_words(registers, each, register_room)?,
            device: section_words(device, device_room)?,
            local: section_words(local, local_room)?,
            state: read_state(state)?,
        },
        lines: LineNumbers {
            settings: numbers.map(|(line, _)| line),
            sections: parts.map(|part| part.name),
            places,
        },
        doubtful: doubtful(parts.into_iter().chain([settings])),
    })
}

/// The settings' lines, then those of each section in order.
fn split(text: &str) -> Result<[Part<'_>; 6], String> {
    let mut parts: [Part; 6] = Default::default();
    let mut current = 0;
    let mut end = 1;
    for (number, line) in (1..).zip(text.lines()) {
        end = number + 1;
        let line = line.split('#').next().unwrap_or_default().trim();
        match SECTIONS.iter().position(|name| *name == line) {
            _ if line.is_empty() => (),
            Some(section) if section < current => {
                let later = SECTIONS[current..].iter().map(|name| format!("'{name}', "));
                let later: String = later.collect();
                return Err(format!(
                    "line {number}: expected {later}or the text's end, found '{line}'"
                ));
            }
            Some(section) => {
                parts[current].after = (number, format!("'{line}'"));
                current = section + 1;
                parts[current].name = Some(number);
            }
            None => parts[current].lines.push((number, line)),
        }
    }
    parts[current].after = (end, "the text's end".to_string());
    Ok(parts)
}

/// The numbers that could be meant as decimal, by line.
fn doubtful<'a>(parts: impl Iterator<Item = &'a Part<'a>>) -> Vec<(usize, String)> {
    let lines = parts.flat_map(|part| &part.lines);
    let mut found: Vec<(usize, String)> = lines
        .flat_map(|&(number, line)| {
            let tokens = assembly::tokens(line).filter(|token| numerals::is_doubtful(token));
            tokens.map(move |token| (number, token.to_string()))
        })
        .collect();
    found.sort_by_key(|(number, _)| *number);
    found
}

/// An error at a line.
fn at<T>(number: usize, result: Result<T, String>) -> Result<T, String> {
    result.map_err(|error| format!("line {number}: {error}"))
}

/// The numbers of lines `NAME NUMBER`, the names being these in this order, each with its line.
fn named<const N: usize>(part: &Part, names: [&str; N]) -> Result<[(usize, u32); N], String> {
    let mut numbers = [(0, 0); N];
    for (index, name) in names.iter().enumerate() {
        let (number, line) = part.line(index, &format!("'{name} NUMBER'"))?;
        let wrong = || format!("line {number}: expected '{name} NUMBER', found '{line}'");
        let tokens: Vec<&str> = line.split_whitespace().collect();
        numbers[index] = match tokens[..] {
            [found, value] if found == *name => (number, at(number, numerals::parse(value))?),
            _ => return Err(wrong()),
        };
    }
    Ok(numbers)
}

/// The words of lines of code.
pub fn code(text: &str) -> Result<Vec<u32>, String> {
    let lines = text.lines().map(str::trim).filter(|line| !line.is_empty());
    let words: Result<Vec<_>, _> = lines.map(code_line).collect();
    Ok(words?.concat())
}

/// The words of the code, and the place and number of each of its lines.
fn code_words(part: &Part) -> Result<(Vec<u32>, Places), String> {
    let [room, ..] = capture::ROOM;
    let (mut words, mut places) = (Vec::new(), Vec::new());
    for &(number, line) in &part.lines {
        places.push((words.len(), number));
        words.extend(at(number, code_line(line))?);
        at(number, fits(words.len(), room))?;
    }
    Ok((words, places))
}

/// The words of a line of code.
fn code_line(line: &str) -> Result<Vec<u32>, String> {
    if let Some(word) = line.strip_prefix("word ") {
        return Ok(vec![numerals::parse(word.trim())?]);
    }
    let instruction = assembly::parse(line)?;
    let mut output = [0; 2];
    let length = words::write(&instruction, &mut output).map_err(|_| "no words give it")?;
    Ok(output[..length].to_vec())
}

/// The words of a section without labels.
fn section_words(part: &Part, room: usize) -> Result<Vec<u32>, String> {
    let mut all = Vec::new();
    for &(number, line) in &part.lines {
        at(number, add_words(&mut all, line, room))?;
    }
    Ok(all)
}

/// Adds the words of a line of numbers, or of `N of WORD`.
fn add_words(all: &mut Vec<u32>, line: &str, room: usize) -> Result<(), String> {
    let tokens: Vec<&str> = line.split_whitespace().collect();
    match tokens[..] {
        [count, "of", word] => {
            let (count, word) = (numerals::parse(count)? as usize, numerals::parse(word)?);
            fits(all.len() + count, room)?;
            all.resize(all.len() + count, word);
        }
        _ => {
            for token in tokens {
                all.push(numerals::parse(token)?);
            }
            fits(all.len(), room)?;
        }
    }
    Ok(())
}

/// An error where there are more words than a capture has room for.
fn fits(count: usize, room: usize) -> Result<(), String> {
    match count <= room {
        true => Ok(()),
        false => Err(format!("expected at most {room} words, found {count}")),
    }
}

/// The lanes whose registers are read, at the line of their label.
struct Labelled<'a> {
    line: Line<'a>,
    first: u32,
    last: u32,
}

impl<'a> Labelled<'a> {
    /// The lanes of a line that begins with a label, `lane 3` or `lanes 4-7`, and the rest of the line.
    fn of(line: Line<'a>) -> Result<Option<(Labelled<'a>, &'a str)>, String> {
        let (number, text) = line;
        let (word, rest) = text.split_once(char::is_whitespace).unwrap_or((text, ""));
        if !matches!(word, "lane" | "lanes") {
            return Ok(None);
        }
        let rest = rest.trim_start();
        let (lanes, rest) = rest.split_once(char::is_whitespace).unwrap_or((rest, ""));
        let (first, last) = match word {
            "lane" => (lanes, lanes),
            _ => lanes.split_once('-').unwrap_or((lanes, "")),
        };
        let [first, last] = [first, last].map(|lane| lane.parse().ok());
        match (first, last) {
            (Some(first), Some(last)) if first <= last => {
                Ok(Some((Labelled { line, first, last }, rest)))
            }
            _ => Err(format!(
                "line {number}: expected 'lane NUMBER' or 'lanes NUMBER-NUMBER', found '{text}'"
            )),
        }
    }

    /// An error where the first lane isn't the one whose registers come after so many words.
    fn begins(&self, count: usize, each: u32) -> Result<(), String> {
        let (number, text) = self.line;
        let expected = u64::from(self.first) * u64::from(each);
        match count as u64 == expected {
            true => Ok(()),
            false => Err(format!(
                "line {number}: expected {expected} words before lane {}, with {each} registers for each \
                 lane, found {count} before '{text}'",
                self.first
            )),
        }
    }

    /// An error where the words up to here aren't those of its lanes.
    fn ends(&self, count: usize, each: u32) -> Result<(), String> {
        let (number, text) = self.line;
        let expected = (u64::from(self.last) + 1) * u64::from(each);
        let before = u64::from(self.first) * u64::from(each);
        match count as u64 == expected {
            true => Ok(()),
            false => Err(format!(
                "line {number}: expected {} words, {each} registers for each lane, found {} after '{}'",
                expected - before,
                count as u64 - before,
                label(text)
            )),
        }
    }
}

/// The first two words of a line.
fn label(text: &str) -> String {
    let words: Vec<&str> = text.split_whitespace().take(2).collect();
    words.join(" ")
}

/// The words of the register buffer, whose labels say what they have to.
fn register_words(part: &Part, each: u32, room: usize) -> Result<Vec<u32>, String> {
    let mut all = Vec::new();
    let mut open: Option<Labelled> = None;
    for &line in &part.lines {
        let words = match Labelled::of(line)? {
            None => line.1,
            Some((labelled, rest)) => {
                if let Some(before) = open {
                    before.ends(all.len(), each)?;
                }
                labelled.begins(all.len(), each)?;
                open = Some(labelled);
                rest
            }
        };
        at(line.0, add_words(&mut all, words, room))?;
    }
    match open {
        Some(last) => last.ends(all.len(), each).map(|()| all),
        None => Ok(all),
    }
}

/// The state of its section; none where there is no such section.
fn read_state(part: &Part) -> Result<Option<State>, String> {
    if part.name.is_none() {
        return Ok(None);
    }
    let numbers = named(part, STATE)?;
    let [place, active, halted, p1, p2, p3, depth] = numbers.map(|(_, number)| number);
    let (depth_line, depth) = (numbers[6].0, depth as usize);
    if depth > capture::MOST_BLOCKS {
        let most = capture::MOST_BLOCKS;
        return Err(format!(
            "line {depth_line}: expected a depth of at most {most}, found {depth}"
        ));
    }
    let blocks = (0..depth).map(|index| block(part, STATE.len() + index));
    let blocks = blocks.collect::<Result<_, _>>()?;
    let expected = format!("the text's end after depth {depth} and its blocks");
    part.ends_after(STATE.len() + depth, &expected)?;
    Ok(Some(State {
        place,
        active,
        halted,
        predicates: [p1, p2, p3],
        blocks,
    }))
}

/// The block of a line `block PART OPENER ENTERED ASIDE AGAIN LEFT`.
fn block(part: &Part, index: usize) -> Result<Block, String> {
    let expected = "'block' and six numbers";
    let (number, line) = part.line(index, expected)?;
    let wrong = || format!("line {number}: expected {expected}, found '{line}'");
    let tokens: Vec<&str> = line.split_whitespace().collect();
    let (&first, rest) = tokens.split_first().ok_or_else(wrong)?;
    let six = <[&str; 6]>::try_from(rest)
        .ok()
        .filter(|_| first == "block");
    let mut numbers = [0; 6];
    for (value, token) in numbers.iter_mut().zip(six.ok_or_else(wrong)?) {
        *value = at(number, numerals::parse(token))?;
    }
    Ok(Block::from(numbers))
}
