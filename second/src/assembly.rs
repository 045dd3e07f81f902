//! One instruction as text: its name on the page, its operands, and the predicate it is on.
//!
//! ```text
//! ADD r3, r1, r2             LT p1, r0, r1              NEG r1, r2
//! MOV_SPECIAL r0, lane       MOV_IMM r0, 5              CAS r1, [r2], r3, r4 scope 2
//! LOAD r1, [r2 + 8]          STORE [r2 + 8], r1         ATOMIC_ADD r1, [r2], r3
//! REDUCE_ADD r1, r0          SHUFFLE r1, r0, r2         BALLOT r1, r0 on p1
//! IF on not p1               BREAK on p1                ADD r3, r1, r2 on p2
//! ```
//!
//! Numbers are written and read as `numerals` says.

use crate::numerals;
use crate::operations::{Form, Operation};
use crate::refusal::{Refusal, refuse};
use crate::words::{self, Instruction};

/// The names of the special numbers 0, 1 and 2.
const SPECIALS: [&str; 3] = ["lane", "wave", "waves"];

/// Writes an instruction's text and says how many bytes it took. Tests 12, 13, at place 0.
/// Output past the text stays as lent.
pub fn write(instruction: &Instruction, output: &mut [u8]) -> Result<usize, Refusal> {
    words::write(instruction, &mut [0; 2])?;
    let text = print(instruction);
    let Some(room) = output.get_mut(..text.len()) else {
        return refuse(13, 0);
    };
    room.copy_from_slice(text.as_bytes());
    Ok(text.len())
}

/// An instruction that words give, as text.
pub fn print(i: &Instruction) -> String {
    let name = i.operation.name();
    let [rd, rs1, rs2, rs3] = [i.rd, i.rs1, i.rs2, i.rs3];
    let offset = numerals::print(i.number);
    let mut text = match i.operation.form() {
        Form::TwoSources | Form::Shuffle => format!("{name} r{rd}, r{rs1}, r{rs2}"),
        Form::Comparison => format!("{name} p{rd}, r{rs1}, r{rs2}"),
        Form::OneSource | Form::Wave => format!("{name} r{rd}, r{rs1}"),
        Form::Special => format!("{name} r{rd}, {}", SPECIALS[rs1 as usize]),
        Form::Immediate => format!("{name} r{rd}, {offset}"),
        Form::Memory if stores(i.operation) => format!("{name} [r{rs1} + {offset}], r{rd}"),
        Form::Memory => format!("{name} r{rd}, [r{rs1} + {offset}]"),
        Form::Atomic => format!("{name} r{rd}, [r{rs1}], r{rs2}"),
        Form::CompareAndSwap => format!("{name} r{rd}, [r{rs1}], r{rs2}, r{rs3}"),
        Form::Control => name.to_string(),
    };
    if i.scope != 0 {
        text += &format!(" scope {}", i.scope);
    }
    if i.predicate != 0 {
        let not = if i.negate { "not " } else { "" };
        text += &format!(" on {not}p{}", i.predicate);
    }
    text
}

fn stores(operation: Operation) -> bool {
    matches!(operation, Operation::Store | Operation::LocalStore)
}

/// The instruction of a text, where some words give it.
pub fn parse(text: &str) -> Result<Instruction, String> {
    let mut tokens = Tokens {
        rest: tokens(text).collect(),
    };
    let name = tokens.next("an instruction's name")?;
    let operation = Operation::with_name(name)
        .ok_or_else(|| format!("expected an instruction's name, found '{name}'"))?;
    let mut instruction = Instruction::plain(operation);
    operands(&mut instruction, &mut tokens)?;
    if tokens.take("scope") {
        instruction.scope = tokens.number("a scope")?;
    }
    if tokens.take("on") {
        instruction.negate = tokens.take("not");
        instruction.predicate = tokens.after('p', "a predicate")?;
    }
    if let Some(token) = tokens.rest.first() {
        return Err(format!("expected the line's end, found '{token}'"));
    }
    words::write(&instruction, &mut [0; 2])
        .map_err(|_| format!("expected an instruction that words give, found '{text}'"))?;
    Ok(instruction)
}

/// The words of a line, without the marks between them.
pub fn tokens(line: &str) -> impl Iterator<Item = &str> {
    let marks = |c: char| c.is_whitespace() || ",[]+".contains(c);
    line.split(marks).filter(|token| !token.is_empty())
}

/// Reads the operands of the operation's form.
fn operands(i: &mut Instruction, tokens: &mut Tokens) -> Result<(), String> {
    match i.operation.form() {
        Form::Control => return Ok(()),
        Form::Comparison => i.rd = tokens.after('p', "a predicate")?,
        Form::Memory if stores(i.operation) => {
            i.rs1 = tokens.register()?;
            i.number = tokens.number("an offset")?;
            i.rd = tokens.register()?;
            return Ok(());
        }
        _ => i.rd = tokens.register()?,
    }
    match i.operation.form() {
        Form::Special => i.rs1 = special(tokens.next("a special number")?)?,
        Form::Immediate => i.number = tokens.number("a number")?,
        _ => i.rs1 = tokens.register()?,
    }
    match i.operation.form() {
        Form::Memory => i.number = tokens.number("an offset")?,
        Form::TwoSources | Form::Comparison | Form::Atomic | Form::Shuffle => {
            i.rs2 = tokens.register()?;
        }
        Form::CompareAndSwap => {
            i.rs2 = tokens.register()?;
            i.rs3 = tokens.register()?;
        }
        _ => (),
    }
    Ok(())
}

fn special(token: &str) -> Result<u32, String> {
    let found = SPECIALS.iter().position(|name| *name == token);
    found
        .map(|number| number as u32)
        .ok_or(format!("expected lane, wave or waves, found '{token}'"))
}

/// The words of a line that are still to be read.
struct Tokens<'a> {
    rest: Vec<&'a str>,
}

impl<'a> Tokens<'a> {
    fn next(&mut self, expected: &str) -> Result<&'a str, String> {
        if self.rest.is_empty() {
            return Err(format!("expected {expected}, found the line's end"));
        }
        Ok(self.rest.remove(0))
    }

    /// Whether the next token is this word; if so it is passed.
    fn take(&mut self, word: &str) -> bool {
        let found = self.rest.first() == Some(&word);
        if found {
            self.rest.remove(0);
        }
        found
    }

    fn number(&mut self, expected: &str) -> Result<u32, String> {
        numerals::parse(self.next(expected)?)
    }

    /// The decimal number after this letter.
    fn after(&mut self, letter: char, expected: &str) -> Result<u32, String> {
        let token = self.next(expected)?;
        let digits = token.strip_prefix(letter).unwrap_or_default();
        let decimal = digits.bytes().all(|byte| byte.is_ascii_digit());
        let number = digits.parse().ok().filter(|_| decimal);
        number.ok_or(format!("expected {expected}, found '{token}'"))
    }

    fn register(&mut self) -> Result<u32, String> {
        self.after('r', "a register")
    }
}
