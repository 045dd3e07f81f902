//! Numbers, instructions and captures as text: what is read, what is printed, and what errors say.

use second::assembly;
use second::capture::Capture;
use second::cases::random::Random;
use second::cases::{Case, make};
use second::numerals;
use second::operations::{Form, Operation};
use second::text::{self, refused};
use second::words::{self, Instruction};

#[test]
fn numbers_are_read() {
    let number = numerals::parse;
    assert_eq!(number("10"), Ok(10));
    assert_eq!(number("00000010"), Ok(16));
    assert_eq!(number("FFFFFFFF"), Ok(0xFFFFFFFF));
    assert_eq!(number("1000000000"), Ok(1_000_000_000));
    assert_eq!(number("4294967295"), Ok(0xFFFFFFFF));
    assert_eq!(number("0x0"), Ok(0));
    assert_eq!(number("0x1F"), Ok(31));
    assert_eq!(number("0xffffFFFF"), Ok(0xFFFFFFFF));
    assert_eq!(number("-1"), Ok(0xFFFFFFFF));
    assert_eq!(number("-12345678"), Ok(12_345_678u32.wrapping_neg()));
    assert_eq!(number("-2147483648"), Ok(0x80000000));
    let wrong = [
        "",
        "-",
        "0x",
        "1F",
        "+1",
        "0x+1",
        "-0x1",
        "--1",
        "-2147483649",
        "4294967296",
        "0x123456789",
        "GGGGGGGG",
        "1.5",
        "0X10",
        "٣",
    ];
    for text in wrong {
        let error = number(text).expect_err(text);
        assert!(
            error.starts_with("expected a number") && error.ends_with(&format!("found '{text}'"))
        );
    }
}

#[test]
fn numbers_are_printed_and_read_back() {
    let texts = [
        (0, "0"),
        (9_999_999, "9999999"),
        (10_000_000, "0x00989680"),
        (0xFFFFFFFF, "0xFFFFFFFF"),
    ];
    for (number, text) in texts {
        assert_eq!(numerals::print(number), text);
        assert_eq!(numerals::parse(text), Ok(number));
        assert!(!numerals::is_doubtful(text));
    }
}

#[test]
fn eight_digits_without_a_letter_are_doubtful() {
    assert!(numerals::is_doubtful("00000010") && numerals::is_doubtful("12345678"));
    for text in ["0000000A", "0x000010", "1234567", "123456789", "-1234567"] {
        assert!(!numerals::is_doubtful(text), "{text}");
    }
}

#[test]
fn each_form_has_its_text() {
    let lines = [
        "ADD r3, r1, r2",
        "LT p1, r0, r255 on not p3",
        "NEG r1, r2 on p2",
        "MOV_SPECIAL r0, lane",
        "MOV_SPECIAL r10, wave",
        "MOV_SPECIAL r100, waves",
        "MOV_IMM r0, 9999999",
        "MOV_IMM r0, 0x00989680",
        "MOV_IMM r0, 0xFFFFFFFF",
        "LOAD r1, [r2 + 8]",
        "LOCAL_LOAD r1, [r2 + 0xFFFFFFFC]",
        "STORE [r2 + 8], r1",
        "LOCAL_STORE [r2 + 0], r1 on p1",
        "ATOMIC_ADD r1, [r2], r3",
        "ATOMIC_UMAX r255, [r255], r255 scope 3 on not p3",
        "CAS r1, [r2], r3, r4 scope 2",
        "REDUCE_ADD r1, r0",
        "PREFIX_SUM r255, r254 on not p3",
        "SHUFFLE r1, r0, r2 on p1",
        "ALL r0, r0",
        "IF on not p1",
        "BREAK on p1",
        "NOP",
    ];
    for line in lines {
        let read = assembly::parse(line).expect(line);
        assert_eq!(assembly::print(&read), line);
    }
    assert_eq!(assembly::print(&largest(Operation::AtomicUmax)).len(), 48);
    assert_eq!(
        assembly::parse("LOAD r1,[r2+-4]"),
        assembly::parse("LOAD r1, [r2 + 0xFFFFFFFC]")
    );
}

/// The instruction of an operation whose fields are all as large as they can be.
fn largest(operation: Operation) -> Instruction {
    let mut i = Instruction::plain(operation);
    if words::takes_predicate(operation) {
        (i.predicate, i.negate) = (3, true);
    }
    match operation.form() {
        Form::Control => (),
        Form::TwoSources | Form::Shuffle => (i.rd, i.rs1, i.rs2) = (255, 255, 255),
        Form::Comparison => (i.rd, i.rs1, i.rs2) = (3, 255, 255),
        Form::OneSource | Form::Wave => (i.rd, i.rs1) = (255, 255),
        Form::Special => (i.rd, i.rs1) = (255, 2),
        Form::Immediate => (i.rd, i.number) = (255, !0),
        Form::Memory => (i.rd, i.rs1, i.number) = (255, 255, !0),
        Form::Atomic => (i.rd, i.rs1, i.rs2, i.scope) = (255, 255, 255, 3),
        Form::CompareAndSwap => (i.rd, i.rs1, i.rs2, i.rs3, i.scope) = (255, 255, 255, 255, 3),
    }
    i
}

#[test]
fn no_text_is_longer_than_48_bytes() {
    let lengths = Operation::ALL.iter().map(|operation| {
        let text = assembly::print(&largest(*operation));
        assert_eq!(assembly::parse(&text), Ok(largest(*operation)));
        text.len()
    });
    assert_eq!(lengths.max(), Some(48));
}

#[test]
fn no_two_instructions_have_one_text() {
    let mut random = Random::new(22, 0);
    let mut texts = std::collections::HashMap::new();
    for round in 0..4000 {
        let operation = Operation::ALL[round % Operation::ALL.len()];
        let i = make::numbered(&mut random, operation);
        let text = assembly::print(&i);
        assert!(text.len() <= 48, "{text}");
        assert_eq!(assembly::parse(&text), Ok(i));
        assert_eq!(*texts.entry(text).or_insert(i), i);
    }
}

#[test]
fn a_text_is_written_into_what_is_lent() {
    let mut output = [7; 60];
    assert_eq!(
        assembly::write(&largest(Operation::AtomicUmax), &mut output),
        Ok(48)
    );
    assert_eq!(
        &output[..48],
        b"ATOMIC_UMAX r255, [r255], r255 scope 3 on not p3"
    );
    assert_eq!(output[48..], [7; 12]);
    let mut short = [7; 47];
    let refused = assembly::write(&largest(Operation::AtomicUmax), &mut short).expect_err("13");
    assert_eq!((refused.number, refused.place, short), (13, 0, [7; 47]));
    let mut none = Instruction::plain(Operation::MovSpecial);
    none.rs1 = 3;
    let refused = assembly::write(&none, &mut []).expect_err("12");
    assert_eq!((refused.number, refused.place), (12, 0));
}

const HEAD: &str = "kernel 1\nwidth 8\nregisters 2\nlanes 2\nbudget 1\n";

/// The capture of a text after five lines of settings.
fn capture(rest: &str) -> Capture {
    text::read(&format!("{HEAD}{rest}")).expect(rest).capture
}

fn error(rest: &str) -> String {
    text::read(&format!("{HEAD}{rest}")).expect_err(rest)
}

#[test]
fn registers_stand_by_lane() {
    let expected = vec![0, 5, 0, !0, 3, 3, 3, 3, 3, 3, 3, 3, 3, 3, 3, 3];
    let labelled = "register words\nlane 0  0 5\nlane 1\n0\n-1\nlanes 2-7  12 of 3\n";
    assert_eq!(capture(labelled).registers, expected);
    let plain = "register words\n0 5 0 0xFFFFFFFF\n12 of 3\n";
    assert_eq!(capture(plain).registers, expected);
    let shown = text::print(&capture(labelled));
    let registers =
        "register words\n    lane 0     0 5\n    lane 1     0 0xFFFFFFFF\n    lanes 2-7  12 of 3\n";
    assert!(shown.contains(registers), "{shown}");
}

#[test]
fn lanes_with_many_registers_go_over_several_lines() {
    let mut wide = capture("");
    wide.settings.registers = 40;
    wide.registers = (0..320).collect();
    let shown = text::print(&wide);
    let second = shown
        .lines()
        .find(|line| line.contains("lane 1 "))
        .expect("lane 1");
    assert!(second.contains(" 40 41 42 "), "{second}");
    assert_eq!(text::read(&shown).expect("a capture").capture, wide);
}

#[test]
fn memory_as_large_as_there_is_room_for_is_shown_and_read() {
    let mut large = capture("");
    large.device = vec![0; 16_777_216];
    let shown = text::print(&large);
    assert!(shown.contains("    0x01000000 of 0\n"), "{shown}");
    assert_eq!(text::read(&shown).expect("a capture").capture, large);
}

/// The text between the first two lines of three backticks after this title.
fn block_after(title: &str) -> String {
    let path = concat!(env!("CARGO_MANIFEST_DIR"), "/README.md");
    let readme = std::fs::read_to_string(path).expect("the README");
    let (_, after) = readme.split_once(title).expect("the title");
    let block = after.split("```").nth(1);
    block.expect("a block").trim_start().to_string()
}

#[test]
fn the_text_that_is_described_is_read() {
    let read = text::read(&block_after("## A capture's text")).expect("a capture");
    assert_eq!(
        read.capture.code,
        [0xF2000000, 0xF1010000, 0xFFFFFFFF, 0x3B000000]
    );
    assert_eq!(read.capture.registers[..6], [0, 5, 0, 16, 0, 0]);
    assert_eq!(read.capture.registers.len(), 16);
    assert_eq!(read.capture.device, [1, 2, 3, 4]);
    assert_eq!(read.doubtful, []);
}

#[test]
fn a_changed_text_is_read_or_said_so_with_its_line() {
    let mut random = Random::new(21, 0);
    let marks = b"0123456789abcdefxXrpASF#-+,[] \n\tlane of word block";
    for number in 1..=800 {
        let Case::Run { capture, .. } = make::case(21, number) else {
            continue;
        };
        let mut text = text::print(&capture).into_bytes();
        if text.len() > 10_000 {
            continue;
        }
        for _ in 0..random.below(4) {
            let at = random.below(text.len());
            match random.below(3) {
                0 => text[at] = random.pick(marks),
                1 => drop(text.remove(at)),
                _ => text.insert(at, random.pick(marks)),
            }
        }
        let text = String::from_utf8(text).expect("text");
        match text::read(&text) {
            Err(error) => assert!(
                error.starts_with("line ") && error.contains("expected "),
                "{error}"
            ),
            Ok(read) => {
                let refusal = read.capture.refusal();
                let said = refusal.map(|refusal| refused::describe(&read, refusal));
                assert!(said.is_none_or(|said| said.contains(": expected ")));
                let again = text::read(&text::print(&read.capture)).expect("a capture");
                assert_eq!(again.capture, read.capture);
            }
        }
    }
}

#[test]
fn a_label_at_another_place_is_said_so() {
    assert_eq!(
        error("register words\nlane 0  0\nlane 1  0 0\n"),
        "line 7: expected 2 words, 2 registers for each lane, found 1 after 'lane 0'"
    );
    assert_eq!(
        error("register words\nlane 0  0 0\nlane 2  0 0\n"),
        "line 8: expected 4 words before lane 2, with 2 registers for each lane, found 2 before 'lane 2  0 0'"
    );
    assert_eq!(
        error("register words\nlanes 0-1  5 of 0\n"),
        "line 7: expected 4 words, 2 registers for each lane, found 5 after 'lanes 0-1'"
    );
    for label in ["lane", "lane x", "lanes 3", "lanes 3-2 0", "lanes 3-"] {
        assert_eq!(
            error(&format!("register words\n{label}\n")),
            format!("line 7: expected 'lane NUMBER' or 'lanes NUMBER-NUMBER', found '{label}'")
        );
    }
}

#[test]
fn lines_that_are_wrong_are_said_so() {
    let first = text::read("width 8").expect_err("no kernel");
    assert_eq!(first, "line 1: expected 'kernel NUMBER', found 'width 8'");
    let second = text::read("kernel 1\n\n# width 8\n").expect_err("no width");
    assert_eq!(
        second,
        "line 4: expected 'width NUMBER', found the text's end"
    );
    let glued = text::read("kernel1\n").expect_err("no space");
    assert_eq!(glued, "line 1: expected 'kernel NUMBER', found 'kernel1'");
    let wrong = [
        (
            "NOP\ncode\n",
            "line 6: expected the name of a section, found 'NOP'",
        ),
        (
            "code\nFROB r1\n",
            "line 7: expected an instruction's name, found 'FROB'",
        ),
        (
            "code\nADD r1, r2\n",
            "line 7: expected a register, found the line's end",
        ),
        (
            "code\nADD r1, r+2, r3\n",
            "line 7: expected a register, found 'r'",
        ),
        (
            "code\nIF\n",
            "line 7: expected an instruction that words give, found 'IF'",
        ),
        (
            "code\nNOP NOP\n",
            "line 7: expected the line's end, found 'NOP'",
        ),
        (
            "device words\n0x1000001 of 0\n",
            "line 7: expected at most 16777216 words, found 16777217",
        ),
        (
            "device words\ncode\n",
            "line 7: expected 'local words', 'state', or the text's end, found 'code'",
        ),
        (
            "state\nplace 1\n",
            "line 8: expected 'active NUMBER', found the text's end",
        ),
        (
            "state\nplace 0\nactive 3\nhalted 0\np1 0\np2 0\np3 0\ndepth 1\n",
            "line 14: expected 'block' and six numbers, found the text's end",
        ),
        (
            "state\nplace 0\nactive 3\nhalted 0\np1 0\np2 0\np3 0\ndepth 0\nblock 1\n",
            "line 14: expected the text's end after depth 0 and its blocks, found 'block 1'",
        ),
        (
            "state\nplace 0\nactive 3\nhalted 0\np1 0\np2 0\np3 0\ndepth 65\n",
            "line 13: expected a depth of at most 64, found 65",
        ),
    ];
    for (rest, expected) in wrong {
        assert_eq!(error(rest), expected);
    }
    let number = error("device words\n1 x\n");
    assert!(number.starts_with("line 7: expected a number") && number.ends_with("found 'x'"));
    let number = error("device words\n3 of\n");
    assert!(number.ends_with("found 'of'"), "{number}");
}

/// What packing says of a text that a run would refuse.
fn refusal(text: &str) -> String {
    let read = text::read(text).expect(text);
    let refusal = read.capture.refusal().expect("a refusal");
    refused::describe(&read, refusal)
}

/// The same, after five lines of settings and a register buffer behind the rest.
fn refused_code(lines: &str) -> String {
    refusal(&format!("{HEAD}code\n{lines}\nregister words\n16 of 0\n"))
}

#[test]
fn a_refusal_says_number_place_rule_and_line() {
    let with = |from: &str, to: &str| refusal(&HEAD.replace(from, to));
    assert_eq!(
        with("width 8", "width 9"),
        "line 2: refused 1 at place 0, a setting: expected width 8, 16 or 32, found 9"
    );
    assert_eq!(
        with("registers 2", "registers 257"),
        "line 3: refused 1 at place 0, a setting: expected 1 to 256 registers, found 257"
    );
    assert_eq!(
        with("lanes 2", "lanes 9"),
        "line 4: refused 1 at place 0, a setting: expected 1 to 8 lanes, found 9"
    );
    assert_eq!(
        with("budget 1", "budget -1"),
        "line 5: refused 1 at place 0, a setting: expected a budget of 0 to 1000000000, found 4294967295"
    );
    assert_eq!(
        refusal(&format!("{HEAD}code\n{}", "NOP\n".repeat(65_537))),
        "line 6: refused 2 at place 0, code too long: expected at most 65536 words, found 65537"
    );
    assert_eq!(
        refusal(&format!("{HEAD}register words\n15 of 0\n")),
        "line 6: refused 3 at place 0, register buffer length: expected 16 words, width 8 x registers 2, found 15"
    );
    assert_eq!(
        refusal(HEAD),
        "refused 3 at place 0, register buffer length: expected 16 words, width 8 x registers 2, found 0"
    );
}

#[test]
fn a_refusal_of_an_instruction_says_its_line() {
    let rules = [
        (
            "NOP\nword 0x3B000000\n",
            "line 8: refused 4 at place 1, opcode not carried, or modifier not listed for it: \
             expected the first word of an instruction, found 0x3B000000",
        ),
        (
            "ADD r1, r1, r1\n# a comment\nword 0x00010100\n",
            "line 9: refused 5 at place 2, second word missing: expected a second word after 0x00010100, \
             found the code's end",
        ),
        (
            "word 0x3F000004\n",
            "line 7: refused 6 at place 0, a field, predicate form, predicate or special number: \
             expected a predicate that may stand with this instruction, found 0x3F000004",
        ),
        (
            "word 0x00010100\nword 1\n",
            "line 7: refused 6 at place 0, a field, predicate form, predicate or special number: \
             expected 0 in every field that this instruction doesn't use, found 0x00010100 0x00000001",
        ),
        (
            "NOP\nMOV r2, r0\n",
            "line 8: refused 7 at place 1, register number R or more: expected registers below 2, found MOV r2, r0",
        ),
        (
            "NOP\nLOOP\nENDIF\n",
            "line 9: refused 8 at place 2, stray ELSE, ENDIF, ENDLOOP, BREAK or CONTINUE: \
             expected an IF as the innermost open block, found ENDIF",
        ),
        (
            "NOP\nIF on p1\n",
            "line 8: refused 10 at place 1, block open at the end: \
             expected the end of the block that IF on p1 opens, found the code's end",
        ),
    ];
    for (lines, expected) in rules {
        assert_eq!(refused_code(lines), expected);
    }
    let deep = refused_code(&"LOOP\n".repeat(33));
    assert!(
        deep.starts_with("line 39: refused 9 at place 32, a 33rd open block: "),
        "{deep}"
    );
}

#[test]
fn a_refusal_of_a_state_says_what_does_not_fit() {
    let state = |place: u32, active: u32, p1: u32, depth: &str| {
        refusal(&format!(
            "{HEAD}code\nLOOP\nADD r1, r1, r1\nENDLOOP\nregister words\n16 of 0\nstate\nplace {place}\n\
             active {active}\nhalted 0\np1 {p1}\np2 0\np3 0\ndepth {depth}\n"
        ))
    };
    let start = "line 12: refused 11 at place 0, state doesn't fit: expected ";
    let found = [
        (
            state(2, 3, 0, "0"),
            "the place of an instruction or of the code's end, found 2",
        ),
        (
            state(1, 3, 0, "0"),
            "the blocks (part opener) 3 0, found none",
        ),
        (
            state(0, 3, 4, "0"),
            "launched lanes alone in every set, lanes 0x00000003, found also lanes 0x00000004",
        ),
        (
            state(0, 1, 0, "0"),
            "each launched lane in exactly one of active, halted, aside and again, \
             found lanes 0x00000002 in none or several",
        ),
        (
            state(1, 3, 0, "1\nblock 3 0 1 0 0 0"),
            "each block's entered lanes to be those left, active, and aside or again in and inside it, found others",
        ),
    ];
    for (said, expected) in found {
        assert_eq!(said, format!("{start}{expected}"));
    }
}
