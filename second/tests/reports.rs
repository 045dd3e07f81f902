//! The line of a report that says the instruction.

use second::capture::Capture;
use second::report;
use second::text;

/// A launch of two lanes with two registers, and what its report says of the instruction.
fn told(code: &str, budget: u32) -> Option<String> {
    let mut capture = Capture::read(&launch(code, budget).write()).expect("a capture");
    let answer = capture.run();
    let report = report::report(&capture, &answer);
    let lines: Vec<&str> = report.lines().collect();
    let found = lines
        .iter()
        .position(|line| line.starts_with("instruction "))?;
    assert_eq!(found, 3, "after outcome, steps and place: {report}");
    assert!(lines[2].starts_with("place "));
    Some(lines[found]["instruction ".len()..].to_string())
}

fn launch(code: &str, budget: u32) -> Capture {
    let text = format!(
        "kernel 1\nwidth 8\nregisters 2\nlanes 2\nbudget {budget}\ncode\n{code}\nregister words\n16 of 0\n"
    );
    text::read(&text).expect("a capture").capture
}

#[test]
fn the_instruction_at_the_place_is_told() {
    let text = |code, budget| told(code, budget).unwrap_or_default();
    assert_eq!(
        text("NOP\nDIV r0, r1, r0 on not p1\n", 9),
        "DIV r0, r1, r0 on not p1",
        "a fault"
    );
    assert_eq!(
        text("NOP\nMOV_IMM r1, -1\n", 1),
        "MOV_IMM r1, 0xFFFFFFFF",
        "out of budget"
    );
    assert_eq!(
        text("HALT\nNOP\n", 9),
        "NOP",
        "every lane has halted before the code's end"
    );
}

#[test]
fn at_the_end_of_the_code_none_is_told() {
    assert_eq!(told("NOP\n", 9), None);
    assert_eq!(told("", 0), None);
}

#[test]
fn a_refusal_tells_the_instruction_at_its_place() {
    let text = |code: &str| told(code, 9).unwrap_or_default();
    assert_eq!(text("NOP\nMOV r0, r2\n"), "MOV r0, r2", "7");
    assert_eq!(text("NOP\nENDIF\n"), "ENDIF", "8");
    assert_eq!(
        text(&format!("{}IF on p3\n", "LOOP\n".repeat(32))),
        "IF on p3",
        "9"
    );
    assert_eq!(text("NOP\nLOOP\nIF on p2\nENDIF\n"), "LOOP", "10");
}

#[test]
fn other_refusals_tell_none() {
    assert_eq!(told("NOP\nword 0x3B000000\n", 9), None, "4");
    assert_eq!(told("NOP\nword 0x00010100\n", 9), None, "5");
    assert_eq!(told("NOP\nword 0x3F000004\n", 9), None, "6");
    assert_eq!(told("NOP\n", 1_000_000_001), None, "1");
    let mut handed_in = launch("NOP\n", 9);
    handed_in.state = Some(Default::default());
    let answer = handed_in.run();
    let report = report::report(&handed_in, &answer);
    assert!(report.starts_with("outcome refused 11 place 0\n") && !report.contains("instruction"));
}
