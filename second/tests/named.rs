//! The runs that have a name: what was written by hand for each is what the second program answers.

mod common;

use std::collections::BTreeSet;

use common::hex;
use second::bytes;
use second::cases::named::{self, Named, stopped};
use second::cases::{Case, format};
use second::report;
use second::run::Outcome;

#[test]
fn each_answers_what_was_written_by_hand() {
    for named in named::all() {
        let name = &named.name;
        let mut capture = named.capture.clone();
        let answer = capture.run();
        assert_eq!(answer, named.answer, "{name}");
        assert_eq!(capture.registers, named.registers, "{name}: registers");
        assert_eq!(capture.device, named.device, "{name}: device memory");
        assert_eq!(capture.local, named.local, "{name}: local memory");
        let body = report::body(capture.kernel, &answer);
        let numbers = body.map(|body| bytes::to_numbers(&body));
        assert_eq!(numbers, named.body, "{name}: key");
    }
}

#[test]
fn each_has_a_name_of_its_own() {
    let all = named::all();
    let names: BTreeSet<&String> = all.iter().map(|named| &named.name).collect();
    assert_eq!(names.len(), all.len());
}

#[test]
fn the_marked_ones_are_the_page_s_words() {
    let code = |mark: &str| {
        let all = named::all();
        let found = all.iter().find(|named| named.name.starts_with(mark));
        found.expect("a case of this mark").capture.code.clone()
    };
    assert_eq!(
        code("T12"),
        hex(
            "F2000000 F1010000 00000002 2A010000 01000000 3F000001 F1010000 00000007
             3F000010 3F000090 3F000020 00010100 00000000"
        )
    );
    assert_eq!(code("T13"), hex("F2000000 03010000 00000000"));
    assert_eq!(
        code("T14"),
        hex(
            "F2000000 F1010000 00000001 28010000 01000000 3F000030 3F000041
             03010100 00000000 3F000060"
        )
    );
}

#[test]
fn every_refusal_and_fault_kind_has_one() {
    let mut found = BTreeSet::new();
    for named in named::all() {
        match named.answer.outcome {
            Outcome::Ended => found.insert("ended".to_string()),
            Outcome::OutOfBudget => found.insert("out of budget".to_string()),
            Outcome::Refused(refusal) => found.insert(format!("refusal {}", refusal.number)),
            Outcome::Fault(lanes) => {
                let kinds: Vec<_> = (1..).zip(lanes).filter(|(_, l)| *l != 0).collect();
                let kinds: Vec<u32> = kinds.iter().map(|(kind, _)| *kind).collect();
                found.insert(format!("kinds {kinds:?}"))
            }
        };
    }
    let mut expected: BTreeSet<String> = (1..=11).map(|n| format!("refusal {n}")).collect();
    let kinds = [
        "1", "2", "3", "4", "5", "1, 2", "1, 3", "6", "1, 6", "2, 6", "3, 6", "1, 2, 6", "1, 3, 6",
    ];
    expected.extend(kinds.map(|kinds| format!("kinds [{kinds}]")));
    expected.extend(["ended", "out of budget"].map(String::from));
    assert_eq!(found, expected);
}

#[test]
fn they_are_read_as_they_were_written() {
    let made: Vec<Case> = named::all().iter().map(Named::case).collect();
    let file: Vec<u8> = made.iter().flat_map(Case::write).collect();
    assert_eq!(format::read_all(&file), Ok(made));
}

#[test]
fn stopped_after_any_step_it_ends_as_the_unstopped_run() {
    let cases = stopped::cases();
    let mut whole = cases[0].capture.clone();
    whole.settings.budget = 1000;
    let expected = whole.run();
    for pair in cases.chunks(2) {
        let [stopped, gone_on] = pair else {
            panic!("a launch and a resumed run")
        };
        let mut capture = stopped.capture.clone();
        let first = capture.run();
        capture.settings.budget = 1000;
        capture.state = Some(first.state);
        assert_eq!(capture, gone_on.capture, "{}", gone_on.name);
        let rest = capture.run();
        assert_eq!(rest.outcome, expected.outcome);
        assert_eq!(first.steps + rest.steps, expected.steps);
        assert_eq!(rest.state, expected.state);
        capture.state = None;
        capture.settings = whole.settings;
        assert_eq!(capture, whole);
    }
}
