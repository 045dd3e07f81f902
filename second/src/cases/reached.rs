//! How often the cases reach each instruction, outcome, fault kind and refusal.

use std::collections::BTreeMap;

use super::waves;
use crate::blocks::{self, DEEPEST, LOOP};
use crate::capture::Capture;
use crate::operations::Operation;
use crate::refusal::Refusal;
use crate::run::{Answer, Outcome, Settings};
use crate::state::{Lanes, Misfit, State, first_lanes};
use crate::step::{self, Faults};
use crate::words::{self, Instruction, Wrong};

/// The numbers 0 to 16 as labels; 0 stands for what isn't refused.
const NUMBERS: [&str; 17] = [
    "fine", "1", "2", "3", "4", "5", "6", "7", "8", "9", "10", "11", "12", "13", "14", "15", "16",
];

/// The groups that have a label for each refusal number.
const REFUSALS: [(&str, &[usize]); 11] = [
    ("an instruction read", &[0, 4, 5, 6]),
    ("an instruction written", &[0, 12, 13]),
    ("a launch", &[0, 1, 2, 3, 4, 5, 6, 7, 8, 9, 10]),
    ("a resumed run", &[0, 1, 2, 3, 4, 5, 6, 7, 8, 9, 10, 11]),
    ("a run's key", &[0, 13, 14]),
    ("a key written", &[0, 13, 14]),
    ("a day file made", &[0, 13, 14, 15]),
    ("a day file read", &[0, 14, 15]),
    ("a record found", &[0, 14, 15, 16]),
    ("a listing", &[0, 14, 15]),
    ("an instruction's text", &[0, 12, 13]),
];

/// The lists of kinds that a fault has.
const FAULT_KINDS: [&str; 13] = [
    "1", "2", "3", "4", "5", "1 2", "1 3", "6", "1 6", "2 6", "3 6", "1 2 6", "1 3 6",
];

/// The groups that have labels of their own.
const LABELS: [(&str, &[&str]); 10] = [
    ("a launch answers", &["ended", "out of budget", "fault"]),
    (
        "a resumed run answers",
        &["ended", "out of budget", "fault"],
    ),
    ("fault kinds", &FAULT_KINDS),
    ("width", &["8", "16", "32"]),
    (
        "refusal 6",
        &[
            "field",
            "predicate form",
            "predicate number",
            "special number",
        ],
    ),
    (
        "refusal 8",
        &[
            "ELSE outside",
            "ELSE after ELSE",
            "ELSE in a loop",
            "ENDIF outside",
            "ENDIF in a loop",
            "ENDLOOP outside",
            "ENDLOOP in an IF",
            "BREAK",
            "CONTINUE",
        ],
    ),
    (
        "refusal 11",
        &[
            "depth", "place", "blocks", "stranger", "again", "lane", "entered",
        ],
    ),
    (
        "a step",
        &[
            "no lane executes",
            "lanes part",
            "a loop goes round",
            "a loop closes",
            "lanes leave an inner block",
            "depth 32",
        ],
    ),
    ("a wave operation", &waves::LABELS),
    (
        "a run",
        &[
            "empty code",
            "budget 0",
            "no memory",
            "all halted in a block",
            "on from a block",
        ],
    ),
];

/// The groups of wave operations that some launched lanes execute and some don't: on every lane, on a predicate,
/// and on one negated.
const IN_SOME_LANES: [&str; 3] = [
    "in some lanes",
    "in some lanes, on a predicate",
    "in some lanes, on a predicate negated",
];

/// The group of a wave operation in some lanes.
fn in_some_lanes(instruction: &Instruction) -> &'static str {
    match (instruction.predicate, instruction.negate) {
        (0, _) => IN_SOME_LANES[0],
        (_, false) => IN_SOME_LANES[1],
        (_, true) => IN_SOME_LANES[2],
    }
}

/// Counts by group and label.
#[derive(Default)]
pub struct Reached {
    counts: BTreeMap<(&'static str, &'static str), u64>,
}

impl Reached {
    fn count(&mut self, group: &'static str, label: &'static str) {
        *self.counts.entry((group, label)).or_default() += 1;
    }

    /// Counts a refusal by its number; 0 is none.
    pub fn refusal(&mut self, group: &'static str, number: u32) {
        self.count(group, NUMBERS[number as usize]);
    }

    /// Counts what refusal 6 found in these words.
    pub fn wrong_field(&mut self, words: &[u32]) {
        let label = match words::wrong_field(words) {
            Some(Wrong::Field) => "field",
            Some(Wrong::PredicateForm) => "predicate form",
            Some(Wrong::PredicateNumber) => "predicate number",
            Some(Wrong::SpecialNumber) => "special number",
            None => return,
        };
        self.count("refusal 6", label);
    }

    /// Counts the step that a state is about to make.
    pub fn step(&mut self, settings: Settings, code: &[u32], state: &State, registers: &[u32]) {
        let instruction = words::instruction_at(code, state.place as usize);
        let executing = step::executing_lanes(&instruction, state);
        if executing == 0 {
            self.count("a step", "no lane executes");
        } else {
            self.count("instruction", instruction.operation.name());
            match (instruction.predicate, instruction.negate) {
                (0, _) => (),
                (_, false) => self.count("on a predicate", instruction.operation.name()),
                (_, true) => self.count("on a predicate negated", instruction.operation.name()),
            }
        }
        if instruction.operation.form().is_wave() {
            for label in waves::met(&instruction, executing, settings.width, registers) {
                self.count("a wave operation", label);
            }
            if executing != 0 && executing != first_lanes(settings.lanes) {
                self.count(in_some_lanes(&instruction), instruction.operation.name());
            }
        }
        self.control(instruction.operation, executing, state);
    }

    /// Counts what a control instruction is about to do.
    fn control(&mut self, operation: Operation, executing: Lanes, state: &State) {
        let innermost = state.blocks.last();
        match (operation, innermost) {
            (Operation::If, _) if executing != 0 && executing != state.active => {
                self.count("a step", "lanes part");
            }
            (Operation::Endloop, Some(block)) if state.active | block.again != 0 => {
                self.count("a step", "a loop goes round");
            }
            (Operation::Endloop, _) => self.count("a step", "a loop closes"),
            (Operation::Break | Operation::Continue, Some(block))
                if executing != 0 && block.part != LOOP =>
            {
                self.count("a step", "lanes leave an inner block");
            }
            _ => (),
        }
        if state.blocks.len() == DEEPEST {
            self.count("a step", "depth 32");
        }
    }

    /// Counts what a run was given and what it answered.
    pub fn run(&mut self, capture: &Capture, answer: &Answer) {
        let resumed = capture.state.is_some();
        let (group, answers) = match resumed {
            false => ("a launch", "a launch answers"),
            true => ("a resumed run", "a resumed run answers"),
        };
        match answer.outcome {
            Outcome::Refused(refusal) => {
                self.refusal(group, refusal.number);
                self.stray(capture, refusal);
                return self.misfit(capture, refusal.number);
            }
            Outcome::Ended => self.count(answers, "ended"),
            Outcome::OutOfBudget => self.count(answers, "out of budget"),
            Outcome::Fault(faults) => {
                self.count(answers, "fault");
                self.kinds(faults);
            }
        }
        self.refusal(group, 0);
        self.edges(capture, answer);
    }

    /// Counts what stood where it can't.
    fn stray(&mut self, capture: &Capture, refusal: Refusal) {
        if refusal.number != 8 {
            return;
        }
        let place = refusal.place as usize;
        let operation = words::instruction_at(&capture.code, place).operation;
        let open = blocks::open_at(&capture.code, refusal.place).unwrap_or_default();
        let part = open.last().map_or(0, |block| block.part);
        let label = match (operation, part) {
            (Operation::Else, 0) => "ELSE outside",
            (Operation::Else, LOOP) => "ELSE in a loop",
            (Operation::Else, _) => "ELSE after ELSE",
            (Operation::Endif, 0) => "ENDIF outside",
            (Operation::Endif, _) => "ENDIF in a loop",
            (Operation::Endloop, 0) => "ENDLOOP outside",
            (Operation::Endloop, _) => "ENDLOOP in an IF",
            (Operation::Break, _) => "BREAK",
            _ => "CONTINUE",
        };
        self.count("refusal 8", label);
    }

    /// Counts why a state was refused.
    fn misfit(&mut self, capture: &Capture, number: u32) {
        let state = capture.state.as_ref().filter(|_| number == 11);
        let misfit = state.and_then(|s| s.misfit(&capture.code, capture.settings.lanes));
        if let Some(misfit) = misfit {
            let label = match misfit {
                Misfit::Depth => "depth",
                Misfit::Place => "place",
                Misfit::Blocks => "blocks",
                Misfit::Stranger => "stranger",
                Misfit::Again => "again",
                Misfit::Lane => "lane",
                Misfit::Entered => "entered",
            };
            self.count("refusal 11", label);
        }
    }

    /// Counts the list of a fault's kinds.
    fn kinds(&mut self, faults: Faults) {
        let found = (1..).zip(faults).filter(|(_, lanes)| *lanes != 0);
        let kinds: Vec<String> = found.map(|(kind, _): (u32, _)| kind.to_string()).collect();
        let label = FAULT_KINDS.iter().find(|label| **label == kinds.join(" "));
        self.count("fault kinds", label.expect("kinds that come together"));
    }

    /// Counts the page's edges of a run that wasn't refused.
    fn edges(&mut self, capture: &Capture, answer: &Answer) {
        let width = match capture.settings.width {
            8 => "8",
            16 => "16",
            _ => "32",
        };
        self.count("width", width);
        if capture.code.is_empty() {
            self.count("a run", "empty code");
        }
        if capture.settings.budget == 0 {
            self.count("a run", "budget 0");
        }
        if capture.device.is_empty() && capture.local.is_empty() {
            self.count("a run", "no memory");
        }
        if answer.outcome == Outcome::Ended && !answer.state.blocks.is_empty() {
            self.count("a run", "all halted in a block");
        }
        if capture.state.as_ref().is_some_and(|s| !s.blocks.is_empty()) {
            self.count("a run", "on from a block");
        }
    }

    /// Counts a listing by what it prints.
    pub fn listing(&mut self, text: &str) {
        match text {
            "too long\n" => self.count("a listing", "too long"),
            "refused 14\n" => self.refusal("a listing", 14),
            "refused 15\n" => self.refusal("a listing", 15),
            _ => self.refusal("a listing", 0),
        }
    }

    /// Counts the text of an instruction by its operation, or its refusal.
    pub fn text(&mut self, operation: Operation, refusal: u32) {
        self.refusal("an instruction's text", refusal);
        if refusal == 0 {
            self.count("text of", operation.name());
        }
    }

    /// Everything that has to be reached.
    fn expected() -> Vec<(&'static str, &'static str)> {
        let mut all = vec![("a listing", "too long")];
        for operation in Operation::ALL {
            all.push(("instruction", operation.name()));
            all.push(("text of", operation.name()));
            if words::takes_predicate(*operation) {
                all.push(("on a predicate", operation.name()));
                all.push(("on a predicate negated", operation.name()));
            }
            if operation.form().is_wave() {
                all.extend(IN_SOME_LANES.map(|group| (group, operation.name())));
            }
        }
        for (group, numbers) in REFUSALS {
            all.extend(numbers.iter().map(|number| (group, NUMBERS[*number])));
        }
        for (group, labels) in LABELS {
            all.extend(labels.iter().map(|label| (group, *label)));
        }
        all
    }

    /// The counts, one line for each group.
    pub fn table(&self) -> String {
        let mut lines: BTreeMap<&str, String> = BTreeMap::new();
        for (group, label) in Self::expected() {
            let count = self.counts.get(&(group, label)).unwrap_or(&0);
            let line = lines.entry(group).or_insert(format!("{group}:"));
            *line += &format!(" {label} {count},");
        }
        let lines = lines.values().map(|line| line.trim_end_matches(','));
        lines.collect::<Vec<_>>().join("\n") + "\n"
    }

    /// An error that names what was never reached.
    pub fn check(&self) -> Result<(), String> {
        let never: Vec<String> = Self::expected()
            .into_iter()
            .filter(|key| !self.counts.contains_key(key))
            .map(|(group, label)| format!("{group} {label}"))
            .collect();
        match never.is_empty() {
            true => Ok(()),
            false => Err(format!("never reached: {}", never.join(", "))),
        }
    }
}
