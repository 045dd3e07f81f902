//! The time of a step, for the straightforward interpreter of this program, for one that decodes the code
//! before it runs, and for another program, on the same kernels.

pub mod decoded;
pub mod kernels;
pub mod program;

use std::fs;
use std::time::{Duration, Instant};

use crate::capture::Capture;
use crate::commands::{Done, say, write_file};
use crate::run::Answer;
use kernels::{KERNELS, Kernel, WIDTHS};
use program::Program;

/// How long one timing of the straightforward interpreter runs at least.
const LONG_ENOUGH: Duration = Duration::from_millis(10);
/// How often each is timed; the shortest times count.
const ROUNDS: usize = 60;
/// The steps of the run whose results are compared.
const COMPARED: u32 = 10_000;

/// Something that runs a capture.
type Interpreter = fn(&mut Capture) -> Answer;

/// The interpreters with their names.
const INTERPRETERS: [(&str, Interpreter); 2] = [
    ("straightforward", straightforward),
    ("pre-decoded", decoded::run),
];

fn straightforward(capture: &mut Capture) -> Answer {
    capture.run()
}

/// Compares the interpreters' results on each kernel and width, then prints nanoseconds per step.
pub fn bench() -> Done {
    compare_all(None)?;
    let [(simple, _), (decoded, _)] = INTERPRETERS;
    say(&heading(&["kernel", "W", simple, decoded]))?;
    for row in timed(None)? {
        let [_, simple, decoded] = row.per_step();
        say(&format!("{} {simple:.1} | {decoded:.1} |\n", row.start()))?;
    }
    Ok(())
}

/// The same with another program beside them, and the ratios of its times to theirs.
pub fn against(way: &str, words: &[&str]) -> Done {
    let program = Program::new(way, words)?;
    compare_all(Some(&program))?;
    let [(simple, _), (decoded, _)] = INTERPRETERS;
    let [one, other] = [simple, decoded].map(|name| format!("proved / {name}"));
    say(&heading(&[
        "kernel", "W", "proved", simple, decoded, &one, &other,
    ]))?;
    for row in timed(Some(&program))? {
        let [proved, simple, decoded] = row.per_step();
        let times = format!("{proved:.1} | {simple:.1} | {decoded:.1}");
        let (one, other) = (proved / simple, proved / decoded);
        say(&format!(
            "{} {times} | {one:.2} | {other:.2} |\n",
            row.start()
        ))?;
    }
    Ok(())
}

/// The machine, and the table's heading.
fn heading(columns: &[&str]) -> String {
    let rule = "---|".to_string() + &"---:|".repeat(columns.len() - 1);
    let columns = columns.join(" | ");
    format!(
        "Nanoseconds per step on {}.\n\n| {columns} |\n|{rule}\n",
        machine()
    )
}

/// The name of this machine's processor; its kind where it has none.
fn machine() -> String {
    let told = fs::read_to_string("/proc/cpuinfo").unwrap_or_default();
    let named = told.lines().find_map(|line| {
        let (name, value) = line.split_once(':')?;
        (name.trim() == "model name").then(|| value.trim().to_string())
    });
    named.unwrap_or(std::env::consts::ARCH.to_string())
}

/// An error where the interpreters, or the program, differ on some kernel and width.
fn compare_all(program: Option<&Program>) -> Done {
    for kernel in &KERNELS {
        for width in WIDTHS {
            let name = format!("{} at W {width}", kernel.name);
            let capture = kernel.capture(width, COMPARED)?;
            compare(&capture, &name)?;
            if let Some(program) = program {
                program.compare(&capture, &name)?;
            }
        }
    }
    Ok(())
}

/// An error where two interpreters differ on a capture.
fn compare(capture: &Capture, name: &str) -> Done {
    let results = INTERPRETERS.map(|(_, interpreter)| {
        let mut lent = capture.clone();
        let answer = interpreter(&mut lent);
        (answer, lent)
    });
    if results[0] != results[1] {
        return Err(format!("{name}: the interpreters differ"));
    }
    match results[0].0.steps {
        COMPARED => Ok(()),
        steps => Err(format!("{name}: stops after {steps} steps")),
    }
}

/// A kernel at a width, and the shortest times that were found for it.
struct Row {
    kernel: &'static str,
    steps: u32,
    /// The capture with a budget of so many steps, and with none.
    long: Capture,
    none: Capture,
    /// The program's time for each.
    program: [Duration; 2],
    /// The interpreters' times for the first.
    interpreters: [Duration; 2],
}

/// Every kernel at every width, timed in turn, so that other work of the machine falls on all alike.
fn timed(program: Option<&Program>) -> Result<Vec<Row>, String> {
    let mut rows = Vec::new();
    for kernel in &KERNELS {
        for width in WIDTHS {
            rows.push(Row::new(kernel, width)?);
        }
    }
    for _ in 0..ROUNDS {
        for row in &mut rows {
            row.time(program)?;
        }
    }
    Ok(rows)
}

/// How long an interpreter takes with a capture.
fn time(capture: &Capture, interpreter: Interpreter) -> Duration {
    let mut lent = capture.clone();
    let start = Instant::now();
    interpreter(&mut lent);
    start.elapsed()
}

impl Row {
    /// With so many steps that the straightforward interpreter takes long enough.
    fn new(kernel: &Kernel, width: u32) -> Result<Row, String> {
        let mut steps = 100_000;
        let mut long = kernel.capture(width, steps)?;
        while time(&long, straightforward) < LONG_ENOUGH {
            steps *= 2;
            long.settings.budget = steps;
        }
        Ok(Row {
            kernel: kernel.name,
            steps,
            long,
            none: kernel.capture(width, 0)?,
            program: [Duration::MAX; 2],
            interpreters: [Duration::MAX; 2],
        })
    }

    /// Times each once more.
    fn time(&mut self, program: Option<&Program>) -> Done {
        if let Some(program) = program {
            self.program[0] = program.time(&self.long)?.min(self.program[0]);
            self.program[1] = program.time(&self.none)?.min(self.program[1]);
        }
        for (best, (_, interpreter)) in self.interpreters.iter_mut().zip(INTERPRETERS) {
            *best = time(&self.long, interpreter).min(*best);
        }
        Ok(())
    }

    /// The nanoseconds of a step: of the program, whose start is taken off, and of the interpreters.
    fn per_step(&self) -> [f64; 3] {
        let [simple, decoded] = self.interpreters;
        let program = self.program[0].saturating_sub(self.program[1]);
        [program, simple, decoded].map(|time| time.as_nanos() as f64 / f64::from(self.steps))
    }

    /// The first columns of its line.
    fn start(&self) -> String {
        format!("| {} | {} |", self.kernel, self.long.settings.width)
    }
}

/// Writes each kernel's capture for each width into a folder, as NAME-WIDTH.cap, with this budget.
pub fn write_kernels(folder: &str, budget_text: &str) -> Done {
    let budget = crate::numerals::parse(budget_text)?;
    fs::create_dir_all(folder).map_err(|error| format!("{folder}: {error}"))?;
    for kernel in &KERNELS {
        for width in WIDTHS {
            let path = format!("{folder}/{}-{width}.cap", kernel.name);
            write_file(&path, &kernel.capture(width, budget)?.write())?;
        }
    }
    Ok(())
}
