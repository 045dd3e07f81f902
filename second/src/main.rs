//! The second program's commands.

use std::process::ExitCode;

use second::bench;
use second::cases::commands as cases;
use second::commands;

const HELP: &str = "\
second pack [--any] TEXT FILE    packs a readable capture into a file; --any: one that is refused, too
second show FILE                 prints a capture file as readable text
second replay FILE [OUT] [KEY]   replays a capture: a report, the end state, a fault's key
second cases SEED COUNT          writes random cases; SEED is a number or new
second cases named               writes the runs that have a name
second cases stored              writes those, then 450 random cases of seed 45
second names                     prints the numbers and names of the named runs
second answers                   answers the cases on standard input
second compare CASES ANSWERS     compares another program's answers with its own
second reached CASES             prints how often cases reach each thing; fails where never
second case CASES NUMBER         prints one case and its answer as text
second extract CASES NUMBER FILE writes the capture of a run among the cases
second against SEED COUNT PROGRAM [ARGUMENT..]
                                 hands random cases to a program and compares its answers
second bench                     prints the time per step of two interpreters
second bench files PROGRAM [ARGUMENT..]
                                 and of a program that takes CAPTURE OUT KEY, as second replay does
second bench cases PROGRAM [ARGUMENT..]
                                 and of a program that answers cases, as second answers does
second kernels FOLDER BUDGET     writes the captures of the timed kernels
";

fn main() -> ExitCode {
    let arguments: Vec<String> = std::env::args().skip(1).collect();
    let given: Vec<&str> = arguments.iter().map(String::as_str).collect();
    let done = match given[..] {
        ["pack", text, file] => commands::pack(text, file, false),
        ["pack", "--any", text, file] => commands::pack(text, file, true),
        ["show", file] => commands::show(file),
        ["replay", file] => commands::replay(file, None, None),
        ["replay", file, out] => commands::replay(file, Some(out), None),
        ["replay", file, out, key] => commands::replay(file, Some(out), Some(key)),
        ["cases", seed, count] => cases::cases(seed, count),
        ["cases", "named"] => cases::named(),
        ["cases", "stored"] => cases::stored(),
        ["names"] => cases::names(),
        ["answers"] => cases::answers(),
        ["compare", cases, answers] => cases::compare(cases, answers),
        ["reached", cases] => cases::reached(cases),
        ["case", cases, number] => cases::case(cases, number),
        ["extract", cases, number, file] => cases::extract(cases, number, file),
        ["against", seed, count, ref program @ ..] if !program.is_empty() => {
            cases::against(seed, count, program)
        }
        ["bench"] => bench::bench(),
        ["bench", way, ref program @ ..] if !program.is_empty() => bench::against(way, program),
        ["kernels", folder, budget] => bench::write_kernels(folder, budget),
        ["help"] => commands::say(HELP),
        _ => Err(format!("expected one of\n{HELP}").trim_end().to_string()),
    };
    match done {
        Ok(()) => ExitCode::SUCCESS,
        Err(error) => {
            eprintln!("second: {error}");
            ExitCode::FAILURE
        }
    }
}
