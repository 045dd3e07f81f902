//! Another program on the same kernels: its results, and the time of its runs.

use std::fs::{self, File};
use std::path::PathBuf;
use std::process::{self, Command, Stdio};
use std::time::{Duration, Instant};

use crate::capture::Capture;
use crate::cases::Case;
use crate::cases::answer::answer;
use crate::cases::reached::Reached;
use crate::commands::{Done, read_file, write_file};
use crate::report;

/// How a program takes a capture.
#[derive(Clone, Copy, PartialEq, Eq)]
enum Way {
    /// PROGRAM CAPTURE OUT KEY, as `second replay` does: the report comes on standard output.
    Files,
    /// One case on standard input, as `second answers` does: its answer comes on standard output.
    Cases,
}

/// A program, and a folder for what it is given.
pub struct Program<'a> {
    way: Way,
    words: &'a [&'a str],
    folder: PathBuf,
}

impl<'a> Program<'a> {
    /// The program of these words, taking captures in the way that is named.
    pub fn new(way: &str, words: &'a [&'a str]) -> Result<Program<'a>, String> {
        let way = match way {
            "files" => Way::Files,
            "cases" => Way::Cases,
            _ => return Err(format!("expected files or cases, found '{way}'")),
        };
        let folder = std::env::temp_dir().join(format!("second-bench-{}", process::id()));
        fs::create_dir_all(&folder).map_err(|error| format!("{}: {error}", folder.display()))?;
        Ok(Program { way, words, folder })
    }

    fn path(&self, name: &str) -> String {
        self.folder.join(name).display().to_string()
    }

    fn wrong(&self, error: impl std::fmt::Display) -> String {
        format!("{}: {error}", self.words[0])
    }

    /// Puts down the capture as the program takes it.
    fn give(&self, capture: &Capture) -> Done {
        let case = || Case::Run {
            capture: capture.clone(),
            key_room: 0,
        };
        match self.way {
            Way::Files => write_file(&self.path("in"), &capture.write()),
            Way::Cases => write_file(&self.path("in"), &case().write()),
        }
    }

    /// The command that takes what was put down.
    fn command(&self) -> Result<Command, String> {
        let mut command = Command::new(self.words[0]);
        command.args(&self.words[1..]);
        let given = self.path("in");
        match self.way {
            Way::Files => command.args([given, self.path("out"), self.path("key")]),
            Way::Cases => command.stdin(File::open(given).map_err(|error| self.wrong(error))?),
        };
        Ok(command)
    }

    /// An error where the program's results on a capture are others than the second program's.
    pub fn compare(&self, capture: &Capture, name: &str) -> Done {
        self.give(capture)?;
        let output = self.command()?.output();
        let output = output.map_err(|error| self.wrong(error))?;
        let mut found = output.stdout;
        if self.way == Way::Files {
            found.extend(read_file(&self.path("out"))?);
        }
        match output.status.success() && found == self.expected(capture) {
            true => Ok(()),
            false => Err(self.wrong(format!("{name}: the results differ"))),
        }
    }

    /// The bytes of the second program's results.
    fn expected(&self, capture: &Capture) -> Vec<u8> {
        let mut capture = capture.clone();
        if self.way == Way::Cases {
            let key_room = 0;
            return answer(&Case::Run { capture, key_room }, &mut Reached::default()).write();
        }
        let found = capture.run();
        let mut bytes = report::report(&capture, &found).into_bytes();
        capture.state = Some(found.state);
        bytes.extend(capture.write());
        bytes
    }

    /// How long the program takes with a capture, from its start to its end.
    pub fn time(&self, capture: &Capture) -> Result<Duration, String> {
        self.give(capture)?;
        let mut command = self.command()?;
        command.stdout(Stdio::null());
        let start = Instant::now();
        let status = command.status().map_err(|error| self.wrong(error))?;
        let passed = start.elapsed();
        match status.success() {
            true => Ok(passed),
            false => Err(self.wrong(status)),
        }
    }
}

impl Drop for Program<'_> {
    fn drop(&mut self) {
        let _ = fs::remove_dir_all(&self.folder);
    }
}
