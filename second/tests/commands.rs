//! The program as it is called.

use std::fs;
use std::ops::Deref;
use std::path::{Path, PathBuf};
use std::process::{Command, Output};

fn second(arguments: &[&str]) -> Output {
    Command::new(env!("CARGO_BIN_EXE_second"))
        .args(arguments)
        .output()
        .expect("the program starts")
}

fn sample(name: &str) -> String {
    let folder = Path::new(env!("CARGO_MANIFEST_DIR")).join("../captures");
    folder.join(name).display().to_string()
}

/// An empty folder of this test's own, which goes with the test: `rt ci` refuses a checkout with links in it, and some tests make one.
struct Folder(PathBuf);

impl Deref for Folder {
    type Target = Path;

    fn deref(&self) -> &Path {
        &self.0
    }
}

impl Drop for Folder {
    fn drop(&mut self) {
        let _ = fs::remove_dir_all(&self.0);
    }
}

fn folder(test: &str) -> Folder {
    let path = Path::new(env!("CARGO_TARGET_TMPDIR")).join(test);
    let _ = fs::remove_dir_all(&path);
    fs::create_dir_all(&path).expect("a folder");
    Folder(path)
}

#[test]
fn replay_prints_the_report_and_writes_out_and_key() {
    let folder = folder("replay");
    let [out, key] = ["out", "key"].map(|name| folder.join(name).display().to_string());
    let done = second(&["replay", &sample("t14.cap"), &out, &key]);
    assert!(done.status.success());
    let report = fs::read(sample("t14.report")).expect("the report");
    assert_eq!(done.stdout, report);
    assert_eq!(fs::read(&key).expect("the key").len(), 56);
    let again = second(&["replay", &out]);
    let again = String::from_utf8(again.stdout).expect("text");
    assert!(again.starts_with("outcome fault\nsteps 0\nplace 7\ninstruction DIV r1, r1, r0\n"));
}

#[test]
fn a_refused_capture_writes_neither() {
    let folder = folder("refused");
    let [text, file, out, key] =
        ["text", "file", "out", "key"].map(|name| folder.join(name).display().to_string());
    let shown = second(&["show", &sample("t14.cap")]).stdout;
    let shown = String::from_utf8(shown).expect("text");
    fs::write(&text, shown.replace("width 8", "width 9")).expect("written");
    assert!(!second(&["pack", &text, &file]).status.success());
    assert!(!Path::new(&file).exists());
    assert!(second(&["pack", "--any", &text, &file]).status.success());
    let done = second(&["replay", &file, &out, &key]);
    assert!(done.status.success());
    assert!(
        done.stdout
            .starts_with(b"outcome refused 1 place 0\nsteps 0\n")
    );
    assert!(!Path::new(&out).exists() && !Path::new(&key).exists());
}

#[test]
fn a_run_that_ends_writes_no_key() {
    let folder = folder("ended");
    let [out, key] = ["out", "key"].map(|name| folder.join(name).display().to_string());
    assert!(
        second(&["replay", &sample("t12.cap"), &out, &key])
            .status
            .success()
    );
    assert!(Path::new(&out).exists() && !Path::new(&key).exists());
}

#[test]
fn capture_out_and_key_are_three_files() {
    let folder = folder("three");
    let [capture, link, out] =
        ["capture", "link", "out"].map(|name| folder.join(name).display().to_string());
    fs::copy(sample("t14.cap"), &capture).expect("copied");
    std::os::unix::fs::symlink(&capture, &link).expect("a link");
    for files in [
        [&capture, &out],
        [&link, &out],
        [&out, &capture],
        [&out, &out],
    ] {
        let done = second(&["replay", &capture, files[0], files[1]]);
        assert!(!done.status.success() && done.stdout.is_empty());
        let said = String::from_utf8(done.stderr).expect("text");
        assert!(said.ends_with("found one of them twice\n"), "{said}");
        assert!(!Path::new(&out).exists());
    }
    let as_it_was = fs::read(sample("t14.cap")).expect("the sample");
    assert_eq!(fs::read(&capture).expect("the capture"), as_it_was);
}

#[test]
fn errors_are_one_line_and_leave_an_earlier_file() {
    let folder = folder("errors");
    let [bad, out] = ["bad", "out"].map(|name| folder.join(name).display().to_string());
    fs::write(&bad, [0x57, 0x43, 0x41, 0x50, 2, 0, 0, 0]).expect("written");
    fs::write(&out, "as it was").expect("written");
    let done = second(&["replay", &bad, &out]);
    assert!(!done.status.success() && done.stdout.is_empty());
    let error = String::from_utf8(done.stderr).expect("text");
    assert!(error.ends_with("expected edition 1 at byte 4\n"));
    assert_eq!(error.lines().count(), 1);
    assert_eq!(fs::read(&out).expect("the file"), b"as it was");
}

/// What packing says on standard error, and whether it is done.
fn packing(arguments: &[&str]) -> (bool, String) {
    let done = second(&[&["pack"], arguments].concat());
    let said = String::from_utf8(done.stderr).expect("text");
    (done.status.success(), said)
}

#[test]
fn doubtful_numbers_are_warned_about_with_their_line() {
    let folder = folder("doubtful");
    let [text, file] = ["text", "file"].map(|name| folder.join(name).display().to_string());
    let shown = String::from_utf8(second(&["show", &sample("t14.cap")]).stdout).expect("text");
    let doubtful = shown.replace(
        "device words\n",
        "device words\n00000010 1 00000011\n5\n12345678\n",
    );
    fs::write(&text, doubtful).expect("written");
    let (done, said) = packing(&[&text, &file]);
    assert!(done);
    let lines: Vec<&str> = said.lines().collect();
    assert_eq!(lines.len(), 2, "{said}");
    let first = (1..)
        .zip(
            fs::read_to_string(&text)
                .expect("text")
                .lines()
                .map(str::to_string),
        )
        .find(|(_, line)| line.starts_with("00000010"))
        .expect("the line")
        .0;
    assert_eq!(
        lines[0],
        format!(
            "second: {text}: line {first}: warning: '00000010' is read as hexadecimal, 16, and 1 more \
                 on this line: 0x00000010 says so"
        )
    );
    assert!(
        lines[1].contains(&format!("line {}: warning: '12345678'", first + 2)),
        "{said}"
    );
    fs::write(
        &text,
        shown.replace(
            "device words\n",
            &format!("device words\n{}", "00000010\n".repeat(50)),
        ),
    )
    .expect("written");
    let (done, said) = packing(&[&text, &file]);
    assert!(done);
    assert_eq!(said.lines().count(), 21, "{said}");
    assert!(
        said.ends_with("on 30 more lines, from this one on\n"),
        "{said}"
    );
}

#[test]
fn what_is_shown_packs_to_the_same_file_without_a_word() {
    let folder = folder("shown");
    let [text, file] = ["text", "file"].map(|name| folder.join(name).display().to_string());
    for name in ["t14.cap", "reduction.cap", "collatz-stopped.cap"] {
        fs::write(&text, second(&["show", &sample(name)]).stdout).expect("written");
        assert_eq!(packing(&[&text, &file]), (true, String::new()));
        assert_eq!(
            fs::read(&file).expect("packed"),
            fs::read(sample(name)).expect("the sample")
        );
    }
}

#[test]
fn a_text_is_never_overwritten() {
    let folder = folder("source");
    let [text, link, hard] =
        ["text", "link", "hard"].map(|name| folder.join(name).display().to_string());
    let shown = second(&["show", &sample("t14.cap")]).stdout;
    fs::write(&text, &shown).expect("written");
    std::os::unix::fs::symlink(&text, &link).expect("a link");
    fs::hard_link(&text, &hard).expect("a hard link");
    let roundabout = folder
        .join("..")
        .join("source")
        .join("text")
        .display()
        .to_string();
    for target in [&text, &link, &hard, &roundabout] {
        let (done, said) = packing(&[&text, target]);
        assert!(!done && said.ends_with("found the text itself\n"), "{said}");
        assert!(said.contains(target.as_str()));
    }
    assert_eq!(fs::read(&text).expect("the text"), shown);
    assert_eq!(fs::read_dir(&*folder).expect("the folder").count(), 3);
}

#[test]
fn only_a_regular_file_that_may_be_written_is_replaced() {
    use std::os::unix::fs::PermissionsExt;
    let folder = folder("replaced");
    let name = |name: &str| folder.join(name).display().to_string();
    fs::write(name("text"), second(&["show", &sample("t14.cap")]).stdout).expect("written");
    fs::write(name("other"), "as it was").expect("written");
    fs::write(name("kept"), "as it was").expect("written");
    fs::create_dir(name("folder")).expect("a folder");
    std::os::unix::fs::symlink(name("other"), name("link")).expect("a link");
    fs::set_permissions(name("kept"), fs::Permissions::from_mode(0o444)).expect("read-only");
    for target in ["folder", "link", "kept"] {
        let (done, said) = packing(&[&name("text"), &name(target)]);
        assert!(!done && said.contains(&name(target)), "{said}");
        assert_eq!(said.lines().count(), 1);
    }
    let (done, said) = packing(&[&name("text"), &name("missing/file")]);
    assert!(!done && said.contains(&name("missing/file")), "{said}");
    assert_eq!(fs::read(name("other")).expect("the file"), b"as it was");
    assert_eq!(fs::read(name("kept")).expect("the file"), b"as it was");
    fs::set_permissions(name("other"), fs::Permissions::from_mode(0o640)).expect("a mode");
    assert_eq!(
        packing(&[&name("text"), &name("other")]),
        (true, String::new())
    );
    let mode = fs::metadata(name("other"))
        .expect("the file")
        .permissions()
        .mode();
    assert_eq!(mode & 0o777, 0o640);
    assert_eq!(
        fs::read_dir(&*folder).expect("the folder").count(),
        5,
        "nothing is left beside"
    );
}

#[test]
fn the_program_agrees_with_itself() {
    let program = env!("CARGO_BIN_EXE_second");
    let done = second(&["against", "7", "2500", program, "answers"]);
    let said = String::from_utf8(done.stdout).expect("text");
    assert!(done.status.success(), "{said}");
    assert!(said.ends_with("seed 7: 2500 cases agree\n"));
}
