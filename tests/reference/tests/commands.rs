//! The commands, as they are run.

use std::fs;
use std::io::Write;
use std::path::{Path, PathBuf};
use std::process::{Command, Output, Stdio};

const REFERENCE: &str = env!("CARGO_BIN_EXE_reference");

fn run(arguments: &[&str], input: &[u8]) -> Output {
    let mut child = Command::new(REFERENCE)
        .args(arguments)
        .stdin(Stdio::piped())
        .stdout(Stdio::piped())
        .stderr(Stdio::piped())
        .spawn()
        .unwrap();
    let mut pipe = child.stdin.take().unwrap();
    let input = input.to_vec();
    let feeder = std::thread::spawn(move || drop(pipe.write_all(&input)));
    let output = child.wait_with_output().unwrap();
    feeder.join().unwrap();
    output
}

fn status(arguments: &[&str]) -> i32 {
    run(arguments, &[]).status.code().unwrap()
}

fn folder(name: &str) -> PathBuf {
    Path::new(env!("CARGO_TARGET_TMPDIR")).join(name)
}

#[test]
fn write_and_same() {
    let folder = folder("stored");
    let name = folder.to_str().unwrap();
    assert_eq!(status(&["write", name]), 0);
    assert_eq!(status(&["same", name]), 0);
    let stream = fs::read(folder.join("cases")).unwrap();
    let lines = fs::read(folder.join("lines")).unwrap();
    assert_eq!(run(&["outcomes"], &stream).stdout, lines);
    fs::write(folder.join("lines"), &lines[1..]).unwrap();
    assert_eq!(status(&["same", name]), 1);
}

#[test]
fn a_program_that_agrees() {
    assert_eq!(
        status(&["try-cases", "9", "7000", REFERENCE, "outcomes"]),
        0
    );
    assert_eq!(status(&["try-sheets", "9", "64", REFERENCE, "listing"]), 0);
}

#[test]
fn programs_that_do_not_agree() {
    for program in ["true", "false", "cat", "no-such-program"] {
        assert_eq!(status(&["try-cases", "9", "7000", program]), 1, "{program}");
        assert_eq!(status(&["try-sheets", "9", "16", program]), 1, "{program}");
    }
    for script in [
        "\"$0\" outcomes | sed 1d",
        "\"$0\" outcomes; echo more",
        "\"$0\" outcomes; exit 1",
        "\"$0\" outcomes | sed '100s/0/1/'",
        "\"$0\" outcomes | head -c -1",
    ] {
        let arguments = ["try-cases", "9", "200", "sh", "-c", script, REFERENCE];
        assert_eq!(status(&arguments), 1, "{script}");
    }
}

/// A case that is shown can be packed to bytes again and comes to the line that is shown as expected.
#[test]
fn a_shown_case_can_be_run_again() {
    let shown = run(&["try-cases", "9", "50", "true"], &[]).stdout;
    let shown = String::from_utf8(shown).unwrap();
    let mut lines = shown.lines();
    let case = lines.next().unwrap().strip_prefix("case      ").unwrap();
    let expected = lines.next().unwrap().strip_prefix("expected  ").unwrap();
    let bytes: Vec<u8> = (0..case.len())
        .step_by(2)
        .map(|at| u8::from_str_radix(&case[at..at + 2], 16).unwrap())
        .collect();
    let line = run(&["outcomes"], &bytes).stdout;
    assert_eq!(line, format!("{expected}\n").into_bytes());
}

#[test]
fn other_arguments() {
    for arguments in [&[][..], &["cases"], &["cases", "x", "1"], &["listing", "x"]] {
        assert_eq!(status(arguments), 2);
    }
    assert_eq!(run(&["listing"], &[]).stdout, b"R 8 0\n");
    assert_eq!(
        run(&["cases", "18446744073709551615", "0"], &[]).stdout,
        b""
    );
}
