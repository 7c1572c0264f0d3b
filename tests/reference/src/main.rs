//! The commands; README.md says what each does.

use reference::{cases, compare, outcome, sheet, store};
use std::io::{self, Read, Write};
use std::path::Path;
use std::process::ExitCode;

const USAGE: &str = "\
reference write DIR
reference same DIR
reference cases SEED COUNT
reference outcomes
reference listing
reference try-stored PROGRAM [ARG..]
reference try-cases SEED COUNT PROGRAM [ARG..]
reference try-sheets SEED COUNT PROGRAM [ARG..]";

fn main() -> ExitCode {
    let arguments: Vec<String> = std::env::args().skip(1).collect();
    match command(&arguments) {
        Some(Ok(true)) => ExitCode::SUCCESS,
        Some(Ok(false)) => ExitCode::FAILURE,
        Some(Err(error)) => {
            eprintln!("reference: {error}");
            ExitCode::FAILURE
        }
        None => {
            eprintln!("{USAGE}");
            ExitCode::from(2)
        }
    }
}

/// Does the command and says whether all was as it should be; none where there is no such command.
fn command(arguments: &[String]) -> Option<io::Result<bool>> {
    let words: Vec<&str> = arguments.iter().map(String::as_str).collect();
    Some(match words[..] {
        ["write", folder] => store::write(Path::new(folder)),
        ["same", folder] => store::same(Path::new(folder)),
        ["cases", seed, count] => {
            put(&cases::fresh(seed.parse().ok()?, count.parse().ok()?).concat())
        }
        ["outcomes"] => take().and_then(|stream| put(outcome::lines(&stream).as_bytes())),
        ["listing"] => take().and_then(|bytes| put(sheet::listing(&bytes).as_bytes())),
        ["try-stored", _, ..] => compare::try_stored(&arguments[1..]),
        ["try-cases", seed, count, _, ..] => {
            compare::try_cases(seed.parse().ok()?, count.parse().ok()?, &arguments[3..])
        }
        ["try-sheets", seed, count, _, ..] => {
            compare::try_sheets(seed.parse().ok()?, count.parse().ok()?, &arguments[3..])
        }
        _ => return None,
    })
}

fn take() -> io::Result<Vec<u8>> {
    let mut bytes = Vec::new();
    io::stdin().lock().read_to_end(&mut bytes)?;
    Ok(bytes)
}

fn put(bytes: &[u8]) -> io::Result<bool> {
    io::stdout().lock().write_all(bytes)?;
    Ok(true)
}
