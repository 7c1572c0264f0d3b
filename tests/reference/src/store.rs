//! The stored cases: two files, `cases`, which is a stream of them, and `lines`, what they come to.

use crate::case::Case;
use crate::cases;
use crate::coverage::Coverage;
use crate::outcome::{line, outcome};
use std::fs;
use std::io;
use std::path::Path;

const CASES: &str = "cases";
const LINES: &str = "lines";

/// The stored cases as they are made.
pub struct Stored {
    pub stream: Vec<u8>,
    pub lines: String,
    pub coverage: Coverage,
}

pub fn make() -> Stored {
    let pieces = cases::stored();
    let mut seen = Vec::new();
    let mut lines = String::new();
    for piece in &pieces {
        let case = Case::read(&piece[2..]);
        let came = outcome(&case);
        lines.push_str(&line(&case, &came));
        seen.push((case, came));
    }
    Stored {
        stream: pieces.concat(),
        lines,
        coverage: Coverage::of(seen.iter().map(|(case, came)| (case, came))),
    }
}

/// Writes the two files; says what is not met, and whether all is.
pub fn write(folder: &Path) -> io::Result<bool> {
    let stored = make();
    fs::create_dir_all(folder)?;
    fs::write(folder.join(CASES), &stored.stream)?;
    fs::write(folder.join(LINES), &stored.lines)?;
    Ok(all_met(&stored.coverage))
}

/// Compares the two files with what is made; prints the counts; says whether the files are the same and all points are met.
pub fn same(folder: &Path) -> io::Result<bool> {
    let stored = make();
    print!("{}", stored.coverage.report());
    let mut same = all_met(&stored.coverage);
    for (name, expected) in [
        (CASES, &stored.stream[..]),
        (LINES, stored.lines.as_bytes()),
    ] {
        if fs::read(folder.join(name))? != expected {
            println!("{name} is not what is made");
            same = false;
        }
    }
    Ok(same)
}

fn all_met(coverage: &Coverage) -> bool {
    let unmet = coverage.unmet();
    for point in &unmet {
        println!("not met: {point}");
    }
    unmet.is_empty()
}
