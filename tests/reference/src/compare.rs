//! Another program beside this one: fresh cases or sheets on its standard input, and its standard output compared.

use crate::outcome::line_of;
use crate::{cases, sheet, sheets};
use std::io::{self, BufRead, BufReader, Read, Write};
use std::process::{Child, Command, Stdio};
use std::thread;

/// So many differences are printed.
const SHOWN: usize = 3;

/// So many bytes are read at most where a line or a listing is expected; none is as long.
const MOST_READ: u64 = 1 << 20;

fn start(program: &[String]) -> io::Result<Child> {
    Command::new(&program[0])
        .args(&program[1..])
        .stdin(Stdio::piped())
        .stdout(Stdio::piped())
        .spawn()
}

/// Gives all pieces to the program from a thread of its own, while `read` takes what it writes; says whether it ended well. A program
/// that stops reading is seen by what it writes.
fn feed<T>(
    program: &[String],
    pieces: &[Vec<u8>],
    read: impl FnOnce(&mut dyn BufRead) -> io::Result<T>,
) -> io::Result<(T, bool)> {
    let mut child = start(program)?;
    let mut input = child.stdin.take().expect("its input is piped");
    let mut output = BufReader::new(child.stdout.take().expect("its output is piped"));
    let came = thread::scope(|scope| {
        scope.spawn(move || {
            for piece in pieces {
                if input.write_all(piece).is_err() {
                    break;
                }
            }
        });
        let came = read(&mut output);
        drop(output);
        came
    });
    Ok((came?, child.wait()?.success()))
}

fn hexadecimal(bytes: &[u8]) -> String {
    bytes.iter().map(|byte| format!("{byte:02x}")).collect()
}

/// The stored cases; says whether the program wrote the line of each.
pub fn try_stored(program: &[String]) -> io::Result<bool> {
    try_pieces(&cases::stored(), program)
}

/// Fresh cases; says whether the program wrote the line of each.
pub fn try_cases(seed: u64, count: usize, program: &[String]) -> io::Result<bool> {
    try_pieces(&cases::fresh(seed, count), program)
}

fn try_pieces(pieces: &[Vec<u8>], program: &[String]) -> io::Result<bool> {
    let count = pieces.len();
    let (differences, well) = feed(program, pieces, |output| compare_lines(pieces, output))?;
    if !well {
        println!("the program did not end well");
    }
    if differences > 0 {
        println!("{differences} of {count} cases differ");
    }
    if well && differences == 0 {
        println!("{count} cases, all the same");
    }
    Ok(well && differences == 0)
}

fn compare_lines(pieces: &[Vec<u8>], output: &mut dyn BufRead) -> io::Result<usize> {
    let mut differences = 0;
    for piece in pieces {
        let expected = line_of(piece);
        let mut came = Vec::new();
        output.take(MOST_READ).read_until(b'\n', &mut came)?;
        if came != expected.as_bytes() {
            differences += 1;
            if differences <= SHOWN {
                println!("case      {}", hexadecimal(piece));
                println!("expected  {}", expected.trim_end());
                println!("came      {}", String::from_utf8_lossy(&came).trim_end());
            }
        }
    }
    if !output.fill_buf()?.is_empty() {
        differences += 1;
        println!("more came after the last line");
    }
    Ok(differences)
}

/// Fresh sheets, one run of the program each; says whether every listing was the same.
pub fn try_sheets(seed: u64, count: usize, program: &[String]) -> io::Result<bool> {
    let mut differences = 0;
    for made in sheets::fresh(seed, count) {
        let expected = sheet::listing(&made);
        let pieces = [made];
        let (came, well) = feed(program, &pieces, |output| {
            let mut came = Vec::new();
            output.take(MOST_READ).read_to_end(&mut came)?;
            Ok(came)
        })?;
        if !well || came != expected.as_bytes() {
            differences += 1;
            println!("sheet     {}", hexadecimal(&pieces[0]));
            println!(
                "expected\n{expected}came\n{}",
                String::from_utf8_lossy(&came)
            );
            if !well {
                println!("the program did not end well");
            }
            if differences == SHOWN {
                return Ok(false);
            }
        }
    }
    if differences == 0 {
        println!("{count} sheets, all the same");
    }
    Ok(differences == 0)
}
