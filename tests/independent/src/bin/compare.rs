//! Shows where the answers of two programs to the same lines differ.
//!
//!     compare LINES NAME ANSWERS NAME ANSWERS
//!
//! LINES and the two ANSWERS are files, the NAMEs say whose answers they are. It prints the first few lines that were
//! answered differently, each with both answers, and fails if there are any.

use independent::line::{Line, Splitter, Words};
use std::fs::File;
use std::io::{self, BufRead, BufReader, Read};
use std::process::ExitCode;

/// How many differences are shown, and how much of a line.
const SHOWN: usize = 5;
const WIDTH: usize = 400;

fn main() -> ExitCode {
    let words: Vec<String> = std::env::args().skip(1).collect();
    let [lines, first, firsts, second, seconds] = &words[..] else {
        eprintln!("usage: compare LINES NAME ANSWERS NAME ANSWERS");
        return ExitCode::from(2);
    };
    match compare(lines, [first, second], [firsts, seconds]) {
        Ok(0) => ExitCode::SUCCESS,
        Ok(_) => ExitCode::FAILURE,
        Err(trouble) => {
            eprintln!("compare: {trouble}");
            ExitCode::from(2)
        }
    }
}

/// The number of differences.
fn compare(lines: &str, names: [&str; 2], files: [&str; 2]) -> io::Result<usize> {
    let mut answers = [BufReader::new(File::open(files[0])?), BufReader::new(File::open(files[1])?)];
    let mut different = 0;
    let mut number = 0;
    let mut trouble = None;
    let mut each = |line: Line| {
        number += 1;
        if matches!(line, Line::Bytes(bytes) if Words::of(bytes).is_none()) {
            return;
        }
        match (next(&mut answers[0]), next(&mut answers[1])) {
            (Ok(one), Ok(other)) if one == other => {}
            (Ok(one), Ok(other)) => {
                different += 1;
                if different <= SHOWN {
                    show(number, line, names, [one, other]);
                }
            }
            (Err(found), _) | (_, Err(found)) => trouble = Some(found),
        }
    };
    let mut input = File::open(lines)?;
    let mut splitter = Splitter::default();
    let mut piece = vec![0; 65_536];
    loop {
        let length = input.read(&mut piece)?;
        if length == 0 {
            splitter.finish(&mut each);
            break;
        }
        splitter.feed(&piece[..length], &mut each);
    }
    if let Some(found) = trouble {
        return Err(found);
    }
    for (name, file) in names.iter().zip(&mut answers) {
        if let Some(answer) = next(file)? {
            different += 1;
            println!("{name} has answers left over: {}", text(&answer));
        }
    }
    if different > 0 {
        println!("{different} differences in {number} lines");
    }
    Ok(different)
}

/// The next answer, or nothing if the file has ended.
fn next(answers: &mut impl BufRead) -> io::Result<Option<Vec<u8>>> {
    let mut answer = Vec::new();
    answers.read_until(b'\n', &mut answer)?;
    Ok((!answer.is_empty()).then_some(answer))
}

fn show(number: usize, line: Line, names: [&str; 2], answers: [Option<Vec<u8>>; 2]) {
    let line = match line {
        Line::Bytes(bytes) => text(bytes),
        Line::TooLong => "(a line that is too long)".to_string(),
    };
    println!("line {number}: {line}");
    for (name, answer) in names.iter().zip(answers) {
        let answer = answer.map_or("(no answer)".to_string(), |answer| text(&answer));
        println!("  {name}: {answer}");
    }
}

/// Bytes as text, those that are no letters or signs as escapes, a long one shortened.
fn text(bytes: &[u8]) -> String {
    let bytes = bytes.strip_suffix(b"\n").unwrap_or(bytes);
    if bytes.len() <= WIDTH {
        return bytes.escape_ascii().to_string();
    }
    let (start, end) = (&bytes[..WIDTH / 2], &bytes[bytes.len() - WIDTH / 2..]);
    format!("{}..{} ({} bytes)", start.escape_ascii(), end.escape_ascii(), bytes.len())
}
