//! Reads the console's lines from standard input to its end and answers each on standard output (docs/CONSOLE.md).
//! It holds one piece of the input and its answers at a time, and answers whatever has come before it waits for more.

use independent::console::Console;
use independent::line::{Line, Splitter};
use std::io::{self, ErrorKind, Read, Write};
use std::process::ExitCode;

fn main() -> ExitCode {
    match run(io::stdin().lock(), io::stdout().lock()) {
        Ok(()) => ExitCode::SUCCESS,
        Err(trouble) => {
            eprintln!("independent: {trouble}");
            ExitCode::FAILURE
        }
    }
}

fn run(mut input: impl Read, mut output: impl Write) -> io::Result<()> {
    let mut console = Console::default();
    let mut splitter = Splitter::default();
    let mut piece = vec![0; 32_768];
    let mut answers: Vec<u8> = Vec::new();
    loop {
        let length = match input.read(&mut piece) {
            Ok(length) => length,
            Err(trouble) if trouble.kind() == ErrorKind::Interrupted => continue,
            Err(trouble) => return Err(trouble),
        };
        let mut each = |line: Line| {
            if let Some(answer) = console.answer(line) {
                answers.extend_from_slice(answer.as_bytes());
                answers.push(b'\n');
            }
        };
        if length > 0 {
            splitter.feed(&piece[..length], &mut each);
        } else {
            splitter.finish(&mut each);
        }
        output.write_all(&answers)?;
        output.flush()?;
        answers.clear();
        if length == 0 {
            return Ok(());
        }
    }
}
