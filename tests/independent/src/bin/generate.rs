//! Prints lines for the console.
//!
//!     generate COUNT SEED [AREA...]     so many random lines, the same for the same seed
//!     generate sample [AREA...]         the fixed sample

use independent::generator;
use std::io::{self, BufWriter, Write};
use std::process::ExitCode;

const USAGE: &str = "usage: generate COUNT SEED [AREA...]\n       generate sample [AREA...]";

enum Job {
    Random { count: u64, seed: u64 },
    Sample,
}

fn main() -> ExitCode {
    let words: Vec<String> = std::env::args().skip(1).collect();
    let Some((job, names)) = job(&words) else {
        eprintln!("{USAGE}");
        return ExitCode::from(2);
    };
    let areas = match generator::areas(names) {
        Ok(areas) => areas,
        Err(name) => {
            eprintln!("generate: there is no area {name}\n{USAGE}");
            return ExitCode::from(2);
        }
    };
    let mut output = BufWriter::new(io::stdout().lock());
    let printed = match job {
        Job::Random { count, seed } => generator::generate(count, seed, &areas, &mut output),
        Job::Sample => generator::sample(&areas, &mut output),
    };
    match printed.and_then(|()| output.flush()) {
        Ok(()) => ExitCode::SUCCESS,
        Err(trouble) => {
            eprintln!("generate: {trouble}");
            ExitCode::FAILURE
        }
    }
}

fn job(words: &[String]) -> Option<(Job, &[String])> {
    match words {
        [sample, names @ ..] if sample == "sample" => Some((Job::Sample, names)),
        [count, seed, names @ ..] => {
            let count = count.parse().ok()?;
            let seed = seed.parse().ok()?;
            Some((Job::Random { count, seed }, names))
        }
        _ => None,
    }
}
