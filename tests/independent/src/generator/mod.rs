//! Makes the lines on which the console and the independent decoder are compared: at random from a seed, and as a
//! fixed sample. Each area of the console (01, "What the gateway speaks") has a module of its own.

mod check;
pub mod lines;
mod old58;
mod pace;
mod pathfinder;
pub mod random;
pub mod restore;
mod tongzhu;

use lines::Draft;
use random::Random;
use std::io::{self, Write};

/// The areas taken where none is named. An area is switched on here.
pub const DEFAULT: &[&str] = &["check", "pf", "tz", "pace", "old", "restore"];

/// Every area there is.
const AREAS: &[Area] = &[check::AREA, pathfinder::AREA, tongzhu::AREA, pace::AREA, old58::AREA, restore::AREA];

/// The seed of the sample's lines and how many of them each area has.
const SAMPLE_SEED: u64 = 1;
const SAMPLE_LINES: u64 = 700;

/// One area of the console.
pub struct Area {
    pub name: &'static str,
    /// Puts the lines chosen by hand into the sample.
    pub chosen: fn(&mut Sample),
    /// Begins a run of random lines.
    pub start: fn() -> Box<dyn Drafts>,
}

/// A run of random lines of one area.
pub trait Drafts {
    fn draft(&mut self, random: &mut Random) -> Draft;
}

impl<F: FnMut(&mut Random) -> Draft> Drafts for F {
    fn draft(&mut self, random: &mut Random) -> Draft {
        self(random)
    }
}

/// The areas of these names, those of `DEFAULT` if there are none; or the first name that is no area's.
pub fn areas(names: &[String]) -> Result<Vec<&'static Area>, String> {
    let names: Vec<&str> = if names.is_empty() { DEFAULT.to_vec() } else { names.iter().map(String::as_str).collect() };
    names
        .into_iter()
        .map(|name| {
            let known = AREAS.iter().find(|area| area.name == name);
            known.ok_or_else(|| name.to_string())
        })
        .collect()
}

/// Prints so many random lines. The last one lacks its line feed for every third seed.
pub fn generate(count: u64, seed: u64, areas: &[&Area], output: &mut impl Write) -> io::Result<()> {
    let mut random = Random::new(seed);
    let mut runs: Vec<Box<dyn Drafts>> = areas.iter().map(|area| (area.start)()).collect();
    for place in 1..=count {
        let run = random.below(runs.len());
        let mut line = line(runs[run].as_mut(), &mut random);
        if place == count && seed.is_multiple_of(3) {
            line.pop();
        }
        output.write_all(&line)?;
    }
    Ok(())
}

/// One random line with its end.
fn line(run: &mut dyn Drafts, random: &mut Random) -> Vec<u8> {
    if random.one_in(60) {
        return lines::silent(random);
    }
    let mut draft = run.draft(random);
    if random.one_in(3000) {
        return lines::long(&draft, random);
    }
    if random.one_in(12) {
        lines::spoil(&mut draft, random);
    }
    lines::written(&draft, random)
}

/// The lines chosen by hand, each below a comment that says what it shows.
pub struct Sample(Vec<u8>);

impl Sample {
    /// Adds a line with the comment above it, or below the one there is if the comment is empty.
    pub fn show(&mut self, comment: &str, line: impl AsRef<[u8]>) {
        if !comment.is_empty() {
            self.more(format!("# {comment}"));
        }
        self.more(line);
    }

    /// Adds a further line below the same comment.
    pub fn more(&mut self, line: impl AsRef<[u8]>) {
        self.0.extend_from_slice(line.as_ref());
        self.0.push(b'\n');
    }
}

/// Prints the fixed sample: for each area the lines chosen by hand, then random ones.
pub fn sample(areas: &[&Area], output: &mut impl Write) -> io::Result<()> {
    for area in areas {
        let mut sample = Sample(Vec::new());
        (area.chosen)(&mut sample);
        output.write_all(&sample.0)?;
        writeln!(output, "# {SAMPLE_LINES} generated lines of {}", area.name)?;
        let mut random = Random::named(SAMPLE_SEED, area.name);
        let mut run = (area.start)();
        for _ in 0..SAMPLE_LINES {
            output.write_all(&line(run.as_mut(), &mut random))?;
        }
    }
    Ok(())
}

#[cfg(test)]
mod tests {
    use super::*;
    use crate::console::Console;
    use crate::line::{Line, Splitter};
    use std::collections::BTreeMap;

    #[test]
    fn the_sample_is_short_enough_to_keep() {
        let every: Vec<&Area> = AREAS.iter().collect();
        let mut printed = Vec::new();
        sample(&every, &mut printed).unwrap();
        assert!(printed.len() < 1_500_000);
    }

    /// A comment that ends with a colon and a number says how the line below it is refused.
    #[test]
    fn the_comments_of_the_sample_are_true() {
        let every: Vec<&Area> = AREAS.iter().collect();
        let mut printed = Vec::new();
        sample(&every, &mut printed).unwrap();
        let mut console = Console::default();
        let (mut said, mut true_ones) = (None, 0);
        Splitter::default().feed(&printed, |line| match (console.answer(line), line) {
            (None, Line::Bytes(bytes)) => {
                let comment = String::from_utf8_lossy(bytes).to_string();
                let end = comment.rsplit_once(": ").and_then(|(_, end)| end.split([',', ' ']).next()?.parse().ok());
                said = end.map(|number: u8| (number, comment));
            }
            (Some(answer), _) => {
                if let Some((number, comment)) = said.take() {
                    assert_eq!(answer, format!("refused {number}"), "{comment}");
                    true_ones += 1;
                }
            }
            (None, Line::TooLong) => panic!("no answer to a line that is too long"),
        });
        assert!(true_ones > 200, "only {true_ones} comments");
    }

    /// How often each kind of answer comes to the random lines of an area. The kind is the call's two first words and
    /// the answer's first two, or the whole of a refusal or of an answer to no call.
    pub fn kinds(area: &str, count: u64) -> BTreeMap<String, usize> {
        let areas = areas(&[area.to_string()]).unwrap();
        let mut input = Vec::new();
        generate(count, 2, &areas, &mut input).unwrap();
        let mut console = Console::default();
        let mut kinds = BTreeMap::new();
        Splitter::default().feed(&input, |line| {
            let call = match line {
                Line::Bytes(bytes) => String::from_utf8_lossy(bytes).to_string(),
                Line::TooLong => String::new(),
            };
            let Some(answer) = console.answer(line) else {
                return;
            };
            let first = |text: &str, count: usize| {
                let words = text.split(' ').filter(|word| !word.is_empty());
                words.take(count).collect::<Vec<_>>().join(" ")
            };
            let kind =
                if answer.starts_with('?') { answer } else { format!("{}: {}", first(&call, 2), first(&answer, 2)) };
            *kinds.entry(kind).or_default() += 1;
        });
        kinds
    }

    /// Fails unless each of these kinds comes at least three times and no other kind at all, but for the check lines
    /// that every area has among its long ones.
    pub fn assert_kinds(area: &str, count: u64, expected: &[&str]) {
        let found = kinds(area, count);
        for kind in expected {
            let times = found.get(*kind).copied().unwrap_or(0);
            assert!(times >= 3, "{kind} comes {times} times");
        }
        for kind in found.keys().filter(|kind| !kind.starts_with("check ")) {
            assert!(expected.contains(&kind.as_str()), "{kind} is not expected");
        }
    }
}
