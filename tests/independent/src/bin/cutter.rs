//! Plays a Pathfinder pack against the console's restore (01, "Restore") and cuts the dialogue after every frame.
//!
//!     cutter CONSOLE COUNT SEED
//!
//! For COUNT random openings it runs the program CONSOLE as a child and restores the pack without a cut; then with a
//! cut after each frame in turn, with the frame lost, the reply lost, the reply seen, or a failure reported instead;
//! then with several cuts, one after another. A new opening on a fresh reading ends each of these; another one brings
//! the pack back to its first settings, or is refused where their registers do not take them. It looks at every moment
//! whether each setting has its old or its wanted value, whether each pair is strictly on its right side and whether no
//! fixed setting has moved; and in the end whether every differing setting was written exactly once and the pack has
//! the wanted values.

use independent::generator::random::Random;
use independent::generator::restore::{differing, list, may_be_wanted, opening};
use independent::line::shown;
use independent::pathfinder::{frame, parse, Request, WRITE};
use independent::restore::{is_fixed, PAIRS, SETTINGS};
use std::io::{BufRead, BufReader, Write};
use std::process::{Child, ChildStdin, ChildStdout, Command, ExitCode, Stdio};
use std::sync::atomic::{AtomicU64, Ordering};
use std::time::Duration;

/// What went wrong. The dialogue since the last opening goes with it.
type Outcome<T> = Result<T, String>;

/// How many lines have been answered. The console is given up if this stands still.
static ANSWERED: AtomicU64 = AtomicU64::new(0);
const PATIENCE: Duration = Duration::from_secs(20);

fn main() -> ExitCode {
    let words: Vec<String> = std::env::args().skip(1).collect();
    let numbers: Vec<u64> = words.iter().skip(1).filter_map(|word| word.parse().ok()).collect();
    let (3, [count, seed]) = (words.len(), &numbers[..]) else {
        eprintln!("usage: cutter CONSOLE COUNT SEED");
        return ExitCode::from(2);
    };
    std::thread::spawn(watch);
    match run(&words[0], *count, *seed) {
        Ok(counts) => {
            println!(
                "{count} openings, seed {seed}: {} restores, {} of them cut, {} of them back, and {} writes, \
                 all as they should be",
                counts.restores, counts.cuts, counts.back, counts.writes
            );
            ExitCode::SUCCESS
        }
        Err(trouble) => {
            println!("{trouble}\n{count} openings, seed {seed}: the restore fails");
            ExitCode::FAILURE
        }
    }
}

/// Ends the program if the console answers nothing any more.
fn watch() {
    let mut before = u64::MAX;
    loop {
        let now = ANSWERED.load(Ordering::Relaxed);
        if now == before {
            eprintln!("the console has not answered for {} seconds", PATIENCE.as_secs());
            std::process::exit(1);
        }
        before = now;
        std::thread::sleep(PATIENCE);
    }
}

#[derive(Default)]
struct Counts {
    restores: u64,
    cuts: u64,
    back: u64,
    writes: u64,
}

fn run(program: &str, count: u64, seed: u64) -> Outcome<Counts> {
    let mut random = Random::new(seed);
    let mut bench = Bench { console: Console::start(program)?, counts: Counts::default() };
    for _ in 0..count {
        let (present, wanted) = opening(&mut random);
        let outcome = bench.every_cut(&present, &wanted, &mut random);
        outcome.map_err(|trouble| format!("{}\n{trouble}", bench.console.said.join("\n")))?;
    }
    bench.console.stop()?;
    Ok(bench.counts)
}

/// The console as a child, and the dialogue since the last opening.
struct Console {
    child: Child,
    input: ChildStdin,
    output: BufReader<ChildStdout>,
    said: Vec<String>,
}

impl Console {
    fn start(program: &str) -> Outcome<Console> {
        let mut child = Command::new(program)
            .stdin(Stdio::piped())
            .stdout(Stdio::piped())
            .spawn()
            .map_err(|trouble| format!("{program}: {trouble}"))?;
        let input = child.stdin.take().ok_or("no standard input")?;
        let output = child.stdout.take().ok_or("no standard output")?;
        Ok(Console { child, input, output: BufReader::new(output), said: Vec::new() })
    }

    /// Sends a line and waits for its answer.
    fn ask(&mut self, line: &str) -> Outcome<String> {
        self.said.push(line.to_string());
        let mut answer = String::new();
        self.input
            .write_all(format!("{line}\n").as_bytes())
            .and_then(|()| self.input.flush())
            .and_then(|()| self.output.read_line(&mut answer))
            .map_err(|trouble| trouble.to_string())?;
        ANSWERED.fetch_add(1, Ordering::Relaxed);
        let answer = answer.trim_end_matches('\n').to_string();
        self.said.push(format!("  {answer}"));
        Ok(answer)
    }

    /// Sends a line that has only one right answer.
    fn expect(&mut self, line: &str, expected: &str) -> Outcome<()> {
        let answer = self.ask(line)?;
        if answer == expected {
            Ok(())
        } else {
            Err(format!("expected: {expected}"))
        }
    }

    /// Ends the input. The console ends with it.
    fn stop(mut self) -> Outcome<()> {
        drop(self.input);
        let status = self.child.wait().map_err(|trouble| trouble.to_string())?;
        if status.success() {
            Ok(())
        } else {
            Err(format!("the console ended with {status}"))
        }
    }
}

/// A pack: the words of a reading. A known register with a value in range changes that register only, which is the
/// setting of its number; the registers that are no setting have nothing to do in a restore.
#[derive(Clone)]
struct Pack {
    words: Vec<i64>,
}

impl Pack {
    /// Takes a frame and gives the register that it wrote.
    fn take(&mut self, input: &[u8]) -> Outcome<usize> {
        match parse(input) {
            Ok(Request::Set(register, value)) if register < SETTINGS && !is_fixed(register) => {
                self.words[register] = value;
                Ok(register)
            }
            other => Err(format!("the pack cannot take this frame: {other:?}")),
        }
    }
}

/// How a dialogue is cut.
#[derive(Clone, Copy, PartialEq)]
enum Cut {
    /// The frame does not reach the pack.
    FrameLost,
    /// The pack has written, and its reply does not come back.
    ReplyLost,
    /// The reply comes back, and then the gateway stops.
    ReplySeen,
    /// The pack reports a failure and has not written.
    Failure,
}

const CUTS: [Cut; 4] = [Cut::FrameLost, Cut::ReplyLost, Cut::ReplySeen, Cut::Failure];

/// What one test is about: the reading at its beginning and the wanted values.
struct Case<'a> {
    first: &'a [i64],
    wanted: &'a [i64],
}

impl Case<'_> {
    /// Whether the pack is as it may be at any moment.
    fn look(&self, pack: &Pack) -> Outcome<()> {
        for (place, word) in pack.words.iter().enumerate() {
            let wanted = *word == self.wanted[place] && !is_fixed(place);
            if !wanted && *word != self.first[place] {
                return Err(format!("word {place} is {word}, which is neither its old nor its wanted value"));
            }
        }
        for (upper, lower) in PAIRS {
            if pack.words[upper] <= pack.words[lower] {
                return Err(format!(
                    "register {upper} is {} and register {lower} is {}: the pair is crossed",
                    pack.words[upper], pack.words[lower]
                ));
            }
        }
        Ok(())
    }

    /// Whether the pack has the wanted values.
    fn look_at_the_end(&self, pack: &Pack) -> Outcome<()> {
        self.look(pack)?;
        if pack.words != self.wanted {
            return Err(format!("in the end the pack has {}", list(&pack.words)));
        }
        Ok(())
    }
}

struct Bench {
    console: Console,
    counts: Counts,
}

impl Bench {
    /// All the cuts of one opening.
    fn every_cut(&mut self, present: &[i64], wanted: &[i64], random: &mut Random) -> Outcome<()> {
        let case = Case { first: present, wanted };
        let fresh = Pack { words: present.to_vec() };
        self.restore(&case, &mut fresh.clone(), None, random)?;
        let frames = differing(present, wanted);
        for number in 1..=frames {
            for cut in CUTS {
                let mut pack = fresh.clone();
                self.restore(&case, &mut pack, Some((number, cut)), random)?;
                self.either_way(&case, pack, random)?;
            }
        }
        let mut pack = fresh;
        for _ in 0..random.below(6) {
            let left = differing(&pack.words, wanted);
            if left > 0 {
                let cut = (1 + random.below(left), random.pick(&CUTS));
                self.restore(&case, &mut pack, Some(cut), random)?;
            }
        }
        self.either_way(&case, pack, random)
    }

    /// Restores a pack to the wanted values, and another one like it to the settings that it had first.
    fn either_way(&mut self, case: &Case, mut pack: Pack, random: &mut Random) -> Outcome<()> {
        let words = pack.words.clone();
        self.restore(case, &mut pack, None, random)?;
        if (0..SETTINGS).all(|setting| may_be_wanted(setting, case.first[setting])) {
            self.counts.back += 1;
            let back = Case { first: &words, wanted: case.first };
            self.restore(&back, &mut Pack { words: words.clone() }, None, random)
        } else {
            self.console.expect(&format!("restore open {} {}", list(&words), list(case.first)), "refused 9")
        }
    }

    /// One restore on a fresh reading of the pack: to its end, or cut at the frame of a number.
    fn restore(&mut self, case: &Case, pack: &mut Pack, cut: Option<(usize, Cut)>, random: &mut Random) -> Outcome<()> {
        self.counts.restores += 1;
        let to_write = differing(&pack.words, case.wanted);
        let line = format!("restore open {} {}", list(&pack.words), list(case.wanted));
        self.console.said.clear();
        self.console.expect(&line, "ok opened")?;
        let mut written = Vec::new();
        for number in 1..=to_write {
            self.disturb(random, false)?;
            let left = to_write + 1 - number;
            if random.one_in(4) {
                self.console.expect("restore left", &format!("ok left {left}"))?;
            }
            let frame = self.frame(random)?;
            let cut = cut.filter(|(place, _)| *place == number).map(|(_, cut)| cut);
            if cut == Some(Cut::FrameLost) {
                return self.end_of_cut(left);
            }
            if cut == Some(Cut::Failure) {
                let code = random.pick(&[0x20, 0x21, 0x22, 0x23, 0x24, 0x26, 0x27, 0x2D]);
                self.reply(code, &format!("ok failure {code:02X}"))?;
                self.console.expect("restore next 11", "refused 14")?;
                return self.end_of_cut(left);
            }
            let register = pack.take(&frame)?;
            self.counts.writes += 1;
            case.look(pack)?;
            if pack.words[register] != case.wanted[register] || written.contains(&register) {
                return Err(format!("register {register} is written wrongly or once more"));
            }
            written.push(register);
            if cut == Some(Cut::ReplyLost) {
                return self.end_of_cut(left);
            }
            self.disturb(random, true)?;
            self.reply(WRITE, "ok written")?;
            if cut == Some(Cut::ReplySeen) {
                return self.end_of_cut(left - 1);
            }
        }
        self.console.expect("restore next 11", "ok done")?;
        self.console.expect("restore left", "ok left 0")?;
        case.look_at_the_end(pack)
    }

    /// What the job says once the dialogue has been cut.
    fn end_of_cut(&mut self, left: usize) -> Outcome<()> {
        self.counts.cuts += 1;
        self.console.expect("restore left", &format!("ok left {left}"))
    }

    /// The next frame, in room enough.
    fn frame(&mut self, random: &mut Random) -> Outcome<Vec<u8>> {
        let answer = self.console.ask(&format!("restore next {}", random.pick(&[11, 12, 260, 8192])))?;
        let digits = answer.strip_prefix("ok frame ").ok_or("expected: a frame")?;
        let bytes = (0..digits.len() / 2).map(|place| {
            let pair = digits.get(2 * place..2 * place + 2);
            pair.and_then(|pair| u8::from_str_radix(pair, 16).ok())
        });
        bytes.collect::<Option<_>>().ok_or("expected: a frame".to_string())
    }

    fn reply(&mut self, opcode: u8, expected: &str) -> Outcome<()> {
        let line = format!("restore reply {}", shown(&frame(opcode, &[])));
        self.console.expect(&line, expected)
    }

    /// Now and then says something that must not change the job: a step out of turn, too little room, or a reply that
    /// is none.
    fn disturb(&mut self, random: &mut Random, waiting: bool) -> Outcome<()> {
        match (random.below(12), waiting) {
            (0, true) => self.console.expect("restore next 8192", "refused 14"),
            (1, true) => self.console.expect("restore reply FE010ED2FEFD", "refused 5"),
            (2, true) => self.console.expect("restore reply FE01056394FD", "refused 7"),
            (0, false) => self.console.expect("restore next 10", "refused 11"),
            (1, false) => self.reply(WRITE, "refused 14"),
            (2, false) => self.console.expect("restore open - -", "refused 8"),
            _ => Ok(()),
        }
    }
}
