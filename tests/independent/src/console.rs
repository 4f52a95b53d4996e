//! The console's lines, each handed to the module of its first word (docs/CONSOLE.md).

use crate::line::{Line, NoCall, Words};
use crate::{checks, old58, pace, pathfinder, restore, tongzhu};

/// What lives on from one line to the next.
#[derive(Default)]
pub struct Console {
    job: Option<restore::Job>,
}

impl Console {
    /// Answers one line, or nothing if the line is empty or a comment.
    pub fn answer(&mut self, line: Line) -> Option<String> {
        let Line::Bytes(bytes) = line else {
            return Some(NoCall::LineTooLong.answer().to_string());
        };
        let words = Words::of(bytes)?;
        Some(match self.call(&words) {
            Ok(answer) => answer,
            Err(no_call) => no_call.answer().to_string(),
        })
    }

    fn call(&mut self, words: &Words) -> Result<String, NoCall> {
        match words.at(0)? {
            b"check" => checks::answer(words),
            b"pf" => pathfinder::answer(words),
            b"tz" => tongzhu::answer(words),
            b"pace" => pace::answer(words),
            b"old" => old58::answer(words),
            b"restore" => restore::answer(words, &mut self.job),
            _ => Err(NoCall::UnknownWord),
        }
    }
}

#[cfg(test)]
mod tests {
    use super::*;
    use crate::examples::settable;
    use crate::generator::restore::list;

    fn answer(line: &str) -> Option<String> {
        Console::default().answer(Line::Bytes(line.as_bytes()))
    }

    #[test]
    fn the_job_lives_on_and_other_lines_leave_it_alone() {
        let opening =
            |wanted: &[(usize, i64)]| format!("restore open {} {}", list(&settable(&[])), list(&settable(wanted)));
        let (raised, crossed) = (opening(&[(3, 70), (4, 60)]), opening(&[(3, 50), (4, 50)]));
        let mut console = Console::default();
        for (line, expected) in [
            ("restore next 11".to_string(), "? no job"),
            ("restore left".to_string(), "? no job"),
            ("restore reply -".to_string(), "? no job"),
            ("restore reply 0".to_string(), "? not hex"),
            ("restore next 8193".to_string(), "? number out of range"),
            ("restore left 0".to_string(), "? too many words"),
            ("restore".to_string(), "? too few words"),
            ("restore close".to_string(), "? unknown word"),
            (crossed.clone(), "refused 12"),
            ("restore left".to_string(), "? no job"),
            (raised, "ok opened"),
            ("restore left".to_string(), "ok left 2"),
            ("restore next 10".to_string(), "refused 11"),
            ("restore next 11".to_string(), "ok frame FE060E03460000008651FD"),
            (crossed, "refused 12"),
            ("restore open 1,x 99999999999".to_string(), "? not a number"),
            ("restore open 1,99999999999 x".to_string(), "? number out of range"),
            ("check crc 0105".to_string(), "ok crc 6394"),
            ("restore next 11".to_string(), "refused 14"),
            ("restore reply FE010ED2FFFD".to_string(), "ok written"),
            ("restore left".to_string(), "ok left 1"),
            ("restore next 8192".to_string(), "ok frame FE060E043C000000CB5BFD"),
            ("restore reply FE012457D7FD".to_string(), "ok failure 24"),
            ("restore reply FE010ED2FFFD".to_string(), "refused 14"),
            ("restore left".to_string(), "ok left 1"),
        ] {
            let answer = console.answer(Line::Bytes(line.as_bytes()));
            assert_eq!(answer.as_deref(), Some(expected), "{line}");
        }
    }

    #[test]
    fn check_lines() {
        for (line, expected) in [
            ("check crc 0105", "ok crc 6394"),
            ("  check   crc -  ", "ok crc 0000"),
            ("check sum8 7f10020612", "ok sum8 57"),
            ("check sum16 3235303134363432453030323031", "ok sum16 FD30"),
            ("check", "? too few words"),
            ("Check", "? unknown word"),
            ("check foo", "? unknown word"),
            ("check crc", "? too few words"),
            ("check foo 0 0 0", "? unknown word"),
            ("check crc 0 0", "? too many words"),
            ("check crc 0", "? not hex"),
            ("check\tcrc 00", "? unknown word"),
            ("check crc\t00", "? unknown word"),
            ("check crc \t00", "? not hex"),
            ("check crc 00\r", "? not hex"),
        ] {
            assert_eq!(answer(line).as_deref(), Some(expected), "{line:?}");
        }
        assert_eq!(answer(" # check crc 00"), None);
        assert_eq!(answer("   "), None);
    }
}
