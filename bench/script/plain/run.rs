//! A script read in large pieces, whose lines are answered where they lie.

use std::fs::File;
use std::io::{BufRead, ErrorKind, Read};

use crate::answers::Answers;
use crate::script::{Script, begin};
use crate::stop::{Stop, Told, table};
use crate::words::Words;

const MOST_LINES: u32 = 1_000_000;
const MOST_BYTES: usize = 131_200;
const SIZE: usize = 262_144;
/// Behind what was read there are so many bytes at least, of which the first is made a line feed.
const BEHIND: usize = 64;

/// How a run ends.
pub enum End {
    Whole,
    Fault,
    NoMemory,
    Broken,
}

enum Line {
    Whole,
    /// Its end wasn't read yet.
    Open,
    Fault(&'static [u8]),
}

struct Run {
    script: Option<Script>,
    /// Lines that were answered or passed over.
    lines: u32,
    bytes: Vec<u8>,
    /// What was read and not answered yet lies between these.
    at: usize,
    limit: usize,
}

/// Answers a script; the answers that there are are written before it reads on.
pub fn run(input: &mut File, out: &mut Answers) -> End {
    let Ok(bytes) = table(SIZE + BEHIND, 0) else {
        return End::NoMemory;
    };
    let mut run = Run { script: None, lines: 0, bytes, at: 0, limit: 0 };
    loop {
        let is_over = match run.read(input) {
            Ok(count) => count == 0,
            Err(_) => return End::Broken,
        };
        let told = run.answer_lines(is_over, out).and_then(|fault| out.flush().map(|()| fault));
        match told {
            Ok(None) if is_over => return End::Whole,
            Ok(None) => {}
            Ok(Some(_)) => return End::Fault,
            Err(Stop::Memory) => return if out.flush().is_ok() { End::NoMemory } else { End::Broken },
            Err(_) => return End::Broken,
        }
    }
}

impl Run {
    // Reads on behind an open line, which moves to the front.
    fn read(&mut self, input: &mut File) -> std::io::Result<usize> {
        self.bytes.copy_within(self.at..self.limit, 0);
        (self.at, self.limit) = (0, self.limit - self.at);
        let count = loop {
            match input.read(&mut self.bytes[self.limit..SIZE]) {
                Err(error) if error.kind() == ErrorKind::Interrupted => {}
                told => break told?,
            }
        };
        self.limit += count;
        self.bytes[self.limit] = b'\n';
        Ok(count)
    }

    // Answers all whole lines, and the last one without its end where nothing follows; the fault, if there is one.
    fn answer_lines(&mut self, is_over: bool, out: &mut Answers) -> Result<Option<()>, Stop> {
        if is_over && self.limit > self.at {
            self.limit += 1;
        }
        while self.at < self.limit {
            match self.answer_line(out)? {
                Line::Whole => self.lines += 1,
                Line::Open => break,
                Line::Fault(kind) => {
                    out.text(b"fault ");
                    out.number(self.lines + 1);
                    out.bytes(kind);
                    return Ok(Some(()));
                }
            }
        }
        Ok(None)
    }

    #[inline]
    fn answer_line(&mut self, out: &mut Answers) -> Result<Line, Stop> {
        if self.lines == MOST_LINES {
            return Ok(Line::Fault(b" many\n"));
        }
        match self.bytes[self.at] {
            b'\n' => {
                self.at += 1;
                return Ok(Line::Whole);
            }
            b'#' => return Ok(self.pass_over(Line::Whole)),
            _ => out.room()?,
        }
        let mut words = Words::new(&self.bytes, self.at, self.limit);
        match answer(&mut self.script, &mut words, out) {
            Ok(()) => {
                self.at = words.at();
                Ok(Line::Whole)
            }
            Err(Stop::Form) => Ok(self.pass_over(Line::Fault(b" form\n"))),
            Err(Stop::Range) => Ok(self.pass_over(Line::Fault(b" range\n"))),
            Err(stop) => Err(stop),
        }
    }

    // Looks for the line's end, and whether it is too long; if it isn't, this is what comes of it.
    #[cold]
    fn pass_over(&mut self, told: Line) -> Line {
        let rest = &self.bytes[self.at..self.limit];
        let count = (&mut &rest[..]).skip_until(b'\n').unwrap_or(0);
        let is_whole = rest[..count].ends_with(b"\n");
        if count - usize::from(is_whole) > MOST_BYTES {
            Line::Fault(b" long\n")
        } else if is_whole {
            self.at += count;
            told
        } else {
            Line::Open
        }
    }
}

fn answer(script: &mut Option<Script>, words: &mut Words, out: &mut Answers) -> Told {
    match script {
        Some(script) => script.answer(words, out),
        None => {
            *script = Some(begin(words, out)?);
            Ok(())
        }
    }
}
