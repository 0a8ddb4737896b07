//! What the commands on a trace do alike, for the plain program: they read the lines, judge which of them count, keep
//! to the limits, and end with a status.

use crate::names::EVENTS;
use crate::trace::{Act, Cause, Header, Lane, Line, head_line};
use std::fs::File;
use std::io::{self, BufRead, BufReader, Read, Take, Write};
use std::os::fd::AsFd;
use std::process::ExitCode;

const MOST_BYTES: u64 = 1 << 26;
const MOST_LINES: u64 = 1_000_000;
const MOST_PHASES: u64 = 10_000;
const MOST_REPORTS: u64 = 1_000;
/// What one CPU may change one counter by, in absolute sum over a run.
const MOST_VOLUME: u64 = 1 << 48;
const BUFFER: usize = 1 << 16;

pub enum Failure {
    /// The header's first line at fault.
    Header(u64, Cause),
    TooLong,
    Read,
    Write,
}

impl From<io::Error> for Failure {
    fn from(_: io::Error) -> Failure {
        Failure::Write
    }
}

/// What a line of a body counts as.
#[derive(Clone, Copy, PartialEq)]
pub enum Kind {
    Blank,
    Lane,
    Report,
    /// A boundary line that is no report.
    Boundary,
}

/// A line of a body, of any grammar.
pub trait BodyLine: Copy {
    fn kind(self) -> Kind;
}

impl BodyLine for Line {
    fn kind(self) -> Kind {
        match self {
            Line::Blank => Kind::Blank,
            Line::Lane(..) => Kind::Lane,
            Line::Report(_) => Kind::Report,
            _ => Kind::Boundary,
        }
    }
}

/// What the lines of a body came to, in numbers.
#[derive(Default)]
pub struct Tally {
    accepted: u64,
    refused: u64,
    phases: u64,
    reports: u64,
    in_phase: bool,
}

impl Tally {
    fn add(&mut self, kind: Kind) -> Result<(), Failure> {
        let in_phase = kind == Kind::Lane;
        self.phases += u64::from(in_phase && !self.in_phase);
        self.reports += u64::from(kind == Kind::Report);
        if self.phases > MOST_PHASES || self.reports > MOST_REPORTS {
            return Err(Failure::TooLong);
        }
        self.in_phase = in_phase;
        self.accepted += 1;
        Ok(())
    }

    /// Counts what a line came to, unless it is ignored.
    pub fn count<L: BodyLine>(&mut self, judged: Result<L, Cause>) -> Result<(), Failure> {
        match judged.map(L::kind) {
            Ok(Kind::Blank) => {}
            Ok(kind) => self.add(kind)?,
            Err(_) => self.refused += 1,
        }
        Ok(())
    }

    pub fn write(&self, out: &mut impl Write) -> io::Result<()> {
        writeln!(out, "done accepted {} refused {}", self.accepted, self.refused)
    }

    /// The status of an input that was read to its end.
    pub fn status(&self) -> u8 {
        if self.refused > 0 { 3 } else { 0 }
    }
}

#[derive(Clone, Copy, PartialEq)]
pub enum State {
    Online,
    Dead,
    Absent,
}

/// Adds the size of a change to what a CPU has changed something by.
pub fn spend(volume: &mut u64, size: u64) -> Result<(), Cause> {
    match volume.checked_add(size) {
        Some(sum) if sum <= MOST_VOLUME => {
            *volume = sum;
            Ok(())
        }
        _ => Err(Cause::Overflow),
    }
}

/// Which lines count, by the lines above.
pub struct Judge {
    states: Vec<State>,
    counters: Vec<u64>,
    events: Vec<u64>,
    pcpu: Vec<u64>,
}

impl Judge {
    pub fn new(header: &Header) -> Judge {
        Judge {
            states: vec![State::Online; header.cpus],
            counters: vec![0; header.cpus * header.bases.len()],
            events: vec![0; header.cpus * EVENTS.len()],
            pcpu: vec![0; header.cpus * 16],
        }
    }

    pub fn judge(&mut self, line: Line) -> Result<(), Cause> {
        match line {
            Line::Lane(Lane::Cpu(cpu), act) => {
                if self.states[cpu] != State::Online {
                    return Err(Cause::NotOnline);
                }
                let width = self.counters.len() / self.states.len();
                match act {
                    Act::Mod(counter, pages) => {
                        spend(&mut self.counters[cpu * width + counter], pages.unsigned_abs())
                    }
                    Act::Inc(counter) | Act::Dec(counter) => spend(&mut self.counters[cpu * width + counter], 1),
                    Act::Ev(event, n) => spend(&mut self.events[cpu * EVENTS.len() + event], n),
                    Act::Cnt(counter, n) | Act::Lim(counter, _, n) => {
                        spend(&mut self.pcpu[cpu * 16 + counter], n.unsigned_abs())
                    }
                    _ => Ok(()),
                }
            }
            Line::Lane(Lane::Control, Act::Dead(cpu)) => {
                if self.states[cpu] != State::Dead {
                    return Err(Cause::NotDead);
                }
                self.states[cpu] = State::Absent;
                Ok(())
            }
            Line::Offline(cpu) => {
                if self.states[cpu] != State::Online {
                    return Err(Cause::NotOnline);
                }
                if self.states.iter().filter(|&&state| state == State::Online).count() == 1 {
                    return Err(Cause::LastCpu);
                }
                self.states[cpu] = State::Dead;
                Ok(())
            }
            Line::Online(cpu) => match self.states[cpu] {
                State::Online => Err(Cause::NotDead),
                State::Dead => Err(Cause::NotFolded),
                State::Absent => {
                    self.states[cpu] = State::Online;
                    Ok(())
                }
            },
            _ => Ok(()),
        }
    }
}

/// The lines of an input, each read into one buffer.
pub struct Input {
    source: BufReader<Take<Box<dyn Read>>>,
    line: Vec<u8>,
    bytes: u64,
    number: u64,
}

impl Input {
    pub fn of(source: impl Read + 'static) -> Input {
        let source: Box<dyn Read> = Box::new(source);
        let source = source.take(MOST_BYTES + 1);
        Input { source: BufReader::with_capacity(BUFFER, source), line: Vec::new(), bytes: 0, number: 0 }
    }

    /// The next line, without its newline, or nothing at the end.
    pub fn next(&mut self) -> Result<Option<&[u8]>, Failure> {
        self.line.clear();
        let count = self.source.read_until(b'\n', &mut self.line).map_err(|_| Failure::Read)?;
        if count == 0 {
            return Ok(None);
        }
        self.bytes += count as u64;
        self.number += 1;
        if self.bytes > MOST_BYTES || self.number > MOST_LINES {
            return Err(Failure::TooLong);
        }
        if self.line.last() == Some(&b'\n') {
            self.line.pop();
        }
        Ok(Some(&self.line))
    }

    /// The number of the last line that was read.
    pub fn number(&self) -> u64 {
        self.number
    }

    /// Reads the header up to its `go` line.
    pub fn header(&mut self) -> Result<Header, Failure> {
        let (mut header, mut part) = (Header::empty(), 0);
        self.head(|line| match line {
            Some(line) => head_line(&mut header, &mut part, line),
            None if part == 0 => Err(Cause::BadMagic),
            None => Err(Cause::MissingGo),
        })?;
        Ok(header)
    }

    /// Hands lines to a reader, up to the one of which it says that it is a header's last. Of the end of the input it
    /// says why that comes too early.
    pub fn head(&mut self, mut read: impl FnMut(Option<&[u8]>) -> Result<bool, Cause>) -> Result<(), Failure> {
        loop {
            let line = self.next()?;
            let is_end = line.is_none();
            let found = read(line);
            let number = self.number + u64::from(is_end);
            if found.map_err(|cause| Failure::Header(number, cause))? {
                return Ok(());
            }
        }
    }

    /// Hands each further line that isn't ignored to a command, by its number and what it comes to. The command adds
    /// what it writes to the text that is held.
    pub fn body(
        &mut self,
        header: &Header,
        out: &mut Output,
        take: impl FnMut(&mut Output, u64, Result<Line, Cause>) -> io::Result<()>,
    ) -> Result<Tally, Failure> {
        let mut judge = Judge::new(header);
        self.lines(out, |text| header.line(text).and_then(|line| judge.judge(line).map(|()| line)), take)
    }

    /// The same of a body of any grammar.
    pub fn lines<L: BodyLine>(
        &mut self,
        out: &mut Output,
        mut judge: impl FnMut(&[u8]) -> Result<L, Cause>,
        mut take: impl FnMut(&mut Output, u64, Result<L, Cause>) -> io::Result<()>,
    ) -> Result<Tally, Failure> {
        let mut tally = Tally::default();
        while let Some(text) = self.next()? {
            let judged = judge(text);
            tally.count(judged)?;
            if let Ok(Kind::Blank) = judged.map(L::kind) {
                continue;
            }
            take(out, self.number, judged)?;
            out.hand_on_much()?;
        }
        Ok(tally)
    }
}

/// Text in memory, with numbers in decimal.
#[derive(Default)]
pub struct Text(Vec<u8>);

impl Text {
    pub fn is_empty(&self) -> bool {
        self.0.is_empty()
    }

    pub fn clear(&mut self) {
        self.0.clear();
    }

    /// Moves another text to the end of this one.
    pub fn append(&mut self, other: &mut Text) {
        self.0.append(&mut other.0);
    }

    #[inline]
    pub fn text(&mut self, bytes: &[u8]) {
        self.0.extend_from_slice(bytes);
    }

    pub fn number(&mut self, mut n: u64) {
        let mut digits = [0; 20];
        let mut begin = digits.len();
        loop {
            begin -= 1;
            digits[begin] = b'0' + (n % 10) as u8;
            n /= 10;
            if n == 0 {
                return self.text(&digits[begin..]);
            }
        }
    }

    pub fn signed(&mut self, n: i64) {
        if n < 0 {
            self.text(b"-");
        }
        self.number(n.unsigned_abs());
    }

    /// Begins what the line of that number prints.
    pub fn label(&mut self, number: u64, what: &[u8]) {
        self.text(b"line ");
        self.number(number);
        self.text(b": ");
        self.text(what);
    }

    pub fn refuse(&mut self, number: u64, cause: Cause) {
        self.label(number, b"refused: ");
        self.text(cause.name().as_bytes());
        self.text(b"\n");
    }
}

impl Write for Text {
    fn write(&mut self, bytes: &[u8]) -> io::Result<usize> {
        self.text(bytes);
        Ok(bytes.len())
    }

    fn flush(&mut self) -> io::Result<()> {
        Ok(())
    }
}

/// Standard output, and the text that waits for it.
pub struct Output {
    sink: File,
    pub held: Text,
    /// What is written to standard error at last, if no write failed.
    pub note: String,
}

impl Output {
    fn make() -> io::Result<Output> {
        let sink = File::from(io::stdout().as_fd().try_clone_to_owned()?);
        Ok(Output { sink, held: Text(Vec::with_capacity(2 * BUFFER)), note: String::new() })
    }

    /// Writes what is held, if it is much.
    #[inline]
    pub fn hand_on_much(&mut self) -> io::Result<()> {
        if self.held.0.len() > BUFFER { self.hand_on() } else { Ok(()) }
    }

    /// Writes what is held. It isn't tried again if that fails.
    fn hand_on(&mut self) -> io::Result<()> {
        let written = self.sink.write_all(&self.held.0);
        self.held.clear();
        written
    }
}

/// A command: what it makes of its input, and the status if nothing failed.
pub type Command = fn(&mut Input, &mut Output) -> Result<u8, Failure>;

/// Runs a command over its input and standard output, or shows the usage where the words name no command.
pub fn run(asked: Option<(Command, Input)>, usage: &str) -> ExitCode {
    let status = Output::make().and_then(|mut out| {
        let status = match asked {
            Some((command, mut input)) => answer(command, &mut input, &mut out)?,
            None => {
                out.held.text(usage.as_bytes());
                1
            }
        };
        out.hand_on()?;
        // It is no part of the output, so a failure is ignored.
        let _ = io::stderr().write_all(out.note.as_bytes());
        Ok(status)
    });
    ExitCode::from(status.unwrap_or(5))
}

/// The status, unless a write failed.
fn answer(command: Command, input: &mut Input, out: &mut Output) -> io::Result<u8> {
    Ok(match command(input, out) {
        Ok(status) => status,
        Err(Failure::Header(line, cause)) => {
            writeln!(out.held, "line {line}: {cause}")?;
            2
        }
        Err(Failure::TooLong) => 7,
        Err(Failure::Read) => 4,
        Err(Failure::Write) => 5,
    })
}
