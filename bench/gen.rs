//! The text of `vozhkell gen` in plain Rust, written by hand: it is made from three numbers, each line of it when the one
//! before was read. docs/FORMATS.md says what its lines are.

use crate::names::ZONE_ITEMS;
use crate::trace::number;
use std::io::{self, Read, Write};

const MOST_CPUS: u64 = 64;
const MOST_LINES: u64 = 900_000;

pub struct MadeText {
    cpus: u64,
    state: u64,
    /// How many lines come before the last one, and nothing once that was made.
    left: Option<u64>,
    line: Vec<u8>,
    /// How many bytes of the line were read.
    read: usize,
}

impl MadeText {
    /// The text of these words, if each is a number in its range.
    pub fn of(seed: &[u8], cpus: &[u8], lines: &[u8]) -> Option<MadeText> {
        let state = number(seed, 0, u64::MAX).ok()?;
        let cpus = number(cpus, 1, MOST_CPUS).ok()?;
        let left = Some(number(lines, 1, MOST_LINES).ok()?);
        let header = format!(
            "vmtrace 1\ncpus {cpus}\nzone 0 Normal 262144 100 125 150\nbase 0 Normal nr_free_pages 1000000\n\
             counter files 32\ngo\n"
        );
        Some(MadeText { cpus, state, left, line: header.into_bytes(), read: 0 })
    }

    /// Makes the next line, if one is left.
    fn make_line(&mut self) -> io::Result<bool> {
        let Some(left) = self.left else {
            return Ok(false);
        };
        self.left = left.checked_sub(1);
        self.line.clear();
        self.read = 0;
        if self.left.is_some() {
            self.state = self.state.wrapping_mul(6364136223846793005).wrapping_add(1442695040888963407);
            self.draw()?;
        } else {
            self.line.extend_from_slice(b"report totals\n");
        }
        Ok(true)
    }

    /// Makes the line of the state, of which the upper 31 bits are drawn.
    fn draw(&mut self) -> io::Result<()> {
        let drawn = self.state >> 33;
        let (cpu, rest) = (drawn / 16 % self.cpus, drawn / 1024);
        let amount = |n: u64, width: u64| (n % width) as i64 - (width / 2) as i64;
        let line = &mut self.line;
        match drawn % 16 {
            0..=7 => {
                let item = ZONE_ITEMS[(rest % 8) as usize];
                writeln!(line, "c{cpu} mod 0 Normal {item} {}", amount(rest / 8, 65))
            }
            8 | 9 => writeln!(line, "c{cpu} inc 0 Normal nr_free_pages"),
            10 => writeln!(line, "c{cpu} dec 0 node nr_dirty"),
            11 => writeln!(line, "c{cpu} ev pgfault {}", rest % 4),
            12 => writeln!(line, "c{cpu} cnt files {}", amount(rest, 129)),
            13 => writeln!(line, "c{cpu} fold {}", rest % self.cpus),
            14 => writeln!(line, "k {} 0", if rest % 2 == 0 { "pressure" } else { "normal" }),
            _ if rest % 64 == 0 => writeln!(line, "sync"),
            _ => writeln!(line, "c{cpu} mod 0 node nr_file_pages {}", amount(rest, 65)),
        }
    }
}

impl Read for MadeText {
    fn read(&mut self, into: &mut [u8]) -> io::Result<usize> {
        let mut count = 0;
        while count < into.len() {
            if self.read == self.line.len() && !self.make_line()? {
                break;
            }
            let size = (&self.line[self.read..]).read(&mut into[count..])?;
            self.read += size;
            count += size;
        }
        Ok(count)
    }
}
