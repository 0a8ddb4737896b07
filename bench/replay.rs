//! The job of `vozhkell replay` in plain Rust, written by hand. bench/run.sh measures the proved program beside it.
//!
//! It makes each line as it reads it. Where the environment has KEEP_LINES it keeps the lines of a phase until the phase
//! ends, as the proved program does and as a program must that runs a phase's lanes on threads.

use crate::commands::{Failure, Input, Output, Text};
use crate::lines;
use crate::trace::{Cause, Line};
use crate::world::World;
use std::{env, mem};

struct Replay<'a> {
    world: World<'a>,
    /// What the phase that is open prints, from its first answer on. It is written once the phase has ended.
    waiting: Text,
    /// The lines of the phase that is open, where lines are kept.
    kept: Vec<(u64, Result<Line, Cause>)>,
    keeps: bool,
}

impl Replay<'_> {
    fn take(&mut self, out: &mut Text, number: u64, judged: Result<Line, Cause>) {
        if self.keeps && matches!(judged, Ok(Line::Lane(..)) | Err(_)) {
            self.kept.push((number, judged));
        } else {
            self.make_kept(out);
            self.make(out, number, judged);
        }
    }

    fn make_kept(&mut self, out: &mut Text) {
        for (number, judged) in mem::take(&mut self.kept) {
            self.make(out, number, judged);
        }
    }

    fn make(&mut self, out: &mut Text, number: u64, judged: Result<Line, Cause>) {
        match judged {
            Ok(Line::Lane(lane, act)) => {
                if let Some(answer) = lines::make(&mut self.world, lane, act) {
                    answer.write(&mut self.waiting, number);
                }
            }
            Ok(line) => {
                out.append(&mut self.waiting);
                lines::end_phase(&mut self.world, out, number, line);
            }
            Err(cause) => {
                let out = if self.waiting.is_empty() { out } else { &mut self.waiting };
                out.refuse(number, cause);
            }
        }
    }
}

pub fn replay(input: &mut Input, out: &mut Output) -> Result<u8, Failure> {
    let header = input.header()?;
    let world = World::start(&header);
    let keeps = env::var_os("KEEP_LINES").is_some();
    let mut replay = Replay { world, waiting: Text::default(), kept: Vec::new(), keeps };
    let tally = input.body(&header, out, |out, number, judged| {
        replay.take(&mut out.held, number, judged);
        Ok(())
    })?;
    replay.make_kept(&mut out.held);
    out.held.append(&mut replay.waiting);
    tally.write(&mut out.held)?;
    Ok(tally.status())
}
