//! The job of `vozhkell run` in plain Rust, written by hand. bench/run.sh measures the proved program beside it.
//!
//! bench/lanes.rs says how it makes a phase on threads, and what STANDING_THREADS in its environment changes.

use crate::commands::{Failure, Input, Output, Text};
use crate::lanes::{self, Job, Lanes};
use crate::lines::{self, Answer};
use crate::shared::Shared;
use crate::trace::{Act, Cause, Lane, Line};
use std::io;

impl Job for Shared<'_> {
    type Act = Act;
    type Answer = Answer;

    fn answers(act: Act) -> bool {
        act.answers()
    }

    #[inline]
    fn make(&self, lane: usize, act: Act) -> Option<Answer> {
        let lane = if lane == self.header().cpus { Lane::Control } else { Lane::Cpu(lane) };
        lines::make(&mut &*self, lane, act)
    }

    fn write(out: &mut Text, number: u64, answer: Answer) {
        answer.write(out, number);
    }
}

struct Run<'l, 'a> {
    counters: &'a Shared<'a>,
    /// Those of the CPUs, and the control lane.
    lanes: Lanes<'l, Shared<'a>>,
}

impl Run<'_, '_> {
    fn take(&mut self, out: &mut Output, number: u64, judged: Result<Line, Cause>) -> io::Result<()> {
        match judged {
            Ok(Line::Lane(Lane::Cpu(cpu), act)) => self.lanes.keep(number, cpu, act),
            Ok(Line::Lane(Lane::Control, act)) => self.lanes.keep(number, self.counters.header().cpus, act),
            Ok(line) => {
                self.make_phase(out)?;
                lines::end_phase(&mut self.counters, &mut out.held, number, line);
            }
            Err(cause) => self.lanes.refuse(&mut out.held, number, cause),
        }
        Ok(())
    }

    fn make_phase(&mut self, out: &mut Output) -> io::Result<()> {
        if self.lanes.has_lines(self.counters.header().cpus) {
            self.counters.begin_peaks();
        }
        self.lanes.make_phase(out)
    }
}

pub fn run(input: &mut Input, out: &mut Output) -> Result<u8, Failure> {
    let header = input.header()?;
    let counters = &Shared::start(&header);
    lanes::on_threads(counters, header.cpus + 1, |lanes| {
        let mut run = Run { counters, lanes };
        let tally = input.body(&header, out, |out, number, judged| run.take(out, number, judged))?;
        run.make_phase(out)?;
        tally.write(&mut out.held)?;
        Ok(tally.status())
    })
}
