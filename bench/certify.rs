//! The job of `vozhkell certify` in plain Rust, written by hand: it reads a trace and a history written after it, and
//! says whether the history is one of that trace, or the first line at fault and its cause. It tells on standard error
//! which line was due there.

use crate::commands::{Failure, Input, Judge, Output, Tally};
use crate::counters::Limits;
use crate::events::{HistoryLine, Step, begins_history, event_line, history_line};
use crate::pages::{Pages, phases_of};
use crate::passes::Passes;
use crate::script::LaneScript;
use crate::trace::{Header, Lane, Line};
use std::io::Write;

const NOT_CERTIFIED: u8 = 9;

struct Checker<'a> {
    header: &'a Header,
    limits: &'a Limits<'a>,
    passes: Passes<'a>,
    /// The phases that are left, the next one last.
    left: Vec<(&'a [Line], &'a [Line])>,
    /// By CPU, and last the control lane.
    lanes: Vec<Option<LaneScript<'a>>>,
    phases: u64,
    events: u64,
}

impl<'a> Checker<'a> {
    fn new(limits: &'a Limits<'a>, kept: &'a [Line]) -> Checker<'a> {
        let header = limits.header;
        let mut left = phases_of(kept);
        left.reverse();
        let lanes = (0..=header.cpus).map(|_| None).collect();
        Checker { header, limits, passes: Passes::new(Pages::start(header)), left, lanes, phases: 0, events: 0 }
    }

    fn is_open(&self) -> bool {
        self.lanes.iter().flatten().any(|lane| !lane.ended)
    }

    fn is_complete(&self) -> bool {
        self.left.is_empty() && !self.is_open()
    }

    /// Takes a line, or gives the cause of its fault.
    fn step(&mut self, line: &[u8]) -> Result<(), &'static str> {
        match history_line(self.header, line) {
            HistoryLine::Ignored => Ok(()),
            HistoryLine::Phase => {
                let open = self.is_open();
                match self.left.pop() {
                    None => Err("NotInScript"),
                    Some(_) if open => Err("Incomplete"),
                    Some((boundaries, lines)) => {
                        self.begin(boundaries, lines);
                        Ok(())
                    }
                }
            }
            HistoryLine::Event(caller, step) if self.phases > 0 => self.event(caller, &step),
            _ => Err("BadEvent"),
        }
    }

    fn begin(&mut self, boundaries: &[Line], lines: &[Line]) {
        boundaries.iter().for_each(|&line| self.passes.pages.pass(line));
        self.passes.begin_phase();
        self.phases += 1;
        self.lanes.fill_with(|| None);
        for line in lines {
            if let &Line::Lane(lane, act) = line {
                let at = if let Lane::Cpu(cpu) = lane { cpu } else { self.header.cpus };
                self.lanes[at].get_or_insert_with(|| LaneScript::new(self.limits, lane)).add(act);
            }
        }
        self.lanes.iter_mut().flatten().for_each(|lane| lane.come_to_step(&self.passes.pages));
    }

    fn event(&mut self, caller: u64, step: &Step) -> Result<(), &'static str> {
        if !self.passes.is_legal(caller, step) {
            return Err("Illegal");
        }
        let slot = match *step {
            Step::Split { cpu, .. } => Some(cpu.unwrap_or(self.header.cpus)),
            Step::Join { pass } => self.passes.slot(pass),
            _ => self.passes.slot(caller),
        };
        let lane = slot.and_then(|slot| self.lanes[slot].as_mut()).ok_or("NotInScript")?;
        let is_due = match step {
            Step::Split { .. } => !lane.begun,
            Step::Join { .. } => lane.is_done(),
            _ => lane.is_due(step),
        };
        if !is_due {
            return Err("NotInScript");
        }
        self.passes.make(caller, step);
        self.events += 1;
        match step {
            Step::Split { .. } => lane.begun = true,
            Step::Join { .. } => lane.ended = true,
            _ => lane.go_past(step, &self.passes.pages),
        }
        Ok(())
    }

    /// The line that would have to stand where one is at fault, or where the input ends if there is none.
    fn due(&self, line: Option<&[u8]>) -> String {
        let caller = match line.map(|line| history_line(self.header, line)) {
            Some(HistoryLine::Event(caller, _)) => self.passes.slot(caller),
            _ => None,
        };
        let is_open = |slot: &usize| self.lanes[*slot].as_ref().is_some_and(|lane| !lane.ended);
        match caller.or_else(|| (0..self.lanes.len()).find(is_open)) {
            Some(slot) => self.due_of(slot),
            None if self.left.is_empty() => "nothing".to_string(),
            None => "phase".to_string(),
        }
    }

    /// The event that is due of the lane of a slot.
    fn due_of(&self, slot: usize) -> String {
        let (pass, lane) = (self.passes.number(slot), self.lanes[slot].as_ref());
        match lane.and_then(|lane| lane.due_step(&self.passes.pages)) {
            _ if pass == 0 => {
                let cpu = (slot < self.header.cpus).then_some(slot);
                event_line(0, &Step::Split { pass: self.passes.begun + 1, cpu })
            }
            Some(step) => event_line(pass, &step),
            None => event_line(0, &Step::Join { pass }),
        }
    }
}

pub fn certify(input: &mut Input, out: &mut Output) -> Result<u8, Failure> {
    let header = input.header()?;
    let (mut judge, mut tally, mut kept) = (Judge::new(&header), Tally::default(), Vec::new());
    let mut has_history = false;
    while let Some(text) = input.next()? {
        if begins_history(text) {
            has_history = true;
            break;
        }
        let judged = header.line(text).and_then(|line| judge.judge(line).map(|()| line));
        tally.count(judged)?;
        kept.extend(judged.ok().filter(|line| !matches!(line, Line::Blank)));
    }
    let limits = Limits::of(&header);
    let mut checker = Checker::new(&limits, &kept);
    let mut fault = None;
    while fault.is_none() && has_history {
        match input.next()? {
            Some(line) => {
                if let Err(cause) = checker.step(line) {
                    let due = checker.due(Some(line));
                    fault = Some((input.number(), cause, due));
                }
            }
            None => break,
        }
    }
    if fault.is_none() && !has_history {
        fault = Some((input.number() + 1, "Incomplete", "history 1".to_string()));
    } else if fault.is_none() && !checker.is_complete() {
        fault = Some((input.number() + 1, "Incomplete", checker.due(None)));
    }
    match fault {
        Some((line, cause, due)) => {
            writeln!(out.held, "line {line}: {cause}")?;
            out.note = format!("due: {due}\n");
            Ok(NOT_CERTIFIED)
        }
        None => {
            writeln!(out.held, "certified phases {} events {}", checker.phases, checker.events)?;
            Ok(tally.status())
        }
    }
}
