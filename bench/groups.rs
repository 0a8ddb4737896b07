//! The job of `vozhkell groups` in plain Rust, written by hand. bench/run.sh measures the proved program beside it.
//!
//! bench/lanes.rs says how it makes a phase on threads, and what STANDING_THREADS in its environment changes.

use crate::commands::{Failure, Input, Output, Text};
use crate::group_trace::{Due, GroupAct, GroupHeader, GroupJudge, GroupLine};
use crate::group_words::Groups;
use crate::lanes::{self, Job, Lanes};
use crate::trace::Cause;
use std::io;

impl Job for Groups<'_> {
    type Act = GroupAct;
    /// The value of a group.
    type Answer = i64;

    fn answers(act: GroupAct) -> bool {
        matches!(act, GroupAct::Value(_))
    }

    #[inline]
    fn make(&self, cpu: usize, act: GroupAct) -> Option<i64> {
        match act {
            GroupAct::Add(group, amount) => self.change(cpu, group, amount),
            GroupAct::Flush(group) => self.flush(group),
            GroupAct::Value(group) => return Some(self.value(group)),
        }
        None
    }

    fn write(out: &mut Text, number: u64, value: i64) {
        out.label(number, b"value ");
        out.signed(value);
        out.text(b"\n");
    }
}

fn header(input: &mut Input) -> Result<GroupHeader, Failure> {
    let (mut header, mut due) = (GroupHeader::default(), Due::Magic);
    input.head(|line| match line {
        Some(line) => header.head_line(&mut due, line),
        None if due == Due::Magic => Err(Cause::BadMagic),
        None => Err(Cause::MissingGo),
    })?;
    Ok(header)
}

/// Of each group its value, what is pending in its subtree, and the two in sum.
fn report(out: &mut Text, number: u64, groups: &Groups) {
    out.label(number, b"report groups\n");
    for (group, name) in groups.header.names.all().iter().enumerate() {
        let (value, pending) = (groups.value(group), groups.pending(group));
        out.text(name.as_bytes());
        for (what, amount) in
            [(b" value ".as_slice(), value), (b" pending ", pending), (b" total ", value + pending)]
        {
            out.text(what);
            out.signed(amount);
        }
        out.text(b"\n");
    }
}

struct Run<'l, 'a> {
    groups: &'a Groups<'a>,
    lanes: Lanes<'l, Groups<'a>>,
}

impl Run<'_, '_> {
    fn take(&mut self, out: &mut Output, number: u64, judged: Result<GroupLine, Cause>) -> io::Result<()> {
        match judged {
            Ok(GroupLine::Lane(cpu, act)) => self.lanes.keep(number, cpu, act),
            Ok(line) => {
                self.lanes.make_phase(out)?;
                if let GroupLine::Report = line {
                    report(&mut out.held, number, self.groups);
                }
            }
            Err(cause) => self.lanes.refuse(&mut out.held, number, cause),
        }
        Ok(())
    }
}

pub fn groups(input: &mut Input, out: &mut Output) -> Result<u8, Failure> {
    let header = header(input)?;
    let groups = &Groups::start(&header);
    let mut judge = GroupJudge::new(&header);
    lanes::on_threads(groups, header.cpus, |lanes| {
        let mut run = Run { groups, lanes };
        let judge = |text: &[u8]| judge.judge(text);
        let tally = input.lines(out, judge, |out, number, judged| run.take(out, number, judged))?;
        run.lanes.make_phase(out)?;
        tally.write(&mut out.held)?;
        Ok(tally.status())
    })
}
