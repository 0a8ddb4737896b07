//! What the lines of a body make of counters and what is printed of them, for the plain commands that make them.

use crate::commands::Text;
use crate::counters::{Counters, Rule, Verdict};
use crate::report;
use crate::trace::{Act, KINDS, Lane, Line, REPORTS};
use std::cmp::Ordering;

/// What a line of a lane answers, in 16 bytes.
#[derive(Clone, Copy)]
pub enum Answer {
    Value(u64),
    Snapshot(u64),
    System(u64),
    Events(u64),
    Count(i64),
    Sum(i64),
    Compare { order: Ordering, is_rough: bool },
    Limited(bool),
    Watermark { yes: bool, fast: bool, free: u64 },
    Balanced { kind: u8, fast: bool, free: u64 },
    Unbalanced,
}

/// Makes the act of a lane's line.
#[inline]
pub fn make<C: Counters>(counters: &mut C, lane: Lane, act: Act) -> Option<Answer> {
    match lane {
        Lane::Cpu(cpu) => make_on_cpu(counters, cpu, act),
        Lane::Control => make_on_any(counters, act),
    }
}

#[inline]
fn make_on_cpu<C: Counters>(counters: &mut C, cpu: usize, act: Act) -> Option<Answer> {
    match act {
        Act::Mod(counter, pages) => counters.change(cpu, counter, pages, 0),
        Act::Inc(counter) => counters.change(cpu, counter, 1, 1),
        Act::Dec(counter) => counters.change(cpu, counter, -1, -1),
        Act::Ev(event, n) => counters.count(cpu, event, n),
        Act::Cnt(counter, amount) => counters.add(cpu, counter, amount),
        Act::Lim(counter, limit, amount) => {
            return Some(Answer::Limited(counters.limited_add(cpu, counter, limit, amount)));
        }
        Act::Csync(counter) => counters.sync(cpu, counter),
        Act::Fold(other) if other == cpu => counters.fold_self(cpu),
        _ => return make_on_any(counters, act),
    }
    None
}

/// What an act does that is the same for every lane.
fn make_on_any<C: Counters>(counters: &mut C, act: Act) -> Option<Answer> {
    let answer = match act {
        Act::Val(counter) => Answer::Value(counters.value(counter)),
        Act::Snap(counter) => Answer::Snapshot(counters.snapshot(counter)),
        Act::Sys(item) => Answer::System(counters.system_value(item)),
        Act::EvSum(event) => Answer::Events(counters.events_online(event)),
        Act::Rough(counter) => Answer::Count(counters.rough(counter)),
        Act::Sum(counter) => Answer::Sum(counters.sum(counter)),
        Act::Cmp(counter, with) => {
            let (order, is_rough) = counters.compare(counter, with);
            Answer::Compare { order, is_rough }
        }
        Act::Water(zone, mark, index) => {
            let Verdict { yes, free, fast } = counters.watermark(zone, mark, 0, index);
            Answer::Watermark { yes, fast, free }
        }
        Act::Kswapd(node, order, index) => match counters.kswapd(node, order, index) {
            Some((zone, Verdict { free, fast, .. })) => {
                Answer::Balanced { kind: counters.limits().header.zones[zone].kind as u8, fast, free }
            }
            None => Answer::Unbalanced,
        },
        _ => {
            make_silently(counters, act);
            return None;
        }
    };
    Some(answer)
}

fn make_silently<C: Counters>(counters: &mut C, act: Act) {
    match act {
        Act::Fold(cpu) => counters.fold(cpu),
        Act::Pressure(node) => counters.set_zones(node, Rule::Pressure),
        Act::Normal(node) => counters.set_zones(node, Rule::Normal),
        Act::Dead(cpu) => counters.bury(cpu),
        // The others are acts of CPUs, and `make_on_cpu` has them.
        _ => {}
    }
}

/// Goes past a boundary line, once its phase was made.
pub fn end_phase<C: Counters>(counters: &mut C, out: &mut Text, number: u64, line: Line) {
    match line {
        Line::Offline(cpu) => counters.take_down(cpu),
        Line::Online(cpu) => counters.bring_up(cpu),
        Line::Flush => counters.flush(),
        Line::Report(kind) => {
            out.label(number, b"report ");
            out.text(REPORTS[kind].as_bytes());
            out.text(b"\n");
            report::write(out, counters, kind);
        }
        _ => {}
    }
    counters.end_phase();
}

impl Answer {
    pub fn write(self, out: &mut Text, number: u64) {
        match self {
            Answer::Value(n) => unsigned(out, number, b"value ", n),
            Answer::Snapshot(n) => unsigned(out, number, b"snapshot ", n),
            Answer::System(n) => unsigned(out, number, b"system ", n),
            Answer::Events(n) => unsigned(out, number, b"events ", n),
            Answer::Count(n) => signed(out, number, b"count ", n),
            Answer::Sum(n) => signed(out, number, b"sum ", n),
            Answer::Compare { order, is_rough } => {
                out.label(number, b"compare ");
                out.signed(order as i64);
                out.text(if is_rough { b" rough\n" } else { b" sum\n" });
            }
            Answer::Limited(yes) => out.label(number, if yes { b"limited yes\n" } else { b"limited no\n" }),
            Answer::Watermark { yes, fast, free } => {
                out.label(number, if yes { b"yes" } else { b"no" });
                write_free(out, free, fast);
            }
            Answer::Balanced { kind, fast, free } => {
                out.label(number, b"balanced ");
                out.text(KINDS[usize::from(kind)].as_bytes());
                write_free(out, free, fast);
            }
            Answer::Unbalanced => out.label(number, b"unbalanced\n"),
        }
    }
}

fn unsigned(out: &mut Text, number: u64, what: &[u8], n: u64) {
    out.label(number, what);
    out.number(n);
    out.text(b"\n");
}

fn signed(out: &mut Text, number: u64, what: &[u8], n: i64) {
    out.label(number, what);
    out.signed(n);
    out.text(b"\n");
}

fn write_free(out: &mut Text, free: u64, fast: bool) {
    out.text(b" free ");
    out.number(free);
    out.text(if fast { b" fast\n" } else { b" snapshot\n" });
}
