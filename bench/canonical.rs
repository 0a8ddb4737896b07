//! The one spelling of headers and lines, for the plain commands that write traces.

use crate::commands::Text;
use crate::names::EVENTS;
use crate::trace::{Act, BYTES_OF_PAGE, Header, KINDS, Lane, Line, MARKS, REPORTS};
use std::io::{self, Write};

impl Header {
    pub fn write_header(&self, out: &mut impl Write) -> io::Result<()> {
        writeln!(out, "vmtrace {}", if self.wide { 2 } else { 1 })?;
        writeln!(out, "cpus {}", self.cpus)?;
        for item in &self.declared {
            let class = if item.node { "node" } else { "zone" };
            writeln!(out, "item {class} {}{}", item.name, if item.bytes { " bytes" } else { "" })?;
        }
        for zone in &self.zones {
            let [min, low, high] = zone.marks;
            writeln!(out, "zone {} {} {} {min} {low} {high}", zone.node, KINDS[zone.kind], zone.managed)?;
        }
        for (counter, base) in self.bases.iter().enumerate() {
            if let Some(value @ (1.. | ..=-1)) = base {
                write!(out, "base ")?;
                out.write_all(self.words_of(counter))?;
                writeln!(out, " {value}")?;
            }
        }
        for counter in &self.counters {
            writeln!(out, "counter {} {}", counter.name, counter.batch)?;
        }
        writeln!(out, "go")
    }

    fn write_act(&self, out: &mut Text, act: Act) {
        match act {
            Act::Mod(counter, pages) => {
                self.write_on(out, b" mod ", counter);
                let unit = if self.in_bytes(counter) { BYTES_OF_PAGE } else { 1 };
                write_amount(out, pages * unit)
            }
            Act::Inc(counter) => self.write_on(out, b" inc ", counter),
            Act::Dec(counter) => self.write_on(out, b" dec ", counter),
            Act::Val(counter) => self.write_on(out, b" val ", counter),
            Act::Snap(counter) => self.write_on(out, b" snap ", counter),
            Act::Ev(event, n) => {
                write_name(out, b" ev ", EVENTS[event]);
                write_number(out, b" ", n)
            }
            Act::Cnt(counter, n) => {
                write_name(out, b" cnt ", &self.counters[counter].name);
                write_amount(out, n)
            }
            Act::Lim(counter, most, n) => {
                write_name(out, b" lim ", &self.counters[counter].name);
                write_amount(out, most);
                write_amount(out, n)
            }
            Act::Cmp(counter, n) => {
                write_name(out, b" cmp ", &self.counters[counter].name);
                write_amount(out, n)
            }
            Act::Sum(counter) => write_name(out, b" sum ", &self.counters[counter].name),
            Act::Rough(counter) => write_name(out, b" rough ", &self.counters[counter].name),
            Act::Csync(counter) => write_name(out, b" csync ", &self.counters[counter].name),
            Act::EvSum(event) => write_name(out, b" evsum ", EVENTS[event]),
            Act::Fold(cpu) => write_number(out, b" fold ", cpu as u64),
            Act::Water(zone, mark, index) => {
                write_number(out, b" ok ", self.zones[zone].node);
                write_name(out, b" ", KINDS[self.zones[zone].kind]);
                write_name(out, b" ", MARKS[mark]);
                write_number(out, b" ", index)
            }
            Act::Sys(item) if item < self.positions() => write_name(out, b" sys ", &self.names(false)[item]),
            Act::Sys(item) => write_name(out, b" sys ", &self.names(true)[item - self.positions()]),
            Act::Pressure(node) => write_number(out, b" pressure ", self.node_number(node)),
            Act::Normal(node) => write_number(out, b" normal ", self.node_number(node)),
            Act::Dead(cpu) => write_number(out, b" dead ", cpu as u64),
            Act::Kswapd(node, order, index) => {
                write_number(out, b" kswapd ", self.node_number(node));
                write_number(out, b" ", order);
                write_number(out, b" ", index)
            }
        }
    }

    fn write_on(&self, out: &mut Text, verb: &[u8], counter: usize) {
        out.text(verb);
        out.text(self.words_of(counter));
    }

    pub fn write_line(&self, out: &mut Text, line: Line) {
        match line {
            Line::Blank => return,
            Line::Lane(lane, act) => {
                match lane {
                    Lane::Cpu(cpu) => write_number(out, b"c", cpu as u64),
                    Lane::Control => out.text(b"k"),
                }
                self.write_act(out, act);
            }
            Line::Sync => out.text(b"sync"),
            Line::Offline(cpu) => write_number(out, b"offline ", cpu as u64),
            Line::Online(cpu) => write_number(out, b"online ", cpu as u64),
            Line::Flush => out.text(b"flush"),
            Line::Report(kind) => write_name(out, b"report ", REPORTS[kind]),
        }
        out.text(b"\n");
    }
}

pub fn write_name(out: &mut Text, before: &[u8], name: &str) {
    out.text(before);
    out.text(name.as_bytes());
}

pub fn write_number(out: &mut Text, before: &[u8], n: u64) {
    out.text(before);
    out.number(n);
}

fn write_amount(out: &mut Text, n: i64) {
    out.text(b" ");
    out.signed(n);
}
