//! The job of `vozhkell record` in plain Rust, written by hand: it writes the lines of a trace that count, and then the
//! steps that they make on the page counters, one phase after another, in the order of the lines.

use crate::commands::{Failure, Input, Output, State};
use crate::counters::{Limits, Rule, changed, node_threshold, threshold, zones_of};
use crate::pages::{Pages, phases_of};
use crate::trace::{Act, Header, Lane, Line};
use std::io;

const HIGH: usize = 2;

/// Makes the lines of phases, and writes each step that they make.
struct Recorder<'a> {
    header: &'a Header,
    limits: Limits<'a>,
    pages: Pages<'a>,
    out: &'a mut Output,
    /// The pass whose steps are made.
    caller: u64,
    /// What a fold has taken of each item.
    taken: Vec<i64>,
}

impl Recorder<'_> {
    // Events.

    fn begin(&mut self, kind: &str) {
        self.out.held.number(self.caller);
        self.out.held.text(kind.as_bytes());
    }

    fn number(&mut self, number: i64) {
        self.out.held.text(b" ");
        self.out.held.signed(number);
    }

    fn number_or_none(&mut self, number: Option<i64>) {
        match number {
            Some(number) => self.number(number),
            None => self.out.held.text(b" -"),
        }
    }

    fn end(&mut self) -> io::Result<()> {
        self.out.held.text(b"\n");
        self.out.hand_on_much()
    }

    fn event(&mut self, kind: &str, numbers: impl IntoIterator<Item = i64>) -> io::Result<()> {
        self.begin(kind);
        numbers.into_iter().for_each(|number| self.number(number));
        self.end()
    }

    // Calls.

    fn change(&mut self, cpu: usize, counter: usize, pages: i64, mode: i64) -> io::Result<()> {
        let (place, group) = (counter >> self.header.shift(), counter / 8);
        let (threshold, sets) = self.pages.threshold(cpu, place);
        let list = self.pages.list(cpu, group).map(i64::from);
        self.event(" LoadT", [place as i64, threshold.into(), sets.into()])?;
        self.event(" LoadD", [cpu as i64, group as i64].into_iter().chain(list))?;
        let numbers = [counter as i64].into_iter().chain(list).chain([threshold.into(), pages, mode]);
        self.event(" Put", numbers)?;
        let (left, carried) = changed(list[counter % 8] + pages, threshold.into(), mode);
        self.pages.put(cpu, counter, left);
        if carried != 0 {
            self.add_place(counter, carried)?;
            self.add_system(self.header.item_of(counter), carried)?;
        }
        Ok(())
    }

    fn add_place(&mut self, counter: usize, pages: i64) -> io::Result<()> {
        self.pages.places[counter] += pages;
        self.event(" AddG", [counter as i64, pages])
    }

    fn add_system(&mut self, item: usize, pages: i64) -> io::Result<()> {
        self.pages.system[item] += pages;
        self.event(" AddS", [item as i64, pages])
    }

    /// Folds a CPU, which may be the one that makes the fold.
    fn fold(&mut self, cpu: usize, is_own: bool) -> io::Result<()> {
        for place in 0..self.header.places() {
            let (threshold, sets) = self.pages.threshold(cpu, place);
            let acknowledges = is_own && !self.header.is_node(place);
            if acknowledges {
                self.event(" LoadT", [place as i64, threshold.into(), sets.into()])?;
            }
            for group in self.pages.groups_of(place) {
                self.take(cpu, group)?;
            }
            if acknowledges {
                self.pages.acknowledge(cpu, place, sets);
                self.event(" SetA", [place as i64, sets.into()])?;
            }
        }
        for item in 0..self.taken.len() {
            let pages = std::mem::take(&mut self.taken[item]);
            if pages != 0 {
                self.add_system(item, pages)?;
            }
        }
        Ok(())
    }

    fn take(&mut self, cpu: usize, group: usize) -> io::Result<()> {
        let list = self.pages.take(cpu, group).map(i64::from);
        self.event(" Take", [cpu as i64, group as i64].into_iter().chain(list))?;
        for (position, pages) in list.into_iter().enumerate().filter(|&(_, pages)| pages != 0) {
            let counter = 8 * group + position;
            self.taken[self.header.item_of(counter)] += pages;
            self.add_place(counter, pages)?;
        }
        Ok(())
    }

    fn value(&mut self, counter: usize) -> io::Result<u64> {
        let value = self.pages.places[counter];
        self.event(" LoadG", [counter as i64, value])?;
        Ok(value.max(0) as u64)
    }

    fn load_state(&mut self, cpu: usize) -> io::Result<()> {
        self.event(" LoadO", [cpu as i64, self.pages.states[cpu] as i64])
    }

    fn snapshot(&mut self, counter: usize) -> io::Result<u64> {
        let mut sum = self.pages.places[counter];
        self.value(counter)?;
        for cpu in 0..self.header.cpus {
            self.load_state(cpu)?;
            if self.pages.states[cpu] == State::Online {
                let list = self.pages.list(cpu, counter / 8).map(i64::from);
                self.event(" LoadD", [cpu as i64, counter as i64 / 8].into_iter().chain(list))?;
                sum += list[counter % 8];
            }
        }
        Ok(sum.max(0) as u64)
    }

    fn load_mark(&mut self, zone: usize) -> io::Result<u64> {
        let (mark, sets) = self.pages.mark(zone);
        self.event(" LoadM", [zone as i64, mark as i64, sets.into()])?;
        Ok(mark)
    }

    /// The free pages that a watermark test rests on.
    fn free_pages(&mut self, zone: usize) -> io::Result<u64> {
        let counter = zone << self.header.shift();
        self.load_mark(zone)?;
        let value = self.value(counter)?;
        if value < self.load_mark(zone)? { self.snapshot(counter) } else { Ok(value) }
    }

    /// Whether a zone has, above its high watermark, a block of this order.
    fn has_block(&mut self, zone: usize, order: u64, index: u64) -> io::Result<bool> {
        let limit = self.header.zones[zone].marks[HIGH] + self.limits.reserves[zone][index as usize];
        let free = self.free_pages(zone)?;
        if free <= limit + (1 << order) - 1 {
            return Ok(false);
        }
        if order == 0 {
            return Ok(true);
        }
        for at in order as usize..self.limits.areas.len() {
            if let Some(position) = self.limits.areas[at] {
                if self.snapshot((zone << self.header.shift()) + position)? > 0 {
                    return Ok(true);
                }
            }
        }
        Ok(false)
    }

    fn load_states(&mut self) -> io::Result<()> {
        (0..self.header.cpus).try_for_each(|cpu| self.load_state(cpu))
    }

    fn set_threshold(&mut self, cpu: usize, place: usize, threshold: u8) -> io::Result<()> {
        self.pages.set_threshold(cpu, place, threshold);
        self.event(" SetT", [cpu as i64, place as i64, threshold.into()])
    }

    /// Sets the thresholds of a zone by a rule, if it has a mark or in any case.
    fn set_zone(&mut self, zone: usize, rule: Rule, in_any_case: bool) -> io::Result<()> {
        let online = self.pages.online();
        for &cpu in &online {
            self.pages.settle(cpu, zone);
            self.begin(" LoadA");
            self.number(cpu as i64);
            self.number(zone as i64);
            self.number_or_none(self.pages.acknowledged(cpu, zone).map(i64::from));
            self.end()?;
        }
        let mark = self.load_mark(zone)?;
        if mark == 0 && !in_any_case {
            return Ok(());
        }
        let threshold = threshold(rule, &self.header.zones[zone], online.len() as u64) as u8;
        let due = self.pages.due_mark(zone, threshold);
        if due != mark {
            self.pages.set_mark(zone, due);
            self.event(" SetM", [zone as i64, due as i64])?;
        }
        online.into_iter().try_for_each(|cpu| self.set_threshold(cpu, zone, threshold))
    }

    fn set_zones(&mut self, node: usize, rule: Rule) -> io::Result<()> {
        self.load_states()?;
        let header = self.header;
        zones_of(header, node).try_for_each(|(zone, _)| self.set_zone(zone, rule, false))
    }

    fn kswapd(&mut self, node: usize, order: u64, index: u64) -> io::Result<()> {
        self.set_zones(node, Rule::Pressure)?;
        let header = self.header;
        for (zone, size) in zones_of(header, node) {
            if size.kind as u64 <= index && self.has_block(zone, order, index)? {
                return self.set_zones(node, Rule::Normal);
            }
        }
        Ok(())
    }

    fn bury(&mut self, cpu: usize) -> io::Result<()> {
        self.fold(cpu, false)?;
        self.pages.states[cpu] = State::Absent;
        self.event(" SetO", [cpu as i64])?;
        self.load_states()?;
        let zones = self.header.zones.len();
        (0..zones).try_for_each(|zone| self.set_zone(zone, Rule::Normal, true))?;
        let online = self.pages.online();
        for node in zones..self.header.places() {
            let threshold = node_threshold(self.header, node, online.len() as u64) as u8;
            online.iter().try_for_each(|&cpu| self.set_threshold(cpu, node, threshold))?;
        }
        Ok(())
    }

    fn make(&mut self, lane: Lane, act: Act) -> io::Result<()> {
        match (lane, act) {
            (Lane::Cpu(cpu), Act::Mod(counter, pages)) => self.change(cpu, counter, pages, 0),
            (Lane::Cpu(cpu), Act::Inc(counter)) => self.change(cpu, counter, 1, 1),
            (Lane::Cpu(cpu), Act::Dec(counter)) => self.change(cpu, counter, -1, -1),
            (_, Act::Fold(other)) => self.fold(other, matches!(lane, Lane::Cpu(cpu) if cpu == other)),
            (_, Act::Water(zone, _, _)) => self.free_pages(zone).map(drop),
            (_, Act::Val(counter)) => self.value(counter).map(drop),
            (_, Act::Snap(counter)) => self.snapshot(counter).map(drop),
            (_, Act::Sys(item)) => self.event(" LoadS", [item as i64, self.pages.system[item]]),
            (_, Act::Pressure(node)) => self.set_zones(node, Rule::Pressure),
            (_, Act::Normal(node)) => self.set_zones(node, Rule::Normal),
            (_, Act::Dead(cpu)) => self.bury(cpu),
            (_, Act::Kswapd(node, order, index)) => self.kswapd(node, order, index),
            _ => Ok(()),
        }
    }

    // Phases.

    fn phase(&mut self, lines: &[Line]) -> io::Result<()> {
        self.pages.begin_phase();
        self.out.held.text(b"phase\n");
        // The pass of each lane that has lines, that of the control lane last.
        let mut passes = vec![0; self.header.cpus + 1];
        lines.iter().for_each(|&line| passes[self.lane_of(line)] = 1);
        let mut begun = 0;
        for (lane, pass) in passes.iter_mut().enumerate().filter(|(_, pass)| **pass != 0) {
            begun += 1;
            *pass = begun;
            self.caller = 0;
            self.begin(" Split");
            self.number(begun as i64);
            self.number_or_none((lane < self.header.cpus).then_some(lane as i64));
            self.end()?;
        }
        for &line in lines {
            self.caller = passes[self.lane_of(line)];
            if let Line::Lane(lane, act) = line {
                self.make(lane, act)?;
            }
        }
        self.caller = 0;
        (1..=begun).try_for_each(|pass| self.event(" Join", [pass as i64]))
    }

    fn lane_of(&self, line: Line) -> usize {
        match line {
            Line::Lane(Lane::Cpu(cpu), _) => cpu,
            _ => self.header.cpus,
        }
    }
}

pub fn record(input: &mut Input, out: &mut Output) -> Result<u8, Failure> {
    let header = input.header()?;
    header.write_header(&mut out.held)?;
    let mut kept = Vec::new();
    let tally = input.body(&header, out, |out, _, judged| {
        if let Ok(line) = judged {
            header.write_line(&mut out.held, line);
            kept.push(line);
        }
        Ok(())
    })?;
    out.held.text(b"history 1\n");
    let taken = vec![0; 2 * header.positions()];
    let (limits, pages) = (Limits::of(&header), Pages::start(&header));
    let mut recorder = Recorder { header: &header, limits, pages, out, caller: 0, taken };
    for (boundaries, lines) in phases_of(&kept) {
        boundaries.iter().for_each(|&line| recorder.pages.pass(line));
        recorder.phase(lines)?;
    }
    Ok(tally.status())
}
