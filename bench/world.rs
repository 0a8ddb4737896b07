//! The counters of a run in plain data, for the plain program: what the lines of a trace do to them, in the order of
//! the trace.

use crate::counters::{Counters, Limits, Rule, changed, cover_mark, node_threshold, threshold, zones_of};
use crate::names::EVENTS;
use crate::trace::Header;
use std::mem;

/// The most that a CPU may hide in a zone, in the phase of that number.
#[derive(Clone, Copy, Default)]
struct Peak {
    phase: u32,
    pages: u8,
    /// Whether the CPU has folded itself in the phase since its threshold was last set.
    acknowledged: bool,
}

/// The page counters. In a list over things and CPUs, what the CPUs have of one thing stands side by side.
struct Pages<'a> {
    header: &'a Header,
    limits: Limits<'a>,
    phase: u32,
    places: Vec<i64>,
    system: Vec<i64>,
    diffs: Vec<i8>,
    thresholds: Vec<u8>,
    peaks: Vec<Peak>,
    marks: Vec<u64>,
}

impl<'a> Pages<'a> {
    fn start(header: &'a Header) -> Pages<'a> {
        let (cpus, zones) = (header.cpus, &header.zones);
        let mut pages = Pages {
            header,
            limits: Limits::of(header),
            phase: 1,
            places: vec![0; header.bases.len()],
            system: vec![0; 2 * header.positions()],
            diffs: vec![0; header.bases.len() * cpus],
            thresholds: vec![0; (zones.len() + header.nodes.len()) * cpus],
            peaks: vec![Peak::default(); zones.len() * cpus],
            marks: vec![0; zones.len()],
        };
        for (counter, base) in header.bases.iter().enumerate() {
            pages.add(counter, base.unwrap_or(0));
        }
        pages
    }

    fn diffs(&self, counter: usize) -> &[i8] {
        &self.diffs[counter * self.header.cpus..][..self.header.cpus]
    }

    fn add(&mut self, counter: usize, pages: i64) {
        self.places[counter] += pages;
        self.system[self.header.item_of(counter)] += pages;
    }

    fn change(&mut self, cpu: usize, counter: usize, pages: i64, mode: i64) {
        let place = counter >> self.header.shift();
        self.begin_peak(place, cpu);
        let threshold = i64::from(self.thresholds[place * self.header.cpus + cpu]);
        let diff = &mut self.diffs[counter * self.header.cpus + cpu];
        let (left, carried) = changed(i64::from(*diff) + pages, threshold, mode);
        *diff = left;
        if carried != 0 {
            self.add(counter, carried);
        }
    }

    fn fold(&mut self, cpu: usize) {
        for counter in 0..self.places.len() {
            let at = counter * self.header.cpus + cpu;
            if self.diffs[at] != 0 {
                self.begin_peak(counter >> self.header.shift(), cpu);
                let pages = mem::take(&mut self.diffs[at]);
                self.add(counter, i64::from(pages));
            }
        }
    }

    fn snapshot(&self, counter: usize, dead: &[usize]) -> u64 {
        let diffs = self.diffs(counter);
        let all: i32 = diffs.iter().copied().map(i32::from).sum();
        let hidden = dead.iter().fold(all, |sum, &cpu| sum - i32::from(diffs[cpu]));
        (self.places[counter] + i64::from(hidden)).max(0) as u64
    }

    /// Makes a peak of the phase, if there is none, before what it begins with changes.
    #[inline]
    fn begin_peak(&mut self, place: usize, cpu: usize) {
        let at = place * self.header.cpus + cpu;
        if self.peaks.get(at).is_some_and(|peak| peak.phase != self.phase) {
            self.peaks[at] = self.first_peak(place, cpu);
        }
    }

    /// In a phase a peak begins as the largest of the threshold and the differentials.
    fn first_peak(&self, zone: usize, cpu: usize) -> Peak {
        let (cpus, width) = (self.header.cpus, self.header.positions() * self.header.cpus);
        let diffs = self.diffs[zone * width..][..width].iter().skip(cpu).step_by(cpus);
        let most = diffs.map(|diff| diff.unsigned_abs()).max().unwrap_or(0);
        let pages = most.max(self.thresholds[zone * cpus + cpu]);
        Peak { phase: self.phase, pages, acknowledged: false }
    }

    fn peak(&mut self, zone: usize, cpu: usize) -> &mut Peak {
        self.begin_peak(zone, cpu);
        &mut self.peaks[zone * self.header.cpus + cpu]
    }

    /// Where a CPU has acknowledged its threshold in a zone, it hides no more than that.
    fn settle(&mut self, zone: usize, cpu: usize) {
        let threshold = self.thresholds[zone * self.header.cpus + cpu];
        let peak = self.peak(zone, cpu);
        if peak.acknowledged {
            peak.pages = threshold;
        }
    }

    fn raise(&mut self, zone: usize, cpu: usize, threshold: u8) {
        let peak = self.peak(zone, cpu);
        peak.pages = peak.pages.max(threshold);
        peak.acknowledged = false;
        self.thresholds[zone * self.header.cpus + cpu] = threshold;
    }

    /// Sets the mark of a zone to Linux's, or to more where the peaks ask for it.
    fn cover(&mut self, zone: usize, online: &[usize], dead: &[usize]) {
        let hidden = online.iter().chain(dead).map(|&cpu| u64::from(self.peak(zone, cpu).pages)).sum();
        self.marks[zone] = cover_mark(&self.header.zones[zone], online.len() as u64, hidden);
    }

    /// Sets the thresholds of a zone within a phase.
    fn set_zone(&mut self, zone: usize, rule: Rule, online: &[usize], dead: &[usize]) {
        let threshold = threshold(rule, &self.header.zones[zone], online.len() as u64) as u8;
        for &cpu in online {
            self.settle(zone, cpu);
            self.raise(zone, cpu, threshold);
        }
        self.cover(zone, online, dead);
    }

    /// Sets the thresholds of a node to the largest of its zones'.
    fn set_node(&mut self, node: usize, online: &[usize]) {
        let threshold = node_threshold(self.header, node, online.len() as u64) as u8;
        for &cpu in online {
            self.thresholds[node * self.header.cpus + cpu] = threshold;
        }
    }

    /// Sets all thresholds within a phase.
    fn refresh(&mut self, online: &[usize], dead: &[usize]) {
        let zones = self.header.zones.len();
        (0..zones).for_each(|zone| self.set_zone(zone, Rule::Normal, online, dead));
        (zones..zones + self.header.nodes.len()).for_each(|node| self.set_node(node, online));
    }

    /// Sets all thresholds between two phases, so that no peak is older than they are.
    fn refresh_between(&mut self, online: &[usize], dead: &[usize]) {
        self.refresh(online, dead);
        self.phase += 1;
        (0..self.header.zones.len()).for_each(|zone| self.cover(zone, online, dead));
    }
}

/// A percpu counter without its local parts.
struct Shared {
    batch: i64,
    count: i64,
}

/// All counters, and the CPUs, each list of them in ascending order.
pub struct World<'a> {
    pages: Pages<'a>,
    events: Vec<u64>,
    shared: Vec<Shared>,
    locals: Vec<i64>,
    cpus: usize,
    online: Vec<usize>,
    dead: Vec<usize>,
    /// How many CPUs were online or dead when the phase began.
    present: usize,
}

impl<'a> World<'a> {
    pub fn start(header: &'a Header) -> World<'a> {
        let cpus = header.cpus;
        let mut world = World {
            pages: Pages::start(header),
            events: vec![0; EVENTS.len() * cpus],
            shared: header.counters.iter().map(|own| Shared { batch: own.batch as i64, count: 0 }).collect(),
            locals: vec![0; header.counters.len() * cpus],
            cpus,
            online: (0..cpus).collect(),
            dead: Vec::new(),
            present: cpus,
        };
        world.pages.refresh_between(&world.online, &world.dead);
        world
    }

    fn words(&self, event: usize) -> &[u64] {
        &self.events[event * self.cpus..][..self.cpus]
    }
}

impl Counters for World<'_> {
    fn limits(&self) -> &Limits<'_> {
        &self.pages.limits
    }

    fn present_cpus(&self) -> Vec<(usize, bool)> {
        let dead = self.dead.iter().map(|&cpu| (cpu, true));
        let mut present: Vec<_> = self.online.iter().map(|&cpu| (cpu, false)).chain(dead).collect();
        present.sort();
        present
    }

    fn take_down(&mut self, cpu: usize) {
        self.online.retain(|&other| other != cpu);
        self.dead.push(cpu);
        self.dead.sort();
    }

    fn bring_up(&mut self, cpu: usize) {
        self.online.push(cpu);
        self.online.sort();
        self.pages.refresh_between(&self.online, &self.dead);
    }

    fn flush(&mut self) {
        self.online.iter().for_each(|&cpu| self.pages.fold(cpu));
    }

    fn end_phase(&mut self) {
        self.pages.phase += 1;
        self.present = self.online.len() + self.dead.len();
    }

    fn change(&mut self, cpu: usize, counter: usize, pages: i64, mode: i64) {
        self.pages.change(cpu, counter, pages, mode);
    }

    fn fold(&mut self, cpu: usize) {
        self.pages.fold(cpu);
    }

    fn fold_self(&mut self, cpu: usize) {
        self.pages.fold(cpu);
        (0..self.pages.marks.len()).for_each(|zone| self.pages.peak(zone, cpu).acknowledged = true);
    }

    fn value(&self, counter: usize) -> u64 {
        self.pages.places[counter].max(0) as u64
    }

    fn system_value(&self, item: usize) -> u64 {
        self.pages.system[item].max(0) as u64
    }

    fn snapshot(&self, counter: usize) -> u64 {
        self.pages.snapshot(counter, &self.dead)
    }

    fn differential(&self, counter: usize, cpu: usize) -> i64 {
        i64::from(self.pages.diffs(counter)[cpu])
    }

    fn total(&self, counter: usize) -> i64 {
        self.pages.places[counter] + self.pages.diffs(counter).iter().copied().map(i64::from).sum::<i64>()
    }

    fn threshold(&self, place: usize, cpu: usize) -> u64 {
        u64::from(self.pages.thresholds[place * self.cpus + cpu])
    }

    fn mark(&self, zone: usize) -> u64 {
        self.pages.marks[zone]
    }

    fn free_pages(&self, zone: usize) -> (u64, bool) {
        let counter = zone << self.pages.header.shift();
        let value = self.value(counter);
        if value >= self.pages.marks[zone] { (value, true) } else { (self.snapshot(counter), false) }
    }

    fn set_zones(&mut self, node: usize, rule: Rule) {
        for (zone, _) in zones_of(self.pages.header, node) {
            if self.pages.marks[zone] != 0 {
                self.pages.set_zone(zone, rule, &self.online, &self.dead);
            }
        }
    }

    fn bury(&mut self, cpu: usize) {
        self.pages.fold(cpu);
        for words in self.events.chunks_exact_mut(self.cpus) {
            words[self.online[0]] += mem::take(&mut words[cpu]);
        }
        (0..self.shared.len()).for_each(|counter| self.sync(cpu, counter));
        self.dead.retain(|&other| other != cpu);
        self.pages.refresh(&self.online, &self.dead);
    }

    fn count(&mut self, cpu: usize, event: usize, n: u64) {
        self.events[event * self.cpus + cpu] += n;
    }

    fn events_online(&self, event: usize) -> u64 {
        let words = self.words(event);
        self.events_of_all(event) - self.dead.iter().map(|&cpu| words[cpu]).sum::<u64>()
    }

    fn events_of_all(&self, event: usize) -> u64 {
        self.words(event).iter().sum()
    }

    fn batch(&self, counter: usize) -> i64 {
        self.shared[counter].batch
    }

    fn present(&self) -> usize {
        self.present
    }

    fn rough(&self, counter: usize) -> i64 {
        self.shared[counter].count
    }

    fn local(&self, counter: usize, cpu: usize) -> i64 {
        self.locals[counter * self.cpus + cpu]
    }

    fn locals(&self, counter: usize) -> i64 {
        self.locals[counter * self.cpus..][..self.cpus].iter().sum()
    }

    fn add_local(&mut self, counter: usize, cpu: usize, amount: i64) {
        self.locals[counter * self.cpus + cpu] += amount;
    }

    fn settle(&mut self, counter: usize, cpu: usize, amount: i64) {
        self.shared[counter].count += mem::take(&mut self.locals[counter * self.cpus + cpu]) + amount;
    }
}
