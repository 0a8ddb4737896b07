//! The page counters in plain data, step by step and from phase to phase, for the plain commands that write or judge
//! histories.

use crate::commands::State;
use crate::counters::{Rule, cover_mark, node_threshold, threshold};
use crate::trace::{Header, Line};
use std::mem;

/// The differentials of a group.
pub type List = [i8; 8];

pub const NONE: List = [0; 8];

/// What stands: the global values, and of each CPU its differentials, thresholds and peaks, by CPU and then thing.
pub struct Pages<'a> {
    pub header: &'a Header,
    pub states: Vec<State>,
    pub places: Vec<i64>,
    pub system: Vec<i64>,
    lists: Vec<List>,
    thresholds: Vec<u8>,
    threshold_sets: Vec<u32>,
    acknowledged: Vec<Option<u32>>,
    peaks: Vec<u8>,
    marks: Vec<u64>,
    mark_sets: Vec<u32>,
}

impl<'a> Pages<'a> {
    pub fn start(header: &'a Header) -> Pages<'a> {
        let (cpus, zones, places) = (header.cpus, header.zones.len(), header.places());
        let mut pages = Pages {
            header,
            states: vec![State::Online; cpus],
            places: header.bases.iter().map(|base| base.unwrap_or(0)).collect(),
            system: vec![0; 2 * header.positions()],
            lists: vec![NONE; cpus * header.bases.len() / 8],
            thresholds: vec![0; cpus * places],
            threshold_sets: vec![0; cpus * places],
            acknowledged: vec![None; cpus * zones],
            peaks: vec![0; cpus * zones],
            marks: vec![0; zones],
            mark_sets: vec![0; zones],
        };
        for (counter, value) in pages.places.iter().enumerate() {
            pages.system[header.item_of(counter)] += value;
        }
        pages.refresh();
        pages
    }

    pub fn groups(&self) -> usize {
        self.places.len() / 8
    }

    pub fn groups_of(&self, place: usize) -> std::ops::Range<usize> {
        let each = self.header.positions() / 8;
        each * place..each * (place + 1)
    }

    pub fn online(&self) -> Vec<usize> {
        (0..self.states.len()).filter(|&cpu| self.states[cpu] == State::Online).collect()
    }

    pub fn list(&self, cpu: usize, group: usize) -> List {
        self.lists[cpu * self.groups() + group]
    }

    /// A threshold, and how often it was set in the phase.
    pub fn threshold(&self, cpu: usize, place: usize) -> (u8, u32) {
        let at = cpu * self.header.places() + place;
        (self.thresholds[at], self.threshold_sets[at])
    }

    /// A mark, and how often it was set in the phase.
    pub fn mark(&self, zone: usize) -> (u64, u32) {
        (self.marks[zone], self.mark_sets[zone])
    }

    pub fn acknowledged(&self, cpu: usize, zone: usize) -> Option<u32> {
        self.acknowledged[cpu * self.marks.len() + zone]
    }

    fn peak(&self, cpu: usize, zone: usize) -> u8 {
        self.peaks[cpu * self.marks.len() + zone]
    }

    /// What the CPUs may hide of a zone that are online or dead, if each has a peak of at least what `least` says.
    pub fn peak_sum(&self, zone: usize, least: impl Fn(usize) -> u8) -> u64 {
        let present = (0..self.states.len()).filter(|&cpu| self.states[cpu] != State::Absent);
        present.map(|cpu| u64::from(self.peak(cpu, zone).max(least(cpu)))).sum()
    }

    /// The mark that covers a zone once this threshold is set on the CPUs that are online.
    pub fn due_mark(&self, zone: usize, threshold: u8) -> u64 {
        let least = |cpu: usize| if self.states[cpu] == State::Online { threshold } else { 0 };
        cover_mark(&self.header.zones[zone], self.online().len() as u64, self.peak_sum(zone, least))
    }

    // The steps that change something.

    pub fn put(&mut self, cpu: usize, counter: usize, left: i8) {
        let groups = self.groups();
        self.lists[cpu * groups + counter / 8][counter % 8] = left;
    }

    pub fn take(&mut self, cpu: usize, group: usize) -> List {
        let groups = self.groups();
        mem::take(&mut self.lists[cpu * groups + group])
    }

    pub fn set_threshold(&mut self, cpu: usize, place: usize, threshold: u8) {
        let at = cpu * self.header.places() + place;
        self.thresholds[at] = threshold;
        self.threshold_sets[at] += 1;
        if place < self.marks.len() {
            let peak = &mut self.peaks[cpu * self.marks.len() + place];
            *peak = threshold.max(*peak);
        }
    }

    pub fn set_mark(&mut self, zone: usize, mark: u64) {
        self.marks[zone] = mark;
        self.mark_sets[zone] += 1;
    }

    pub fn acknowledge(&mut self, cpu: usize, zone: usize, sets: u32) {
        self.acknowledged[cpu * self.marks.len() + zone] = Some(sets);
    }

    /// What a load of an acknowledgement makes of a peak: the threshold that stands, if the CPU has acknowledged that.
    pub fn settle(&mut self, cpu: usize, zone: usize) {
        let (threshold, sets) = self.threshold(cpu, zone);
        if self.acknowledged(cpu, zone) == Some(sets) {
            self.peaks[cpu * self.marks.len() + zone] = threshold;
        }
    }

    // Between two phases.

    /// Forgets what counts in one phase alone.
    pub fn begin_phase(&mut self) {
        self.threshold_sets.fill(0);
        self.mark_sets.fill(0);
        self.acknowledged.fill(None);
        for cpu in 0..self.states.len() {
            for zone in 0..self.marks.len() {
                let lists = self.groups_of(zone).flat_map(|group| self.list(cpu, group));
                let most = lists.map(i8::unsigned_abs).fold(self.threshold(cpu, zone).0, u8::max);
                self.peaks[cpu * self.marks.len() + zone] = most;
            }
        }
    }

    pub fn pass(&mut self, boundary: Line) {
        match boundary {
            Line::Offline(cpu) => self.states[cpu] = State::Dead,
            Line::Online(cpu) => {
                self.states[cpu] = State::Online;
                self.refresh();
            }
            Line::Flush => self.online().into_iter().for_each(|cpu| self.fold(cpu)),
            _ => {}
        }
    }

    fn fold(&mut self, cpu: usize) {
        for group in 0..self.groups() {
            for (position, pages) in self.take(cpu, group).into_iter().map(i64::from).enumerate() {
                let counter = 8 * group + position;
                self.places[counter] += pages;
                self.system[self.header.item_of(counter)] += pages;
            }
        }
    }

    fn refresh(&mut self) {
        let (online, zones) = (self.online(), self.header.zones.len());
        for place in 0..self.header.places() {
            let threshold = match self.header.zones.get(place) {
                Some(zone) => threshold(Rule::Normal, zone, online.len() as u64),
                None => node_threshold(self.header, place, online.len() as u64),
            };
            online.iter().for_each(|&cpu| self.set_threshold(cpu, place, threshold as u8));
        }
        self.begin_phase();
        (0..zones).for_each(|zone| self.marks[zone] = self.due_mark(zone, 0));
    }
}

/// The lines of a body, cut into its phases: the boundary lines that stand before each, and its own.
pub fn phases_of(lines: &[Line]) -> Vec<(&[Line], &[Line])> {
    let mut phases = Vec::new();
    let mut rest = lines;
    while let Some(begin) = rest.iter().position(|line| matches!(line, Line::Lane(..))) {
        let (boundaries, body) = rest.split_at(begin);
        let end = body.iter().position(|line| !matches!(line, Line::Lane(..))).unwrap_or(body.len());
        phases.push((boundaries, &body[..end]));
        rest = &body[end..];
    }
    phases
}
