//! The counters of a run in words that threads share, for the plain program: what the lines of several lanes do to them
//! side by side. Every access to a word is sequentially consistent.

use crate::apart::Apart;
use crate::commands::State;
use crate::counters::{Counters, Limits, Rule, changed, cover_mark, node_threshold, threshold, zones_of};
use crate::names::EVENTS;
use crate::trace::Header;
use std::ops::Deref;
use std::sync::Mutex;
use std::sync::atomic::{AtomicBool, AtomicI64, AtomicU8, AtomicU64, AtomicUsize, Ordering::SeqCst};
use std::{array, hint, thread};

const MOST_ZONES: usize = 16;
const MOST_PLACES: usize = 2 * MOST_ZONES;
const MOST_GROUPS: usize = 2 * MOST_PLACES;
const MOST_ITEMS: usize = 32;
const MOST_COUNTERS: usize = 16;

/// The lower bits of a mark's word are the mark, the upper ones how often it was set.
const MARK_BITS: u32 = 43;
/// The same of a threshold's word.
const THRESHOLD_BITS: u32 = 32;

/// The most that each CPU may hide in each zone.
type Peaks = [[u8; MOST_ZONES]];

/// The words of a CPU.
struct Cpu {
    /// A `State`.
    state: AtomicU8,
    /// By group: eight differentials in a byte each.
    diffs: [AtomicU64; MOST_GROUPS],
    /// By place. Nobody but the control lane sets them.
    thresholds: [AtomicU64; MOST_PLACES],
    /// By zone: one more than the number of the set that the CPU acknowledged last in the phase, or 0.
    acknowledged: [AtomicU64; MOST_ZONES],
    events: [AtomicU64; EVENTS.len()],
    locals: [AtomicI64; MOST_COUNTERS],
}

impl Cpu {
    fn start() -> Apart<Cpu> {
        Apart(Cpu {
            state: AtomicU8::new(State::Online as u8),
            diffs: [const { AtomicU64::new(0) }; MOST_GROUPS],
            thresholds: [const { AtomicU64::new(0) }; MOST_PLACES],
            acknowledged: [const { AtomicU64::new(0) }; MOST_ZONES],
            events: [const { AtomicU64::new(0) }; EVENTS.len()],
            locals: [const { AtomicI64::new(0) }; MOST_COUNTERS],
        })
    }

    fn is(&self, state: State) -> bool {
        self.state.load(SeqCst) == state as u8
    }

    fn diff(&self, counter: usize) -> i64 {
        differential(self.diffs[counter / 8].load(SeqCst), counter)
    }

    /// A threshold and the number of its sets.
    fn threshold(&self, place: usize) -> (u8, u64) {
        let word = self.thresholds[place].load(SeqCst);
        (word as u8, word >> THRESHOLD_BITS)
    }

    fn set_threshold(&self, place: usize, threshold: u8) {
        let (_, sets) = self.threshold(place);
        self.thresholds[place].store((sets + 1) << THRESHOLD_BITS | u64::from(threshold), SeqCst);
    }
}

/// A percpu counter without its local parts.
struct Percpu {
    batch: i64,
    lock: AtomicBool,
    count: AtomicI64,
}

/// All counters.
pub struct Shared<'a> {
    limits: Limits<'a>,
    places: Vec<AtomicI64>,
    system: [AtomicI64; MOST_ITEMS],
    marks: Apart<[AtomicU64; MOST_ZONES]>,
    /// Kept by the control lane while it has lines.
    peaks: Apart<Mutex<Box<Peaks>>>,
    cpus: Vec<Apart<Cpu>>,
    counters: Vec<Apart<Percpu>>,
    /// How many CPUs were online or dead when the phase began.
    present: AtomicUsize,
}

/// The differential of a counter in the word of its group.
fn differential(group: u64, counter: usize) -> i64 {
    i64::from((group >> (8 * (counter % 8))) as i8)
}

fn with_differential(group: u64, counter: usize, diff: i8) -> u64 {
    let at = 8 * (counter % 8);
    group & !(0xff << at) | u64::from(diff as u8) << at
}

impl<'a> Shared<'a> {
    pub fn start(header: &'a Header) -> Shared<'a> {
        let counters = header.counters.iter();
        let shared = Shared {
            limits: Limits::of(header),
            places: header.bases.iter().map(|_| AtomicI64::new(0)).collect(),
            system: [const { AtomicI64::new(0) }; MOST_ITEMS],
            marks: Apart([const { AtomicU64::new(0) }; MOST_ZONES]),
            peaks: Apart(Mutex::new(vec![[0; MOST_ZONES]; header.cpus].into_boxed_slice())),
            cpus: (0..header.cpus).map(|_| Cpu::start()).collect(),
            counters: counters.map(|own| Apart(Percpu::of_batch(own.batch as i64))).collect(),
            present: AtomicUsize::new(header.cpus),
        };
        for (counter, base) in header.bases.iter().enumerate() {
            shared.add_pages(counter, base.unwrap_or(0));
        }
        shared.refresh_between();
        shared
    }

    pub fn header(&self) -> &'a Header {
        self.limits.header
    }

    fn online(&self) -> impl Iterator<Item = &Cpu> {
        self.cpus.iter().map(Deref::deref).filter(|cpu| cpu.is(State::Online))
    }

    fn add_pages(&self, counter: usize, pages: i64) {
        self.places[counter].fetch_add(pages, SeqCst);
        self.system[self.header().item_of(counter)].fetch_add(pages, SeqCst);
    }

    fn fold_pages(&self, cpu: &Cpu, acknowledges: bool) {
        let header = self.header();
        let groups = header.positions() / 8;
        let mut sums = [0; MOST_ITEMS];
        for place in 0..header.places() {
            let (_, sets) = cpu.threshold(place);
            for group in groups * place..groups * (place + 1) {
                self.take(cpu, group, &mut sums);
            }
            if acknowledges && !header.is_node(place) {
                cpu.acknowledged[place].store(sets + 1, SeqCst);
            }
        }
        for (words, sum) in self.system.iter().zip(sums) {
            if sum != 0 {
                words.fetch_add(sum, SeqCst);
            }
        }
    }

    /// Moves the differentials of a group to the global values, and adds them to the sums by item.
    fn take(&self, cpu: &Cpu, group: usize, sums: &mut [i64; MOST_ITEMS]) {
        let word = &cpu.diffs[group];
        // Most groups are empty, and to find that by a load costs less than an exchange.
        let mut left = if word.load(SeqCst) == 0 { 0 } else { word.swap(0, SeqCst) };
        while left != 0 {
            let counter = 8 * group + left.trailing_zeros() as usize / 8;
            let pages = differential(left, counter);
            self.places[counter].fetch_add(pages, SeqCst);
            sums[self.header().item_of(counter)] += pages;
            left = with_differential(left, counter, 0);
        }
    }

    /// Begins the peaks of a phase, before its lanes have threads. A phase whose control lane has no line needs none.
    pub fn begin_peaks(&self) {
        self.find_peaks(&mut self.peaks.lock().unwrap());
    }

    fn find_peaks(&self, peaks: &mut Peaks) {
        let groups = self.header().positions() / 8;
        for (cpu, peaks) in self.cpus.iter().zip(peaks) {
            for (zone, groups) in cpu.diffs.chunks_exact(groups).take(self.header().zones.len()).enumerate() {
                let mut most = [cpu.threshold(zone).0; 8];
                for group in groups {
                    let diffs = group.load(SeqCst).to_le_bytes();
                    most = array::from_fn(|n| most[n].max((diffs[n] as i8).unsigned_abs()));
                }
                peaks[zone] = most.into_iter().max().unwrap_or(0);
                cpu.acknowledged[zone].store(0, SeqCst);
            }
        }
    }

    /// Sets the mark of a zone to what the peaks ask for.
    fn cover(&self, peaks: &Peaks, zone: usize, online: u64) {
        let present = self.cpus.iter().zip(peaks).filter(|(cpu, _)| !cpu.is(State::Absent));
        let hidden = present.map(|(_, peaks)| u64::from(peaks[zone])).sum();
        let mark = cover_mark(&self.header().zones[zone], online, hidden);
        let word = self.marks[zone].load(SeqCst);
        if mark != pages_of(word) {
            self.marks[zone].store(((word >> MARK_BITS) + 1) << MARK_BITS | mark, SeqCst);
        }
    }

    /// Sets the thresholds of a zone.
    fn set_zone(&self, peaks: &mut Peaks, zone: usize, rule: Rule, online: u64) {
        let threshold = threshold(rule, &self.header().zones[zone], online) as u8;
        for (cpu, peaks) in self.cpus.iter().zip(&mut *peaks).filter(|(cpu, _)| cpu.is(State::Online)) {
            let (stands, sets) = cpu.threshold(zone);
            if cpu.acknowledged[zone].load(SeqCst) == sets + 1 {
                peaks[zone] = stands;
            }
            peaks[zone] = peaks[zone].max(threshold);
        }
        // The mark first: a threshold may grow only under a mark that covers it.
        self.cover(peaks, zone, online);
        self.online().for_each(|cpu| cpu.set_threshold(zone, threshold));
    }

    /// Sets all thresholds within a phase.
    fn refresh(&self, peaks: &mut Peaks) {
        let header = self.header();
        let online = self.online().count() as u64;
        (0..header.zones.len()).for_each(|zone| self.set_zone(peaks, zone, Rule::Normal, online));
        for node in header.zones.len()..header.places() {
            let threshold = node_threshold(header, node, online) as u8;
            self.online().for_each(|cpu| cpu.set_threshold(node, threshold));
        }
    }

    /// Sets all thresholds between two phases, so that no peak is older than they are.
    fn refresh_between(&self) {
        let peaks = &mut **self.peaks.lock().unwrap();
        self.refresh(peaks);
        self.find_peaks(peaks);
        let online = self.online().count() as u64;
        (0..self.header().zones.len()).for_each(|zone| self.cover(peaks, zone, online));
    }
}

impl Percpu {
    fn of_batch(batch: i64) -> Percpu {
        Percpu { batch, lock: AtomicBool::new(false), count: AtomicI64::new(0) }
    }
}

/// The mark in its word.
fn pages_of(word: u64) -> u64 {
    word & ((1 << MARK_BITS) - 1)
}

fn shown(pages: i64) -> u64 {
    pages.max(0) as u64
}

impl Counters for &Shared<'_> {
    fn limits(&self) -> &Limits<'_> {
        &self.limits
    }

    fn present_cpus(&self) -> Vec<(usize, bool)> {
        let cpus = self.cpus.iter().enumerate().filter(|(_, cpu)| !cpu.is(State::Absent));
        cpus.map(|(n, cpu)| (n, cpu.is(State::Dead))).collect()
    }

    fn take_down(&mut self, cpu: usize) {
        self.cpus[cpu].state.store(State::Dead as u8, SeqCst);
    }

    fn bring_up(&mut self, cpu: usize) {
        self.cpus[cpu].state.store(State::Online as u8, SeqCst);
        self.refresh_between();
    }

    fn flush(&mut self) {
        self.online().for_each(|cpu| self.fold_pages(cpu, false));
    }

    fn end_phase(&mut self) {
        self.present.store(self.present_cpus().len(), SeqCst);
    }

    fn change(&mut self, cpu: usize, counter: usize, pages: i64, mode: i64) {
        let cpu = &*self.cpus[cpu];
        let (threshold, _) = cpu.threshold(counter >> self.header().shift());
        let group = &cpu.diffs[counter / 8];
        let mut found = group.load(SeqCst);
        let carried = loop {
            let (left, carried) = changed(differential(found, counter) + pages, threshold.into(), mode);
            match group.compare_exchange(found, with_differential(found, counter, left), SeqCst, SeqCst) {
                Ok(_) => break carried,
                // Another lane folded the group.
                Err(other) => found = other,
            }
        };
        if carried != 0 {
            self.add_pages(counter, carried);
        }
    }

    fn fold(&mut self, cpu: usize) {
        self.fold_pages(&self.cpus[cpu], false);
    }

    fn fold_self(&mut self, cpu: usize) {
        self.fold_pages(&self.cpus[cpu], true);
    }

    fn value(&self, counter: usize) -> u64 {
        shown(self.places[counter].load(SeqCst))
    }

    fn system_value(&self, item: usize) -> u64 {
        shown(self.system[item].load(SeqCst))
    }

    fn snapshot(&self, counter: usize) -> u64 {
        let value = self.places[counter].load(SeqCst);
        shown(value + self.online().map(|cpu| cpu.diff(counter)).sum::<i64>())
    }

    fn differential(&self, counter: usize, cpu: usize) -> i64 {
        self.cpus[cpu].diff(counter)
    }

    fn total(&self, counter: usize) -> i64 {
        self.places[counter].load(SeqCst) + self.cpus.iter().map(|cpu| cpu.diff(counter)).sum::<i64>()
    }

    fn threshold(&self, place: usize, cpu: usize) -> u64 {
        self.cpus[cpu].threshold(place).0.into()
    }

    fn mark(&self, zone: usize) -> u64 {
        pages_of(self.marks[zone].load(SeqCst))
    }

    fn free_pages(&self, zone: usize) -> (u64, bool) {
        let counter = zone << self.header().shift();
        let mark = self.marks[zone].load(SeqCst);
        let value = self.value(counter);
        // A mark that was set in between may be one that doesn't cover what CPUs hid of this value.
        let stands = self.marks[zone].load(SeqCst) == mark;
        if stands && value >= pages_of(mark) { (value, true) } else { (self.snapshot(counter), false) }
    }

    fn set_zones(&mut self, node: usize, rule: Rule) {
        let peaks = &mut **self.peaks.lock().unwrap();
        let online = self.online().count() as u64;
        for (zone, _) in zones_of(self.header(), node) {
            if self.mark(zone) != 0 {
                self.set_zone(peaks, zone, rule, online);
            }
        }
    }

    fn bury(&mut self, cpu: usize) {
        let dead = &*self.cpus[cpu];
        self.fold_pages(dead, false);
        let heir = self.online().next().expect("some CPU is online");
        for (word, heirs) in dead.events.iter().zip(&heir.events) {
            heirs.fetch_add(word.swap(0, SeqCst), SeqCst);
        }
        (0..self.counters.len()).for_each(|counter| self.sync(cpu, counter));
        dead.state.store(State::Absent as u8, SeqCst);
        self.refresh(&mut self.peaks.lock().unwrap());
    }

    fn count(&mut self, cpu: usize, event: usize, n: u64) {
        self.cpus[cpu].events[event].fetch_add(n, SeqCst);
    }

    fn events_online(&self, event: usize) -> u64 {
        self.online().map(|cpu| cpu.events[event].load(SeqCst)).sum()
    }

    fn events_of_all(&self, event: usize) -> u64 {
        self.cpus.iter().map(|cpu| cpu.events[event].load(SeqCst)).sum()
    }

    fn batch(&self, counter: usize) -> i64 {
        self.counters[counter].batch
    }

    fn present(&self) -> usize {
        self.present.load(SeqCst)
    }

    fn rough(&self, counter: usize) -> i64 {
        self.counters[counter].count.load(SeqCst)
    }

    fn local(&self, counter: usize, cpu: usize) -> i64 {
        self.cpus[cpu].locals[counter].load(SeqCst)
    }

    fn locals(&self, counter: usize) -> i64 {
        self.cpus.iter().map(|cpu| cpu.locals[counter].load(SeqCst)).sum()
    }

    fn add_local(&mut self, counter: usize, cpu: usize, amount: i64) {
        self.cpus[cpu].locals[counter].fetch_add(amount, SeqCst);
    }

    fn settle(&mut self, counter: usize, cpu: usize, amount: i64) {
        let local = self.cpus[cpu].locals[counter].swap(0, SeqCst);
        self.counters[counter].count.fetch_add(local + amount, SeqCst);
    }

    fn lock(&self, counter: usize) {
        let lock = &self.counters[counter].lock;
        let mut tries = 0;
        while lock.compare_exchange(false, true, SeqCst, SeqCst).is_err() {
            // Who holds it may be waiting for a processor.
            if tries < 6 {
                (0..1 << tries).for_each(|_| hint::spin_loop());
                tries += 1;
            } else {
                thread::yield_now();
            }
        }
    }

    fn unlock(&self, counter: usize) {
        self.counters[counter].lock.store(false, SeqCst);
    }
}
