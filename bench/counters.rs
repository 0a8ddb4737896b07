//! What the plain commands do alike on counters: the formulas of thresholds, marks and reserves, and the calls that go
//! by the same rules whether one thread has the counters (world.rs) or several share them (shared.rs).

use crate::trace::{Header, Zone};
use std::cmp::Ordering;

const MOST_THRESHOLD: u64 = 125;
const MOST_ORDER: usize = 10;
const HIGH: usize = 2;
/// By what the pages above a zone of each kind are divided, to get the pages that it keeps for itself.
const RESERVE_RATIOS: [u64; 4] = [256, 256, 32, 0];

/// By which rule the thresholds of a zone are set.
#[derive(Clone, Copy)]
pub enum Rule {
    Normal,
    Pressure,
}

/// What a watermark test answers. It is fast where it took no snapshot.
pub struct Verdict {
    pub yes: bool,
    pub free: u64,
    pub fast: bool,
}

fn fls(n: u64) -> u64 {
    u64::from(u64::BITS - n.leading_zeros())
}

fn gap(zone: &Zone) -> u64 {
    zone.marks[1] - zone.marks[0]
}

pub fn threshold(rule: Rule, zone: &Zone, online: u64) -> u64 {
    match rule {
        Rule::Normal => MOST_THRESHOLD.min(2 * fls(online) * (1 + fls(zone.managed >> 15))),
        Rule::Pressure => (gap(zone) / online).clamp(1, MOST_THRESHOLD),
    }
}

/// The largest normal threshold of a node's zones, which is the node's own.
pub fn node_threshold(header: &Header, node: usize, online: u64) -> u64 {
    let thresholds = zones_of(header, node).map(|(_, zone)| threshold(Rule::Normal, zone, online));
    thresholds.max().unwrap_or(0)
}

/// Linux's mark of a zone, or a larger one where the CPUs may hide more.
pub fn cover_mark(zone: &Zone, online: u64, hidden: u64) -> u64 {
    let most = hidden.max(online * threshold(Rule::Normal, zone, online));
    if most > gap(zone) { zone.marks[HIGH] + most } else { 0 }
}

/// What a differential becomes that a change takes to this sum, and what moves to the global values. The mode is 0 for
/// `mod`, 1 for `inc` and -1 for `dec`.
#[inline]
pub fn changed(sum: i64, threshold: i64, mode: i64) -> (i8, i64) {
    if sum.abs() <= threshold {
        (sum as i8, 0)
    } else {
        let over = mode * (threshold / 2);
        (-over as i8, sum + over)
    }
}

pub fn zones_of(header: &Header, node: usize) -> impl Iterator<Item = (usize, &Zone)> {
    let number = header.node_number(node);
    header.zones.iter().enumerate().filter(move |(_, zone)| zone.node == number)
}

fn reserve(header: &Header, zone: &Zone, index: usize) -> u64 {
    let kinds = zone.kind + 1..=index;
    let above = header.zones.iter().filter(|other| other.node == zone.node && kinds.contains(&other.kind));
    above.map(|other| other.managed).sum::<u64>().checked_div(RESERVE_RATIOS[zone.kind]).unwrap_or(0)
}

fn area(header: &Header, order: usize) -> Option<usize> {
    let name = format!("area{order}");
    header.declared.iter().find(|item| order > 0 && item.name == name && !item.node && !item.bytes)?;
    header.names(false).iter().position(|item| *item == name)
}

/// What watermark tests go by.
pub struct Limits<'a> {
    pub header: &'a Header,
    /// What each zone keeps for itself, by highest zone index.
    pub reserves: Vec<[u64; 4]>,
    /// The positions of the items that count the free blocks of each order.
    pub areas: [Option<usize>; MOST_ORDER + 1],
}

impl<'a> Limits<'a> {
    pub fn of(header: &'a Header) -> Limits<'a> {
        let reserves = header.zones.iter().map(|zone| [0, 1, 2, 3].map(|index| reserve(header, zone, index)));
        Limits { header, reserves: reserves.collect(), areas: std::array::from_fn(|order| area(header, order)) }
    }
}

/// The counters of a run, as acts, boundary lines and reports see them.
pub trait Counters {
    fn limits(&self) -> &Limits<'_>;

    /// The CPUs that are online or dead, in ascending order, and whether each is dead.
    fn present_cpus(&self) -> Vec<(usize, bool)>;

    // What stands between two phases.

    fn take_down(&mut self, cpu: usize);

    fn bring_up(&mut self, cpu: usize);

    /// Folds the CPUs that are online.
    fn flush(&mut self);

    fn end_phase(&mut self);

    // The page counters.

    /// Changes a counter by `mod` (mode 0), `inc` (mode 1) or `dec` (mode -1).
    fn change(&mut self, cpu: usize, counter: usize, pages: i64, mode: i64);

    /// Folds a CPU that another lane names.
    fn fold(&mut self, cpu: usize);

    /// Folds the CPU whose lane it is, which acknowledges its thresholds.
    fn fold_self(&mut self, cpu: usize);

    fn value(&self, counter: usize) -> u64;

    fn system_value(&self, item: usize) -> u64;

    /// The value with what the CPUs hide that are online.
    fn snapshot(&self, counter: usize) -> u64;

    fn differential(&self, counter: usize, cpu: usize) -> i64;

    /// What a counter adds up to over all CPUs.
    fn total(&self, counter: usize) -> i64;

    fn threshold(&self, place: usize, cpu: usize) -> u64;

    fn mark(&self, zone: usize) -> u64;

    /// The free pages of a zone that a watermark test rests on, and whether they are no snapshot.
    fn free_pages(&self, zone: usize) -> (u64, bool);

    /// Sets the thresholds of those zones of a node that have a mark.
    fn set_zones(&mut self, node: usize, rule: Rule);

    /// Folds a dead CPU, which is absent then.
    fn bury(&mut self, cpu: usize);

    /// Whether a zone has, above a watermark, a block of this order.
    #[inline]
    fn watermark(&self, zone: usize, mark: usize, order: u64, index: u64) -> Verdict {
        let Limits { header, reserves, areas } = self.limits();
        let (free, fast) = self.free_pages(zone);
        let kept = header.zones[zone].marks[mark] + reserves[zone][index as usize] + (1 << order) - 1;
        let first = zone << header.shift();
        let mut areas = areas[order as usize..].iter().flatten();
        let yes = free > kept && (order == 0 || areas.any(|position| self.snapshot(first + position) > 0));
        Verdict { yes, free, fast }
    }

    /// Takes a balance turn: the first zone whose test of its high watermark said yes, and the test.
    fn kswapd(&mut self, node: usize, order: u64, index: u64) -> Option<(usize, Verdict)> {
        self.set_zones(node, Rule::Pressure);
        let found = zones_of(self.limits().header, node)
            .filter(|(_, zone)| zone.kind as u64 <= index)
            .map(|(zone, _)| (zone, self.watermark(zone, HIGH, order, index)))
            .find(|(_, verdict)| verdict.yes);
        if found.is_some() {
            self.set_zones(node, Rule::Normal);
        }
        found
    }

    // The event counters.

    fn count(&mut self, cpu: usize, event: usize, n: u64);

    /// The sum over the CPUs that are online.
    fn events_online(&self, event: usize) -> u64;

    fn events_of_all(&self, event: usize) -> u64;

    // The percpu counters.

    fn batch(&self, counter: usize) -> i64;

    /// How many CPUs were online or dead when the phase began.
    fn present(&self) -> usize;

    /// The count alone.
    fn rough(&self, counter: usize) -> i64;

    fn local(&self, counter: usize, cpu: usize) -> i64;

    /// The sum of the local parts.
    fn locals(&self, counter: usize) -> i64;

    fn add_local(&mut self, counter: usize, cpu: usize, amount: i64);

    /// Under the lock, moves the local part of a CPU and an amount to the count.
    fn settle(&mut self, counter: usize, cpu: usize, amount: i64);

    /// Takes the lock of a counter. There is none where one thread has the counters.
    fn lock(&self, _counter: usize) {}

    fn unlock(&self, _counter: usize) {}

    #[inline]
    fn sync(&mut self, cpu: usize, counter: usize) {
        self.lock(counter);
        self.settle(counter, cpu, 0);
        self.unlock(counter);
    }

    #[inline]
    fn add(&mut self, cpu: usize, counter: usize, amount: i64) {
        if (self.local(counter, cpu) + amount).abs() < self.batch(counter) {
            self.add_local(counter, cpu, amount);
        } else {
            self.lock(counter);
            self.settle(counter, cpu, amount);
            self.unlock(counter);
        }
    }

    #[inline]
    fn sum(&self, counter: usize) -> i64 {
        self.lock(counter);
        let sum = self.rough(counter) + self.locals(counter);
        self.unlock(counter);
        sum
    }

    /// How much the local parts may come to.
    fn unknown(&self, counter: usize) -> i64 {
        self.batch(counter) * self.present() as i64
    }

    /// How a counter compares, and whether its count alone told it.
    #[inline]
    fn compare(&self, counter: usize, with: i64) -> (Ordering, bool) {
        let rough = self.rough(counter);
        if (rough - with).abs() > self.unknown(counter) {
            (rough.cmp(&with), true)
        } else {
            (self.sum(counter).cmp(&with), false)
        }
    }

    /// Whether an amount was added, which must not take the counter past the limit.
    #[inline]
    fn limited_add(&mut self, cpu: usize, counter: usize, limit: i64, amount: i64) -> bool {
        if amount == 0 {
            return true;
        }
        let unknown = self.unknown(counter);
        let room = |reached: i64| if amount > 0 { limit - reached } else { reached - limit };
        let local = self.local(counter, cpu) + amount;
        if local.abs() <= self.batch(counter) && room(self.rough(counter)) >= unknown {
            self.add_local(counter, cpu, amount);
            return true;
        }
        self.lock(counter);
        let reached = self.rough(counter) + amount;
        let left = room(reached);
        let fits = left >= unknown || left + unknown >= 0 && room(reached + self.locals(counter)) >= 0;
        if fits {
            self.settle(counter, cpu, amount);
        }
        self.unlock(counter);
        fits
    }
}
