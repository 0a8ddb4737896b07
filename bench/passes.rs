//! Which events may follow a history of page counters, for the plain judge of one: the counters, and what
//! each pass knows and carries.

use crate::commands::State;
use crate::counters::changed;
use crate::events::{Step, WideList};
use crate::pages::{List, NONE, Pages};
use crate::trace::Zone;

const MOST_THRESHOLD: u64 = 125;
const MOST_MARK: u64 = 1 << 43;
const MOST_VOLUME: u64 = 1 << 48;

/// What the live pass of a CPU, or the live control pass, knows and carries.
struct Pass {
    /// 0 where none lives.
    number: u64,
    /// The own list that it last found, by group.
    found: Vec<Option<List>>,
    /// The own threshold and its number of sets that it last loaded, by place.
    loaded: Vec<Option<(u8, u32)>>,
    /// Whether it took the own list since it loaded the threshold, by group.
    took: Vec<bool>,
    /// Whether it put something since then, by place.
    put: Vec<bool>,
    carried: Vec<i64>,
    carried_of_items: Vec<i64>,
    /// How many of the carried amounts aren't 0.
    amounts: usize,
}

/// Adds to an amount, and counts whether it is 0.
fn carry(amount: &mut i64, pages: i64, amounts: &mut usize) {
    *amounts -= usize::from(*amount != 0);
    *amount += pages;
    *amounts += usize::from(*amount != 0);
}

pub struct Passes<'a> {
    pub pages: Pages<'a>,
    /// How many have begun in the phase.
    pub begun: u64,
    /// By CPU, and last the control pass.
    live: Vec<Pass>,
    /// What each CPU has changed each counter by in the phase, by CPU and then counter.
    spent: Vec<u64>,
}

fn is_same(list: List, wide: &WideList) -> bool {
    list.iter().zip(wide).all(|(&entry, &written)| i64::from(entry) == written)
}

fn covers(zone: &Zone, mark: u64, hidden: u64) -> bool {
    let [min, low, high] = zone.marks;
    if mark == 0 { hidden <= low - min } else { high + hidden <= mark }
}

impl<'a> Passes<'a> {
    pub fn new(pages: Pages<'a>) -> Passes<'a> {
        let (cpus, counters, places) = (pages.header.cpus, pages.places.len(), pages.header.places());
        let none = || Pass {
            number: 0,
            found: vec![None; counters / 8],
            loaded: vec![None; places],
            took: vec![false; counters / 8],
            put: vec![false; places],
            carried: vec![0; counters],
            carried_of_items: vec![0; 2 * pages.header.positions()],
            amounts: 0,
        };
        let live = (0..=cpus).map(|_| none()).collect();
        Passes { begun: 0, live, spent: vec![0; cpus * counters], pages }
    }

    /// Begins a phase once all passes have ended.
    pub fn begin_phase(&mut self) {
        self.pages.begin_phase();
        self.begun = 0;
        self.spent.fill(0);
    }

    fn control(&self) -> usize {
        self.pages.header.cpus
    }

    /// Where a pass stands that lives.
    pub fn slot(&self, number: u64) -> Option<usize> {
        self.live.iter().position(|pass| number != 0 && pass.number == number)
    }

    /// The pass that lives in a slot.
    pub fn number(&self, slot: usize) -> u64 {
        self.live[slot].number
    }

    fn zone(&self, place: usize) -> Option<&'a Zone> {
        self.pages.header.zones.get(place)
    }

    /// Whether the event may be made.
    pub fn is_legal(&self, caller: u64, step: &Step) -> bool {
        match *step {
            Step::Split { pass, cpu } => {
                let slot = cpu.unwrap_or(self.control());
                let may_own = cpu.is_none_or(|cpu| self.pages.states[cpu] == State::Online);
                caller == 0 && pass != 0 && pass - 1 == self.begun && may_own && self.live[slot].number == 0
            }
            Step::Join { pass } => caller == 0 && self.slot(pass).is_some_and(|slot| self.live[slot].amounts == 0),
            _ => self.slot(caller).is_some_and(|slot| self.meets(slot, step)),
        }
    }

    fn meets(&self, slot: usize, step: &Step) -> bool {
        let (pages, pass, is_control) = (&self.pages, &self.live[slot], slot == self.control());
        match *step {
            Step::LoadT { place, threshold, sets } => {
                !is_control && {
                    let (stands, count) = pages.threshold(slot, place);
                    u64::from(stands) == threshold && u64::from(count) == sets
                }
            }
            Step::LoadD { cpu, group, ref list } | Step::Take { cpu, group, ref list } => {
                is_same(pages.list(cpu, group), list)
            }
            Step::Put { counter, ref list, threshold, delta, .. } => {
                let (group, place) = (counter / 8, counter >> pages.header.shift());
                !is_control
                    && is_same(pages.list(slot, group), list)
                    && pass.found[group].is_some_and(|found| is_same(found, list))
                    && pass.loaded[place].is_some_and(|(loaded, _)| u64::from(loaded) == threshold)
                    && pages.states[slot] == State::Online
                    && pass.amounts == 0
                    && self.spent[slot * pages.places.len() + counter]
                        .checked_add(delta.unsigned_abs())
                        .is_some_and(|spent| spent <= MOST_VOLUME)
            }
            Step::Miss { group, ref list } => {
                !is_control
                    && pages.list(slot, group) == NONE
                    && *list != [0; 8]
                    && pass.found[group].is_some_and(|found| is_same(found, list))
            }
            Step::AddG { counter, pages } => pages != 0 && pass.carried[counter] == pages,
            Step::AddS { item, pages } => pages != 0 && pass.carried_of_items[item] == pages,
            Step::LoadG { counter, value } => pages.places[counter] == value,
            Step::LoadS { item, value } => pages.system[item] == value,
            Step::LoadM { place, mark, sets } => {
                self.zone(place).is_some() && {
                    let (stands, count) = pages.mark(place);
                    stands == mark && u64::from(count) == sets
                }
            }
            Step::LoadO { cpu, state } => pages.states[cpu] as u64 == state,
            Step::SetT { cpu, place, threshold } => {
                let least = |other: usize| if other == cpu { threshold as u8 } else { 0 };
                is_control
                    && pages.states[cpu] == State::Online
                    && (1..=MOST_THRESHOLD).contains(&threshold)
                    && self
                        .zone(place)
                        .is_none_or(|zone| covers(zone, pages.mark(place).0, pages.peak_sum(place, least)))
            }
            Step::SetM { place, mark } => {
                is_control
                    && mark < MOST_MARK
                    && self.zone(place).is_some_and(|zone| covers(zone, mark, pages.peak_sum(place, |_| 0)))
            }
            Step::SetO { cpu } => {
                is_control
                    && pages.states[cpu] == State::Dead
                    && (0..pages.groups()).all(|group| pages.list(cpu, group) == NONE)
            }
            Step::SetA { place, sets } => {
                !is_control
                    && self.zone(place).is_some()
                    && pass.loaded[place].is_some_and(|(_, loaded)| u64::from(loaded) == sets)
                    && pages.groups_of(place).all(|group| pass.took[group])
                    && !pass.put[place]
            }
            Step::LoadA { cpu, place, sets } => {
                is_control && self.zone(place).is_some() && pages.acknowledged(cpu, place).map(u64::from) == sets
            }
            Step::Split { .. } | Step::Join { .. } => false,
        }
    }

    /// Makes an event that may be made.
    pub fn make(&mut self, caller: u64, step: &Step) {
        match *step {
            Step::Split { pass, cpu } => {
                let control = self.control();
                let own = &mut self.live[cpu.unwrap_or(control)];
                own.number = pass;
                own.found.fill(None);
                own.loaded.fill(None);
                own.took.fill(false);
                own.put.fill(false);
                self.begun = pass;
            }
            Step::Join { pass } => {
                if let Some(slot) = self.slot(pass) {
                    self.live[slot].number = 0;
                }
            }
            _ => {
                if let Some(slot) = self.slot(caller) {
                    self.work(slot, step);
                }
            }
        }
    }

    fn work(&mut self, slot: usize, step: &Step) {
        let header = self.pages.header;
        let pass = &mut self.live[slot];
        match *step {
            Step::LoadT { place, threshold, sets } => {
                pass.loaded[place] = Some((threshold as u8, sets as u32));
                pass.put[place] = false;
                pass.took[self.pages.groups_of(place)].fill(false);
            }
            Step::LoadD { cpu, group, .. } if cpu == slot => pass.found[group] = Some(self.pages.list(cpu, group)),
            Step::Miss { group, .. } => pass.found[group] = Some(NONE),
            Step::Put { counter, ref list, threshold, delta, mode } => {
                let (left, carried) = changed(list[counter % 8] + delta, threshold as i64, mode);
                self.pages.put(slot, counter, left);
                pass.found[counter / 8] = Some(self.pages.list(slot, counter / 8));
                pass.put[counter >> header.shift()] = true;
                carry(&mut pass.carried[counter], carried, &mut pass.amounts);
                carry(&mut pass.carried_of_items[header.item_of(counter)], carried, &mut pass.amounts);
                self.spent[slot * self.pages.places.len() + counter] += delta.unsigned_abs();
            }
            Step::Take { cpu, group, .. } => {
                let list = self.pages.take(cpu, group);
                if cpu == slot {
                    pass.found[group] = Some(NONE);
                    pass.took[group] = true;
                }
                for (position, entry) in list.into_iter().enumerate().filter(|&(_, entry)| entry != 0) {
                    let counter = 8 * group + position;
                    carry(&mut pass.carried[counter], entry.into(), &mut pass.amounts);
                    carry(&mut pass.carried_of_items[header.item_of(counter)], entry.into(), &mut pass.amounts);
                }
            }
            Step::AddG { counter, pages } => {
                self.pages.places[counter] += pages;
                carry(&mut pass.carried[counter], -pages, &mut pass.amounts);
            }
            Step::AddS { item, pages } => {
                self.pages.system[item] += pages;
                carry(&mut pass.carried_of_items[item], -pages, &mut pass.amounts);
            }
            Step::SetT { cpu, place, threshold } => self.pages.set_threshold(cpu, place, threshold as u8),
            Step::SetM { place, mark } => self.pages.set_mark(place, mark),
            Step::SetO { cpu } => self.pages.states[cpu] = State::Absent,
            Step::SetA { place, sets } => self.pages.acknowledge(slot, place, sets as u32),
            Step::LoadA { cpu, place, .. } => self.pages.settle(cpu, place),
            _ => {}
        }
    }
}
