//! Which steps the lines of a lane make, one after another, for the plain judge of histories.

use crate::commands::State;
use crate::counters::{Limits, Rule, changed, node_threshold, threshold, zones_of};
use crate::events::Step;
use crate::pages::Pages;
use crate::trace::{Act, Header, Lane};

const HIGH: usize = 2;

/// A step that is due. What it tells is judged elsewhere.
#[derive(Clone, Copy)]
enum Want {
    LoadT(usize),
    LoadD(usize, usize),
    /// An exchange that may be lost.
    Exchange(usize, i64, i64),
    /// One that can't, since it comes after a lost one.
    Put(usize, i64, i64),
    AddG(usize, i64),
    AddS(usize, i64),
    Take(usize, usize),
    LoadG(usize),
    LoadS(usize),
    LoadM(usize),
    LoadO(usize),
    SetT(usize, usize, u8),
    SetM(usize, u64),
    SetO(usize),
    SetA(usize),
    LoadA(usize, usize),
}

/// What follows once the steps before it were made, by what they told.
#[derive(Clone, Copy)]
enum Next {
    /// A change is over, or goes to the global values.
    Moved,
    /// The differential of a CPU for a counter, if the CPU is online.
    IfOnline(usize, usize),
    AddUp(usize),
    /// A watermark test goes by its value, or by a snapshot of this counter.
    Test(usize),
    Free,
    Took(usize),
    Sums,
    Online(usize),
    Rate(usize, Rule, bool),
    Rated(usize, Rule, bool),
    RateNode(usize),
    /// A balance turn comes to this zone.
    Balance { node: usize, zone: usize, order: u64, index: u64 },
    Tested { node: usize, zone: usize, order: u64, index: u64 },
    Area { node: usize, zone: usize, order: u64, index: u64, at: u64 },
    Counted { node: usize, zone: usize, order: u64, index: u64, at: u64 },
}

#[derive(Clone, Copy)]
enum Due {
    Step(Want),
    Then(Next),
}

/// What steps of the call have told.
#[derive(Default)]
struct Told {
    /// A threshold and the number of its sets.
    threshold: (u64, u64),
    first_mark: (u64, u64),
    last_mark: (u64, u64),
    value: i64,
    sum: i64,
    free: u64,
    is_online: bool,
    list: [i64; 8],
    /// What a put moves: its counter, and how much.
    moved: (usize, i64),
}

/// A lane that has lines, and where it stands in them.
pub struct LaneScript<'a> {
    header: &'a Header,
    limits: &'a Limits<'a>,
    lane: Lane,
    acts: Vec<Act>,
    next: usize,
    /// The next one last.
    due: Vec<Due>,
    told: Told,
    /// The CPUs that the call found online.
    online: Vec<usize>,
    /// What a fold took of each item.
    sums: Vec<i64>,
    pub begun: bool,
    pub ended: bool,
}

impl<'a> LaneScript<'a> {
    pub fn new(limits: &'a Limits<'a>, lane: Lane) -> LaneScript<'a> {
        let header = limits.header;
        let sums = vec![0; 2 * header.positions()];
        LaneScript {
            header,
            limits,
            lane,
            acts: Vec::new(),
            next: 0,
            due: Vec::new(),
            told: Told::default(),
            online: Vec::new(),
            sums,
            begun: false,
            ended: false,
        }
    }

    pub fn add(&mut self, act: Act) {
        self.acts.push(act);
    }

    pub fn is_done(&self) -> bool {
        self.due.is_empty()
    }

    /// Whether a step is the one that is due, as far as it doesn't tell what stands.
    pub fn is_due(&self, step: &Step) -> bool {
        let Some(Due::Step(want)) = self.due.last() else {
            return false;
        };
        match (*want, step) {
            (Want::LoadT(g), &Step::LoadT { place, .. }) => g == place,
            (Want::LoadD(c, j), &Step::LoadD { cpu, group, .. }) => (c, j) == (cpu, group),
            (Want::Exchange(k, ..), &Step::Miss { group, .. }) => k / 8 == group,
            (Want::Exchange(k, pages, how) | Want::Put(k, pages, how), &Step::Put { counter, delta, mode, .. }) => {
                (k, pages, how) == (counter, delta, mode)
            }
            (Want::AddG(k, a), &Step::AddG { counter, pages }) => (k, a) == (counter, pages),
            (Want::AddS(i, a), &Step::AddS { item, pages }) => (i, a) == (item, pages),
            (Want::Take(c, j), &Step::Take { cpu, group, .. }) => (c, j) == (cpu, group),
            (Want::LoadG(k), &Step::LoadG { counter, .. }) => k == counter,
            (Want::LoadS(i), &Step::LoadS { item, .. }) => i == item,
            (Want::LoadM(g), &Step::LoadM { place, .. }) => g == place,
            (Want::LoadO(c), &Step::LoadO { cpu, .. }) => c == cpu,
            (Want::SetT(c, g, t), &Step::SetT { cpu, place, threshold }) => {
                (c, g, u64::from(t)) == (cpu, place, threshold)
            }
            (Want::SetM(g, m), &Step::SetM { place, mark }) => (g, m) == (place, mark),
            (Want::SetO(c), &Step::SetO { cpu }) => c == cpu,
            (Want::SetA(g), &Step::SetA { place, .. }) => g == place,
            (Want::LoadA(c, g), &Step::LoadA { cpu, place, .. }) => (c, g) == (cpu, place),
            _ => false,
        }
    }

    /// The step that is due, with the numbers that stand.
    pub fn due_step(&self, pages: &Pages) -> Option<Step> {
        let Some(&Due::Step(want)) = self.due.last() else {
            return None;
        };
        // A change and an acknowledgement are those of the lane's own CPU.
        let own = if let Lane::Cpu(cpu) = self.lane { cpu } else { 0 };
        let standing = |cpu, group| pages.list(cpu, group).map(i64::from);
        let (threshold, sets) = self.told.threshold;
        Some(match want {
            Want::LoadT(place) => {
                let (threshold, sets) = pages.threshold(own, place);
                Step::LoadT { place, threshold: threshold.into(), sets: sets.into() }
            }
            Want::LoadD(cpu, group) => Step::LoadD { cpu, group, list: standing(cpu, group) },
            Want::Exchange(counter, delta, mode) => {
                let (group, list) = (counter / 8, self.told.list);
                if list == standing(own, group) {
                    Step::Put { counter, list, threshold, delta, mode }
                } else {
                    Step::Miss { group, list }
                }
            }
            Want::Put(counter, delta, mode) => Step::Put { counter, list: [0; 8], threshold, delta, mode },
            Want::AddG(counter, pages) => Step::AddG { counter, pages },
            Want::AddS(item, pages) => Step::AddS { item, pages },
            Want::Take(cpu, group) => Step::Take { cpu, group, list: standing(cpu, group) },
            Want::LoadG(counter) => Step::LoadG { counter, value: pages.places[counter] },
            Want::LoadS(item) => Step::LoadS { item, value: pages.system[item] },
            Want::LoadM(place) => {
                let (mark, sets) = pages.mark(place);
                Step::LoadM { place, mark, sets: sets.into() }
            }
            Want::LoadO(cpu) => Step::LoadO { cpu, state: pages.states[cpu] as u64 },
            Want::SetT(cpu, place, threshold) => Step::SetT { cpu, place, threshold: threshold.into() },
            Want::SetM(place, mark) => Step::SetM { place, mark },
            Want::SetO(cpu) => Step::SetO { cpu },
            Want::SetA(place) => Step::SetA { place, sets },
            Want::LoadA(cpu, place) => {
                Step::LoadA { cpu, place, sets: pages.acknowledged(cpu, place).map(u64::from) }
            }
        })
    }

    /// Goes past the step that was due and was made.
    pub fn go_past(&mut self, step: &Step, pages: &Pages) {
        let made = self.due.pop();
        let told = &mut self.told;
        match *step {
            Step::LoadT { threshold, sets, .. } => told.threshold = (threshold, sets),
            Step::LoadD { list, .. } | Step::Take { list, .. } => told.list = list,
            Step::Miss { .. } => {
                if let Some(Due::Step(Want::Exchange(counter, delta, mode))) = made {
                    self.due.push(Due::Step(Want::Put(counter, delta, mode)));
                }
            }
            Step::Put { counter, list, threshold, delta, mode } => {
                told.moved = (counter, changed(list[counter % 8] + delta, threshold as i64, mode).1);
            }
            Step::LoadG { value, .. } => (told.value, told.sum) = (value, value),
            Step::LoadM { mark, sets, .. } => (told.first_mark, told.last_mark) = (told.last_mark, (mark, sets)),
            Step::LoadO { state, .. } => told.is_online = state == State::Online as u64,
            _ => {}
        }
        self.come_to_step(pages);
    }

    /// Goes on to the next step, or to the end of the lane's lines.
    pub fn come_to_step(&mut self, pages: &Pages) {
        loop {
            match self.due.last() {
                Some(Due::Step(_)) => return,
                Some(&Due::Then(next)) => {
                    self.due.pop();
                    self.follow(next, pages);
                }
                None => match self.acts.get(self.next) {
                    Some(&act) => {
                        self.next += 1;
                        self.call(act);
                    }
                    None => return,
                },
            }
        }
    }

    // What is pushed first is due last.

    fn want(&mut self, want: Want) {
        self.due.push(Due::Step(want));
    }

    fn then(&mut self, next: Next) {
        self.due.push(Due::Then(next));
    }

    fn call(&mut self, act: Act) {
        match act {
            Act::Mod(counter, pages) => self.change(counter, pages, 0),
            Act::Inc(counter) => self.change(counter, 1, 1),
            Act::Dec(counter) => self.change(counter, -1, -1),
            Act::Fold(cpu) => self.fold(cpu),
            Act::Water(zone, _, _) => self.test(zone),
            Act::Val(counter) => self.want(Want::LoadG(counter)),
            Act::Snap(counter) => self.snapshot(counter),
            Act::Sys(item) => self.want(Want::LoadS(item)),
            Act::Pressure(node) => self.set_zones(node, Rule::Pressure),
            Act::Normal(node) => self.set_zones(node, Rule::Normal),
            Act::Dead(cpu) => self.bury(cpu),
            Act::Kswapd(node, order, index) => {
                self.then(Next::Balance { node, zone: 0, order, index });
                self.set_zones(node, Rule::Pressure);
            }
            _ => {}
        }
    }

    fn change(&mut self, counter: usize, pages: i64, mode: i64) {
        if let Lane::Cpu(cpu) = self.lane {
            self.then(Next::Moved);
            self.want(Want::Exchange(counter, pages, mode));
            self.want(Want::LoadD(cpu, counter / 8));
            self.want(Want::LoadT(counter >> self.header.shift()));
        }
    }

    fn fold(&mut self, cpu: usize) {
        let is_own = matches!(self.lane, Lane::Cpu(own) if own == cpu);
        let each = self.header.positions() / 8;
        self.then(Next::Sums);
        for place in (0..self.header.places()).rev() {
            let acknowledges = is_own && !self.header.is_node(place);
            if acknowledges {
                self.want(Want::SetA(place));
            }
            for group in (each * place..each * (place + 1)).rev() {
                self.then(Next::Took(group));
                self.want(Want::Take(cpu, group));
            }
            if acknowledges {
                self.want(Want::LoadT(place));
            }
        }
    }

    fn snapshot(&mut self, counter: usize) {
        for cpu in (0..self.header.cpus).rev() {
            self.then(Next::IfOnline(cpu, counter));
            self.want(Want::LoadO(cpu));
        }
        self.want(Want::LoadG(counter));
    }

    fn test(&mut self, zone: usize) {
        let counter = zone << self.header.shift();
        self.then(Next::Test(counter));
        self.want(Want::LoadM(zone));
        self.want(Want::LoadG(counter));
        self.want(Want::LoadM(zone));
    }

    fn find_online(&mut self) {
        self.online.clear();
        for cpu in (0..self.header.cpus).rev() {
            self.then(Next::Online(cpu));
            self.want(Want::LoadO(cpu));
        }
    }

    fn set_zones(&mut self, node: usize, rule: Rule) {
        let header = self.header;
        let zones: Vec<_> = zones_of(header, node).map(|(zone, _)| zone).collect();
        zones.into_iter().rev().for_each(|zone| self.then(Next::Rate(zone, rule, false)));
        self.find_online();
    }

    fn bury(&mut self, cpu: usize) {
        let zones = self.header.zones.len();
        (zones..self.header.places()).rev().for_each(|node| self.then(Next::RateNode(node)));
        (0..zones).rev().for_each(|zone| self.then(Next::Rate(zone, Rule::Normal, true)));
        self.find_online();
        self.want(Want::SetO(cpu));
        self.fold(cpu);
    }

    fn follow(&mut self, next: Next, pages: &Pages) {
        let header = self.header;
        match next {
            Next::Moved => {
                let (counter, moved) = self.told.moved;
                if moved != 0 {
                    self.want(Want::AddS(header.item_of(counter), moved));
                    self.want(Want::AddG(counter, moved));
                }
            }
            Next::IfOnline(cpu, counter) => {
                if self.told.is_online {
                    self.then(Next::AddUp(counter));
                    self.want(Want::LoadD(cpu, counter / 8));
                }
            }
            Next::AddUp(counter) => self.told.sum += self.told.list[counter % 8],
            Next::Test(counter) => {
                self.told.free = self.told.value.max(0) as u64;
                if self.told.first_mark != self.told.last_mark || self.told.free < self.told.first_mark.0 {
                    self.then(Next::Free);
                    self.snapshot(counter);
                }
            }
            Next::Free => self.told.free = self.told.sum.max(0) as u64,
            Next::Took(group) => {
                for (position, pages) in self.told.list.into_iter().enumerate().rev() {
                    let counter = 8 * group + position;
                    self.sums[header.item_of(counter)] += pages;
                    if pages != 0 {
                        self.want(Want::AddG(counter, pages));
                    }
                }
            }
            Next::Sums => {
                for item in (0..self.sums.len()).rev() {
                    let pages = std::mem::take(&mut self.sums[item]);
                    if pages != 0 {
                        self.want(Want::AddS(item, pages));
                    }
                }
            }
            Next::Online(cpu) => {
                if self.told.is_online {
                    self.online.push(cpu);
                }
            }
            Next::Rate(zone, rule, always) => {
                self.then(Next::Rated(zone, rule, always));
                self.want(Want::LoadM(zone));
                for at in (0..self.online.len()).rev() {
                    self.want(Want::LoadA(self.online[at], zone));
                }
            }
            Next::Rated(zone, rule, always) => {
                let mark = self.told.last_mark.0;
                if mark != 0 || always {
                    let threshold = threshold(rule, &header.zones[zone], self.online.len() as u64) as u8;
                    self.set_all(zone, threshold);
                    let due = pages.due_mark(zone, threshold);
                    if due != mark {
                        self.want(Want::SetM(zone, due));
                    }
                }
            }
            Next::RateNode(node) => {
                self.set_all(node, node_threshold(header, node, self.online.len() as u64) as u8);
            }
            Next::Balance { node, zone, order, index } => {
                let found = zones_of(header, node).find(|&(at, size)| at >= zone && size.kind as u64 <= index);
                if let Some((zone, _)) = found {
                    self.then(Next::Tested { node, zone, order, index });
                    self.test(zone);
                }
            }
            Next::Tested { node, zone, order, index } => {
                let limit = header.zones[zone].marks[HIGH] + self.limits.reserves[zone][index as usize];
                if self.told.free <= limit + (1 << order) - 1 {
                    self.then(Next::Balance { node, zone: zone + 1, order, index });
                } else if order == 0 {
                    self.set_zones(node, Rule::Normal);
                } else {
                    self.then(Next::Area { node, zone, order, index, at: order });
                }
            }
            Next::Area { node, zone, order, index, at } => {
                match self.limits.areas.get(at as usize) {
                    None => self.then(Next::Balance { node, zone: zone + 1, order, index }),
                    Some(None) => self.then(Next::Area { node, zone, order, index, at: at + 1 }),
                    Some(&Some(position)) => {
                        self.then(Next::Counted { node, zone, order, index, at });
                        self.snapshot((zone << header.shift()) + position);
                    }
                }
            }
            Next::Counted { node, zone, order, index, at } => {
                if self.told.sum > 0 {
                    self.set_zones(node, Rule::Normal);
                } else {
                    self.then(Next::Area { node, zone, order, index, at: at + 1 });
                }
            }
        }
    }

    fn set_all(&mut self, place: usize, threshold: u8) {
        for at in (0..self.online.len()).rev() {
            self.want(Want::SetT(self.online[at], place, threshold));
        }
    }
}
