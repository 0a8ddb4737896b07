//! How near the answers come to the truth: random interleavings in single atomic steps, written from docs/MODEL.md
//! alone and apart from the program.
//!
//! ```text
//! mkdir -p out && rustc -O --edition 2021 -o out/near bench/near.rs
//! out/near [RUNS [SEED]]
//! ```
//!
//! A run has 1 to 4 CPUs, 1 or 2 zones and a node, a percpu counter and an event, and 40 to 1,000 steps. The lanes and
//! the control pass make calls, each one after another, and who makes the next step is drawn; in one run of eight a
//! call ends before the next one begins. Beside the counters stand the true totals, the peaks and what each caller has
//! in flight. At each look the distance from the truth is compared with each bound. 20,000 runs are made where RUNS
//! isn't given. The same SEED, 1 where none is given, gives the same runs.
//!
//! *Hides*: a CPU hides at most its threshold of a place where it has acknowledged the newest one, and else its peak.
//! `H` is the sum of that over the CPUs that are online or dead. `In` is what others than the asker have in flight:
//! - a change that has its `AddG` still to make: its delta, and half its threshold too where it is an `inc` or a `dec`
//!   and another caller took the group since its put. For a system-wide value it is the `AddS`;
//! - a fold that isn't made by the CPU's owner, of a CPU that isn't dead: what it carries. For a system-wide value own
//!   folds count too.
//!
//! The first runs are stories, which `STORIES` has written down with the distance and the bound that each has to show.
//! A story reaches each bound, and one passes each wrong definition by 1. Two tables follow. For each bound: how often
//! it was compared, how often it was reached where it isn't 0, the largest share of it, and these two again for runs
//! with four CPUs present. For each wrong definition: how often it was passed, and the story that passes it.
//!
//! The status is 1 where a bound is passed, and then the steps of that run are printed, or where the stories don't show
//! what they have to. It is 2 where the words of the call aren't those above.

use std::fmt::Write;

const CPUS: usize = 4;
const PLACES: usize = 3;
const IN_GROUP: usize = 2;
const IN_PLACE: usize = 4;
const COUNTERS: usize = PLACES * IN_PLACE;
const ITEMS: usize = 2 * IN_PLACE;
const CONTROL: usize = CPUS;
const CALLERS: usize = CPUS + 1;
const NOTHING: u32 = u32::MAX;
const MOST: i64 = 125;

#[derive(Clone, Copy, PartialEq)]
enum Kind {
    Bound,
    /// A bound that holds and is further away than another.
    Further,
    Wrong,
}

macro_rules! checks {
    ($($name:ident $kind:ident $text:literal),* $(,)?) => {
        #[derive(Clone, Copy, PartialEq)]
        enum Check { $($name),* }
        const CHECKS: &[(Check, Kind, &str)] = &[$((Check::$name, Kind::$kind, $text)),*];
    };
}

checks! {
    Value Bound "a value: H + In",
    Above Bound "the truth above a value: H + In of positive deltas",
    Below Bound "the truth below a value: H + In of negative deltas",
    Carried Bound "a value: H and what others carry",
    Lane Bound "what a lane hides and carries: what it may hide + delta",
    Moves Bound "a snapshot: moves from its first load to its looks",
    Peaks Bound "a snapshot: what each CPU may hide at both",
    Snapshot Bound "a snapshot's truth at its first load: looks + H + In",
    Sides Bound "a snapshot's truth by sides",
    Count Bound "a count: a batch for each CPU present",
    Adds Bound "a count with no limited add: a batch less 1 each",
    Rough Bound "a rough comparison: the sign of the true total",
    Limited Bound "a limited yes: others' adds since its last load",
    Summed Bound "a sum: others' adds since it loaded the count",
    System Bound "sys: H of its places + In, own folds counted",
    Folding Bound "the same while an own fold carries",
    Events Bound "evsum: between its first load and its last",
    InTurn Bound "one call after another: exact but for the dead",
    SinceFirst Further "a limited yes: others' adds since its first step",
    ThresholdsNow Wrong "H of the thresholds of now",
    LaneNow Wrong "what a lane hides and carries by the threshold of now",
    NoForeign Wrong "In without the folds of others' CPUs",
    NoHalf Wrong "In without half a threshold where a group was taken",
    NoBuried Wrong "In without the fold of a CPU that was buried since",
    NoOwnFolds Wrong "sys without own folds",
    NoAdded Wrong "sys without changes that have made their AddG",
    OnlineAlone Wrong "H of the CPUs that are online",
    NoLooks Wrong "a snapshot's truth without its looks",
    Exact Wrong "a snapshot is exact",
    Deltas Wrong "deltas in place of moves",
    CountOnline Wrong "a batch for each CPU online",
    FirstLook Wrong "a limited add that looks again, judged by its first look",
    EventsOfDead Wrong "evsum with what dead CPUs hold",
}

#[derive(Clone, Copy, Default)]
struct Figures {
    checks: u64,
    /// Where the bound isn't 0: how often it was reached, and the largest share of it.
    reached: u64,
    share: (i64, i64),
    passed: u64,
    /// The first run that passed it.
    first: Option<u64>,
}

impl Figures {
    fn note(&mut self, distance: i64, bound: i64, run: u64) {
        self.checks += 1;
        if distance > bound {
            self.passed += 1;
            self.first.get_or_insert(run);
        } else if bound > 0 {
            self.reached += u64::from(distance == bound);
            if self.share.1 == 0 || distance * self.share.1 > self.share.0 * bound {
                self.share = (distance, bound);
            }
        }
    }
}

/// xorshift64*, seeded through splitmix64.
#[derive(Default)]
struct Random(u64);

impl Random {
    fn new(seed: u64, run: u64) -> Random {
        let mut x = seed.wrapping_mul(0x9e37_79b9_7f4a_7c15).wrapping_add(run).wrapping_mul(0xbf58_476d_1ce4_e5b9);
        x = (x ^ (x >> 27)).wrapping_mul(0x94d0_49bb_1331_11eb);
        Random((x ^ (x >> 31)) | 1)
    }

    fn next(&mut self) -> u64 {
        self.0 ^= self.0 >> 12;
        self.0 ^= self.0 << 25;
        self.0 ^= self.0 >> 27;
        self.0.wrapping_mul(0x2545_f491_4f6c_dd1d) >> 11
    }

    fn below(&mut self, n: usize) -> usize {
        (self.next() % n as u64) as usize
    }

    /// From `least` to `most`.
    fn within(&mut self, least: i64, most: i64) -> i64 {
        least + self.below((most - least + 1) as usize) as i64
    }

    fn one_in(&mut self, n: usize) -> bool {
        self.below(n) == 0
    }
}

#[derive(Clone, Copy, PartialEq, Default)]
enum Cpu {
    Online,
    Dead,
    #[default]
    Absent,
}

/// What a caller has still to do. Each but a `Then` is one atomic step; `Then` takes no step.
#[derive(Clone, Copy)]
enum Act {
    LoadT,
    LoadD,
    Exchange,
    AddG(usize),
    AddS(usize),
    FoldT(usize),
    Take(usize, usize, usize),
    SetA(usize),
    Value(usize),
    System(usize),
    SnapshotG(usize),
    SnapshotO(usize),
    SnapshotD(usize),
    MarkBefore(usize),
    TestG(usize),
    MarkAfter(usize),
    State(usize),
    LoadA(usize, usize),
    Rate(usize),
    SetM(usize, i64),
    SetT(usize, usize, i64),
    SetO(usize),
    AddLoad(i64),
    AddLocal(i64),
    Lock,
    TakeL(usize),
    AddC(i64),
    Unlock,
    Read,
    Compare(i64),
    SumC,
    SumL(usize),
    LimitLoad,
    LimitFast,
    LimitC,
    LimitL(usize),
    LimitLocal,
    LimitAdd,
    CountEvents(i64),
    LoadE(usize),
    TakeE(usize),
    AddF,
    Then(Then),
}

#[derive(Clone, Copy)]
enum Then {
    AddItems,
    EndFold,
    EndSnapshot,
    Nodes,
    EndSum,
    Judge,
    EndEvents,
}

/// The calls that are drawn. In place of those that need a CPU the control pass sets thresholds, or clears up after a
/// dead CPU.
#[derive(Clone, Copy)]
enum Call {
    Change,
    OwnFold,
    Fold,
    Value,
    System,
    Snapshot,
    Test,
    Count,
    Add,
    Sync,
    Event,
    Events,
}

const CALLS: [Call; 12] = [
    Call::Change,
    Call::OwnFold,
    Call::Fold,
    Call::Value,
    Call::System,
    Call::Snapshot,
    Call::Test,
    Call::Count,
    Call::Add,
    Call::Sync,
    Call::Event,
    Call::Events,
];

/// A change from its put to its `AddS`.
#[derive(Clone, Copy)]
struct Change {
    k: usize,
    delta: i64,
    /// Half its threshold, and 0 for `mod`.
    half: i64,
    /// Another caller took the group since.
    taken: bool,
    /// It has still to make its `AddG`.
    in_place: bool,
}

/// What others have in flight for a counter or an item.
#[derive(Clone, Copy, Default)]
struct Flight {
    all: i64,
    positive: i64,
    negative: i64,
    /// Parts of `all`, which wrong definitions leave out.
    foreign: i64,
    halves: i64,
    buried: i64,
    own: i64,
    added: i64,
}

/// What stood at a snapshot's first load, and what its looks found.
#[derive(Clone, Copy, Default)]
struct Look {
    k: usize,
    value: i64,
    truth: i64,
    carried: i64,
    dead: i64,
    hidden: i64,
    flight: Flight,
    moved: [i64; CPUS],
    asked: [i64; CPUS],
    hides: [i64; CPUS],
    diff: [i64; CPUS],
    found: i64,
    changed: i64,
    moves: i64,
    deltas: i64,
    at_both: i64,
    at_looks: i64,
}

#[derive(Clone, Default)]
struct Caller {
    todo: Vec<Act>,
    carried: [i64; COUNTERS],
    carried_of_item: [i64; ITEMS],
    // a change
    k: usize,
    delta: i64,
    how: i64,
    t: i64,
    found: [i64; IN_GROUP],
    change: Option<Change>,
    // a fold
    fold_of: Option<usize>,
    sets: u32,
    // looks, tests, ratings
    look: Look,
    mark: (i64, u32),
    value: i64,
    every: bool,
    rates: [i64; PLACES],
    usual: [i64; PLACES],
    // percpu calls; amounts of others are (positive, negative)
    amount: i64,
    limit: i64,
    first: Option<i64>,
    count: i64,
    sum: i64,
    truth: i64,
    first_step: (i64, i64),
    last_load: (i64, i64),
    carried_of_count: i64,
    // events
    events: i64,
    least: i64,
    carried_events: i64,
}

#[derive(Default)]
struct World {
    random: Random,
    run: u64,
    figures: Vec<[Figures; 2]>,
    last: Vec<(i64, i64)>,
    wrong: Option<Check>,
    told: Option<String>,
    in_turn: bool,
    // facts
    cpus: usize,
    zones: usize,
    groups: usize,
    gap: [i64; PLACES],
    high: [i64; PLACES],
    base: [Cpu; CPUS],
    // page counters
    cpu: [Cpu; CPUS],
    place: [i64; COUNTERS],
    system: [i64; ITEMS],
    diff: [[i64; COUNTERS]; CPUS],
    threshold: [[i64; PLACES]; CPUS],
    sets: [[u32; PLACES]; CPUS],
    acknowledged: [[u32; PLACES]; CPUS],
    mark: [i64; PLACES],
    mark_sets: [u32; PLACES],
    // beside them
    total: [i64; COUNTERS],
    total_of_item: [i64; ITEMS],
    peak: [[i64; PLACES]; CPUS],
    moved: [[i64; COUNTERS]; CPUS],
    asked: [[i64; COUNTERS]; CPUS],
    // the percpu counter
    batch: i64,
    count: i64,
    local: [i64; CPUS],
    holder: Option<usize>,
    total_of_count: i64,
    amounts: [(i64, i64); CALLERS],
    below_batch: bool,
    // the event
    word: [i64; CPUS],
    total_of_events: i64,
    callers: [Caller; CALLERS],
    // how a run is drawn
    most: i64,
    lean: i64,
    hot: usize,
    stays: usize,
    sleeps: usize,
    /// Few kinds of calls, on one counter with small thresholds.
    is_dense: bool,
    weights: [usize; CALLS.len()],
}

fn name_of(caller: usize) -> String {
    if caller == CONTROL { "k".into() } else { format!("c{caller}") }
}

impl World {
    // ---- the shape

    fn places(&self) -> usize {
        self.zones + 1
    }

    fn item_of(&self, k: usize) -> usize {
        if k / IN_PLACE < self.zones { k % IN_PLACE } else { IN_PLACE + k % IN_PLACE }
    }

    fn counters_of_item(&self, i: usize) -> impl Iterator<Item = usize> {
        let places = if i < IN_PLACE { 0..self.zones } else { self.zones..self.zones + 1 };
        places.map(move |g| g * IN_PLACE + i % IN_PLACE)
    }

    fn counters_of_place(&self, g: usize) -> std::ops::Range<usize> {
        g * IN_PLACE..g * IN_PLACE + self.groups * IN_GROUP
    }

    fn with_state(&self, x: Cpu) -> impl Iterator<Item = usize> + '_ {
        (0..self.cpus).filter(move |&c| self.cpu[c] == x)
    }

    fn present(&self) -> impl Iterator<Item = usize> + '_ {
        (0..self.cpus).filter(|&c| self.cpu[c] != Cpu::Absent)
    }

    /// Those of the percpu counter, whose CPUs keep their state.
    fn present_in_base(&self) -> impl Iterator<Item = usize> + '_ {
        (0..self.cpus).filter(|&c| self.base[c] != Cpu::Absent)
    }

    // ---- bounds

    /// What a CPU may hide of a place.
    fn hides(&self, c: usize, g: usize) -> i64 {
        if self.acknowledged[c][g] == self.sets[c][g] { self.threshold[c][g] } else { self.peak[c][g] }
    }

    fn hidden(&self, g: usize) -> i64 {
        self.present().map(|c| self.hides(c, g)).sum()
    }

    fn peak_sum(&self, g: usize) -> i64 {
        self.present().map(|c| self.peak[c][g]).sum()
    }

    fn covers(&self, g: usize) -> bool {
        let hidden = self.peak_sum(g);
        if self.mark[g] == 0 { hidden <= self.gap[g] } else { self.high[g] + hidden <= self.mark[g] }
    }

    fn flight_of(&self, asker: usize, is_there: impl Fn(&Change) -> bool, carried: impl Fn(&Caller) -> i64) -> Flight {
        let mut flight = Flight::default();
        for (q, caller) in self.callers.iter().enumerate().filter(|&(q, _)| q != asker) {
            if let Some(change) = caller.change.filter(|change| is_there(change)) {
                let half = if change.taken { change.half } else { 0 };
                flight.all += change.delta.abs() + half;
                flight.positive += change.delta.max(0) + half;
                flight.negative += (-change.delta).max(0) + half;
                flight.halves += half;
                if !change.in_place {
                    flight.added += change.delta.abs() + half;
                }
            }
            if let Some(c) = caller.fold_of.filter(|&c| self.cpu[c] != Cpu::Dead) {
                let entry = carried(caller).abs();
                if c == q {
                    flight.own += entry;
                } else {
                    flight.all += entry;
                    flight.positive += entry;
                    flight.negative += entry;
                    flight.foreign += entry;
                    if self.base[c] == Cpu::Dead {
                        flight.buried += entry;
                    }
                }
            }
        }
        flight
    }

    /// In flight of others for a counter.
    fn flight(&self, asker: usize, k: usize) -> Flight {
        self.flight_of(asker, |change| change.in_place && change.k == k, |caller| caller.carried[k])
    }

    fn check(&mut self, check: Check, distance: i64, bound: i64) {
        let at = check as usize;
        let tables = if self.present_in_base().count() == CPUS { 2 } else { 1 };
        for figures in &mut self.figures[at][..tables] {
            figures.note(distance, bound, self.run);
        }
        self.last[at] = (distance, bound);
        if distance > bound && CHECKS[at].1 != Kind::Wrong {
            self.wrong.get_or_insert(check);
        }
        if self.told.is_some() && CHECKS[at].1 == Kind::Bound && check != Check::Lane {
            self.tell(|_| format!("    {}: {distance} of {bound}", CHECKS[at].2));
        }
    }

    fn tell(&mut self, line: impl FnOnce(&World) -> String) {
        if self.told.is_some() {
            let line = line(self);
            let _ = writeln!(self.told.as_mut().unwrap(), "{line}");
        }
    }

    fn check_lane(&mut self, c: usize, k: usize) {
        if c >= self.cpus || self.cpu[c] == Cpu::Absent {
            return;
        }
        let caller = &self.callers[c];
        let change = caller.change.filter(|change| change.in_place && change.k == k);
        let carried = if change.is_some() || caller.fold_of == Some(c) { caller.carried[k] } else { 0 };
        let further = change.map_or(0, |it| it.delta.abs() + if it.taken { it.half } else { 0 });
        let distance = (self.diff[c][k] + carried).abs();
        let g = k / IN_PLACE;
        self.check(Check::Lane, distance, self.hides(c, g) + further);
        self.check(Check::LaneNow, distance, self.threshold[c][g] + further);
    }

    fn check_lane_in(&mut self, c: usize, g: usize) {
        for k in self.counters_of_place(g) {
            self.check_lane(c, k);
        }
    }

    fn check_value(&mut self, p: usize, k: usize) {
        let (value, truth, g) = (self.place[k], self.total[k], k / IN_PLACE);
        let (hidden, flight) = (self.hidden(g), self.flight(p, k));
        let differentials: i64 = self.diff.iter().map(|it| it[k]).sum();
        let carried: i64 = self.callers.iter().map(|it| it.carried[k]).sum();
        assert_eq!(value + differentials + carried, truth, "what a counter adds up to");
        assert!(hidden <= self.peak_sum(g) && hidden <= MOST * self.present().count() as i64);
        assert!(g >= self.zones || hidden <= if self.mark[g] == 0 { self.gap[g] } else { self.mark[g] - self.high[g] });
        let distance = (value - truth).abs();
        let told = value.max(0);
        let others = self.callers.iter().enumerate().filter(|&(q, _)| q != p);
        let carried = others.map(|(_, it)| it.carried[k].abs()).sum::<i64>();
        self.check(Check::Value, distance, hidden + flight.all);
        self.check(Check::Above, truth - told, hidden + flight.positive);
        if told != 0 {
            self.check(Check::Below, told - truth, hidden + flight.negative);
        }
        self.check(Check::Carried, distance, hidden + carried);
        if self.in_turn {
            self.check(Check::InTurn, carried, 0);
        }
        let now = self.present().map(|c| self.threshold[c][g]).sum::<i64>();
        let online = self.with_state(Cpu::Online).map(|c| self.hides(c, g)).sum::<i64>();
        self.check(Check::ThresholdsNow, distance, now + flight.all);
        self.check(Check::OnlineAlone, distance, online + flight.all);
        self.check(Check::NoForeign, distance, hidden + flight.all - flight.foreign);
        self.check(Check::NoHalf, distance, hidden + flight.all - flight.halves);
        self.check(Check::NoBuried, distance, hidden + flight.all - flight.buried);
    }

    fn check_system(&mut self, p: usize, i: usize) {
        let distance = (self.system[i] - self.total_of_item[i]).abs();
        let hidden: i64 = self.counters_of_item(i).map(|k| self.hidden(k / IN_PLACE)).sum();
        let differentials: i64 = self.counters_of_item(i).map(|k| self.diff.iter().map(|it| it[k]).sum::<i64>()).sum();
        let carried: i64 = self.callers.iter().map(|it| it.carried_of_item[i]).sum();
        assert_eq!(self.system[i] + differentials + carried, self.total_of_item[i], "what an item adds up to");
        let flight = self.flight_of(p, |change| self.item_of(change.k) == i, |caller| caller.carried_of_item[i]);
        let bound = hidden + flight.all + flight.own;
        self.check(Check::System, distance, bound);
        if flight.own > 0 {
            self.check(Check::Folding, distance, bound);
        }
        if self.in_turn {
            self.check(Check::InTurn, self.callers.iter().map(|it| it.carried_of_item[i].abs()).sum(), 0);
        }
        self.check(Check::NoOwnFolds, distance, bound - flight.own);
        self.check(Check::NoAdded, distance, bound - flight.added);
    }

    fn check_snapshot(&mut self, look: Look) {
        let answer = look.value + look.found;
        let plain = look.truth - look.carried - look.dead;
        assert_eq!(answer, plain + look.changed, "what a snapshot adds up to");
        let (distance, of_truth) = ((answer - plain).abs(), (answer - look.truth).abs());
        let told = answer.max(0);
        self.check(Check::Moves, distance, look.moves);
        self.check(Check::Peaks, distance, look.at_both);
        let bound = look.at_looks + look.hidden;
        self.check(Check::Snapshot, of_truth, bound + look.flight.all);
        self.check(Check::Sides, look.truth - told, bound + look.flight.positive);
        if told != 0 {
            self.check(Check::Sides, told - look.truth, bound + look.flight.negative);
        }
        if self.in_turn {
            self.check(Check::InTurn, (answer - (look.truth - look.dead)).abs(), 0);
        }
        self.check(Check::NoLooks, of_truth, look.hidden + look.flight.all);
        self.check(Check::Exact, distance, 0);
        self.check(Check::Deltas, distance, look.deltas);
    }

    // ---- percpu counters and events, beside which the truth stands

    fn unknown(&self) -> i64 {
        self.batch * self.present_in_base().count() as i64
    }

    /// The amounts that others than a caller have added.
    fn amounts_of_others(&self, p: usize) -> (i64, i64) {
        let others = self.amounts.iter().enumerate().filter(|&(q, _)| q != p);
        others.fold((0, 0), |(plus, minus), (_, it)| (plus + it.0, minus + it.1))
    }

    fn add_amount(&mut self, p: usize, amount: i64) {
        self.total_of_count += amount;
        self.amounts[p].0 += amount.max(0);
        self.amounts[p].1 += (-amount).max(0);
    }

    /// A load of the count, which is compared.
    fn load_count(&mut self, p: usize) -> i64 {
        let distance = (self.count - self.total_of_count).abs();
        let present = self.present_in_base().count() as i64;
        let online = (0..self.cpus).filter(|&c| self.base[c] == Cpu::Online).count() as i64;
        self.tell(|it| format!("{} LoadC -> {}", name_of(p), it.count));
        self.check(Check::Count, distance, self.batch * present);
        if self.below_batch {
            self.check(Check::Adds, distance, (self.batch - 1) * present);
        }
        self.check(Check::CountOnline, distance, self.batch * online);
        self.count
    }

    fn online_words(&self) -> i64 {
        (0..self.cpus).filter(|&c| self.base[c] == Cpu::Online).map(|c| self.word[c]).sum()
    }

    /// How far a value is from the limit, on its side.
    fn room(&self, p: usize, value: i64) -> i64 {
        (self.callers[p].limit - value) * self.callers[p].amount.signum()
    }

    fn after_yes(&mut self, p: usize) {
        let caller = &self.callers[p];
        let (first, last, side) = (caller.first_step, caller.last_load, caller.amount.signum());
        let now = self.amounts_of_others(p);
        let since = |then: (i64, i64)| if side > 0 { now.0 - then.0 } else { now.1 - then.1 };
        let distance = -self.room(p, self.total_of_count);
        self.check(Check::Limited, distance, since(last));
        self.check(Check::SinceFirst, distance, since(first));
    }

    // ---- calls

    fn push(&mut self, p: usize, acts: &[Act]) {
        self.callers[p].todo.extend(acts.iter().rev());
    }

    fn begin_change(&mut self, p: usize, k: usize, delta: i64, how: i64) {
        let caller = &mut self.callers[p];
        (caller.k, caller.delta, caller.how) = (k, delta, how);
        self.push(p, &[Act::LoadT, Act::LoadD, Act::Exchange]);
    }

    fn fold_acts(&self, p: usize, c: usize) -> Vec<Act> {
        let mut acts = Vec::new();
        for g in 0..self.places() {
            let acknowledges = p == c && g < self.zones;
            if acknowledges {
                acts.push(Act::FoldT(g));
            }
            acts.extend((0..self.groups).map(|j| Act::Take(c, g, j)));
            if acknowledges {
                acts.push(Act::SetA(g));
            }
        }
        acts.extend([Act::Then(Then::AddItems), Act::Then(Then::EndFold)]);
        acts
    }

    fn begin_fold(&mut self, p: usize, c: usize) {
        self.callers[p].fold_of = Some(c);
        let acts = self.fold_acts(p, c);
        self.push(p, &acts);
    }

    /// `every`: a refresh; else thresholds of a node's zones that have a mark.
    fn rating_acts(&mut self, every: bool, rates: [i64; PLACES], usual: [i64; PLACES]) -> Vec<Act> {
        let caller = &mut self.callers[CONTROL];
        (caller.every, caller.rates, caller.usual) = (every, rates, usual);
        let mut acts: Vec<Act> = (0..self.cpus).map(Act::State).collect();
        for g in 0..self.zones {
            acts.extend(self.with_state(Cpu::Online).map(|c| Act::LoadA(c, g)));
            acts.push(Act::Rate(g));
        }
        if every {
            acts.push(Act::Then(Then::Nodes));
        }
        acts
    }

    fn begin_rating(&mut self, every: bool, rates: [i64; PLACES], usual: [i64; PLACES]) {
        let acts = self.rating_acts(every, rates, usual);
        self.push(CONTROL, &acts);
    }

    fn begin_burial(&mut self, c: usize, rates: [i64; PLACES]) {
        self.callers[CONTROL].fold_of = Some(c);
        let mut acts = self.fold_acts(CONTROL, c);
        acts.push(Act::SetO(c));
        acts.extend(self.rating_acts(true, rates, rates));
        self.push(CONTROL, &acts);
    }

    fn snapshot_acts(&self, k: usize) -> Vec<Act> {
        let mut acts = vec![Act::SnapshotG(k)];
        acts.extend((0..self.cpus).map(Act::SnapshotO));
        acts.push(Act::Then(Then::EndSnapshot));
        acts
    }

    fn begin_snapshot(&mut self, p: usize, k: usize) {
        let acts = self.snapshot_acts(k);
        self.push(p, &acts);
    }

    fn begin_limited(&mut self, p: usize, limit: i64, amount: i64) {
        let caller = &mut self.callers[p];
        (caller.limit, caller.amount, caller.first) = (limit, amount, None);
        self.push(p, &[Act::LimitLoad]);
    }

    fn begin_events(&mut self, p: usize) {
        self.callers[p].events = 0;
        self.callers[p].least = -1;
        let mut acts: Vec<Act> = (0..self.cpus).filter(|&c| self.base[c] == Cpu::Online).map(Act::LoadE).collect();
        acts.push(Act::Then(Then::EndEvents));
        self.push(p, &acts);
    }

    fn sum_acts(&self, load: Act, look: impl Fn(usize) -> Act, end: Then) -> Vec<Act> {
        let mut acts = vec![load];
        acts.extend(self.present_in_base().map(look));
        acts.push(Act::Then(end));
        acts
    }

    fn begin_sum(&mut self, p: usize) {
        let mut acts = vec![Act::Lock];
        acts.extend(self.sum_acts(Act::SumC, Act::SumL, Then::EndSum));
        acts.push(Act::Unlock);
        self.push(p, &acts);
    }

    fn begin_sync(&mut self, p: usize, c: usize) {
        self.push(p, &[Act::Lock, Act::TakeL(c), Act::AddC(0), Act::Unlock]);
    }

    // ---- steps

    /// One atomic step of a caller that is in a call, and all that takes no step after it.
    fn step(&mut self, p: usize) {
        self.settle(p);
        if let Some(act) = self.callers[p].todo.pop() {
            self.make(p, act);
        }
        self.settle(p);
    }

    fn settle(&mut self, p: usize) {
        while let Some(&Act::Then(then)) = self.callers[p].todo.last() {
            self.callers[p].todo.pop();
            self.go_on(p, then);
        }
    }

    fn group(&self, c: usize, g: usize, j: usize) -> [i64; IN_GROUP] {
        let first = g * IN_PLACE + j * IN_GROUP;
        [self.diff[c][first], self.diff[c][first + 1]]
    }

    fn put(&mut self, p: usize) {
        let Caller { k, delta, how, t, .. } = self.callers[p];
        let g = k / IN_PLACE;
        let found = self.diff[p][k];
        let sum = found + delta;
        let overstep = how * (t / 2);
        let (left, carried) = if sum.abs() <= t { (sum, 0) } else { (-overstep, sum + overstep) };
        self.diff[p][k] = left;
        self.moved[p][k] += (left - found).abs();
        self.asked[p][k] += delta.abs();
        self.total[k] += delta;
        let i = self.item_of(k);
        self.total_of_item[i] += delta;
        self.tell(|_| format!("{} Put {k} {delta:+}: leaves {left}, carries {carried}", name_of(p)));
        assert!(self.threshold[p][g] > 0 && self.cpu[p] == Cpu::Online);
        if carried != 0 {
            let caller = &mut self.callers[p];
            caller.carried[k] = carried;
            caller.carried_of_item[i] = carried;
            caller.change = Some(Change { k, delta, half: (t / 2) * how.abs(), taken: false, in_place: true });
            self.push(p, &[Act::AddG(k), Act::AddS(i)]);
        }
        self.check_lane(p, k);
    }

    fn take(&mut self, p: usize, c: usize, g: usize, j: usize) {
        let first = g * IN_PLACE + j * IN_GROUP;
        self.tell(|it| format!("{} Take c{c} {first} -> {:?}", name_of(p), it.group(c, g, j)));
        for k in (first..first + IN_GROUP).rev() {
            let entry = std::mem::take(&mut self.diff[c][k]);
            self.moved[c][k] += entry.abs();
            if entry != 0 {
                let i = self.item_of(k);
                self.callers[p].carried[k] += entry;
                self.callers[p].carried_of_item[i] += entry;
                self.callers[p].todo.push(Act::AddG(k));
            }
        }
        if p != c {
            if let Some(change) = self.callers[c].change.as_mut().filter(|it| it.k / IN_GROUP == first / IN_GROUP) {
                change.taken = true;
            }
        }
        for k in first..first + IN_GROUP {
            self.check_lane(c, k);
        }
    }

    fn first_load(&mut self, p: usize, k: usize) {
        let g = k / IN_PLACE;
        let mut look = Look { k, value: self.place[k], truth: self.total[k], ..Look::default() };
        look.carried = self.callers.iter().map(|it| it.carried[k]).sum();
        look.dead = self.with_state(Cpu::Dead).map(|c| self.diff[c][k]).sum();
        look.hidden = self.hidden(g);
        look.flight = self.flight(p, k);
        for c in 0..self.cpus {
            look.moved[c] = self.moved[c][k];
            look.asked[c] = self.asked[c][k];
            look.hides[c] = self.hides(c, g);
            look.diff[c] = self.diff[c][k];
        }
        self.callers[p].look = look;
    }

    fn look_at(&mut self, p: usize, c: usize) {
        let mut look = self.callers[p].look;
        let k = look.k;
        let hides = self.hides(c, k / IN_PLACE);
        look.found += self.diff[c][k];
        look.changed += self.diff[c][k] - look.diff[c];
        look.moves += self.moved[c][k] - look.moved[c];
        look.deltas += self.asked[c][k] - look.asked[c];
        look.at_both += look.hides[c] + hides;
        look.at_looks += hides;
        self.callers[p].look = look;
    }

    /// Gives a zone its threshold, the mark first.
    fn rate(&mut self, g: usize) {
        let Caller { every, rates, usual, .. } = self.callers[CONTROL];
        let found = self.mark[g];
        self.tell(|_| format!("k LoadM {g} -> {found}"));
        if !every && found == 0 {
            return;
        }
        let is_online = |c: usize| self.cpu[c] == Cpu::Online;
        let hidden: i64 =
            self.present().map(|c| if is_online(c) { self.peak[c][g].max(rates[g]) } else { self.peak[c][g] }).sum();
        let online: Vec<usize> = self.with_state(Cpu::Online).collect();
        let all = online.len() as i64 * usual[g];
        let linux = if all > self.gap[g] { self.high[g] + all } else { 0 };
        let mark = if linux == 0 && hidden <= self.gap[g] { 0 } else { linux.max(self.high[g] + hidden) };
        let mut acts = Vec::new();
        if mark != found {
            acts.push(Act::SetM(g, mark));
        }
        acts.extend(online.iter().map(|&c| Act::SetT(c, g, rates[g])));
        self.push(CONTROL, &acts);
    }

    /// One atomic step. Its line is told before the bounds that it is compared with.
    fn make(&mut self, p: usize, act: Act) {
        match act {
            Act::LoadT => {
                let g = self.callers[p].k / IN_PLACE;
                self.callers[p].t = self.threshold[p][g];
                self.tell(|it| format!("{} LoadT {g} -> {}", name_of(p), it.threshold[p][g]));
            }
            Act::LoadD | Act::Exchange => {
                let (g, j) = (self.callers[p].k / IN_PLACE, self.callers[p].k % IN_PLACE / IN_GROUP);
                let group = self.group(p, g, j);
                if matches!(act, Act::LoadD) {
                    self.callers[p].found = group;
                    self.tell(|_| format!("{} LoadD -> {group:?}", name_of(p)));
                } else if group == self.callers[p].found {
                    self.put(p);
                } else {
                    assert_eq!(group, [0; IN_GROUP], "a lost exchange met zeros");
                    self.callers[p].found = group;
                    self.push(p, &[Act::Exchange]);
                    self.tell(|_| format!("{} Miss", name_of(p)));
                }
            }
            Act::AddG(k) => {
                let amount = std::mem::take(&mut self.callers[p].carried[k]);
                assert_ne!(amount, 0);
                self.place[k] += amount;
                if let Some(change) = &mut self.callers[p].change {
                    change.in_place = false;
                }
                self.tell(|_| format!("{} AddG {k} {amount:+}", name_of(p)));
                self.check_lane(p, k);
            }
            Act::AddS(i) => {
                let amount = std::mem::take(&mut self.callers[p].carried_of_item[i]);
                assert_ne!(amount, 0);
                self.system[i] += amount;
                self.callers[p].change = None;
                self.tell(|_| format!("{} AddS {i} {amount:+}", name_of(p)));
            }
            Act::FoldT(g) => {
                self.callers[p].sets = self.sets[p][g];
                self.tell(|it| format!("{} LoadT {g} -> {}", name_of(p), it.threshold[p][g]));
            }
            Act::Take(c, g, j) => self.take(p, c, g, j),
            Act::SetA(g) => {
                self.acknowledged[p][g] = self.callers[p].sets;
                self.tell(|it| format!("{} SetA {g} {}", name_of(p), it.callers[p].sets));
                self.check_lane_in(p, g);
            }
            Act::Value(k) => {
                self.tell(|it| format!("{} LoadG {k} -> {}, in truth {}", name_of(p), it.place[k], it.total[k]));
                self.check_value(p, k);
            }
            Act::System(i) => {
                self.tell(|it| {
                    format!("{} LoadS {i} -> {}, in truth {}", name_of(p), it.system[i], it.total_of_item[i])
                });
                self.check_system(p, i);
            }
            Act::SnapshotG(k) => {
                self.tell(|it| format!("{} LoadG {k} -> {}, in truth {}", name_of(p), it.place[k], it.total[k]));
                self.check_value(p, k);
                self.first_load(p, k);
            }
            Act::SnapshotO(c) => {
                if self.cpu[c] == Cpu::Online {
                    self.push(p, &[Act::SnapshotD(c)]);
                }
                self.tell(|_| format!("{} LoadO c{c}", name_of(p)));
            }
            Act::SnapshotD(c) => {
                self.look_at(p, c);
                self.tell(|it| format!("{} LoadD c{c} -> {}", name_of(p), it.diff[c][it.callers[p].look.k]));
            }
            Act::MarkBefore(g) => {
                self.callers[p].mark = (self.mark[g], self.mark_sets[g]);
                self.tell(|it| format!("{} LoadM {g} -> {}", name_of(p), it.mark[g]));
            }
            Act::TestG(g) => {
                let k = g * IN_PLACE;
                self.callers[p].value = self.place[k];
                self.tell(|it| format!("{} LoadG {k} -> {}, in truth {}", name_of(p), it.place[k], it.total[k]));
                self.check_value(p, k);
            }
            Act::MarkAfter(g) => {
                let mark = (self.mark[g], self.mark_sets[g]);
                self.tell(|_| format!("{} LoadM {g} -> {}", name_of(p), mark.0));
                if mark != self.callers[p].mark || mark.0 != 0 && self.callers[p].value < mark.0 {
                    self.begin_snapshot(p, g * IN_PLACE);
                }
            }
            Act::State(c) => self.tell(|_| format!("{} LoadO c{c}", name_of(p))),
            Act::LoadA(c, g) => {
                if self.acknowledged[c][g] == self.sets[c][g] {
                    self.peak[c][g] = self.threshold[c][g];
                }
                self.tell(|it| format!("k LoadA c{c} {g}: its peak is {}", it.peak[c][g]));
                self.check_lane_in(c, g);
            }
            Act::Rate(g) => self.rate(g),
            Act::SetM(g, mark) => {
                self.mark[g] = mark;
                self.mark_sets[g] += 1;
                self.tell(|_| format!("k SetM {g} {mark}"));
                assert!(self.covers(g), "a mark covers");
            }
            Act::SetT(c, g, t) => {
                self.threshold[c][g] = t;
                self.sets[c][g] += 1;
                self.peak[c][g] = self.peak[c][g].max(t);
                self.tell(|_| format!("k SetT c{c} {g} {t}"));
                assert!(g >= self.zones || self.covers(g), "a mark covers a threshold");
                self.check_lane_in(c, g);
            }
            Act::SetO(c) => {
                assert!(self.cpu[c] == Cpu::Dead && self.diff[c] == [0; COUNTERS], "a dead CPU with nothing left");
                self.cpu[c] = Cpu::Absent;
                self.tell(|_| format!("k SetO c{c}"));
            }
            Act::CountEvents(n) => {
                self.word[p] += n;
                self.total_of_events += n;
                self.tell(|_| format!("{} AddE {n}", name_of(p)));
            }
            Act::LoadE(c) => {
                if self.callers[p].least < 0 {
                    self.callers[p].least = self.online_words();
                    self.callers[p].truth = self.total_of_events;
                }
                self.callers[p].events += self.word[c];
                self.tell(|it| format!("{} LoadE c{c} -> {}", name_of(p), it.word[c]));
            }
            Act::TakeE(c) => {
                let taken = std::mem::take(&mut self.word[c]);
                self.callers[p].carried_events = taken;
                if taken != 0 {
                    self.push(p, &[Act::AddF]);
                }
                self.tell(|_| format!("k TakeE c{c} -> {taken}"));
            }
            Act::AddF => {
                let c = (0..self.cpus).find(|&c| self.base[c] == Cpu::Online).unwrap();
                self.word[c] += std::mem::take(&mut self.callers[p].carried_events);
                self.tell(|_| format!("k AddF c{c}"));
            }
            _ => self.make_locked(p, act),
        }
    }

    /// A step on the percpu counter.
    fn make_locked(&mut self, p: usize, act: Act) {
        match act {
            Act::AddLoad(amount) => {
                let local = self.local[p];
                self.tell(|_| format!("{} LoadL c{p} -> {local}", name_of(p)));
                if (local + amount).abs() < self.batch {
                    self.push(p, &[Act::AddLocal(amount)]);
                } else {
                    self.push(p, &[Act::Lock, Act::TakeL(p), Act::AddC(amount), Act::Unlock]);
                }
            }
            Act::AddLocal(amount) => {
                self.local[p] += amount;
                assert!(self.local[p].abs() <= self.batch, "a local part is within the batch");
                self.add_amount(p, amount);
                self.tell(|_| format!("{} AddL {amount:+}", name_of(p)));
            }
            Act::Lock => {
                if self.holder.is_some() {
                    self.push(p, &[Act::Lock]);
                    self.tell(|_| format!("{} Missed", name_of(p)));
                } else {
                    self.holder = Some(p);
                    self.tell(|_| format!("{} Won", name_of(p)));
                }
            }
            Act::TakeL(c) => {
                assert_eq!(self.holder, Some(p));
                self.callers[p].carried_of_count = std::mem::take(&mut self.local[c]);
                self.tell(|it| format!("{} TakeL c{c} -> {}", name_of(p), it.callers[p].carried_of_count));
            }
            Act::AddC(amount) => {
                let carried = std::mem::take(&mut self.callers[p].carried_of_count);
                self.count += carried + amount;
                self.add_amount(p, amount);
                self.tell(|_| format!("{} AddC {:+}", name_of(p), carried + amount));
            }
            Act::Unlock => {
                assert_eq!(self.holder, Some(p));
                self.holder = None;
                self.tell(|_| format!("{} Unlock", name_of(p)));
            }
            Act::Read => {
                self.load_count(p);
            }
            Act::Compare(with) => {
                let count = self.load_count(p);
                if (count - with).abs() > self.unknown() {
                    let distance = (count - self.total_of_count) * (count - with).signum();
                    self.check(Check::Rough, distance, (count - with).abs() - 1);
                } else {
                    self.begin_sum(p);
                }
            }
            Act::SumC => {
                let count = self.load_count(p);
                let others = self.amounts_of_others(p);
                let truth = self.total_of_count;
                let caller = &mut self.callers[p];
                (caller.sum, caller.truth, caller.last_load) = (count, truth, others);
            }
            Act::SumL(c) | Act::LimitL(c) => {
                self.callers[p].sum += self.local[c];
                self.tell(|it| format!("{} LoadL c{c} -> {}", name_of(p), it.local[c]));
            }
            Act::LimitLoad => {
                let local = self.local[p];
                self.callers[p].first_step = self.amounts_of_others(p);
                self.tell(|_| format!("{} LoadL c{p} -> {local}", name_of(p)));
                if (local + self.callers[p].amount).abs() <= self.batch {
                    self.push(p, &[Act::LimitFast]);
                } else {
                    self.push(p, &[Act::Lock, Act::LimitC]);
                }
            }
            Act::LimitFast => {
                let count = self.load_count(p);
                self.callers[p].first = Some(count);
                self.callers[p].last_load = self.amounts_of_others(p);
                if self.room(p, count) >= self.unknown() {
                    self.push(p, &[Act::LimitLocal]);
                } else {
                    self.push(p, &[Act::Lock, Act::LimitC]);
                }
            }
            Act::LimitLocal => {
                self.make_locked(p, Act::AddLocal(self.callers[p].amount));
                self.after_yes(p);
            }
            Act::LimitC => {
                let count = self.load_count(p);
                self.callers[p].last_load = self.amounts_of_others(p);
                self.callers[p].count = count;
                self.callers[p].sum = 0;
                let room = self.room(p, count + self.callers[p].amount);
                if room + self.unknown() < 0 {
                    self.push(p, &[Act::Unlock]);
                } else if room >= self.unknown() {
                    self.push(p, &[Act::TakeL(p), Act::LimitAdd, Act::Unlock]);
                } else {
                    let acts: Vec<Act> = self.present_in_base().map(Act::LimitL).collect();
                    self.push(p, &[Act::Then(Then::Judge)]);
                    self.push(p, &acts);
                }
            }
            Act::LimitAdd => {
                self.make_locked(p, Act::AddC(self.callers[p].amount));
                self.after_yes(p);
            }
            _ => unreachable!(),
        }
    }

    /// What takes no step.
    fn go_on(&mut self, p: usize, then: Then) {
        match then {
            Then::AddItems => {
                for i in (0..ITEMS).rev() {
                    if self.callers[p].carried_of_item[i] != 0 {
                        self.callers[p].todo.push(Act::AddS(i));
                    }
                }
            }
            Then::EndFold => self.callers[p].fold_of = None,
            Then::EndSnapshot => self.check_snapshot(self.callers[p].look),
            Then::Nodes => {
                let g = self.zones;
                let t = *self.callers[p].rates[..g].iter().max().unwrap();
                let acts: Vec<Act> = self.with_state(Cpu::Online).map(|c| Act::SetT(c, g, t)).collect();
                self.push(p, &acts);
            }
            Then::EndSum => {
                let Caller { sum, truth, last_load, .. } = self.callers[p];
                let now = self.amounts_of_others(p);
                self.check(Check::Summed, (sum - truth).abs(), now.0 - last_load.0 + now.1 - last_load.1);
                if self.in_turn {
                    self.check(Check::InTurn, (sum - self.total_of_count).abs(), 0);
                }
            }
            Then::Judge => {
                let Caller { amount, count, sum, first, last_load, .. } = self.callers[p];
                // what a yes by the first look would do
                if first.is_some_and(|first| self.room(p, first + amount + sum) >= 0) {
                    let now = self.amounts_of_others(p);
                    let since = if amount > 0 { now.0 - last_load.0 } else { now.1 - last_load.1 };
                    self.check(Check::FirstLook, -self.room(p, self.total_of_count + amount), since);
                }
                if self.room(p, count + amount + sum) >= 0 {
                    self.push(p, &[Act::TakeL(p), Act::LimitAdd, Act::Unlock]);
                } else {
                    self.push(p, &[Act::Unlock]);
                }
            }
            Then::EndEvents => {
                let Caller { events, least, truth, .. } = self.callers[p];
                let most = self.online_words();
                self.check(Check::Events, events - least, most - least);
                self.check(Check::Events, most - events, most - least);
                self.check(Check::EventsOfDead, truth - events, 0);
                if self.in_turn {
                    self.check(Check::InTurn, (events - most).abs() + self.callers[CONTROL].carried_events, 0);
                }
            }
        }
    }

    // ---- random runs

    fn draw_base(&mut self) {
        self.cpus = 1 + self.random.below(CPUS);
        self.zones = 1 + self.random.below(2);
        self.groups = 1 + self.random.below(2);
        self.most = [2, 4, 10, MOST][self.random.below(4)];
        self.lean = self.random.within(-1, 1);
        self.in_turn = self.random.one_in(8);
        self.stays = [0, 2, 8, 30][self.random.below(4)];
        self.sleeps = [0, 1, 4][self.random.below(3)];
        self.weights = std::array::from_fn(|_| [0, 1, 3, 9][self.random.below(4)]);
        self.weights[Call::Change as usize] += 2;
        self.is_dense = self.random.one_in(4);
        if self.is_dense {
            (self.zones, self.groups, self.most) = (1, 1, 2);
            (self.stays, self.sleeps) = (8, 1);
            self.weights = [6, 2, 4, 4, 2, 2, 0, 0, 0, 0, 0, 0];
        }
        for c in 0..self.cpus {
            self.cpu[c] = match self.random.below(12) {
                0 => Cpu::Absent,
                1 | 2 => Cpu::Dead,
                _ => Cpu::Online,
            };
        }
        self.cpu[self.random.below(self.cpus)] = Cpu::Online;
        // nothing is hidden, or all that may be on one side, or anything
        let hides = self.random.below(3);
        for c in 0..self.cpus {
            for g in 0..self.places() {
                self.threshold[c][g] = self.random.within(i64::from(self.cpu[c] == Cpu::Online), self.most);
                for k in self.counters_of_place(g).filter(|_| self.cpu[c] != Cpu::Absent) {
                    let t = self.threshold[c][g];
                    let most = if self.random.one_in(6) { MOST.min(2 * self.most) } else { t };
                    self.diff[c][k] = match hides {
                        0 => 0,
                        1 => self.lean * t,
                        _ => self.random.within(-most, most),
                    };
                }
            }
            if self.cpu[c] != Cpu::Absent {
                self.word[c] = self.random.within(0, 3);
            }
        }
        self.hot = self.random.below(self.places()) * IN_PLACE + self.random.below(self.groups * IN_GROUP);
        for value in &mut self.place {
            *value = self.random.within(-self.most, 6 * self.most);
        }
        for value in &mut self.system {
            *value = self.random.within(-self.most, 6 * self.most);
        }
        let largest = [2, 4, 32][self.random.below(3)];
        self.batch = self.random.within(1, largest);
        self.below_batch = self.random.one_in(3);
        let fullest = if self.below_batch { self.batch - 1 } else { self.batch };
        for c in (0..self.cpus).filter(|&c| self.cpu[c] != Cpu::Absent) {
            self.local[c] = match hides {
                0 => 0,
                1 => self.lean * fullest,
                _ => self.random.within(-fullest, fullest),
            };
        }
        self.count = self.random.within(-self.batch, 4 * self.batch);
        self.begin();
        for g in 0..self.zones {
            let hidden = self.peak_sum(g);
            self.gap[g] = self.random.within(0, 2 * hidden);
            self.high[g] = self.gap[g] + self.random.within(0, 2 * self.most);
            self.mark[g] = self.high[g] + hidden + self.random.within(0, 3);
            if hidden <= self.gap[g] && self.random.one_in(2) {
                self.mark[g] = 0;
            }
            assert!(self.covers(g));
        }
    }

    /// The true totals and peaks of the base.
    fn begin(&mut self) {
        self.base = self.cpu;
        self.total = self.place;
        self.total_of_item = self.system;
        for c in 0..self.cpus {
            for g in 0..self.places() {
                self.peak[c][g] = self.threshold[c][g];
                for k in self.counters_of_place(g) {
                    self.total[k] += self.diff[c][k];
                    self.total_of_item[self.item_of(k)] += self.diff[c][k];
                    self.peak[c][g] = self.peak[c][g].max(self.diff[c][k].abs());
                }
            }
        }
        self.total_of_count = self.count + self.local.iter().sum::<i64>();
        self.total_of_events = self.word.iter().sum();
        self.acknowledged = [[NOTHING; PLACES]; CPUS];
    }

    fn draw_counter(&mut self) -> usize {
        if !self.is_dense && self.random.one_in(4) {
            self.random.below(self.places()) * IN_PLACE + self.random.below(self.groups * IN_GROUP)
        } else {
            self.hot
        }
    }

    fn draw_rates(&mut self) -> [i64; PLACES] {
        std::array::from_fn(|_| if self.random.one_in(3) { 1 } else { self.random.within(1, self.most) })
    }

    fn draw_change(&mut self, p: usize) {
        let k = self.draw_counter();
        let t = self.threshold[p][k / IN_PLACE];
        let side = if self.lean == 0 || self.random.one_in(8) { self.random.within(0, 1) * 2 - 1 } else { self.lean };
        let delta = match self.random.below(4) {
            // up to the threshold
            0 => side * t - self.diff[p][k],
            1 => side,
            2 => side * self.random.within(1, 2 * self.most),
            _ => self.random.within(-self.most, self.most),
        };
        let how = match self.random.below(4) {
            0 | 1 => 0,
            2 => side,
            _ => self.random.within(-1, 1),
        };
        let delta = if how != 0 && !self.random.one_in(4) { how } else { delta };
        self.begin_change(p, k, delta, how);
    }

    fn draw_amount(&mut self) -> i64 {
        let most = 2 * self.batch;
        match self.random.within(-most, most) {
            0 => 1,
            amount if self.lean != 0 && !self.random.one_in(4) => amount.abs() * self.lean,
            amount => amount,
        }
    }

    fn draw_call(&mut self, p: usize) {
        let all: usize = self.weights.iter().sum();
        let mut drawn = self.random.below(all);
        let mut calls = CALLS.iter().zip(self.weights);
        let (&call, _) = calls
            .find(|&(_, weight)| {
                let is_it = drawn < weight;
                drawn = drawn.saturating_sub(weight);
                is_it
            })
            .unwrap();
        match call {
            Call::Change | Call::OwnFold | Call::Add | Call::Sync | Call::Event if p == CONTROL => {
                self.draw_control(call);
            }
            Call::Change => self.draw_change(p),
            Call::OwnFold => self.begin_fold(p, p),
            Call::Fold => {
                let dead = self.with_state(Cpu::Dead).next();
                let c = dead.filter(|_| self.random.one_in(2)).unwrap_or(self.random.below(self.cpus));
                self.begin_fold(p, c);
            }
            Call::Value => {
                let k = self.draw_counter();
                self.push(p, &[Act::Value(k)]);
            }
            Call::System => {
                let i = self.draw_counter();
                self.push(p, &[Act::System(self.item_of(i))]);
            }
            Call::Snapshot => {
                let k = self.draw_counter();
                self.begin_snapshot(p, k);
            }
            Call::Test => {
                let g = self.random.below(self.zones);
                self.push(p, &[Act::MarkBefore(g), Act::TestG(g), Act::MarkAfter(g)]);
            }
            Call::Count => match self.random.below(3) {
                0 => self.push(p, &[Act::Read]),
                1 => self.begin_sum(p),
                _ => {
                    let off = self.unknown() + 2;
                    let with = self.count + self.random.within(-off, off);
                    self.push(p, &[Act::Compare(with)]);
                }
            },
            Call::Add => {
                let amount = self.draw_amount();
                if self.below_batch || self.random.one_in(2) {
                    self.push(p, &[Act::AddLoad(amount)]);
                } else {
                    let off = if self.random.one_in(2) { self.batch } else { 1 };
                    let limit = self.total_of_count + amount + self.random.within(-off, off);
                    self.begin_limited(p, limit, amount);
                }
            }
            Call::Sync => self.begin_sync(p, p),
            Call::Event => {
                let n = self.random.within(1, 3);
                self.push(p, &[Act::CountEvents(n)]);
            }
            Call::Events => self.begin_events(p),
        }
    }

    /// A call that the control pass alone makes.
    fn draw_control(&mut self, call: Call) {
        let rates = self.draw_rates();
        let dead_in_base = (0..self.cpus).find(|&c| self.base[c] == Cpu::Dead);
        let dead = self.with_state(Cpu::Dead).next();
        match (call, dead_in_base, dead) {
            (Call::OwnFold, _, Some(c)) => self.begin_burial(c, rates),
            (Call::Sync, Some(c), _) => self.begin_sync(CONTROL, c),
            (Call::Event, Some(c), _) => self.push(CONTROL, &[Act::TakeE(c)]),
            _ => {
                let every = self.random.one_in(3);
                let usual = if every || self.random.one_in(2) { rates } else { self.draw_rates() };
                self.begin_rating(every, rates, usual);
            }
        }
    }

    /// A whole run, with its steps told where `tells`; how many steps it made.
    fn run(&mut self, seed: u64, run: u64, tells: bool) -> u64 {
        let figures = std::mem::take(&mut self.figures);
        *self = World { run, random: Random::new(seed, run), ..World::with_figures(figures) };
        self.told = tells.then(String::new);
        self.draw_base();
        self.tell(|it| it.described());
        let lanes: Vec<usize> = self.with_state(Cpu::Online).chain([CONTROL]).collect();
        let steps = self.random.within(40, 1000);
        let mut wakes = [0; CALLERS];
        let mut made = 0;
        let mut p = CONTROL;
        for step in 0..steps {
            let stays =
                if self.in_turn { !self.callers[p].todo.is_empty() } else { self.random.below(40) < self.stays };
            if !stays || wakes[p] > step {
                p = lanes[self.random.below(lanes.len())];
                if wakes[p] > step {
                    continue;
                }
            }
            if self.callers[p].todo.is_empty() {
                self.draw_call(p);
            }
            self.step(p);
            made += 1;
            let is_in_call = !self.callers[p].todo.is_empty() && self.holder != Some(p);
            if !self.in_turn && is_in_call && self.sleeps != 0 && self.random.one_in(3 * self.sleeps) {
                wakes[p] = step + self.random.within(4, 60);
            }
            if self.wrong.is_some() {
                break;
            }
        }
        made
    }

    fn with_figures(figures: Vec<[Figures; 2]>) -> World {
        World { figures, last: vec![(0, -1); CHECKS.len()], ..World::default() }
    }

    fn described(&self) -> String {
        let state = |c: usize| match self.base[c] {
            Cpu::Online => "online",
            Cpu::Dead => "dead",
            Cpu::Absent => "absent",
        };
        let mut text = format!("{} zones, a node, {} groups a place, batch {}", self.zones, self.groups, self.batch);
        for c in 0..self.cpus {
            let _ = write!(
                text,
                "\nc{c} {}: thresholds {:?}, differentials {:?}, local part {}, word {}",
                state(c),
                &self.threshold[c][..self.places()],
                &self.diff[c][..self.places() * IN_PLACE],
                self.local[c],
                self.word[c]
            );
        }
        let _ = write!(text, "\nglobal values {:?}, count {}", &self.place[..self.places() * IN_PLACE], self.count);
        let _ = write!(text, "\nsystem-wide values {:?}, marks {:?}", self.system, &self.mark[..self.zones]);
        text
    }
}

// ---- stories

/// A run that is written down: what stands in the base, what callers do, and the distance and the bound that the last
/// look of a kind has to show. Counters are 0 to 3 of zone 0, 4 to 7 of zone 1 where there is one, then those of the
/// node. All gaps are 0. `for N` makes the next N steps of a call, `rest` all that are left, and a call that says
/// neither all its steps. `set T` is a refresh with threshold T.
struct Story {
    name: &'static str,
    steps: &'static str,
    shows: &'static [(Check, i64, i64)],
}

impl Story {
    /// Whether it reaches a bound, shows that one is further away than what is true, or passes a wrong one by 1.
    fn reaches(&self, check: Check, kind: Kind) -> bool {
        self.shows.iter().filter(|it| it.0 == check).any(|&(_, distance, bound)| match kind {
            Kind::Bound => distance == bound,
            Kind::Further => distance < bound,
            Kind::Wrong => distance == bound + 1,
        })
    }
}

const STORIES: &[Story] = &[
    Story {
        name: "two CPUs hide what they may, and one has a change in flight",
        steps: "online 2, threshold 2; c0 mod 0 2; c1 mod 0 2; c0 mod 0 3 for 3; c1 val 0",
        shows: &[(Check::Value, 7, 7), (Check::Above, 7, 7)],
    },
    Story {
        name: "the same downwards",
        steps: "online 2, threshold 2, value 0 10; c0 mod 0 -2; c1 mod 0 -2; c0 mod 0 -3 for 3; c1 val 0",
        shows: &[(Check::Value, 7, 7), (Check::Below, 7, 7)],
    },
    Story {
        name: "what a change carries over a full differential",
        steps: "online 1, threshold 2; c0 mod 0 2; c0 mod 0 3 for 3",
        shows: &[(Check::Lane, 5, 5)],
    },
    Story {
        name: "a threshold comes down over a full differential",
        steps: "online 1, threshold 2; c0 mod 0 2; k set 1; c0 val 0",
        shows: &[(Check::Value, 2, 2), (Check::ThresholdsNow, 2, 1)],
    },
    Story {
        name: "a change under a threshold that came down",
        steps: "online 1, threshold 4; c0 mod 0 4; k set 1; c0 mod 0 -1 for 3",
        shows: &[(Check::Lane, 3, 5), (Check::LaneNow, 3, 2)],
    },
    Story {
        name: "a fold of another CPU in flight, which fills up again",
        steps: "online 2, threshold 1; c0 mod 0 1; c1 mod 0 1; c1 fold 0 for 1; c0 mod 0 1; c0 val 0",
        shows: &[(Check::Value, 3, 3), (Check::Carried, 3, 3), (Check::NoForeign, 3, 2)],
    },
    Story {
        name: "what an inc leaves is folded before it adds what it carries",
        steps: "online 2, threshold 2; c0 mod 0 2; c1 mod 0 2; c0 inc 0 for 3; c1 fold 0; c1 val 0",
        shows: &[(Check::Value, 6, 6), (Check::NoHalf, 6, 5)],
    },
    Story {
        name: "the same with the largest threshold",
        steps: "online 2, threshold 125; c0 mod 0 125; c1 mod 0 125; c0 inc 0 for 3; c1 fold 0; c1 val 0",
        shows: &[(Check::Value, 313, 313), (Check::NoHalf, 313, 251)],
    },
    Story {
        name: "a dead CPU is folded by another while it is buried",
        steps: "online 2, dead 1, threshold 1, diff 2 0 1; c0 mod 0 1; c1 mod 0 1; c0 fold 2 for 1; k bury 2; c1 val 0",
        shows: &[(Check::Value, 3, 3), (Check::NoBuried, 3, 2)],
    },
    Story {
        name: "a dead CPU hides what an online one may",
        steps: "online 1, dead 1, threshold 1, diff 1 0 1; c0 mod 0 1; c0 val 0",
        shows: &[(Check::Value, 2, 2), (Check::OnlineAlone, 2, 1)],
    },
    Story {
        name: "a change between a snapshot's first load and its look",
        steps: "online 1, threshold 2; k snap 0 for 1; c0 mod 0 1; k rest",
        shows: &[(Check::Moves, 1, 1), (Check::Deltas, 1, 1), (Check::Exact, 1, 0)],
    },
    Story {
        name: "a change of 1 moves a full differential",
        steps: "online 1, threshold 2; c0 mod 0 2; k snap 0 for 1; c0 mod 0 1; k rest",
        shows: &[(Check::Moves, 2, 2), (Check::Deltas, 2, 1)],
    },
    Story {
        name: "an inc moves half a threshold more",
        steps: "online 1, threshold 2; c0 mod 0 2; k snap 0 for 1; c0 inc 0; k rest",
        shows: &[(Check::Moves, 3, 3), (Check::Deltas, 3, 1)],
    },
    Story {
        name: "a differential goes from one threshold to the other",
        steps: "online 1, threshold 2; c0 mod 0 -2; k snap 0 for 1; c0 mod 0 2; c0 mod 0 2; k rest",
        shows: &[(Check::Moves, 4, 4), (Check::Peaks, 4, 4)],
    },
    Story {
        name: "a change that is in flight at a snapshot's first load turns before its look",
        steps: "online 1, threshold 1, value 0 10; c0 mod 0 -1; c0 mod 0 -3 for 3; \
                k snap 0 for 1; c0 rest; c0 mod 0 1; k rest",
        shows: &[(Check::Snapshot, 5, 5), (Check::Sides, 5, 5), (Check::NoLooks, 5, 4)],
    },
    Story {
        name: "limited adds fill a batch, and a dead CPU holds one",
        steps: "online 1, dead 1, batch 1, local 1 1; c0 lim 100 1; c0 read",
        shows: &[(Check::Count, 2, 2), (Check::CountOnline, 2, 1)],
    },
    Story {
        name: "adds fill a batch less 1",
        steps: "online 2, batch 3, below; c0 cnt 2; c1 cnt 2; c0 read",
        shows: &[(Check::Count, 4, 6), (Check::Adds, 4, 4)],
    },
    Story {
        name: "a rough comparison that is off by all but 1",
        steps: "online 2, batch 1; c0 lim 100 1; c1 lim 100 1; k cmp 3",
        shows: &[(Check::Rough, 2, 2)],
    },
    Story {
        name: "another CPU adds after a limited add has looked at it",
        steps: "online 2, batch 2; c0 lim 5 5 for 5; c1 cnt 1; c0 rest",
        shows: &[(Check::Limited, 1, 1)],
    },
    Story {
        name: "another CPU adds before a limited add looks again",
        steps: "online 2, batch 2; c0 lim 2 1 for 2; c1 cnt 1; c0 rest",
        shows: &[(Check::Limited, 0, 0), (Check::SinceFirst, 0, 1)],
    },
    Story {
        name: "another CPU fills the limit before a limited add looks again",
        steps: "online 2, batch 2; c0 lim 3 1 for 2; c1 cnt 3; c0 rest",
        shows: &[(Check::FirstLook, 1, 0)],
    },
    Story {
        name: "another CPU adds before a sum looks at it",
        steps: "online 2, batch 2; c0 sum for 2; c1 cnt 1; c0 rest",
        shows: &[(Check::Summed, 1, 1)],
    },
    Story {
        name: "two zones hide what they may, and a change is in flight",
        steps: "online 2, zones 2, threshold 2; c0 mod 0 2; c0 mod 4 2; c1 mod 0 2; c1 mod 4 2; \
                c0 mod 0 3 for 3; c1 sys 0",
        shows: &[(Check::System, 11, 11)],
    },
    Story {
        name: "a change that has made its AddG",
        steps: "online 2, threshold 1; c0 mod 0 1; c1 mod 0 1; c0 mod 0 1 for 4; c1 sys 0",
        shows: &[(Check::System, 3, 3), (Check::NoAdded, 3, 2)],
    },
    Story {
        name: "an own fold acknowledges a threshold that came down, and has its AddS to make",
        steps: "online 1, threshold 2; c0 mod 0 2; k set 1; c0 fold 0 for 4; k sys 0",
        shows: &[(Check::System, 2, 3), (Check::NoOwnFolds, 2, 1)],
    },
    Story {
        name: "the same from 5 to 1",
        steps: "online 1, threshold 5; c0 mod 0 5; k set 1; c0 fold 0 for 4; k sys 0",
        shows: &[(Check::System, 5, 6), (Check::NoOwnFolds, 5, 1)],
    },
    Story {
        name: "an event between the first load of a sum and its last",
        steps: "online 2; c0 evsum for 1; c1 ev 3; c0 rest",
        shows: &[(Check::Events, 0, 3)],
    },
    Story {
        name: "an event that a sum has gone past",
        steps: "online 2; c1 evsum for 1; c0 ev 3; c1 rest",
        shows: &[(Check::Events, 3, 3)],
    },
    Story {
        name: "a dead CPU holds an event",
        steps: "online 1, dead 1, word 1 1; c0 evsum",
        shows: &[(Check::Events, 0, 0), (Check::EventsOfDead, 1, 0)],
    },
    Story {
        name: "one call after another, and a dead CPU hides a page",
        steps: "turn, online 2, dead 1, threshold 2, diff 2 0 1; c0 mod 0 2; c1 mod 0 -1; c1 snap 0",
        shows: &[(Check::InTurn, 0, 0), (Check::Snapshot, 1, 10)],
    },
];

impl World {
    fn set_fact(&mut self, fact: &[&str]) {
        let n = |at: usize| fact[at].parse::<i64>().unwrap();
        let at = |at: usize| n(at) as usize;
        match fact[0] {
            "turn" => self.in_turn = true,
            "online" | "dead" => {
                let from = if fact[0] == "online" { 0 } else { self.cpus };
                self.cpus = from + at(1);
                self.cpu[from..self.cpus].fill(if fact[0] == "online" { Cpu::Online } else { Cpu::Dead });
            }
            "zones" => self.zones = at(1),
            "threshold" => self.threshold = [[n(1); PLACES]; CPUS],
            "diff" => self.diff[at(1)][at(2)] = n(3),
            "value" => self.place[at(1)] = n(2),
            "batch" => self.batch = n(1),
            "below" => self.below_batch = true,
            "local" => self.local[at(1)] = n(2),
            "word" => self.word[at(1)] = n(2),
            other => unreachable!("{other}"),
        }
    }

    fn begin_call(&mut self, p: usize, call: &[&str]) {
        let n = |at: usize| call[at].parse::<i64>().unwrap();
        let at = |at: usize| n(at) as usize;
        match call[0] {
            "mod" => self.begin_change(p, at(1), n(2), 0),
            "inc" => self.begin_change(p, at(1), 1, 1),
            "fold" => self.begin_fold(p, at(1)),
            "val" => self.push(p, &[Act::Value(at(1))]),
            "sys" => self.push(p, &[Act::System(at(1))]),
            "snap" => self.begin_snapshot(p, at(1)),
            "set" => self.begin_rating(true, [n(1); PLACES], [n(1); PLACES]),
            "bury" => self.begin_burial(at(1), self.threshold[0]),
            "cnt" => self.push(p, &[Act::AddLoad(n(1))]),
            "lim" => self.begin_limited(p, n(1), n(2)),
            "read" => self.push(p, &[Act::Read]),
            "cmp" => self.push(p, &[Act::Compare(n(1))]),
            "sum" => self.begin_sum(p),
            "ev" => self.push(p, &[Act::CountEvents(n(1))]),
            "evsum" => self.begin_events(p),
            other => assert!(other == "rest" || other == "for", "{other}"),
        }
    }

    /// Plays a story; what it has to show and doesn't.
    fn play(&mut self, story: &Story) -> Vec<String> {
        self.told = Some(String::new());
        (self.zones, self.groups, self.batch, self.threshold) = (1, 1, 1, [[1; PLACES]; CPUS]);
        let mut clauses = story.steps.split(';').map(str::trim);
        for fact in clauses.next().unwrap().split(',') {
            self.set_fact(&fact.split_whitespace().collect::<Vec<_>>());
        }
        self.begin();
        for g in 0..self.zones {
            self.mark[g] = self.peak_sum(g);
        }
        for clause in clauses {
            let words: Vec<&str> = clause.split_whitespace().collect();
            let p = if words[0] == "k" { CONTROL } else { words[0][1..].parse().unwrap() };
            self.begin_call(p, &words[1..]);
            let steps = words.iter().position(|&it| it == "for").map(|at| words[at + 1].parse::<usize>().unwrap());
            for _ in 0..steps.unwrap_or(usize::MAX) {
                if self.callers[p].todo.is_empty() {
                    break;
                }
                self.step(p);
            }
        }
        let differs = |&&(check, distance, bound): &&(Check, i64, i64)| self.last[check as usize] != (distance, bound);
        let shown = story.shows.iter().filter(differs).map(|&(check, distance, bound)| {
            let at = check as usize;
            format!("{}: {:?} in place of {:?}", CHECKS[at].2, self.last[at], (distance, bound))
        });
        let passed = self.wrong.map(|check| format!("it passes {}", CHECKS[check as usize].2));
        shown.chain(passed).collect()
    }
}

/// Plays the stories. Whether they show what they have to, reach each bound and pass each wrong definition by 1.
fn play_stories() -> bool {
    let mut is_right = true;
    for story in STORIES {
        let mut world = World::with_figures(vec![Default::default(); CHECKS.len()]);
        let wrong = world.play(story);
        if !wrong.is_empty() {
            println!("story: {}\n{}{}", story.name, world.told.unwrap(), wrong.join("\n"));
            is_right = false;
        }
    }
    for &(check, kind, text) in CHECKS {
        // an own fold leaves at least 1 of the bound, the threshold that it acknowledged
        if check != Check::Folding && !STORIES.iter().any(|story| story.reaches(check, kind)) {
            println!("no story for: {text}");
            is_right = false;
        }
    }
    is_right
}

fn share(figures: &Figures) -> String {
    let (distance, bound) = figures.share;
    if bound == 0 { "-".into() } else { format!("{} %", 100 * distance / bound) }
}

fn main() {
    let words: Vec<u64> = std::env::args().skip(1).map_while(|word| word.parse().ok()).collect();
    if words.len() != std::env::args().count() - 1 || words.len() > 2 {
        eprintln!("usage: near [RUNS [SEED]]");
        std::process::exit(2);
    }
    let (runs, seed) = (words.first().copied().unwrap_or(20_000), words.get(1).copied().unwrap_or(1));
    let is_right = play_stories();
    let mut world = World::with_figures(vec![Default::default(); CHECKS.len()]);
    let mut steps = 0;
    for run in 0..runs {
        steps += world.run(seed, run, false);
        if let Some(check) = world.wrong {
            println!("run {run} of seed {seed} passes the bound of {}:", CHECKS[check as usize].2);
            world.run(seed, run, true);
            print!("{}", world.told.as_ref().unwrap());
            std::process::exit(1);
        }
    }
    println!("{runs} runs of seed {seed} with {steps} steps, and {} stories\n", STORIES.len());
    println!("{:58}{:>14}{:>12}{:>8}{:>12}{:>8}", "bound", "compared", "reached", "most", "four CPUs", "most");
    for (&(_, kind, text), [all, four]) in CHECKS.iter().zip(&world.figures) {
        if kind != Kind::Wrong {
            let (reached, share, at_four) = (all.reached, share(all), share(four));
            println!("{text:58}{:>14}{reached:>12}{share:>8}{:>12}{at_four:>8}", all.checks, four.reached);
        }
    }
    println!("\n{:58}{:>14}{:>12}{:>12}", "wrong definition", "compared", "passed", "first run");
    for (&(check, kind, text), [all, _]) in CHECKS.iter().zip(&world.figures) {
        if kind == Kind::Wrong {
            let first = all.first.map_or("none".into(), |run| run.to_string());
            println!("{text:58}{:>14}{:>12}{first:>12}", all.checks, all.passed);
            if let Some(story) = STORIES.iter().find(|story| story.reaches(check, kind)) {
                println!("    passed by 1 where {}:\n    {}", story.name, story.steps);
            }
        }
    }
    std::process::exit(i32::from(!is_right));
}
