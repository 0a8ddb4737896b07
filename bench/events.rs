//! The lines of a written history, for the plain judge of one: `phase`, and events, as they are read and as
//! they are written.

use crate::trace::{Cut, Header, MOST_LINE, amount, unsigned};

/// A list of a step as it is written, which may have numbers that no group has.
pub type WideList = [i64; 8];

/// What a step names and tells. Places, groups, counters, items and CPUs are those of the layout.
pub enum Step {
    LoadT { place: usize, threshold: u64, sets: u64 },
    LoadD { cpu: usize, group: usize, list: WideList },
    Put { counter: usize, list: WideList, threshold: u64, delta: i64, mode: i64 },
    Miss { group: usize, list: WideList },
    AddG { counter: usize, pages: i64 },
    AddS { item: usize, pages: i64 },
    Take { cpu: usize, group: usize, list: WideList },
    LoadG { counter: usize, value: i64 },
    LoadS { item: usize, value: i64 },
    LoadM { place: usize, mark: u64, sets: u64 },
    LoadO { cpu: usize, state: u64 },
    SetT { cpu: usize, place: usize, threshold: u64 },
    SetM { place: usize, mark: u64 },
    SetO { cpu: usize },
    SetA { place: usize, sets: u64 },
    LoadA { cpu: usize, place: usize, sets: Option<u64> },
    Split { pass: u64, cpu: Option<usize> },
    Join { pass: u64 },
}

pub enum HistoryLine {
    Ignored,
    Phase,
    Event(u64, Step),
    /// Neither, or an event that names what the layout hasn't.
    Bad,
}

fn is_blank(byte: u8) -> bool {
    matches!(byte, b' ' | b'\t' | b'\r')
}

/// Whether a line ends the trace and begins its history.
pub fn begins_history(line: &[u8]) -> bool {
    // Most lines are those of lanes.
    let may_be_a_lane = matches!(line, [b'c' | b'k', ..]);
    !may_be_a_lane && line.len() <= MOST_LINE && *Cut::of(line).words() == [b"history" as &[u8], b"1"]
}

pub fn history_line(header: &Header, line: &[u8]) -> HistoryLine {
    if line.len() > MOST_LINE {
        return HistoryLine::Bad;
    }
    let is_clean = line.iter().all(|&byte| byte.is_ascii_graphic() || is_blank(byte));
    match line.iter().find(|byte| byte.is_ascii_graphic()) {
        Some(b'#') => return HistoryLine::Ignored,
        None if is_clean => return HistoryLine::Ignored,
        _ if !is_clean => return HistoryLine::Bad,
        _ => {}
    }
    let mut words = Words { header, left: line };
    let first = words.next();
    match first {
        Some(b"phase") if words.next().is_none() => HistoryLine::Phase,
        Some(first) => match unsigned(first).zip(words.step()) {
            Some((caller, step)) if words.next().is_none() => HistoryLine::Event(caller, step),
            _ => HistoryLine::Bad,
        },
        None => HistoryLine::Bad,
    }
}

/// The words of a clean line that are left. A field is None where the next word doesn't spell it.
struct Words<'a> {
    header: &'a Header,
    left: &'a [u8],
}

impl<'a> Words<'a> {
    fn next(&mut self) -> Option<&'a [u8]> {
        let begin = self.left.iter().position(|&byte| !is_blank(byte))?;
        let word = &self.left[begin..];
        let end = word.iter().position(|&byte| is_blank(byte)).unwrap_or(word.len());
        self.left = &word[end..];
        Some(&word[..end])
    }

    fn unsigned(&mut self) -> Option<u64> {
        unsigned(self.next()?)
    }

    fn signed(&mut self) -> Option<i64> {
        amount(self.next()?).ok()
    }

    fn below(&mut self, count: usize) -> Option<usize> {
        self.unsigned().filter(|&id| id < count as u64).map(|id| id as usize)
    }

    fn cpu(&mut self) -> Option<usize> {
        self.below(self.header.cpus)
    }

    fn place(&mut self) -> Option<usize> {
        self.below(self.header.places())
    }

    fn counter(&mut self) -> Option<usize> {
        self.below(self.header.bases.len())
    }

    fn group(&mut self) -> Option<usize> {
        self.below(self.header.bases.len() / 8)
    }

    fn item(&mut self) -> Option<usize> {
        self.below(2 * self.header.positions())
    }

    fn list(&mut self) -> Option<WideList> {
        let mut list = [0; 8];
        for entry in &mut list {
            *entry = self.signed()?;
        }
        Some(list)
    }

    fn step(&mut self) -> Option<Step> {
        Some(match self.next()? {
            b"LoadT" => Step::LoadT { place: self.place()?, threshold: self.unsigned()?, sets: self.unsigned()? },
            b"LoadD" => Step::LoadD { cpu: self.cpu()?, group: self.group()?, list: self.list()? },
            b"Put" => {
                let (counter, list) = (self.counter()?, self.list()?);
                let (threshold, delta, mode) = (self.unsigned()?, self.signed()?, self.signed()?);
                (-1..=1).contains(&mode).then_some(Step::Put { counter, list, threshold, delta, mode })?
            }
            b"Miss" => Step::Miss { group: self.group()?, list: self.list()? },
            b"AddG" => Step::AddG { counter: self.counter()?, pages: self.signed()? },
            b"AddS" => Step::AddS { item: self.item()?, pages: self.signed()? },
            b"Take" => Step::Take { cpu: self.cpu()?, group: self.group()?, list: self.list()? },
            b"LoadG" => Step::LoadG { counter: self.counter()?, value: self.signed()? },
            b"LoadS" => Step::LoadS { item: self.item()?, value: self.signed()? },
            b"LoadM" => Step::LoadM { place: self.place()?, mark: self.unsigned()?, sets: self.unsigned()? },
            b"LoadO" => {
                let (cpu, state) = (self.cpu()?, self.unsigned()?);
                (state <= 2).then_some(Step::LoadO { cpu, state })?
            }
            b"SetT" => Step::SetT { cpu: self.cpu()?, place: self.place()?, threshold: self.unsigned()? },
            b"SetM" => Step::SetM { place: self.place()?, mark: self.unsigned()? },
            b"SetO" => Step::SetO { cpu: self.cpu()? },
            b"SetA" => Step::SetA { place: self.place()?, sets: self.unsigned()? },
            b"LoadA" => {
                let (cpu, place, word) = (self.cpu()?, self.place()?, self.next()?);
                let sets = if word == b"-" { None } else { Some(unsigned(word)?) };
                Step::LoadA { cpu, place, sets }
            }
            b"Split" => {
                let (pass, mut rest) = (self.unsigned()?, Words { header: self.header, left: self.left });
                let cpu = if self.next()? == b"-" { None } else { Some(rest.cpu()?) };
                Step::Split { pass, cpu }
            }
            b"Join" => Step::Join { pass: self.unsigned()? },
            _ => return None,
        })
    }
}

/// The line of an event.
pub fn event_line(caller: u64, step: &Step) -> String {
    let listed = |list: &WideList| list.map(|entry| entry.to_string()).join(" ");
    let or_none = |number: Option<u64>| number.map_or("-".to_string(), |number| number.to_string());
    let words = match *step {
        Step::LoadT { place, threshold, sets } => format!("LoadT {place} {threshold} {sets}"),
        Step::LoadD { cpu, group, ref list } => format!("LoadD {cpu} {group} {}", listed(list)),
        Step::Put { counter, ref list, threshold, delta, mode } => {
            format!("Put {counter} {} {threshold} {delta} {mode}", listed(list))
        }
        Step::Miss { group, ref list } => format!("Miss {group} {}", listed(list)),
        Step::AddG { counter, pages } => format!("AddG {counter} {pages}"),
        Step::AddS { item, pages } => format!("AddS {item} {pages}"),
        Step::Take { cpu, group, ref list } => format!("Take {cpu} {group} {}", listed(list)),
        Step::LoadG { counter, value } => format!("LoadG {counter} {value}"),
        Step::LoadS { item, value } => format!("LoadS {item} {value}"),
        Step::LoadM { place, mark, sets } => format!("LoadM {place} {mark} {sets}"),
        Step::LoadO { cpu, state } => format!("LoadO {cpu} {state}"),
        Step::SetT { cpu, place, threshold } => format!("SetT {cpu} {place} {threshold}"),
        Step::SetM { place, mark } => format!("SetM {place} {mark}"),
        Step::SetO { cpu } => format!("SetO {cpu}"),
        Step::SetA { place, sets } => format!("SetA {place} {sets}"),
        Step::LoadA { cpu, place, sets } => format!("LoadA {cpu} {place} {}", or_none(sets)),
        Step::Split { pass, cpu } => format!("Split {pass} {}", or_none(cpu.map(|cpu| cpu as u64))),
        Step::Join { pass } => format!("Join {pass}"),
    };
    format!("{caller} {words}")
}
