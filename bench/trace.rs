//! The grammar of a trace, for the plain program: what its header and a line of its body say, and their causes.

use crate::names::{EVENTS, NODE_ITEMS, ZONE_ITEMS};
use std::fmt::{self, Display};
use std::str;

pub const KINDS: [&str; 4] = ["DMA", "DMA32", "Normal", "Movable"];
pub const MARKS: [&str; 3] = ["min", "low", "high"];
pub const REPORTS: [&str; 4] = ["vmstat", "zoneinfo", "totals", "counters"];

pub const MOST_LINE: usize = 200;
const MOST_PAGES: u64 = 1 << 40;
const MOST_BASE: u64 = 1 << 48;
const MOST_LIMIT: u64 = 1 << 60;
pub const BYTES_OF_PAGE: i64 = 4096;

/// The causes of headers and of lines, in the order of `CAUSES`.
#[derive(Clone, Copy, Debug, PartialEq)]
pub enum Cause {
    BadMagic,
    BadNumber,
    BadCpus,
    NoZone,
    DoubledZone,
    TooManyZones,
    BadMarks,
    UnknownName,
    DoubledCounter,
    BadBatch,
    MissingGo,
    Malformed,
    TooManyCounters,
    LineTooLong,
    DoubledItem,
    TooManyItems,
    UnknownLane,
    UnknownPlace,
    UnknownItem,
    UnknownCounter,
    NotOnline,
    Overflow,
    NotDead,
    NotFolded,
    LastCpu,
    NotPages,
    BadName,
    UnknownGroup,
    DoubledGroup,
    TooManyGroups,
}

const CAUSES: [&str; 30] = [
    "BadMagic",
    "BadNumber",
    "BadCpus",
    "NoZone",
    "DoubledZone",
    "TooManyZones",
    "BadMarks",
    "UnknownName",
    "DoubledCounter",
    "BadBatch",
    "MissingGo",
    "Malformed",
    "TooManyCounters",
    "LineTooLong",
    "DoubledItem",
    "TooManyItems",
    "UnknownLane",
    "UnknownPlace",
    "UnknownItem",
    "UnknownCounter",
    "NotOnline",
    "Overflow",
    "NotDead",
    "NotFolded",
    "LastCpu",
    "NotPages",
    "BadName",
    "UnknownGroup",
    "DoubledGroup",
    "TooManyGroups",
];

impl Cause {
    pub fn name(self) -> &'static str {
        CAUSES[self as usize]
    }
}

impl Display for Cause {
    fn fmt(&self, f: &mut fmt::Formatter) -> fmt::Result {
        f.write_str(self.name())
    }
}

pub struct Zone {
    pub node: u64,
    pub kind: usize,
    pub managed: u64,
    pub marks: [u64; 3],
}

pub struct Item {
    pub name: String,
    pub node: bool,
    pub bytes: bool,
}

pub struct Counter {
    pub name: String,
    pub batch: u64,
}

/// What tells most words apart at once: the length and the last eight bytes.
#[derive(Clone, Copy, PartialEq)]
struct Key(usize, u64);

impl Key {
    fn of(word: &[u8]) -> Key {
        let last = match word.last_chunk() {
            Some(last) => u64::from_le_bytes(*last),
            None => word.iter().fold(0, |bytes, &byte| bytes << 8 | u64::from(byte)),
        };
        Key(word.len(), last)
    }
}

/// Names that words are looked up in.
#[derive(Default)]
pub struct Names {
    words: Vec<String>,
    keys: Vec<Key>,
}

impl Names {
    pub fn push(&mut self, word: String) {
        self.keys.push(Key::of(word.as_bytes()));
        self.words.push(word);
    }

    pub fn find(&self, word: &[u8]) -> Option<usize> {
        let wanted = Key::of(word);
        self.keys.iter().zip(&self.words).position(|(&key, name)| key == wanted && name.as_bytes() == word)
    }

    pub fn all(&self) -> &[String] {
        &self.words
    }
}

impl<'a> FromIterator<&'a str> for Names {
    fn from_iter<I: IntoIterator<Item = &'a str>>(words: I) -> Names {
        let mut names = Names::default();
        words.into_iter().for_each(|word| names.push(word.to_owned()));
        names
    }
}

/// What the header says. The zones stand by node and kind, `items` has the names of each class by position.
#[derive(Default)]
pub struct Header {
    pub wide: bool,
    pub cpus: usize,
    share: Option<(u64, u64)>,
    pub declared: Vec<Item>,
    pub zones: Vec<Zone>,
    pub nodes: Vec<u64>,
    pub bases: Vec<Option<i64>>,
    pub counters: Vec<Counter>,
    zone_items: Names,
    node_items: Names,
    events: Names,
    pcpu: Names,
    /// Which positions of each class are in bytes, by bits.
    bytes: [u32; 2],
    /// The words of each counter.
    spelled: Vec<Vec<u8>>,
}

#[derive(Clone, Copy)]
pub enum Lane {
    Cpu(usize),
    Control,
}

#[derive(Clone, Copy)]
pub enum Act {
    Mod(usize, i64),
    Inc(usize),
    Dec(usize),
    Ev(usize, u64),
    Cnt(usize, i64),
    Lim(usize, i64, i64),
    Cmp(usize, i64),
    Sum(usize),
    Rough(usize),
    Csync(usize),
    EvSum(usize),
    Fold(usize),
    Water(usize, usize, u64),
    Val(usize),
    Snap(usize),
    Sys(usize),
    Pressure(usize),
    Normal(usize),
    Dead(usize),
    Kswapd(usize, u64, u64),
}

impl Act {
    /// Whether a line with this act answers something.
    pub fn answers(self) -> bool {
        use Act::*;
        matches!(
            self,
            Val(_) | Snap(_) | Sys(_) | EvSum(_) | Rough(_) | Sum(_) | Cmp(..) | Lim(..) | Water(..) | Kswapd(..)
        )
    }
}

#[derive(Clone, Copy)]
pub enum Line {
    Blank,
    Lane(Lane, Act),
    Sync,
    Offline(usize),
    Online(usize),
    Flush,
    Report(usize),
}

fn is_blank(byte: u8) -> bool {
    matches!(byte, b' ' | b'\t' | b'\r')
}

/// A line cut into its first eight words.
pub struct Cut<'a> {
    words: [&'a [u8]; 8],
    count: usize,
    /// Whether each byte of the line is a blank or one of a word.
    pub clean: bool,
}

impl<'a> Cut<'a> {
    pub fn of(line: &'a [u8]) -> Cut<'a> {
        let mut cut = Cut { words: [b""; 8], count: 0, clean: true };
        let mut begin = 0;
        for (at, &byte) in line.iter().enumerate() {
            if !byte.is_ascii_graphic() {
                cut.clean &= is_blank(byte);
                cut.add(&line[begin..at]);
                begin = at + 1;
            }
        }
        cut.add(&line[begin..]);
        cut
    }

    fn add(&mut self, word: &'a [u8]) {
        if !word.is_empty() && self.count < 8 {
            self.words[self.count] = word;
            self.count += 1;
        }
    }

    pub fn words(&self) -> &[&'a [u8]] {
        &self.words[..self.count]
    }

    pub fn is_ignored(&self) -> bool {
        match self.words() {
            [first, ..] => first[0] == b'#',
            [] => self.clean,
        }
    }
}

pub fn unsigned(word: &[u8]) -> Option<u64> {
    if !is_numeral(word) {
        return None;
    }
    word.iter().try_fold(0u64, |n, digit| n.checked_mul(10)?.checked_add(u64::from(digit - b'0')))
}

pub fn is_numeral(word: &[u8]) -> bool {
    match word {
        [b'0'] => true,
        [b'1'..=b'9', rest @ ..] => rest.iter().all(u8::is_ascii_digit),
        _ => false,
    }
}

fn signed(word: &[u8]) -> Option<i64> {
    match word.strip_prefix(b"-") {
        None => unsigned(word).and_then(|n| i64::try_from(n).ok()),
        Some(digits) => match unsigned(digits)? {
            0 => None,
            size => 0i64.checked_sub_unsigned(size),
        },
    }
}

pub fn number(word: &[u8], least: u64, most: u64) -> Result<u64, Cause> {
    unsigned(word).filter(|n| (least..=most).contains(n)).ok_or(Cause::BadNumber)
}

pub fn amount(word: &[u8]) -> Result<i64, Cause> {
    signed(word).ok_or(Cause::BadNumber)
}

fn limit(word: &[u8]) -> Result<i64, Cause> {
    signed(word).filter(|n| n.unsigned_abs() <= MOST_LIMIT).ok_or(Cause::BadNumber)
}

fn named(names: &[&str], word: &[u8]) -> Option<usize> {
    names.iter().position(|name| name.as_bytes() == word)
}

fn kind(word: &[u8]) -> Option<usize> {
    match word {
        b"DMA" => Some(0),
        b"DMA32" => Some(1),
        b"Normal" => Some(2),
        b"Movable" => Some(3),
        _ => None,
    }
}

/// The name that a word is, if it has the form of one.
pub fn name(word: &[u8]) -> Option<String> {
    let is_name = word.len() <= 16
        && word.first().is_some_and(u8::is_ascii_lowercase)
        && word.iter().all(|byte| matches!(byte, b'a'..=b'z' | b'0'..=b'9' | b'_'));
    is_name.then(|| str::from_utf8(word).unwrap().to_owned())
}

impl Header {
    /// Before the first line.
    pub fn empty() -> Header {
        Header {
            zone_items: ZONE_ITEMS.into_iter().collect(),
            node_items: NODE_ITEMS.into_iter().collect(),
            events: EVENTS.into_iter().collect(),
            ..Header::default()
        }
    }

    pub fn positions(&self) -> usize {
        1 << self.shift()
    }

    /// A counter is one of `positions` of the place that it gives when it is shifted by this.
    pub fn shift(&self) -> u32 {
        if self.wide { 4 } else { 3 }
    }

    fn class(&self, node: bool) -> &Names {
        if node { &self.node_items } else { &self.zone_items }
    }

    pub fn names(&self, node: bool) -> &[String] {
        self.class(node).all()
    }

    /// How many zones and nodes there are.
    pub fn places(&self) -> usize {
        self.zones.len() + self.nodes.len()
    }

    pub fn is_node(&self, place: usize) -> bool {
        place >= self.zones.len()
    }

    /// The item of a counter: those of zones come first, then those of nodes, `positions` each.
    pub fn item_of(&self, counter: usize) -> usize {
        let class = if self.is_node(counter >> self.shift()) { self.positions() } else { 0 };
        class + (counter & (self.positions() - 1))
    }

    fn zone(&self, node: u64, word: &[u8]) -> Option<usize> {
        let kind = kind(word)?;
        self.zones.iter().position(|zone| zone.node == node && zone.kind == kind)
    }

    fn node(&self, node: u64) -> Option<usize> {
        self.nodes.iter().position(|&other| other == node).map(|n| self.zones.len() + n)
    }

    fn place(&self, node: u64, word: &[u8]) -> Option<usize> {
        if let b"node" = word { self.node(node) } else { self.zone(node, word) }
    }

    pub fn in_bytes(&self, counter: usize) -> bool {
        let (place, position) = (counter >> self.shift(), counter & (self.positions() - 1));
        self.bytes[usize::from(self.is_node(place))] >> position & 1 == 1
    }

    // The rows of the header, each of which adds what its line says.

    fn watermarks(&mut self, fields: &[&[u8]]) -> Result<(), Cause> {
        let (kbytes, scale) = match fields {
            [kbytes] => (number(kbytes, 0, 1 << 40)?, 10),
            [kbytes, scale] => (number(kbytes, 0, 1 << 40)?, number(scale, 1, 3000)?),
            _ => return Err(Cause::Malformed),
        };
        self.share = Some((kbytes, scale));
        Ok(())
    }

    fn item(&mut self, fields: &[&[u8]]) -> Result<(), Cause> {
        let (class, word, unit) = match *fields {
            [class, name] => (class, name, None),
            [class, name, unit] => (class, name, Some(unit)),
            _ => return Err(Cause::Malformed),
        };
        let node = match class {
            b"zone" => false,
            b"node" => true,
            _ => return Err(Cause::UnknownName),
        };
        let name = name(word).ok_or(Cause::UnknownName)?;
        let bytes = match unit {
            None => false,
            Some(b"bytes") => true,
            Some(_) => return Err(Cause::UnknownName),
        };
        if self.zone_items.find(word).is_some() || self.node_items.find(word).is_some() {
            return Err(Cause::DoubledItem);
        }
        let position = self.names(node).len();
        if position == 16 {
            return Err(Cause::TooManyItems);
        }
        self.bytes[usize::from(node)] |= u32::from(bytes) << position;
        let names = if node { &mut self.node_items } else { &mut self.zone_items };
        names.push(name.clone());
        self.declared.push(Item { name, node, bytes });
        Ok(())
    }

    fn add_zone(&mut self, fields: &[&[u8]]) -> Result<(), Cause> {
        let (node, kind, managed, marks) = match (self.share, fields) {
            (None, &[node, kind, managed, min, low, high]) => (node, kind, managed, Some([min, low, high])),
            (Some(_), &[node, kind, managed]) => (node, kind, managed, None),
            _ => return Err(Cause::Malformed),
        };
        let node = number(node, 0, 15)?;
        let kind = self::kind(kind).ok_or(Cause::UnknownName)?;
        let managed = number(managed, 1, MOST_PAGES)?;
        let marks = match marks {
            None => [0; 3],
            Some([min, low, high]) => {
                [number(min, 0, MOST_PAGES)?, number(low, 0, MOST_PAGES)?, number(high, 0, MOST_PAGES)?]
            }
        };
        if marks[0] > marks[1] || marks[1] > marks[2] {
            return Err(Cause::BadMarks);
        }
        if self.zones.iter().any(|zone| zone.node == node && zone.kind == kind) {
            return Err(Cause::DoubledZone);
        }
        if self.zones.len() == 16 {
            return Err(Cause::TooManyZones);
        }
        self.zones.push(Zone { node, kind, managed, marks });
        Ok(())
    }

    /// Puts the zones into order, once the last zone line was read.
    fn settle(&mut self) {
        if !self.nodes.is_empty() {
            return;
        }
        self.zones.sort_by_key(|zone| (zone.node, zone.kind));
        let total: u128 = self.zones.iter().map(|zone| u128::from(zone.managed)).sum();
        if let Some((kbytes, scale)) = self.share {
            for zone in &mut self.zones {
                let min = (u128::from(kbytes / 4) * u128::from(zone.managed) / total) as u64;
                let step = (min / 4).max((u128::from(zone.managed) * u128::from(scale) / 10000) as u64);
                zone.marks = [min, min + step, min + 2 * step];
            }
        }
        self.nodes = self.zones.iter().map(|zone| zone.node).collect();
        self.nodes.dedup();
        self.bases = vec![None; self.positions() * (self.zones.len() + self.nodes.len())];
        self.spelled = (0..self.bases.len()).map(|counter| self.spelling(counter)).collect();
    }

    /// The words of a counter: its place and its item, which not every position has.
    fn spelling(&self, counter: usize) -> Vec<u8> {
        let place = counter >> self.shift();
        let item = self.names(self.is_node(place)).get(counter & (self.positions() - 1));
        let item = item.map_or("", String::as_str);
        match self.zones.get(place) {
            Some(zone) => format!("{} {} {item}", zone.node, KINDS[zone.kind]).into_bytes(),
            None => format!("{} node {item}", self.node_number(place)).into_bytes(),
        }
    }

    fn base(&mut self, fields: &[&[u8]]) -> Result<(), Cause> {
        let &[node, kind, item, value] = fields else {
            return Err(Cause::Malformed);
        };
        if self.zones.is_empty() {
            return Err(Cause::NoZone);
        }
        self.settle();
        let node = number(node, 0, u64::MAX)?;
        let place = self.place(node, kind).ok_or(Cause::UnknownName)?;
        let position = self.class(self.is_node(place)).find(item).ok_or(Cause::UnknownName)?;
        let value = signed(value).filter(|n| n.unsigned_abs() <= MOST_BASE).ok_or(Cause::BadNumber)?;
        let counter = self.positions() * place + position;
        if self.bases[counter].is_some() {
            return Err(Cause::DoubledCounter);
        }
        self.bases[counter] = Some(value);
        Ok(())
    }

    fn counter(&mut self, fields: &[&[u8]]) -> Result<(), Cause> {
        let (word, batch) = match *fields {
            [name] => (name, None),
            [name, batch] => (name, Some(batch)),
            _ => return Err(Cause::Malformed),
        };
        if self.zones.is_empty() {
            return Err(Cause::NoZone);
        }
        let name = name(word).ok_or(Cause::UnknownName)?;
        let batch = match batch {
            None => (2 * self.cpus as u64).max(32),
            Some(batch) => number(batch, 0, u64::MAX)?,
        };
        if self.counters.iter().any(|counter| counter.name == name) {
            return Err(Cause::DoubledCounter);
        }
        if !(1..=65536).contains(&batch) {
            return Err(Cause::BadBatch);
        }
        if self.counters.len() == 16 {
            return Err(Cause::TooManyCounters);
        }
        self.pcpu.push(name.clone());
        self.counters.push(Counter { name, batch });
        Ok(())
    }

    // The fields of the body's lines.

    fn cpu(&self, word: &[u8]) -> Result<usize, Cause> {
        let cpu = number(word, 0, u64::MAX)?;
        if cpu < self.cpus as u64 { Ok(cpu as usize) } else { Err(Cause::UnknownLane) }
    }

    fn counter_of(&self, node: &[u8], kind: &[u8], item: &[u8]) -> Result<usize, Cause> {
        let node = number(node, 0, u64::MAX)?;
        let place = self.place(node, kind).ok_or(Cause::UnknownPlace)?;
        let position = self.class(self.is_node(place)).find(item).ok_or(Cause::UnknownItem)?;
        Ok((place << self.shift()) + position)
    }

    fn pages(&self, counter: usize, amount: i64) -> Result<i64, Cause> {
        if !self.in_bytes(counter) {
            Ok(amount)
        } else if amount % BYTES_OF_PAGE == 0 {
            Ok(amount / BYTES_OF_PAGE)
        } else {
            Err(Cause::NotPages)
        }
    }

    fn in_pages(&self, counter: usize) -> Result<usize, Cause> {
        if self.in_bytes(counter) { Err(Cause::NotPages) } else { Ok(counter) }
    }

    fn event(&self, word: &[u8]) -> Result<usize, Cause> {
        self.events.find(word).ok_or(Cause::UnknownItem)
    }

    fn pcpu(&self, word: &[u8]) -> Result<usize, Cause> {
        self.pcpu.find(word).ok_or(Cause::UnknownCounter)
    }

    fn node_of(&self, word: &[u8]) -> Result<usize, Cause> {
        self.node(number(word, 0, u64::MAX)?).ok_or(Cause::UnknownPlace)
    }

    fn act(&self, control: bool, words: &[&[u8]]) -> Result<Act, Cause> {
        match (control, words) {
            (false, &[b"mod", node, kind, item, delta]) => {
                let counter = self.counter_of(node, kind, item)?;
                let delta = amount(delta)?;
                Ok(Act::Mod(counter, self.pages(counter, delta)?))
            }
            (false, &[b"inc", node, kind, item]) => {
                Ok(Act::Inc(self.in_pages(self.counter_of(node, kind, item)?)?))
            }
            (false, &[b"dec", node, kind, item]) => {
                Ok(Act::Dec(self.in_pages(self.counter_of(node, kind, item)?)?))
            }
            (false, &[b"ev", event, n]) => Ok(Act::Ev(self.event(event)?, number(n, 0, (1 << 63) - 1)?)),
            (false, &[b"cnt", name, n]) => Ok(Act::Cnt(self.pcpu(name)?, amount(n)?)),
            (false, &[b"lim", name, most, n]) => Ok(Act::Lim(self.pcpu(name)?, limit(most)?, amount(n)?)),
            (false, &[b"cmp", name, n]) => Ok(Act::Cmp(self.pcpu(name)?, limit(n)?)),
            (false, &[b"sum", name]) => Ok(Act::Sum(self.pcpu(name)?)),
            (false, &[b"rough", name]) => Ok(Act::Rough(self.pcpu(name)?)),
            (false, &[b"csync", name]) => Ok(Act::Csync(self.pcpu(name)?)),
            (true, &[b"pressure", node]) => Ok(Act::Pressure(self.node_of(node)?)),
            (true, &[b"normal", node]) => Ok(Act::Normal(self.node_of(node)?)),
            (true, &[b"dead", cpu]) => Ok(Act::Dead(self.cpu(cpu)?)),
            (true, &[b"kswapd", node, order, index]) if self.wide => {
                let place = self.node_of(node)?;
                let (order, index) = (number(order, 0, 10)?, number(index, 0, 3)?);
                let node = self.nodes[place - self.zones.len()];
                if !self.zones.iter().any(|zone| zone.node == node && zone.kind as u64 <= index) {
                    return Err(Cause::UnknownPlace);
                }
                Ok(Act::Kswapd(place, order, index))
            }
            (_, &[b"evsum", event]) => Ok(Act::EvSum(self.event(event)?)),
            (_, &[b"fold", cpu]) => Ok(Act::Fold(self.cpu(cpu)?)),
            (_, &[b"ok", node, kind, mark, index]) => {
                let mark = named(&MARKS, mark).ok_or(Cause::Malformed)?;
                let zone = self.zone(number(node, 0, u64::MAX)?, kind).ok_or(Cause::UnknownPlace)?;
                Ok(Act::Water(zone, mark, number(index, 0, 3)?))
            }
            (_, &[b"val", node, kind, item]) => Ok(Act::Val(self.counter_of(node, kind, item)?)),
            (_, &[b"snap", node, kind, item]) => Ok(Act::Snap(self.counter_of(node, kind, item)?)),
            (_, &[b"sys", item]) => match (self.zone_items.find(item), self.node_items.find(item)) {
                (Some(position), _) => Ok(Act::Sys(position)),
                (None, Some(position)) => Ok(Act::Sys(self.positions() + position)),
                (None, None) => Err(Cause::UnknownItem),
            },
            _ => Err(Cause::Malformed),
        }
    }

    /// What a line of the body says.
    pub fn line(&self, line: &[u8]) -> Result<Line, Cause> {
        if line.len() > MOST_LINE {
            return Err(Cause::LineTooLong);
        }
        let cut = Cut::of(line);
        if cut.is_ignored() {
            return Ok(Line::Blank);
        }
        if !cut.clean {
            return Err(Cause::Malformed);
        }
        match *cut.words() {
            [b"k", ref act @ ..] => Ok(Line::Lane(Lane::Control, self.act(true, act)?)),
            [[b'c', number @ ..], ref act @ ..] if is_numeral(number) => {
                let act = self.act(false, act);
                if let Err(Cause::Malformed) = act {
                    return Err(Cause::Malformed);
                }
                match unsigned(number) {
                    Some(cpu) if cpu < self.cpus as u64 => Ok(Line::Lane(Lane::Cpu(cpu as usize), act?)),
                    _ => Err(Cause::UnknownLane),
                }
            }
            [b"sync"] => Ok(Line::Sync),
            [b"flush"] => Ok(Line::Flush),
            [b"offline", cpu] => Ok(Line::Offline(self.cpu(cpu)?)),
            [b"online", cpu] => Ok(Line::Online(self.cpu(cpu)?)),
            [b"report", kind] => Ok(Line::Report(named(&REPORTS, kind).ok_or(Cause::Malformed)?)),
            _ => Err(Cause::Malformed),
        }
    }

    /// The words of a counter, for output.
    pub fn words_of(&self, counter: usize) -> &[u8] {
        &self.spelled[counter]
    }

    pub fn node_number(&self, place: usize) -> u64 {
        self.nodes[place - self.zones.len()]
    }
}

/// Whether a line is the header's last. `part` is 0 before the first line, 1 after it, then a number for each kind of
/// line.
pub fn head_line(header: &mut Header, part: &mut u32, line: &[u8]) -> Result<bool, Cause> {
    if line.len() > MOST_LINE {
        return Err(Cause::LineTooLong);
    }
    let cut = Cut::of(line);
    if cut.is_ignored() {
        return Ok(false);
    }
    if *part == 0 {
        header.wide = match *cut.words() {
            [b"vmtrace", b"1"] => false,
            [b"vmtrace", b"2"] => true,
            _ => return Err(Cause::BadMagic),
        };
    }
    if !cut.clean {
        return Err(Cause::Malformed);
    }
    let next = match (*part, cut.words()) {
        (0, _) => 1,
        (1, &[b"cpus", cpus]) => {
            let cpus = number(cpus, 0, u64::MAX)?;
            if cpus < 1 || cpus > if header.wide { 128 } else { 64 } {
                return Err(Cause::BadCpus);
            }
            header.cpus = cpus as usize;
            2
        }
        (2, &[b"watermarks", ref fields @ ..]) => {
            header.watermarks(fields)?;
            3
        }
        (2..=4, &[b"item", ref fields @ ..]) if header.wide => {
            header.item(fields)?;
            4
        }
        (2..=5, &[b"zone", ref fields @ ..]) => {
            header.add_zone(fields)?;
            5
        }
        (2..=6, &[b"base", ref fields @ ..]) => {
            header.base(fields)?;
            6
        }
        (2..=7, &[b"counter", ref fields @ ..]) => {
            header.counter(fields)?;
            7
        }
        (2..=7, &[b"go"]) => {
            if header.zones.is_empty() {
                return Err(Cause::NoZone);
            }
            header.settle();
            return Ok(true);
        }
        _ => return Err(Cause::Malformed),
    };
    *part = next;
    Ok(false)
}
