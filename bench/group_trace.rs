//! The grammar of a trace of groups, for the plain program: what its header and a line of its body say, and their
//! causes.

use crate::commands::{BodyLine, Kind, spend};
use crate::trace::{Cause, Cut, MOST_LINE, Names, amount, is_numeral, name, number, unsigned};

const MOST_CPUS: u64 = 64;
pub const MOST_GROUPS: usize = 64;

/// What the header says.
#[derive(Default)]
pub struct GroupHeader {
    pub cpus: usize,
    /// In the order of declaration, as the parents.
    pub names: Names,
    pub parents: Vec<Option<usize>>,
}

#[derive(Clone, Copy)]
pub enum GroupAct {
    Add(usize, i64),
    Flush(usize),
    Value(usize),
}

#[derive(Clone, Copy)]
pub enum GroupLine {
    Blank,
    /// A line of the lane of this CPU.
    Lane(usize, GroupAct),
    Sync,
    Report,
}

impl BodyLine for GroupLine {
    fn kind(self) -> Kind {
        match self {
            GroupLine::Blank => Kind::Blank,
            GroupLine::Lane(..) => Kind::Lane,
            GroupLine::Sync => Kind::Boundary,
            GroupLine::Report => Kind::Report,
        }
    }
}

/// Which lines of the header are due.
#[derive(Clone, Copy, PartialEq)]
pub enum Due {
    Magic,
    Cpus,
    Groups,
}

impl GroupHeader {
    /// Whether a line is the header's last.
    pub fn head_line(&mut self, due: &mut Due, line: &[u8]) -> Result<bool, Cause> {
        if line.len() > MOST_LINE {
            return Err(Cause::LineTooLong);
        }
        let cut = Cut::of(line);
        if cut.is_ignored() {
            return Ok(false);
        }
        if *due == Due::Magic && cut.words() != [b"vmgroups".as_slice(), b"1"] {
            return Err(Cause::BadMagic);
        }
        if !cut.clean {
            return Err(Cause::Malformed);
        }
        match (*due, cut.words()) {
            (Due::Magic, _) => *due = Due::Cpus,
            (Due::Cpus, &[b"cpus", cpus]) => {
                let cpus = number(cpus, 0, u64::MAX)?;
                if !(1..=MOST_CPUS).contains(&cpus) {
                    return Err(Cause::BadCpus);
                }
                self.cpus = cpus as usize;
                *due = Due::Groups;
            }
            (Due::Groups, &[b"group", name]) => self.declare(name, None)?,
            (Due::Groups, &[b"group", name, parent]) => self.declare(name, Some(parent))?,
            (Due::Groups, &[b"go"]) if !self.parents.is_empty() => return Ok(true),
            _ => return Err(Cause::Malformed),
        }
        Ok(false)
    }

    fn declare(&mut self, word: &[u8], parent: Option<&[u8]>) -> Result<(), Cause> {
        let name = name(word).ok_or(Cause::BadName)?;
        let parent = parent.map(|word| self.group(word)).transpose()?;
        if self.names.find(word).is_some() {
            return Err(Cause::DoubledGroup);
        }
        if self.parents.len() == MOST_GROUPS {
            return Err(Cause::TooManyGroups);
        }
        self.names.push(name);
        self.parents.push(parent);
        Ok(())
    }

    fn group(&self, word: &[u8]) -> Result<usize, Cause> {
        self.names.find(word).ok_or(Cause::UnknownGroup)
    }

    fn lane(&self, word: &[u8]) -> Result<usize, Cause> {
        let number = word.strip_prefix(b"c").filter(|number| is_numeral(number)).ok_or(Cause::Malformed)?;
        match unsigned(number) {
            Some(cpu) if cpu < self.cpus as u64 => Ok(cpu as usize),
            _ => Err(Cause::UnknownLane),
        }
    }

    /// What a line of the body says.
    fn line(&self, line: &[u8]) -> Result<GroupLine, Cause> {
        if line.len() > MOST_LINE {
            return Err(Cause::LineTooLong);
        }
        let cut = Cut::of(line);
        if cut.is_ignored() {
            return Ok(GroupLine::Blank);
        }
        if !cut.clean {
            return Err(Cause::Malformed);
        }
        match *cut.words() {
            [lane, b"add", name, delta] => {
                let (cpu, group) = (self.lane(lane)?, self.group(name)?);
                Ok(GroupLine::Lane(cpu, GroupAct::Add(group, amount(delta)?)))
            }
            [lane, b"flush", name] => Ok(GroupLine::Lane(self.lane(lane)?, GroupAct::Flush(self.group(name)?))),
            [lane, b"value", name] => Ok(GroupLine::Lane(self.lane(lane)?, GroupAct::Value(self.group(name)?))),
            [b"sync"] => Ok(GroupLine::Sync),
            [b"report", b"groups"] => Ok(GroupLine::Report),
            _ => Err(Cause::Malformed),
        }
    }
}

/// Which lines of the body count, by the lines above.
pub struct GroupJudge<'a> {
    header: &'a GroupHeader,
    /// By CPU and then group, the sizes of its changes in sum.
    volumes: Vec<u64>,
}

impl GroupJudge<'_> {
    pub fn new(header: &GroupHeader) -> GroupJudge<'_> {
        GroupJudge { header, volumes: vec![0; header.cpus * header.parents.len()] }
    }

    pub fn judge(&mut self, text: &[u8]) -> Result<GroupLine, Cause> {
        let line = self.header.line(text)?;
        if let GroupLine::Lane(cpu, GroupAct::Add(group, delta)) = line {
            let volume = &mut self.volumes[cpu * self.header.parents.len() + group];
            spend(volume, delta.unsigned_abs())?;
        }
        Ok(line)
    }
}
