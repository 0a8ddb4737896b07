//! The amounts of a tree of groups in words that threads share, for the plain program. Every access to a word is
//! sequentially consistent.

use crate::apart::Apart;
use crate::group_trace::{GroupHeader, MOST_GROUPS};
use std::array;
use std::sync::atomic::{AtomicI64, Ordering::SeqCst};

/// A word for each group.
type Row = Apart<[AtomicI64; MOST_GROUPS]>;

fn zeros() -> Row {
    Apart(array::from_fn(|_| AtomicI64::new(0)))
}

/// What a word holds, which is 0 then.
fn take(word: &AtomicI64) -> i64 {
    // Most words are 0, and to find that by a load costs less than an exchange.
    if word.load(SeqCst) == 0 { 0 } else { word.swap(0, SeqCst) }
}

pub struct Groups<'a> {
    pub header: &'a GroupHeader,
    values: Row,
    /// What is pending from the children of each group.
    up: Row,
    /// By CPU: what is pending from it for each group.
    pending: Vec<Row>,
    /// The groups of the subtree of each group, by bits.
    subtrees: Vec<u64>,
}

impl<'a> Groups<'a> {
    pub fn start(header: &'a GroupHeader) -> Groups<'a> {
        let mut subtrees: Vec<u64> = (0..header.parents.len()).map(|group| 1 << group).collect();
        // A parent stands above its children.
        for (group, parent) in header.parents.iter().enumerate().rev() {
            if let &Some(parent) = parent {
                subtrees[parent] |= subtrees[group];
            }
        }
        let pending = (0..header.cpus).map(|_| zeros()).collect();
        Groups { header, values: zeros(), up: zeros(), pending, subtrees }
    }

    pub fn change(&self, cpu: usize, group: usize, amount: i64) {
        self.pending[cpu][group].fetch_add(amount, SeqCst);
    }

    /// Moves what is pending in a subtree up to the values of its groups, of children before that of their parent.
    pub fn flush(&self, top: usize) {
        let mut left = self.subtrees[top];
        while left != 0 {
            let group = left.ilog2() as usize;
            left &= !(1 << group);
            let amount = self.pending.iter().map(|row| take(&row[group])).sum::<i64>() + take(&self.up[group]);
            if amount != 0 {
                self.values[group].fetch_add(amount, SeqCst);
                if let Some(parent) = self.header.parents[group] {
                    self.up[parent].fetch_add(amount, SeqCst);
                }
            }
        }
    }

    pub fn value(&self, group: usize) -> i64 {
        self.values[group].load(SeqCst)
    }

    /// What is pending in a subtree.
    pub fn pending(&self, top: usize) -> i64 {
        let rows = self.pending.iter().chain([&self.up]);
        let in_subtree = |group: &usize| self.subtrees[top] >> group & 1 == 1;
        rows.map(|row| {
            (0..self.subtrees.len()).filter(in_subtree).map(|group| row[group].load(SeqCst)).sum::<i64>()
        })
        .sum()
    }
}
