//! The four machines. Each says which operation a station makes next, and which outcome it has,
//! from the station's number and all that it has seen in this machine.

use crate::tables::Table;

#[derive(Clone, Copy)]
pub enum Operation {
    Read(usize),
    Write(usize, u16),
}

#[derive(Clone, Copy, PartialEq, Eq, Hash, Debug)]
pub enum Outcome {
    Adopt(u8),
    Commit(u8),
}

/// One step as the station saw it: the content read or written, and the coin.
#[derive(Clone, PartialEq, Eq, Hash)]
pub struct Seen {
    pub content: u16,
    pub coin: u8,
}

/// A station in one machine.
#[derive(Clone, PartialEq, Eq, Hash)]
pub struct Visit {
    pub station: usize,
    pub proposal: u8,
    pub seen: Vec<Seen>,
}

impl Visit {
    pub fn steps(&self) -> usize {
        self.seen.len()
    }

    /// The contents of the steps from `start` to before `end` that were not empty.
    pub fn found(&self, start: usize, end: usize) -> impl Iterator<Item = u16> + '_ {
        self.seen[start..end].iter().map(|seen| seen.content).filter(|&content| content != 0)
    }
}

pub trait Machine {
    fn registers(&self) -> usize;
    fn limit(&self) -> usize;
    fn next(&self, visit: &Visit) -> Operation;
    /// Asked after each step.
    fn outcome(&self, visit: &Visit) -> Option<Outcome>;
    /// How many coins, counted from 0, are enough to show every course.
    fn coins(&self) -> usize {
        1
    }
}

pub fn content_of(mark: u8) -> u16 {
    u16::from(mark) + 1
}

fn mark_of(content: u16) -> u8 {
    (content - 1).try_into().unwrap()
}

pub struct Collect {
    pub stations: usize,
}

impl Machine for Collect {
    fn registers(&self) -> usize {
        2 * self.stations
    }

    fn limit(&self) -> usize {
        2 * self.stations + 2
    }

    fn next(&self, visit: &Visit) -> Operation {
        let n = self.stations;
        let own = content_of(visit.proposal);
        match visit.steps() {
            0 => Operation::Write(visit.station, own),
            k if k <= n => Operation::Read(k - 1),
            k if k == n + 1 => {
                let agreed = visit.found(1, n + 1).all(|content| content == own);
                Operation::Write(n + visit.station, if agreed { 2 * own } else { 2 * own - 1 })
            }
            k => Operation::Read(k - 2),
        }
    }

    fn outcome(&self, visit: &Visit) -> Option<Outcome> {
        if visit.steps() < self.limit() {
            return None;
        }
        let votes = || visit.found(self.stations + 2, self.limit());
        if votes().all(|vote| vote == 2 * content_of(visit.proposal)) {
            return Some(Outcome::Commit(visit.proposal));
        }
        let full = votes().find(|vote| vote % 2 == 0);
        Some(Outcome::Adopt(full.map_or(visit.proposal, |vote| mark_of(vote / 2))))
    }
}

pub struct Quorum {
    pub table: Table,
}

impl Quorum {
    pub fn write_size(&self) -> usize {
        (self.table.write_set)(0).len()
    }

    fn read_size(&self) -> usize {
        (self.table.read_set)(0).len()
    }

    /// The preference and the step at which the reads of its read set start, once the register after the pool was read.
    fn preference(&self, visit: &Visit) -> Option<(u8, usize)> {
        let size = self.write_size();
        let found = visit.seen.get(size)?.content;
        Some(if found == 0 { (visit.proposal, size + 2) } else { (mark_of(found), size + 1) })
    }
}

impl Machine for Quorum {
    fn registers(&self) -> usize {
        self.table.pool + 1
    }

    fn limit(&self) -> usize {
        self.write_size() + self.read_size() + 2
    }

    fn next(&self, visit: &Visit) -> Operation {
        let k = visit.steps();
        match self.preference(visit) {
            None if k < self.write_size() => Operation::Write((self.table.write_set)(visit.proposal)[k], 1),
            None => Operation::Read(self.table.pool),
            Some((mark, start)) if k < start => Operation::Write(self.table.pool, content_of(mark)),
            Some((mark, start)) => Operation::Read((self.table.read_set)(mark)[k - start]),
        }
    }

    fn outcome(&self, visit: &Visit) -> Option<Outcome> {
        let (mark, start) = self.preference(visit)?;
        let reads = visit.steps().checked_sub(start)?;
        if visit.found(start, visit.steps()).next().is_some() {
            Some(Outcome::Adopt(mark))
        } else if reads == self.read_size() {
            Some(Outcome::Commit(mark))
        } else {
            None
        }
    }
}

pub struct Coin {
    pub stations: usize,
}

impl Coin {
    /// The first try whose coin allows the write.
    fn lucky_try(&self, visit: &Visit) -> Option<usize> {
        (0..visit.steps()).find(|&t| usize::from(visit.seen[t].coin) % self.stations < 1 << t)
    }
}

impl Machine for Coin {
    fn registers(&self) -> usize {
        1
    }

    fn limit(&self) -> usize {
        (0..).find(|&k| 1 << k >= self.stations).unwrap() + 3
    }

    fn next(&self, visit: &Visit) -> Operation {
        match self.lucky_try(visit) {
            Some(t) if visit.steps() == t + 1 => Operation::Write(0, content_of(visit.proposal)),
            _ => Operation::Read(0),
        }
    }

    fn outcome(&self, visit: &Visit) -> Option<Outcome> {
        let just_written = self.lucky_try(visit).is_some_and(|t| visit.steps() == t + 2);
        let content = visit.seen.last()?.content;
        (content != 0 && !just_written).then(|| Outcome::Adopt(mark_of(content)))
    }

    fn coins(&self) -> usize {
        self.stations
    }
}

pub struct Leader {
    pub leader: usize,
}

impl Machine for Leader {
    fn registers(&self) -> usize {
        1
    }

    fn limit(&self) -> usize {
        1
    }

    fn next(&self, visit: &Visit) -> Operation {
        if visit.station == self.leader {
            Operation::Write(0, content_of(visit.proposal))
        } else {
            Operation::Read(0)
        }
    }

    fn outcome(&self, visit: &Visit) -> Option<Outcome> {
        let content = visit.seen.last()?.content;
        Some(Outcome::Adopt(if content == 0 { visit.proposal } else { mark_of(content) }))
    }
}
