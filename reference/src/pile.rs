//! A pile as a flat list of machines, each with registers of its own, and the trial of it.

use crate::machines::{Coin, Collect, Leader, Machine, Operation, Outcome, Quorum, Seen, Visit};
use crate::tables::{BIT_PAIRS, HALF_SETS};
use std::rc::Rc;

#[derive(Clone, PartialEq, Eq, Hash)]
pub struct Station {
    pub proposal: u8,
    pub steps: usize,
    pub outcome: Option<Outcome>,
    /// Which machine of the list the visit is in.
    machine: usize,
    visit: Visit,
}

/// All that changes in a pile.
#[derive(Clone, PartialEq, Eq, Hash)]
pub struct State {
    registers: Vec<Vec<u16>>,
    pub stations: Vec<Option<Station>>,
    stopped: Vec<bool>,
}

#[derive(Clone)]
pub struct Pile {
    machines: Rc<Vec<Box<dyn Machine>>>,
    pub state: State,
}

/// What a step shows. The register is numbered across all machines of the pile.
pub struct Step {
    pub writes: bool,
    pub register: usize,
    pub content: u16,
    pub outcome: Option<Outcome>,
}

impl Pile {
    /// A new pile, or the number of the question that refuses it.
    pub fn new(number: u8, stations: u8, leader: u8) -> Result<Pile, u8> {
        if !(1..=6).contains(&number) {
            return Err(5);
        }
        if !(1..=16).contains(&stations) {
            return Err(6);
        }
        if leader >= stations {
            return Err(7);
        }
        let n = usize::from(stations);
        let collect = || Box::new(Collect { stations: n }) as Box<dyn Machine>;
        let coin = || Box::new(Coin { stations: n }) as Box<dyn Machine>;
        let leader = || Box::new(Leader { leader: leader.into() }) as Box<dyn Machine>;
        let bit_pairs = || Box::new(Quorum { table: BIT_PAIRS }) as Box<dyn Machine>;
        let half_sets = || Box::new(Quorum { table: HALF_SETS }) as Box<dyn Machine>;
        let machines = match number {
            1 => vec![collect()],
            2 => vec![bit_pairs()],
            3 => vec![coin(), collect()],
            4 => vec![leader(), half_sets()],
            5 => vec![collect(), coin(), bit_pairs()],
            _ => vec![half_sets(), leader(), coin(), collect()],
        };
        Ok(Pile::of(machines, n))
    }

    /// The machines one after the other, with empty registers.
    pub fn of(machines: Vec<Box<dyn Machine>>, stations: usize) -> Pile {
        let registers = machines.iter().map(|machine| vec![0; machine.registers()]).collect();
        let state = State { registers, stations: vec![None; stations], stopped: vec![false; stations] };
        Pile { machines: Rc::new(machines), state }
    }

    pub fn limit(&self) -> usize {
        self.machines.iter().map(|machine| machine.limit()).sum()
    }

    pub fn registers(&self) -> usize {
        self.registers_before(self.machines.len())
    }

    fn registers_before(&self, machine: usize) -> usize {
        self.machines[..machine].iter().map(|machine| machine.registers()).sum()
    }

    /// How many coins, counted from 0, are enough to show every course of the station's next step.
    pub fn coins(&self, station: usize) -> u8 {
        self.state.stations[station].as_ref().map_or(0, |station| self.machines[station.machine].coins() as u8)
    }

    fn callable(&self, station: u8) -> Result<usize, u8> {
        match self.state.stopped.get(usize::from(station)) {
            None => Err(15),
            Some(true) => Err(16),
            Some(false) => Ok(station.into()),
        }
    }

    pub fn enter(&mut self, station: u8, mark: u8) -> Result<(), u8> {
        let station = self.callable(station)?;
        if self.state.stations[station].is_some() {
            return Err(17);
        }
        let visit = Visit { station, proposal: mark, seen: vec![] };
        self.state.stations[station] = Some(Station { proposal: mark, steps: 0, outcome: None, machine: 0, visit });
        Ok(())
    }

    pub fn stop(&mut self, station: u8) -> Result<(), u8> {
        let station = self.callable(station)?;
        self.state.stopped[station] = true;
        Ok(())
    }

    pub fn step(&mut self, station: u8, coin: u8) -> Result<Step, u8> {
        let number = self.callable(station)?;
        let station = self.state.stations[number].as_ref().ok_or(18)?;
        if station.outcome.is_some() {
            return Err(19);
        }
        let offset = self.registers_before(station.machine);
        let station = self.state.stations[number].as_mut().unwrap();
        let machine = &self.machines[station.machine];
        let registers = &mut self.state.registers[station.machine];
        let (writes, register, content) = match machine.next(&station.visit) {
            Operation::Read(i) => (false, i, registers[i]),
            Operation::Write(i, content) => (true, i, content),
        };
        registers[register] = content;
        station.visit.seen.push(Seen { content, coin });
        station.steps += 1;
        let last = station.machine + 1 == self.machines.len();
        station.outcome = match machine.outcome(&station.visit) {
            Some(Outcome::Adopt(mark)) if !last => {
                station.visit = Visit { station: number, proposal: mark, seen: vec![] };
                station.machine += 1;
                None
            }
            outcome => outcome,
        };
        Ok(Step { writes, register: offset + register, content, outcome: station.outcome })
    }
}
