//! Three piles for two stations that look right and are not, each by one exchange.

use crate::machines::{content_of, Coin, Collect, Machine, Operation, Outcome, Quorum, Visit};
use crate::pile::Pile;
use crate::tables::BIT_PAIRS;

pub fn variants() -> [(&'static str, Pile); 3] {
    let collect = || Collect { stations: 2 };
    let marks_first = Altered { machine: collect(), next: read_marks_first, outcome: Collect::outcome };
    let preference_first = Altered { machine: Quorum { table: BIT_PAIRS }, next: read_preference_first, outcome: outcome_of_exchanged };
    let own_proposal = Altered { machine: collect(), next: Collect::next, outcome: hand_on_proposal };
    [
        ("collect, the marks read before the own one is written", Pile::of(vec![Box::new(marks_first)], 2)),
        ("quorum, register k read before the last write", Pile::of(vec![Box::new(preference_first)], 2)),
        (
            "collect; (coin; collect), the proposal handed to the second part",
            Pile::of(vec![Box::new(own_proposal), Box::new(Coin { stations: 2 }), Box::new(collect())], 2),
        ),
    ]
}

/// A machine with another order of operations or another outcome.
struct Altered<M> {
    machine: M,
    next: fn(&M, &Visit) -> Operation,
    outcome: fn(&M, &Visit) -> Option<Outcome>,
}

impl<M: Machine> Machine for Altered<M> {
    fn registers(&self) -> usize {
        self.machine.registers()
    }

    fn limit(&self) -> usize {
        self.machine.limit()
    }

    fn next(&self, visit: &Visit) -> Operation {
        (self.next)(&self.machine, visit)
    }

    fn outcome(&self, visit: &Visit) -> Option<Outcome> {
        (self.outcome)(&self.machine, visit)
    }

    fn coins(&self) -> usize {
        self.machine.coins()
    }
}

/// Steps 1 to n + 1 as n reads and then the write.
fn read_marks_first(collect: &Collect, visit: &Visit) -> Operation {
    let n = collect.stations;
    let own = content_of(visit.proposal);
    match visit.steps() {
        k if k < n => Operation::Read(k),
        k if k == n => Operation::Write(visit.station, own),
        k if k == n + 1 => {
            let agreed = visit.found(0, n).all(|content| content == own);
            Operation::Write(n + visit.station, if agreed { 2 * own } else { 2 * own - 1 })
        }
        _ => collect.next(visit),
    }
}

/// The last write of the write set and the read of register k exchanged.
fn read_preference_first(quorum: &Quorum, visit: &Visit) -> Operation {
    let last_write = quorum.write_size() - 1;
    match visit.steps() {
        k if k == last_write => Operation::Read(quorum.table.pool),
        k if k == last_write + 1 => Operation::Write((quorum.table.write_set)(visit.proposal)[last_write], 1),
        _ => quorum.next(&exchanged(quorum, visit)),
    }
}

fn outcome_of_exchanged(quorum: &Quorum, visit: &Visit) -> Option<Outcome> {
    quorum.outcome(&exchanged(quorum, visit))
}

/// The visit with the two exchanged steps back in their right order.
fn exchanged(quorum: &Quorum, visit: &Visit) -> Visit {
    let mut visit = visit.clone();
    let last_write = quorum.write_size() - 1;
    if visit.steps() > last_write + 1 {
        visit.seen.swap(last_write, last_write + 1);
    }
    visit
}

/// Hands the station's own proposal on, whatever it was to adopt.
fn hand_on_proposal(collect: &Collect, visit: &Visit) -> Option<Outcome> {
    match collect.outcome(visit)? {
        Outcome::Adopt(_) => Some(Outcome::Adopt(visit.proposal)),
        commit => Some(commit),
    }
}
