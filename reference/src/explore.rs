//! Every order of calls of a small pile: each station enters with its mark at any time, steps with every coin, and may stop
//! anywhere, since the laws are asked after every call.

use crate::machines::Outcome;
use crate::pile::{Pile, State};
use std::collections::HashSet;
use std::fmt;

#[derive(Clone, Copy)]
pub enum Call {
    Enter(u8, u8),
    Step(u8, u8),
}

impl fmt::Display for Call {
    fn fmt(&self, formatter: &mut fmt::Formatter) -> fmt::Result {
        match self {
            Call::Enter(station, mark) => write!(formatter, "enter {station} mark {mark}"),
            Call::Step(station, coin) => write!(formatter, "step {station} coin {coin}"),
        }
    }
}

/// A list of calls after which a law does not hold.
pub struct Broken {
    pub law: &'static str,
    pub calls: Vec<Call>,
}

/// Visits every state that calls can reach, and answers how many there are.
pub fn explore(pile: Pile, marks: &[u8]) -> Result<usize, Broken> {
    let mut visited = HashSet::new();
    visit(&pile, marks, &mut visited, &mut vec![])?;
    Ok(visited.len())
}

fn visit(pile: &Pile, marks: &[u8], visited: &mut HashSet<State>, calls: &mut Vec<Call>) -> Result<(), Broken> {
    if !visited.insert(pile.state.clone()) {
        return Ok(());
    }
    if let Some(law) = broken_law(pile) {
        return Err(Broken { law, calls: calls.clone() });
    }
    for (station, &mark) in (0..).zip(marks) {
        let coins = pile.coins(station.into());
        for call in std::iter::once(Call::Enter(station, mark)).chain((0..coins).map(|coin| Call::Step(station, coin))) {
            let mut next = pile.clone();
            if perform(&mut next, call) {
                calls.push(call);
                visit(&next, marks, visited, calls)?;
                calls.pop();
            }
        }
    }
    Ok(())
}

/// Whether the call was accepted.
fn perform(pile: &mut Pile, call: Call) -> bool {
    match call {
        Call::Enter(station, mark) => pile.enter(station, mark).is_ok(),
        Call::Step(station, coin) => pile.step(station, coin).is_ok(),
    }
}

fn broken_law(pile: &Pile) -> Option<&'static str> {
    let entered = || pile.state.stations.iter().flatten();
    let outcomes = || entered().filter_map(|station| station.outcome);
    let laws = [
        ("validity", outcomes().all(|outcome| entered().any(|station| station.proposal == mark(outcome)))),
        ("coherence", outcomes().filter(commits).all(|commit| outcomes().all(|other| mark(other) == mark(commit)))),
        ("bound", entered().all(|station| station.steps < pile.limit() + usize::from(station.outcome.is_some()))),
        // All six piles are ratifying.
        ("ratifying", entered().any(|a| entered().any(|b| a.proposal != b.proposal)) || outcomes().all(|outcome| commits(&outcome))),
    ];
    laws.into_iter().find(|(_, holds)| !holds).map(|(law, _)| law)
}

fn commits(outcome: &Outcome) -> bool {
    matches!(outcome, Outcome::Commit(_))
}

fn mark(outcome: Outcome) -> u8 {
    match outcome {
        Outcome::Adopt(mark) | Outcome::Commit(mark) => mark,
    }
}

#[cfg(test)]
mod tests {
    use super::*;
    use crate::wrong;

    #[test]
    fn two_stations_keep_the_laws_on_every_pile() {
        for number in 1..=6 {
            assert!(explore(Pile::new(number, 2, 1).unwrap(), &[0, 128]).is_ok());
        }
    }

    #[test]
    fn each_wrong_variant_is_caught() {
        for (name, pile) in wrong::variants() {
            assert!(explore(pile, &[0, 128]).is_err(), "{name}");
        }
    }
}
