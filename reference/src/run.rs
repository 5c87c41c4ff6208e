//! The run of a schedule: its listing and its three numbers.

use crate::machines::Outcome;
use crate::pile::{Pile, Step};

const LONGEST_SCHEDULE: usize = 4096;
const FREE_BYTES: usize = 48;

#[derive(PartialEq, Debug)]
pub struct Run {
    pub listing: String,
    pub consumed: usize,
    pub ending: u8,
}

/// Runs `schedule` into a listing of at most `room` bytes.
pub fn run(schedule: &[u8], room: usize) -> Run {
    let mut listing = String::new();
    if schedule.len() > LONGEST_SCHEDULE {
        return Run { listing, consumed: 0, ending: 1 };
    }
    let mut pile = None;
    let mut consumed = 0;
    while consumed < schedule.len() {
        if room < listing.len() + FREE_BYTES {
            return Run { listing, consumed, ending: 2 };
        }
        let command = match operands(&schedule[consumed..]) {
            Ok(operands) => &schedule[consumed..consumed + 1 + operands],
            Err(ending) => {
                listing += &format!("refused {ending}\n");
                return Run { listing, consumed, ending };
            }
        };
        match perform(&mut pile, command) {
            Ok(line) => listing += &line,
            Err(number) => listing += &format!("refused {number}"),
        }
        listing += "\n";
        consumed += command.len();
    }
    Run { listing, consumed, ending: 0 }
}

/// How many operands the first command has, if they are all there.
fn operands(rest: &[u8]) -> Result<usize, u8> {
    let count = match rest[0] {
        b'N' => 3,
        b'E' | b'S' => 2,
        b'L' => 1,
        _ => return Err(3),
    };
    if rest.len() > count {
        Ok(count)
    } else {
        Err(4)
    }
}

fn perform(pile: &mut Option<Pile>, command: &[u8]) -> Result<String, u8> {
    if let [b'N', number, stations, leader] = *command {
        let new = Pile::new(number, stations, leader)?;
        let (limit, registers) = (new.limit(), new.registers());
        *pile = Some(new);
        return Ok(format!("pile {number} stations {stations} limit {limit} registers {registers}"));
    }
    let pile = pile.as_mut().ok_or(14)?;
    match *command {
        [b'E', station, mark] => {
            pile.enter(station, mark)?;
            Ok(format!("enter {station} mark {mark}"))
        }
        [b'S', station, coin] => Ok(line_of(station, &pile.step(station, coin)?)),
        [b'L', station] => {
            pile.stop(station)?;
            Ok(format!("stop {station}"))
        }
        _ => unreachable!(),
    }
}

fn line_of(station: u8, step: &Step) -> String {
    let operation = if step.writes { "write" } else { "read" };
    let outcome = match step.outcome {
        None => String::new(),
        Some(Outcome::Adopt(mark)) => format!(" adopt {mark}"),
        Some(Outcome::Commit(mark)) => format!(" commit {mark}"),
    };
    format!("step {station} {operation} {} {}{outcome}", step.register, step.content)
}

#[cfg(test)]
mod tests {
    use super::*;

    #[test]
    fn example_of_the_rules() {
        let schedule = b"N\x01\x01\x00E\x00\x07S\x00\x00S\x00\x00S\x00\x00S\x00\x00S\x00\x00L\x00S\x00\x00";
        let run = run(schedule, 65_536);
        let listing = "pile 1 stations 1 limit 4 registers 2\nenter 0 mark 7\nstep 0 write 0 8\nstep 0 read 0 8\n\
            step 0 write 1 16\nstep 0 read 1 16 commit 7\nrefused 19\nstop 0\nrefused 16\n";
        assert_eq!(run, Run { listing: listing.into(), consumed: 27, ending: 0 });
    }
}
