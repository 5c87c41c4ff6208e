//! Visits every order of calls of two stations on each pile, of three where that takes seconds, and of two on each wrong variant.

use reference::explore::{explore, Broken};
use reference::pile::Pile;
use reference::wrong;
use std::process::ExitCode;

fn main() -> ExitCode {
    let mut broken = false;
    let two = &[1, 2, 3, 4, 5, 6][..];
    // The coins and the lengths of the other piles make the states of three stations too many.
    let three = &[1, 2, 4][..];
    for (piles, marks) in [(two, &[0, 128][..]), (two, &[7, 7]), (three, &[0, 128, 0])] {
        for &number in piles {
            let stations = marks.len() as u8;
            let pile = Pile::new(number, stations, stations - 1).unwrap();
            print!("pile {number}, stations with marks {marks:?}: ");
            broken |= report(explore(pile, marks));
        }
    }
    for (name, pile) in wrong::variants() {
        print!("{name}: ");
        broken |= !report(explore(pile, &[0, 128]));
    }
    if broken {
        ExitCode::FAILURE
    } else {
        ExitCode::SUCCESS
    }
}

/// Prints the result, and answers whether a law was broken.
fn report(result: Result<usize, Broken>) -> bool {
    match result {
        Ok(states) => {
            println!("{states} states, the laws hold in all");
            false
        }
        Err(Broken { law, calls }) => {
            let calls: Vec<String> = calls.iter().map(|call| call.to_string()).collect();
            println!("{law} broken after {}", calls.join(", "));
            true
        }
    }
}
