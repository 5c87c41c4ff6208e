//! Runs the schedule on standard input: the listing to standard output, the three numbers to standard error.

use std::io::Read;

fn main() -> std::io::Result<()> {
    let mut schedule = vec![];
    std::io::stdin().read_to_end(&mut schedule)?;
    let run = reference::run::run(&schedule, 65_536);
    print!("{}", run.listing);
    eprintln!("{} {} {}", run.consumed, run.listing.len(), run.ending);
    Ok(())
}
