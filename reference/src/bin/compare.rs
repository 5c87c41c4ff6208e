//! compare PROGRAM COUNT SEED: runs COUNT generated schedules by PROGRAM and by this reference, and compares the listings byte by byte.

use reference::generate::{schedule, Random};
use reference::run::run;
use std::io::{Error, Write};
use std::process::{Command, ExitCode, Stdio};

fn main() -> Result<ExitCode, Error> {
    let arguments: Vec<String> = std::env::args().collect();
    let [_, program, count, seed] = &arguments[..] else {
        return Err(Error::other("usage: compare PROGRAM COUNT SEED"));
    };
    let count: u64 = count.parse().map_err(Error::other)?;
    let mut random = Random::new(seed.parse().map_err(Error::other)?);
    let mut differences = 0;
    for number in 0..count {
        let schedule = schedule(&mut random);
        let theirs = listing_by(program, &schedule)?;
        let ours = run(&schedule, 65_536).listing.into_bytes();
        if theirs != ours {
            differences += 1;
            report(number, &schedule, &theirs, &ours);
        }
    }
    println!("{count} schedules, {differences} differences");
    Ok(if differences == 0 { ExitCode::SUCCESS } else { ExitCode::FAILURE })
}

fn listing_by(program: &str, schedule: &[u8]) -> Result<Vec<u8>, Error> {
    let mut child = Command::new(program).stdin(Stdio::piped()).stdout(Stdio::piped()).spawn()?;
    // The program stops reading one byte after the longest schedule, so what is left over may find the pipe closed.
    let _ = child.stdin.take().unwrap().write_all(schedule);
    Ok(child.wait_with_output()?.stdout)
}

fn report(number: u64, schedule: &[u8], theirs: &[u8], ours: &[u8]) {
    let same = theirs.iter().zip(ours).take_while(|(a, b)| a == b).count();
    println!("schedule {number} differs at byte {same} of the listing:");
    println!("  bytes     {}", schedule.iter().map(|byte| format!("{byte:02X}")).collect::<Vec<_>>().join(" "));
    println!("  program   {}", line_around(theirs, same));
    println!("  reference {}", line_around(ours, same));
}

fn line_around(listing: &[u8], position: usize) -> String {
    let start = listing[..position].iter().rposition(|&byte| byte == b'\n').map_or(0, |newline| newline + 1);
    let line = listing[start..].split(|&byte| byte == b'\n').next().unwrap_or_default();
    String::from_utf8_lossy(line).into_owned()
}
