//! Schedules of every kind, from a seed.

/// SplitMix64, which is enough to vary schedules and gives the same ones everywhere.
pub struct Random(u64);

impl Random {
    pub fn new(seed: u64) -> Random {
        Random(seed)
    }

    fn next(&mut self) -> u64 {
        self.0 = self.0.wrapping_add(0x9E37_79B9_7F4A_7C15);
        let mut x = self.0;
        x = (x ^ x >> 30).wrapping_mul(0xBF58_476D_1CE4_E5B9);
        x = (x ^ x >> 27).wrapping_mul(0x94D0_49BB_1331_11EB);
        x ^ x >> 31
    }

    fn below(&mut self, bound: usize) -> usize {
        (self.next() % bound as u64) as usize
    }

    fn byte(&mut self) -> u8 {
        self.below(256) as u8
    }

    fn pick<T: Copy>(&mut self, choices: &[T]) -> T {
        choices[self.below(choices.len())]
    }

    fn one_in(&mut self, bound: usize) -> bool {
        self.below(bound) == 0
    }
}

const ODD_LENGTHS: [usize; 4] = [4095, 4096, 4097, 5000];

pub fn schedule(random: &mut Random) -> Vec<u8> {
    let mut bytes = vec![];
    match random.below(20) {
        0 => commands_before_any_pile(random, &mut bytes),
        1 => anything(random, &mut bytes),
        2 => {
            trial(random, &mut bytes);
            let length = random.pick(&ODD_LENGTHS);
            while bytes.len() < length {
                command(random, 16, &mut bytes);
            }
            bytes.truncate(length);
        }
        3 => {
            trial(random, &mut bytes);
            bytes.truncate(random.below(bytes.len()));
        }
        _ => {
            for _ in 0..random.pick(&[1, 1, 1, 2, 3]) {
                trial(random, &mut bytes);
            }
            bytes.truncate(4096);
        }
    }
    bytes
}

fn commands_before_any_pile(random: &mut Random, bytes: &mut Vec<u8>) {
    for _ in 0..random.below(6) {
        command(random, 16, bytes);
    }
}

/// Letters and small numbers in any order.
fn anything(random: &mut Random, bytes: &mut Vec<u8>) {
    for _ in 0..random.below(60) {
        let byte = random.byte();
        bytes.push(random.pick(&[b'N', b'E', b'S', b'L', 0, 1, 2, 3, byte]));
    }
}

/// An N and commands for its stations; now and then an N that is refused, so that what follows goes to the trial before.
fn trial(random: &mut Random, bytes: &mut Vec<u8>) {
    let stations = 1 + random.below(16);
    new_pile(random, stations as u8, bytes);
    let marks = [random.byte(), random.byte(), random.pick(&[0, 127, 128, 255])];
    let marks = &marks[..1 + random.below(3)];
    let mut late = vec![];
    for station in 0..stations as u8 {
        let enter = [b'E', station, random.pick(marks)];
        if random.one_in(4) {
            late.push(enter);
        } else {
            bytes.extend(enter);
        }
    }
    let steps = random.pick(&[stations, 10 * stations, 60 * stations]);
    // One station often runs alone for a while, since that is how one commits before another comes.
    let mut alone = random.below(stations) as u8;
    for _ in 0..steps {
        match random.below(200) {
            0 => command(random, stations, bytes),
            1 | 2 => bytes.extend([b'L', random.below(stations) as u8]),
            3..=9 => bytes.extend(late.pop().unwrap_or([b'S', alone, random.byte()])),
            10..=19 => alone = random.below(stations) as u8,
            20..=99 => bytes.extend([b'S', alone, random.byte()]),
            _ => bytes.extend([b'S', random.below(stations) as u8, random.byte()]),
        }
    }
}

fn new_pile(random: &mut Random, stations: u8, bytes: &mut Vec<u8>) {
    let pile = 1 + random.below(6) as u8;
    let leader = random.below(stations.into()) as u8;
    bytes.extend(match random.below(25) {
        0 => [b'N', random.pick(&[0, 7, 255]), stations, leader],
        1 => [b'N', pile, random.pick(&[0, 17, 255]), leader],
        2 => [b'N', pile, stations, random.pick(&[stations, 255])],
        _ => [b'N', pile, stations, leader],
    });
}

/// One command of any letter, sensible or not.
fn command(random: &mut Random, stations: usize, bytes: &mut Vec<u8>) {
    let station = random.below(stations + 2) as u8;
    match random.below(40) {
        0 => bytes.push(random.byte()),
        1..=9 => bytes.extend([b'E', station, random.byte()]),
        10..=19 => bytes.extend([b'L', station]),
        20..=24 => new_pile(random, stations.min(16) as u8, bytes),
        _ => bytes.extend([b'S', station, random.byte()]),
    }
}

#[cfg(test)]
mod tests {
    use super::*;
    use crate::run::run;
    use std::collections::BTreeSet;

    #[test]
    fn two_thousand_schedules_show_every_kind() {
        let mut random = Random::new(1);
        let runs: Vec<_> = (0..2000).map(|_| run(&schedule(&mut random), 65_536)).collect();
        let endings: BTreeSet<u8> = runs.iter().map(|run| run.ending).collect();
        assert_eq!(endings, [0, 1, 3, 4].into());
        let lines: BTreeSet<&str> = runs.iter().flat_map(|run| run.listing.lines()).collect();
        for number in [3, 4, 5, 6, 7].into_iter().chain(14..=19) {
            assert!(lines.contains(format!("refused {number}").as_str()));
        }
        for pile in 1..=6 {
            for stations in 1..=16 {
                let begin = format!("pile {pile} stations {stations} ");
                assert!(lines.iter().any(|line| line.starts_with(&begin)));
            }
        }
    }
}
