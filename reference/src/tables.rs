//! Quorum tables: for each mark, the registers to write and the registers to read.

pub struct Table {
    pub pool: usize,
    pub write_set: fn(u8) -> Vec<usize>,
    pub read_set: fn(u8) -> Vec<usize>,
}

pub const BIT_PAIRS: Table = Table {
    pool: 16,
    write_set: |mark| (0..8).map(|i| 2 * i + bit(mark.into(), i)).collect(),
    read_set: |mark| (0..8).map(|i| 2 * i + 1 - bit(mark.into(), i)).collect(),
};

pub const HALF_SETS: Table = Table {
    pool: 11,
    write_set: |mark| (0..11).filter(|&i| bit(five_ones(mark), i) == 1).collect(),
    read_set: |mark| (0..11).filter(|&i| bit(five_ones(mark), i) == 0).collect(),
};

fn bit(number: u32, i: usize) -> usize {
    (number >> i & 1) as usize
}

/// The (mark + 1)th smallest number with exactly five ones.
fn five_ones(mark: u8) -> u32 {
    (0..).filter(|n: &u32| n.count_ones() == 5).nth(mark.into()).unwrap()
}

#[cfg(test)]
mod tests {
    use super::*;

    #[test]
    fn examples_of_the_rules() {
        assert_eq!([0, 251, 252].map(five_ones), [31, 992, 1039]);
        assert_eq!((BIT_PAIRS.write_set)(5), [1, 2, 5, 6, 8, 10, 12, 14]);
    }

    #[test]
    fn sets_are_disjoint_exactly_for_one_mark() {
        for table in [BIT_PAIRS, HALF_SETS] {
            for v in 0..=255 {
                for u in 0..=255 {
                    let read = (table.read_set)(u);
                    let common = (table.write_set)(v).iter().any(|i| read.contains(i));
                    assert_eq!(common, u != v);
                }
            }
        }
    }
}
