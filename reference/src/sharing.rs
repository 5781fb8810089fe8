//! Sharing an amount of mils over weights, by either of the two rules.
//!
//! Products of an amount and a weight are formed as they are: they stay below 2 x 10^26, which 128 bits hold.

use crate::faults::{Fault, Reason};

pub const MOST_AMOUNT: i128 = 100_000_000_000_000_000;
pub const MOST_WEIGHT: i128 = 2_000_000_000;
pub const MOST_PLACES: usize = 32;

#[derive(Clone, Copy, Debug, PartialEq, Eq)]
pub enum Rule {
    Running,
    LargestRemainder,
}

impl Rule {
    pub fn from_number(number: u64) -> Option<Rule> {
        match number {
            1 => Some(Rule::Running),
            2 => Some(Rule::LargestRemainder),
            _ => None,
        }
    }

    /// The parts of an amount; for a negative one those of its magnitude, turned negative.
    pub fn share(self, amount: i128, weights: &[i128]) -> Result<Vec<i128>, Fault> {
        let magnitude = amount.abs();
        let total: i128 = weights.iter().sum();
        let shareable = (1..=MOST_PLACES).contains(&weights.len())
            && magnitude <= MOST_AMOUNT
            && total <= MOST_WEIGHT
            && (total != 0 || magnitude == 0);
        if !shareable {
            return Err(Reason::NotShareable.nowhere());
        }
        let parts = match self {
            _ if total == 0 => vec![0; weights.len()],
            Rule::Running => running(magnitude, weights, total),
            Rule::LargestRemainder => largest_remainder(magnitude, weights, total),
        };
        Ok(parts.into_iter().map(|part| if amount < 0 { -part } else { part }).collect())
    }
}

/// Each part is what the places up to its own have together, less what those before it have.
fn running(amount: i128, weights: &[i128], total: i128) -> Vec<i128> {
    let mut weight_so_far = 0;
    let mut given = 0;
    weights
        .iter()
        .map(|weight| {
            weight_so_far += weight;
            let part = amount * weight_so_far / total - given;
            given += part;
            part
        })
        .collect()
}

/// Each part is rounded down; the missing mils go one each to the largest remainders, the earlier place first.
fn largest_remainder(amount: i128, weights: &[i128], total: i128) -> Vec<i128> {
    let mut parts: Vec<i128> = weights.iter().map(|weight| amount * weight / total).collect();
    let missing = amount - parts.iter().sum::<i128>();
    let mut places: Vec<usize> = (0..weights.len()).collect();
    // The sort is stable: of equal remainders the earlier place stays first.
    places.sort_by_key(|&place| std::cmp::Reverse(amount * weights[place] % total));
    for &place in places.iter().take(missing as usize) {
        parts[place] += 1;
    }
    parts
}

#[cfg(test)]
mod tests {
    use super::*;

    fn both(amount: i128, weights: &[i128]) -> (Vec<i128>, Vec<i128>) {
        (
            Rule::Running.share(amount, weights).unwrap(),
            Rule::LargestRemainder.share(amount, weights).unwrap(),
        )
    }

    fn refused(amount: i128, weights: &[i128]) -> bool {
        [Rule::Running, Rule::LargestRemainder]
            .iter()
            .all(|rule| rule.share(amount, weights) == Err(Reason::NotShareable.nowhere()))
    }

    #[test]
    fn worked_sharings() {
        let rows: [(i128, &[i128], &[i128], &[i128]); 8] = [
            (500_000, &[1000, 2000], &[166_666, 333_334], &[166_667, 333_333]),
            (2, &[1, 1, 1], &[0, 1, 1], &[1, 1, 0]),
            (0, &[0, 0], &[0, 0], &[0, 0]),
            (7, &[0, 5], &[0, 7], &[0, 7]),
            (10, &[1, 1, 1, 4], &[1, 1, 2, 6], &[2, 1, 1, 6]),
            (100, &[3, 3, 3, 2], &[27, 27, 27, 19], &[28, 27, 27, 18]),
            (18_000_000, &[0, 2000, 1300], &[0, 10_909_090, 7_090_910], &[0, 10_909_091, 7_090_909]),
            (
                MOST_AMOUNT,
                &[3, 7, 11],
                &[14_285_714_285_714_285, 33_333_333_333_333_334, 52_380_952_380_952_381],
                &[14_285_714_285_714_286, 33_333_333_333_333_333, 52_380_952_380_952_381],
            ),
        ];
        for (amount, weights, running, largest) in rows {
            assert_eq!(both(amount, weights), (running.to_vec(), largest.to_vec()));
        }
        assert!(refused(1, &[0, 0]));
    }

    #[test]
    fn signed_amounts_and_the_example_at_the_limit() {
        assert_eq!(Rule::Running.share(-500_000, &[2000, 1000]).unwrap(), [-333_333, -166_667]);
        let parts = vec![99_999_999_949_999_999, 50_000_000];
        assert_eq!(both(99_999_999_999_999_999, &[1_999_999_999, 1]), (parts.clone(), parts));
    }

    #[test]
    fn limits() {
        assert!(!refused(1, &[1; 32]));
        assert!(refused(1, &[1; 33]));
        assert!(refused(0, &[]));
        assert!(!refused(MOST_AMOUNT, &[1]));
        assert!(refused(MOST_AMOUNT + 1, &[1]));
        assert!(refused(-MOST_AMOUNT - 1, &[1]));
        assert!(!refused(1, &[1_999_999_999, 1]));
        assert!(refused(1, &[1_999_999_999, 2]));
    }

    #[test]
    fn parts_are_fair() {
        for amount in [0, 1, 5, 17, 100, 99_999, MOST_AMOUNT] {
            for weights in [&[1, 2, 3][..], &[0, 9, 0, 7], &[5; 32], &[13, 1, 1, 1, 999_999]] {
                let total: i128 = weights.iter().sum();
                for rule in [Rule::Running, Rule::LargestRemainder] {
                    let parts = rule.share(amount, weights).unwrap();
                    assert_eq!(parts.iter().sum::<i128>(), amount);
                    for (part, weight) in parts.iter().zip(weights) {
                        assert!((part * total - amount * weight).abs() < total);
                    }
                }
            }
        }
    }
}
