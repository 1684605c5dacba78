//! A whole call that adds a trace to a histogram: the limits, the bucket of a
//! load, and the histogram of the phases of many traces.

use std::cmp::Ordering;
use std::sync::LazyLock;

use crate::replay::{judge_and_replay, Replay, ReplayAnswer};
use crate::tree::Refusal;

/// Limits 0 to 175.
pub const LIMITS: usize = 176;
/// One for load 0 and one for each limit.
pub const BUCKETS: usize = LIMITS + 1;
/// So many traces may be added.
pub const MAX_TRACES: u32 = 65_535;

// ---- The limits ----

/// A whole number below 2 to the power 192 as digits to the base 2 to the power
/// 32, the lowest first: the fourth powers do not fit 128 bits.
#[derive(Clone, Copy, Debug, PartialEq, Eq)]
pub struct Big([u64; 6]);

/// What a digit stays below.
const BASE: u64 = 1 << 32;

impl Big {
    pub fn new(number: u64) -> Big {
        Big([number % BASE, number / BASE, 0, 0, 0, 0])
    }

    pub fn power_of_two(exponent: usize) -> Big {
        let mut digits = [0; 6];
        digits[exponent / 32] = 1 << (exponent % 32);
        Big(digits)
    }

    /// The product as learned at school: digit by digit, with a carry.
    pub fn times(self, other: Big) -> Big {
        let mut digits = [0; 6];
        for (i, a) in self.0.into_iter().enumerate() {
            let mut carry = 0;
            for (j, b) in other.0.into_iter().enumerate() {
                if i + j < digits.len() {
                    // At most (2^32 - 1)^2 + 2 (2^32 - 1), which is 2^64 - 1.
                    let sum = a * b + digits[i + j] + carry;
                    digits[i + j] = sum % BASE;
                    carry = sum / BASE;
                } else {
                    assert_eq!(a * b, 0, "the product has at most six digits");
                }
            }
            assert_eq!(carry, 0, "the product has at most six digits");
        }
        Big(digits)
    }

    pub fn fourth_power(self) -> Big {
        let square = self.times(self);
        square.times(square)
    }

    pub fn at_most(self, other: Big) -> bool {
        let digits = self.0.into_iter().rev().zip(other.0.into_iter().rev());
        let first = digits.map(|(a, b)| a.cmp(&b)).find(|&order| order != Ordering::Equal);
        first != Some(Ordering::Greater)
    }
}

/// Limit k: the largest whole number whose fourth power is at most 2 to the
/// power k.
pub fn limit(k: usize) -> u64 {
    let most = Big::power_of_two(k);
    // It is found bit by bit, the highest first: a bit is set if the fourth
    // power allows it. 2 to the power 44 is too large for all.
    let mut root = 0;
    for bit in (0..44).rev() {
        let more = root + (1 << bit);
        if Big::new(more).fourth_power().at_most(most) {
            root = more;
        }
    }
    root
}

/// All limits, found once.
pub fn limits() -> &'static [u64; LIMITS] {
    static FOUND: LazyLock<[u64; LIMITS]> = LazyLock::new(|| std::array::from_fn(limit));
    &FOUND
}

// ---- The histogram ----

/// The bucket that a load goes to: 0 for load 0, and k + 1 for the highest k
/// whose limit does not exceed the load.
// Reading: of equal limits the highest counts, so load 1 goes to limit 3; and
// every load from the last limit on goes to that one.
pub fn bucket(load: u64) -> usize {
    match (0..LIMITS).rev().find(|&k| limits()[k] <= load) {
        Some(k) => k + 1,
        None => 0,
    }
}

/// How many traces were added, and how many phases have a load in each bucket.
#[derive(Clone, Copy, Debug, PartialEq, Eq)]
pub struct Histogram {
    pub traces: u32,
    pub counts: [u32; BUCKETS],
}

impl Histogram {
    /// Before the first trace.
    pub fn start() -> Histogram {
        Histogram { traces: 0, counts: [0; BUCKETS] }
    }

    /// The next histogram: one more trace, and each phase in the bucket of its
    /// load.
    // Reading: a phase that covers only steps of weight 0 has load 0 and counts.
    // On a histogram that no start and additions lead to, document 02 leaves the
    // answer free; here a count goes round at 2 to the power 32, as in the
    // library.
    fn with(&self, replay: &Replay) -> Histogram {
        let mut next = *self;
        next.traces += 1;
        for phase in &replay.phases {
            let count = &mut next.counts[bucket(phase.load(&replay.tree))];
            *count = count.wrapping_add(1);
        }
        next
    }
}

/// All results of the call: what replay answers, and the next histogram, which
/// after a refusal is the one given.
#[derive(Clone, Copy, Debug, PartialEq, Eq)]
pub struct Added {
    pub replay: ReplayAnswer,
    pub histogram: Histogram,
}

fn judge(
    histogram: &Histogram,
    policy: u8,
    workers: u8,
    tree: &[u8],
    trace: &[u8],
    list_bytes: usize,
) -> Result<Replay, Refusal> {
    let replay = judge_and_replay(policy, workers, tree, trace, list_bytes)?;
    // Reading: a count of traces above 65,535, which no additions lead to, is
    // refused alike.
    if histogram.traces >= MAX_TRACES {
        return Err(Refusal::new(17, 0));
    }
    Ok(replay)
}

/// Replays a trace, writes the run list, and adds all phases to the histogram.
pub fn add(
    histogram: &Histogram,
    policy: u8,
    workers: u8,
    tree: &[u8],
    trace: &[u8],
    run_list: &mut [u8],
) -> Added {
    match judge(histogram, policy, workers, tree, trace, run_list.len()) {
        Err(refusal) => Added { replay: ReplayAnswer::refused(refusal), histogram: *histogram },
        Ok(read) => {
            Added { replay: read.write_and_answer(run_list), histogram: histogram.with(&read) }
        }
    }
}
