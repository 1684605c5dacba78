//! Times of several contestants in one run, and what is made of them.

use std::time::Duration;

/// A time is the median of so many rounds. In each round every contestant has its turn, so that a busy machine slows all alike.
pub const ROUNDS: usize = 25;
/// A turn repeats a call until it has taken so long,
pub const TURN: Duration = Duration::from_millis(2);
/// and reads the clock after calls with about so many units in all.
const BATCH: usize = 20_000;

#[repr(C)]
struct Timespec {
    seconds: i64,
    nanoseconds: i64,
}

extern "C" {
    fn clock_gettime(clock: i32, time: *mut Timespec) -> i32;
}

const THREAD_TIME: i32 = 3;

/// The time that this thread has had a processor, so that the times when others have it do not count.
fn thread_time() -> Duration {
    let mut time = Timespec { seconds: 0, nanoseconds: 0 };
    assert_eq!(unsafe { clock_gettime(THREAD_TIME, &mut time) }, 0);
    Duration::new(time.seconds as u64, time.nanoseconds as u32)
}

/// Nanoseconds per unit of calls on inputs that take turns and have so many units in all. For each batch of turns what the
/// calls are given is made ready outside of the time.
pub fn turn<I, T>(inputs: &mut [I], units: usize, ready: impl Fn(&I) -> T, call: impl Fn(&mut I, &mut T)) -> f64 {
    turn_by(BATCH.div_ceil(units), inputs, units, ready, call)
}

/// The same where a batch is so many turns of all inputs: where units take long, the usual batch would.
pub fn turn_by<I, T>(
    batch: usize,
    inputs: &mut [I],
    units: usize,
    ready: impl Fn(&I) -> T,
    call: impl Fn(&mut I, &mut T),
) -> f64 {
    let mut spent = Duration::ZERO;
    let mut passes = 0;
    while spent < TURN {
        let mut given: Vec<T> = (0..batch).flat_map(|_| inputs.iter().map(&ready)).collect();
        let began = thread_time();
        for given in given.chunks_mut(inputs.len()) {
            inputs.iter_mut().zip(given).for_each(|(input, given)| call(input, given));
        }
        spent += thread_time() - began;
        passes += batch;
    }
    spent.as_nanos() as f64 / (passes * units) as f64
}

/// Takes a turn on the inputs.
pub type Contestant<'a, I> = &'a dyn Fn(&mut [I]) -> f64;

/// For each contestant all its turns.
pub fn rounds<I, const N: usize>(inputs: &mut [I], contestants: [Contestant<I>; N]) -> [[f64; ROUNDS]; N] {
    let mut turns = [[0.0; ROUNDS]; N];
    for round in 0..ROUNDS {
        for (contestant, turns) in contestants.iter().zip(&mut turns) {
            turns[round] = contestant(inputs);
        }
    }
    turns
}

pub fn median(mut turns: [f64; ROUNDS]) -> f64 {
    turns.sort_by(f64::total_cmp);
    turns[ROUNDS / 2]
}

/// For each contestant the median of its turns.
pub fn medians<I, const N: usize>(inputs: &mut [I], contestants: [Contestant<I>; N]) -> [f64; N] {
    rounds(inputs, contestants).map(median)
}

pub fn geometric_mean(numbers: &[f64]) -> f64 {
    (numbers.iter().map(|number| number.ln()).sum::<f64>() / numbers.len() as f64).exp()
}

/// Case by case, how many times as much.
pub fn divided(times: &[f64], by: &[f64]) -> Vec<f64> {
    times.iter().zip(by).map(|(time, by)| time / by).collect()
}

pub fn least(numbers: &[f64]) -> f64 {
    numbers.iter().copied().fold(f64::INFINITY, f64::min)
}

pub fn most(numbers: &[f64]) -> f64 {
    numbers.iter().copied().fold(0.0, f64::max)
}
