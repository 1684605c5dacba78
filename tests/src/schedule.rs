//! A whole schedule call: the maker of event lists.

use crate::record::EVENT_BYTES;
use crate::run::Run;
use crate::tree::Refusal;

/// What an idle worker's turn adds to the seed.
pub const ADDED: u64 = 2_654_435_769;
/// So many seeds there are: 2 to the power 32.
pub const SEEDS: u64 = 1 << 32;

/// All results of a schedule call. Number 0 says accepted.
#[derive(Clone, Copy, Debug, PartialEq, Eq, Default)]
pub struct ScheduleAnswer {
    pub number: u32,
    pub position: usize,
    /// How many events the list has.
    pub events: usize,
}

/// The most events of a list for so many steps: a run event for each step and
/// a steal for each spawned task.
pub fn most_events(steps: usize) -> usize {
    steps + (steps - 1) / 2
}

/// A run that goes on turn by turn, with the events that the turns write.
#[derive(Clone, Debug)]
pub struct Maker {
    pub run: Run,
    pub seed: u64,
    pub events: Vec<[u8; 2]>,
}

impl Maker {
    pub fn new(run: Run, seed: u32) -> Maker {
        Maker { run, seed: seed.into(), events: Vec::new() }
    }

    /// Changes the seed and reads the victim in its top four bits.
    fn draw(&mut self) -> u8 {
        self.seed = (self.seed + ADDED) % SEEDS;
        (self.seed / (SEEDS / 16)) as u8
    }

    /// One turn, of at most one event: a worker that holds a step would run
    /// it, an idle one would steal from the victim that it draws. Where the
    /// run refuses the event the turn passes.
    // Reading: it is refused where the step waits (10), and where the worker
    // draws itself (9), nobody of the run (8) or an empty deque (12). The turn
    // is over then, without another draw, and the changed seed stays.
    // Reading: one who waits holds a step and is not idle, so it does not draw.
    pub fn turn(&mut self, worker: u8) {
        let other = if self.run.is_idle(worker.into()) { self.draw() } else { worker };
        match self.run.event(worker, other) {
            Ok(_) => self.events.push([worker, other]),
            Err(refusal) => assert!([8, 9, 10, 12].contains(&refusal.number), "a turn is refused with {}", refusal.number),
        }
    }

    /// A turn of each worker, in rising order.
    // Reading: the last round may go on behind the last step. All workers are
    // idle then and all deques empty, so nothing more is written.
    pub fn round(&mut self) {
        for worker in 0..self.run.workers.len() {
            self.turn(worker as u8);
        }
    }
}

fn judge_and_make(
    policy: u8,
    workers: u8,
    tree: &[u8],
    seed: u32,
    list_bytes: usize,
) -> Result<Maker, Refusal> {
    let run = Run::start(policy, workers, tree)?;
    // Reading: the room is asked for the most events, however few the list has.
    if list_bytes < EVENT_BYTES * most_events(run.tree.count()) {
        return Err(Refusal::new(7, 0));
    }
    let mut maker = Maker::new(run, seed);
    while !maker.run.finished() {
        maker.round();
    }
    Ok(maker)
}

/// Makes a list of events that runs the tree to its end.
// Reading: the list stands at the front of the buffer; the bytes behind it
// keep what they held.
pub fn schedule(
    policy: u8,
    workers: u8,
    tree: &[u8],
    seed: u32,
    list: &mut [u8],
) -> ScheduleAnswer {
    match judge_and_make(policy, workers, tree, seed, list.len()) {
        Err(refusal) => ScheduleAnswer {
            number: refusal.number,
            position: refusal.position,
            ..ScheduleAnswer::default()
        },
        Ok(maker) => {
            let bytes = maker.events.concat();
            list[..bytes.len()].copy_from_slice(&bytes);
            ScheduleAnswer { number: 0, position: 0, events: maker.events.len() }
        }
    }
}

/// A schedule call with an ample buffer; hands back only the written events.
pub fn schedule_to_vec(
    policy: u8,
    workers: u8,
    tree: &[u8],
    seed: u32,
) -> (ScheduleAnswer, Vec<u8>) {
    let mut list = vec![0; EVENT_BYTES * most_events(4_095)];
    let answer = schedule(policy, workers, tree, seed, &mut list);
    list.truncate(EVENT_BYTES * answer.events);
    (answer, list)
}
