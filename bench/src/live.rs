//! A run event by event in the hands of all contestants, who must agree.

use frame_tests::Run;

use crate::library::{self, FrameOutcome, RunState};
use crate::tuned;

/// The simulator's answer to an event, as the library gives it.
pub fn expected(run: &mut Run, first: u8, second: u8) -> FrameOutcome {
    let none = FrameOutcome { number: 0, position: 0, what: 0, phase: 0, step: 0, trace: 0 };
    match run.event(first, second) {
        Err(refusal) => FrameOutcome { number: refusal.number as usize, ..none },
        Ok(()) if first == second => {
            let ran = run.log.last().expect("a step ran");
            FrameOutcome { what: 1, phase: ran.phase, step: ran.step, ..none }
        }
        Ok(()) => FrameOutcome { what: 2, trace: run.trace.last().expect("a step was stolen").number, ..none },
    }
}

pub struct Live<'a> {
    pub tree: &'a [u8],
    pub state: RunState,
    pub tuned: tuned::Run<'a>,
    pub run: Run,
}

impl<'a> Live<'a> {
    pub fn start(tree: &'a [u8], policy: u8, workers: u8) -> Live<'a> {
        let state = library::start(tree, policy, workers).state;
        let tuned = tuned::Run::start(tree, policy, workers).expect("the tree is accepted");
        let run = Run::start(policy, workers, tree).expect("the tree is accepted");
        Live { tree, state, tuned, run }
    }

    /// After these events, all accepted.
    pub fn after(tree: &'a [u8], policy: u8, workers: u8, events: &[[u8; 2]]) -> Live<'a> {
        let mut live = Live::start(tree, policy, workers);
        events.iter().for_each(|&[first, second]| assert_eq!(live.event(first, second), 0));
        live
    }

    /// All give the event the same answer, and a refusal leaves the state as it is. Gives the refusal's number, 0 for none.
    pub fn event(&mut self, first: u8, second: u8) -> usize {
        let before = self.state;
        let want = expected(&mut self.run, first, second);
        let by_value = library::event(self.state, self.tree, first, second);
        let in_place = library::event_in_place(&mut self.state, self.tree, first, second);
        for outcome in [by_value.outcome, in_place, self.tuned.event(first, second)] {
            assert_eq!(outcome, want);
        }
        assert!(self.state == by_value.state);
        assert!(want.number == 0 || self.state == before);
        want.number
    }
}
