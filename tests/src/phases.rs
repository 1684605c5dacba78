//! Program `phases`: its output for given standard input.

use crate::cover::WORKERS;
use crate::replay::judge_and_replay;

/// The program reads so many bytes at most.
pub const MAX_INPUT: usize = 49_152;

/// The bytes that program `phases` prints for this standard input.
pub fn phases(input: &[u8]) -> Vec<u8> {
    let input = &input[..input.len().min(MAX_INPUT)];
    // Missing policy or count bytes read as 0.
    let byte = |at: usize| input.get(at).copied().unwrap_or(0);
    let policy = byte(0);
    let n = usize::from(u16::from_le_bytes([byte(1), byte(2)]));
    let rest = &input[input.len().min(3)..];
    // Reading: where the input is shorter than the count says, the tree is
    // what there is and the trace is empty; the count is not judged again.
    let (tree, trace) = rest.split_at(rest.len().min(8 * n));
    // Reading: the program's own run list is never short, so 7 is not printed.
    // The program uses 16 workers.
    let text = match judge_and_replay(policy, WORKERS as u8, tree, trace, 4 * 4_095) {
        // Reading: the refusal is one line with a line feed at its end, as
        // the other lines have.
        Err(refusal) => format!("refused {} {}\n", refusal.number, refusal.position),
        Ok(replay) => {
            let mut text = String::from("phase worker step\n");
            for (k, phase) in replay.phases.iter().enumerate() {
                for step in replay.running_order(k) {
                    text.push_str(&format!("{} {} {}\n", k, phase.worker, step));
                }
            }
            text
        }
    };
    text.into_bytes()
}
