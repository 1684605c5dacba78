//! All chains of a small tree, found by trying every set of steps. Nothing here is the simulator's.

use std::cmp::Ordering;

/// For each two steps of the tree of these kinds whether the first must precede the second.
pub fn precedence(kinds: &[u8]) -> Vec<Vec<bool>> {
    let steps = 0..kinds.len();
    let mut precedes = vec![vec![false; kinds.len()]; kinds.len()];
    // The spawning step of each step's task, which is another one for each task; none for the root.
    let mut spawned = vec![];
    let mut open = vec![None];
    for step in steps.clone() {
        spawned.push(*open.last().expect("a task is open"));
        if kinds[step] == 3 {
            open.pop();
        } else {
            open.push(Some(step));
        }
    }
    let same_task = |a: usize, b: usize| spawned[a] == spawned[b];
    for step in steps.clone() {
        if let Some(spawning) = spawned[step] {
            precedes[spawning][step] = true;
        }
        for earlier in (0..step).filter(|&earlier| same_task(earlier, step)) {
            precedes[earlier][step] = true;
            if kinds[earlier] == 2 {
                // All from there to the task's next step are the finish child's or its descendants'.
                let next = (earlier + 1..).find(|&next| same_task(earlier, next)).expect("the task goes on");
                (earlier + 1..next).for_each(|inside| precedes[inside][step] = true);
            }
        }
    }
    // Over any number of links.
    for middle in steps.clone() {
        for first in steps.clone() {
            for last in steps.clone() {
                precedes[first][last] |= precedes[first][middle] && precedes[middle][last];
            }
        }
    }
    precedes
}

/// Document 02's order of chains: the lower step at the first difference, and the start of a chain before the chain.
fn order(one: &[u16], other: &[u16]) -> Ordering {
    let both = one.len().min(other.len());
    match (0..both).find(|&k| one[k] != other[k]) {
        Some(k) => one[k].cmp(&other[k]),
        None => one.len().cmp(&other.len()),
    }
}

/// All lists of one or more steps of which each must precede the next, in this order.
pub fn all_chains(kinds: &[u8]) -> Vec<Vec<u16>> {
    let precedes = precedence(kinds);
    // What precedes a step is lower, so a chain is a set of steps in rising order.
    for (first, row) in precedes.iter().enumerate() {
        assert!(row[..=first].iter().all(|&before| !before), "{kinds:?}");
    }
    let sets = 1..1_u32 << kinds.len();
    let lists = sets.map(|set| (0..kinds.len() as u16).filter(|step| set >> step & 1 == 1).collect());
    let is_chain = |list: &Vec<u16>| list.windows(2).all(|pair| precedes[usize::from(pair[0])][usize::from(pair[1])]);
    let mut chains: Vec<Vec<u16>> = lists.filter(is_chain).collect();
    chains.sort_by(|one, other| order(one, other));
    chains
}

/// The greatest weight of a chain, and the first one that has it.
pub fn first_heaviest<'a>(chains: &'a [Vec<u16>], weights: &[u32]) -> (u64, &'a [u16]) {
    let weight = |chain: &[u16]| chain.iter().map(|&step| u64::from(weights[usize::from(step)])).sum();
    let mut best: (u64, &[u16]) = (0, &[]);
    for chain in chains {
        let weight = weight(chain);
        if best.1.is_empty() || weight > best.0 {
            best = (weight, chain);
        }
    }
    best
}
