//! `evc_get_avail_inter_slice` for every block of 3 by 3 units, with the units beside it in every state: coded or not,
//! intra or not, and of slice 0, 1 or 127, for blocks of each of these. Held to the model and to the Rust.

use crate::archive::Calls;
use crate::cases::units::agreed_in_slice;
use crate::guard::{Guarded, PRESSES};
use oracle::cases::{blocks, neighbours, word, Rng};
use oracle::model::Block;
use std::ops::Range;
use std::sync::atomic::{AtomicUsize, Ordering::Relaxed};
use std::thread;

const UNITS: usize = 9;
const SLICES: [u32; 3] = [0, 1, 127];

/// The bits that a flag looks at.
const READ: u32 = 1 << 31 | 1 << 15 | 127;

/// These bits in each of the twelve states of a unit.
fn states() -> [u32; 12] {
    std::array::from_fn(|state| word(state as u8 % 4) | SLICES[state / 4])
}

/// Which units take every state. The words of the others, the block's own among them, are arbitrary.
#[derive(Clone, Copy, Debug, PartialEq)]
pub enum Beside {
    /// Those that flags look at: seven at most.
    LookedAt,
    /// All that touch the block: eight at most.
    Around,
}

impl Beside {
    fn units(self, b: &Block) -> Vec<usize> {
        let [x, y, right, below] = b.edges();
        let around = (y - 4..=below)
            .step_by(4)
            .flat_map(|uy| (x - 4..=right).step_by(4).map(move |ux| (ux, uy)))
            .filter(|(ux, uy)| !((x..right).contains(ux) && (y..below).contains(uy)));
        match self {
            Beside::LookedAt => neighbours(b),
            Beside::Around => around.filter_map(|(ux, uy)| b.unit_at(ux, uy)).collect(),
        }
    }
}

/// Some of the states of one block.
struct Part {
    b: Block,
    slice_num: u32,
    units: Vec<usize>,
    states: Range<u64>,
}

/// States that a part has at most.
const PART: u64 = 12u64.pow(5);

fn parts(beside: Beside) -> Vec<Part> {
    let mut all = Vec::new();
    for b in blocks([3, 3]) {
        let units = beside.units(&b);
        let states = 12u64.pow(units.len() as u32);
        for first in (0..states).step_by(PART as usize) {
            for slice_num in SLICES {
                all.push(Part {
                    b,
                    slice_num,
                    units: units.clone(),
                    states: first..states.min(first + PART),
                });
            }
        }
    }
    all
}

impl Part {
    fn run(&self, calls: &dyn Calls) -> Result<u64, String> {
        let Part { b, slice_num, .. } = self;
        let bits = states();
        let mut lent = Guarded::default();
        let mut rng = Rng(self.states.start + 1);
        for state in self.states.clone() {
            let mut words: [u32; UNITS] = std::array::from_fn(|_| rng.below(1 << 32) as u32);
            let mut rest = state;
            for unit in &self.units {
                words[*unit] = words[*unit] & !READ | bits[(rest % 12) as usize];
                rest /= 12;
            }
            let lent = lent.lend_mut(PRESSES[state as usize % 2], &words);
            let differs = |why| format!("{b:?}, slice {slice_num}, words {words:x?}: {why}");
            agreed_in_slice(calls, b, *slice_num, lent).map_err(differs)?;
        }
        Ok(self.states.end - self.states.start)
    }
}

/// How many calls agree, or what differs in one that does not.
pub fn every_state(calls: &(dyn Calls + Sync), beside: Beside) -> Result<u64, String> {
    let parts = parts(beside);
    let next = AtomicUsize::new(0);
    let some = || {
        let mut agreed = 0;
        while let Some(part) = parts.get(next.fetch_add(1, Relaxed)) {
            agreed += part
                .run(calls)
                .inspect_err(|_| next.store(parts.len(), Relaxed))?;
        }
        Ok(agreed)
    };
    let threads = thread::available_parallelism().map_or(1, |n| n.get());
    thread::scope(|scope| {
        let running: Vec<_> = (0..threads).map(|_| scope.spawn(some)).collect();
        running.into_iter().map(|one| one.join().unwrap()).sum()
    })
}

#[cfg(test)]
mod tests {
    use super::*;

    /// How many calls there are, and how many units take every state.
    #[test]
    fn sizes() {
        for (beside, calls, most) in [
            (Beside::LookedAt, 111_003_264, 7),
            (Beside::Around, 1_726_417_152, 8),
        ] {
            let all = parts(beside);
            let states = all.iter().map(|part| part.states.end - part.states.start);
            assert_eq!(states.sum::<u64>(), calls);
            assert_eq!(all.iter().map(|part| part.units.len()).max(), Some(most));
        }
        assert_eq!(states()[..5], [0, 1 << 31, 1 << 15, READ & !127, 1]);
        assert_eq!(states()[11], READ);
    }
}
