//! Runs the cases of a call in a process of their own, so that a crash is one more way to fail, and
//! makes a case that fails smaller.

use crate::archive::Calls;
use crate::cases::{Case, BATCH};
use crate::numbers::picture;
use crate::sys::{self, End, PAGE, PROT_READ, PROT_WRITE};
use oracle::cases::Rng;
use std::sync::atomic::{AtomicU64, Ordering::Relaxed};

/// Numbers that a call can return: 0 to 13 by now.
const CODES: usize = 16;

/// What both processes see: the case at hand, and how many were seen by number and domain.
struct Progress {
    case: AtomicU64,
    counts: [[AtomicU64; 2]; CODES],
}

fn progress() -> &'static Progress {
    let page = sys::pages(PAGE, PROT_READ | PROT_WRITE, true);
    // SAFETY: a page of zeros is a Progress, and is never given back.
    unsafe { &*page.cast() }
}

/// How many cases by the number returned: beyond the domain, and in it, where the Rust was asked too.
pub type Counts = [[u64; 2]; CODES];

pub struct Failure<C> {
    pub number: u64,
    pub case: C,
    pub end: End,
    pub smaller: C,
}

/// Cases of a batch follow from the seed, the call's name and the batch's number.
fn batch<C: Case>(seed: u64, batch: u64) -> Vec<C> {
    let mut z = seed;
    for n in C::NAME.bytes().map(u64::from).chain([batch]) {
        z = (z ^ n).wrapping_add(0x9e37_79b9_7f4a_7c15);
        z = (z ^ z >> 30).wrapping_mul(0xbf58_476d_1ce4_e5b9);
        z = (z ^ z >> 27).wrapping_mul(0x94d0_49bb_1331_11eb);
        z ^= z >> 31;
    }
    let rng = &mut Rng(z | 1);
    if batch % C::LARGEST == C::LARGEST - 1 {
        let mut cases = C::batch([8128, 8128], rng);
        cases.truncate(4);
        return cases;
    }
    C::batch(picture(rng), rng)
}

/// A case by its number.
pub fn case<C: Case>(seed: u64, number: u64) -> Option<C> {
    let mut cases = batch::<C>(seed, number / BATCH as u64);
    let k = (number % BATCH as u64) as usize;
    (k < cases.len()).then(|| cases.swap_remove(k))
}

pub struct Run<'a> {
    pub calls: &'a dyn Calls,
    pub seed: u64,
    /// Seconds that a batch, or a case alone, may take.
    pub time_limit: u32,
}

impl Run<'_> {
    /// All cases from the first on, until `is_enough` says so of the batches, or one fails.
    pub fn all<C: Case>(&self, is_enough: impl Fn(u64) -> bool) -> (Counts, Option<Failure<C>>) {
        let progress = progress();
        let end = sys::in_a_process(|| {
            let mut lent = C::Lent::default();
            let mut number = 0;
            while !is_enough(number) {
                sys::time_limit(self.time_limit);
                for (k, case) in batch::<C>(self.seed, number).iter().enumerate() {
                    let at = number * BATCH as u64 + k as u64;
                    progress.case.store(at, Relaxed);
                    match case.run(self.calls, &mut lent) {
                        Ok(seen) => {
                            let counts = &progress.counts[seen.code as usize % CODES];
                            counts[usize::from(seen.in_domain)].fetch_add(1, Relaxed);
                        }
                        Err(_) => return 1,
                    }
                }
                number += 1;
            }
            0
        });
        let counts = progress.counts.each_ref();
        let counts = counts.map(|pair| pair.each_ref().map(|n| n.load(Relaxed)));
        if end == End::Code(0) {
            return (counts, None);
        }
        let number = progress.case.load(Relaxed);
        let case = case::<C>(self.seed, number).unwrap();
        let smaller = match end {
            sys::ALARM => case.clone(), // each try would take as long
            _ => self.shrink(case.clone()),
        };
        let failure = Failure {
            number,
            case,
            end,
            smaller,
        };
        (counts, Some(failure))
    }

    /// One case in a process; `say` is told what differs.
    pub fn one<C: Case>(&self, case: &C, say: impl Fn(&str)) -> End {
        sys::in_a_process(|| {
            sys::time_limit(self.time_limit);
            match case.run(self.calls, &mut C::Lent::default()) {
                Ok(_) => 0,
                Err(why) => {
                    say(&why);
                    1
                }
            }
        })
    }

    /// The smallest case that still fails, by one step after the other.
    fn shrink<C: Case>(&self, mut case: C) -> C {
        let fails = |case: &C| self.one(case, |_| ()) != End::Code(0);
        if !fails(&case) {
            return case; // it fails after others only
        }
        let mut tries = 0;
        while let Some(smaller) = case.smaller().into_iter().find(|smaller| {
            tries += 1;
            tries < 20_000 && fails(smaller)
        }) {
            case = smaller;
        }
        case
    }
}
