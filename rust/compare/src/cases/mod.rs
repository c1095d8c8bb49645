//! The cases of each call, and how each is compared.

pub mod block;
pub mod camera;
pub mod clipping;
pub mod demand3;
pub mod invisible;
pub mod one_plane;
pub mod padded;
pub mod padding;
pub mod replay;
pub mod trace;
pub mod units;

use crate::archive::Calls;
use oracle::cases::Rng;
use std::fmt::Debug;

/// What a case that agrees was: the number returned, and whether the Rust was asked too.
pub struct Seen {
    pub code: u32,
    pub in_domain: bool,
}

pub type Outcome = Result<Seen, String>;

pub trait Case: Clone + Debug {
    const NAME: &'static str;
    /// Every so many batches one with the largest picture, cut short.
    const LARGEST: u64 = 20_000;
    /// Buffers that are kept from case to case.
    type Lent: Default;
    /// Cases that share most of what is lent, made for this picture.
    fn batch(pic: [u32; 2], rng: &mut Rng) -> Vec<Self>;
    /// An error says what differs.
    fn run(&self, calls: &dyn Calls, lent: &mut Self::Lent) -> Outcome;
    /// Simpler cases, much simpler ones first. No endless chain of them.
    fn smaller(&self) -> Vec<Self>;
}

pub const BATCH: usize = 64;

pub fn assert_same<T: PartialEq + Debug>(what: &str, got: T, want: T) -> Result<(), String> {
    if got == want {
        return Ok(());
    }
    Err(format!("{what}: {got:?} instead of {want:?}"))
}

/// Whole buffers; the first difference and how many there are.
pub fn assert_all_same<T: PartialEq + Debug>(
    what: &str,
    got: &[T],
    want: &[T],
) -> Result<(), String> {
    if got == want {
        return Ok(());
    }
    assert_same(&format!("{what}, length"), got.len(), want.len())?;
    let differ = |k: &usize| got[*k] != want[*k];
    let k = (0..got.len()).find(differ).unwrap();
    let n = (0..got.len()).filter(differ).count();
    Err(format!(
        "{what} at {k}: {:?} instead of {:?}, {n} differ of {}",
        got[k],
        want[k],
        got.len()
    ))
}
