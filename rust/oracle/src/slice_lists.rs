//! The lists of calls for the flags in slices with their answers, in the records that crates/slice_lists reads. Accepted
//! calls have the Rust's answers, over words in which each unit of another slice is intra; refusals, which the Rust does
//! not have, those of document 02's W5 (`model`). README.md has the layout.

use crate::cases::{blocks, neighbours, next_to, others_intra, word, Rng};
use crate::lists::{narrow, spaced, List};
use crate::model::{self, Block};
use crate::util_lists::{edge_blocks, enough, faulty, some_blocks, GOOD, HUGE, MAX_UNITS};

struct Case {
    b: Block,
    slice_num: u32,
    words: [u32; MAX_UNITS],
    words_len: usize,
}

impl Case {
    fn record(&self) -> Vec<u16> {
        let [[pic_w, pic_h], [x, y], [w, h]] = [self.b.pic, self.b.place, self.b.side];
        let mut record = [pic_w, pic_h, x, y, w, h, self.slice_num]
            .map(narrow)
            .to_vec();
        record.push(self.words_len as u16);
        for word in self.words {
            record.extend([word as u16, (word >> 16) as u16]);
        }
        record
    }

    /// The number returned and the flags.
    fn answer(&self) -> [u32; 2] {
        let words = &self.words[..self.words_len];
        let (code, avail) = model::slice_flags(&self.b, self.slice_num, words);
        if code == 0 {
            let words = others_intra(words, self.slice_num);
            let rust = crate::evc_get_avail_inter(&self.b, &words);
            assert_eq!(avail, rust, "document 02 and the Rust");
        }
        [code, u32::from(avail)]
    }
}

// ---- accepted calls

const NUMBERS: [u32; 4] = [0, 1, 64, 127];

/// The bits that no flag looks at: none, the one behind the slice number, or all.
const OTHER_BITS: [u32; 3] = [0, 1 << 7, !(1 << 31 | 1 << 15 | 127)];

/// A word of the slice by its state: bit 0 coded, bit 1 intra.
fn word_in(slice_num: u32, state: usize, rng: &mut Rng) -> u32 {
    word(state as u8) | OTHER_BITS[rng.below(3)] | slice_num
}

/// Each unit that a flag looks at in each of the four states, of the block's slice and of another one, in 3 by 3 units
/// both for each state and else one by turns: among units of its slice that are all coded and not intra, or among random
/// ones. The block's own units, and the words behind the needed ones, are any.
fn states() -> Vec<Case> {
    let mut rng = Rng(118);
    let mut list = Vec::new();
    for b in some_blocks() {
        let units = neighbours(&b);
        for k in 0..8 * units.len() {
            let (at, state, is_other) = (k / 8, k / 2 % 4, k % 2 == 1);
            if b.pic != GOOD.pic && is_other != ((at + state) % 2 == 1) {
                continue;
            }
            let slice_num = NUMBERS[rng.below(4)];
            let is_random = rng.below(2) == 1;
            let mut words = [0; MAX_UNITS].map(|_: u32| rng.below(1 << 32) as u32);
            for unit in &units {
                words[*unit] = match is_random {
                    true if rng.below(3) == 0 => words[*unit],
                    true => word_in(slice_num, rng.below(4), &mut rng),
                    false => word_in(slice_num, 1, &mut rng),
                };
            }
            let number = match is_other {
                true => next_to(slice_num, &mut rng),
                false => slice_num,
            };
            words[units[at]] = word_in(number, state, &mut rng);
            list.push(Case {
                b,
                slice_num,
                words,
                words_len: enough(b.units(), MAX_UNITS, &mut rng),
            });
        }
    }
    list
}

/// A picture of 4 by 4 units in four slices, all coded and not intra: each block, by the slice of its first unit.
fn four_slices(slice_of: fn(usize, usize) -> usize) -> Vec<Case> {
    let case = |b: Block| {
        let slice = |unit: usize| slice_of(unit % 4, unit / 4) as u32;
        let [x, y, ..] = b.edges();
        let mut words = [word(1); MAX_UNITS];
        for (unit, word) in words.iter_mut().enumerate() {
            *word |= slice(unit);
        }
        Case {
            b,
            slice_num: slice(b.unit_at(x, y).unwrap()),
            words,
            words_len: MAX_UNITS,
        }
    };
    blocks([4, 4]).into_iter().map(case).collect()
}

/// "Several depositors code four slices a picture": by rows, by five units or fewer behind each other, by squares.
fn pictures() -> Vec<Case> {
    let mut list = four_slices(|_, y| y);
    list.extend(four_slices(|x, y| (4 * y + x + 2) / 5));
    list.extend(four_slices(|x, y| 2 * (y / 2) + x / 2));
    list
}

/// docs/DIFFERENCES.md: the upper row of units is slice 0, the lower one slice 1.
fn gap() -> Case {
    let mut words = [0; MAX_UNITS];
    words[..4].copy_from_slice(&[word(1), word(1), word(1) | 1, word(1) | 1]);
    Case {
        b: blocks([2, 2])[4],
        slice_num: 1,
        words,
        words_len: 4,
    }
}

// ---- refusals, and the accepted calls next to them

/// Units that are all coded and not intra, of the slice whose number the low seven bits are.
fn of_one_slice(b: Block, slice_num: u32, words_len: usize) -> Case {
    Case {
        b,
        slice_num,
        words: [word(1) | slice_num % 128; MAX_UNITS],
        words_len,
    }
}

fn refusals() -> Vec<Case> {
    let edges = edge_blocks().into_iter();
    let edges = edges.map(|b| of_one_slice(b, 5, MAX_UNITS));
    let lengths = [0, 1, 8, 9, 10, 16].iter();
    let lengths = lengths.map(|n| of_one_slice(GOOD, 127, *n));
    let numbers = [126, 127, 128, 129, 191, 255, 256, 32768, 65279].iter();
    let numbers = numbers.chain(&HUGE).map(|n| of_one_slice(GOOD, *n, 9));
    // every set of faults: the first check that refuses wins
    let faults = (0..16).flat_map(|k| {
        let refused = [128, 0xffff_ff80].iter().filter(move |_| k & 8 != 0);
        let accepted = [0, 127].iter().filter(move |_| k & 8 == 0);
        let words_len = if k & 4 != 0 { 8 } else { 9 };
        let case = move |n: &u32| of_one_slice(faulty(k), *n, words_len);
        refused.chain(accepted).map(case)
    });
    edges.chain(lengths).chain(numbers).chain(faults).collect()
}

// ---- files

fn program(cases: impl IntoIterator<Item = Case>) -> [Vec<u8>; 2] {
    let mut list = List::default();
    for case in cases {
        list.record(&case.record());
        list.answer(&spaced(&case.answer()));
    }
    list.done()
}

/// Records and answers of accepted calls, by the Rust.
pub fn accepted() -> [Vec<u8>; 2] {
    let cases = std::iter::once(gap()).chain(pictures()).chain(states());
    program(cases)
}

/// Records and answers of refusals and of the accepted calls next to them, by document 02.
pub fn bad() -> [Vec<u8>; 2] {
    program(refusals())
}
