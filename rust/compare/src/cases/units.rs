//! `evc_get_avail_inter`, `evc_get_avail_inter_slice`, `evc_get_motion` and `evc_get_mv_dir`.

use super::*;
use crate::guard::{Guarded, PRESSES};
use crate::lent::{Motion, Slot, Words};
use crate::numbers::{block, count, one_in, wild, Length};
use crate::numbers::{smaller_blocks, smaller_number, smaller_spare};
use evc_inter::{EvcCandidates, EvcMv};
use oracle::cases::{neighbours, others_intra};
use oracle::model::{self, Block, Candidates, Collocated, Pocs};

/// Smaller blocks, each with the picture that a buffer was made for, which goes along with the block's.
fn smaller_with(b: &Block, made_for: [u32; 2]) -> Vec<(Block, [u32; 2])> {
    let mut all = Vec::new();
    for smaller in smaller_blocks(b) {
        if b.pic == made_for && !model::is_picture_refused(smaller.pic) {
            all.push((smaller, smaller.pic));
        }
        all.push((smaller, made_for));
    }
    if b.pic != made_for && !model::is_picture_refused(b.pic) {
        all.push((*b, b.pic));
    }
    all
}

#[derive(Clone, Debug)]
pub struct Flags {
    b: Block,
    words: Words,
    length: Length,
}

impl Case for Flags {
    const NAME: &'static str = "evc_get_avail_inter";
    type Lent = Slot<Words>;

    fn batch(pic: [u32; 2], rng: &mut Rng) -> Vec<Self> {
        let words = Words::random(pic, rng);
        let mut one = || Flags {
            b: block(words.pic, rng),
            words: words.clone(),
            length: Length::random(rng),
        };
        (0..BATCH).map(|_| one()).collect()
    }

    fn run(&self, calls: &dyn Calls, lent: &mut Slot<Words>) -> Outcome {
        lent.hold(&self.words, calls);
        let mut code = 0;
        for press in PRESSES {
            let words = lent.lend(press, self.length);
            let want = model::flags(&self.b, words);
            let got = calls.get_avail_inter(&self.b, words);
            assert_same("code and flags", got, want)?;
            code = want.0;
            if code == 0 {
                let rust = oracle::evc_get_avail_inter(&self.b, words);
                assert_same("the Rust's flags and the model's", rust, want.1)?;
            }
        }
        Ok(Seen {
            code,
            in_domain: code == 0,
        })
    }

    fn smaller(&self) -> Vec<Self> {
        let mut all = Vec::new();
        for (b, pic) in smaller_with(&self.b, self.words.pic) {
            let mut case = self.clone();
            (case.b, case.words.pic) = (b, pic);
            all.push(case);
        }
        for length in self.length.smaller() {
            let same = self.clone();
            all.push(Flags { length, ..same });
        }
        for words in self.words.smaller() {
            let same = self.clone();
            all.push(Flags { words, ..same });
        }
        all
    }
}

/// The same of a block in a slice.
#[derive(Clone, Debug)]
pub struct Slices {
    slice_num: u32,
    of: Flags,
}

/// As a rule that of a unit which a flag looks at.
fn random_slice_num(b: &Block, words: &[u32], rng: &mut Rng) -> u32 {
    let near: Vec<u32> = neighbours(b)
        .into_iter()
        .filter_map(|unit| words.get(unit))
        .map(|word| model::slice_number(*word))
        .collect();
    match rng.below(8) {
        0 => wild(127, rng),
        1 => rng.below(128) as u32,
        _ if near.is_empty() => rng.below(128) as u32,
        _ => near[rng.below(near.len())],
    }
}

/// The number returned, where the archive, the model and, of an accepted call, the Rust agree.
pub fn agreed_in_slice(
    calls: &dyn Calls,
    b: &Block,
    slice_num: u32,
    words: &[u32],
) -> Result<u32, String> {
    let want = model::slice_flags(b, slice_num, words);
    let got = calls.get_avail_inter_slice(b, slice_num, words);
    assert_same("code and flags", got, want)?;
    let (code, avail) = want;
    if code == 0 {
        let rust = oracle::evc_get_avail_inter(b, &others_intra(words, slice_num));
        assert_same("the Rust's flags and the model's", rust, avail)?;
    }
    Ok(code)
}

impl Case for Slices {
    const NAME: &'static str = "evc_get_avail_inter_slice";
    type Lent = Slot<Words>;

    fn batch(pic: [u32; 2], rng: &mut Rng) -> Vec<Self> {
        let all = Flags::batch(pic, rng);
        let words = all[0].words.words();
        let mut one = |of: Flags| Slices {
            slice_num: random_slice_num(&of.b, &words, rng),
            of,
        };
        all.into_iter().map(|of| one(of)).collect()
    }

    fn run(&self, calls: &dyn Calls, lent: &mut Slot<Words>) -> Outcome {
        let Flags { b, words, length } = &self.of;
        lent.hold(words, calls);
        let mut code = 0;
        for press in PRESSES {
            let words = lent.lend(press, *length);
            code = agreed_in_slice(calls, b, self.slice_num, words)?;
        }
        Ok(Seen {
            code,
            in_domain: code == 0,
        })
    }

    fn smaller(&self) -> Vec<Self> {
        let mut all = Vec::new();
        for of in self.of.smaller() {
            // the units of the block's slice may be of another one by then
            for slice_num in [self.slice_num, 0, 1] {
                let of = of.clone();
                all.push(Slices { slice_num, of });
            }
        }
        for slice_num in smaller_number(self.slice_num) {
            let of = self.of.clone();
            all.push(Slices { slice_num, of });
        }
        all
    }
}

#[derive(Clone, Debug)]
pub struct Motions {
    b: Block,
    lidx: u32,
    avail: u16,
    map: Motion,
    length: Length,
    has_col: bool,
    col: Motion,
    col_length: Length,
    old: Candidates,
}

#[derive(Default)]
pub struct Lent {
    map: Slot<Motion>,
    col: Slot<Motion>,
    cand: Guarded<EvcCandidates>,
}

fn record(c: Candidates) -> EvcCandidates {
    let [left, up, up_right, collocated] = c.mv.map(|[x, y]| EvcMv { x, y });
    let refi = c.refi;
    EvcCandidates {
        left,
        up,
        up_right,
        collocated,
        refi,
    }
}

fn candidates(c: EvcCandidates) -> Candidates {
    Candidates {
        mv: [c.left, c.up, c.up_right, c.collocated].map(|mv| [mv.x, mv.y]),
        refi: c.refi,
    }
}

/// Flags of neighbours inside the picture as a rule, other bits arbitrary.
fn random_avail(b: &Block, rng: &mut Rng) -> u16 {
    let mut avail = rng.below(65536) as u16;
    if !one_in(8, rng) {
        let [x, y, right, _] = b.edges();
        let is_last = right == i64::from(b.pic[0]);
        for (bit, is_outside) in [(1, x == 0), (0, y == 0), (6, y == 0 || is_last)] {
            if is_outside {
                avail &= !(1 << bit);
            }
        }
    }
    avail
}

impl Case for Motions {
    const NAME: &'static str = "evc_get_motion";
    type Lent = Lent;

    fn batch(pic: [u32; 2], rng: &mut Rng) -> Vec<Self> {
        let [map, col] = [(); 2].map(|_| Motion::random(pic, rng));
        let mut one = || {
            let b = block(pic, rng);
            let has_col = !one_in(4, rng);
            Motions {
                b,
                lidx: match rng.below(16) {
                    0 => wild(1, rng),
                    _ => rng.below(2) as u32,
                },
                avail: random_avail(&b, rng),
                map: map.clone(),
                length: Length::random(rng),
                has_col,
                col: col.clone(),
                col_length: match has_col || one_in(2, rng) {
                    true => Length::random(rng),
                    false => Length::Empty,
                },
                old: Candidates {
                    mv: [(); 4].map(|_| [(); 2].map(|_| rng.below(65536) as u16 as i16)),
                    refi: [(); 4].map(|_| rng.below(256) as u8 as i8),
                },
            }
        };
        (0..BATCH).map(|_| one()).collect()
    }

    fn run(&self, calls: &dyn Calls, lent: &mut Lent) -> Outcome {
        lent.map.hold(&self.map, calls);
        lent.col.hold(&self.col, calls);
        let mut code = 0;
        for press in PRESSES {
            let map = lent.map.lend(press, self.length);
            let col = Collocated {
                is_present: self.has_col,
                map: lent.col.lend(press, self.col_length),
            };
            let cand = &mut lent.cand.lend_mut(press, &[record(self.old)])[0];
            let (b, lidx, avail, old) = (&self.b, self.lidx, self.avail, self.old);
            let want = model::candidates(b, lidx, avail, map, col, old);
            let got = calls.get_motion(b, lidx, avail, map, col, cand);
            assert_same("code and record", (got, candidates(*cand)), want)?;
            code = want.0;
            if code == 0 {
                let col = self.has_col.then_some(col.map);
                let rust =
                    oracle::evc_get_motion(b, lidx as usize, avail, map, col, Some(map), old);
                assert_same("the Rust's record and the model's", rust, want.1)?;
            }
        }
        Ok(Seen {
            code,
            in_domain: code == 0,
        })
    }

    fn smaller(&self) -> Vec<Self> {
        let mut all = Vec::new();
        let mut with = |change: &dyn Fn(&mut Self)| {
            let mut case = self.clone();
            change(&mut case);
            all.push(case);
        };
        for (b, pic) in smaller_with(&self.b, self.map.pic) {
            with(&|case| (case.b, case.map.pic, case.col.pic) = (b, pic, pic));
        }
        for lidx in smaller_number(self.lidx) {
            with(&|case| case.lidx = lidx);
        }
        for bit in (0..16).filter(|bit| self.avail >> bit & 1 == 1) {
            with(&|case| case.avail &= !(1 << bit));
        }
        if self.has_col {
            with(&|case| (case.has_col, case.col_length) = (false, Length::Empty));
        }
        for length in self.length.smaller() {
            with(&|case| case.length = length);
        }
        for length in self.col_length.smaller() {
            with(&|case| case.col_length = length);
        }
        for spare in smaller_spare(self.map.spare) {
            with(&|case| case.map.spare = spare);
        }
        for spare in smaller_spare(self.col.spare) {
            with(&|case| case.col.spare = spare);
        }
        all
    }
}

#[derive(Clone, Debug)]
pub struct Directs {
    b: Block,
    pocs: Pocs,
    has_col: bool,
    col: Motion,
    col_length: Length,
}

impl Case for Directs {
    const NAME: &'static str = "evc_get_mv_dir";
    type Lent = Slot<Motion>;

    fn batch(pic: [u32; 2], rng: &mut Rng) -> Vec<Self> {
        let col = Motion::random(pic, rng);
        let mut one = || {
            let has_col = !one_in(8, rng);
            let [poc, poc0, poc1, mut list_poc0] = match rng.below(3) {
                // all allowed, more often than count gives
                0 => [(); 4].map(|_| rng.below(32768) as u32),
                _ => [(); 4].map(|_| count(rng)),
            };
            if one_in(4, rng) {
                list_poc0 = [poc1, poc1.wrapping_sub(1), poc1.wrapping_add(1)][rng.below(3)];
            }
            Directs {
                b: block(col.pic, rng),
                pocs: Pocs {
                    poc,
                    poc0,
                    poc1,
                    list_poc0,
                },
                has_col,
                col: col.clone(),
                col_length: match has_col || one_in(2, rng) {
                    true => Length::random(rng),
                    false => Length::Empty,
                },
            }
        };
        (0..BATCH).map(|_| one()).collect()
    }

    fn run(&self, calls: &dyn Calls, lent: &mut Slot<Motion>) -> Outcome {
        lent.hold(&self.col, calls);
        let mut code = 0;
        for press in PRESSES {
            let col = Collocated {
                is_present: self.has_col,
                map: lent.lend(press, self.col_length),
            };
            let want = model::direct(&self.b, self.pocs, col);
            let got = calls.get_mv_dir(&self.b, self.pocs, col);
            assert_same("code and vectors", got, want)?;
            code = want.0;
            if code == 0 {
                let col = self.has_col.then_some(col.map);
                let rust = oracle::evc_get_mv_dir(&self.b, self.pocs, col, None);
                assert_same("the Rust's vectors and the model's", rust, want.1)?;
            }
        }
        Ok(Seen {
            code,
            in_domain: code == 0,
        })
    }

    fn smaller(&self) -> Vec<Self> {
        let mut all = Vec::new();
        let mut with = |change: &dyn Fn(&mut Self)| {
            let mut case = self.clone();
            change(&mut case);
            all.push(case);
        };
        for (b, pic) in smaller_with(&self.b, self.col.pic) {
            with(&|case| (case.b, case.col.pic) = (b, pic));
        }
        for count in smaller_number(self.pocs.poc) {
            with(&|case| case.pocs.poc = count);
        }
        for count in smaller_number(self.pocs.poc0) {
            with(&|case| case.pocs.poc0 = count);
        }
        for count in smaller_number(self.pocs.poc1) {
            with(&|case| case.pocs.poc1 = count);
        }
        for count in smaller_number(self.pocs.list_poc0) {
            with(&|case| case.pocs.list_poc0 = count);
        }
        if self.has_col {
            with(&|case| (case.has_col, case.col_length) = (false, Length::Empty));
        }
        for length in self.col_length.smaller() {
            with(&|case| case.col_length = length);
        }
        for spare in smaller_spare(self.col.spare) {
            with(&|case| case.col.spare = spare);
        }
        all
    }
}
