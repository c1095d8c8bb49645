//! `evc_mc_plane`.

use super::*;
use crate::guard::{Guarded, Press, PRESSES};
use crate::lent::{old_samples, rust_plane, Border, PlaneOf, Samples, Slot};
use crate::numbers::{one_in, seed, smaller_number, smaller_vectors, wild, Length};
use oracle::cases::{fractions, plane_sides, set_vectors, STARTS};
use oracle::model::{self, OnePlane};
use oracle::Plane;

/// A sample above 1023 of a plane, for one case alone: where, counted from the start of the window
/// of samples that are examined, and its value.
#[derive(Clone, Copy, Debug)]
pub struct Put {
    pub at: [i64; 2],
    pub value: u16,
}

impl Put {
    /// At the ends of the window, inside, outside.
    pub fn random(c: &OnePlane, rng: &mut Rng) -> Self {
        let at = c.side.map(|side| {
            let last = i64::from(side) + if c.chroma { 2 } else { 4 };
            [-1, 0, last, last + 1, rng.below(last as usize) as i64][rng.below(5)]
        });
        let value = [1024, 65535][rng.below(2)];
        Put { at, value }
    }

    /// The index in the plane, if the call has a window.
    pub fn index(&self, c: &OnePlane) -> Option<i64> {
        if model::is_picture_refused(c.pic) || c.is_block_refused() {
            return None;
        }
        let ([x, y], _) = c.window();
        Some(c.index(x + self.at[0], y + self.at[1]))
    }
}

/// Samples and borders for prediction: allowed ones, padded or not, as a rule.
pub fn random_samples(rng: &mut Rng) -> (Samples, Border) {
    use Samples::*;
    let samples = [Allowed, Extreme, Allowed, Extreme, Steps, Sparse][rng.below(6)];
    let border = match rng.below(8) {
        0 => Border::Has(Any),
        1 => Border::Has(Sparse),
        2 | 3 => Border::Has(Extreme),
        4 => Border::Has(Allowed),
        _ => Border::Padded,
    };
    (samples, border)
}

#[derive(Clone, Debug)]
pub struct Planes {
    c: OnePlane,
    plane: PlaneOf,
    length: Length,
    /// Samples of the block behind the needed ones.
    spare: usize,
    pred_length: Length,
    seed: u64,
    put: Option<Put>,
}

#[derive(Default)]
pub struct Lent {
    plane: Slot<PlaneOf>,
    pred: Guarded<u16>,
    rust: Option<(PlaneOf, Plane<u16>)>,
}

impl Planes {
    fn pred_len(&self) -> usize {
        let needed = if self.c.is_block_refused() {
            64
        } else {
            self.c.block_len()
        };
        self.pred_length.of(needed + self.spare)
    }

    fn compare(&self, calls: &dyn Calls, lent: &mut Lent) -> Result<(u32, Vec<u16>), String> {
        let old = old_samples(self.pred_len(), self.seed);
        let mut last = (0, Vec::new());
        for press in PRESSES {
            let plane = lent.plane.lend(press, self.length);
            let pred = lent.pred.lend_mut(press, &old);
            let mut want = old.clone();
            let code = model::one_plane(&self.c, plane, &mut want);
            let got = calls.mc_plane(&self.c, plane, pred);
            assert_same("code", got, code)?;
            assert_all_same("block", pred, &want)?;
            last = (code, want);
        }
        Ok(last)
    }
}

impl Case for Planes {
    const NAME: &'static str = "evc_mc_plane";
    type Lent = Lent;

    fn batch(pic: [u32; 2], rng: &mut Rng) -> Vec<Self> {
        let chroma = one_in(2, rng);
        let (samples, border) = random_samples(rng);
        let plane = PlaneOf::random(chroma, pic, samples, border, rng);
        let fractions = fractions(chroma);
        let mut one = || {
            let mut c = OnePlane::over(chroma, plane.pic);
            c.side = [(); 2].map(|_| plane_sides(chroma)[rng.below(5).min(rng.below(5))]);
            let starts = [(); 2].map(|_| STARTS[[0, 1, 1, 2][rng.below(4)]]);
            set_vectors(&mut c, fractions[rng.below(fractions.len())], starts, rng);
            if one_in(8, rng) {
                let near = [c.gmv, c.ori_mv][rng.below(2)];
                c.gmv = near.map(|v| v.wrapping_add(rng.below(9) as i16 - 4));
            }
            let put = one_in(6, rng).then(|| Put::random(&c, rng));
            if one_in(8, rng) {
                for _ in 0..1 + rng.below(3) {
                    let d = rng.below(2);
                    match rng.below(5) {
                        0 | 1 => c.pic[d] = wild(c.pic[d], rng),
                        2 | 3 => c.side[d] = wild(c.side[d], rng),
                        _ => c.chroma ^= true,
                    }
                }
            }
            Planes {
                c,
                plane: plane.clone(),
                length: Length::random(rng),
                spare: crate::numbers::spare(rng),
                pred_length: Length::random(rng),
                seed: seed(rng),
                put,
            }
        };
        (0..BATCH).map(|_| one()).collect()
    }

    fn run(&self, calls: &dyn Calls, lent: &mut Lent) -> Outcome {
        lent.plane.hold(&self.plane, calls);
        let put = self.put.and_then(|put| {
            let index = put.index(&self.c)?;
            lent.plane.put(index, put.value)
        });
        let compared = self.compare(calls, lent);
        if let Some((index, old)) = put {
            lent.plane.put(index, old);
        }
        let (code, want) = compared?;
        // in an accepted call the sample that was put is not in the window: the Rust does without it
        if code == 0 {
            let is_same = self.c.pic == self.plane.pic && self.c.chroma == self.plane.chroma;
            let made_for = (is_same && self.length == Length::Whole).then_some(&self.plane);
            if made_for.is_none() || lent.rust.as_ref().map(|(plane, _)| plane) != made_for {
                let samples = lent.plane.lend(Press::Back, self.length);
                let plane = rust_plane(self.c.chroma, self.c.pic, samples);
                let mut key = self.plane.clone();
                if made_for.is_none() {
                    key.seed = 0; // no case has it
                }
                lent.rust = Some((key, plane));
            }
            let (_, plane) = lent.rust.as_ref().unwrap();
            let mut rust = old_samples(self.pred_len(), self.seed);
            oracle::evc_mc_plane(&self.c, plane, &mut rust);
            assert_all_same("the Rust's block and the model's", &rust, &want)?;
        }
        Ok(Seen {
            code,
            in_domain: code == 0,
        })
    }

    fn smaller(&self) -> Vec<Self> {
        let mut all = Vec::new();
        let mut with = |change: &dyn Fn(&mut Self)| {
            let mut case = self.clone();
            change(&mut case);
            all.push(case);
        };
        for d in 0..2 {
            for side in smaller_number(self.c.pic[d]) {
                let mut pic = self.c.pic;
                pic[d] = side;
                if self.c.pic == self.plane.pic && !model::is_picture_refused(pic) {
                    with(&|case| (case.c.pic, case.plane.pic) = (pic, pic));
                }
                with(&|case| case.c.pic = pic);
            }
            for side in smaller_number(self.c.side[d]) {
                with(&|case| case.c.side[d] = side);
            }
        }
        if self.c.pic != self.plane.pic && !model::is_picture_refused(self.c.pic) {
            with(&|case| (case.plane.chroma, case.plane.pic) = (case.c.chroma, case.c.pic));
        }
        for mv in smaller_vectors(self.c.ori_mv) {
            with(&|case| case.c.ori_mv = mv);
        }
        for mv in smaller_vectors(self.c.gmv) {
            with(&|case| case.c.gmv = mv);
        }
        if self.put.is_some() {
            with(&|case| case.put = None);
        }
        for length in self.length.smaller() {
            with(&|case| case.length = length);
        }
        for length in self.pred_length.smaller() {
            with(&|case| case.pred_length = length);
        }
        for plane in self.plane.smaller() {
            with(&|case| case.plane = plane.clone());
        }
        for spare in crate::numbers::smaller_spare(self.spare) {
            with(&|case| case.spare = spare);
        }
        all
    }
}
