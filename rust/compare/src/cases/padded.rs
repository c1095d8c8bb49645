//! A call of `evc_mc2` over planes that `evc_pad` made, as demand 3's premises have it: what the laws are tried on.

use super::block::{random_used, PictureOf};
use super::*;
use crate::guard::{Guarded, Press};
use crate::lent::{old_samples, Border, PlaneOf, Samples, Slot};
use crate::numbers::{one_in, seed, vector, Length};
use crate::numbers::{smaller_blocks, smaller_number, smaller_vectors};
use oracle::cases::BlockCall;
use oracle::model::{self, Block, List, Moved, OFFSETS, PRED_LEN};

#[derive(Clone, Debug)]
pub struct PaddedCall {
    pub call: BlockCall,
    /// The picture of each list; with equal counts in use the same samples.
    pictures: [PictureOf; 2],
    press: Press,
    seed: u64,
}

/// The forms in which a picture is lent: straight, mirrored left to right, mirrored top to bottom.
pub const FORMS: [Option<usize>; 3] = [None, Some(0), Some(1)];

#[derive(Default)]
pub struct Lent {
    pictures: [[[Slot<PlaneOf>; 3]; 3]; 2],
    preds: [Guarded<u16>; 2],
}

/// The predicted samples of a block: w × h luma and both half-size chroma.
pub type Predicted = [Vec<u16>; 3];

pub fn predicted(b: &Block, pred: &[u16]) -> Predicted {
    let [w, h] = b.side.map(|n| n as usize);
    [0, 1, 2].map(|k| {
        let n = if k > 0 { w * h / 4 } else { w * h };
        pred[OFFSETS[k]..OFFSETS[k] + n].to_vec()
    })
}

impl Lent {
    /// The case's pictures, padded, in the first of the forms.
    pub fn hold(&mut self, case: &PaddedCall, forms: usize, calls: &dyn Calls) {
        for list in case.which() {
            for (form, mirrored) in FORMS[..forms].iter().enumerate() {
                for k in 0..3 {
                    let mut plane = case.pictures[list][k].clone();
                    plane.mirrored = *mirrored;
                    self.pictures[list][form][k].hold(&plane, calls);
                }
            }
        }
    }

    /// The case's lists with whole planes, straight.
    pub fn lists<'a>(&'a self, case: &PaddedCall) -> [List<'a>; 2] {
        case.call.lists(case.which().map(|list| {
            let slots = &self.pictures[list][0];
            [0, 1, 2].map(|k| slots[k].lend(case.press, Length::Whole))
        }))
    }

    /// The predicted samples of a call, which has to be accepted, and its reports; `which` says which
    /// picture each list has, in this form.
    pub fn predict(
        &mut self,
        calls: &dyn Calls,
        call: &BlockCall,
        which: [usize; 2],
        form: usize,
        case: &PaddedCall,
    ) -> Result<(Predicted, [Moved; 2]), String> {
        let planes = [0, 1].map(|list| {
            let slots = &self.pictures[which[list]][form];
            let length = if call.used[list] {
                Length::Whole
            } else {
                Length::Empty
            };
            [0, 1, 2].map(|k| slots[k].lend(case.press, length))
        });
        let old = old_samples(PRED_LEN, case.seed);
        let [pred0, pred1] = &mut self.preds;
        let pred0 = pred0.lend_mut(case.press, &old);
        let pred1 = pred1.lend_mut(case.press, &old);
        let answer = calls.mc2(&call.b, &call.lists(planes), pred0, pred1);
        assert_same("code", answer.code, 0)?;
        Ok((predicted(&call.b, pred0), answer.moved))
    }
}

impl PaddedCall {
    /// Cases over two pictures, or one of them for both lists.
    pub fn batch(
        pic: [u32; 2],
        random_block: fn([u32; 2], &mut Rng) -> Block,
        rng: &mut Rng,
    ) -> Vec<Self> {
        let pictures = [(); 2].map(|_| {
            let samples = [Samples::Allowed, Samples::Extreme][rng.below(2)];
            let chroma = [false, true, true];
            chroma.map(|chroma| PlaneOf::random(chroma, pic, samples, Border::Padded, rng))
        });
        let mut one = || {
            let b = random_block(pic, rng);
            let mut mv = [(); 2].map(|_| vector(&b, rng));
            if one_in(3, rng) {
                mv[1] = mv[0];
            }
            let mut poc = [rng.below(32768) as u32, rng.below(32768) as u32];
            let mut pictures = pictures.clone();
            if one_in(3, rng) {
                pictures[1] = pictures[0].clone();
                if one_in(2, rng) {
                    poc[1] = poc[0];
                }
            }
            if poc[0] == poc[1] {
                pictures[1] = pictures[0].clone();
            }
            PaddedCall {
                call: BlockCall {
                    b,
                    used: random_used(rng),
                    mv,
                    poc,
                },
                pictures,
                press: [Press::Front, Press::Back][rng.below(2)],
                seed: seed(rng),
            }
        };
        (0..BATCH).map(|_| one()).collect()
    }

    /// Which picture each list has: equal ones are lent from one place.
    pub fn which(&self) -> [usize; 2] {
        [0, usize::from(self.pictures[0] != self.pictures[1])]
    }

    /// A shrunk case has to keep the premises.
    pub fn is_due(&self) -> bool {
        let BlockCall { b, used, poc, .. } = &self.call;
        let is_accepted = !model::is_picture_refused(b.pic)
            && !b.is_block_refused()
            && (0..2).any(|k| used[k])
            && (0..2).all(|k| !used[k] || poc[k] <= 32767);
        let is_same = self.pictures[0] == self.pictures[1];
        is_accepted && (*used != [true, true] || poc[0] != poc[1] || is_same)
    }

    pub fn seen(&self) -> Seen {
        Seen {
            code: 0,
            in_domain: self.call.in_domain(),
        }
    }

    pub fn smaller(&self) -> Vec<Self> {
        let mut all = Vec::new();
        let mut with = |change: &dyn Fn(&mut Self)| {
            let mut case = self.clone();
            change(&mut case);
            all.push(case);
        };
        for list in (0..2).filter(|list| self.call.used[*list]) {
            with(&|case| case.call.used[list] = false);
        }
        for b in smaller_blocks(&self.call.b) {
            if !model::is_picture_refused(b.pic) {
                with(&|case| {
                    case.call.b = b;
                    for plane in case.pictures.iter_mut().flatten() {
                        plane.pic = b.pic;
                    }
                });
            }
        }
        for list in 0..2 {
            for mv in smaller_vectors(self.call.mv[list]) {
                with(&|case| case.call.mv[list] = mv);
            }
            for count in smaller_number(self.call.poc[list]) {
                with(&|case| case.call.poc[list] = count);
            }
        }
        if self.pictures[0] != self.pictures[1] {
            with(&|case| case.pictures[1] = case.pictures[0].clone());
        }
        for k in 0..3 {
            for samples in self.pictures[0][k].samples.smaller() {
                with(&|case| {
                    for list in 0..2 {
                        case.pictures[list][k].samples = samples;
                    }
                });
            }
        }
        if self.press == Press::Back {
            with(&|case| case.press = Press::Front);
        }
        all
    }
}

pub fn all_same(what: &str, got: &Predicted, want: &Predicted) -> Result<(), String> {
    for k in 0..3 {
        assert_all_same(&format!("{what}, plane {k}"), &got[k], &want[k])?;
    }
    Ok(())
}
