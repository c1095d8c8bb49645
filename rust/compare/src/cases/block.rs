//! `evc_mc2`.

use super::one_plane::{random_samples, Put};
use super::*;
use crate::guard::{Guarded, Press, PRESSES};
use crate::lent::{old_samples, rust_plane, PlaneOf, Slot};
use crate::numbers::{block, count, one_in, seed, vector, Length};
use crate::numbers::{smaller_blocks, smaller_number, smaller_spare, smaller_vectors, spare};
use oracle::cases::BlockCall;
use oracle::model::{self, Block, Predicted, PRED_LEN};
use oracle::Picture;

/// The three planes of a picture.
pub type PictureOf = [PlaneOf; 3];

#[derive(Clone, Debug)]
pub struct Blocks {
    call: BlockCall,
    pictures: [PictureOf; 2],
    /// List 1 has the planes of list 0, the very same buffers.
    is_shared: bool,
    lengths: [[Length; 3]; 2],
    spare: [usize; 2],
    pred_lengths: [Length; 2],
    seed: u64,
    /// In a plane of a list.
    put: Option<(usize, usize, Put)>,
}

#[derive(Default)]
pub struct Lent {
    planes: [[Slot<PlaneOf>; 3]; 2],
    preds: [Guarded<u16>; 2],
    rust: [Option<(PictureOf, Picture)>; 2],
}

/// The planes of both lists; `which` says which picture each has.
fn lend<'a>(
    planes: &'a [[Slot<PlaneOf>; 3]; 2],
    press: Press,
    which: [usize; 2],
    lengths: &[[Length; 3]; 2],
) -> [[&'a [u16]; 3]; 2] {
    [0, 1].map(|list| [0, 1, 2].map(|k| planes[which[list]][k].lend(press, lengths[list][k])))
}

impl Lent {
    /// A list's picture for the Rust, the one that it has already if nothing about it changed.
    fn rust(&mut self, case: &Blocks, list: usize) -> Picture {
        let (which, pic) = (case.which(), case.call.b.pic);
        let made_for = &case.pictures[which[list]];
        let is_kept = case.lengths[list] == [Length::Whole; 3] && made_for[0].pic == pic;
        match &self.rust[which[list]] {
            Some((kept_for, picture)) if is_kept && kept_for == made_for => picture.clone(),
            _ => {
                let planes = lend(&self.planes, Press::Back, which, &case.lengths)[list];
                let picture = Picture::new([0, 1, 2].map(|k| rust_plane(k > 0, pic, planes[k])));
                if is_kept {
                    self.rust[which[list]] = Some((made_for.clone(), picture.clone()));
                }
                picture
            }
        }
    }
}

/// Three planes of a picture.
pub fn random_picture(pic: [u32; 2], rng: &mut Rng) -> PictureOf {
    let (samples, border) = random_samples(rng);
    [false, true, true].map(|chroma| PlaneOf::random(chroma, pic, samples, border, rng))
}

pub fn random_used(rng: &mut Rng) -> [bool; 2] {
    [[true, false], [false, true], [true, true], [true, true]][rng.below(4)]
}

impl Blocks {
    fn which(&self) -> [usize; 2] {
        [0, usize::from(!self.is_shared)]
    }

    /// This block, and planes for its picture.
    fn make_for(&mut self, b: Block) {
        self.call.b = b;
        for plane in self.pictures.iter_mut().flatten() {
            plane.pic = b.pic;
        }
    }

    fn old(&self) -> [Vec<u16>; 2] {
        [0, 1].map(|k| {
            let len = self.pred_lengths[k].of(PRED_LEN + self.spare[k]);
            old_samples(len, self.seed + k as u64)
        })
    }

    /// The number, the reports and both blocks that the model gives.
    fn compare(
        &self,
        calls: &dyn Calls,
        lent: &mut Lent,
    ) -> Result<(Predicted, [Vec<u16>; 2]), String> {
        let old = self.old();
        let mut last = None;
        for press in PRESSES {
            let planes = lend(&lent.planes, press, self.which(), &self.lengths);
            let lists = self.call.lists(planes);
            let [pred0, pred1] = &mut lent.preds;
            let pred0 = pred0.lend_mut(press, &old[0]);
            let pred1 = pred1.lend_mut(press, &old[1]);
            let [mut want0, mut want1] = old.clone();
            let answer = model::block(&self.call.b, &lists, &mut want0, &mut want1);
            let got = calls.mc2(&self.call.b, &lists, pred0, pred1);
            assert_same("code and reports", got, answer)?;
            assert_all_same("first block", pred0, &want0)?;
            assert_all_same("second block", pred1, &want1)?;
            last = Some((answer, [want0, want1]));
        }
        Ok(last.unwrap())
    }
}

impl Case for Blocks {
    const NAME: &'static str = "evc_mc2";
    type Lent = Lent;

    fn batch(pic: [u32; 2], rng: &mut Rng) -> Vec<Self> {
        let pictures = [(); 2].map(|_| random_picture(pic, rng));
        let mut one = || {
            let b = block(pic, rng);
            let mut mv = [(); 2].map(|_| vector(&b, rng));
            let mut poc = [(); 2].map(|_| count(rng));
            if one_in(4, rng) {
                poc[1] = poc[0];
            }
            if one_in(4, rng) {
                mv[1] = mv[0];
            }
            let used = match rng.below(24) {
                0 => [false; 2],
                _ => random_used(rng),
            };
            let put = one_in(6, rng).then(|| {
                let (list, plane) = (rng.below(2), rng.below(3));
                let c = model::OnePlane {
                    side: b.side.map(|n| (n & 127) >> (plane > 0) as u32),
                    ..model::OnePlane::over(plane > 0, pic)
                };
                (list, plane, Put::random(&c, rng))
            });
            let all_whole = !one_in(4, rng);
            let lengths = used.map(|used| {
                [(); 3].map(|_| match used || one_in(4, rng) {
                    true if all_whole => Length::Whole,
                    true => Length::random(rng),
                    false => Length::Empty,
                })
            });
            Blocks {
                call: BlockCall { b, used, mv, poc },
                pictures: pictures.clone(),
                is_shared: one_in(6, rng),
                lengths,
                spare: [(); 2].map(|_| spare(rng)),
                pred_lengths: [(); 2].map(|_| match one_in(4, rng) {
                    true => Length::random(rng),
                    false => Length::Whole,
                }),
                seed: seed(rng),
                put,
            }
        };
        (0..BATCH).map(|_| one()).collect()
    }

    fn run(&self, calls: &dyn Calls, lent: &mut Lent) -> Outcome {
        let which = self.which();
        for (slots, planes) in lent.planes.iter_mut().zip(&self.pictures) {
            for (slot, plane) in slots.iter_mut().zip(planes) {
                slot.hold(plane, calls);
            }
        }
        let put = self.put.and_then(|(list, plane, put)| {
            let b = &self.call.b;
            if model::is_picture_refused(b.pic) || b.is_block_refused() {
                return None;
            }
            let no_planes: [[&[u16]; 3]; 2] = [[&[]; 3]; 2];
            let c = self.call.lists(no_planes)[list].one_plane(b, plane);
            let slot = &mut lent.planes[which[list]][plane];
            let old = slot.put(put.index(&c)?, put.value)?;
            Some((list, plane, old))
        });
        let compared = self.compare(calls, lent);
        if let Some((list, plane, (index, old))) = put {
            lent.planes[which[list]][plane].put(index, old);
        }
        let (Predicted { code, moved }, want) = compared?;
        let in_domain = code == 0 && self.call.in_domain();
        if in_domain {
            // a list not in use has the other's picture, as a decoy
            let list_of = match self.call.used {
                [true, true] => [0, 1],
                [first, _] => [usize::from(!first); 2],
            };
            let [first, second] = list_of.map(|list| lent.rust(self, list));
            let [mut pred0, mut pred1] = self.old();
            let pictures = [&first, &second];
            self.call.by_the_rust(pictures, &mut pred0, &mut pred1);
            assert_all_same("the Rust's first block and the model's", &pred0, &want[0])?;
            assert_all_same("the Rust's second block and the model's", &pred1, &want[1])?;
            let changed = self.call.moved_by_the_rust();
            assert_same("what the Rust changed and the reports", changed, moved)?;
        }
        Ok(Seen { code, in_domain })
    }

    fn smaller(&self) -> Vec<Self> {
        let mut all = Vec::new();
        let mut with = |change: &dyn Fn(&mut Self)| {
            let mut case = self.clone();
            change(&mut case);
            all.push(case);
        };
        for list in (0..2).filter(|list| self.call.used[*list]) {
            with(&|case| case.call.used[list] = false);
        }
        let made_for = self.pictures[0][0].pic;
        for b in smaller_blocks(&self.call.b) {
            if self.call.b.pic == made_for && !model::is_picture_refused(b.pic) {
                with(&|case| case.make_for(b));
            }
            with(&|case| case.call.b = b);
        }
        let b = self.call.b;
        if b.pic != made_for && !model::is_picture_refused(b.pic) {
            with(&|case| case.make_for(b));
        }
        for list in 0..2 {
            for mv in smaller_vectors(self.call.mv[list]) {
                with(&|case| case.call.mv[list] = mv);
            }
            for count in smaller_number(self.call.poc[list]) {
                with(&|case| case.call.poc[list] = count);
            }
        }
        if self.put.is_some() {
            with(&|case| case.put = None);
        }
        if self.is_shared {
            with(&|case| case.is_shared = false);
        }
        for list in 0..2 {
            for k in 0..3 {
                for length in self.lengths[list][k].smaller() {
                    with(&|case| case.lengths[list][k] = length);
                }
                for plane in self.pictures[list][k].smaller() {
                    with(&|case| case.pictures[list][k] = plane.clone());
                }
            }
            for length in self.pred_lengths[list].smaller() {
                with(&|case| case.pred_lengths[list] = length);
            }
            for spare in smaller_spare(self.spare[list]) {
                with(&|case| case.spare[list] = spare);
            }
        }
        all
    }
}
