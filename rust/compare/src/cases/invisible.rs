//! Document 02, W6: when the split into quarters and clipping are invisible, by `evc_pad` and `evc_mc2`; 'need no
//! clipping' is that W2's reports have nothing moved.

use super::padded::{Lent, PaddedCall, Predicted};
use super::*;
use crate::numbers::one_in;
use oracle::cases::{random_block, sides, BlockCall};
use oracle::model::{self, Block, NOTHING_MOVED};

/// W6 claims it "for sides of at most 32"; a test claims more, and that is noticed.
pub type Invisible = UpTo<32>;

#[derive(Clone, Debug)]
pub struct UpTo<const SIDE: u32>(PaddedCall);

/// The samples of a plane of the block that lie in quarter n.
pub fn part(b: &Block, n: usize, k: usize, planes: &Predicted) -> Vec<u16> {
    let [w, h] = b.side.map(|side| side as usize >> usize::from(k > 0));
    let rows = planes[k].chunks(w).skip(n / 2 * h / 2).take(h / 2);
    let half = rows.map(|row| &row[n % 2 * w / 2..][..w / 2]);
    half.flatten().copied().collect()
}

/// The longest side that the picture allows is as likely as all others.
fn long_block(pic: [u32; 2], rng: &mut Rng) -> Block {
    let mut b = random_block(pic, rng);
    for d in 0..2 {
        if one_in(2, rng) {
            b.side[d] = *sides(pic[d] as i16).last().unwrap() as u32;
            b.place[d] = 4 * rng.below((pic[d] - b.side[d]) as usize / 4 + 1) as u32;
        }
    }
    b
}

impl<const SIDE: u32> Case for UpTo<SIDE> {
    const NAME: &'static str = "invisible";
    type Lent = Lent;

    fn batch(pic: [u32; 2], rng: &mut Rng) -> Vec<Self> {
        // half of the picture's sides have room for a block's side of 64
        let pic = pic.map(|n| if one_in(2, rng) { n.max(64) } else { n });
        let cases = PaddedCall::batch(pic, long_block, rng);
        cases.into_iter().map(UpTo).collect()
    }

    fn run(&self, calls: &dyn Calls, lent: &mut Lent) -> Outcome {
        let UpTo(case) = self;
        if !case.is_due() {
            return Ok(case.seen());
        }
        lent.hold(case, 1, calls);
        let b = &case.call.b;
        let (whole, moved) = lent.predict(calls, &case.call, case.which(), 0, case)?;
        let lists = lent.lists(case);
        let is_small = b.side.iter().all(|side| *side <= SIDE);
        let is_unmoved = moved == [NOTHING_MOVED; 2];
        let is_claimed =
            [0, 1, 2].map(|k| is_small || is_unmoved || b.is_clipping_hidden(&lists, k));
        let exact = model::exact_block(b, &lists);
        for k in (0..3).filter(|k| is_claimed[*k]) {
            assert_all_same(&format!("unclipped, plane {k}"), &whole[k], &exact[k])?;
        }
        for (n, b) in b.quarters().into_iter().flatten().enumerate() {
            let call = BlockCall { b, ..case.call };
            let (quarter, moved) = lent.predict(calls, &call, case.which(), 0, case)?;
            if is_unmoved {
                assert_same(&format!("quarter {n}, reports"), moved, [NOTHING_MOVED; 2])?;
            }
            for k in (0..3).filter(|k| is_claimed[*k]) {
                let want = part(&case.call.b, n, k, &whole);
                assert_all_same(&format!("quarter {n}, plane {k}"), &quarter[k], &want)?;
            }
        }
        Ok(case.seen())
    }

    fn smaller(&self) -> Vec<Self> {
        self.0.smaller().into_iter().map(UpTo).collect()
    }
}

#[cfg(test)]
mod tests {
    use super::super::padded::predicted;
    use super::*;
    use crate::archive::Archive;
    use oracle::cases::limits;
    use oracle::model::{OnePlane, PRED_LEN};
    use std::collections::BTreeSet;

    /// A picture of 0 and 1023 alone, padded.
    fn picture(pic: [u32; 2], rng: &mut Rng) -> Predicted {
        [false, true, true].map(|chroma| {
            let len = OnePlane::over(chroma, pic).plane_len();
            let mut plane: Vec<u16> = (0..len).map(|_| 1023 * rng.below(2) as u16).collect();
            assert_eq!(Archive.pad(chroma, pic, &mut plane), 0);
            plane
        })
    }

    /// The call by list 0 alone, and the general filter at the exact place.
    fn predict(b: Block, mv: [i16; 2], planes: &Predicted) -> [Predicted; 2] {
        let call = BlockCall {
            b,
            used: [true, false],
            mv: [mv; 2],
            poc: [0; 2],
        };
        let planes = [0, 1, 2].map(|k| &planes[k][..]);
        let lists = call.lists([planes; 2]);
        let [mut pred0, mut pred1] = [(); 2].map(|_| vec![7; PRED_LEN]);
        let answer = Archive.mc2(&b, &lists, &mut pred0, &mut pred1);
        // a report is a component that is moved, by however little
        let moved = [0, 1].map(|d| b.moved_by(mv, d) > 0);
        assert_eq!((answer.code, answer.moved[0].map(|n| n > 0)), (0, moved));
        [predicted(&b, &pred0), model::exact_block(&b, &lists)]
    }

    /// Every side at every place along a picture's side, with every vector around both limits: luma parts
    /// from the exact place, and from its quarters, along a side of 64 only, one to three quarter samples
    /// past a limit only, and there it does; chroma never.
    #[test]
    fn where_clipping_shows() {
        let mut rng = Rng(61);
        let (mut calls, mut shown) = (0, BTreeSet::new());
        for (d, along) in [(0, 64), (0, 68), (1, 64), (1, 68)] {
            let mut pic = [8, 8];
            pic[d] = along as u32;
            let planes = picture(pic, &mut rng);
            let all_sides = sides(along).into_iter();
            let blocks =
                all_sides.flat_map(|side| (0..=along - side).step_by(4).map(move |x| (x, side)));
            for (place, side) in blocks {
                let mut b = Block {
                    pic,
                    place: [0, 0],
                    side: [8, 8],
                };
                (b.place[d], b.side[d]) = (place as u32, side as u32);
                let (low, high) = limits(along, place, side);
                for (is_high, limit) in [(false, low), (true, high)] {
                    // the other component: every phase, and one that clipping moves
                    for (near, other) in (-6..=6).flat_map(|n| [0, 1, 2, 3, -259].map(|o| (n, o))) {
                        let mut mv = [other; 2];
                        mv[d] = (limit + near) as i16;
                        let [whole, exact] = predict(b, mv, &planes);
                        assert_eq!(whole[1..], exact[1..], "chroma: {b:?} {mv:?}");
                        let shows = whole[0] != exact[0];
                        if shows {
                            shown.insert((d, is_high, side, b.moved_by(mv, d)));
                        }
                        let quarters = b.quarters().into_iter().flatten().enumerate();
                        let parts = quarters.map(|(n, quarter)| {
                            let [got, _] = predict(quarter, mv, &planes);
                            [0, 1, 2].map(|k| got[k] == part(&b, n, k, &whole))
                        });
                        let parts: Vec<_> = parts.collect();
                        assert!(parts.iter().all(|same| same[1] && same[2]), "{b:?} {mv:?}");
                        let splits = parts.iter().any(|same| !same[0]);
                        assert_eq!(splits, shows, "{b:?} {mv:?}");
                        calls += 1;
                    }
                }
            }
        }
        let places = (54 + 59) * 2; // of all sides, in 64 and in 68 samples, across and down
        assert_eq!(calls, places * 2 * 13 * 5);
        let expected = [0, 1].into_iter().flat_map(|d| {
            [false, true]
                .into_iter()
                .flat_map(move |is_high| (1..=3).map(move |n| (d, is_high, 64, n)))
        });
        assert_eq!(shown, expected.collect());
    }
}
