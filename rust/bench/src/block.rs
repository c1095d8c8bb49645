//! Block prediction: `evc_mc2` of both.

use crate::cases::{blocks, picture, samples, CALLS, PATHS, PREDICTED_LEN, SIDES};
use crate::measure::least;
use crate::ours::List;
use crate::report::*;
use crate::{limit, ours};
use oracle::model::{Block, Mv, Predicted};
use oracle::{Picture, Plane, References};
use std::hint::black_box;

pub const POCS: [u32; 2] = [8, 16];

fn target(filtered: [bool; 2], side: [u32; 2]) -> Option<&'static Target> {
    match (filtered, side) {
        ([false, false], _) => Some(&WHOLE),
        ([true, true], [4, 4]) => Some(&SMALL_BLOCK),
        ([true, true], [8, 8] | [16, 16] | [64, 64]) => Some(&BLOCK),
        _ => None,
    }
}

/// Two pictures, for each of the contenders; the planes of the original are its own.
pub struct Pictures {
    pub original: References,
    pub planes: [[Plane<u16>; 3]; 2],
}

impl Pictures {
    pub fn new(pic: [u32; 2]) -> Self {
        let make = || [100, 200].map(|seed| picture(pic, seed));
        let [first, second] = make().map(Picture::new);
        Pictures {
            original: References::new([&first, &second], POCS),
            planes: make(),
        }
    }

    pub fn ours(
        &self,
        b: &Block,
        used: [bool; 2],
        mv: [Mv; 2],
        pred: &mut [Vec<u16>; 2],
    ) -> Predicted {
        let lists = [0, 1].map(|k| List {
            used: used[k],
            mv: mv[k],
            poc: POCS[k],
            planes: samples(&self.planes[k]),
        });
        let [pred0, pred1] = pred;
        ours::mc2(b, &lists, pred0, pred1)
    }

    pub fn original(&self, b: &Block, used: [bool; 2], mv: [Mv; 2], pred: &mut [Vec<u16>; 2]) {
        let [pred0, pred1] = pred;
        self.original.evc_mc2(b, used, mv, pred0, pred1);
    }

    /// With the first `lists` in use.
    fn limit(
        &self,
        b: &Block,
        lists: usize,
        mv: [Mv; 2],
        examine: bool,
        pred: &mut [Vec<u16>; 2],
    ) -> u32 {
        let all = [0, 1].map(|k| (mv[k], &self.planes[k]));
        let [pred0, pred1] = pred;
        limit::mc2(b, &all[..lists], examine, pred0, pred1)
    }
}

pub fn lent() -> [Vec<u16>; 2] {
    [vec![5000; PREDICTED_LEN], vec![6000; PREDICTED_LEN]]
}

fn compare(pictures: &Pictures, calls: &[(Block, [Mv; 2])], lists: usize) {
    let used = [true, lists == 2];
    for (b, mv) in calls {
        let [mut original, mut ours, mut limit] = [lent(), lent(), lent()];
        pictures.original(b, used, *mv, &mut original);
        assert_eq!(pictures.ours(b, used, *mv, &mut ours).code, 0, "{b:?}");
        assert_eq!(pictures.limit(b, lists, *mv, true, &mut limit), 0, "{b:?}");
        assert!(original == ours, "ours differs: {b:?} {mv:?}");
        assert!(original == limit, "the limit differs: {b:?} {mv:?}");
    }
}

fn times(
    rounds: usize,
    pictures: &Pictures,
    calls: &[(Block, [Mv; 2])],
    lists: usize,
) -> Prediction {
    let used = [true, lists == 2];
    let [mut a, mut b, mut c, mut d] = [lent(), lent(), lent(), lent()];
    let [original, ours, limit, unexamined] = least(
        rounds,
        CALLS,
        [
            &mut || {
                for (block, mv) in calls {
                    pictures.original(black_box(block), used, *mv, &mut a);
                }
            },
            &mut || {
                for (block, mv) in calls {
                    black_box(pictures.ours(black_box(block), used, *mv, &mut b));
                }
            },
            &mut || {
                for (block, mv) in calls {
                    black_box(pictures.limit(black_box(block), lists, *mv, true, &mut c));
                }
            },
            &mut || {
                for (block, mv) in calls {
                    black_box(pictures.limit(black_box(block), lists, *mv, false, &mut d));
                }
            },
        ],
    );
    Prediction {
        original,
        ours,
        limit,
        unexamined,
    }
}

pub fn run(report: &mut Report) {
    let pictures = Pictures::new([256; 2]);
    for (lists, kind) in [(1, "one list"), (2, "two lists")] {
        let mut rows = Vec::new();
        for (path, filtered) in PATHS {
            for side @ [w, h] in SIDES {
                let what = format!("{kind} {path} {w}x{h}");
                if !report.wants(&what) {
                    continue;
                }
                let calls = blocks(filtered, side);
                compare(&pictures, &calls, lists);
                let times = times(report.rounds, &pictures, &calls, lists);
                let target = target(filtered, side);
                rows.push(times.row(report, &what, w * h * 3 / 2, target, &LIMIT_BLOCK));
            }
        }
        let title = format!("Block prediction, {kind}: evc_mc2, ns a call");
        report.table(&title, &PREDICTION, &rows);
    }
}
