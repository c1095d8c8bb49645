//! One-plane prediction: `evc_mc_l` and `evc_mc_c` against `evc_mc_plane`.

use crate::cases::{on_plane, plane, CALLS, PATHS, SIDES};
use crate::measure::least;
use crate::report::*;
use crate::{limit, ours};
use oracle::model::OnePlane;
use oracle::Plane;
use std::hint::black_box;

/// By the sides of the block, of which chroma has half.
fn target(chroma: bool, filtered: [bool; 2], side: [u32; 2]) -> Option<&'static Target> {
    let pick = |luma, of_chroma| Some(if chroma { of_chroma } else { luma });
    match (filtered, side) {
        ([false, false], _) => Some(&WHOLE),
        (_, [4, 4]) => pick(&SMALL_LUMA, &SMALL_CHROMA),
        ([true, true], [8, 8] | [16, 16] | [64, 64]) => pick(&TWO_LUMA, &TWO_CHROMA),
        (_, [8, 8] | [16, 16] | [64, 64]) => pick(&ONE_LUMA, &ONE_CHROMA),
        _ => None,
    }
}

fn compare(calls: &[OnePlane], plane: &Plane<u16>) {
    for c in calls {
        let [mut original, mut ours, mut limit] = [[5000u16; 4096]; 3];
        oracle::evc_mc_plane(c, plane, &mut original);
        assert_eq!(ours::mc_plane(c, &plane.data, &mut ours), 0, "{c:?}");
        assert_eq!(limit::mc_plane(c, plane, true, &mut limit), 0, "{c:?}");
        assert!(original == ours, "ours differs: {c:?}");
        assert!(original == limit, "the limit differs: {c:?}");
    }
}

fn times(rounds: usize, calls: &[OnePlane], plane: &Plane<u16>) -> Prediction {
    let [mut a, mut b, mut c, mut d] = [[0u16; 4096]; 4];
    let [original, ours, limit, unexamined] = least(
        rounds,
        CALLS,
        [
            &mut || {
                for call in calls {
                    oracle::evc_mc_plane(black_box(call), plane, black_box(&mut a));
                }
            },
            &mut || {
                for call in calls {
                    black_box(ours::mc_plane(black_box(call), &plane.data, &mut b));
                }
            },
            &mut || {
                for call in calls {
                    black_box(limit::mc_plane(black_box(call), plane, true, &mut c));
                }
            },
            &mut || {
                for call in calls {
                    black_box(limit::mc_plane(black_box(call), plane, false, &mut d));
                }
            },
        ],
    );
    Prediction {
        original,
        ours,
        limit,
        unexamined,
    }
}

pub fn run(report: &mut Report) {
    for chroma in [false, true] {
        let kind = if chroma { "chroma" } else { "luma" };
        let plane = plane(chroma, [256; 2], 7);
        let mut rows = Vec::new();
        for (path, filtered) in PATHS {
            for side in SIDES {
                let [w, h] = side.map(|side| if chroma { side / 2 } else { side });
                let what = format!("{kind} {path} {w}x{h}");
                if !report.wants(&what) {
                    continue;
                }
                let calls = on_plane(chroma, filtered, [w, h]);
                compare(&calls, &plane);
                let times = times(report.rounds, &calls, &plane);
                let target = target(chroma, filtered, side);
                let limit = if chroma { &LIMIT_CHROMA } else { &LIMIT_LUMA };
                rows.push(times.row(report, &what, w * h, target, limit));
            }
        }
        let title = format!("One plane, {kind}: evc_mc_plane, ns a call");
        report.table(&title, &PREDICTION, &rows);
    }
}
