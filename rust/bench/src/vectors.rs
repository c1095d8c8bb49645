//! Flags, candidates, direct vectors, clipping; flags by slice.

use crate::cases::{Numbers, CALLS};
use crate::measure::least;
use crate::ours::{self, Record};
use crate::report::{number, Report, Target, SLICES, VECTORS};
use oracle::cases::{moved_between, others_intra};
use oracle::model::{Block, Candidates, Mv, Pocs};
use oracle::{Direct, Motion, Words};
use std::hint::black_box;

const PIC: [u32; 2] = [256; 2];
const UNITS: usize = 64 * 64;

/// Blocks of every size anywhere in the picture, its edges too.
fn blocks() -> Vec<Block> {
    let mut numbers = Numbers::new(3);
    let mut block = || {
        let side = [0; 2].map(|_| 4 << numbers.below(5));
        let place = side.map(|side| 4 * numbers.below((256 - side) / 4 + 1));
        Block {
            pic: PIC,
            place,
            side,
        }
    };
    (0..CALLS).map(|_| block()).collect()
}

/// Ours against the original, or against another call of ours.
fn row(
    report: &mut Report,
    target: &Target,
    what: &str,
    other: &mut dyn FnMut(),
    ours: &mut dyn FnMut(),
) -> Vec<String> {
    let [other, ours] = least(report.rounds, CALLS, [other, ours]);
    vec![
        what.to_string(),
        number(other),
        number(ours),
        format!("{:.2}", ours / other),
        report.judge(Some(target), what, ours / other),
    ]
}

/// Three units in four are coded, one in four is intra.
fn words() -> Vec<u32> {
    let mut numbers = Numbers::new(4);
    let mut word =
        || u32::from(numbers.below(4) > 0) << 31 | u32::from(numbers.below(4) == 0) << 15;
    (0..UNITS).map(|_| word()).collect()
}

fn flags(report: &mut Report) -> Vec<String> {
    let (blocks, words) = (blocks(), words());
    let original = Words::new(&words);
    for b in &blocks {
        let want = (0, original.evc_get_avail_inter(b));
        assert_eq!(ours::avail_inter(b, &words), want, "{b:?}");
    }
    row(
        report,
        &VECTORS,
        "flags",
        &mut || {
            for b in &blocks {
                black_box(original.evc_get_avail_inter(black_box(b)));
            }
        },
        &mut || {
            for b in &blocks {
                black_box(ours::avail_inter(black_box(b), &words));
            }
        },
    )
}

/// A picture that is cut into slices of the same number of rows. A block is of the slice in which it
/// begins, and the call is held to the original over words that have the other slices intra.
fn flags_by_slice(report: &mut Report, what: &str, slices: u32) -> Vec<String> {
    let slice_num = |row: u32| row * slices / (PIC[1] / 4);
    let mut words = words();
    for (row, words) in (0..).zip(words.chunks_mut(PIC[0] as usize / 4)) {
        words.iter_mut().for_each(|word| *word |= slice_num(row));
    }
    let of_block = |b: &Block| (*b, slice_num(b.place[1] / 4));
    let calls: Vec<(Block, u32)> = blocks().iter().map(of_block).collect();
    for (b, slice_num) in &calls {
        let original = Words::new(&others_intra(&words, *slice_num));
        let want = (0, original.evc_get_avail_inter(b));
        let got = ours::avail_inter_slice(b, *slice_num, &words);
        assert_eq!(got, want, "{b:?}");
    }
    row(
        report,
        &SLICES,
        what,
        &mut || {
            for (b, _) in &calls {
                black_box(ours::avail_inter(black_box(b), &words));
            }
        },
        &mut || {
            for (b, slice_num) in &calls {
                black_box(ours::avail_inter_slice(black_box(b), *slice_num, &words));
            }
        },
    )
}

/// Vectors of a motion map.
fn map(seed: u32) -> Vec<i16> {
    let mut numbers = Numbers::new(seed);
    (0..4 * UNITS)
        .map(|_| numbers.below(2048) as i16 - 1024)
        .collect()
}

fn candidates(report: &mut Report) -> Vec<String> {
    let (map, col) = (map(5), map(6));
    let words = Words::new(&words());
    let calls: Vec<(Block, u16)> = blocks()
        .iter()
        .map(|b| (*b, words.evc_get_avail_inter(b)))
        .collect();
    let original = Motion::new(0, &map, Some(&col), None);
    let mut cand = Candidates {
        mv: [[77; 2]; 4],
        refi: [-1; 4],
    };
    let mut record = Record::new(&cand);
    for (b, avail) in &calls {
        original.evc_get_motion(b, *avail, &mut cand);
        assert_eq!(ours::motion(b, *avail, &map, &col, &mut record), 0);
        assert_eq!(record.candidates(), cand, "{b:?}");
    }
    row(
        report,
        &VECTORS,
        "candidates",
        &mut || {
            for (b, avail) in &calls {
                original.evc_get_motion(black_box(b), *avail, black_box(&mut cand));
            }
        },
        &mut || {
            for (b, avail) in &calls {
                black_box(ours::motion(
                    black_box(b),
                    *avail,
                    &map,
                    &col,
                    black_box(&mut record),
                ));
            }
        },
    )
}

fn direct(report: &mut Report) -> Vec<String> {
    let (blocks, col) = (blocks(), map(6));
    let pocs = Pocs {
        poc: 4,
        poc0: 0,
        poc1: 8,
        list_poc0: 1,
    };
    let original = Direct::new(pocs, Some(&col), None);
    for b in &blocks {
        let want = (0, original.evc_get_mv_dir(b));
        assert_eq!(ours::mv_dir(b, &pocs, &col), want, "{b:?}");
    }
    row(
        report,
        &VECTORS,
        "direct vectors",
        &mut || {
            for b in &blocks {
                black_box(original.evc_get_mv_dir(black_box(b)));
            }
        },
        &mut || {
            for b in &blocks {
                black_box(ours::mv_dir(black_box(b), black_box(&pocs), &col));
            }
        },
    )
}

/// `mv_clip` of the original clips list 0 alone here.
fn original_clip(b: &Block, mv: Mv) -> Mv {
    let [[pic_w, pic_h], [x, y], [w, h]] = [b.pic, b.place, b.side].map(|n| n.map(|n| n as i16));
    oracle::mv_clip(x, y, pic_w, pic_h, w, h, mv)
}

/// Vectors within `reach` quarter samples each way.
fn clipping(report: &mut Report, what: &str, reach: i16) -> Vec<String> {
    let mut numbers = Numbers::new(7);
    let mut mv = || [0; 2].map(|_| numbers.below(2 * reach as u32) as i16 - reach);
    let calls: Vec<(Block, Mv)> = blocks().iter().map(|b| (*b, mv())).collect();
    for (b, mv) in &calls {
        let clipped = original_clip(b, *mv);
        let moved = moved_between(*mv, clipped);
        assert_eq!(ours::mv_clip(b, *mv), (0, clipped, moved), "{b:?}");
    }
    row(
        report,
        &VECTORS,
        what,
        &mut || {
            for (b, mv) in &calls {
                black_box(original_clip(black_box(b), *mv));
            }
        },
        &mut || {
            for (b, mv) in &calls {
                black_box(ours::mv_clip(black_box(b), *mv));
            }
        },
    )
}

type Row<'a> = (&'a str, &'a dyn Fn(&mut Report, &str) -> Vec<String>);

/// Those of the rows that are asked for.
fn rows(report: &mut Report, all: &[Row]) -> Vec<Vec<String>> {
    let mut rows = Vec::new();
    for (what, call) in all {
        if report.wants(what) {
            rows.push(call(report, what));
        }
    }
    rows
}

pub fn run(report: &mut Report) {
    let calls: [Row; 5] = [
        ("flags", &|report, _| flags(report)),
        ("candidates", &|report, _| candidates(report)),
        ("direct vectors", &|report, _| direct(report)),
        ("clipping, near", &|report, what| {
            clipping(report, what, 100)
        }),
        ("clipping, far", &|report, what| {
            clipping(report, what, 4000)
        }),
    ];
    let by_slice: [Row; 2] = [
        ("flags, one slice", &|report, what| {
            flags_by_slice(report, what, 1)
        }),
        ("flags, four slices", &|report, what| {
            flags_by_slice(report, what, 4)
        }),
    ];
    let calls = rows(report, &calls);
    let head = ["call", "original", "ours", "ours/original", "target"];
    report.table(
        "Flags, candidates, direct vectors, clipping: ns a call",
        &head,
        &calls,
    );
    let by_slice = rows(report, &by_slice);
    let head = [
        "picture",
        "as one slice",
        "by slice",
        "by slice/as one slice",
        "target",
    ];
    report.table(
        "Flags by slice: evc_get_avail_inter_slice, and evc_get_avail_inter over the same words, ns a call",
        &head,
        &by_slice,
    );
}
