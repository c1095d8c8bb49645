//! The border step: `Plane::pad` against `evc_pad`.

use crate::cases::plane;
use crate::measure::least;
use crate::ours;
use crate::report::{number, Report, BORDER};
use oracle::{pad_plane, Plane};
use std::cell::RefCell;
use std::hint::black_box;

pub const PICTURES: [[u32; 2]; 3] = [[352, 288], [1920, 1080], [4096, 2160]];

fn last_sample(plane: &Plane<u16>) -> usize {
    let cfg = &plane.cfg;
    (cfg.yorigin + cfg.height - 1) * cfg.stride + cfg.xorigin + cfg.width - 1
}

fn scribble_border(plane: &mut Plane<u16>) {
    let cfg = plane.cfg.clone();
    for (k, sample) in plane.data.iter_mut().enumerate() {
        let (x, y) = (k % cfg.stride, k / cfg.stride);
        let columns = cfg.xorigin..cfg.xorigin + cfg.width;
        let rows = cfg.yorigin..cfg.yorigin + cfg.height;
        if !(columns.contains(&x) && rows.contains(&y)) {
            *sample = 5000;
        }
    }
}

fn compare(chroma: bool, pic: [u32; 2], plane: &mut Plane<u16>) {
    scribble_border(plane);
    let mut ours = plane.data.to_vec();
    pad_plane(plane);
    assert_eq!(ours::pad(chroma, pic, &mut ours), 0);
    assert!(plane.data[..] == ours, "the border differs: {pic:?}");
}

/// The original, ours, ours refused at the last sample of the picture, and the original after such a
/// refusal, which has read the picture; all on one plane.
fn times(rounds: usize, chroma: bool, pic: [u32; 2], plane: Plane<u16>) -> [f64; 4] {
    let last = last_sample(&plane);
    let plane = RefCell::new(plane);
    let refused = || {
        let mut plane = plane.borrow_mut();
        let sample = std::mem::replace(&mut plane.data[last], 1024);
        assert_eq!(ours::pad(chroma, pic, black_box(&mut plane.data)), 6);
        plane.data[last] = sample;
    };
    let original = || pad_plane(black_box(&mut plane.borrow_mut()));
    least(
        rounds,
        1,
        [
            &mut || original(),
            &mut || {
                let mut plane = plane.borrow_mut();
                assert_eq!(ours::pad(chroma, pic, black_box(&mut plane.data)), 0);
            },
            &mut || refused(),
            &mut || {
                refused();
                original();
            },
        ],
    )
}

pub fn run(report: &mut Report) {
    let mut rows = Vec::new();
    for pic @ [pic_w, pic_h] in PICTURES {
        for chroma in [false, true] {
            let kind = if chroma { "chroma" } else { "luma" };
            let what = format!("border {pic_w}x{pic_h} {kind}");
            if !report.wants(&what) {
                continue;
            }
            let mut plane = plane(chroma, pic, 7);
            compare(chroma, pic, &mut plane);
            let picture = plane.cfg.width * plane.cfg.height;
            let border = plane.data.len() - picture;
            let [original, ours, refused, after] = times(report.rounds, chroma, pic, plane);
            let alone = ours - refused;
            rows.push(vec![
                what.clone(),
                number(original),
                number(ours),
                number(refused),
                number(alone),
                format!("{:.3}", refused / picture as f64),
                format!("{:.3}", alone / border as f64),
                format!("{:.2}", ours / original),
                format!("{:.2}", alone / original),
                format!("{:.2}", alone / (after - refused)),
                report.judge(Some(&BORDER), &what, alone / original),
            ]);
        }
    }
    let head = [
        "plane",
        "original",
        "ours",
        "refused at the end",
        "border alone",
        "examined a sample",
        "border a sample",
        "ours/original",
        "border/original",
        "border/original after reading",
        "target",
    ];
    report.table("Border step: evc_pad, ns a call", &head, &rows);
}
