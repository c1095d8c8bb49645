//! How the time grows with the picture: all of it predicted, its planes padded.

use crate::block::{lent, Pictures};
use crate::cases::{mv, picture, samples, Numbers};
use crate::measure::least_of_parts;
use crate::ours;
use crate::report::Report;
use oracle::model::{Block, Mv};
use oracle::pad_plane;

const PICTURES: [[u32; 2]; 5] = [
    [352, 288],
    [704, 576],
    [1280, 720],
    [1920, 1080],
    [4096, 2160],
];

/// Every block of 16 by 16, row by row; where 8 rows of samples remain, of 16 by 8.
fn rows(pic: [u32; 2]) -> Vec<Vec<(Block, [Mv; 2])>> {
    let mut numbers = Numbers::new(8);
    let mut block = |x, y| {
        let side = [16, 16.min(pic[1] - y)];
        let place = [x, y];
        let block = Block { pic, place, side };
        (block, [0; 2].map(|_| mv(&mut numbers, [true; 2])))
    };
    let mut row = |y| (0..pic[0]).step_by(16).map(|x| block(x, y)).collect();
    (0..pic[1]).step_by(16).map(|y| row(y)).collect()
}

pub fn run(report: &mut Report) {
    let mut table = Vec::new();
    for pic @ [pic_w, pic_h] in PICTURES {
        let what = format!("growth {pic_w}x{pic_h}");
        if !report.wants(&what) {
            continue;
        }
        let pictures = Pictures::new(pic);
        let rows = rows(pic);
        let [mut a, mut b] = [(); 2].map(|_| picture(pic, 300));
        let [mut pred_a, mut pred_b] = [lent(), lent()];
        let mut codes = 0;
        // The parts: rows of blocks, then planes.
        let [original, ours] = least_of_parts(
            report.rounds.min(10),
            rows.len() + 3,
            [
                &mut |part| match rows.get(part) {
                    Some(row) => {
                        for (block, mv) in row {
                            pictures.original(block, [true; 2], *mv, &mut pred_a);
                        }
                    }
                    None => pad_plane(&mut a[part - rows.len()]),
                },
                &mut |part| match rows.get(part) {
                    Some(row) => {
                        for (block, mv) in row {
                            codes |= pictures.ours(block, [true; 2], *mv, &mut pred_b).code;
                        }
                    }
                    None => {
                        let plane = part - rows.len();
                        codes |= ours::pad(plane > 0, pic, &mut b[plane].data);
                    }
                },
            ],
        );
        assert_eq!(codes, 0);
        assert!(
            pred_a == pred_b && samples(&a) == samples(&b),
            "{what} differs"
        );
        let n = f64::from(pic_w * pic_h * 3 / 2);
        table.push(vec![
            what,
            format!("{:.2}", original / 1e6),
            format!("{:.2}", ours / 1e6),
            format!("{:.3}", original / n),
            format!("{:.3}", ours / n),
            format!("{:.2}", ours / original),
        ]);
    }
    let head = [
        "picture",
        "original, ms",
        "ours, ms",
        "original, ns a sample",
        "ours, ns a sample",
        "ours/original",
    ];
    let title = "Growth: every 16x16 block from two lists in both directions, and the border of three planes";
    report.table(title, &head, &table);
}
