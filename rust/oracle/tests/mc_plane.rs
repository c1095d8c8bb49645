//! The Rust's `evc_mc_l` and `evc_mc_c` against document 01 (`oracle::model`), 'One plane'.

use oracle::cases::*;
use oracle::model::{self, OnePlane};
use oracle::{evc_mc_plane, pad, plane_of, Plane};

const PICTURES: [[u32; 2]; 7] = [
    [4, 4],
    [8, 4],
    [4, 12],
    [20, 16],
    [36, 28],
    [64, 64],
    [4, 132],
];

/// A call without vectors.
fn call(chroma: bool, pic: [u32; 2]) -> OnePlane {
    OnePlane {
        chroma,
        pic,
        ori_mv: [0; 2],
        gmv: [0; 2],
        side: [0; 2],
    }
}

/// Samples of a whole plane, borders too: arbitrary, or 0 and 1023 alone.
fn samples(c: &OnePlane, is_extreme: bool, rng: &mut Rng) -> Vec<u16> {
    let mut samples = arbitrary(c.plane_len(), rng.below(65536) as u16);
    for sample in &mut samples {
        *sample = if is_extreme {
            *sample % 2 * 1023
        } else {
            *sample % 1024
        };
    }
    samples
}

fn held(c: &OnePlane, samples: &[u16]) -> Plane<u16> {
    plane_of(c.chroma, c.pic[0] as usize, c.pic[1] as usize, samples)
}

/// The Rust and the document leave the same in a buffer that is longer than the block.
fn assert_call(c: &OnePlane, samples: &[u16], plane: &Plane<u16>, rng: &mut Rng) -> Vec<u16> {
    let old = arbitrary(c.block_len() + rng.below(20), rng.below(65536) as u16);
    let [mut pred, mut want] = [old.clone(), old];
    evc_mc_plane(c, plane, &mut pred);
    assert_eq!(model::one_plane(c, samples, &mut want), 0, "{c:?}");
    assert_eq!(pred, want, "{c:?}");
    pred.truncate(c.block_len());
    pred
}

/// Every path with every phase and every way that the start is held, over planes that are not
/// padded: there it shows in the result where the start is held.
#[test]
fn paths_phases_starts() {
    let mut rng = Rng(11);
    let mut calls = 0;
    for chroma in [false, true] {
        for (k, pic) in PICTURES.iter().enumerate() {
            let mut c = call(chroma, *pic);
            let samples = samples(&c, k % 2 == 1, &mut rng);
            let plane = held(&c, &samples);
            let sides = plane_sides(chroma);
            for fractions in fractions(chroma) {
                for starts in STARTS.iter().flat_map(|x| STARTS.map(|y| [*x, y])) {
                    // the small sides more often than the large ones
                    c.side = [(); 2].map(|_| sides[rng.below(5).min(rng.below(5))]);
                    set_vectors(&mut c, fractions, starts, &mut rng);
                    assert_call(&c, &samples, &plane, &mut rng);
                    calls += 1;
                }
            }
        }
    }
    assert_eq!(calls, 7 * (64 + 256) * 9);
}

/// Every block size with every path, most larger than some of the pictures.
#[test]
fn sizes() {
    let mut rng = Rng(12);
    for chroma in [false, true] {
        let all: Vec<[Fraction; 2]> = fractions(chroma);
        for pic in PICTURES {
            let mut c = call(chroma, pic);
            let samples = samples(&c, false, &mut rng);
            let plane = held(&c, &samples);
            for w in plane_sides(chroma) {
                for h in plane_sides(chroma) {
                    c.side = [w, h];
                    for path in 0..4 {
                        let starts = [(); 2].map(|_| STARTS[rng.below(3)]);
                        let mut fractions = all[rng.below(all.len())];
                        fractions[0].filtered = path & 1 == 1;
                        fractions[1].filtered = path & 2 == 2;
                        set_vectors(&mut c, fractions, starts, &mut rng);
                        assert_call(&c, &samples, &plane, &mut rng);
                    }
                }
            }
        }
    }
}

/// A picture of the largest side: no start across is too far right by more than a few samples.
#[test]
fn largest_side() {
    let mut rng = Rng(13);
    for (chroma, pic) in [(false, [8128, 4]), (true, [8128, 4]), (false, [4, 8128])] {
        let mut c = call(chroma, pic);
        let samples = samples(&c, false, &mut rng);
        let plane = held(&c, &samples);
        let all = fractions(chroma);
        for starts in STARTS.iter().flat_map(|x| STARTS.map(|y| [*x, y])) {
            for _ in 0..20 {
                c.side = [(); 2].map(|_| plane_sides(chroma)[rng.below(5)]);
                let fractions = all[rng.below(all.len())];
                set_vectors(&mut c, fractions, starts, &mut rng);
                assert_call(&c, &samples, &plane, &mut rng);
            }
        }
    }
}

/// Over a padded plane a path is the general filter over the prolonged picture, where no phase is
/// left out that is not 0.
#[test]
fn general_filter() {
    let mut rng = Rng(14);
    let mut calls = 0;
    for chroma in [false, true] {
        for (k, pic) in PICTURES.iter().enumerate() {
            let mut c = call(chroma, *pic);
            let mut samples = samples(&c, k % 2 == 0, &mut rng);
            pad(chroma, pic[0] as usize, pic[1] as usize, &mut samples);
            let plane = held(&c, &samples);
            let mut all = fractions(chroma);
            all.retain(|f| f.iter().all(|f| f.filtered || f.phase == 0));
            for fractions in all {
                for starts in STARTS.iter().flat_map(|x| STARTS.map(|y| [*x, y])) {
                    c.side = [(); 2].map(|_| plane_sides(chroma)[rng.below(5).min(rng.below(5))]);
                    set_vectors(&mut c, fractions, starts, &mut rng);
                    let pred = assert_call(&c, &samples, &plane, &mut rng);
                    assert_eq!(pred, c.general(&samples), "{c:?}");
                    calls += 1;
                }
            }
        }
    }
    assert_eq!(calls, 7 * (5 * 5 + 9 * 9) * 9);
}

/// 'Edges to try': the samples under the taps, in every row or in every column.
#[test]
fn edges_of_the_document() {
    for (chroma, phase, row, want) in [
        (false, 2, &[0, 0, 1023, 1023, 0, 0][..], 1023),
        (false, 2, &[1023, 1023, 0, 0, 1023, 1023], 0),
        (false, 1, &[0, 0, 100, 200, 0, 0], 144),
        (false, 3, &[0, 0, 100, 200, 0, 0], 194),
        (true, 1, &[0, 64, 128, 0], 78),
    ] {
        for is_down in [false, true] {
            let mut c = call(chroma, [16, 16]);
            let [left, pad] = c.origin().map(|n| n as usize);
            let stride = c.plane_len() / (2 * pad + c.size()[1] as usize);
            let mut samples = vec![0; c.plane_len()];
            for i in 0..samples.len() {
                let (x, y) = (i % stride, i / stride);
                let at = if is_down {
                    y - pad.min(y)
                } else {
                    x - left.min(x)
                };
                samples[i] = *row.get(at).unwrap_or(&0);
            }
            let before = c.reach()[0];
            let at = (before * c.parts() + phase) as i16;
            c.side = [plane_sides(chroma)[0]; 2];
            c.ori_mv[usize::from(is_down)] = 1;
            c.gmv[usize::from(is_down)] = at;
            let plane = held(&c, &samples);
            let pred = assert_call(&c, &samples, &plane, &mut Rng(1));
            assert_eq!(pred[0], want, "{c:?}");
        }
    }
}

/// Refusals in the order of their numbers; the block stays. The Rust has none.
#[test]
fn refusals() {
    let good = OnePlane {
        ori_mv: [1, 1],
        gmv: [17, 18],
        side: [8, 4],
        ..call(false, [16, 8])
    };
    let plane = vec![1023; good.plane_len()];
    let answer = |c: &OnePlane, plane: &[u16], pred_len| {
        let mut pred = vec![7; pred_len];
        let code = model::one_plane(c, plane, &mut pred);
        assert!(code == 0 || pred == vec![7; pred_len], "{:?}", c);
        code
    };
    assert_eq!(answer(&good, &plane, 32), 0);
    assert_eq!(answer(&good, &plane, 31), 4);
    assert_eq!(answer(&good, &plane[1..], 32), 4);
    for side in [[12, 4], [2, 4], [4, 128], [0, 4]] {
        assert_eq!(answer(&OnePlane { side, ..good }, &[], 0), 2);
    }
    for pic in [[8132, 8], [16, 0], [18, 8]] {
        let side = [1, 1];
        assert_eq!(answer(&OnePlane { pic, side, ..good }, &[], 0), 1);
    }
    let chroma = OnePlane {
        chroma: true,
        ..good
    };
    for (side, code) in [([2, 32], 0), ([2, 64], 2)] {
        assert_eq!(answer(&OnePlane { side, ..chroma }, &plane, 64), code);
    }
    // a sample above 1023 at each place: the window is 13 by 9 from column 2 and row 2 on
    let stride = 176;
    for i in 0..plane.len() {
        let mut plane = plane.clone();
        plane[i] = 1024;
        let (x, y) = ((i % stride) as i64 - 80, (i / stride) as i64 - 80);
        let is_inside = (2..15).contains(&x) && (2..11).contains(&y);
        let code = if is_inside { 6 } else { 0 };
        assert_eq!(answer(&good, &plane, 32), code, "{x}, {y}");
    }
}
