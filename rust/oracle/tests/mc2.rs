//! The Rust's `evc_mc2` against document 01 (`oracle::model`), 'Block' and 'What demand 3 compares', and document 02, W2 and W6.

use oracle::cases::*;
use oracle::model::{self, Block, Predicted, HIGH, LOW, NOTHING_MOVED, OFFSETS, PRED_LEN};
use oracle::{pad, plane_config, plane_of, Picture};

const PICTURES: [[u32; 2]; 7] = [
    [4, 4],
    [8, 4],
    [4, 12],
    [20, 16],
    [36, 28],
    [64, 64],
    [4, 132],
];

/// Luma, cb and cr with their borders, for the document and for the Rust.
struct Planes {
    pic: [u32; 2],
    samples: [Vec<u16>; 3],
    picture: Picture,
}

impl Planes {
    fn of(pic: [u32; 2], samples: [Vec<u16>; 3]) -> Self {
        let [w, h] = pic.map(|n| n as usize);
        let planes = [0, 1, 2].map(|k| plane_of(k > 0, w, h, &samples[k]));
        Planes {
            pic,
            samples,
            picture: Picture::new(planes),
        }
    }

    /// Arbitrary samples, or 0 and 1023 alone, in the borders too.
    fn new(pic: [u32; 2], is_extreme: bool, rng: &mut Rng) -> Self {
        let samples = [0, 1, 2].map(|k| {
            let cfg = plane_config(k > 0, pic[0] as usize, pic[1] as usize);
            let samples = arbitrary(cfg.stride * cfg.alloc_height, rng.below(65536) as u16);
            let sample = |n: u16| if is_extreme { n % 2 * 1023 } else { n % 1024 };
            samples.into_iter().map(sample).collect()
        });
        Planes::of(pic, samples)
    }

    fn padded(self) -> Self {
        let [w, h] = self.pic.map(|n| n as usize);
        let mut samples = self.samples;
        for k in 0..3 {
            pad(k > 0, w, h, &mut samples[k]);
        }
        Planes::of(self.pic, samples)
    }

    /// "column i of each picture plane becomes pw - 1 - i before our border step"; rows likewise.
    fn mirrored(&self, d: usize) -> Self {
        let [w, h] = self.pic.map(|n| n as usize);
        let samples = [0, 1, 2].map(|k| {
            let cfg = plane_config(k > 0, w, h);
            let at = |i, j| (cfg.yorigin + j) * cfg.stride + cfg.xorigin + i;
            let mut samples = self.samples[k].clone();
            for (j, i) in (0..cfg.height).flat_map(|j| (0..cfg.width).map(move |i| (j, i))) {
                let [from_i, from_j] = turned([i, j], [cfg.width, cfg.height], d);
                samples[at(i, j)] = self.samples[k][at(from_i, from_j)];
            }
            samples
        });
        Planes::of(self.pic, samples).padded()
    }

    fn slices(&self) -> [&[u16]; 3] {
        [0, 1, 2].map(|k| &self.samples[k][..])
    }
}

/// Column and row, with the one of direction d counted from the other end.
fn turned(mut place: [usize; 2], size: [usize; 2], d: usize) -> [usize; 2] {
    place[d] = size[d] - 1 - place[d];
    place
}

/// Old contents of both blocks, some longer than needed.
fn old_blocks(rng: &mut Rng) -> [Vec<u16>; 2] {
    let samples = arbitrary(PRED_LEN + 20, rng.below(65536) as u16);
    [0, 1].map(|_| samples[rng.below(20)..].to_vec())
}

/// The Rust and the document leave the same in both blocks, all of them compared, and the reports are
/// what the Rust's `mv_clip` shows. Both blocks.
fn assert_call(c: &BlockCall, planes: [&Planes; 2], old: &[Vec<u16>; 2]) -> [Vec<u16>; 2] {
    assert!(c.in_domain(), "{:?}", c);
    let [mut pred0, mut pred1] = old.clone();
    c.by_the_rust(planes.map(|p| &p.picture), &mut pred0, &mut pred1);
    let [mut want0, mut want1] = old.clone();
    let answer = c.by_the_document(planes.map(Planes::slices), &mut want0, &mut want1);
    let moved = c.moved_by_the_rust();
    assert_eq!(answer, Predicted { code: 0, moved }, "{c:?}");
    assert!(pred0 == want0, "first block: {:?}", c);
    assert!(pred1 == want1, "second block: {:?}", c);
    [pred0, pred1]
}

/// The predicted samples of a block: w × h luma and both half-size chroma.
fn predicted(b: &Block, pred: &[u16]) -> [Vec<u16>; 3] {
    let [w, h] = b.side.map(|n| n as usize);
    [0, 1, 2].map(|k| {
        let n = if k > 0 { w * h / 4 } else { w * h };
        pred[OFFSETS[k]..OFFSETS[k] + n].to_vec()
    })
}

fn random_towards(rng: &mut Rng) -> [Toward; 2] {
    [(); 2].map(|_| TOWARDS[rng.below(7)])
}

/// Equal counts, or not.
fn random_pocs(rng: &mut Rng) -> [u32; 2] {
    let mut poc = || [0, 1, 32767][rng.below(3)];
    [poc(), poc()]
}

/// Every pair of ways that a list's vector leads, with each use of the lists, in every picture.
#[test]
fn vectors() {
    let mut rng = Rng(31);
    let mut calls = 0;
    for (k, &pic) in PICTURES.iter().enumerate() {
        for is_extreme in [false, true] {
            // over planes that are not padded it shows where a start was held
            let mut planes = [(); 2].map(|_| Planes::new(pic, is_extreme, &mut rng));
            if k % 2 == usize::from(is_extreme) {
                planes = planes.map(Planes::padded);
            }
            let old = old_blocks(&mut rng);
            for used in [USES, USES].concat() {
                for towards in TOWARDS.iter().flat_map(|x| TOWARDS.map(|y| [*x, y])) {
                    let b = random_block(pic, &mut rng);
                    let mut mv = [towards, random_towards(&mut rng)];
                    if used == [false, true] {
                        mv.reverse();
                    }
                    let c = BlockCall {
                        b,
                        used,
                        mv: mv.map(|towards| vector(&b, towards, &mut rng)),
                        poc: random_pocs(&mut rng),
                    };
                    assert_call(&c, planes.each_ref(), &old);
                    calls += 1;
                }
            }
        }
    }
    assert_eq!(calls, 7 * 2 * 6 * 49);
}

/// Every pair of sides, with each use of the lists.
#[test]
fn sizes() {
    let mut rng = Rng(32);
    let mut calls = 0;
    for pic in [[64, 64], [100, 84], [64, 128]] {
        let planes = [false, true].map(|is_extreme| Planes::new(pic, is_extreme, &mut rng));
        let old = old_blocks(&mut rng);
        let sides = [4, 8, 16, 32, 64];
        for side in sides.iter().flat_map(|w| sides.map(|h| [*w, h])) {
            for used in USES {
                let place =
                    [0, 1].map(|d| 4 * rng.below((pic[d] - side[d]) as usize / 4 + 1) as u32);
                let b = Block { pic, place, side };
                let c = BlockCall {
                    b,
                    used,
                    mv: [(); 2].map(|_| vector(&b, random_towards(&mut rng), &mut rng)),
                    poc: random_pocs(&mut rng),
                };
                assert_call(&c, planes.each_ref(), &old);
                calls += 1;
            }
        }
    }
    assert_eq!(calls, 3 * 25 * 3);
}

/// The largest sides; across, the domain ends before the high limit.
#[test]
fn largest_sides() {
    let mut rng = Rng(33);
    let mut calls = 0;
    for pic in [[8128, 4], [4, 8128]] {
        let planes = [false, true].map(|is_extreme| Planes::new(pic, is_extreme, &mut rng));
        let old = old_blocks(&mut rng);
        for towards in TOWARDS.iter().flat_map(|x| TOWARDS.map(|y| [*x, y])) {
            let b = random_block(pic, &mut rng);
            let c = BlockCall {
                b,
                used: USES[rng.below(3)],
                mv: [(); 2].map(|_| vector(&b, towards, &mut rng)),
                poc: random_pocs(&mut rng),
            };
            assert_call(&c, planes.each_ref(), &old);
            calls += 1;
        }
    }
    assert_eq!(calls, 2 * 49);
}

/// "If both lists are in use with equal counts and equal clipped vectors, list 0 alone stands": equal
/// from the start, or by clipping alone. With other counts there are two predictions.
#[test]
fn equal_motion() {
    let mut rng = Rng(34);
    let (mut calls, mut by_clipping, mut moved) = (0, 0, 0);
    for pic in PICTURES {
        let planes = [(); 2].map(|_| Planes::new(pic, false, &mut rng));
        let planes = planes.each_ref();
        let old = old_blocks(&mut rng);
        for towards in TOWARDS.iter().flat_map(|x| TOWARDS.map(|y| [*x, y])) {
            let b = random_block(pic, &mut rng);
            let first = vector(&b, towards, &mut rng);
            let again = vector(&b, towards, &mut rng);
            for second in [first, again] {
                if b.clipped_place(first) != b.clipped_place(second) {
                    continue;
                }
                by_clipping += usize::from(first != second);
                let both = BlockCall {
                    b,
                    used: [true, true],
                    mv: [first, second],
                    poc: [7, 7],
                };
                let one = BlockCall {
                    used: [true, false],
                    ..both
                };
                let alone = assert_call(&one, planes, &old);
                assert!(alone[1] == old[1], "{:?}", one);
                assert!(assert_call(&both, planes, &old) == alone, "{:?}", both);
                // list 1 is in use, so its report stays
                moved += usize::from(both.moved_by_the_rust()[1] != NOTHING_MOVED);

                let two = BlockCall {
                    poc: [7, 8],
                    ..both
                };
                let other = BlockCall {
                    used: [false, true],
                    ..both
                };
                let [_, pred1] = assert_call(&two, planes, &old);
                let [alone, _] = assert_call(&other, planes, &old);
                assert_eq!(predicted(&b, &pred1), predicted(&b, &alone), "{two:?}");
                calls += 4;
            }
        }
    }
    assert_eq!((calls, by_clipping, moved), (2412, 135, 509));
}

/// A call for demand 3 over two pictures, and which of these each list has: with equal counts the same.
fn demand_3(pic: [u32; 2], used: [bool; 2], rng: &mut Rng) -> (BlockCall, [usize; 2]) {
    let b = random_block(pic, rng);
    let mut mv = [(); 2].map(|_| vector(&b, random_towards(rng), rng));
    let is_same = rng.below(3) == 0;
    if rng.below(3) == 0 {
        mv[1] = mv[0];
    }
    let poc = if is_same { [5, 5] } else { [5, 6] };
    let which = if is_same { [1, 1] } else { [0, 1] };
    (BlockCall { b, used, mv, poc }, which)
}

/// Over padded planes the first block is the general filter over the prolonged pictures.
#[test]
fn general_filter() {
    let mut rng = Rng(35);
    let mut calls = 0;
    for (k, &pic) in PICTURES.iter().enumerate() {
        let planes = [(); 2].map(|_| Planes::new(pic, k % 2 == 0, &mut rng).padded());
        let old = old_blocks(&mut rng);
        for used in USES {
            for _ in 0..200 {
                let (c, which) = demand_3(pic, used, &mut rng);
                let planes = which.map(|k| &planes[k]);
                let [pred0, _] = assert_call(&c, planes, &old);
                let general = model::general_block(&c.b, &c.lists(planes.map(Planes::slices)));
                assert_eq!(predicted(&c.b, &pred0), general, "{c:?}");
                calls += 1;
            }
        }
    }
    assert_eq!(calls, 7 * 3 * 200);
}

/// What the Rust leaves of the predicted samples of the first block.
fn rust_predicted(c: &BlockCall, planes: [&Planes; 2], old: &[Vec<u16>; 2]) -> [Vec<u16>; 3] {
    let [mut pred0, mut pred1] = old.clone();
    c.by_the_rust(planes.map(|p| &p.picture), &mut pred0, &mut pred1);
    predicted(&c.b, &pred0)
}

/// "column c of each predicted plane equals the straight call's column n - 1 - c, n being that
/// plane's block width. Top to bottom likewise."
#[test]
fn mirrored() {
    let mut rng = Rng(36);
    let (mut calls, mut moved) = (0, 0);
    for (k, &pic) in PICTURES.iter().enumerate() {
        let straight = [(); 2].map(|_| Planes::new(pic, k % 2 == 1, &mut rng).padded());
        let old = old_blocks(&mut rng);
        for d in 0..2 {
            let turned_planes = straight.each_ref().map(|planes| planes.mirrored(d));
            for used in USES {
                for _ in 0..200 {
                    let (c, which) = demand_3(pic, used, &mut rng);
                    let mut turned_call = c;
                    turned_call.b.place[d] = pic[d] - c.b.place[d] - c.b.side[d];
                    for mv in &mut turned_call.mv {
                        mv[d] = mv[d].saturating_neg();
                    }
                    // -32768 has no negative, and far vectors leave the domain
                    let is_negated = (0..2).all(|k| c.mv[k][d] > -32768);
                    if !is_negated || !turned_call.in_domain() {
                        continue;
                    }
                    let want = rust_predicted(&c, which.map(|k| &straight[k]), &old);
                    let got = rust_predicted(&turned_call, which.map(|k| &turned_planes[k]), &old);
                    for plane in 0..3 {
                        let [w, h] = c.b.side.map(|n| n as usize >> (plane.min(1)));
                        for (y, x) in (0..h).flat_map(|y| (0..w).map(move |x| (y, x))) {
                            let [from_x, from_y] = turned([x, y], [w, h], d);
                            let pair = [got[plane][y * w + x], want[plane][from_y * w + from_x]];
                            assert_eq!(pair[0], pair[1], "{c:?}, plane {plane} at {x}, {y}");
                        }
                    }
                    let straight = c.moved_by_the_rust();
                    let mut want = straight;
                    want.iter_mut().for_each(|m| m[d] = other_side(m[d]));
                    assert_eq!(turned_call.moved_by_the_rust(), want, "{c:?}");
                    calls += 1;
                    moved += usize::from(want != straight);
                }
            }
        }
    }
    assert_eq!((calls, moved), (7732, 4592));
}

/// "Exchange swaps the lists' planes, vectors, counts and whether they are in use".
#[test]
fn exchanged() {
    let mut rng = Rng(37);
    let (mut calls, mut moved) = (0, 0);
    for (k, &pic) in PICTURES.iter().enumerate() {
        let planes = [(); 2].map(|_| Planes::new(pic, k % 2 == 1, &mut rng).padded());
        let old = old_blocks(&mut rng);
        for used in USES {
            for _ in 0..200 {
                let (mut c, mut which) = demand_3(pic, used, &mut rng);
                let want = rust_predicted(&c, which.map(|k| &planes[k]), &old);
                let [first, second] = c.moved_by_the_rust();
                c.used.reverse();
                c.mv.reverse();
                c.poc.reverse();
                which.reverse();
                let got = rust_predicted(&c, which.map(|k| &planes[k]), &old);
                assert_eq!(got, want, "{c:?}");
                assert_eq!(c.moved_by_the_rust(), [second, first], "{c:?}");
                calls += 1;
                moved += usize::from(first != second);
            }
        }
    }
    assert_eq!((calls, moved), (7 * 3 * 200, 3081));
}

/// A call for W6: every side is as likely.
fn w6(pic: [u32; 2], used: [bool; 2], rng: &mut Rng) -> (BlockCall, [usize; 2]) {
    let (mut c, which) = demand_3(pic, used, rng);
    for d in 0..2 {
        let fits = sides(pic[d] as i16);
        c.b.side[d] = fits[rng.below(fits.len())] as u32;
        c.b.place[d] = 4 * rng.below((pic[d] - c.b.side[d]) as usize / 4 + 1) as u32;
    }
    c.mv = [(); 2].map(|_| vector(&c.b, random_towards(rng), rng));
    (c, which)
}

/// Whether clipping moves a vector in use.
fn is_clipped(c: &BlockCall) -> bool {
    let is_moved = |k: usize| (0..2).any(|d| c.b.moved_by(c.mv[k], d) > 0);
    let is_clipped = (0..2).any(|k| c.used[k] && is_moved(k));
    // W6's 'need no clipping' is 'nothing moved'
    assert_eq!(is_clipped, c.moved_by_the_rust() != [NOTHING_MOVED; 2]);
    is_clipped
}

/// Calls for W6 in four pictures, with each use of the lists: the call, its planes, and what the blocks held.
fn w6_calls(seed: u64, mut each: impl FnMut(&BlockCall, [&Planes; 2], &[Vec<u16>; 2])) {
    let mut rng = Rng(seed);
    for (k, &pic) in [[8, 12], [36, 64], [64, 64], [100, 84]].iter().enumerate() {
        let planes = [(); 2].map(|_| Planes::new(pic, k % 2 == 0, &mut rng).padded());
        let old = old_blocks(&mut rng);
        for used in USES {
            for _ in 0..400 {
                let (c, which) = w6(pic, used, &mut rng);
                each(&c, which.map(|k| &planes[k]), &old);
            }
        }
    }
}

/// W6: "for sides of at most 32 clipping changes no sample compared with the exact unclipped place, and
/// .. for chroma it never does"; along a side of 64 luma where it is hidden too.
#[test]
fn unclipped_place() {
    let (mut calls, mut clipped, mut shows) = (0, 0, 0);
    w6_calls(38, |c, planes, old| {
        let lists = c.lists(planes.map(Planes::slices));
        let exact = model::exact_block(&c.b, &lists);
        let got = rust_predicted(c, planes, old);
        for k in (0..3).filter(|k| c.b.is_clipping_hidden(&lists, *k)) {
            assert_eq!(got[k], exact[k], "{c:?}, plane {k}");
        }
        calls += 1;
        clipped += usize::from(is_clipped(c));
        shows += usize::from(got != exact);
    });
    assert_eq!((calls, clipped, shows), (4800, 4171, 372));
}

/// W6: "predicting its four quarters separately gives the same samples (sides 8 and up, same references
/// and vectors)", where clipping is hidden.
#[test]
fn quarters() {
    let (mut calls, mut clipped) = (0, 0);
    w6_calls(39, |c, planes, old| {
        let lists = c.lists(planes.map(Planes::slices));
        let quarters = match c.b.quarters() {
            Some(quarters) if c.b.is_clipping_hidden(&lists, 0) => quarters,
            _ => return,
        };
        let whole = rust_predicted(c, planes, old);
        for (n, b) in quarters.iter().enumerate() {
            let quarter = rust_predicted(&BlockCall { b: *b, ..*c }, planes, old);
            for k in 0..3 {
                let [w, h] = b.side.map(|n| n as usize >> k.min(1));
                let [left, top] = [n % 2 * w, n / 2 * h];
                let rows = whole[k].chunks(2 * w).skip(top).take(h);
                let part: Vec<&u16> = rows.flat_map(|row| &row[left..left + w]).collect();
                let quarter: Vec<&u16> = quarter[k].iter().collect();
                assert_eq!(quarter, part, "{c:?}, quarter {n}, plane {k}");
            }
        }
        calls += 1;
        clipped += usize::from(is_clipped(c));
    });
    assert_eq!((calls, clipped), (2175, 1854));
}

/// W6's counterexample and its mirror images (docs/DIFFERENCES.md): past a limit, a block with a side of
/// 64 gives 0 where the exact place gives another sample, one to three quarter samples past it.
#[test]
fn clipping_shows() {
    for (d, is_high) in [(0, false), (0, true), (1, false), (1, true)] {
        let mut pic = [4, 4];
        pic[d] = 64;
        // the line next to the edge holds 1023, all others 0
        let samples = [0, 1, 2].map(|k| {
            let cfg = plane_config(k > 0, pic[0] as usize, pic[1] as usize);
            let mut samples = vec![0; cfg.stride * cfg.alloc_height];
            let line = if is_high { 62 } else { 1 };
            for n in (0..4).filter(|_| k == 0) {
                let [x, y] = if d == 0 { [line, n] } else { [n, line] };
                samples[(cfg.yorigin + y) * cfg.stride + cfg.xorigin + x] = 1023;
            }
            samples
        });
        let planes = Planes::of(pic, samples).padded();
        let old = old_blocks(&mut Rng(40));
        for (past, other) in [(0, 0), (1, 16), (2, 32), (3, 16), (4, 0)] {
            let mut c = BlockCall {
                b: Block {
                    pic,
                    place: [0, 0],
                    side: pic,
                },
                used: [true, false],
                mv: [[0, 0]; 2],
                poc: [0, 0],
            };
            c.mv[0][d] = if is_high { 256 + past } else { -256 - past };
            let [got, _, _] = rust_predicted(&c, [&planes; 2], &old);
            let [exact, _, _] = model::exact_block(&c.b, &c.lists([planes.slices(); 2]));
            // the sample of the first row or column that lies nearest to the picture
            let last = if is_high {
                0
            } else {
                63 * if d == 0 { 1 } else { 4 }
            };
            assert_eq!((got[last], exact[last]), (0, other), "{c:?}");
            assert!(got.iter().all(|sample| *sample == 0), "{:?}", c);
        }
    }
}

/// Refusals in the order of their numbers; both blocks stay, and nothing is reported of vectors that are moved
/// where the call is accepted. The Rust has none.
#[test]
fn refusals() {
    let good = BlockCall {
        b: Block {
            pic: [16, 8],
            place: [4, 0],
            side: [8, 4],
        },
        used: [true, true],
        mv: [[-2000, 9], [-7, 2000]],
        poc: [32767, 0],
    };
    let planes = Planes::of(
        [16, 8],
        [176 * 168, 96 * 84, 96 * 84].map(|n| vec![1023; n]),
    );
    let whole = [planes.slices(); 2];
    let answer = |c: &BlockCall, planes: [[&[u16]; 3]; 2], len: [usize; 2]| {
        let [mut pred0, mut pred1] = len.map(|len| vec![7; len]);
        let Predicted { code, moved } = c.by_the_document(planes, &mut pred0, &mut pred1);
        let is_kept = pred0.iter().chain(&pred1).all(|sample| *sample == 7);
        assert_eq!(code != 0, is_kept, "{c:?}");
        let reports = [[LOW, 0], [0, HIGH]];
        let of_list = |k: usize| match code == 0 && c.used[k] {
            true => reports[k],
            false => NOTHING_MOVED,
        };
        assert_eq!(moved, [of_list(0), of_list(1)], "{c:?}");
        code
    };
    let enough = [PRED_LEN; 2];
    let none: [[&[u16]; 3]; 2] = [[&[]; 3]; 2];
    assert_eq!(answer(&good, whole, enough), 0);

    let mut c = good;
    c.used = [false; 2];
    assert_eq!(answer(&c, none, [0, 0]), 3);
    c.b.side = [12, 4];
    assert_eq!(answer(&c, none, [0, 0]), 2);
    c.b.pic = [16, 8132];
    assert_eq!(answer(&c, none, [0, 0]), 1);

    for (len, code) in [([6143, 6144], 4), ([6144, 6143], 4), ([6144, 6145], 0)] {
        assert_eq!(answer(&good, whole, len), code);
    }
    for k in 0..2 {
        let high = [40000, 32768][k];
        let mut c = good;
        c.poc[k] = high;
        assert_eq!(answer(&c, none, enough), 4);
        assert_eq!(answer(&c, whole, enough), 5);
        // a list not in use: no count, planes that are empty
        c.used[k] = false;
        let mut lent = whole;
        lent[k] = none[k];
        assert_eq!(answer(&c, lent, enough), 0);
        for plane in 0..3 {
            let mut short = whole;
            short[k][plane] = &short[k][plane][1..];
            assert_eq!(answer(&good, short, enough), 4);
            assert_eq!(answer(&c, short, enough), 0);
        }
    }
}

/// 6: a sample of 1024 in and around each window, of each plane of each list. List 1's count also where
/// list 0 alone stands.
#[test]
fn examined_samples() {
    let mut refused = 0;
    for (mv, poc) in [([[1, 9], [-7, 2]], [0, 1]), ([[2, 2], [2, 2]], [3, 3])] {
        let c = BlockCall {
            b: Block {
                pic: [16, 8],
                place: [4, 0],
                side: [8, 4],
            },
            used: [true, true],
            mv,
            poc,
        };
        for (list, plane) in (0..2).flat_map(|list| (0..3).map(move |plane| (list, plane))) {
            let low = [176 * 168, 96 * 84, 96 * 84].map(|n| vec![1023; n]);
            let low = [0, 1, 2].map(|k| &low[k][..]);
            let stride = if plane > 0 { 96 } else { 176 };
            let (left, top) = if plane > 0 { (48, 40) } else { (80, 80) };
            for i in 0..low[plane].len() {
                let (x, y) = ((i % stride) as i64 - left, (i / stride) as i64 - top);
                // around the windows; further away nothing changes
                if !(-4..20).contains(&x) || !(-6..16).contains(&y) {
                    continue;
                }
                let mut high = low[plane].to_vec();
                high[i] = 1024;
                let mut planes = [low; 2];
                planes[list][plane] = &high;
                let [mut pred0, mut pred1] = [(); 2].map(|_| vec![7; PRED_LEN]);
                let Predicted { code, .. } = c.by_the_document(planes, &mut pred0, &mut pred1);
                // document 01: the place less 2 or 1, then w + 5 or w/2 + 3
                let part = if plane > 0 { 8 } else { 4 };
                let before = if plane > 0 { 1 } else { 2 };
                let size = if plane > 0 { [7, 5] } else { [13, 9] };
                let first = [0, 1].map(|d| {
                    let place = 4 * i64::from(c.b.place[d]) + i64::from(mv[list][d]);
                    place.div_euclid(part) - before
                });
                let is_inside = (first[0]..first[0] + size[0]).contains(&x)
                    && (first[1]..first[1] + size[1]).contains(&y);
                assert_eq!(code, if is_inside { 6 } else { 0 }, "{c:?} at {x}, {y}");
                refused += usize::from(is_inside);
            }
        }
    }
    assert_eq!(refused, 2 * 2 * (13 * 9 + 2 * 7 * 5));
}
