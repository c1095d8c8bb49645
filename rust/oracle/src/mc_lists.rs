//! The lists of calls on one plane with their answers: a few with the blocks whole, to be read; one list with the Rust's
//! answers; and one of refusals, which the Rust does not have and document 01 (`model`) answers. README.md has the layout.

use crate::cases::{
    arbitrary, fractions, hash, plane_sides, set_vectors, Fraction, Rng, Start, STARTS,
};
use crate::lists::{small, spaced, List};
use crate::model::{one_plane, OnePlane};
use crate::{evc_mc_plane, pad, plane_of};

/// A plane that is lent to calls.
struct Lent {
    chroma: bool,
    pic: [u32; 2],
    len: usize,
    seed: u16,
    limit: u16,
    padded: bool,
    /// Whether the blocks predicted from it are printed whole.
    whole: bool,
}

impl Lent {
    /// As long as it needs to be, or a little longer.
    fn new(chroma: bool, pic: [u32; 2], rng: &mut Rng) -> Self {
        let mut lent = Lent {
            chroma,
            pic,
            len: 0,
            seed: rng.below(65536) as u16,
            limit: 1024,
            padded: false,
            whole: false,
        };
        lent.len = lent.call([0, 0]).plane_len() + [0, 1, 17][rng.below(3)];
        lent
    }

    /// A call on it, without vectors.
    fn call(&self, side: [u32; 2]) -> OnePlane {
        OnePlane {
            chroma: self.chroma,
            pic: self.pic,
            ori_mv: [0; 2],
            gmv: [0; 2],
            side,
        }
    }

    fn samples(&self) -> Vec<u16> {
        let mut samples = arbitrary(self.len, self.seed);
        samples.iter_mut().for_each(|sample| *sample %= self.limit);
        if self.padded {
            let [w, h] = self.pic.map(|n| n as usize);
            pad(self.chroma, w, h, &mut samples);
        }
        samples
    }
}

/// A call, how many samples of a block it is lent, and where these begin.
struct Case {
    c: OnePlane,
    len: usize,
    seed: u16,
}

impl Case {
    /// A block as long as it needs to be, or a little longer.
    fn new(c: OnePlane, rng: &mut Rng) -> Self {
        Case {
            c,
            len: c.block_len() + [0, 1, 5][rng.below(3)],
            seed: rng.below(65536) as u16,
        }
    }
}

/// A plane and the calls on it. Where document 01 refuses nothing, the Rust has to agree.
fn push(list: &mut List, lent: &Lent, cases: &[Case]) {
    let [pic_w, pic_h] = lent.pic.map(|n| small(n as usize));
    let [len, count] = [lent.len, cases.len()].map(small);
    let [chroma, padded, whole] = [lent.chroma, lent.padded, lent.whole].map(u16::from);
    list.record(&[
        chroma, pic_w, pic_h, len, lent.seed, lent.limit, padded, count, whole,
    ]);
    let samples = lent.samples();
    for Case { c, len, seed } in cases {
        let [[ox, oy], [gx, gy]] = [c.ori_mv, c.gmv].map(|mv| mv.map(|v| v as u16));
        let [w, h] = c.side.map(|n| small(n as usize));
        list.record(&[ox, oy, gx, gy, w, h, small(*len), *seed]);

        let mut pred = arbitrary(*len, *seed);
        let mut by_the_rust = pred.clone();
        let code = one_plane(c, &samples, &mut pred);
        if code == 0 {
            let [w, h] = lent.pic.map(|n| n as usize);
            let plane = plane_of(lent.chroma, w, h, &samples);
            evc_mc_plane(c, &plane, &mut by_the_rust);
        }
        assert_eq!(by_the_rust, pred, "the Rust and document 01: {c:?}");
        if !lent.whole {
            list.answer(&format!("{code} {}", hash(&by_the_rust)));
            continue;
        }
        list.answer(&code.to_string());
        for row in by_the_rust.chunks(usize::from(w)) {
            list.answer(&spaced(row));
        }
    }
}

/// Blocks that most calls take.
fn small_sides(chroma: bool) -> [[u32; 2]; 5] {
    if chroma {
        [[2, 2], [4, 2], [2, 4], [8, 8], [2, 8]]
    } else {
        [[4, 4], [8, 4], [4, 8], [8, 8], [16, 8]]
    }
}

/// Each path of luma and of chroma, with the blocks whole.
pub fn whole() -> [Vec<u8>; 2] {
    let mut list = List::default();
    for chroma in [false, true] {
        let mut lent = Lent {
            chroma,
            pic: [8, 8],
            len: 0,
            seed: 7 + u16::from(chroma),
            limit: 1024,
            padded: true,
            whole: true,
        };
        lent.len = lent.call([0, 0]).plane_len();
        let cases = [[0, 0], [1, 0], [0, 2], [3, 1]].map(|ori_mv| {
            let [x, y] = if chroma { [8, 16] } else { [4, 8] };
            let mut c = lent.call(if chroma { [2, 2] } else { [4, 4] });
            c.ori_mv = ori_mv;
            c.gmv = [x + ori_mv[0], y + ori_mv[1]];
            Case {
                c,
                len: c.block_len(),
                seed: 5,
            }
        });
        push(&mut list, &lent, &cases);
    }
    list.done()
}

/// Accepted calls.
pub fn accepted() -> [Vec<u8>; 2] {
    let mut rng = Rng(21);
    let mut list = List::default();
    for chroma in [false, true] {
        let sides = small_sides(chroma);
        let all = fractions(chroma);

        // Every path with every phase and every way that the start is held, over planes whose
        // borders are arbitrary: there it shows where the start is held.
        let planes =
            [[4, 4], [20, 8], [12, 36]].map(|pic| (Lent::new(chroma, pic, &mut rng), Vec::new()));
        let mut planes = Vec::from(planes);
        for fractions in &all {
            for starts in STARTS.iter().flat_map(|x| STARTS.map(|y| [*x, y])) {
                let k = rng.below(planes.len());
                let (lent, cases) = &mut planes[k];
                let mut c = lent.call(sides[rng.below(5)]);
                set_vectors(&mut c, *fractions, starts, &mut rng);
                cases.push(Case::new(c, &mut rng));
            }
        }
        for (lent, cases) in &planes {
            push(&mut list, lent, cases);
        }

        // Every path with every phase over a padded plane.
        let lent = Lent {
            padded: true,
            ..Lent::new(chroma, [16, 12], &mut rng)
        };
        let cases: Vec<Case> = all
            .iter()
            .map(|fractions| {
                let mut c = lent.call(sides[rng.below(5)]);
                set_vectors(&mut c, *fractions, [Start::Kept; 2], &mut rng);
                Case::new(c, &mut rng)
            })
            .collect();
        push(&mut list, &lent, &cases);

        // Every size of a block, on every path once in two pictures.
        for (k, pic) in [[8, 4], [64, 64]].iter().enumerate() {
            let lent = Lent::new(chroma, *pic, &mut rng);
            let mut cases = Vec::new();
            for (i, w) in plane_sides(chroma).iter().enumerate() {
                for (j, h) in plane_sides(chroma).iter().enumerate() {
                    for path in [i + j + k, i + j + k + 2] {
                        let mut c = lent.call([*w, *h]);
                        let mut fractions: [Fraction; 2] = all[rng.below(all.len())];
                        fractions[0].filtered = path & 1 == 1;
                        fractions[1].filtered = path & 2 == 2;
                        let starts = [(); 2].map(|_| STARTS[rng.below(3)]);
                        set_vectors(&mut c, fractions, starts, &mut rng);
                        cases.push(Case::new(c, &mut rng));
                    }
                }
            }
            push(&mut list, &lent, &cases);
        }
    }
    list.done()
}

/// Refusals, and accepted calls next to them.
pub fn bad() -> [Vec<u8>; 2] {
    let mut rng = Rng(22);
    let mut list = List::default();
    for chroma in [false, true] {
        let all = fractions(chroma);
        let sides = small_sides(chroma);
        let random = |lent: &Lent, side: [u32; 2], rng: &mut Rng| {
            let mut c = lent.call(side);
            let starts = [(); 2].map(|_| STARTS[rng.below(3)]);
            set_vectors(&mut c, all[rng.below(all.len())], starts, rng);
            Case::new(c, rng)
        };

        // 1, and 1 before 2 and 4.
        for pic in [
            [0, 8],
            [8, 0],
            [2, 8],
            [8, 6],
            [9, 8],
            [8132, 8],
            [8, 8132],
            [65532, 65535],
        ] {
            let lent = Lent {
                pic,
                len: 40000,
                ..Lent::new(chroma, [8, 8], &mut rng)
            };
            let cases: Vec<Case> = [sides[0], [12, 12]]
                .iter()
                .map(|side| Case {
                    c: lent.call(*side),
                    len: [0, 200][rng.below(2)],
                    seed: 1,
                })
                .collect();
            push(&mut list, &lent, &cases);
        }

        // 2, and 2 before 4. Sides in each direction; those of the other plane among them.
        let lent = Lent::new(chroma, [12, 8], &mut rng);
        let mut cases = Vec::new();
        let good = sides[3][0];
        for side in [
            0, 1, 2, 3, 4, 5, 6, 8, 12, 16, 24, 32, 48, 63, 64, 65, 128, 256, 65535,
        ] {
            for side in [[side, good], [good, side]] {
                let mut case = random(&lent, side, &mut rng);
                case.len = case.len.min([1000, 0][rng.below(2)]);
                cases.push(case);
            }
        }
        push(&mut list, &lent, &cases);

        // 4: a plane too short by one, and empty; a block too short by one, and empty.
        for (k, pic) in [[4, 4], [12, 8], [4, 20]].iter().enumerate() {
            let needed = Lent::new(chroma, *pic, &mut rng).call([0, 0]).plane_len();
            for len in [needed, needed - 1, [0, 1, needed / 2][k]] {
                let lent = Lent {
                    len,
                    // 4 before 6
                    limit: [1024, 65535][k % 2],
                    ..Lent::new(chroma, *pic, &mut rng)
                };
                let mut cases = Vec::new();
                for side in sides {
                    for short in [0, 1, (side[0] * side[1]) as usize] {
                        let mut case = random(&lent, side, &mut rng);
                        case.len = case.c.block_len() - short;
                        cases.push(case);
                    }
                }
                push(&mut list, &lent, &cases);
            }
        }

        // 6: some samples are above 1023, so that one lies in about half of the windows.
        for pic in [[4, 4], [24, 16]] {
            let lent = Lent {
                limit: if chroma { 1045 } else { 1030 },
                ..Lent::new(chroma, pic, &mut rng)
            };
            let cases: Vec<Case> = (0..200)
                .map(|k| random(&lent, sides[k % 5], &mut rng))
                .collect();
            push(&mut list, &lent, &cases);
        }
    }
    list.done()
}
