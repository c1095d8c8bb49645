//! The lists of calls of block prediction with their answers: one list with the Rust's answers, and
//! one of refusals, which the Rust does not have and the documents (`model`) answer. README.md has the
//! layout.

use crate::cases::{
    arbitrary, hash, random_block, sides, vector, BlockCall, Rng, Toward, TOWARDS, USES,
};
use crate::lists::{narrow, small, spaced, List};
use crate::model::{Block, Mv, OnePlane, Predicted, NOTHING_MOVED, PRED_LEN};
use crate::{pad, plane_config, plane_of, Picture};

/// Samples that a plane of this picture needs.
pub(crate) fn needed(pic: [u32; 2], chroma: bool) -> usize {
    let c = OnePlane {
        chroma,
        pic,
        ori_mv: [0; 2],
        gmv: [0; 2],
        side: [0; 2],
    };
    c.plane_len()
}

/// A sample that is set apart: its plane, 0 to 5, its place there and what it becomes.
#[derive(Clone, Copy)]
pub(crate) struct Set {
    pub(crate) plane: usize,
    pub(crate) place: usize,
    pub(crate) value: u16,
}

/// The six planes that are lent to calls: Y, U, V of list 0, then of list 1.
#[derive(Clone)]
struct Lent {
    pic: [u32; 2],
    seed: [u16; 2],
    limit: u16,
    padded: bool,
    len: [usize; 6],
    set: Option<Set>,
}

impl Lent {
    /// As long as they need to be, or a little longer.
    fn new(pic: [u32; 2], rng: &mut Rng) -> Self {
        Lent {
            pic,
            seed: [(); 2].map(|_| rng.below(65000) as u16),
            limit: 1024,
            padded: false,
            len: [0, 1, 2, 0, 1, 2].map(|k| needed(pic, k > 0) + [0, 1, 17][rng.below(3)]),
            set: None,
        }
    }

    /// A plane is padded if it is long enough.
    fn samples(&self) -> [Vec<u16>; 6] {
        [0, 1, 2, 3, 4, 5].map(|k| {
            let (list, plane) = (k / 3, k % 3);
            let mut samples = arbitrary(self.len[k], self.seed[list] + plane as u16);
            samples.iter_mut().for_each(|sample| *sample %= self.limit);
            if self.padded && self.len[k] >= needed(self.pic, plane > 0) {
                let [w, h] = self.pic.map(|n| n as usize);
                pad(plane > 0, w, h, &mut samples);
            }
            if let Some(set) = self.set.filter(|set| set.plane == k) {
                samples[set.place] = set.value;
            }
            samples
        })
    }

    /// For the Rust, which does not read a plane that is too short: its list is not in use.
    fn picture(&self, samples: &[Vec<u16>]) -> Picture {
        let [w, h] = self.pic.map(|n| n as usize);
        Picture::new([0, 1, 2].map(|k| {
            let mut samples = samples[k].clone();
            samples.resize(samples.len().max(needed(self.pic, k > 0)), 0);
            plane_of(k > 0, w, h, &samples)
        }))
    }
}

/// A call, how many samples of each block it is lent, and where these begin.
struct Case {
    c: BlockCall,
    len: [usize; 2],
    seed: [u16; 2],
}

impl Case {
    /// Blocks as long as they need to be, or a little longer.
    fn new(c: BlockCall, rng: &mut Rng) -> Self {
        Case {
            c,
            len: [(); 2].map(|_| PRED_LEN + [0, 1, 5][rng.below(3)]),
            seed: [(); 2].map(|_| rng.below(65536) as u16),
        }
    }
}

/// Planes and the calls on them. Where nothing is refused, the Rust has to agree.
fn push(list: &mut List, lent: &Lent, cases: &[Case]) {
    let set = lent.set.map_or([6, 0, 0], |set| {
        [small(set.plane), small(set.place), set.value]
    });
    list.record(
        &[
            &lent.pic.map(narrow)[..],
            &lent.seed,
            &[lent.limit, u16::from(lent.padded)],
            &lent.len.map(small),
            &set,
            &[small(cases.len())],
        ]
        .concat(),
    );
    let samples = lent.samples();
    let planes = [0, 3].map(|first| [0, 1, 2].map(|k| &samples[first + k][..]));
    let mut pictures = None;
    for Case { c, len, seed } in cases {
        let [used0, used1] = c.used.map(u16::from);
        let lists = [0, 1].map(|k| {
            let [mvx, mvy] = c.mv[k].map(|v| v as u16);
            [mvx, mvy, narrow(c.poc[k])]
        });
        list.record(
            &[
                &c.b.place.map(narrow)[..],
                &c.b.side.map(narrow),
                &[used0 + 2 * used1],
                &lists.concat(),
                &len.map(small),
                seed,
                &[0],
            ]
            .concat(),
        );

        let [mut pred0, mut pred1] = [0, 1].map(|k| arbitrary(len[k], seed[k]));
        let [mut rust0, mut rust1] = [pred0.clone(), pred1.clone()];
        let Predicted { code, moved } = c.by_the_document(planes, &mut pred0, &mut pred1);
        let mut rust_moved = [NOTHING_MOVED; 2];
        if code == 0 {
            assert!(c.in_domain(), "{:?}", c);
            let make = || [0, 3].map(|first| lent.picture(&samples[first..first + 3]));
            let pictures = pictures.get_or_insert_with(make);
            c.by_the_rust(pictures.each_ref(), &mut rust0, &mut rust1);
            rust_moved = c.moved_by_the_rust();
        }
        let is_same = rust0 == pred0 && rust1 == pred1 && rust_moved == moved;
        assert!(is_same, "the Rust and the documents: {:?}", c);
        let reports = spaced(&rust_moved.concat());
        list.answer(&format!(
            "{code} {reports} {} {}",
            hash(&rust0),
            hash(&rust1)
        ));
    }
}

/// Every pair of ways that a vector leads.
pub(crate) fn towards() -> impl Iterator<Item = [Toward; 2]> {
    TOWARDS.iter().flat_map(|x| TOWARDS.map(|y| [*x, y]))
}

pub(crate) fn random_vector(b: &Block, rng: &mut Rng) -> Mv {
    let towards = [(); 2].map(|_| TOWARDS[rng.below(7)]);
    vector(b, towards, rng)
}

/// A call with any vectors and counts.
fn random_call(b: Block, used: [bool; 2], rng: &mut Rng) -> BlockCall {
    BlockCall {
        b,
        used,
        mv: [(); 2].map(|_| random_vector(&b, rng)),
        poc: [(); 2].map(|_| [0, 1, 32767][rng.below(3)]),
    }
}

/// Accepted calls.
pub fn accepted() -> [Vec<u8>; 2] {
    let mut rng = Rng(41);
    let mut list = List::default();

    // Every pair of ways that a vector leads, with each use of the lists. Where borders are
    // arbitrary it shows where a start is held.
    for (k, pic) in [[4, 4], [8, 4], [20, 12], [36, 28]].iter().enumerate() {
        for padded in [false, true] {
            let lent = Lent {
                padded,
                ..Lent::new(*pic, &mut rng)
            };
            let mut cases = Vec::new();
            for used in USES {
                for towards in towards() {
                    let b = random_block(*pic, &mut rng);
                    let mut c = random_call(b, used, &mut rng);
                    // the list alone, or either
                    let which = if used[0] && used[1] {
                        k % 2
                    } else {
                        usize::from(used[1])
                    };
                    c.mv[which] = vector(&b, towards, &mut rng);
                    cases.push(Case::new(c, &mut rng));
                }
            }
            push(&mut list, &lent, &cases);
        }
    }

    // Every phase of chroma, and with it of luma, with each use of the lists.
    let lent = Lent {
        padded: true,
        ..Lent::new([32, 24], &mut rng)
    };
    let mut cases = Vec::new();
    for used in USES {
        for phase in 0..64 {
            let b = random_block(lent.pic, &mut rng);
            let mut c = random_call(b, used, &mut rng);
            for mv in &mut c.mv {
                let inside = vector(&b, [Toward::Inside; 2], &mut rng);
                *mv = [inside[0] & !7 | phase % 8, inside[1] & !7 | phase / 8];
            }
            cases.push(Case::new(c, &mut rng));
        }
    }
    push(&mut list, &lent, &cases);

    // Every size of a block with each use of the lists.
    for (pic, padded) in [([64, 64], false), ([96, 84], true)] {
        let lent = Lent {
            padded,
            ..Lent::new(pic, &mut rng)
        };
        let mut cases = Vec::new();
        for side in sides(64)
            .iter()
            .flat_map(|w| sides(64).into_iter().map(move |h| [*w, h]))
        {
            let side = side.map(|n| n as u32);
            for used in USES {
                let place =
                    [0, 1].map(|d| 4 * rng.below((pic[d] - side[d]) as usize / 4 + 1) as u32);
                let b = Block { pic, place, side };
                cases.push(Case::new(random_call(b, used, &mut rng), &mut rng));
            }
        }
        push(&mut list, &lent, &cases);
    }

    // Equal motion, from the start or by clipping alone, and with other counts; over two pictures and
    // over one.
    for pic in [[4, 4], [20, 12]] {
        for is_one in [false, true] {
            let mut lent = Lent::new(pic, &mut rng);
            lent.padded = is_one;
            if is_one {
                lent.seed[1] = lent.seed[0];
            }
            let mut cases = Vec::new();
            for towards in towards() {
                let b = random_block(pic, &mut rng);
                let first = vector(&b, towards, &mut rng);
                let again = vector(&b, towards, &mut rng);
                let is_again = b.clipped_place(again) == b.clipped_place(first);
                let second = if is_again { again } else { first };
                for poc in [[7, 7], [7, 8]] {
                    let c = BlockCall {
                        b,
                        used: [true, true],
                        mv: [first, second],
                        poc,
                    };
                    cases.push(Case::new(c, &mut rng));
                }
            }
            push(&mut list, &lent, &cases);
        }
    }
    list.done()
}

/// Refusals, and accepted calls next to them.
pub fn bad() -> [Vec<u8>; 2] {
    let mut rng = Rng(42);
    let mut list = List::default();
    picture_sides(&mut list, &mut rng);
    block_sides(&mut list, &mut rng);
    lists_in_use(&mut list, &mut rng);
    lengths(&mut list, &mut rng);
    counts(&mut list, &mut rng);
    examined(&mut list, &mut rng);
    moved(&mut list, &mut rng);
    list.done()
}

/// A call that is refused by every number from 2 on.
fn refused_by_all(b: Block) -> Case {
    let side = [12, 12];
    Case {
        c: BlockCall {
            b: Block { side, ..b },
            used: [false; 2],
            mv: [[0; 2]; 2],
            poc: [32768; 2],
        },
        len: [0; 2],
        seed: [1; 2],
    }
}

/// 1, and 1 before all others.
fn picture_sides(list: &mut List, rng: &mut Rng) {
    for pic in [
        [8, 8],
        [0, 8],
        [8, 0],
        [2, 8],
        [8, 6],
        [9, 8],
        [8132, 8],
        [8, 8132],
        [u32::MAX - 3, 8],
        [8, u32::MAX],
    ] {
        let lent = Lent {
            pic,
            ..Lent::new([8, 8], rng)
        };
        let b = Block {
            pic,
            place: [0, 0],
            side: [4, 4],
        };
        let mut c = random_call(random_block([8, 8], rng), USES[2], rng);
        c.b = b;
        c.mv = [[5, 6], [-7, 8]];
        push(list, &lent, &[Case::new(c, rng), refused_by_all(b)]);
    }
}

/// 2, and 2 before 3, 4 and 5: sides, places and extents in each direction.
fn block_sides(list: &mut List, rng: &mut Rng) {
    let pic = [68, 64];
    let lent = Lent::new(pic, rng);
    let mut cases = Vec::new();
    let far = u32::MAX - 3;
    let sides = [
        0, 1, 2, 3, 4, 5, 6, 8, 12, 16, 24, 32, 48, 63, 64, 65, 128, 256, far,
    ];
    let mut pairs: Vec<(u32, u32)> = sides.iter().map(|side| (0, *side)).collect();
    for side in [4, 16, 64] {
        for d in 0..2 {
            let last = pic[d] - side;
            pairs.extend([(last, side), (last + 4, side)]);
        }
    }
    pairs.extend([1, 2, 3, 5, 63, 64, 68, far].map(|place| (place, 4)));
    for (k, (place, side)) in pairs.into_iter().enumerate() {
        for d in 0..2 {
            let mut b = Block {
                pic,
                place: [4, 8],
                side: [8, 16],
            };
            b.place[d] = place;
            b.side[d] = side;
            let c = BlockCall {
                b,
                used: USES[k % 3],
                mv: [[-9, 6], [10, -7]],
                poc: [3, 4],
            };
            cases.push(Case::new(c, rng));
            let mut all = refused_by_all(b);
            all.c.b.side = b.side;
            cases.push(all);
        }
    }
    push(list, &lent, &cases);
}

/// 3, and 3 before 4 and 5.
fn lists_in_use(list: &mut List, rng: &mut Rng) {
    let pic = [12, 8];
    let whole = Lent::new(pic, rng);
    let empty = Lent {
        len: [0; 6],
        ..whole.clone()
    };
    for lent in [whole, empty] {
        let mut cases = Vec::new();
        for used in [[false, false], [true, false], [false, true], [true, true]] {
            let b = random_block(pic, rng);
            cases.push(Case::new(random_call(b, used, rng), rng));
            let mut all = refused_by_all(b);
            all.c.b = b;
            all.c.used = used;
            cases.push(all);
        }
        push(list, &lent, &cases);
    }
}

/// 4, and 4 before 5 and 6. Of a list not in use the planes are not needed.
fn lengths(list: &mut List, rng: &mut Rng) {
    let with_uses = |lent: &Lent, rng: &mut Rng| {
        let mut cases = Vec::new();
        for used in USES {
            for poc in [[0, 32767], [32768, 40000]] {
                let mut c = random_call(random_block(lent.pic, rng), used, rng);
                c.poc = poc;
                cases.push(Case::new(c, rng));
            }
        }
        cases
    };
    for (pic, limit) in [([4, 4], 1024), ([12, 8], 65535)] {
        let exact = Lent {
            limit,
            len: [0, 1, 2, 0, 1, 2].map(|k| needed(pic, k > 0)),
            ..Lent::new(pic, rng)
        };
        let cases = with_uses(&exact, rng);
        push(list, &exact, &cases);
        for plane in 0..6 {
            for len in [exact.len[plane] - 1, 0] {
                let mut short = exact.clone();
                short.len[plane] = len;
                let cases = with_uses(&short, rng);
                push(list, &short, &cases);
            }
        }
        for first in [0, 3] {
            let mut short = exact.clone();
            short.len[first..first + 3].fill(0);
            let cases = with_uses(&short, rng);
            push(list, &short, &cases);
        }
    }
    let lent = Lent::new([20, 12], rng);
    let mut cases = Vec::new();
    for used in USES {
        for other in [0, 6143, 6144, 6145] {
            for len in [[6144, other], [other, 6144]] {
                let c = random_call(random_block(lent.pic, rng), used, rng);
                cases.push(Case {
                    len,
                    ..Case::new(c, rng)
                });
            }
        }
    }
    push(list, &lent, &cases);
}

/// 5 of lists in use, and 5 before 6.
fn counts(list: &mut List, rng: &mut Rng) {
    for limit in [1024, 65535] {
        let lent = Lent {
            limit,
            ..Lent::new([12, 8], rng)
        };
        let mut cases = Vec::new();
        for used in USES {
            for count in [32767, 32768, 65279, u32::MAX] {
                for poc in [[0, count], [count, 0], [count, count]] {
                    let mut c = random_call(random_block(lent.pic, rng), used, rng);
                    c.poc = poc;
                    cases.push(Case::new(c, rng));
                }
            }
        }
        push(list, &lent, &cases);
    }
}

/// 6: one sample in and next to each corner of each window; then samples above 1023 here and there.
fn examined(list: &mut List, rng: &mut Rng) {
    let pic = [24, 16];
    for plane in 0..6 {
        for value in [1023, 1024] {
            let mut lent = Lent::new(pic, rng);
            let (which, chroma) = (plane / 3, plane % 3 > 0);
            // column and row of the sample in the picture's plane
            let at = if chroma { [6, 4] } else { [11, 7] };
            let cfg = plane_config(chroma, pic[0] as usize, pic[1] as usize);
            lent.set = Some(Set {
                plane,
                place: (cfg.yorigin + at[1]) * cfg.stride + cfg.xorigin + at[0],
                value,
            });
            let b = Block {
                pic,
                place: [8, 4],
                side: [8, 4],
            };
            let mut cases = Vec::new();
            // where the window begins, so that the sample is its first, its last, or just outside
            let starts = [0, 1].map(|d| {
                let part = if chroma { 2 } else { 1 };
                let more = if chroma { 3 } else { 5 };
                let n = b.side[d] as i16 / part + more;
                let at = at[d] as i16;
                match value {
                    1023 => vec![at, at - n + 1],
                    _ => vec![at, at - n + 1, at + 1, at - n],
                }
            });
            let [across, down] = &starts;
            for start in across
                .iter()
                .flat_map(|x| down.iter().map(move |y| [*x, *y]))
            {
                let (parts, before) = if chroma { (8, 1) } else { (4, 2) };
                let mv = [0, 1].map(|d| {
                    let phase = rng.below(parts as usize) as i16;
                    (start[d] + before) * parts + phase - 4 * b.place[d] as i16
                });
                for used in USES {
                    let mut c = random_call(b, used, rng);
                    c.mv[which] = mv;
                    cases.push(Case::new(c, rng));
                }
                // list 0 alone stands, and list 1 is examined all the same
                let c = BlockCall {
                    b,
                    used: [true, true],
                    mv: [mv, mv],
                    poc: [9, 9],
                };
                cases.push(Case::new(c, rng));
            }
            push(list, &lent, &cases);
        }
    }
    for pic in [[4, 4], [24, 16]] {
        let lent = Lent {
            limit: 1027,
            ..Lent::new(pic, rng)
        };
        let cases: Vec<Case> = (0..120)
            .map(|k| {
                let c = random_call(random_block(pic, rng), USES[k % 3], rng);
                Case::new(c, rng)
            })
            .collect();
        push(list, &lent, &cases);
    }
}

/// Document 02, W2: "a refused clipping or block call, reports nothing moved": vectors that are moved in both
/// components, each to another side, accepted and refused by every number.
fn moved(list: &mut List, rng: &mut Rng) {
    let whole = Lent::new([20, 12], rng);
    let bad_picture = Lent {
        pic: [22, 12],
        ..whole.clone()
    };
    let bad_samples = Lent {
        limit: 65535,
        ..whole.clone()
    };
    let none: fn(&mut Case) = |_| ();
    let of_a_call: [fn(&mut Case); 5] = [
        none,
        |case| case.c.b.side[0] = 12,
        |case| case.c.used = [false; 2],
        |case| case.len[1] = PRED_LEN - 1,
        |case| case.c.poc = [32768; 2],
    ];
    for (lent, faults) in [
        (whole, &of_a_call[..]),
        (bad_picture, &[none]),
        (bad_samples, &[none]),
    ] {
        let mut cases = Vec::new();
        for used in USES {
            for fault in faults {
                let b = Block {
                    pic: lent.pic,
                    place: [8, 4],
                    side: [8, 4],
                };
                let c = BlockCall {
                    b,
                    used,
                    mv: [[-2000, 2000], [2000, -2000]],
                    poc: [3, 4],
                };
                let mut case = Case::new(c, rng);
                fault(&mut case);
                cases.push(case);
            }
        }
        push(list, &lent, &cases);
    }
}
