//! The lists of calls of util.rs with their answers, in the records that crates/util_lists reads:
//! one list with the Rust's answers, and one of refusals, which the Rust does not have and document
//! 01 (`model`) answers. README.md has the layout.

use crate::cases::{allowed_flags, blocks, neighbours, word, Rng, LIMITS};
use crate::lists::{narrow, spaced, List};
use crate::model::{self, Block, Candidates, Collocated, Mv, Pocs};

// ---- records

/// Sixteen numbers of two bytes, low byte first.
type Record = [u16; 16];

/// The number returned, and all else that a call gives.
type Answer = Vec<i32>;

/// What a record can lend: the words and the motion of 16 units.
pub(crate) const MAX_UNITS: usize = 16;
const MAX_MOTION: usize = 4 * MAX_UNITS;

/// The numbers that every record begins with; the first says which call it is.
fn record(call: u16, b: &Block) -> Record {
    let [[pic_w, pic_h], [x, y], [w, h]] = [b.pic, b.place, b.side];
    let mut r = [0; 16];
    r[0] = call;
    r[1..7].copy_from_slice(&[pic_w, pic_h, x, y, w, h].map(narrow));
    r
}

fn answer(code: u32, vectors: &[Mv]) -> Answer {
    let numbers = vectors.iter().flatten().map(|v| i32::from(*v));
    std::iter::once(code as i32).chain(numbers).collect()
}

/// A call.
trait Case {
    fn record(&self) -> Record;
    fn by_the_rust(&self) -> Answer;
    fn by_the_document(&self) -> Answer;

    /// For accepted calls, on which the two agree.
    fn agreed(&self) -> (Record, Answer) {
        let answer = self.by_the_rust();
        assert_eq!(answer, self.by_the_document(), "the Rust and document 01");
        (self.record(), answer)
    }

    fn documented(&self) -> (Record, Answer) {
        (self.record(), self.by_the_document())
    }
}

struct Flags {
    b: Block,
    states: [u8; MAX_UNITS],
    words_len: usize,
}

impl Flags {
    fn words(&self) -> Vec<u32> {
        let states = self.states.iter().take(self.words_len);
        states.map(|state| word(*state)).collect()
    }
}

impl Case for Flags {
    fn record(&self) -> Record {
        let mut r = record(0, &self.b);
        r[7] = self.words_len as u16;
        for (k, pair) in self.states.chunks_exact(2).enumerate() {
            r[8 + k] = u16::from_le_bytes([pair[0], pair[1]]);
        }
        r
    }

    fn by_the_rust(&self) -> Answer {
        let avail = crate::evc_get_avail_inter(&self.b, &self.words());
        vec![0, i32::from(avail)]
    }

    fn by_the_document(&self) -> Answer {
        let (code, avail) = model::flags(&self.b, &self.words());
        vec![code as i32, i32::from(avail)]
    }
}

/// Made-up motion: number k is seed + k × step in sixteen bits. The motion map begins at 0, the
/// collocated map at 64, the old candidates at 128.
#[derive(Clone, Copy)]
struct Motion {
    is_present: bool,
    col_len: usize,
    seed: u16,
    step: u16,
}

const COLLOCATED: usize = MAX_MOTION;
const OLD: usize = 2 * MAX_MOTION;

impl Motion {
    fn numbers(&self, first: usize, n: usize) -> Vec<i16> {
        let number = |k| usize::from(self.seed) + k * usize::from(self.step);
        (first..first + n).map(|k| number(k) as i16).collect()
    }

    fn col_map(&self) -> Vec<i16> {
        self.numbers(COLLOCATED, self.col_len)
    }

    fn old(&self) -> Candidates {
        let old = self.numbers(OLD, 8);
        Candidates {
            mv: [0, 1, 2, 3].map(|k| [old[2 * k], old[2 * k + 1]]),
            refi: [-1, 1, -128, 127],
        }
    }

    fn record(&self, call: u16, b: &Block) -> Record {
        let mut r = record(call, b);
        let Motion { seed, step, .. } = *self;
        r[7..11].copy_from_slice(&[self.is_present.into(), self.col_len as u16, seed, step]);
        r
    }
}

#[derive(Clone, Copy)]
struct Candidate {
    b: Block,
    motion: Motion,
    lidx: u32,
    avail: u16,
    map_len: usize,
}

/// The four vectors, and the four reference numbers.
fn candidates_answer(code: u32, candidates: Candidates) -> Answer {
    let mut numbers = answer(code, &candidates.mv);
    numbers.extend(candidates.refi.map(i32::from));
    numbers
}

impl Case for Candidate {
    fn record(&self) -> Record {
        let mut r = self.motion.record(1, &self.b);
        r[11..14].copy_from_slice(&[narrow(self.lidx), self.avail, self.map_len as u16]);
        r
    }

    fn by_the_rust(&self) -> Answer {
        let (map, col_map) = (self.motion.numbers(0, self.map_len), self.motion.col_map());
        let col = self.motion.is_present.then(|| &col_map[..]);
        let old = self.motion.old();
        let lidx = self.lidx as usize;
        let candidates = crate::evc_get_motion(&self.b, lidx, self.avail, &map, col, None, old);
        candidates_answer(0, candidates)
    }

    fn by_the_document(&self) -> Answer {
        let (map, col_map) = (self.motion.numbers(0, self.map_len), self.motion.col_map());
        let col = Collocated {
            is_present: self.motion.is_present,
            map: &col_map,
        };
        let old = self.motion.old();
        let (code, candidates) = model::candidates(&self.b, self.lidx, self.avail, &map, col, old);
        candidates_answer(code, candidates)
    }
}

#[derive(Clone, Copy)]
struct Direct {
    b: Block,
    motion: Motion,
    counts: [u32; 4],
}

impl Direct {
    fn pocs(&self) -> Pocs {
        let [poc, poc0, poc1, list_poc0] = self.counts;
        Pocs {
            poc,
            poc0,
            poc1,
            list_poc0,
        }
    }
}

impl Case for Direct {
    fn record(&self) -> Record {
        let mut r = self.motion.record(2, &self.b);
        r[11..15].copy_from_slice(&self.counts.map(narrow));
        r
    }

    fn by_the_rust(&self) -> Answer {
        let col_map = self.motion.col_map();
        let col = self.motion.is_present.then(|| &col_map[..]);
        answer(0, &crate::evc_get_mv_dir(&self.b, self.pocs(), col, None))
    }

    fn by_the_document(&self) -> Answer {
        let col = Collocated {
            is_present: self.motion.is_present,
            map: &self.motion.col_map(),
        };
        let (code, vectors) = model::direct(&self.b, self.pocs(), col);
        answer(code, &vectors)
    }
}

// ---- accepted calls

/// Every block of the pictures of up to 3 by 3 units, and some of those of 12 and 16.
pub(crate) fn some_blocks() -> Vec<Block> {
    let small = [[1, 1], [1, 2], [2, 1], [2, 2], [3, 3]];
    let large = [[4, 3], [4, 4], [16, 1], [1, 16]];
    let mut all: Vec<Block> = small.iter().flat_map(|units| blocks(*units)).collect();
    for units in large {
        all.extend(blocks(units).iter().rev().step_by(14));
    }
    all
}

/// A length that is enough: mostly the one that is needed.
pub(crate) fn enough(needed: usize, most: usize, rng: &mut Rng) -> usize {
    match rng.below(4) {
        0 => needed + rng.below(most - needed + 1),
        _ => needed,
    }
}

/// Each unit that a flag looks at in each of the four states, by turns among units that are all
/// coded and not intra and among random ones; in 3 by 3 units both for each state.
fn flags() -> Vec<Flags> {
    let mut rng = Rng(8);
    let mut list = Vec::new();
    for b in some_blocks() {
        let units = neighbours(&b);
        // without a neighbour the states of the block's own units vary
        let units = if units.is_empty() { vec![0] } else { units };
        for k in 0..8 * units.len() {
            let (unit, state, is_random) = (units[k / 8], k / 2 % 4, k % 2 == 1);
            if b.pic != GOOD.pic && is_random != (state / 2 == k / 8 % 2) {
                continue;
            }
            let others = if is_random { [0, 1, 2, 3] } else { [1; 4] };
            let mut states = [0; MAX_UNITS].map(|_: u8| others[rng.below(4)]);
            states[unit] = state as u8;
            // the other bits of each word
            for state in &mut states {
                *state |= 4 * rng.below(2) as u8;
            }
            let words_len = enough(b.units(), MAX_UNITS, &mut rng);
            list.push(Flags {
                b,
                states,
                words_len,
            });
        }
    }
    list
}

/// Motion with a component at a limit, among those at the places that a call reads. No two numbers
/// of it are equal, since the step is odd.
fn motion(b: &Block, is_present: bool, read: &[usize], rng: &mut Rng) -> Motion {
    let step = 2 * rng.below(32768) + 1;
    let limit = LIMITS[rng.below(5)] as usize;
    let at = read[rng.below(read.len())];
    let needed = if is_present { 4 * b.units() } else { 0 };
    Motion {
        is_present,
        col_len: enough(needed, MAX_MOTION, rng),
        seed: limit.wrapping_sub(at * step) as u16,
        step: step as u16,
    }
}

/// Where the motion of a record has the two components of a list of the unit at (x, y).
fn components(b: &Block, first: usize, (x, y): (i64, i64), lidx: usize) -> [usize; 2] {
    let at = first + 4 * b.unit_at(x, y).unwrap() + 2 * lidx;
    [at, at + 1]
}

/// Every allowed combination of the flags that are read. For blocks of one unit among 3 by 3: both
/// lists, with and without a map, the flags that are not read all set and all unset. For the others
/// both with and without a map, the rest by turns.
fn candidates() -> Vec<Candidate> {
    let mut rng = Rng(9);
    let mut list = Vec::new();
    for b in some_blocks() {
        let [x, y, right, _] = b.edges();
        let mut places = vec![(x - 1, y), (x, y - 1), (right, y - 1)];
        places.retain(|(x, y)| b.unit_at(*x, *y).is_some());
        for avail in allowed_flags(&b) {
            let turn = list.len() / 2;
            for k in 0..8 {
                if (b.pic, b.side) != (GOOD.pic, GOOD.side) && k % 4 != turn % 4 {
                    continue;
                }
                let (lidx, others, is_present) = (k % 2, [0, 0xffbc][k / 2 % 2], k / 4 == 1);
                let mut read = Vec::from(components(&b, COLLOCATED, (x, y), 0));
                for place in &places {
                    read.extend(components(&b, 0, *place, lidx));
                }
                list.push(Candidate {
                    b,
                    motion: motion(&b, is_present, &read, &mut rng),
                    lidx: lidx as u32,
                    avail: avail | others,
                    map_len: enough(4 * b.units(), MAX_MOTION, &mut rng),
                });
            }
        }
    }
    list
}

/// Motion in which the collocated vector is the given one.
fn collocated(b: &Block, [x, y]: Mv) -> Motion {
    let [bx, by, ..] = b.edges();
    let [at, _] = components(b, COLLOCATED, (bx, by), 0);
    let step = y.wrapping_sub(x) as u16;
    Motion {
        is_present: true,
        col_len: 4 * b.units(),
        seed: (x as usize).wrapping_sub(at * usize::from(step)) as u16,
        step,
    }
}

/// Document 01's lines, every four counts around 0 and 32,767 with vectors at the limits, and
/// blocks everywhere with and without a map.
fn direct() -> Vec<Direct> {
    let mut rng = Rng(10);
    let corner = blocks([2, 2])[3];
    let line = |counts, v| Direct {
        b: corner,
        motion: collocated(&corner, v),
        counts,
    };
    let mut list = vec![line([4, 0, 8, 0], [7, -7]), line([5, 0, 6, 5], [10000, 0])];
    const COUNTS: [u32; 4] = [0, 1, 32766, 32767];
    for k in 0..256 {
        let counts = [k, k / 4, k / 16, k / 64].map(|k| COUNTS[k % 4]);
        // each pair of limits, as 25 and 256 have no common divisor
        let v = [k, k / 5].map(|k| LIMITS[k % 5]);
        list.push(line(counts, v));
    }
    for b in some_blocks() {
        let most = [4, 64, 32768][rng.below(3)];
        let [x, y, ..] = b.edges();
        let read = components(&b, COLLOCATED, (x, y), 0);
        for is_present in [true, false] {
            list.push(Direct {
                b,
                motion: motion(&b, is_present, &read, &mut rng),
                counts: [0; 4].map(|_: u32| rng.below(most) as u32),
            });
        }
    }
    list
}

// ---- refusals, and the accepted calls next to them

/// Allowed: the middle of 3 by 3 units.
pub(crate) const GOOD: Block = Block {
    pic: [12, 12],
    place: [4, 4],
    side: [4, 4],
};
const GOOD_LEN: usize = 4 * 9;

/// Numbers just below 2^32.
pub(crate) const HUGE: [u32; 3] = [0xffff_ff00, 0xffff_fffc, 0xffff_ffff];

/// Sides and places around every edge, one at a time, across and down.
pub(crate) fn edge_blocks() -> Vec<Block> {
    let pics = [
        0, 1, 2, 3, 4, 5, 8, 10, 8124, 8126, 8127, 8128, 8129, 8132, 32768, 65276,
    ];
    let sides = [
        0, 1, 2, 3, 4, 5, 6, 8, 12, 16, 20, 24, 32, 48, 60, 64, 68, 128, 32768,
    ];
    let places = [0, 1, 2, 3, 5, 6, 7, 8, 10, 12, 16, 32768];
    let line = [64, 4]; // 16 units, where the sides up to 64 are inside
    let mut all = vec![GOOD];
    for d in 0..2 {
        let with = |pair: [u32; 2], n| if d == 0 { [n, pair[1]] } else { [pair[0], n] };
        let pic = pics.iter().chain(&HUGE).map(|n| Block {
            pic: with(GOOD.pic, *n),
            ..GOOD
        });
        let place = places.iter().chain(&HUGE).map(|n| Block {
            place: with(GOOD.place, *n),
            ..GOOD
        });
        let side = sides.iter().chain(&HUGE).map(|n| Block {
            pic: if d == 0 { line } else { [line[1], line[0]] },
            place: [0, 0],
            side: with(GOOD.side, *n),
        });
        all.extend(pic.chain(place).chain(side));
    }
    all
}

/// The good block, with a picture and a block at fault by the two low bits of `faults`.
pub(crate) fn faulty(faults: usize) -> Block {
    let mut b = GOOD;
    if faults & 1 != 0 {
        b.pic[1] = 8132;
    }
    if faults & 2 != 0 {
        b.side[0] = 12;
    }
    b
}

fn bad_flags() -> Vec<Flags> {
    let case = |b, words_len| Flags {
        b,
        states: [1; MAX_UNITS],
        words_len,
    };
    let edges = edge_blocks().into_iter().map(|b| case(b, MAX_UNITS));
    let lengths = [0, 1, 8, 9, 10, 16].iter().map(|n| case(GOOD, *n));
    // every set of faults: the lowest number wins
    let faults = (0..8).map(|k| case(faulty(k), if k & 4 != 0 { 8 } else { 9 }));
    edges.chain(lengths).chain(faults).collect()
}

fn bad_candidates() -> Vec<Candidate> {
    let motion = |is_present, col_len| Motion {
        is_present,
        col_len,
        seed: 1234,
        step: 4321,
    };
    let good = Candidate {
        b: GOOD,
        motion: motion(true, GOOD_LEN),
        lidx: 1,
        avail: 0,
        map_len: GOOD_LEN,
    };
    let mut list = Vec::new();
    for b in edge_blocks() {
        list.push(Candidate {
            b,
            motion: motion(true, MAX_MOTION),
            map_len: MAX_MOTION,
            ..good
        });
    }
    for lidx in [0, 1, 2, 3, 255, 256, 65279].iter().chain(&HUGE) {
        list.push(Candidate {
            lidx: *lidx,
            ..good
        });
    }
    for len in [0, 1, GOOD_LEN - 1, GOOD_LEN, GOOD_LEN + 1, MAX_MOTION] {
        list.push(Candidate {
            map_len: len,
            ..good
        });
        for is_present in [false, true] {
            list.push(Candidate {
                motion: motion(is_present, len),
                ..good
            });
        }
    }
    // every flag that is read, wherever the block is, and all the others
    for b in blocks([3, 3]) {
        for avail in 0..8u16 {
            let read = avail & 3 | (avail & 4) << 4;
            let others = [0, 0xffbc][(avail.count_ones() + b.place[0] / 4) as usize % 2];
            list.push(Candidate {
                b,
                avail: read | others,
                ..good
            });
        }
    }
    // every set of faults, with each flag in turn: in the picture's corner it names a neighbour outside
    for avail in [1 << 0, 1 << 1, 1 << 6, 0xffff] {
        for k in 0..32 {
            let mut b = faulty(k);
            if k & 16 != 0 {
                b.place = [0, 0];
            }
            list.push(Candidate {
                b,
                motion: motion(k % 2 == 0, GOOD_LEN),
                lidx: if k & 4 != 0 { 2 } else { 0 },
                avail,
                map_len: if k & 8 != 0 { GOOD_LEN - 1 } else { GOOD_LEN },
            });
        }
    }
    list
}

fn bad_direct() -> Vec<Direct> {
    let motion = |is_present, col_len| Motion {
        is_present,
        col_len,
        seed: 1234,
        step: 4321,
    };
    let good = Direct {
        b: GOOD,
        motion: motion(true, GOOD_LEN),
        counts: [5, 1, 9, 2],
    };
    let mut list = Vec::new();
    for b in edge_blocks() {
        list.push(Direct {
            b,
            motion: motion(true, MAX_MOTION),
            ..good
        });
    }
    for len in [0, 1, GOOD_LEN - 1, GOOD_LEN, GOOD_LEN + 1, MAX_MOTION] {
        for is_present in [false, true] {
            list.push(Direct {
                motion: motion(is_present, len),
                ..good
            });
        }
    }
    // each count, also without a map and where co is 0 otherwise
    for count in [32766, 32767, 32768, 32769, 65279].iter().chain(&HUGE) {
        for place in 0..4 {
            for (is_present, mut counts) in [(true, good.counts), (false, [3; 4])] {
                counts[place] = *count;
                list.push(Direct {
                    motion: motion(is_present, GOOD_LEN),
                    counts,
                    ..good
                });
            }
        }
    }
    for k in 0..16 {
        let mut direct = Direct {
            b: faulty(k),
            ..good
        };
        direct.motion.col_len -= k >> 2 & 1;
        direct.counts[k % 4] += if k & 8 != 0 { 32768 } else { 0 };
        list.push(direct);
    }
    list
}

// ---- files

fn program(calls: Vec<(Record, Answer)>) -> [Vec<u8>; 2] {
    let mut list = List::default();
    for (record, answer) in calls {
        list.record(&record);
        list.answer(&spaced(&answer));
    }
    list.done()
}

/// Records and answers of accepted calls, by the Rust.
pub fn accepted() -> [Vec<u8>; 2] {
    let mut calls: Vec<_> = flags().iter().map(Case::agreed).collect();
    calls.extend(candidates().iter().map(Case::agreed));
    calls.extend(direct().iter().map(Case::agreed));
    program(calls)
}

/// Records and answers of refusals and of the accepted calls next to them, by document 01.
pub fn bad() -> [Vec<u8>; 2] {
    let mut calls: Vec<_> = bad_flags().iter().map(Case::documented).collect();
    calls.extend(bad_candidates().iter().map(Case::documented));
    calls.extend(bad_direct().iter().map(Case::documented));
    program(calls)
}
