//! Numbers for the cases, and smaller ones for a case that fails.

use oracle::cases::{random_block, Rng};
use oracle::model::{Block, Mv};

pub fn one_in(n: usize, rng: &mut Rng) -> bool {
    rng.below(n) == 0
}

fn one_of<T: Copy>(all: &[T], rng: &mut Rng) -> T {
    all[rng.below(all.len())]
}

pub fn seed(rng: &mut Rng) -> u64 {
    1 + rng.below(1 << 32) as u64
}

/// Near the limits of document 01 and of the machine.
const WILD: [u32; 30] = [
    0,
    1,
    2,
    3,
    4,
    8,
    12,
    16,
    32,
    48,
    64,
    96,
    128,
    256,
    8124,
    8128,
    8132,
    32764,
    32768,
    65532,
    65536,
    65540,
    1 << 30,
    (1 << 31) - 4,
    1 << 31,
    (1 << 31) + 4,
    u32::MAX - 63,
    u32::MAX - 7,
    u32::MAX - 3,
    u32::MAX,
];

/// Any number; often one near `n`, or near a limit.
pub fn wild(n: u32, rng: &mut Rng) -> u32 {
    let step = one_of(&[1, 2, 3, 4, 8, 1 << 16, 1 << 31], rng);
    match rng.below(4) {
        0 => n.wrapping_add(step),
        1 => n.wrapping_sub(step),
        2 => one_of(&WILD, rng),
        _ => (rng.below(1 << 32) >> rng.below(32)) as u32,
    }
}

/// An allowed picture: small as a rule, some as long or as high as any.
pub fn picture(rng: &mut Rng) -> [u32; 2] {
    let small = |units, rng: &mut Rng| 4 + 4 * rng.below(units) as u32;
    match rng.below(64) {
        0 => [one_of(&[8128, 8124], rng), small(4, rng)],
        1 => [small(4, rng), one_of(&[8128, 8124], rng)],
        2..=12 => [small(40, rng), small(40, rng)],
        _ => [small(8, rng), small(8, rng)],
    }
}

/// A block of the picture; one in eight has some of its numbers changed to any.
pub fn block(pic: [u32; 2], rng: &mut Rng) -> Block {
    let mut b = random_block(pic, rng);
    if one_in(8, rng) {
        for _ in 0..1 + rng.below(3) {
            let d = rng.below(2);
            let n = match rng.below(3) {
                0 => &mut b.pic[d],
                1 => &mut b.place[d],
                _ => &mut b.side[d],
            };
            *n = wild(*n, rng);
        }
    }
    b
}

/// A vector: anywhere, at the ends of sixteen bits, near a limit of clipping or of the comparison
/// domain, or short.
pub fn vector(b: &Block, rng: &mut Rng) -> Mv {
    [0, 1].map(|d| {
        let [pic, place, side] = [b.pic[d], b.place[d], b.side[d]].map(i64::from);
        let near = rng.below(13) as i64 - 6;
        let mv = match rng.below(8) {
            0 => rng.below(65536) as i64 - 32768,
            1 => one_of(&[-32768, -32767, 32767], rng),
            2 => -256 - 4 * place + near,
            3 => 4 * (pic + 64 - side - place) + near,
            4 => 32767 - 4 * (place + side) + near,
            5 => near * 8,
            6 => near,
            _ => rng.below(4096) as i64 - 2048,
        };
        mv.clamp(-32768, 32767) as i16
    })
}

/// An order count, one in eight too high.
pub fn count(rng: &mut Rng) -> u32 {
    match rng.below(8) {
        0 => wild(32767, rng),
        1 => one_of(&[0, 1, 32766, 32767], rng),
        2 | 3 => rng.below(32768) as u32,
        _ => rng.below(9) as u32,
    }
}

/// How much of a buffer is lent.
#[derive(Clone, Copy, Debug, PartialEq)]
pub enum Length {
    Whole,
    Less(usize),
    Empty,
}

impl Length {
    /// The whole as a rule.
    pub fn random(rng: &mut Rng) -> Self {
        match rng.below(24) {
            0 => Length::Empty,
            1 => Length::Less(1 + rng.below(3)),
            2 => Length::Less(1 << rng.below(20)),
            _ => Length::Whole,
        }
    }

    pub fn of(self, whole: usize) -> usize {
        match self {
            Length::Whole => whole,
            Length::Less(n) => whole.saturating_sub(n),
            Length::Empty => 0,
        }
    }

    pub fn smaller(self) -> Vec<Self> {
        match self {
            Length::Whole => vec![],
            Length::Less(1) | Length::Empty => vec![Length::Whole],
            Length::Less(n) => vec![Length::Whole, Length::Less(1), Length::Less(n / 2)],
        }
    }
}

/// Samples or numbers behind the needed ones.
pub fn spare(rng: &mut Rng) -> usize {
    [0, 0, 1, rng.below(40)][rng.below(4)]
}

/// 0, 4, then less by ever less, in multiples of 4 first.
pub fn smaller_number(n: u32) -> Vec<u32> {
    let steps = (1..32).map(|k| n - (n >> k));
    let mut less = vec![0, 4];
    less.extend(steps.clone().map(|m| m / 4 * 4));
    less.extend(steps);
    less.retain(|m| *m < n);
    less.dedup();
    less
}

pub fn smaller_spare(n: usize) -> Vec<usize> {
    let less = smaller_number(n as u32);
    less.into_iter().map(|n| n as usize).collect()
}

/// Toward 0.
pub fn smaller_vectors(mv: Mv) -> Vec<Mv> {
    let mut all = Vec::new();
    if mv[0] != 0 && mv[1] != 0 {
        all.push([0, 0]);
    }
    for d in 0..2 {
        for less in smaller_number(mv[d].unsigned_abs().into()) {
            let mut mv = mv;
            mv[d] = less as i16 * mv[d].signum();
            all.push(mv);
        }
    }
    all
}

/// Each number smaller in turn; a smaller picture takes the place along.
pub fn smaller_blocks(b: &Block) -> Vec<Block> {
    let mut all = Vec::new();
    for d in 0..2 {
        for pic in smaller_number(b.pic[d]) {
            let mut b = *b;
            let room = b.pic[d].saturating_sub(b.place[d]);
            b.pic[d] = pic;
            if room >= b.side[d] {
                let most = pic.saturating_sub(b.side[d]);
                b.place[d] = b.place[d].min(most);
            }
            all.push(b);
        }
        for side in smaller_number(b.side[d]) {
            let mut b = *b;
            b.side[d] = side;
            all.push(b);
        }
        for place in smaller_number(b.place[d]) {
            let mut b = *b;
            b.place[d] = place;
            all.push(b);
        }
    }
    all
}
