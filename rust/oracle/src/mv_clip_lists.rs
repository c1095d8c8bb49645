//! The records of the clipping program with their answers: the Rust's; document 01's (`model`) for refusals and the ends of the ranges; and last an
//! incomplete record. README.md has the layout.

use crate::cases::{clip, corners, Component, Rng};
use crate::lists::List;
use crate::model::{self, Block};

/// x, y, W, H, w, h, mvx, mvy.
type Record = [i16; 8];

/// A record next to which the refused ones stand.
const GOOD: Record = [0, 0, 64, 64, 4, 4, 1, 1];

/// Inside the comparison domain.
fn in_domain() -> Vec<[Component; 2]> {
    // Document 01's lines on clipping, across.
    let lines = [(0, -300), (16, -320), (16, -321), (48, 256), (48, 257)];
    let mut records = Vec::from(
        lines.map(|(x, mvx)| [Component::new(64, x, 16, mvx), Component::new(64, 0, 16, 5)]),
    );

    // Every corner across and every corner down, mixed.
    let mut rng = Rng(1);
    for (w, h) in [
        (4, 4),
        (8, 4),
        (4, 8),
        (64, 64),
        (1920, 1080),
        (8128, 8124),
        (8124, 8128),
    ] {
        let [xs, mut ys] = [w, h].map(|pic| {
            let mut inside = corners(pic);
            inside.retain(Component::in_domain);
            inside
        });
        for i in (1..ys.len()).rev() {
            ys.swap(i, rng.below(i + 1));
        }
        let n = xs.len().max(ys.len());
        records.extend((0..n).map(|i| [xs[i % xs.len()], ys[i % ys.len()]]));
    }
    records
}

/// The good record with some numbers changed.
fn with(changes: &[(usize, i16)]) -> Record {
    let mut record = GOOD;
    for (k, n) in changes {
        record[*k] = *n;
    }
    record
}

/// Refusals, and accepted records next to them.
fn refusals() -> Vec<Record> {
    let mut list = Vec::new();
    // Negative sides of the picture, places and sides of the block; 1 comes before 2.
    for [across, down] in [[2, 3], [0, 1], [4, 5]] {
        for n in [-4, -32768] {
            list.extend([with(&[(across, n)]), with(&[(down, n)])]);
        }
    }
    list.push(with(&[(0, -4), (2, -4)]));
    // Sides of the picture.
    for k in [2, 3] {
        list.extend([0, 2, 4, 6].map(|n| with(&[(k, n)])));
    }
    for k in [2, 3] {
        list.extend([8128, 8132].map(|n| with(&[(k, n)])));
    }
    list.extend([32767, 32764].map(|n| with(&[(2, n)])));
    // Sides of the block.
    for n in [0, 2, 12, 64, 128] {
        list.extend([4, 5].map(|k| with(&[(2, 128), (3, 128), (k, n)])));
    }
    // Places, and extents.
    for k in [0, 1] {
        list.extend([1, 2, 3].map(|n| with(&[(k, n)])));
    }
    for k in [0, 1] {
        list.extend([with(&[(k, 60)]), with(&[(k, 64)])]);
        list.push(with(&[(k, 52), (k + 4, 16)]));
    }
    list.push(with(&[(0, 32767)]));
    list.push(with(&[(2, 60), (4, 64)]));
    list
}

/// Vectors at the ends of their range, and at the limits.
fn ends() -> [Record; 10] {
    let [low, high] = [-32768, 32767];
    [
        [0, 0, 64, 64, 16, 16, low, high],
        [0, 0, 64, 64, 16, 16, high, low],
        [48, 48, 64, 64, 16, 16, low, high],
        [8064, 8064, 8128, 8128, 64, 64, low, low],
        [8064, 8064, 8128, 8128, 64, 64, high, high],
        [0, 0, 8128, 8128, 4, 4, high, high],
        [0, 0, 8128, 8128, 4, 4, low, low],
        [0, 0, 4, 4, 4, 4, low, high],
        [16, 48, 64, 64, 16, 16, -320, 256],
        [16, 48, 64, 64, 16, 16, -321, 257],
    ]
}

fn numbers(record: &Record) -> [u16; 8] {
    record.map(|n| n as u16)
}

/// The whole input, and what the program prints for it.
pub fn mv_clip() -> [Vec<u8>; 2] {
    let mut list = List::default();
    list.answer("answer mvx mvy");
    for [x, y] in in_domain() {
        let record = [x.place, y.place, x.pic, y.pic, x.side, y.side, x.mv, y.mv];
        list.record(&numbers(&record));
        let [mvx, mvy] = clip(x, y);
        list.answer(&format!("0 {mvx} {mvy}"));
    }
    let first = [0, 0, 64, 64, 16, 16, -300, 5];
    for record in refusals().iter().chain(&ends()).chain(&[first]) {
        // sizes and places as bit patterns
        let bits = numbers(record);
        list.record(&bits);
        let [x, y, pic_w, pic_h, w, h] = [0, 1, 2, 3, 4, 5].map(|k| u32::from(bits[k]));
        let b = Block {
            pic: [pic_w, pic_h],
            place: [x, y],
            side: [w, h],
        };
        let (code, [mvx, mvy], _) = model::clip(&b, [record[6], record[7]]);
        list.answer(&format!("{code} {mvx} {mvy}"));
    }
    // 15 bytes of a record
    list.record(&numbers(&[16, 0, 64, 64, 16, 16, 7, 8]));
    list.records.pop();
    list.answer("4 0 0");
    list.done()
}
