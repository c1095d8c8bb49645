//! Camera movement: `evc_camera_motion` against plain loops over the same maps. The original has no such call.

use crate::cases::{squares, Numbers};
use crate::measure::least_of_parts;
use crate::ours;
use crate::report::{number, Report, CAMERA};
use crate::room::Room;
use std::hint::black_box;

/// Pictures, how many maps of each, and in how many rounds at most. A processor learns the branches of a
/// map that it reads again and again, as no overnight run does: so the maps take turns, and a timed call
/// meets one that it has not just seen. The largest has more units than a processor remembers.
const PICTURES: [([u32; 2], usize, usize); 3] = [
    ([416, 240], 64, 100),
    ([1920, 1080], 16, 40),
    ([8128, 8128], 1, 20),
];

const INTER: u32 = 1 << 31;
const INTRA: u32 = 1 << 31 | 1 << 15;

/// What the call returns: number, kind, and the mean across and down.
type Reading = (u32, u32, [f64; 2]);

/// A picture's motion map with its unit words.
struct Map {
    pic: [u32; 2],
    mv: Vec<i16>,
    words: Vec<u32>,
}

/// All units inter.
fn inter(pic: [u32; 2], _: &mut Numbers) -> Vec<u32> {
    vec![INTER; units(pic)]
}

/// Blocks of sides 4 to 64, three in twenty of them intra.
fn blocks(pic: [u32; 2], numbers: &mut Numbers) -> Vec<u32> {
    let mut words = vec![0; units(pic)];
    let stride = pic[0] as usize / 4;
    for b in squares(pic, 64, true, numbers) {
        let word = [INTER, INTRA][usize::from(numbers.below(20) < 3)];
        let [x, y] = b.place.map(|n| n as usize / 4);
        let [w, h] = b.side.map(|n| n as usize / 4);
        for row in words[y * stride..].chunks_mut(stride).take(h) {
            row[x..x + w].fill(word);
        }
    }
    words
}

/// Each unit by itself, one in ten intra.
fn single(pic: [u32; 2], numbers: &mut Numbers) -> Vec<u32> {
    let mut word = || [INTER, INTRA][usize::from(numbers.below(10) == 0)];
    (0..units(pic)).map(|_| word()).collect()
}

type Words = fn([u32; 2], &mut Numbers) -> Vec<u32>;

const WORDS: [(&str, Words); 3] = [("inter", inter), ("blocks", blocks), ("units", single)];

fn units([pic_w, pic_h]: [u32; 2]) -> usize {
    (pic_w / 4 * (pic_h / 4)) as usize
}

impl Map {
    fn new(pic: [u32; 2], words: Words, seed: u32) -> Self {
        let numbers = &mut Numbers::new(seed);
        let words = words(pic, numbers);
        let mut component = || numbers.below(1024) as i16 - 500;
        Map {
            pic,
            mv: (0..4 * units(pic)).map(|_| component()).collect(),
            words,
        }
    }

    fn ours(&self) -> Reading {
        ours::camera_motion(self.pic, &self.mv, &self.words)
    }
}

/// The reading of a number of units and their sums.
fn reading(n: u64, x: i64, y: i64) -> Reading {
    match (n, x, y) {
        (0, ..) => (0, 0, [0.0; 2]),
        (_, 0, 0) => (0, 1, [0.0; 2]),
        _ => (0, 2, [x, y].map(|sum| sum as f64 / (4 * n) as f64)),
    }
}

fn counts(word: u32) -> bool {
    word >> 31 & 1 == 1 && word >> 15 & 1 == 0
}

/// The plainest loop.
#[inline(never)]
#[allow(clippy::needless_range_loop)]
fn by_index(units: usize, map_mv: &[i16], map_scu: &[u32]) -> Reading {
    let (mut n, mut x, mut y) = (0, 0, 0);
    for i in 0..units {
        if counts(map_scu[i]) {
            n += 1;
            x += i64::from(map_mv[4 * i]);
            y += i64::from(map_mv[4 * i + 1]);
        }
    }
    reading(n, x, y)
}

/// The same with iterators, which test no index.
#[inline(never)]
fn by_iterators(map_mv: &[i16], map_scu: &[u32]) -> Reading {
    let (mut n, mut x, mut y) = (0, 0, 0);
    for (word, mv) in map_scu.iter().zip(map_mv.chunks_exact(4)) {
        if counts(*word) {
            n += 1;
            x += i64::from(mv[0]);
            y += i64::from(mv[1]);
        }
    }
    reading(n, x, y)
}

/// All three give the same, bit for bit.
fn compare(what: &str, map: &Map) {
    let bits = |(code, kind, mean): Reading| (code, kind, mean.map(f64::to_bits));
    let ours = bits(map.ours());
    let n = units(map.pic);
    assert_eq!(ours, bits(by_index(n, &map.mv, &map.words)), "{what}");
    assert_eq!(ours, bits(by_iterators(&map.mv, &map.words)), "{what}");
}

/// The loops by index and with iterators, and ours: nanoseconds a call.
fn times(rounds: usize, maps: &[Map]) -> [f64; 3] {
    let times = least_of_parts(
        rounds,
        maps.len(),
        [
            &mut |k| {
                let Map { pic, mv, words } = black_box(&maps[k]);
                black_box(by_index(units(*pic), mv, words));
            },
            &mut |k| {
                let Map { mv, words, .. } = black_box(&maps[k]);
                black_box(by_iterators(mv, words));
            },
            &mut |k| {
                black_box(black_box(&maps[k]).ours());
            },
        ],
    );
    times.map(|time| time / maps.len() as f64)
}

pub fn run(report: &mut Report) {
    let mut rows = Vec::new();
    for (pic @ [pic_w, pic_h], maps, rounds) in PICTURES {
        for (kind, words) in WORDS {
            let what = format!("camera {pic_w}x{pic_h} {kind}");
            if !report.wants(&what) {
                continue;
            }
            let seeds = 31..31 + maps as u32;
            let maps: Vec<Map> = seeds.map(|seed| Map::new(pic, words, seed)).collect();
            maps.iter().for_each(|map| compare(&what, map));
            let [index, iterators, ours] = times(report.rounds.min(rounds), &maps);
            rows.push(vec![
                what.clone(),
                number(index),
                number(iterators),
                number(ours),
                format!("{:.3}", ours / units(pic) as f64),
                format!("{:.2}", ours / index),
                report.judge(Some(&CAMERA), &what, ours / index),
                format!("{:.2}", ours / iterators),
            ]);
        }
    }
    let head = [
        "map",
        "loop by index",
        "loop with iterators",
        "ours",
        "ours a unit",
        "ours/by index",
        "target",
        "ours/with iterators",
    ];
    report.table(
        "Camera movement: evc_camera_motion, ns a call",
        &head,
        &rows,
    );
}

/// What the call needs beside what it is lent.
pub fn room() -> Room {
    let mut room = Room::default();
    for (_, words) in WORDS {
        let map = Map::new([416, 240], words, 31);
        let mut answer = (9, 0, [0.0; 2]);
        room.of(&mut || answer = map.ours());
        assert_eq!((answer.0, answer.1), (0, 2));
    }
    room
}
