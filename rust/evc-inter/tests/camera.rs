//! Document 02's W4: the camera movement field, as a program for describers fills it.

mod lcg;

use evc_inter::*;
use lcg::Lcg;

const INTER: u32 = 1 << 31;
const INTRA: u32 = 1 << 31 | 1 << 15;
const UNCODED: u32 = 0;

/// A unit: its word, and its list 0 vector in quarter samples.
type Unit = (u32, [i16; 2]);

/// A picture's motion map and unit words, and its sides.
struct Shot {
    pic_w: u32,
    pic_h: u32,
    map_mv: Vec<i16>,
    map_scu: Vec<u32>,
}

impl Shot {
    /// From its units, row by row. List 1 has other vectors, which do not count.
    fn new(pic_w: u32, pic_h: u32, unit: impl FnMut(u32) -> Unit) -> Shot {
        let units: Vec<Unit> = (0..pic_w / 4 * (pic_h / 4)).map(unit).collect();
        let record = |(_, [x, y]): &Unit| [*x, *y, 999, -999];
        Shot {
            pic_w,
            pic_h,
            map_mv: units.iter().flat_map(record).collect(),
            map_scu: units.iter().map(|(word, _)| *word).collect(),
        }
    }

    fn camera(&self) -> Result<CameraMotion, Refusal> {
        evc_camera_motion(self.pic_w, self.pic_h, &self.map_mv, &self.map_scu)
    }

    /// The mean of a moving picture by its bits, in which -0.0 is not 0.0.
    fn mean(&self) -> [u64; 2] {
        match self.camera() {
            Ok(CameraMotion::Moving { x, y }) => [x, y].map(f64::to_bits),
            other => panic!("{other:?}"),
        }
    }

    /// The reel with the wrong side to the lens (component 0), or upside down (1).
    fn turned(&self, component: usize) -> Shot {
        let mut map_mv = self.map_mv.clone();
        for record in map_mv.chunks_exact_mut(4) {
            record[component] = -record[component];
        }
        let map_scu = self.map_scu.clone();
        Shot {
            map_mv,
            map_scu,
            ..*self
        }
    }
}

/// Panned to the right by 6 and 7 quarters in turn; what is new at the right edge is intra.
fn panned() -> Shot {
    Shot::new(32, 16, |i| match i % 8 {
        7 => (INTRA, [-500, 500]),
        6 => (UNCODED, [-500, 500]),
        column => (INTER, [6 + (column % 2) as i16, 0]),
    })
}

/// People walk through it both ways.
fn still() -> Shot {
    Shot::new(32, 16, |i| (INTER, [4 - 8 * (i % 2) as i16, 0]))
}

/// The first picture behind a cut.
fn cut() -> Shot {
    Shot::new(32, 16, |_| (INTRA, [3, 3]))
}

impl Lcg {
    /// Not -32768, which has no negation.
    fn component(&mut self) -> i16 {
        (self.next() as i16).max(-32767)
    }
}

/// Vectors and words from anywhere.
fn any(pic_w: u32, pic_h: u32, seed: u64) -> Shot {
    let lcg = &mut Lcg(seed);
    Shot::new(pic_w, pic_h, |_| {
        (lcg.next(), [lcg.component(), lcg.component()])
    })
}

/// "Quarter vectors 6 and 7 across two units give 1.625", and so do as many of each.
#[test]
fn readings() {
    assert_eq!(panned().mean(), [1.625, 0.0].map(f64::to_bits));
    assert_eq!(still().camera(), Ok(CameraMotion::Still));
    assert_eq!(cut().camera(), Ok(CameraMotion::None));
    let uncoded = Shot::new(32, 16, |i| (0x7fff_ffff - i, [3, 3]));
    assert_eq!(uncoded.camera(), Ok(CameraMotion::None));
}

/// "over units coded and not intra": bits 31 and 15 decide, whatever the others hold.
#[test]
fn any_words() {
    let lcg = &mut Lcg(1);
    for bit in 0..32 {
        for word in [1 << bit, !(1 << bit), lcg.next()] {
            let want = match word & INTRA == INTER {
                true => CameraMotion::Moving { x: 0.25, y: -0.5 },
                false => CameraMotion::None,
            };
            let shot = Shot::new(4, 4, |_| (word, [1, -2]));
            assert_eq!(shot.camera(), Ok(want), "{word:#x}");
        }
    }
}

/// "the exact whole sum divided once by four times the number of units", in pictures up to the largest.
#[test]
fn one_division() {
    let largest = |last| {
        Shot::new(8128, 8128, move |i| match i {
            0 => (INTER, [last, -32768]),
            _ => (INTER, [32767, -32768]),
        })
    };
    assert_eq!(largest(32767).mean(), [8191.75, -8192.0].map(f64::to_bits));
    let shots = (0..50).map(|seed| any(4 + 4 * seed, 36, seed.into()));
    for shot in shots.chain([largest(32766), any(8128, 8128, 9)]) {
        let (mut n, mut sums) = (0, [0; 2]);
        for (word, mv) in shot.map_scu.iter().zip(shot.map_mv.chunks(4)) {
            if word & INTRA == INTER {
                n += 1;
                sums = [0, 1].map(|k| sums[k] + i128::from(mv[k]));
            }
        }
        let want = sums.map(|sum| (sum as f64 / f64::from(4 * n)).to_bits());
        assert_eq!(shot.mean(), want, "{} by {}", shot.pic_w, shot.pic_h);
    }
}

/// A component that is negated gives the negative number; where the sum is zero, 0.0 again and not -0.0.
#[test]
fn flipped() {
    let negative = |bits| (-f64::from_bits(bits)).to_bits();
    for seed in 0..50 {
        let straight = any(64, 36, seed);
        let [x, y] = straight.mean();
        assert_eq!(straight.turned(0).mean(), [negative(x), y]);
        assert_eq!(straight.turned(1).mean(), [x, negative(y)]);
    }
    assert_eq!(panned().turned(0).mean(), [-1.625, 0.0].map(f64::to_bits));
    assert_eq!(panned().turned(1).mean(), panned().mean());
    assert_eq!(still().turned(0).camera(), Ok(CameraMotion::Still));
    assert_eq!(cut().turned(0).camera(), Ok(CameraMotion::None));
}

/// The catalogue's column, and the notes beside it; an item that is refused gets a note alone.
#[test]
fn catalogue() {
    let mut damaged = panned();
    damaged.map_scu.pop();
    let mut table = String::new();
    for (name, shot) in [
        ("harbour", panned()),
        ("square", still()),
        ("title", cut()),
        ("bridge", damaged),
    ] {
        table += &match shot.camera() {
            Ok(camera) => format!("{name:7} | {camera:12} | {camera:#}\n"),
            Err(refusal) => format!("{name:7} | {:12} | {:.11}\n", "", refusal.to_string()),
        };
    }
    let want = "\
harbour | moving       | moving (1.625 across, 0 down)
square  | still        | still
title   | undetermined | undetermined
bridge  |              | refused (4)
";
    assert_eq!(table, want);

    let camera = panned().turned(0).camera().unwrap();
    assert_eq!(format!("{camera:>8}|{camera:^8}|"), "  moving| moving |");
    let note = format!("{camera:#32}|");
    assert_eq!(note, "moving (-1.625 across, 0 down)  |");
}
