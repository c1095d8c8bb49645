//! What is lent to a call to be read: made from a few numbers, between guard pages, kept from case to
//! case while these numbers stay.

use crate::archive::Calls;
use crate::guard::{Guarded, Press};
use crate::numbers::{seed, smaller_number, smaller_spare, spare, Length};
use oracle::cases::{next_to, Rng};
use oracle::model::{Block, OnePlane};
use oracle::{plane_of, Plane};
use std::fmt::Debug;

pub trait Contents: Clone + PartialEq + Debug {
    type Number: Copy;
    fn make(&self, calls: &dyn Calls) -> Vec<Self::Number>;
}

/// Holds the contents of the last case that asked.
pub struct Slot<C: Contents> {
    held: Option<C>,
    buffer: Guarded<C::Number>,
}

impl<C: Contents> Default for Slot<C> {
    fn default() -> Self {
        Slot {
            held: None,
            buffer: Guarded::default(),
        }
    }
}

impl<C: Contents> Slot<C> {
    pub fn hold(&mut self, contents: &C, calls: &dyn Calls) {
        if self.held.as_ref() != Some(contents) {
            self.buffer.hold(&contents.make(calls));
            self.held = Some(contents.clone());
        }
    }

    pub fn lend(&self, press: Press, length: Length) -> &[C::Number] {
        self.buffer.lend(press, length.of(self.buffer.len()))
    }

    /// Changes a number, if there is one at the index; the old one and its place.
    pub fn put(&mut self, index: i64, value: C::Number) -> Option<(i64, C::Number)> {
        let is_inside = (0..self.buffer.len() as i64).contains(&index);
        is_inside.then(|| (index, self.buffer.put(index as usize, value)))
    }
}

pub fn units(pic: [u32; 2]) -> usize {
    let b = Block {
        pic,
        place: [0; 2],
        side: [4; 2],
    };
    b.units()
}

/// How a picture is cut into slices, from simple to any.
#[derive(Clone, Copy, Debug, PartialEq)]
pub enum Cut {
    /// All units are of this one.
    One(u32),
    /// Each unit is of one of the two.
    Two([u32; 2]),
    /// So many units behind each other are of the first, as many of the next, and so on.
    Runs(usize),
    /// Each unit is of any.
    Any,
}

impl Cut {
    fn random(pic: [u32; 2], rng: &mut Rng) -> Self {
        let number = rng.below(128) as u32;
        match rng.below(8) {
            0 => Cut::One(number),
            1 => Cut::Any,
            2 | 3 => Cut::Two([number, next_to(number, rng)]),
            _ => Cut::Runs(1 + units(pic) / (2 + rng.below(5))),
        }
    }

    fn number(self, unit: usize, rng: &mut Rng) -> u32 {
        match self {
            Cut::One(number) => number,
            Cut::Two(numbers) => numbers[rng.below(2)],
            Cut::Runs(len) => (unit / len % 128) as u32,
            Cut::Any => rng.below(128) as u32,
        }
    }

    fn smaller(self) -> Vec<Self> {
        let simple = Cut::Two([0, 1]);
        match self {
            Cut::One(number) => smaller_number(number).into_iter().map(Cut::One).collect(),
            Cut::Two([first, second]) => {
                let mut all = vec![Cut::One(first), Cut::One(second)];
                all.extend((self != simple).then_some(simple));
                all.extend((first != 0).then_some(Cut::Two([0, first ^ second])));
                all
            }
            Cut::Runs(_) | Cut::Any => vec![Cut::One(0), Cut::One(1), simple],
        }
    }
}

/// A word a unit, over a whole picture.
#[derive(Clone, Debug, PartialEq)]
pub struct Words {
    pub pic: [u32; 2],
    pub cut: Cut,
    pub spare: usize,
    pub seed: u64,
}

impl Words {
    pub fn random(pic: [u32; 2], rng: &mut Rng) -> Self {
        Words {
            pic,
            cut: Cut::random(pic, rng),
            spare: spare(rng),
            seed: seed(rng),
        }
    }

    /// Coded as a rule, some intra, the other bits arbitrary.
    pub fn words(&self) -> Vec<u32> {
        let mut rng = Rng(self.seed);
        let word = |unit| {
            let word = rng.below(1 << 32) as u32 & !127 | self.cut.number(unit, &mut rng);
            match rng.below(4) {
                0 => word,
                1 => word | 1 << 31 | 1 << 15,
                _ => word & !(1 << 15) | 1 << 31,
            }
        };
        (0..units(self.pic) + self.spare).map(word).collect()
    }

    /// Cut in a simpler way, no spare ones.
    pub fn smaller(&self) -> Vec<Self> {
        let mut all = Vec::new();
        for cut in self.cut.smaller() {
            let same = self.clone();
            all.push(Words { cut, ..same });
        }
        for spare in smaller_spare(self.spare) {
            let same = self.clone();
            all.push(Words { spare, ..same });
        }
        all
    }
}

impl Contents for Words {
    type Number = u32;

    fn make(&self, _: &dyn Calls) -> Vec<u32> {
        self.words()
    }
}

/// A motion map, four numbers a unit.
#[derive(Clone, Debug, PartialEq)]
pub struct Motion {
    pub pic: [u32; 2],
    pub spare: usize,
    pub seed: u64,
}

impl Motion {
    pub fn random(pic: [u32; 2], rng: &mut Rng) -> Self {
        let (spare, seed) = (spare(rng), seed(rng));
        Motion { pic, spare, seed }
    }
}

impl Contents for Motion {
    type Number = i16;

    fn make(&self, _: &dyn Calls) -> Vec<i16> {
        let mut rng = Rng(self.seed);
        let mut number = || match rng.below(8) {
            0 => [i16::MIN, -1, 0, i16::MAX][rng.below(4)],
            1 | 2 => rng.below(41) as i16 - 20,
            _ => rng.below(65536) as u16 as i16,
        };
        let n = 4 * units(self.pic) + self.spare;
        (0..n).map(|_| number()).collect()
    }
}

/// What samples are like, from simple to any.
#[derive(Clone, Copy, Debug, PartialEq, PartialOrd)]
pub enum Samples {
    Zero,
    Steps,
    Extreme,
    Allowed,
    /// Some above 1023.
    Sparse,
    Any,
}

use Samples::*;

impl Samples {
    fn next(self, k: usize, rng: &mut Rng) -> u16 {
        let sample = match self {
            Zero => 0,
            Steps => k % 1024,
            Extreme => 1023 * rng.below(2),
            Sparse if rng.below(4000) == 0 => 1024 + rng.below(64512),
            Allowed | Sparse => rng.below(1024),
            Any => rng.below(65536),
        };
        sample as u16
    }

    pub fn smaller(self) -> Vec<Self> {
        let mut all = vec![Zero, Steps, Extreme, Allowed];
        all.retain(|samples| *samples < self);
        all
    }
}

/// What a plane holds outside the picture.
#[derive(Clone, Copy, Debug, PartialEq)]
pub enum Border {
    /// What the border step leaves there.
    Padded,
    Has(Samples),
}

/// One plane of an allowed picture; `mirrored` counts columns (0) or rows (1) of the picture from the other end.
#[derive(Clone, Debug, PartialEq)]
pub struct PlaneOf {
    pub chroma: bool,
    pub pic: [u32; 2],
    pub samples: Samples,
    pub border: Border,
    pub mirrored: Option<usize>,
    pub spare: usize,
    pub seed: u64,
}

impl PlaneOf {
    pub fn random(
        chroma: bool,
        pic: [u32; 2],
        samples: Samples,
        border: Border,
        rng: &mut Rng,
    ) -> Self {
        PlaneOf {
            chroma,
            pic,
            samples,
            border,
            mirrored: None,
            spare: spare(rng),
            seed: seed(rng),
        }
    }

    /// Simpler samples, a simpler border, no spare ones.
    pub fn smaller(&self) -> Vec<Self> {
        let mut all = Vec::new();
        for samples in self.samples.smaller() {
            let same = self.clone();
            all.push(PlaneOf { samples, ..same });
        }
        if let Border::Has(border) = self.border {
            let simpler = border.smaller().into_iter().map(Border::Has);
            for border in simpler.chain([Border::Padded]) {
                let same = self.clone();
                all.push(PlaneOf { border, ..same });
            }
        }
        for spare in smaller_spare(self.spare) {
            let same = self.clone();
            all.push(PlaneOf { spare, ..same });
        }
        all
    }

    pub fn sizes(&self) -> OnePlane {
        OnePlane::over(self.chroma, self.pic)
    }
}

impl Contents for PlaneOf {
    type Number = u16;

    fn make(&self, calls: &dyn Calls) -> Vec<u16> {
        let c = self.sizes();
        let [pw, ph] = c.size();
        let mut rng = Rng(self.seed);
        let outside = match self.border {
            Border::Padded => Zero,
            Border::Has(samples) => samples,
        };
        let mut plane: Vec<u16> = (0..c.plane_len() + self.spare)
            .map(|k| outside.next(k, &mut rng))
            .collect();
        for (k, (j, i)) in (0..ph)
            .flat_map(|j| (0..pw).map(move |i| (j, i)))
            .enumerate()
        {
            let (i, j) = match self.mirrored {
                None => (i, j),
                Some(0) => (pw - 1 - i, j),
                Some(_) => (i, ph - 1 - j),
            };
            plane[c.index(i, j) as usize] = self.samples.next(k, &mut rng);
        }
        if self.border == Border::Padded {
            calls.pad(self.chroma, self.pic, &mut plane);
        }
        plane
    }
}

/// A plane for the Rust, of a picture that need not be the one that the samples were made for.
pub fn rust_plane(chroma: bool, pic: [u32; 2], samples: &[u16]) -> Plane<u16> {
    plane_of(chroma, pic[0] as usize, pic[1] as usize, samples)
}

/// Contents for a buffer that is lent to be written.
pub fn old_samples(len: usize, seed: u64) -> Vec<u16> {
    let old = |k: usize| (k.wrapping_mul(40503) ^ seed as usize) as u16;
    (0..len).map(old).collect()
}

/// The same in bytes.
pub fn old_bytes(len: usize, seed: u64) -> Vec<u8> {
    let old = old_samples(len, seed).into_iter();
    old.map(|sample| (sample >> 4) as u8).collect()
}
