//! `evc_camera_motion`, by bits: against the model, and against itself by W4's laws. The Rust has no such call.

use super::*;
use crate::guard::{Guarded, Press, PRESSES};
use crate::lent::{units, Contents, Slot};
use crate::numbers::{one_in, seed, spare, wild, Length};
use crate::numbers::{smaller_number, smaller_spare, smaller_vectors};
use oracle::model::camera::{camera_motion, is_counted, Camera};
use oracle::model::{self, Mv};

const CODED: u32 = 1 << 31;
const INTRA: u32 = 1 << 15;

/// Which units are coded and not intra, from simple to any.
#[derive(Clone, Copy, Debug, PartialEq, PartialOrd)]
enum Counted {
    All,
    Not,
    /// One of so many.
    OneOf(usize),
    /// All but one of so many.
    AllBut(usize),
    /// By squares of so many units a side.
    Squares(usize),
}

use Counted::*;

impl Counted {
    fn random(rng: &mut Rng) -> Self {
        let n = 2 + rng.below(7);
        match rng.below(8) {
            0 => Not,
            1 | 2 => OneOf(n),
            3 => AllBut(n),
            4 | 5 => Squares(n),
            _ => All,
        }
    }

    fn smaller(self) -> Vec<Self> {
        let mut all = vec![All, Not, OneOf(2)];
        all.retain(|counted| *counted < self);
        all
    }
}

/// The words of a picture's units. Bits that nobody looks at are arbitrary, and so are the words behind.
#[derive(Clone, Debug, PartialEq)]
pub struct Words {
    pic: [u32; 2],
    counted: Counted,
    spare: usize,
    seed: u64,
}

impl Words {
    /// Whether each unit counts.
    fn counted(&self, rng: &mut Rng) -> Vec<bool> {
        let across = self.pic[0] as usize / 4;
        // of the squares in which the row at hand lies
        let mut squares = vec![false; across];
        let counts = |unit: usize| match self.counted {
            All => true,
            Not => false,
            OneOf(n) => one_in(n, rng),
            AllBut(n) => !one_in(n, rng),
            Squares(side) => {
                let (x, y) = (unit % across, unit / across);
                if x % side == 0 && y % side == 0 {
                    squares[x / side] = one_in(2, rng);
                }
                squares[x / side]
            }
        };
        (0..units(self.pic)).map(counts).collect()
    }
}

impl Contents for Words {
    type Number = u32;

    fn make(&self, _: &dyn Calls) -> Vec<u32> {
        let mut rng = Rng(self.seed);
        let counted = self.counted(&mut rng);
        let mut word = || rng.below(1 << 32) as u32;
        let of_unit = |counts| match (counts, word()) {
            (true, word) => word & !INTRA | CODED,
            // any of the three states that do not count
            (false, word) if word & INTRA == 0 => word & !CODED,
            (false, word) => word,
        };
        let mut words: Vec<u32> = counted.into_iter().map(of_unit).collect();
        words.extend((0..self.spare).map(|_| word() | CODED));
        words
    }
}

/// What the vectors of the units that count are like, from simple to any.
#[derive(Clone, Copy, Debug, PartialEq)]
enum Like {
    Same(Mv),
    /// At most so far from 0.
    Within(u32),
    /// The ends of sixteen bits, and what is around 0.
    Ends,
    Any,
}

use Like::*;

impl Like {
    fn random(rng: &mut Rng) -> Self {
        match rng.below(8) {
            0 => Same([(); 2].map(|_| end(rng))),
            1 => Same([(); 2].map(|_| rng.below(65536) as u16 as i16)),
            2 => Within(1),
            3 | 4 => Within(1 + rng.below(400) as u32),
            5 => Ends,
            _ => Any,
        }
    }

    fn next(self, rng: &mut Rng) -> Mv {
        match self {
            Same(mv) => mv,
            Within(n) => {
                [(); 2].map(|_| (rng.below(2 * n as usize + 1) as i64 - i64::from(n)) as i16)
            }
            Ends => [(); 2].map(|_| end(rng)),
            Any => [(); 2].map(|_| rng.below(65536) as u16 as i16),
        }
    }

    fn smaller(self) -> Vec<Self> {
        match self {
            Same(mv) => smaller_vectors(mv).into_iter().map(Same).collect(),
            Within(n) => {
                let less = smaller_number(n).into_iter().filter(|less| *less > 0);
                [Same([0, 0]), Same([1, 1])]
                    .into_iter()
                    .chain(less.map(Within))
                    .collect()
            }
            Ends | Any => {
                let mut all = vec![
                    Same([0, 0]),
                    Same([1, 1]),
                    Same([32767; 2]),
                    Same([-32768; 2]),
                ];
                all.extend([Within(1), Within(1000)]);
                all.extend((self == Any).then_some(Ends));
                all
            }
        }
    }
}

/// The ends of sixteen bits more often than what is around 0.
fn end(rng: &mut Rng) -> i16 {
    [i16::MIN, i16::MAX, i16::MIN, i16::MAX, -i16::MAX, -1, 0, 1][rng.below(8)]
}

/// The motion map of a picture with these words.
#[derive(Clone, Debug, PartialEq)]
pub struct Map {
    words: Words,
    like: Like,
    /// Components, across and down, that add up to zero.
    cancels: [bool; 2],
    /// Then one vector becomes another: that of the unit that counts after so many others.
    one: Option<(usize, Mv)>,
    /// List 1 and the units that do not count have any numbers; otherwise zeros.
    decoys: bool,
    spare: usize,
    seed: u64,
}

impl Map {
    fn random(pic: [u32; 2], rng: &mut Rng) -> Self {
        Map {
            words: Words {
                pic,
                counted: Counted::random(rng),
                spare: spare(rng),
                seed: seed(rng),
            },
            like: Like::random(rng),
            cancels: [(); 2].map(|_| one_in(4, rng)),
            one: one_in(4, rng).then(|| (rng.below(1 << 32), [(); 2].map(|_| end(rng)))),
            decoys: !one_in(8, rng),
            spare: spare(rng),
            seed: seed(rng),
        }
    }

    /// Everywhere the same, so that the sums are as far from zero as they can be, or next to that.
    fn of_ends(pic: [u32; 2], rng: &mut Rng) -> Self {
        let mut map = Map::random(pic, rng);
        map.words.counted = All;
        map.like = Same([(); 2].map(|_| [i16::MIN, i16::MAX][rng.below(2)]));
        map.cancels = [false; 2];
        map
    }

    fn smaller(&self) -> Vec<Self> {
        let mut all = Vec::new();
        let mut with = |change: &dyn Fn(&mut Self)| {
            let mut map = self.clone();
            change(&mut map);
            all.push(map);
        };
        for counted in self.words.counted.smaller() {
            with(&|map| map.words.counted = counted);
        }
        for like in self.like.smaller() {
            with(&|map| map.like = like);
        }
        for d in (0..2).filter(|d| self.cancels[*d]) {
            with(&|map| map.cancels[d] = false);
        }
        if let Some((at, mv)) = self.one {
            with(&|map| map.one = None);
            if at > 0 {
                with(&|map| map.one = Some((0, mv)));
            }
            for mv in smaller_vectors(mv) {
                with(&|map| map.one = Some((at, mv)));
            }
        }
        if self.decoys {
            with(&|map| map.decoys = false);
        }
        for spare in smaller_spare(self.spare) {
            with(&|map| map.spare = spare);
        }
        for spare in smaller_spare(self.words.spare) {
            with(&|map| map.words.spare = spare);
        }
        all
    }
}

impl Contents for Map {
    type Number = i16;

    fn make(&self, calls: &dyn Calls) -> Vec<i16> {
        let words = self.words.make(calls);
        let mut rng = Rng(self.seed);
        let n = units(self.words.pic);
        let mut map: Vec<i16> = match self.decoys {
            true => (0..4 * n).map(|_| rng.below(65536) as u16 as i16).collect(),
            false => vec![0; 4 * n],
        };
        let counted: Vec<usize> = (0..n).filter(|unit| is_counted(words[*unit])).collect();
        for unit in &counted {
            map[4 * unit..4 * unit + 2].copy_from_slice(&self.like.next(&mut rng));
        }
        for d in (0..2).filter(|d| self.cancels[*d]) {
            // the last against the first, and so on to the middle
            let n = counted.len();
            for k in 0..n / 2 {
                let [first, last] = [k, n - 1 - k].map(|k| 4 * counted[k] + d);
                map[first] = map[first].max(-i16::MAX);
                map[last] = -map[first];
            }
            if n % 2 == 1 {
                map[4 * counted[n / 2] + d] = 0;
            }
        }
        if let (Some((at, mv)), [_, ..]) = (self.one, &counted[..]) {
            let unit = counted[at % counted.len()];
            map[4 * unit..4 * unit + 2].copy_from_slice(&mv);
        }
        map.extend((0..self.spare).map(|_| end(&mut rng)));
        map
    }
}

#[derive(Clone, Debug)]
pub struct Cameras {
    pic: [u32; 2],
    /// With the words that are lent beside it.
    map: Map,
    length: Length,
    words_length: Length,
}

impl Cameras {
    /// A side becomes any number, or a buffer shorter, which may still be enough.
    fn disturb(&mut self, rng: &mut Rng) {
        let less = [1 + rng.below(6), 1 << rng.below(20)][rng.below(2)];
        let length = [Length::Less(less), Length::Less(less), Length::Empty][rng.below(3)];
        match rng.below(4) {
            0 => self.length = length,
            1 => self.words_length = length,
            d => self.pic[d - 2] = wild(self.pic[d - 2], rng),
        }
    }
}

#[derive(Default)]
pub struct Lent {
    words: Slot<Words>,
    map: Slot<Map>,
    changed: Changed,
}

/// For the laws' other calls.
#[derive(Default)]
struct Changed {
    map: Guarded<i16>,
    words: Guarded<u32>,
}

type Buffers = (Vec<i16>, Vec<u32>);

/// What was lent to a call that was accepted, and its answer.
struct Accepted<'a> {
    pic: [u32; 2],
    units: usize,
    map: &'a [i16],
    words: &'a [u32],
    answer: Camera,
}

impl Accepted<'_> {
    fn is_counted(&self, unit: usize) -> bool {
        unit < self.units && is_counted(self.words[unit])
    }

    /// One component of every vector negated, if those that count have a negation: its mean gets the other sign.
    fn negated(&self, d: usize) -> Option<(Buffers, Camera)> {
        let (mut map, words) = (self.map.to_vec(), self.words.to_vec());
        for (unit, numbers) in map.chunks_exact_mut(4).enumerate() {
            if self.is_counted(unit) && numbers[d] == i16::MIN {
                return None;
            }
            numbers[d] = numbers[d].wrapping_neg();
        }
        let mut answer = self.answer;
        if answer.mean[d] != 0 {
            answer.mean[d] ^= 1 << 63;
        }
        Some(((map, words), answer))
    }

    /// The units in another order.
    fn reordered(&self) -> Buffers {
        let (mut map, mut words) = (self.map.to_vec(), self.words.to_vec());
        for unit in 0..self.units {
            // a prime above 2032 divides no number of units, so each comes once
            let from = (2039 * unit + 17) % self.units;
            words[unit] = self.words[from];
            map[4 * unit..4 * unit + 4].copy_from_slice(&self.map[4 * from..4 * from + 4]);
        }
        (map, words)
    }

    /// Other numbers in list 1, in units that do not count and behind the needed ones; other bits in all words.
    fn overwritten(&self) -> Buffers {
        let (mut map, mut words) = (self.map.to_vec(), self.words.to_vec());
        for (k, number) in map.iter_mut().enumerate() {
            if k % 4 >= 2 || !self.is_counted(k / 4) {
                *number = !*number;
            }
        }
        for (unit, word) in words.iter_mut().enumerate() {
            *word ^= match *word {
                _ if unit >= self.units => !0,
                word if word & INTRA != 0 => !INTRA,
                word if word & CODED != 0 => !(INTRA | CODED),
                _ => !CODED, // intra too, then
            };
        }
        (map, words)
    }

    /// The archive's own answers to other calls.
    fn assert_laws(
        &self,
        calls: &dyn Calls,
        press: Press,
        lent: &mut Changed,
    ) -> Result<(), String> {
        let mut assert_law = |law, (map, words): Buffers, want| {
            let map = lent.map.lend_mut(press, &map);
            let words = lent.words.lend_mut(press, &words);
            assert_same(law, calls.camera_motion(self.pic, map, words), want)
        };
        for (d, law) in ["negated across", "negated down"].into_iter().enumerate() {
            if let Some((buffers, want)) = self.negated(d) {
                assert_law(law, buffers, want)?;
            }
        }
        assert_law("units in another order", self.reordered(), self.answer)?;
        assert_law("all else overwritten", self.overwritten(), self.answer)
    }
}

impl Case for Cameras {
    const NAME: &'static str = "evc_camera_motion";
    /// More often than for others, since the sums have their ends there.
    const LARGEST: u64 = 1_000;
    type Lent = Lent;

    fn batch(pic: [u32; 2], rng: &mut Rng) -> Vec<Self> {
        let mut map = Map::of_ends(pic, rng);
        let mut cases = Vec::new();
        while cases.len() < BATCH {
            let whole = Cameras {
                pic,
                map,
                length: Length::Whole,
                words_length: Length::Whole,
            };
            let mut disturbed = whole.clone();
            for _ in 0..1 + rng.below(3) {
                disturbed.disturb(rng);
            }
            cases.extend([whole, disturbed]);
            map = Map::random(pic, rng);
        }
        cases
    }

    fn run(&self, calls: &dyn Calls, lent: &mut Lent) -> Outcome {
        lent.words.hold(&self.map.words, calls);
        lent.map.hold(&self.map, calls);
        let mut code = 0;
        for press in PRESSES {
            let map = lent.map.lend(press, self.length);
            let words = lent.words.lend(press, self.words_length);
            let want = camera_motion(self.pic, map, words);
            let answer = calls.camera_motion(self.pic, map, words);
            assert_same("code, kind and means", answer, want)?;
            code = want.code;
            if code == 0 {
                let accepted = Accepted {
                    pic: self.pic,
                    units: units(self.pic),
                    map,
                    words,
                    answer,
                };
                accepted.assert_laws(calls, press, &mut lent.changed)?;
            }
        }
        let in_domain = false;
        Ok(Seen { code, in_domain })
    }

    fn smaller(&self) -> Vec<Self> {
        let mut all = Vec::new();
        let mut with = |change: &dyn Fn(&mut Self)| {
            let mut case = self.clone();
            change(&mut case);
            all.push(case);
        };
        let made_for = self.map.words.pic;
        for d in 0..2 {
            for side in smaller_number(self.pic[d]) {
                let mut pic = self.pic;
                pic[d] = side;
                if self.pic == made_for && !model::is_picture_refused(pic) {
                    with(&|case| (case.pic, case.map.words.pic) = (pic, pic));
                }
                with(&|case| case.pic = pic);
            }
        }
        if self.pic != made_for && !model::is_picture_refused(self.pic) {
            with(&|case| case.map.words.pic = case.pic);
        }
        for map in self.map.smaller() {
            with(&|case| case.map = map.clone());
        }
        for length in self.length.smaller() {
            with(&|case| case.length = length);
        }
        for length in self.words_length.smaller() {
            with(&|case| case.words_length = length);
        }
        all
    }
}

#[cfg(test)]
mod tests {
    use super::*;
    use crate::archive::Archive;
    use crate::sys::{in_a_process, End};
    use oracle::model::camera::{MOVING, NO_SUCH_UNIT, STILL};

    /// All units of a picture with the same vector.
    fn same(pic: [u32; 2], mv: Mv) -> Cameras {
        let words = Words {
            pic,
            counted: All,
            spare: 0,
            seed: 1,
        };
        Cameras {
            pic,
            map: Map {
                words,
                like: Same(mv),
                cancels: [false; 2],
                one: None,
                decoys: true,
                spare: 0,
                seed: 2,
            },
            length: Length::Whole,
            words_length: Length::Whole,
        }
    }

    /// What the archive answers, after it agreed with the model and with the laws.
    fn answer(case: &Cameras, lent: &mut Lent) -> Camera {
        if let Err(why) = case.run(&Archive, lent) {
            panic!("{case:?}: {why}");
        }
        let map = lent.map.lend(Press::Front, case.length);
        let words = lent.words.lend(Press::Front, case.words_length);
        Archive.camera_motion(case.pic, map, words)
    }

    fn moving(means: [f64; 2]) -> Camera {
        Camera {
            code: 0,
            kind: MOVING,
            mean: means.map(f64::to_bits),
        }
    }

    /// The largest picture with the sums at both ends, and with the smallest ones that are not zero. In a process
    /// of its own, since the one of the tests is copied for each case that they try.
    #[test]
    fn largest() {
        let end = in_a_process(|| {
            let mut lent = Lent::default();
            let case = same([8128, 8128], [i16::MIN, i16::MAX]);
            assert_eq!(answer(&case, &mut lent), moving([-8192.0, 8191.75]));
            let mut case = same([8128, 8128], [0, 0]);
            case.map.one = Some((3_000_000, [1, -1]));
            let least = 1.0 / (4 * 2032 * 2032) as f64;
            assert_eq!(answer(&case, &mut lent), moving([least, -least]));
            0
        });
        assert_eq!(end, End::Code(0));
    }

    /// The cases meet every reading and both refusals, and each mean alone at zero.
    #[test]
    fn readings() {
        let mut lent = Lent::default();
        let mut seen = [0; 7];
        let rng = &mut Rng(82);
        for _ in 0..20 {
            for case in Cameras::batch([20, 12], rng) {
                let Camera { code, kind, mean } = answer(&case, &mut lent);
                let k = match (code, kind, mean.map(|bits| bits == 0)) {
                    (0, NO_SUCH_UNIT, [true, true]) => 0,
                    (0, STILL, [true, true]) => 1,
                    (0, MOVING, [true, false]) => 2,
                    (0, MOVING, [false, true]) => 3,
                    (0, MOVING, [false, false]) => 4,
                    (1, NO_SUCH_UNIT, [true, true]) => 5,
                    (4, NO_SUCH_UNIT, [true, true]) => 6,
                    other => panic!("{case:?}: {other:?}"),
                };
                seen[k] += 1;
            }
        }
        assert_eq!(seen, [76, 31, 101, 95, 380, 335, 262]);
    }
}
