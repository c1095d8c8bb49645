//! Document 02's W4 as `oracle::model::camera` has it: its lines, its refusals, the rounding of the means against
//! the machine's division, readings that are not meant, and laws.

use oracle::cases::*;
use oracle::model::camera::*;
use oracle::model::Mv;

/// "1.625"
const MEAN_OF_6_AND_7: u64 = 0x3ffa_0000_0000_0000;

/// The sign of a double-precision number.
const SIGN: u64 = 1 << 63;

/// Units of the largest picture.
const MOST_UNITS: usize = 2032 * 2032;

/// What a call is lent.
#[derive(Clone, Debug)]
struct Lent {
    pic: [u32; 2],
    map: Vec<i16>,
    words: Vec<u32>,
}

impl Lent {
    /// One row of units, all coded and not intra, with these vectors in list 0 and others in list 1.
    fn row(vectors: &[Mv]) -> Self {
        Lent {
            pic: [4 * vectors.len() as u32, 4],
            map: vectors
                .iter()
                .flat_map(|[x, y]| [*x, *y, 77, -78])
                .collect(),
            words: vec![word(1); vectors.len()],
        }
    }

    /// Up to 3 by 3 units in any state, with numbers of a small or the largest span.
    fn random(rng: &mut Rng) -> Self {
        let pic = [(); 2].map(|_| 4 + 4 * rng.below(3) as u32);
        let units = (pic[0] * pic[1] / 16) as usize;
        let span = [3, 17, 65536][rng.below(3)];
        let mut number = || match rng.below(8) {
            0 if span == 65536 => LIMITS[rng.below(5)],
            _ => (rng.below(span) as i32 - span as i32 / 2) as i16,
        };
        Lent {
            pic,
            map: (0..4 * units).map(|_| number()).collect(),
            words: (0..units).map(|_| word(rng.below(8) as u8)).collect(),
        }
    }

    fn read(&self) -> Camera {
        camera_motion(self.pic, &self.map, &self.words)
    }
}

fn moving(mean: [u64; 2]) -> Camera {
    Camera {
        code: 0,
        kind: MOVING,
        mean,
    }
}

const AT_REST: Camera = Camera {
    code: 0,
    kind: STILL,
    mean: [0; 2],
};

const EMPTY: Camera = Camera {
    code: 0,
    kind: NO_SUCH_UNIT,
    mean: [0; 2],
};

/// "Quarter vectors 6 and 7 across two units give 1.625."
#[test]
fn lines_of_the_document() {
    assert_eq!(f64::from_bits(MEAN_OF_6_AND_7), 1.625);
    let across = Lent::row(&[[6, 0], [7, 0]]).read();
    assert_eq!(across, moving([MEAN_OF_6_AND_7, 0]));
    assert_eq!(across.to_string(), "0 2 3ffa000000000000 0000000000000000");
    let down = Lent::row(&[[0, 6], [0, 7]]).read();
    assert_eq!(down, moving([0, MEAN_OF_6_AND_7]));
    let back = Lent::row(&[[-6, 0], [-7, 0]]).read();
    assert_eq!(back, moving([MEAN_OF_6_AND_7 ^ SIGN, 0]));
    // "still, when both sums are zero"
    assert_eq!(Lent::row(&[[4, 0], [-4, 0]]).read(), AT_REST);
    assert_eq!(Lent::row(&[[4, -1], [-9, 1], [5, 0]]).read(), AT_REST);
    assert_eq!(Lent::row(&[[0, 0]]).read(), AT_REST);
}

/// "over units coded and not intra": each state of a unit, alone and beside one that counts.
#[test]
fn states() {
    for state in 0..8 {
        let is_counted = state & 3 == 1;
        let mut one = Lent::row(&[[6, 0]]);
        one.words = vec![word(state)];
        let alone = moving([1.5f64.to_bits(), 0]);
        assert_eq!(one.read(), if is_counted { alone } else { EMPTY });
        let mut two = Lent::row(&[[6, 0], [7, 0]]);
        two.words[1] = word(state);
        let both = moving([MEAN_OF_6_AND_7, 0]);
        assert_eq!(two.read(), if is_counted { both } else { alone });
    }
    assert_eq!(
        [0, 1, 2, 3, 4, 5, 6, 7].map(word),
        [
            0,
            0x8000_0000,
            0x0000_8000,
            0x8000_8000,
            0x7fff_7fff,
            0xffff_7fff,
            0x7fff_ffff,
            0xffff_ffff
        ]
    );
}

/// A zero sum beside another one is +0.0, whichever signs the vectors and the other sum have.
#[test]
fn zero_beside_another() {
    for (other, mean) in [(3, 0.75f64), (-3, -0.75)] {
        for zeros in [[0, 0], [1, -1], [-1, 1], [32767, -32767]] {
            let across = Lent::row(&[[zeros[0], other], [zeros[1], other]]);
            assert_eq!(across.read(), moving([0, mean.to_bits()]));
            let down = Lent::row(&[[other, zeros[0]], [other, zeros[1]]]);
            assert_eq!(down.read(), moving([mean.to_bits(), 0]));
        }
    }
}

/// "It refuses 1, then 4, with the first reading."
#[test]
fn refusals() {
    let good = Lent {
        pic: [12, 8],
        map: vec![5; 24],
        words: vec![word(1); 6],
    };
    assert_eq!(good.read(), moving([1.25f64.to_bits(); 2]));
    let short = [(24, 6), (23, 6), (24, 5), (23, 5), (0, 6), (24, 0), (0, 0)];
    for (map, words) in short {
        let mut lent = good.clone();
        lent.map.truncate(map);
        lent.words.truncate(words);
        if (map, words) != (24, 6) {
            assert_eq!(lent.read(), Camera::refused(4), "{map} {words}");
        }
        for side in [
            0,
            1,
            2,
            3,
            6,
            10,
            8129,
            8132,
            65548,
            1 << 31,
            u32::MAX - 3,
            u32::MAX,
        ] {
            for d in 0..2 {
                let mut bad = lent.clone();
                bad.pic[d] = side;
                assert_eq!(bad.read(), Camera::refused(1), "{bad:?}");
            }
        }
    }
    let large = Lent {
        pic: [8128, 8128],
        ..good
    };
    assert_eq!(large.read(), Camera::refused(4));
    assert_eq!(
        Camera::refused(4).to_string(),
        format!("4 0 {0} {0}", "0".repeat(16))
    );
}

/// What lies behind the needed numbers is not looked at.
#[test]
fn excess() {
    let mut rng = Rng(91);
    for _ in 0..2000 {
        let exact = Lent::random(&mut rng);
        let mut longer = exact.clone();
        let mut more = || [0, 1, 3, 4, 40][rng.below(5)];
        longer.map.extend(vec![1234; more()]);
        longer.words.extend(vec![word(1); more()]);
        assert_eq!(longer.read(), exact.read(), "{longer:?}");
    }
}

/// The machine's quotient.
fn divided(sum: i128, units: usize) -> u64 {
    (sum as f64 / (4 * units) as f64).to_bits()
}

/// How a mean lies to the exact quotient.
#[derive(Debug, PartialEq)]
enum Rounded {
    Not,
    Away,
    Toward,
    Tie,
}

/// By products alone: the mean is a number of 53 places times a power of two, and lies at most half a place from
/// the quotient.
fn rounded(sum: i128, units: usize, bits: u64) -> Rounded {
    assert_eq!(bits >> 63 == 1, sum < 0);
    let places = u128::from((1 << 52) + bits % (1 << 52));
    let below = 1075 - (bits >> 52 & 2047) as i128; // places behind the point
    let exact = sum.unsigned_abs() << below;
    let divisor = 4 * units as u128;
    let got = places * divisor;
    let distance = 2 * exact.max(got) - 2 * exact.min(got);
    assert!(distance <= divisor, "{} {}", sum, units);
    if distance == 0 {
        Rounded::Not
    } else if distance == divisor {
        Rounded::Tie
    } else if got > exact {
        Rounded::Away
    } else {
        Rounded::Toward
    }
}

/// Every number of units with some sum, and few units with all small sums and those at the ends.
#[test]
fn rounding() {
    let mut rng = Rng(92);
    let (mut not, mut away, mut toward) = (0, 0, 0);
    let mut hold = |sum: i128, units: usize| {
        let bits = mean(sum, units);
        assert_eq!(bits, divided(sum, units), "{sum} / (4 * {units})");
        if sum == 0 {
            assert_eq!(bits, 0);
            return;
        }
        match rounded(sum, units, bits) {
            Rounded::Not => not += 1,
            Rounded::Away => away += 1,
            Rounded::Toward => toward += 1,
            // half way between two numbers of 53 places lies one of 54, and no sum has that many
            Rounded::Tie => panic!("{} / (4 * {})", sum, units),
        }
    };
    for units in 1..=MOST_UNITS {
        let n = units as i128;
        let [low, high] = [-32768 * n, 32767 * n];
        let any = n * (rng.below(65536) as i128 - 32768) + rng.below(units) as i128;
        let few = rng.below(2001) as i128 - 1000;
        let near_whole = 4 * n * (rng.below(16384) as i128 - 8192) + few % 3;
        let sums = [any, few, near_whole, low + few.abs(), high - few.abs()];
        hold(sums[rng.below(5)].clamp(low, high), units);
    }
    for units in 1..=300 {
        let n = units as i128;
        for k in 0..1500 {
            for sum in [k, -k, 32767 * n - k, -32768 * n + k] {
                hold(sum, units);
            }
        }
    }
    assert_eq!((not, away, toward), (390_357, 2_768_071, 2_769_545));
}

/// Of two numbers equally near the one with an even last place: of sums longer than any picture's, whose last
/// places the machine has to cut off before it divides, by a power of two without a rest.
#[test]
fn ties_to_even() {
    let mut rng = Rng(93);
    let mut ties = 0;
    for k in 0..40_000 {
        // the first 53 places, the last ones more often
        let first = (1 << 52)
            + match k % 3 {
                0 => rng.below(16),
                1 => (1 << 52) - 1 - rng.below(16),
                _ => rng.below(1 << 32) << 20 | rng.below(1 << 20),
            } as i128;
        let more = 2 + rng.below(8);
        let half = 1 << (more - 1);
        for rest in [0, half - 1, half, half + 1] {
            let sum = (first << more) + rest;
            let units = 1 << rng.below(22);
            let bits = mean(sum, units);
            assert_eq!(bits, divided(sum, units), "{sum} / (4 * {units})");
            assert_eq!(bits ^ SIGN, mean(-sum, units), "{sum} / (4 * {units})");
            if rest == half {
                let up = bits - mean(first << more, units);
                assert_eq!(up, first as u64 % 2, "{sum} / (4 * {units})");
                ties += 1;
            }
        }
    }
    assert_eq!(ties, 40_000);
}

/// The largest picture, with the sums at their ends, next to them and far from them.
#[test]
fn largest() {
    let [low, high] = [-32768, 32767].map(|end| end * MOST_UNITS as i128);
    assert_eq!([low, high], [-135_299_858_432, 135_295_729_408]);
    assert_eq!(mean(low, MOST_UNITS), (-8192f64).to_bits());
    assert_eq!(mean(high, MOST_UNITS), 8191.75f64.to_bits());

    let mut lent = Lent {
        pic: [8128, 8128],
        map: vec![0; 4 * MOST_UNITS],
        words: vec![word(5); MOST_UNITS],
    };
    assert_eq!(lent.read(), AT_REST);
    // one quarter sample in all the picture
    lent.map[4 * MOST_UNITS - 4] = 1;
    lent.map[1] = -1;
    let least = (1.0 / (4 * MOST_UNITS) as f64).to_bits();
    assert_eq!(lent.read(), moving([least, least ^ SIGN]));
    for unit in lent.map.chunks_mut(4) {
        unit.copy_from_slice(&[32767, -32768, 9, 9]);
    }
    assert_eq!(lent.read(), moving([8191.75f64, -8192.0].map(f64::to_bits)));
    lent.map[4 * 1_000_000] = 32766;
    lent.map[4 * 2_000_000 + 1] = -32767;
    let next = [high - 1, low + 1].map(|sum| divided(sum, MOST_UNITS));
    assert_eq!(lent.read(), moving(next));
    // a unit that does not count
    lent.words[1_000_000] = word(3);
    let sums = [high - 32767, low + 32769];
    let less = sums.map(|sum| divided(sum, MOST_UNITS - 1));
    assert_eq!(lent.read(), moving(less));
}

/// A reading in plain double precision, each part of which can be exchanged for a wrong one.
#[derive(Clone, Copy)]
struct Reading {
    /// Of a unit that is coded, that is intra.
    counts: fn(bool, bool) -> bool,
    /// Which of a unit's four numbers are the vector.
    at: [usize; 2],
    is_still: fn(&[Mv]) -> bool,
    /// From the components of the units that count, row by row, and the number of all units.
    mean: fn(&[Vec<f64>], f64) -> f64,
}

/// The sum of a component, and over how many units.
fn sum_of(rows: &[Vec<f64>]) -> (f64, f64) {
    let all = rows.concat();
    (all.iter().sum(), all.len() as f64)
}

fn is_zero(vectors: &[Mv], d: usize) -> bool {
    vectors.iter().map(|mv| i64::from(mv[d])).sum::<i64>() == 0
}

const RIGHT: Reading = Reading {
    counts: |coded, intra| coded && !intra,
    at: [0, 1],
    is_still: |vectors| is_zero(vectors, 0) && is_zero(vectors, 1),
    mean: |rows, _| {
        let (sum, n) = sum_of(rows);
        sum / (4.0 * n)
    },
};

impl Reading {
    fn read(&self, lent: &Lent) -> Camera {
        let across = (lent.pic[0] / 4) as usize;
        let rows = lent.words.chunks(across).zip(lent.map.chunks(4 * across));
        let of_row = |(words, map): (&[u32], &[i16])| {
            let units = words.iter().zip(map.chunks(4));
            units
                .filter(|(word, _)| (self.counts)(*word >> 31 == 1, *word >> 15 & 1 == 1))
                .map(|(_, unit)| self.at.map(|at| unit[at]))
                .collect()
        };
        let rows: Vec<Vec<Mv>> = rows.map(of_row).collect();
        let vectors = rows.concat();
        if vectors.is_empty() {
            return EMPTY;
        }
        if (self.is_still)(&vectors) {
            return AT_REST;
        }
        let mean = |d: usize| {
            let component = |row: &Vec<Mv>| row.iter().map(|mv| f64::from(mv[d])).collect();
            let rows: Vec<Vec<f64>> = rows.iter().map(component).collect();
            (self.mean)(&rows, lent.words.len() as f64).to_bits()
        };
        moving([mean(0), mean(1)])
    }
}

fn small_inputs() -> Vec<Lent> {
    let mut rng = Rng(94);
    (0..20_000).map(|_| Lent::random(&mut rng)).collect()
}

/// Plain double precision gives the same; so does a division in two steps, since one by 4 leaves no rest.
#[test]
fn other_right_readings() {
    let by_4_first = Reading {
        mean: |rows, _| {
            let (sum, n) = sum_of(rows);
            sum / 4.0 / n
        },
        ..RIGHT
    };
    let by_4_last = Reading {
        mean: |rows, _| {
            let (sum, n) = sum_of(rows);
            sum / n / 4.0
        },
        ..RIGHT
    };
    let mut kinds = [0; 3];
    for lent in small_inputs() {
        let want = lent.read();
        for reading in [RIGHT, by_4_first, by_4_last] {
            assert_eq!(reading.read(&lent), want, "{lent:?}");
        }
        kinds[want.kind as usize] += 1;
    }
    assert_eq!(kinds, [7701, 438, 11_861]);
}

fn of_mean(mean: fn(&[Vec<f64>], f64) -> f64) -> Reading {
    Reading { mean, ..RIGHT }
}

fn of_units(counts: fn(bool, bool) -> bool) -> Reading {
    Reading { counts, ..RIGHT }
}

fn of_still(is_still: fn(&[Mv]) -> bool) -> Reading {
    Reading { is_still, ..RIGHT }
}

/// Each of these gives another answer to one of the small inputs.
#[test]
fn wrong_readings() {
    let wrong = [
        (
            "in quarter samples",
            of_mean(|rows, _| {
                let (sum, n) = sum_of(rows);
                sum / n
            }),
        ),
        (
            "quarters cut off the sum",
            of_mean(|rows, _| {
                let (sum, n) = sum_of(rows);
                (sum / 4.0).floor() / n
            }),
        ),
        (
            "quarters cut off each vector",
            of_mean(|rows, _| {
                let (_, n) = sum_of(rows);
                let whole = rows.concat().into_iter().map(|v| (v / 4.0).floor());
                whole.sum::<f64>() / n
            }),
        ),
        (
            "a whole number of samples",
            of_mean(|rows, _| {
                let (sum, n) = sum_of(rows);
                (sum / (4.0 * n)).floor()
            }),
        ),
        (
            "a sum of sixteen bits",
            of_mean(|rows, _| {
                let (sum, n) = sum_of(rows);
                f64::from(sum as i64 as i16) / (4.0 * n)
            }),
        ),
        (
            "multiplied by a rounded fraction",
            of_mean(|rows, _| {
                let (sum, n) = sum_of(rows);
                sum * (1.0 / (4.0 * n))
            }),
        ),
        (
            "quotients added up",
            of_mean(|rows, _| {
                let (_, n) = sum_of(rows);
                rows.concat().into_iter().map(|v| v / (4.0 * n)).sum()
            }),
        ),
        (
            "in single precision",
            of_mean(|rows, _| {
                let (sum, n) = sum_of(rows);
                f64::from(sum as f32 / (4.0 * n) as f32)
            }),
        ),
        (
            "a mean of the rows' means",
            of_mean(|rows, _| {
                let rows = rows.iter().filter(|row| !row.is_empty());
                let means = rows.map(|row| row.iter().sum::<f64>() / (4.0 * row.len() as f64));
                let (sum, n) = sum_of(&[means.collect()]);
                sum / n
            }),
        ),
        (
            "over all units",
            of_mean(|rows, units| sum_of(rows).0 / (4.0 * units)),
        ),
        (
            "minus zero",
            of_mean(|rows, _| {
                let (sum, n) = sum_of(rows);
                -((0.0 - sum) / (4.0 * n))
            }),
        ),
        (
            "list 1",
            Reading {
                at: [2, 3],
                ..RIGHT
            },
        ),
        (
            "down and across",
            Reading {
                at: [1, 0],
                ..RIGHT
            },
        ),
        ("intra units too", of_units(|coded, _| coded)),
        ("units not coded too", of_units(|_, intra| !intra)),
        ("every unit", of_units(|_, _| true)),
        (
            "still by each vector",
            of_still(|vectors| vectors.iter().all(|mv| *mv == [0, 0])),
        ),
        (
            "still by either sum",
            of_still(|vectors| is_zero(vectors, 0) || is_zero(vectors, 1)),
        ),
        (
            "still by the sum across",
            of_still(|vectors| is_zero(vectors, 0)),
        ),
        ("always still", of_still(|_| true)),
        ("never still", of_still(|_| false)),
    ];
    let inputs = small_inputs();
    for (name, reading) in &wrong {
        let is_seen = inputs.iter().any(|lent| reading.read(lent) != lent.read());
        assert!(is_seen, "{}", name);
    }
}

/// What a reading does not depend on, and what becomes of it when one component of every vector is negated.
#[test]
fn laws() {
    let mut rng = Rng(95);
    let mut negated = 0;
    for lent in small_inputs() {
        let want = lent.read();

        let mut reordered = lent.clone();
        for i in (1..lent.words.len()).rev() {
            let j = rng.below(i + 1);
            reordered.words.swap(i, j);
            for k in 0..4 {
                reordered.map.swap(4 * i + k, 4 * j + k);
            }
        }
        assert_eq!(reordered.read(), want, "{lent:?}");

        let mut overwritten = lent.clone();
        for (unit, word) in overwritten.map.chunks_mut(4).zip(&lent.words) {
            let kept = if is_counted(*word) { 2 } else { 0 };
            unit[kept..]
                .iter_mut()
                .for_each(|v| *v = rng.below(65536) as i16);
        }
        assert_eq!(overwritten.read(), want, "{lent:?}");

        for d in 0..2 {
            let mut turned = lent.clone();
            let units = turned.map.chunks_mut(4).zip(&lent.words);
            let counted = units.filter(|(_, word)| is_counted(**word));
            let mut components: Vec<&mut i16> = counted.map(|(unit, _)| &mut unit[d]).collect();
            if components.iter().any(|v| **v == -32768) {
                continue;
            }
            components.iter_mut().for_each(|v| **v = -**v);
            let mut expected = want;
            if want.mean[d] != 0 {
                expected.mean[d] ^= SIGN;
            }
            assert_eq!(turned.read(), expected, "{lent:?}");
            negated += 1;
        }
    }
    assert_eq!(negated, 39_665);
}
