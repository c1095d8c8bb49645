//! The list of calls for the camera movement with their answers. The Rust has no such call: document 02's W4
//! (`model::camera`) answers, and for every record the machine's own division has to agree. README.md has the layout.

use crate::cases::{word, Rng, LIMITS};
use crate::lists::{narrow, List};
use crate::model::camera::{camera_motion, mean, Camera, MOVING, NO_SUCH_UNIT, STILL};
use crate::model::Mv;

/// What the program has room for.
const MAX_WORDS: usize = 100;
const MAX_NUMBERS: usize = 400;

/// States of a unit that counts, and of one that does not.
const COUNTED: [u8; 2] = [1, 5];
const UNCOUNTED: [u8; 6] = [0, 2, 3, 4, 6, 7];

#[derive(Clone)]
struct Case {
    pic: [u32; 2],
    /// A state for each word lent.
    states: Vec<u8>,
    map: Vec<i16>,
}

impl Case {
    /// Units that all count, as many as the vectors, in this picture or in one row.
    fn of(pic: [u32; 2], vectors: &[Mv]) -> Self {
        Case {
            pic,
            states: vec![1; vectors.len()],
            map: vectors.iter().flat_map(|[x, y]| [*x, *y, 0, 0]).collect(),
        }
    }

    fn row(vectors: &[Mv]) -> Self {
        Case::of([4 * vectors.len() as u32, 4], vectors)
    }

    /// The numbers in list 1 become others, and the words have all their other bits set.
    fn with_decoys(mut self, rng: &mut Rng) -> Self {
        for unit in self.map.chunks_mut(4) {
            unit[2..].iter_mut().for_each(|v| *v = decoy(rng));
        }
        self.states.iter_mut().for_each(|state| *state |= 4);
        self
    }

    /// So many units behind the needed ones, in words and in the map, that would count.
    fn with_excess(mut self, words: usize, numbers: usize, rng: &mut Rng) -> Self {
        self.states
            .extend((0..words).map(|_| COUNTED[rng.below(2)]));
        self.map.extend((0..numbers).map(|_| decoy(rng)));
        self
    }

    fn words(&self) -> Vec<u32> {
        self.states.iter().map(|state| word(*state)).collect()
    }

    /// Four numbers, the states, the map.
    fn bytes(&self) -> Vec<u8> {
        let Case { pic, states, map } = self;
        assert!(states.len() <= MAX_WORDS && map.len() <= MAX_NUMBERS);
        let [w, h] = pic.map(narrow);
        let numbers = [w, h, states.len() as u16, map.len() as u16];
        let mut bytes: Vec<u8> = numbers.iter().flat_map(|n| n.to_le_bytes()).collect();
        bytes.extend(states);
        bytes.extend(map.iter().flat_map(|v| v.to_le_bytes()));
        bytes
    }

    /// By whole sums and the machine's division.
    fn divided(&self) -> Camera {
        let code = self.refusal();
        let [across, down] = self.pic.map(|n| n as usize / 4);
        let units = if code == 0 { across * down } else { 0 };
        let (mut n, mut sums) = (0, [0, 0]);
        for unit in (0..units).filter(|unit| COUNTED.contains(&self.states[*unit])) {
            n += 1;
            sums[0] += i64::from(self.map[4 * unit]);
            sums[1] += i64::from(self.map[4 * unit + 1]);
        }
        let kind = match (n, sums) {
            (0, _) => NO_SUCH_UNIT,
            (_, [0, 0]) => STILL,
            _ => MOVING,
        };
        let mean = sums.map(|sum| match kind {
            MOVING => (sum as f64 / (4 * n) as f64).to_bits(),
            _ => 0,
        });
        Camera { code, kind, mean }
    }

    fn refusal(&self) -> u32 {
        let is_side = |n: &u32| (1..=2032).any(|units| *n == 4 * units);
        if !self.pic.iter().all(is_side) {
            return 1;
        }
        let units = (self.pic[0] / 4 * (self.pic[1] / 4)) as usize;
        let is_enough = self.states.len() >= units && self.map.len() / 4 >= units;
        if is_enough {
            0
        } else {
            4
        }
    }

    /// The answer on which both agree.
    fn answer(&self) -> Camera {
        let answer = camera_motion(self.pic, &self.map, &self.words());
        assert_eq!(answer, self.divided(), "document 02 and the division");
        answer
    }
}

/// A number that would be noticed.
fn decoy(rng: &mut Rng) -> i16 {
    [32767, -32768, 12345, -1][rng.below(4)]
}

fn push(list: &mut List, case: &Case) -> Camera {
    let answer = case.answer();
    list.records.extend(case.bytes());
    list.answer(&answer.to_string());
    answer
}

/// A case that is meant to have this number and this reading.
fn expect(list: &mut List, case: &Case, code: u32, kind: u32) {
    let answer = push(list, case);
    assert_eq!((answer.code, answer.kind), (code, kind));
}

fn expect_means(list: &mut List, case: &Case, means: [f64; 2]) {
    let answer = push(list, case);
    assert_eq!((answer.code, answer.kind), (0, MOVING));
    assert_eq!(answer.mean, means.map(f64::to_bits));
}

/// The whole list.
pub fn camera() -> [Vec<u8>; 2] {
    let mut rng = Rng(96);
    let mut list = List::default();
    lines(&mut list, &mut rng);
    states(&mut list, &mut rng);
    zeros(&mut list, &mut rng);
    ends(&mut list, &mut rng);
    roundings(&mut list, &mut rng);
    any(&mut list, &mut rng);
    longer(&mut list, &mut rng);
    sides(&mut list, &mut rng);
    lengths(&mut list, &mut rng);
    list.done()
}

/// Document 02's line, and what is next to it.
fn lines(list: &mut List, rng: &mut Rng) {
    expect_means(list, &Case::row(&[[6, 0], [7, 0]]), [1.625, 0.0]);
    expect_means(list, &Case::row(&[[0, 6], [0, 7]]), [0.0, 1.625]);
    expect_means(list, &Case::row(&[[-6, 7], [-7, 6]]), [-1.625, 1.625]);
    expect_means(list, &Case::of([4, 8], &[[6, 0], [7, 0]]), [1.625, 0.0]);
    let decoyed = Case::row(&[[6, 0], [7, 0]]).with_decoys(rng);
    expect_means(list, &decoyed, [1.625, 0.0]);
    expect(list, &Case::row(&[[4, 0], [-4, 0]]), 0, STILL);
    expect(list, &Case::row(&[[0, -4], [0, 4]]), 0, STILL);
    expect(
        list,
        &Case::row(&[[4, -4], [-4, 4]]).with_decoys(rng),
        0,
        STILL,
    );
    expect(list, &Case::row(&[[0, 0]]), 0, STILL);
    expect(list, &Case::of([40, 40], &[[0, 0]; 100]), 0, STILL);
    expect_means(list, &Case::row(&[[1, 0]]), [0.25, 0.0]);
    expect_means(list, &Case::row(&[[0, -1]]), [0.0, -0.25]);
    expect_means(list, &Case::row(&[[4, -8]]), [1.0, -2.0]);
}

/// Each state of a unit, alone and beside one that counts, and pictures in which none counts.
fn states(list: &mut List, rng: &mut Rng) {
    for state in 0..8 {
        let is_counted = COUNTED.contains(&state);
        let mut one = Case::row(&[[5, -3]]);
        one.states = vec![state];
        expect(
            list,
            &one,
            0,
            if is_counted { MOVING } else { NO_SUCH_UNIT },
        );
        for at in 0..2 {
            let mut two = Case::row(&[[6, 20], [7, -9]]);
            two.states[at] = state;
            expect(list, &two, 0, MOVING);
        }
        // a unit that does not count moves nothing
        let mut still = Case::row(&[[0, 0], [-5, 5], [0, 0]]);
        still.states[1] = state;
        expect(list, &still, 0, if is_counted { MOVING } else { STILL });
    }
    for pic in [[8, 4], [12, 8], [40, 40]] {
        let units = (pic[0] * pic[1] / 16) as usize;
        let vectors = vec![[32767, -32768]; units];
        for state in UNCOUNTED {
            let mut none = Case::of(pic, &vectors);
            none.states.fill(state);
            expect(list, &none, 0, NO_SUCH_UNIT);
        }
        let mut none = Case::of(pic, &vectors);
        none.states = (0..units).map(|_| UNCOUNTED[rng.below(6)]).collect();
        expect(list, &none, 0, NO_SUCH_UNIT);
        // and one that does, the first, the last, and one between
        for at in [0, units / 2, units - 1] {
            let mut one = none.clone();
            one.states[at] = COUNTED[rng.below(2)];
            one.map[4 * at..4 * at + 2].copy_from_slice(&[3, -1]);
            expect_means(list, &one, [0.75, -0.25]);
        }
    }
}

/// Vectors in turn, some with their opposites, so that a component adds up to zero.
fn cancelling(n: usize, is_zero: [bool; 2], rng: &mut Rng) -> Vec<Mv> {
    let mut vectors: Vec<Mv> = (0..n)
        .map(|_| [(); 2].map(|_| rng.below(401) as i16 - 200))
        .collect();
    for d in (0..2).filter(|d| is_zero[*d]) {
        for k in 0..n / 2 {
            vectors[n - 1 - k][d] = -vectors[k][d];
        }
        if n % 2 == 1 {
            vectors[n / 2][d] = 0;
        }
    }
    vectors
}

/// A zero sum beside another, each way, and both.
fn zeros(list: &mut List, rng: &mut Rng) {
    for other in [1, -1, 32767, -32768] {
        for (zero, back) in [(0, 0), (1, -1), (-32767, 32767)] {
            let across = Case::row(&[[zero, other], [back, 0]]);
            let mean = f64::from(other) / 8.0;
            expect_means(list, &across, [0.0, mean]);
            let down = Case::row(&[[0, zero], [other, back]]);
            expect_means(list, &down, [mean, 0.0]);
        }
    }
    for n in [2, 3, 7, 10, 64, 99] {
        let both = Case::row(&cancelling(n, [true; 2], rng)).with_decoys(rng);
        expect(list, &both, 0, STILL);
        for is_zero in [[true, false], [false, true]] {
            let one = Case::row(&cancelling(n, is_zero, rng)).with_decoys(rng);
            let answer = push(list, &one);
            assert_eq!(answer.mean.map(|bits| bits == 0), is_zero);
        }
    }
    // three vectors that come to nothing together, and nearly so
    expect(list, &Case::row(&[[5, -7], [-2, 3], [-3, 4]]), 0, STILL);
    expect(list, &Case::row(&[[5, -7], [-2, 3], [-3, 5]]), 0, MOVING);
    expect(list, &Case::row(&[[5, -7], [-2, 3], [-4, 4]]), 0, MOVING);
}

/// The ends of sixteen bits everywhere, and everywhere but in one unit.
fn ends(list: &mut List, rng: &mut Rng) {
    for pic in [[4, 4], [12, 4], [40, 40]] {
        let units = (pic[0] * pic[1] / 16) as usize;
        for x in [32767, -32768] {
            for y in [32767, -32768] {
                let mut vectors = vec![[x, y]; units];
                let means = [x, y].map(|v| f64::from(v) / 4.0);
                expect_means(list, &Case::of(pic, &vectors).with_decoys(rng), means);
                vectors[units / 2] = [-1, 1];
                expect(list, &Case::of(pic, &vectors).with_decoys(rng), 0, MOVING);
            }
        }
    }
}

/// By how much rounding raised the quotient of a sum, in parts of its last place: below half of 4n, since half way
/// lies no quotient. It would be a number of 54 places, and a sum has fewer.
fn raised(sum: i64, n: usize) -> i128 {
    let bits = mean(sum.into(), n);
    let places = (1 << 52) + i128::from(bits % (1 << 52));
    let below = 1075 - (bits >> 52); // places behind the point
    let raised = places * 4 * n as i128 - (i128::from(sum) << below);
    assert!(raised.unsigned_abs() < 2 * n as u128);
    raised
}

/// So many vectors with this sum, as unlike as that lets them.
fn adding_up(sum: i64, n: usize, rng: &mut Rng) -> Vec<i16> {
    let part = sum.div_euclid(n as i64);
    let more = sum.rem_euclid(n as i64) as usize;
    let mut parts: Vec<i16> = (0..n)
        .map(|k| (part + i64::from(k < more)) as i16)
        .collect();
    for k in 0..n / 2 {
        let by = rng.below(500) as i16;
        parts[2 * k] += by;
        parts[2 * k + 1] -= by;
    }
    parts
}

/// Counts whose quotients have no end: of each the sums that come nearest to half a place, rounded up and down.
fn roundings(list: &mut List, rng: &mut Rng) {
    let counts = [
        3, 5, 6, 7, 9, 10, 11, 12, 13, 15, 17, 23, 31, 33, 48, 49, 51, 63, 65, 77, 81, 96, 97, 99,
        100,
    ];
    for n in counts {
        let up = (1..4000).max_by_key(|sum| raised(*sum, n)).unwrap();
        let down = (1..4000).min_by_key(|sum| raised(*sum, n)).unwrap();
        assert!(raised(up, n) > 0 && raised(down, n) < 0);
        for [x, y] in [[up, -down], [-up, down], [down, 1]] {
            let (xs, ys) = (adding_up(x, n, rng), adding_up(y, n, rng));
            let vectors: Vec<Mv> = xs.into_iter().zip(ys).map(|(x, y)| [x, y]).collect();
            let answer = push(list, &Case::row(&vectors).with_decoys(rng));
            let means = [x, y].map(|sum| mean(sum.into(), n));
            assert_eq!((answer.kind, answer.mean), (MOVING, means));
        }
    }
}

/// Pictures of up to 10 by 10 units in any state, with numbers of every span.
fn any(list: &mut List, rng: &mut Rng) {
    for k in 0..48 {
        let most = if k < 32 { 4 } else { 10 };
        let pic = [(); 2].map(|_| 4 + 4 * rng.below(most) as u32);
        let units = (pic[0] * pic[1] / 16) as usize;
        let span = [3, 9, 801, 65536][k % 4];
        let mut number = || match rng.below(8) {
            0 if span == 65536 => LIMITS[rng.below(5)],
            _ => (rng.below(span) as i32 - span as i32 / 2) as i16,
        };
        let map = (0..4 * units).map(|_| number()).collect();
        let states = (0..units).map(|_| match rng.below(4) {
            0 => rng.below(8) as u8,
            1 => UNCOUNTED[rng.below(6)],
            _ => COUNTED[rng.below(2)],
        });
        let states = states.collect();
        let case = Case { pic, states, map };
        assert_eq!(push(list, &case).code, 0);
    }
}

/// Buffers longer than needed, with units behind the needed ones that would count.
fn longer(list: &mut List, rng: &mut Rng) {
    for (words, numbers) in [
        (1, 0),
        (0, 1),
        (0, 4),
        (1, 3),
        (1, 4),
        (2, 9),
        (40, 160),
        (94, 376),
    ] {
        let vectors = [[6, 0], [7, 0], [6, 0], [7, 0], [6, 0], [7, 0]];
        let moving = Case::of([12, 8], &vectors).with_excess(words, numbers, rng);
        expect_means(list, &moving, [1.625, 0.0]);
        let still = Case::of([8, 12], &[[0, 0]; 6]).with_excess(words, numbers, rng);
        expect(list, &still, 0, STILL);
        let mut none = Case::of([24, 4], &vectors);
        none.states.fill(3);
        expect(
            list,
            &none.with_excess(words, numbers, rng),
            0,
            NO_SUCH_UNIT,
        );
    }
}

/// Numbers just below 2^32.
const HUGE: [u32; 3] = [0xffff_ff00, 0xffff_fffc, 0xffff_ffff];

/// 1, across and down, with enough lent and before 4; and 4 where a side is as long as it may be.
fn sides(list: &mut List, rng: &mut Rng) {
    let vectors = [[6, 1], [7, 1], [6, -1], [7, -1]];
    let good = Case::of([8, 8], &vectors);
    expect_means(list, &good, [1.625, 0.0]);
    let bad = [
        0, 1, 2, 3, 5, 6, 7, 9, 10, 8129, 8130, 8132, 16384, 32768, 65276, 65279,
    ];
    for side in bad.iter().chain(&HUGE) {
        for d in 0..2 {
            let mut case = good.clone().with_excess(16, 64, rng);
            case.pic[d] = *side;
            expect(list, &case, 1, NO_SUCH_UNIT);
        }
    }
    for side in HUGE {
        let mut case = good.clone();
        case.pic = [side; 2];
        expect(list, &case, 1, NO_SUCH_UNIT);
    }
    for (d, side) in [(0, 0), (1, 2), (0, 8132), (1, 0xffff_fffc)] {
        for (words, numbers) in [(3, 16), (4, 15), (0, 0)] {
            let mut case = good.clone();
            case.pic[d] = side;
            case.states.truncate(words);
            case.map.truncate(numbers);
            expect(list, &case, 1, NO_SUCH_UNIT);
        }
    }
    for pic in [[8128, 4], [4, 8128], [8128, 8128], [8124, 8]] {
        let mut case = good.clone().with_excess(96, 384, rng);
        case.pic = pic;
        expect(list, &case, 4, NO_SUCH_UNIT);
    }
}

/// 4: words, map or both too short, also where no unit would count.
fn lengths(list: &mut List, rng: &mut Rng) {
    for pic in [[4, 4], [12, 8], [40, 40]] {
        let units = (pic[0] * pic[1] / 16) as usize;
        let good = Case::of(pic, &vec![[9, -2]; units]).with_decoys(rng);
        for words in [units, units - 1, 0] {
            for numbers in [4 * units, 4 * units - 1, units, 0] {
                let mut case = good.clone();
                case.states.truncate(words);
                case.map.truncate(numbers);
                let is_whole = words == units && numbers == 4 * units;
                let (code, kind) = if is_whole {
                    (0, MOVING)
                } else {
                    (4, NO_SUCH_UNIT)
                };
                expect(list, &case, code, kind);
            }
        }
    }
    // one buffer long, the other short
    let mut case = Case::of([12, 8], &[[9, -2]; 6]).with_excess(94, 0, rng);
    case.map.truncate(23);
    expect(list, &case, 4, NO_SUCH_UNIT);
    let mut case = Case::of([12, 8], &[[9, -2]; 6]).with_excess(0, 376, rng);
    case.states.truncate(5);
    expect(list, &case, 4, NO_SUCH_UNIT);
}
