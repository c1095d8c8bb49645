//! Document 02's W2, "Tell us which vectors were moved", as `oracle::model` has it: its lines, its laws, and readings
//! that are not meant. The tests of clipping, block prediction and replay hold it to what the Rust's `mv_clip` does.

use oracle::cases::*;
use oracle::model::trace::{self, Counts, Header, Lent, Record, Replay};
use oracle::model::{self, Block, Collocated, List, Moved, Mv, OnePlane, Predicted};
use oracle::model::{HIGH, LOW, NOTHING_MOVED, NOT_MOVED, PRED_LEN};

fn clipped(c: Component) -> (i64, u8) {
    let [pic, x, w, mv] = [c.pic, c.place, c.side, c.mv].map(i64::from);
    model::clipped(pic, x, w, mv)
}

/// Inside the comparison domain and outside.
fn all_corners() -> Vec<Component> {
    PIC_SIDES.iter().flat_map(|&pic| corners(pic)).collect()
}

/// A block of 16 by 16 in a picture of 64 by 64.
fn some_block(place: [u32; 2]) -> Block {
    Block {
        pic: [64, 64],
        place,
        side: [16, 16],
    }
}

/// Document 01's lines on clipping: at a limit nothing is moved, a quarter sample past it the component is.
#[test]
fn lines() {
    for (x, mvx, want, report) in [
        (0, -300, -256, LOW),
        (16, -320, -320, NOT_MOVED),
        (16, -321, -320, LOW),
        (48, 256, 256, NOT_MOVED),
        (48, 257, 256, HIGH),
    ] {
        let across = model::clip(&some_block([x, 0]), [mvx, 5]);
        assert_eq!(across, (0, [want, 5], [report, NOT_MOVED]));
        let down = model::clip(&some_block([0, x]), [5, mvx]);
        assert_eq!(down, (0, [5, want], [NOT_MOVED, report]));
    }
}

/// Not moved exactly if the component is as it was given; one that was moved rose to the low limit, or fell to the
/// high one. The domain of the comparison does not matter.
#[test]
fn where_it_ends() {
    let mut seen = [0; 3];
    for c in all_corners() {
        let (low, high) = limits(c.pic, c.place, c.side);
        let mv = i32::from(c.mv);
        let want = if mv < low {
            (low, LOW)
        } else if mv > high {
            (high, HIGH)
        } else {
            (mv, NOT_MOVED)
        };
        let (end, report) = clipped(c);
        assert_eq!((end, report), (want.0.into(), want.1), "{c:?}");
        assert_eq!(report == NOT_MOVED, end == c.mv.into(), "{c:?}");
        seen[usize::from(report)] += 1;
    }
    assert_eq!(seen, [385, 154, 530]);
}

/// Under the mirror low and high change places.
#[test]
fn mirrored() {
    let mut calls = 0;
    // -32768 has no negation
    for c in all_corners().into_iter().filter(|c| c.mv > -32768) {
        let (end, report) = clipped(c);
        let place = c.pic - c.side - c.place;
        let mirror = Component::new(c.pic, place, c.side, -c.mv);
        assert_eq!(clipped(mirror), (-end, other_side(report)), "{c:?}");
        calls += 1;
    }
    assert_eq!(calls, 992);
}

/// "a refused clipping or block call, reports nothing moved"; the vector is zero then.
#[test]
fn refused_clipping() {
    let good = some_block([16, 48]);
    let far = [-2000, 2000];
    assert_eq!(model::clip(&good, far), (0, [-320, 256], [LOW, HIGH]));
    for (pic, side, code) in [([64, 62], 12, 1), ([8132, 64], 16, 1), ([64, 64], 12, 2)] {
        let side = [side, 16];
        let refused = Block { pic, side, ..good };
        let want = (code, [0, 0], NOTHING_MOVED);
        assert_eq!(model::clip(&refused, far), want, "{refused:?}");
    }
}

const PIC: [u32; 2] = [20, 12];

/// Planes of one grey, for both lists and for the target.
struct Planes([Vec<u16>; 3]);

impl Planes {
    fn new() -> Self {
        Planes([0, 1, 2].map(|k| vec![500; OnePlane::over(k > 0, PIC).plane_len()]))
    }

    fn slices(&self) -> [&[u16]; 3] {
        [0, 1, 2].map(|k| &self.0[k][..])
    }

    fn predict(&self, c: &BlockCall) -> Predicted {
        let [mut pred0, mut pred1] = [(); 2].map(|_| vec![0; PRED_LEN]);
        c.by_the_document([self.slices(); 2], &mut pred0, &mut pred1)
    }
}

/// A call in the picture; with equal counts every third time.
fn random_call(rng: &mut Rng) -> BlockCall {
    let b = random_block(PIC, rng);
    let mv = [(); 2].map(|_| {
        let towards = [(); 2].map(|_| TOWARDS[rng.below(7)]);
        vector(&b, towards, rng)
    });
    let used = USES[rng.below(3)];
    let poc = [[7, 7], [7, 8], [8, 7]][rng.below(3)];
    BlockCall { b, used, mv, poc }
}

/// Each list in use has the report of its own vector, also where list 0 alone stands; one not in use has none. The
/// exchanged call has the reports exchanged.
#[test]
fn of_lists() {
    let planes = Planes::new();
    let mut rng = Rng(101);
    let (mut calls, mut unused, mut alone) = (0, 0, 0);
    for _ in 0..20_000 {
        let c = random_call(&mut rng);
        let by_itself = |k: usize| model::clip(&c.b, c.mv[k]).2;
        let want = [0, 1].map(|k| match c.used[k] {
            true => by_itself(k),
            false => NOTHING_MOVED,
        });
        let answer = planes.predict(&c);
        assert_eq!((answer.code, answer.moved), (0, want), "{c:?}");
        let mut exchanged = c;
        exchanged.used.reverse();
        exchanged.mv.reverse();
        exchanged.poc.reverse();
        let [first, second] = want;
        let answer = planes.predict(&exchanged);
        assert_eq!((answer.code, answer.moved), (0, [second, first]), "{c:?}");

        calls += 1;
        unused += usize::from((0..2).any(|k| !c.used[k] && by_itself(k) != NOTHING_MOVED));
        let lists = c.lists([planes.slices(); 2]);
        let is_alone = c.used == [true, true] && !model::is_bi(&c.b, &lists);
        alone += usize::from(is_alone && second != NOTHING_MOVED);
    }
    assert_eq!((calls, unused, alone), (20_000, 10_814, 337));
}

/// The reports of records, and which of them, if any, was refused. Those behind it are not looked at.
struct Seen {
    reports: Vec<[Moved; 2]>,
    refused: Option<usize>,
}

/// A reading of W2, each part of which can be exchanged for a wrong one.
#[derive(Clone, Copy)]
struct Reading {
    /// Of a component: picture side, place, side, vector.
    component: fn(i64, i64, i64, i64) -> u8,
    /// Of a block: the call, whether it is refused, whether list 0 alone stands, and the reports of both vectors.
    block: fn(&BlockCall, bool, bool, [Moved; 2]) -> [Moved; 2],
    /// The counts of a replay, from the reports of its records, the refused one's as if it were not.
    replay: fn(&Seen) -> Counts,
}

/// Components of these records on each side.
fn counts<'a>(records: impl IntoIterator<Item = &'a [Moved; 2]>) -> Counts {
    let lists: Vec<&Moved> = records.into_iter().flatten().collect();
    let on_side = |d: usize, side| lists.iter().filter(|moved| moved[d] == side).count() as u64;
    [
        on_side(0, LOW),
        on_side(0, HIGH),
        on_side(1, LOW),
        on_side(1, HIGH),
    ]
}

impl Seen {
    fn finished(&self) -> &[[Moved; 2]] {
        &self.reports[..self.refused.unwrap_or(self.reports.len())]
    }
}

fn of_used(c: &BlockCall, moved: [Moved; 2]) -> [Moved; 2] {
    [0, 1].map(|k| if c.used[k] { moved[k] } else { NOTHING_MOVED })
}

fn unless_refused(c: &BlockCall, is_refused: bool, moved: [Moved; 2]) -> [Moved; 2] {
    match is_refused {
        true => [NOTHING_MOVED; 2],
        false => of_used(c, moved),
    }
}

const RIGHT: Reading = Reading {
    component: |pic, x, w, mv| {
        // the first sample and the last, from the picture's own
        if 4 * x + mv < 4 * -64 {
            LOW
        } else if 4 * (x + w - 1) + mv > 4 * (pic - 1 + 64) {
            HIGH
        } else {
            NOT_MOVED
        }
    },
    block: |c, is_refused, _, moved| unless_refused(c, is_refused, moved),
    replay: |seen| counts(seen.finished()),
};

/// What a reading is asked: calls and traces of them, with what the model gives.
struct Inputs {
    planes: Planes,
    calls: Vec<(BlockCall, Predicted)>,
    traces: Vec<(Vec<BlockCall>, Replay)>,
}

/// A record of the call, or one that is refused by 2 or 5.
fn record_of(c: &BlockCall) -> Record {
    let kind = match c.used {
        [true, false] => 0,
        [false, true] => 1,
        _ => 2,
    };
    record(&c.b, kind, c.mv, c.poc.map(|poc| poc as u16))
}

impl Inputs {
    fn new() -> Self {
        let planes = Planes::new();
        let mut rng = Rng(102);
        let mut call = || {
            let mut c = random_call(&mut rng);
            match rng.below(8) {
                0 => c.b.side[0] = 12,
                1 => c.poc = [32768; 2],
                _ => (),
            }
            c
        };
        let calls: Vec<BlockCall> = (0..2000).map(|_| call()).collect();
        let replayed = |calls: &[BlockCall]| {
            let header = Header {
                pic: PIC.map(|n| n as u16),
                poc: 4,
                list_poc0: 1,
            };
            let records: Vec<Record> = calls.iter().map(record_of).collect();
            let bytes = oracle::cases::trace(&header, &records);
            let lent = Lent {
                trace: &bytes,
                planes: [planes.slices(); 2],
                col: Collocated {
                    is_present: false,
                    map: &[],
                },
            };
            trace::replay(lent, &mut Planes::new().0)
        };
        let traces = calls
            .chunks(5)
            .map(|calls| (calls.to_vec(), replayed(calls)))
            .collect();
        let calls = calls.iter().map(|c| (*c, planes.predict(c))).collect();
        Inputs {
            planes,
            calls,
            traces,
        }
    }

    /// Whether a reading gives what the model gives.
    fn agree(&self, reading: &Reading) -> bool {
        let of_vector = |b: &Block, mv: Mv| {
            [0, 1].map(|d| {
                let [pic, x, w] = [b.pic[d], b.place[d], b.side[d]].map(i64::from);
                (reading.component)(pic, x, w, mv[d].into())
            })
        };
        let of_block = |c: &BlockCall, is_refused| {
            let lists: [List; 2] = c.lists([self.planes.slices(); 2]);
            let is_alone = c.used == [true, true] && !model::is_bi(&c.b, &lists);
            let moved = c.mv.map(|mv| of_vector(&c.b, mv));
            (reading.block)(c, is_refused, is_alone, moved)
        };
        let of_trace = |calls: &[BlockCall], answer: &Replay| {
            let refused = Some(answer.index as usize).filter(|_| answer.code != 0);
            let looked_at = refused.map_or(calls.len(), |index| index + 1);
            (reading.replay)(&Seen {
                reports: calls[..looked_at]
                    .iter()
                    .map(|c| of_block(c, false))
                    .collect(),
                refused,
            })
        };
        let mut calls = self.calls.iter();
        let mut traces = self.traces.iter();
        calls.all(|(c, answer)| of_block(c, answer.code != 0) == answer.moved)
            && traces.all(|(calls, answer)| of_trace(calls, answer) == answer.moved)
    }
}

fn of_component(component: fn(i64, i64, i64, i64) -> u8) -> Reading {
    Reading { component, ..RIGHT }
}

fn of_block(block: fn(&BlockCall, bool, bool, [Moved; 2]) -> [Moved; 2]) -> Reading {
    Reading { block, ..RIGHT }
}

fn of_replay(replay: fn(&Seen) -> Counts) -> Reading {
    Reading { replay, ..RIGHT }
}

fn across_and_down_exchanged(mut moved: Moved) -> Moved {
    moved.reverse();
    moved
}

/// Each of these gives another answer to one of the inputs, and the right one does not.
#[test]
fn wrong_readings() {
    let wrong = [
        (
            "the direction of the movement",
            of_component(|pic, x, w, mv| other_side((RIGHT.component)(pic, x, w, mv))),
        ),
        (
            "moved at the low limit",
            of_component(|pic, x, w, mv| match 4 * x + mv == -256 {
                true => LOW,
                false => (RIGHT.component)(pic, x, w, mv),
            }),
        ),
        (
            "moved at the high limit",
            of_component(|pic, x, w, mv| match 4 * (x + w) + mv == 4 * (pic + 64) {
                true => HIGH,
                false => (RIGHT.component)(pic, x, w, mv),
            }),
        ),
        (
            "the first sample at both limits",
            of_component(|pic, x, _, mv| (RIGHT.component)(pic, x, 1, mv)),
        ),
        (
            "any sample outside the picture",
            of_component(|pic, x, w, mv| {
                if 4 * x + mv < 0 {
                    LOW
                } else if 4 * (x + w) + mv > 4 * pic {
                    HIGH
                } else {
                    NOT_MOVED
                }
            }),
        ),
        (
            "as far as the border goes",
            of_component(|pic, x, w, mv| match (RIGHT.component)(pic, x, w, mv) {
                LOW if 4 * x + mv >= 4 * -80 => NOT_MOVED,
                report => report,
            }),
        ),
        (
            "moved or not",
            of_component(|pic, x, w, mv| (RIGHT.component)(pic, x, w, mv).min(1)),
        ),
        (
            "across and down exchanged",
            of_block(|c, is_refused, _, moved| {
                unless_refused(c, is_refused, moved.map(across_and_down_exchanged))
            }),
        ),
        (
            "the lists exchanged",
            of_block(|c, is_refused, _, [first, second]| {
                unless_refused(c, is_refused, [second, first])
            }),
        ),
        (
            "a refused block reports",
            of_block(|c, _, _, moved| of_used(c, moved)),
        ),
        (
            "a list not in use reports",
            of_block(|_, is_refused, _, moved| match is_refused {
                true => [NOTHING_MOVED; 2],
                false => moved,
            }),
        ),
        (
            "list 1 reports nothing where list 0 alone stands",
            of_block(|c, is_refused, is_alone, [first, second]| {
                let second = if is_alone { NOTHING_MOVED } else { second };
                unless_refused(c, is_refused, [first, second])
            }),
        ),
        (
            "list 1 reports what list 0 does where that alone stands",
            of_block(|c, is_refused, is_alone, [first, second]| {
                let second = if is_alone { first } else { second };
                unless_refused(c, is_refused, [first, second])
            }),
        ),
        (
            "counts zeroed on refusal",
            of_replay(|seen| match seen.refused {
                Some(_) => [0; 4],
                None => counts(&seen.reports),
            }),
        ),
        (
            "the refused record counted",
            of_replay(|seen| counts(&seen.reports)),
        ),
        (
            "list 0 counted alone",
            of_replay(|seen| {
                let first = seen
                    .finished()
                    .iter()
                    .map(|moved| [moved[0], NOTHING_MOVED]);
                counts(&first.collect::<Vec<_>>())
            }),
        ),
        (
            "across and down counted the other way about",
            of_replay(|seen| {
                let mut counts = counts(seen.finished());
                counts.rotate_left(2);
                counts
            }),
        ),
        (
            "low and high counted the other way about",
            of_replay(|seen| {
                let [across_low, across_high, down_low, down_high] = counts(seen.finished());
                [across_high, across_low, down_high, down_low]
            }),
        ),
        (
            "a record counted once",
            of_replay(|seen| {
                let each = seen.finished().iter();
                let each = each.map(|moved| counts(Some(moved)).map(|n| n.min(1)));
                each.fold([0; 4], |a, b| [0, 1, 2, 3].map(|k| a[k] + b[k]))
            }),
        ),
        (
            "the last record alone",
            of_replay(|seen| counts(seen.finished().last())),
        ),
    ];
    let inputs = Inputs::new();
    assert!(inputs.agree(&RIGHT));
    for (name, reading) in &wrong {
        assert!(!inputs.agree(reading), "{}", name);
    }
    assert_eq!(wrong.len(), 20);
    let refused = |code: u32| inputs.calls.iter().filter(|c| c.1.code == code).count();
    assert_eq!([0, 2, 5].map(refused), [1490, 224, 286]);
}
