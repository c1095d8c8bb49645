//! Document 02's W1 as `oracle::model::trace` has it: the bytes of a trace, its writers, and replay against the
//! Rust's own calls, one by one, with W2's counts.

use oracle::cases::*;
use oracle::model::trace::*;
use oracle::model::{self, Block, Collocated, HIGH, LOW, OFFSETS, PRED_LEN};
use oracle::{plane_config, plane_of, Picture};

#[test]
fn bytes_by_hand() {
    let header = Header {
        pic: [1920, 1080],
        poc: 0x1234,
        list_poc0: 0x8001,
    };
    let bytes = [
        b'I', b'P', b'T', 1, 0, 0x80, 0x07, 0x38, 0x04, 0x34, 0x12, 0x01, 0x80,
    ];
    assert_eq!(header.bytes(), bytes);
    assert_eq!(Header::read(&bytes), header);

    let both = Record {
        place: [256, 8],
        side: [64, 4],
        kind: 2,
        mv: [[-1, 2], [32767, -32768]],
        poc: [3, 0x7ffe],
    };
    let bytes = [
        0, 1, 8, 0, 64, 0, 4, 0, 2, 0xff, 0xff, 2, 0, 0xff, 0x7f, 0, 0x80, 3, 0, 0xfe, 0x7f, 0,
    ];
    assert_eq!(both.bytes(), bytes);
    assert_eq!(Record::read(&bytes), both);

    let b = both.block([1920, 1080]);
    assert_eq!(trace(&header, &[both, both]).len(), 13 + 2 * 22);
    assert_eq!((b.pic, b.place, b.side), ([1920, 1080], [256, 8], [64, 4]));
}

/// Zero, the ends of sixteen bits, and any.
fn any_number(rng: &mut Rng) -> u16 {
    [0, 0, 0, 1, 32767, 32768, 65535, rng.below(65536) as u16][rng.below(8)]
}

fn any_record(rng: &mut Rng) -> Record {
    let mut pair = || [any_number(rng), any_number(rng)];
    let [place, side, poc] = [pair(), pair(), pair()];
    let mv = [pair(), pair()].map(|mv| mv.map(|v| v as i16));
    let kind = [0, 1, 2, 3, 4, 255][rng.below(6)];
    Record {
        place,
        side,
        kind,
        mv,
        poc,
    }
}

/// "writing and reading return the same records"; a buffer keeps what it holds behind them.
#[test]
fn writing_and_reading() {
    let mut rng = Rng(71);
    let (mut written, mut refused) = (0, 0);
    for k in 0..20_000 {
        let pic = [4, 8124, 8128, 1920].map(|n| n as u32);
        let pic = [pic[k % 4], pic[k / 4 % 4]];
        let old: Vec<u8> = (0..30).map(|_| rng.below(256) as u8).collect();

        let mut out = old.clone();
        let [poc, list_poc0] = [(); 2].map(|_| any_number(&mut rng));
        assert_eq!(write_header(pic, poc, list_poc0, &mut out), 0);
        let header = Header {
            pic: pic.map(|n| n as u16),
            poc,
            list_poc0,
        };
        assert_eq!(Header::read(&out), header);
        assert_eq!((&out[..5], &out[13..]), (&MARK[..], &old[13..]));

        let record = any_record(&mut rng);
        let mut out = old.clone();
        match write_record(pic, &record, &mut out) {
            0 => {
                assert_eq!(Record::read(&out), record);
                assert_eq!((out[21], &out[22..]), (0, &old[22..]));
                written += 1;
            }
            code => {
                assert_eq!((code, out), (12, old), "{record:?}");
                refused += 1;
            }
        }
    }
    assert_eq!((written, refused), (3769, 16231));
}

/// "Fields of an unused list are zero, and so are both vectors of kind 3.": each field alone, of every kind.
#[test]
fn zero_fields() {
    let due = |kind: u8, field: usize| match kind {
        0 => [2, 3, 5].contains(&field),
        1 => [0, 1, 4].contains(&field),
        2 => false,
        3 => field < 4,
        _ => true,
    };
    let mut refused = 0;
    for kind in 0..=255 {
        for field in 0..6 {
            for value in [1, 255, 256, 32768, 65535] {
                let mut record = record(&some_block(), kind, [[0; 2]; 2], [0; 2]);
                match field {
                    0..=3 => record.mv[field / 2][field % 2] = value as u16 as i16,
                    _ => record.poc[field - 4] = value as u16,
                }
                let is_due = due(kind, field);
                let want = if is_due { 12 } else { 0 };
                assert_eq!(
                    write_record([16, 8], &record, &mut [7; 22]),
                    want,
                    "{record:?}"
                );
                refused += usize::from(is_due);
            }
        }
    }
    assert_eq!(refused, (252 * 6 + 3 + 3 + 4) * 5);
}

fn some_block() -> Block {
    Block {
        pic: [16, 8],
        place: [4, 0],
        side: [8, 4],
    }
}

/// "they refuse 1, 4 and, for a record, 12, in that order"; what was lent then stays.
#[test]
fn refusals_of_the_writers() {
    for (pic, is_bad) in [
        ([16, 8], false),
        ([8128, 8128], false),
        ([8132, 8], true),
        ([16, 0], true),
        ([65552, 8], true), // 16 in its low sixteen bits
        ([16, u32::MAX - 3], true),
    ] {
        for len in 0..25 {
            let mut out = vec![7; len];
            let header = write_header(pic, 1, 2, &mut out);
            let want = if is_bad {
                1
            } else if len < 13 {
                4
            } else {
                0
            };
            assert_eq!(header, want, "{pic:?}, {len} bytes");
            assert_eq!(out.iter().all(|byte| *byte == 7), want != 0);

            for kind in [2, 4] {
                let mut out = vec![7; len];
                let record = record(&some_block(), kind, [[1; 2]; 2], [2; 2]);
                let code = write_record(pic, &record, &mut out);
                let want = if is_bad {
                    1
                } else if len < 22 {
                    4
                } else if kind > 3 {
                    12
                } else {
                    0
                };
                assert_eq!(code, want, "{pic:?}, {len} bytes, kind {kind}");
                assert_eq!(out.iter().all(|byte| *byte == 7), want != 0);
            }
        }
    }
}

/// Three planes of arbitrary samples, in the borders too.
fn samples(pic: [u32; 2], rng: &mut Rng) -> [Vec<u16>; 3] {
    [0, 1, 2].map(|k| {
        let cfg = plane_config(k > 0, pic[0] as usize, pic[1] as usize);
        let samples = arbitrary(cfg.stride * cfg.alloc_height, rng.below(65536) as u16);
        samples.into_iter().map(|n| n % 1024).collect()
    })
}

/// What a replay leaves behind: the counts of moved components, and the target.
#[derive(PartialEq)]
struct State {
    moved: Counts,
    target: [Vec<u16>; 3],
}

/// What a replay is lent.
struct Fixture {
    header: Header,
    planes: [[Vec<u16>; 3]; 2],
    map: Option<Vec<i16>>,
    target: [Vec<u16>; 3],
}

impl Fixture {
    fn new(pic: [u32; 2], is_padded: bool, has_map: bool, rng: &mut Rng) -> Self {
        let mut planes = [(); 2].map(|_| samples(pic, rng));
        for (k, plane) in planes.iter_mut().flat_map(|p| p.iter_mut().enumerate()) {
            if is_padded {
                assert_eq!(model::pad(k > 0, pic, plane), 0);
            }
        }
        let units = (pic[0] * pic[1] / 16) as usize;
        let mut number = || match rng.below(4) {
            0 => LIMITS[rng.below(5)],
            1 => rng.below(65536) as u16 as i16,
            _ => rng.below(801) as i16 - 400,
        };
        let map: Vec<i16> = (0..4 * units).map(|_| number()).collect();
        Fixture {
            header: Header {
                pic: pic.map(|n| n as u16),
                poc: random_count(rng),
                list_poc0: random_count(rng),
            },
            planes,
            map: Some(map).filter(|_| has_map),
            target: samples(pic, rng),
        }
    }

    fn pic(&self) -> [u32; 2] {
        self.header.pic.map(u32::from)
    }

    fn lent<'a>(&'a self, trace: &'a [u8]) -> Lent<'a> {
        let of = |list: usize| [0, 1, 2].map(|k| &self.planes[list][k][..]);
        Lent {
            trace,
            planes: [of(0), of(1)],
            col: Collocated {
                is_present: self.map.is_some(),
                map: self.map.as_deref().unwrap_or(&[]),
            },
        }
    }

    /// The model's number and index, and what is left behind.
    fn replay(&self, trace: &[u8]) -> (u32, u64, State) {
        let mut target = self.target.clone();
        let Replay { code, index, moved } = replay(self.lent(trace), &mut target);
        (code, index, State { moved, target })
    }

    /// A record inside the comparison domain.
    fn record(&self, kind: u8, rng: &mut Rng) -> Record {
        loop {
            let b = random_block(self.pic(), rng);
            let mv = [(); 2].map(|_| {
                let towards = [(); 2].map(|_| TOWARDS[rng.below(7)]);
                vector(&b, towards, rng)
            });
            let mut poc = [(); 2].map(|_| random_count(rng));
            if rng.below(4) == 0 {
                poc[1] = poc[0];
            }
            let record = record(&b, kind, mv, poc);
            let direct =
                oracle::evc_get_mv_dir(&b, record.pocs(&self.header), self.map.as_deref(), None);
            if kind < 3 || direct.iter().all(|mv| b.in_domain(*mv)) {
                return record;
            }
        }
    }

    fn picture(&self, list: usize) -> Picture {
        let [w, h] = self.header.pic.map(usize::from);
        let planes = &self.planes[list];
        Picture::new([0, 1, 2].map(|k| plane_of(k > 0, w, h, &planes[k])))
    }

    /// What the Rust's calls give for the records, the blocks put into revc's planes, and how many components its
    /// `mv_clip` moved.
    fn by_the_rust(&self, records: &[Record]) -> State {
        let pictures = [self.picture(0), self.picture(1)];
        let mut moved = [0; 4];
        let mut target = self.target.clone();
        for r in records {
            let b = Block {
                pic: self.pic(),
                place: r.place.map(u32::from),
                side: r.side.map(u32::from),
            };
            let map = self.map.as_deref();
            let mv = match r.kind {
                3 => oracle::evc_get_mv_dir(&b, r.pocs(&self.header), map, None),
                _ => r.mv,
            };
            let call = BlockCall {
                b,
                used: [[true, false], [false, true], [true, true], [true, true]][r.kind as usize],
                mv,
                poc: r.poc.map(u32::from),
            };
            assert!(call.in_domain(), "{:?}", call);
            let [mut pred0, mut pred1] = [(); 2].map(|_| vec![5000; PRED_LEN]);
            call.by_the_rust([&pictures[0], &pictures[1]], &mut pred0, &mut pred1);
            for [across, down] in call.moved_by_the_rust() {
                moved[0] += u64::from(across == LOW);
                moved[1] += u64::from(across == HIGH);
                moved[2] += u64::from(down == LOW);
                moved[3] += u64::from(down == HIGH);
            }
            for k in 0..3 {
                let shift = usize::from(k > 0);
                let cfg = plane_config(k > 0, b.pic[0] as usize, b.pic[1] as usize);
                let [x, y] = b.place.map(|n| n as usize >> shift);
                let [w, h] = b.side.map(|n| n as usize >> shift);
                let rows = pred0[OFFSETS[k]..].chunks(w).take(h);
                for (row, samples) in rows.enumerate() {
                    let at = (cfg.yorigin + y + row) * cfg.stride + cfg.xorigin + x;
                    target[k][at..at + w].copy_from_slice(samples);
                }
            }
        }
        State { moved, target }
    }
}

fn random_count(rng: &mut Rng) -> u16 {
    [0, 1, 4, 8, 32767, rng.below(32768) as u16][rng.below(6)]
}

/// Replay is the Rust's own calls, one after another; so is each beginning of it.
#[test]
fn one_by_one() {
    let mut rng = Rng(72);
    let (mut replays, mut blocks, mut components) = (0, 0, [0; 4]);
    for pic in [[4, 4], [8, 4], [20, 16], [36, 28], [64, 64], [4, 132]] {
        for is_padded in [false, true] {
            for has_map in [false, true] {
                let fixture = Fixture::new(pic, is_padded, has_map, &mut rng);
                for n in [0, 1, 2, 5, 24] {
                    let mut kind = || rng.below(4) as u8;
                    let kinds: Vec<u8> = (0..n).map(|_| kind()).collect();
                    let records: Vec<Record> = kinds
                        .into_iter()
                        .map(|kind| fixture.record(kind, &mut rng))
                        .collect();
                    let bytes = trace(&fixture.header, &records);
                    let (code, index, state) = fixture.replay(&bytes);
                    assert_eq!((code, index), (0, n), "{records:?}");
                    let is_same = state == fixture.by_the_rust(&records);
                    assert!(is_same, "{:?} {:?}", fixture.header, records);
                    replays += 1;
                    blocks += records.len();
                    components = sum(components, state.moved);
                }
            }
        }
    }
    assert_eq!((replays, blocks), (6 * 2 * 2 * 5, 6 * 2 * 2 * 32));
    assert_eq!(components, [253, 258, 254, 273]);
}

/// A trace of every kind over blocks that overlap, and what is left behind before each record and at the end.
fn for_damage() -> (Fixture, Vec<Record>, Vec<State>) {
    let mut rng = Rng(73);
    let mut fixture = Fixture::new([20, 12], true, true, &mut rng);
    (fixture.header.poc, fixture.header.list_poc0) = (4, 1);
    let records: Vec<Record> = [0, 3, 1, 2, 3, 0, 2]
        .iter()
        .map(|kind| {
            let mut record = fixture.record(*kind, &mut rng);
            record.poc = record.poc.map(|poc| poc % 9);
            record
        })
        .collect();
    let states = (0..=records.len())
        .map(|n| fixture.by_the_rust(&records[..n]))
        .collect();
    (fixture, records, states)
}

fn sum(a: Counts, b: Counts) -> Counts {
    [0, 1, 2, 3].map(|k| a[k] + b[k])
}

/// A trace cut at every length: "11 for an incomplete header", "11 if incomplete", with the blocks before.
#[test]
fn cut() {
    let (fixture, records, states) = for_damage();
    let whole = trace(&fixture.header, &records);
    for len in 0..=whole.len() {
        let (code, index, state) = fixture.replay(&whole[..len]);
        let finished = len.saturating_sub(13) / 22;
        let is_whole = len >= 13 && (len - 13) % 22 == 0;
        let want = if is_whole { 0 } else { 11 };
        assert_eq!((code, index), (want, finished as u64), "{len} bytes");
        assert!(state == states[finished], "{} bytes", len);
    }
}

/// A byte to put in the place of another: each of its bits the other way, the ends, one more and one less.
fn others(byte: u8) -> Vec<u8> {
    let mut others: Vec<u8> = (0..8).map(|bit| byte ^ 1 << bit).collect();
    others.extend(&[0, 255, byte.wrapping_add(1), byte.wrapping_sub(1)]);
    others.sort();
    others.dedup();
    others.retain(|other| *other != byte);
    others
}

/// The target with the samples of these blocks at 0.
fn without(target: &[Vec<u16>; 3], blocks: [&Record; 2]) -> [Vec<u16>; 3] {
    let mut target = target.clone();
    for r in &blocks {
        for k in 0..3 {
            let cfg = plane_config(k > 0, 20, 12);
            let half = |n: u16| usize::from(n) >> usize::from(k > 0);
            let ([x, y], [w, h]) = (r.place.map(half), r.side.map(half));
            for row in y..y + h {
                let at = (cfg.yorigin + row) * cfg.stride + cfg.xorigin + x;
                target[k][at..at + w].fill(0);
            }
        }
    }
    target
}

/// Each byte of a trace changed in turn: a refusal is the damaged record's and has a number that its field can
/// cause, the blocks before it are as without damage, and a finished replay differs in the damaged block alone.
#[test]
fn changed() {
    let (fixture, records, states) = for_damage();
    let whole = trace(&fixture.header, &records);
    let n = records.len();
    let mut seen = [0; 13];
    let changes =
        (0..whole.len()).flat_map(|at| others(whole[at]).into_iter().map(move |v| (at, v)));
    for (at, value) in changes {
        let mut damaged = whole.clone();
        damaged[at] = value;
        let (code, index, state) = fixture.replay(&damaged);
        let index = index as usize;
        seen[code as usize] += 1;
        let allowed: &[u32] = match at {
            0..=4 => &[10],
            5..=8 => &[0, 1, 2, 4], // another picture: its sides, its lengths, its blocks
            9..=12 => &[0, 5],      // counts, which a record of kind 3 looks at
            _ => match (at - 13) % 22 {
                0..=7 => &[0, 2],
                8..=16 => &[0, 12],
                17..=20 => &[0, 5, 12],
                _ => &[12],
            },
        };
        assert!(allowed.contains(&code), "{} at {}: {}", value, at, code);
        let is_of_a_record = at >= 13;
        let damaged_record = if is_of_a_record { (at - 13) / 22 } else { 0 };
        match code {
            0 => assert_eq!(index, n, "{value} at {at}"),
            1 | 4 | 10 => assert_eq!(index, 0, "{value} at {at}"),
            _ if is_of_a_record => assert_eq!(index, damaged_record, "{value} at {at}"),
            5 => assert_eq!(index, 1, "{value} at {at}: the first of kind 3"),
            _ => assert!(index < n, "{} at {}", value, at),
        }
        let is_same_picture = !(5..=8).contains(&at);
        if code != 0 && (is_same_picture || index == 0) {
            assert!(state == states[index], "{} at {}", value, at);
        }
        if code == 0 && is_of_a_record {
            let now = Record::read(&damaged[13 + 22 * damaged_record..]);
            let blocks = [&records[damaged_record], &now];
            let is_same = without(&state.target, blocks) == without(&states[n].target, blocks);
            assert!(is_same, "{} at {}", value, at);
        }
    }
    // how many returned each number, from 0 on
    assert_eq!(seen, [541, 18, 502, 0, 18, 26, 0, 0, 0, 0, 52, 0, 433]);
}

/// The records of two traces, one after the other, are one replay, and their counts add up; those behind a record
/// that is refused are not looked at.
#[test]
fn one_after_another() {
    let (fixture, records, states) = for_damage();
    for split in 0..=records.len() {
        let (first, second) = records.split_at(split);
        let mut target = fixture.target.clone();
        let [first, second] = [first, second].map(|part| trace(&fixture.header, part));
        let answer = replay(fixture.lent(&first), &mut target);
        assert_eq!((answer.code, answer.index), (0, split as u64));
        assert_eq!(answer.moved, states[split].moved, "{split}");
        assert!(target == states[split].target, "{}", split);
        let rest = replay(fixture.lent(&second), &mut target);
        assert_eq!(rest.index, (records.len() - split) as u64);
        let whole = states.last().unwrap();
        assert_eq!(sum(answer.moved, rest.moved), whole.moved, "{split}");
        assert!(target == whole.target, "{}", split);
    }
    let mut refused = records.clone();
    refused[3].side[0] = 12;
    refused[4].kind = 9;
    let (code, index, state) = fixture.replay(&trace(&fixture.header, &refused));
    assert_eq!((code, index), (2, 3));
    assert!(state == states[3]);
}

/// The order of the checks before the first record, and of those of a record, with all faults at once.
#[test]
fn order() {
    let (fixture, records, states) = for_damage();
    let whole = trace(&fixture.header, &records);
    let short = Fixture {
        target: [0, 1, 2].map(|k| fixture.target[k][k.min(1)..].to_vec()),
        header: fixture.header,
        planes: fixture.planes.clone(),
        map: fixture.map.clone(),
    };
    let code_of = |fixture: &Fixture, bytes: &[u8]| {
        let (code, index, state) = fixture.replay(bytes);
        assert_eq!((index, state.moved), (0, [0; 4]));
        assert!(state.target == fixture.target);
        code
    };
    assert_eq!(code_of(&short, &whole), 4);
    assert_eq!(code_of(&short, &whole[..13]), 4);
    let mut bad = whole.clone();
    bad[5] = 21;
    assert_eq!(code_of(&short, &bad), 1);
    bad[0] = b'J';
    assert_eq!(code_of(&short, &bad), 10);
    assert_eq!(code_of(&short, &bad[..12]), 11);

    // every plane of the references, and the map, which is not needed where there is none
    for plane in 0..7 {
        let mut fixture = for_damage().0;
        match plane {
            6 => drop(fixture.map.as_mut().unwrap().pop()),
            k => drop(fixture.planes[k / 3][k % 3].pop()),
        }
        assert_eq!(code_of(&fixture, &whole), 4);
        if plane == 6 {
            fixture.map = None;
            assert_eq!(fixture.replay(&whole).0, 0);
        }
    }

    // a record: 11, 12, 2, 5, and last 6
    let mut high = for_damage().0;
    high.planes[1][2].fill(1024);
    let mut record = records[3];
    assert_eq!(record.kind, 2);
    let code_of = |record: &Record, last: u8, len: usize| {
        let mut bytes = trace(&high.header, &[records[0], *record]);
        bytes[13 + 43] = last;
        let (code, index, state) = high.replay(&bytes[..13 + 22 + len]);
        assert_eq!(index, 1);
        assert!(state == states[1]);
        code
    };
    assert_eq!(code_of(&record, 0, 22), 6);
    record.poc[0] = 32768;
    assert_eq!(code_of(&record, 0, 22), 5);
    record.place[1] = 2;
    assert_eq!(code_of(&record, 0, 22), 2);
    assert_eq!(code_of(&record, 1, 22), 12);
    record.kind = 3; // with vectors
    assert_eq!(code_of(&record, 0, 22), 12);
    assert_eq!(code_of(&record, 0, 21), 11);
    record.mv = [[0; 2]; 2];
    assert_eq!(code_of(&record, 0, 22), 2);
    record.place[1] = 0;
    assert_eq!(code_of(&record, 0, 22), 5);
    record.poc[0] = 0;
    assert_eq!(code_of(&record, 0, 22), 6);
}
