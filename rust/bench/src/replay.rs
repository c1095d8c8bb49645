//! Replay of a trace: `evc_trace_replay` against its own calls one by one, their blocks copied into the target.

use crate::cases::{mv, picture, samples, squares, Numbers, PATHS, PREDICTED};
use crate::measure::least;
use crate::ours::{self, List};
use crate::report::{Report, REPLAY};
use crate::{block, room::Room};
use oracle::cases::{record, trace};
use oracle::model::trace::{Header, Record, Replay};
use oracle::model::{Block, Mv, Pocs};
use oracle::Plane;
use std::hint::black_box;

const PIC: [u32; 2] = [1920, 1080];

/// Whole pictures, of which a few rounds are enough.
const ROUNDS: usize = 40;

const KINDS: [&str; 4] = ["list 0", "list 1", "both lists", "direct"];

/// With these the direct vectors are half of the collocated vector, and its opposite.
const POC: u32 = 12;
const LIST_POC0: u32 = 8;

/// Records for these blocks, of one kind or of all; vectors of up to eight samples each way, by every path.
fn records(blocks: &[Block], kind: Option<u8>) -> Vec<Record> {
    let mut numbers = Numbers::new(22);
    let poc = block::POCS.map(|poc| poc as u16);
    let mut one = |b: &Block| {
        let kind = kind.unwrap_or(numbers.below(4) as u8);
        let mut mv = || {
            let (_, filtered) = PATHS[[0, 1, 2, 3, 3, 3][numbers.below(6) as usize]];
            mv(&mut numbers, filtered)
        };
        record(b, kind, [mv(), mv()], poc)
    };
    blocks.iter().map(|b| one(b)).collect()
}

/// All that a replay is lent but for its target, and the same as calls.
struct Replayed {
    pic: [u32; 2],
    trace: Vec<u8>,
    records: Vec<(Block, Record)>,
    references: [[Plane<u16>; 3]; 2],
    col: Vec<i16>,
}

impl Replayed {
    fn new(pic: [u32; 2], blocks: &[Block], kind: Option<u8>) -> Self {
        let header = Header {
            pic: pic.map(|n| n as u16),
            poc: POC as u16,
            list_poc0: LIST_POC0 as u16,
        };
        let records = records(blocks, kind);
        let mut numbers = Numbers::new(23);
        let units = (pic[0] * pic[1] / 16) as usize;
        Replayed {
            pic,
            trace: trace(&header, &records),
            records: blocks.iter().copied().zip(records).collect(),
            references: [100, 200].map(|seed| picture(pic, seed)),
            col: (0..4 * units)
                .map(|_| numbers.below(128) as i16 - 64)
                .collect(),
        }
    }

    fn target(&self) -> [Plane<u16>; 3] {
        let mut target = picture(self.pic, 300);
        for plane in &mut target {
            plane.data.fill(5000);
        }
        target
    }

    fn replay(&self, target: &mut [Plane<u16>; 3]) -> Replay {
        let planes = self.references.each_ref().map(samples);
        let target = target.each_mut().map(|plane| &mut plane.data[..]);
        ours::replay(&self.trace, planes, &self.col, target)
    }

    /// The calls one by one; the blocks go to the target where there is one. Their numbers, joined.
    fn calls(&self, pred: &mut [Vec<u16>; 2], mut target: Option<&mut [Plane<u16>; 3]>) -> u32 {
        let [pred0, pred1] = pred;
        let [poc0, poc1] = block::POCS;
        let pocs = Pocs {
            poc: POC,
            poc0,
            poc1,
            list_poc0: LIST_POC0,
        };
        let mut codes = 0;
        for (b, record) in &self.records {
            let mut mv = record.mv;
            if record.kind == 3 {
                let (code, direct) = ours::mv_dir(b, &pocs, &self.col);
                codes |= code;
                mv = direct;
            }
            codes |= self.predict(black_box(b), record.used(), mv, pred0, pred1);
            if let Some(target) = &mut target {
                put(b, pred0, target);
            }
        }
        codes
    }

    fn predict(
        &self,
        b: &Block,
        used: [bool; 2],
        mv: [Mv; 2],
        pred0: &mut [u16],
        pred1: &mut [u16],
    ) -> u32 {
        let lists = [0, 1].map(|k| List {
            used: used[k],
            mv: mv[k],
            poc: block::POCS[k],
            planes: samples(&self.references[k]),
        });
        ours::mc2(b, &lists, pred0, pred1).code
    }

    /// Both leave the same in the whole of the target.
    fn compare(&self, what: &str) {
        let [mut a, mut b] = [self.target(), self.target()];
        let n = self.records.len() as u64;
        let answer = self.replay(&mut a);
        assert_eq!((answer.code, answer.index), (0, n), "{what}");
        assert_eq!(self.calls(&mut block::lent(), Some(&mut b)), 0, "{what}");
        assert!(samples(&a) == samples(&b), "{what} differs");
        let is_covered = |plane: &Plane<u16>| {
            let cfg = &plane.cfg;
            let mut rows = plane.data.chunks(cfg.stride).skip(cfg.yorigin);
            (0..cfg.height).all(|_| {
                let row = rows.next().unwrap();
                row[cfg.xorigin..][..cfg.width].iter().all(|n| *n < 1024)
            })
        };
        assert!(a.iter().all(is_covered), "{what} leaves something out");
    }

    /// The calls alone, with the copies, and replay, in nanoseconds.
    fn times(&self, rounds: usize) -> [f64; 3] {
        let [mut pred_a, mut pred_b] = [block::lent(), block::lent()];
        let [mut target_a, mut target_b] = [self.target(), self.target()];
        least(
            rounds.min(ROUNDS),
            1,
            [
                &mut || {
                    black_box(self.calls(&mut pred_a, None));
                },
                &mut || {
                    black_box(self.calls(&mut pred_b, Some(&mut target_a)));
                },
                &mut || {
                    black_box(self.replay(&mut target_b));
                },
            ],
        )
    }
}

/// The rows of the block's three planes, into the target's.
fn put(b: &Block, pred: &[u16], target: &mut [Plane<u16>; 3]) {
    for (k, plane) in target.iter_mut().enumerate() {
        let shift = usize::from(k > 0);
        let [x, y] = b.place.map(|n| n as usize >> shift);
        let [w, h] = b.side.map(|n| n as usize >> shift);
        let (stride, cfg) = (plane.cfg.stride, &plane.cfg);
        let first = (cfg.yorigin + y) * stride + cfg.xorigin + x;
        let rows = plane.data[first..].chunks_mut(stride);
        let of_block = pred[PREDICTED[k]..].chunks_exact(w).take(h);
        for (row, samples) in rows.zip(of_block) {
            row[..w].copy_from_slice(samples);
        }
    }
}

pub fn run(report: &mut Report) {
    let mut rows = Vec::new();
    let mixed = [None, Some(0), Some(1), Some(2), Some(3)].map(|kind| (None, kind));
    let squares_of = [4, 8, 16, 32, 64].map(|side| (Some(side), None));
    for (side, kind) in mixed.into_iter().chain(squares_of) {
        let kinds = kind.map_or("all kinds", |kind| KINDS[usize::from(kind)]);
        let size = side.map_or("mixed sizes".to_string(), |side| format!("{side}x{side}"));
        let what = format!("replay {kinds}, {size}");
        if !report.wants(&what) {
            continue;
        }
        let numbers = &mut Numbers::new(21);
        let blocks = squares(PIC, side.unwrap_or(64), side.is_none(), numbers);
        let replayed = Replayed::new(PIC, &blocks, kind);
        replayed.compare(&what);
        let [alone, copied, replay] = replayed.times(report.rounds);
        let n = f64::from(PIC[0] * PIC[1] * 3 / 2);
        let ratio = replay / copied;
        rows.push(vec![
            what.clone(),
            blocks.len().to_string(),
            format!("{:.2}", alone / 1e6),
            format!("{:.2}", copied / 1e6),
            format!("{:.2}", replay / 1e6),
            format!("{:.3}", replay / n),
            format!("{ratio:.3}"),
            report.judge(Some(&REPLAY), &what, ratio),
        ]);
    }
    let head = [
        "records",
        "how many",
        "calls, ms",
        "calls and copies, ms",
        "replay, ms",
        "replay, ns a sample",
        "replay/calls and copies",
        "target",
    ];
    let title = "Replay of a picture of 1920x1080: evc_trace_replay";
    report.table(title, &head, &rows);
}

/// What a replay needs beside what it is lent, with blocks of every size and kind.
pub fn room() -> Room {
    let pic = [256; 2];
    let mut room = Room::default();
    for side in [4, 8, 16, 32, 64] {
        for kind in 0..4 {
            let blocks = squares(pic, side, false, &mut Numbers::new(21));
            let replayed = Replayed::new(pic, &blocks, Some(kind));
            let mut target = replayed.target();
            let mut answer = None;
            room.of(&mut || answer = Some(replayed.replay(&mut target)));
            let Replay { code, index, .. } = answer.unwrap();
            assert_eq!((code, index), (0, replayed.records.len() as u64));
        }
    }
    room
}
