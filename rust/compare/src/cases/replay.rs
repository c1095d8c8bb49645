//! `evc_trace_replay`: against the model, against the archive's own calls one by one, and, where every finished
//! record lies in the comparison domain, against the Rust's.

use super::block::{random_picture, PictureOf};
use super::one_plane::Put;
use super::trace::{any_number, disturb, smaller_records};
use super::*;
use crate::guard::{Guarded, Press, PRESSES};
use crate::lent::{old_samples, rust_plane, Motion, PlaneOf, Slot};
use crate::numbers::{count, one_in, seed, smaller_number, smaller_spare, spare, vector};
use crate::numbers::{wild, Length};
use oracle::cases::{random_block, record, trace, BlockCall, ByTheRust};
use oracle::model::trace::{self, Header, OneByOne, Record, Replay, HEADER_LEN, RECORD_LEN};
use oracle::model::{self, Block, Collocated, List, Mv, OnePlane, Pocs, Predicted};
use oracle::Picture;

/// What becomes of the bytes of a trace.
#[derive(Clone, Copy, Debug, PartialEq)]
enum Damage {
    Byte { at: usize, value: u8 },
    Cut { len: usize },
    More { len: usize, value: u8 },
}

impl Damage {
    fn random(bytes: &[u8], rng: &mut Rng) -> Self {
        match rng.below(4) {
            0 => Damage::Cut {
                len: match rng.below(3) {
                    0 => rng.below(HEADER_LEN + 2),
                    1 => bytes.len() - 1 - rng.below(RECORD_LEN).min(bytes.len() - 1),
                    _ => rng.below(bytes.len()),
                },
            },
            1 => Damage::More {
                len: 1 + rng.below(RECORD_LEN + 8),
                value: [0, 255, rng.below(256) as u8][rng.below(3)],
            },
            _ => {
                // the header, any, or the last byte of a record
                let at = match rng.below(4) {
                    0 => rng.below(HEADER_LEN),
                    1 => HEADER_LEN + RECORD_LEN * rng.below(12) + RECORD_LEN - 1,
                    _ => rng.below(bytes.len()),
                };
                let old = bytes.get(at).copied().unwrap_or(0);
                let value = match rng.below(6) {
                    0 => 0,
                    1 => 255,
                    2 => old.wrapping_add(1),
                    3 => old.wrapping_sub(1),
                    4 => old ^ 0x80,
                    _ => rng.below(256) as u8,
                };
                Damage::Byte { at, value }
            }
        }
    }

    fn apply(self, bytes: &mut Vec<u8>) {
        match self {
            Damage::Byte { at, value } => {
                if let Some(byte) = bytes.get_mut(at) {
                    *byte = value;
                }
            }
            Damage::Cut { len } => bytes.truncate(len),
            Damage::More { len, value } => bytes.resize(bytes.len() + len, value),
        }
    }
}

#[derive(Clone, Debug)]
pub struct Replays {
    header: Header,
    records: Vec<Record>,
    damage: Vec<Damage>,
    /// Of list 0 and list 1. All that is lent was made for their picture.
    pictures: [PictureOf; 2],
    /// List 1 has the planes of list 0, the very same buffers.
    is_shared: bool,
    lengths: [[Length; 3]; 2],
    has_col: bool,
    col: Motion,
    col_length: Length,
    /// Samples of the target behind the needed ones.
    spare: [usize; 3],
    target_lengths: [Length; 3],
    seed: u64,
    /// In the window of a record, of a list and a plane.
    put: Option<(usize, usize, usize, Put)>,
}

/// What is lent to be read.
#[derive(Default)]
struct Given {
    trace: Guarded<u8>,
    planes: [[Slot<PlaneOf>; 3]; 2],
    col: Slot<Motion>,
}

#[derive(Default)]
pub struct Lent {
    given: Given,
    target: [Guarded<u16>; 3],
    rust: [Option<(PictureOf, Picture)>; 2],
}

type Target = [Vec<u16>; 3];

impl Given {
    /// This many bytes of the trace, and what the case lends of all else.
    fn lend<'a>(&'a self, case: &Replays, press: Press, bytes: usize) -> trace::Lent<'a> {
        let which = case.which();
        let plane =
            |list: usize, k: usize| self.planes[which[list]][k].lend(press, case.lengths[list][k]);
        trace::Lent {
            trace: self.trace.lend(press, bytes),
            planes: [0, 1].map(|list| [0, 1, 2].map(|k| plane(list, k))),
            col: Collocated {
                is_present: case.has_col,
                map: self.col.lend(press, case.col_length),
            },
        }
    }
}

impl Lent {
    /// A list's picture for the Rust, the one that it has already if nothing about it changed.
    fn rust(&mut self, case: &Replays, pic: [u32; 2], list: usize) -> Picture {
        let which = case.which()[list];
        let made_for = &case.pictures[which];
        let is_kept = case.lengths[list] == [Length::Whole; 3] && made_for[0].pic == pic;
        match &self.rust[which] {
            Some((kept_for, picture)) if is_kept && kept_for == made_for => picture.clone(),
            _ => {
                let planes = self.given.lend(case, Press::Back, 0).planes[list];
                let picture = Picture::new([0, 1, 2].map(|k| rust_plane(k > 0, pic, planes[k])));
                if is_kept {
                    self.rust[which] = Some((made_for.clone(), picture.clone()));
                }
                picture
            }
        }
    }
}

/// The archive's own calls.
pub struct Own<'a>(pub &'a dyn Calls);

impl OneByOne for Own<'_> {
    fn direct(&mut self, b: &Block, pocs: Pocs, col: Collocated) -> (u32, [Mv; 2]) {
        self.0.get_mv_dir(b, pocs, col)
    }

    fn block(&mut self, b: &Block, lists: &[List; 2], pred: &mut [Vec<u16>; 2]) -> Predicted {
        let [pred0, pred1] = pred;
        self.0.mc2(b, lists, pred0, pred1)
    }
}

fn assert_target(what: &str, got: &Target, want: &Target) -> Result<(), String> {
    for k in 0..3 {
        assert_all_same(&format!("{what}, plane {k}"), &got[k], &want[k])?;
    }
    Ok(())
}

/// Nine planes of the largest picture, some of them several times, are gigabytes.
const MOST_SAMPLES: u32 = 8128 * 160;

impl Replays {
    fn which(&self) -> [usize; 2] {
        [0, usize::from(!self.is_shared)]
    }

    fn made_for(&self) -> [u32; 2] {
        self.pictures[0][0].pic
    }

    /// Whether all that is lent to be read is lent whole.
    fn is_whole(&self) -> bool {
        let mut lengths = self.lengths.iter().flatten().chain([&self.col_length]);
        lengths.all(|length| *length == Length::Whole)
    }

    /// Everything for this picture.
    fn make_for(&mut self, pic: [u32; 2]) {
        self.header.pic = pic.map(|n| n as u16);
        self.col.pic = pic;
        for plane in self.pictures.iter_mut().flatten() {
            plane.pic = pic;
        }
        for record in &mut self.records {
            for d in 0..2 {
                let most = self.header.pic[d].saturating_sub(record.side[d]);
                record.place[d] = record.place[d].min(most);
            }
        }
    }

    fn bytes(&self) -> Vec<u8> {
        let mut bytes = trace(&self.header, &self.records);
        for damage in &self.damage {
            damage.apply(&mut bytes);
        }
        bytes
    }

    fn old(&self) -> Target {
        [0, 1, 2].map(|k| {
            let needed = OnePlane::over(k > 0, self.made_for()).plane_len();
            let len = self.target_lengths[k].of(needed + self.spare[k]);
            old_samples(len, self.seed + k as u64)
        })
    }

    /// The index at which a sample lies in its plane, if the record has a window.
    fn put_index(&self, col: Collocated) -> Option<i64> {
        let (record, list, plane, put) = self.put?;
        let record = self.records.get(record)?;
        let b = record.block(self.header.pic);
        if model::is_picture_refused(b.pic) || b.is_block_refused() {
            return None;
        }
        let mv = match record.kind {
            3 => model::direct(&b, record.pocs(&self.header), col).1,
            _ => record.mv,
        };
        let call = BlockCall {
            b,
            used: record.used(),
            mv,
            poc: [0; 2],
        };
        let no_planes: [[&[u16]; 3]; 2] = [[&[]; 3]; 2];
        put.index(&call.lists(no_planes)[list].one_plane(&b, plane))
    }

    /// The answer and the target afterwards, that the model gives, the archive, and its own calls one by one.
    fn compare(&self, calls: &dyn Calls, lent: &mut Lent) -> Result<(Replay, Target), String> {
        let bytes = self.bytes();
        lent.given.trace.hold(&bytes);
        let old = self.old();
        let mut last = None;
        for press in PRESSES {
            let given = lent.given.lend(self, press, bytes.len());
            // a buffer that is lent in part has other contents at its other end
            let (answer, want) = match last.take().filter(|_| self.is_whole()) {
                Some(last) => last,
                None => {
                    let mut want = old.clone();
                    let answer = trace::replay(given, &mut want);
                    let mut one_by_one = old.clone();
                    let own = trace::replay_by(&mut Own(calls), given, &mut one_by_one);
                    assert_same("answer of the calls one by one", own, answer)?;
                    assert_target("target of the calls one by one", &one_by_one, &want)?;
                    (answer, want)
                }
            };
            let [y, u, v] = &mut lent.target;
            let y = y.lend_mut(press, &old[0]);
            let u = u.lend_mut(press, &old[1]);
            let v = v.lend_mut(press, &old[2]);
            let got = calls.replay(given, [&mut *y, &mut *u, &mut *v]);
            assert_same("code, index and counts", got, answer)?;
            for (k, plane) in [y, u, v].into_iter().enumerate() {
                assert_all_same(&format!("target, plane {k}"), plane, &want[k])?;
            }
            last = Some((answer, want));
        }
        Ok(last.unwrap())
    }

    /// Whether the Rust was asked for every finished record.
    fn compare_rust(&self, lent: &mut Lent, all: Replay, want: &Target) -> Result<bool, String> {
        let finished = HEADER_LEN + RECORD_LEN * all.index as usize;
        let bytes = &self.bytes()[..finished];
        let pic = Header::read(bytes).pic.map(u32::from);
        let [first, second] = [0, 1].map(|list| lent.rust(self, pic, list));
        let given = trace::Lent {
            trace: bytes,
            ..lent.given.lend(self, Press::Back, 0)
        };
        let mut rust = ByTheRust::new([&first, &second]);
        let mut target = self.old();
        let answer = trace::replay_by(&mut rust, given, &mut target);
        let records = (answer.code, answer.index);
        assert_same("the Rust's records", records, (0, all.index))?;
        if !rust.is_beyond {
            assert_same("what the Rust changed", answer.moved, all.moved)?;
            assert_target("the Rust's target and the model's", &target, want)?;
        }
        Ok(!rust.is_beyond)
    }
}

/// A record that is accepted, as a rule: its vectors in the comparison domain if `is_inside`.
fn random_record(pic: [u32; 2], is_inside: bool, rng: &mut Rng) -> Record {
    let b = random_block(pic, rng);
    let mut mv = [(); 2].map(|_| {
        let mv = vector(&b, rng);
        [0, 1].map(|d| {
            let end = 32767 - 4 * (b.place[d] + b.side[d]) as i16;
            if is_inside {
                mv[d].min(end)
            } else {
                mv[d]
            }
        })
    });
    let mut poc = [(); 2].map(|_| count(rng).min(32767) as u16);
    if one_in(4, rng) {
        poc[1] = poc[0];
    }
    if one_in(4, rng) {
        mv[1] = mv[0];
    }
    record(&b, rng.below(4) as u8, mv, poc)
}

impl Case for Replays {
    const NAME: &'static str = "evc_trace_replay";
    type Lent = Lent;

    fn batch(mut pic: [u32; 2], rng: &mut Rng) -> Vec<Self> {
        if pic[0] * pic[1] > MOST_SAMPLES {
            pic[rng.below(2)] = 64;
        }
        let pictures = [(); 2].map(|_| random_picture(pic, rng));
        let col = Motion::random(pic, rng);
        let mut one = || {
            let is_inside = !one_in(4, rng);
            let n = rng.below(13).min(rng.below(13));
            let mut records: Vec<Record> =
                (0..n).map(|_| random_record(pic, is_inside, rng)).collect();
            if n > 0 && one_in(3, rng) {
                for _ in 0..1 + rng.below(3) {
                    disturb(&mut records[rng.below(n)], rng);
                }
            }
            let mut header = Header {
                pic: pic.map(|n| n as u16),
                poc: count(rng).min(32767) as u16,
                list_poc0: count(rng).min(32767) as u16,
            };
            if one_in(12, rng) {
                match rng.below(4) {
                    0 => header.poc = any_number(rng),
                    1 => header.list_poc0 = any_number(rng),
                    d => header.pic[d - 2] = wild(pic[d - 2], rng) as u16,
                }
            }
            let bytes = trace(&header, &records);
            let damage = match one_in(4, rng) {
                true => (0..1 + rng.below(3))
                    .map(|_| Damage::random(&bytes, rng))
                    .collect(),
                false => Vec::new(),
            };
            let put = (n > 0 && one_in(6, rng)).then(|| {
                let (k, list, plane) = (rng.below(n), rng.below(2), rng.below(3));
                let c = OnePlane {
                    side: records[k]
                        .side
                        .map(|n| u32::from(n & 127) >> (plane > 0) as u32),
                    ..OnePlane::over(plane > 0, pic)
                };
                (k, list, plane, Put::random(&c, rng))
            });
            let has_col = !one_in(4, rng);
            let is_whole = !one_in(6, rng);
            let mut length = || match is_whole || one_in(2, rng) {
                true => Length::Whole,
                false => Length::random(rng),
            };
            let lengths = [(); 2].map(|_| [(); 3].map(|_| length()));
            let target_lengths = [(); 3].map(|_| length());
            let col_length = match has_col {
                true => length(),
                false => Length::random(rng),
            };
            Replays {
                header,
                records,
                damage,
                pictures: pictures.clone(),
                is_shared: one_in(6, rng),
                lengths,
                has_col,
                col: col.clone(),
                col_length,
                spare: [(); 3].map(|_| spare(rng)),
                target_lengths,
                seed: seed(rng),
                put,
            }
        };
        (0..BATCH).map(|_| one()).collect()
    }

    fn run(&self, calls: &dyn Calls, lent: &mut Lent) -> Outcome {
        for (slots, planes) in lent.given.planes.iter_mut().zip(&self.pictures) {
            for (slot, plane) in slots.iter_mut().zip(planes) {
                slot.hold(plane, calls);
            }
        }
        lent.given.col.hold(&self.col, calls);
        let whole_map = Collocated {
            is_present: self.has_col,
            map: lent.given.col.lend(Press::Front, Length::Whole),
        };
        let put = self.put.zip(self.put_index(whole_map));
        let put = put.and_then(|((_, list, plane, put), index)| {
            let slot = &mut lent.given.planes[self.which()[list]][plane];
            Some((list, plane, slot.put(index, put.value)?))
        });
        let compared = self.compare(calls, lent);
        // the Rust does without the sample that was put: it is in no window of a finished record
        if let Some((list, plane, (index, old))) = put {
            lent.given.planes[self.which()[list]][plane].put(index, old);
        }
        let (answer, want) = compared?;
        let in_domain = answer.index == 0 || self.compare_rust(lent, answer, &want)?;
        Ok(Seen {
            code: answer.code,
            in_domain,
        })
    }

    fn smaller(&self) -> Vec<Self> {
        let mut all = Vec::new();
        let mut with = |change: &dyn Fn(&mut Self)| {
            let mut case = self.clone();
            change(&mut case);
            all.push(case);
        };
        let n = self.records.len();
        if n > 1 {
            with(&|case| case.records.truncate(n / 2));
            with(&|case| _ = case.records.drain(..n / 2));
        }
        for k in 0..n {
            with(&|case| _ = case.records.remove(k));
        }
        for k in 0..self.damage.len() {
            with(&|case| _ = case.damage.remove(k));
        }
        if self.put.is_some() {
            with(&|case| case.put = None);
        }
        for d in 0..2 {
            for side in smaller_number(self.header.pic[d].into()) {
                let mut pic = self.header.pic.map(u32::from);
                let is_made_for = pic == self.made_for();
                pic[d] = side;
                if is_made_for && !model::is_picture_refused(pic) {
                    with(&|case| case.make_for(pic));
                }
                with(&|case| case.header.pic[d] = side as u16);
            }
        }
        let pic = self.header.pic.map(u32::from);
        if pic != self.made_for() && !model::is_picture_refused(pic) {
            with(&|case| case.make_for(pic));
        }
        for k in 0..n {
            for record in smaller_records(&self.records[k]) {
                with(&|case| case.records[k] = record);
            }
        }
        for count in smaller_number(self.header.poc.into()) {
            with(&|case| case.header.poc = count as u16);
        }
        for count in smaller_number(self.header.list_poc0.into()) {
            with(&|case| case.header.list_poc0 = count as u16);
        }
        for (k, damage) in self.damage.iter().enumerate() {
            if let Damage::More { len, value } = *damage {
                for len in smaller_spare(len) {
                    with(&|case| case.damage[k] = Damage::More { len, value });
                }
            }
        }
        if self.has_col {
            with(&|case| (case.has_col, case.col_length) = (false, Length::Empty));
        }
        if self.is_shared {
            with(&|case| case.is_shared = false);
        }
        for length in self.col_length.smaller() {
            with(&|case| case.col_length = length);
        }
        for spare in smaller_spare(self.col.spare) {
            with(&|case| case.col.spare = spare);
        }
        for k in 0..3 {
            for list in 0..2 {
                for length in self.lengths[list][k].smaller() {
                    with(&|case| case.lengths[list][k] = length);
                }
                for plane in self.pictures[list][k].smaller() {
                    with(&|case| case.pictures[list][k] = plane.clone());
                }
            }
            for length in self.target_lengths[k].smaller() {
                with(&|case| case.target_lengths[k] = length);
            }
            for spare in smaller_spare(self.spare[k]) {
                with(&|case| case.spare[k] = spare);
            }
        }
        all
    }
}

#[cfg(test)]
mod tests {
    use super::*;
    use crate::archive::Archive;
    use crate::lent::{Border, Samples};

    /// A trace with every kind, from whole buffers with samples behind them.
    fn all_kinds() -> Replays {
        let rng = &mut Rng(81);
        let pic = [20, 12];
        let at = |place: [u32; 2], side: [u32; 2]| Block { pic, place, side };
        let records = vec![
            record(&at([0, 0], [4, 4]), 0, [[5, -3]; 2], [8, 0]),
            record(&at([4, 0], [8, 8]), 3, [[0; 2]; 2], [0, 8]),
            record(&at([8, 4], [8, 8]), 1, [[6, 9]; 2], [0, 8]),
            record(&at([0, 4], [16, 4]), 2, [[-7, 2], [300, -300]], [0, 8]),
            record(&at([16, 8], [4, 4]), 3, [[0; 2]; 2], [2, 32767]),
            record(&at([4, 4], [4, 8]), 2, [[1, 1]; 2], [5, 5]),
        ];
        let header = Header {
            pic: [20, 12],
            poc: 4,
            list_poc0: 1,
        };
        let chroma = [false, true, true];
        let pictures = [(); 2].map(|_| {
            chroma.map(|chroma| PlaneOf::random(chroma, pic, Samples::Allowed, Border::Padded, rng))
        });
        Replays {
            header,
            records,
            damage: Vec::new(),
            pictures,
            is_shared: false,
            lengths: [[Length::Whole; 3]; 2],
            has_col: true,
            col: Motion::random(pic, rng),
            col_length: Length::Whole,
            spare: [3, 0, 1],
            target_lengths: [Length::Whole; 3],
            seed: 5,
            put: None,
        }
    }

    /// How many of the damaged traces returned each number, from 0 on.
    fn seen(damage: impl IntoIterator<Item = Damage>) -> [usize; 13] {
        let mut lent = Lent::default();
        let mut seen = [0; 13];
        for damage in damage {
            let mut case = all_kinds();
            case.damage = vec![damage];
            match case.run(&Archive, &mut lent) {
                Ok(end) => seen[end.code as usize] += 1,
                Err(why) => panic!("{damage:?}: {why}"),
            }
        }
        seen
    }

    #[test]
    fn cut() {
        let whole = all_kinds().bytes().len();
        let mut want = [0; 13];
        (want[0], want[11]) = (7, whole - 6);
        assert_eq!(seen((0..=whole).map(|len| Damage::Cut { len })), want);
    }

    #[test]
    fn changed() {
        let bytes = all_kinds().bytes();
        let changes = (0..bytes.len()).flat_map(|at| {
            let old = bytes[at];
            let values = [0, 255, old.wrapping_add(1), old.wrapping_sub(1), old ^ 0x80];
            values.map(|value| Damage::Byte { at, value })
        });
        let want = [281, 14, 204, 0, 4, 36, 0, 0, 0, 0, 24, 0, 162];
        assert_eq!(seen(changes), want);
    }
}
