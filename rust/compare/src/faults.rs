//! The comparison notices faults and makes their cases small: the archive's calls, each time with one fault.

use crate::archive::{Archive, Calls};
use crate::cases::block::Blocks;
use crate::cases::camera::Cameras;
use crate::cases::clipping::Clipping;
use crate::cases::demand3::Demand3;
use crate::cases::invisible::{Invisible, UpTo};
use crate::cases::one_plane::Planes;
use crate::cases::padding::Padding;
use crate::cases::replay::{Own, Replays};
use crate::cases::trace::{Headers, Records};
use crate::cases::units::{Directs, Flags, Motions, Slices};
use crate::cases::{Case, BATCH};
use crate::exhaustive::{every_state, Beside};
use crate::lent::units;
use crate::run::{self, Run};
use crate::sys::{End, ALARM};
use evc_inter::EvcCandidates;
use oracle::cases::other_side;
use oracle::model::camera::{is_counted, Camera, MOVING, STILL};
use oracle::model::trace::{self, Header, Record, Replay, HEADER_LEN, RECORD_LEN};
use oracle::model::{self, Block, Collocated, List, Moved, Mv, OnePlane, Pocs, Predicted};
use oracle::model::{HIGH, LOW, NOTHING_MOVED, NOT_MOVED, PRED_LEN};

#[derive(Clone, Copy, PartialEq)]
enum Fault {
    NoFault,
    /// The last sample of a plane of the picture changes.
    PadsWrong,
    /// The first spare sample of a plane changes.
    PadsTooFar,
    /// Reads the word behind the lent ones.
    ReadsBehind,
    /// Reads the word before the lent ones.
    ReadsBefore,
    /// Up and right-up across slices.
    UpAcross,
    /// Lower-left and lower-right through a unit of another slice.
    LowerThrough,
    /// Bits 0 to 7 are the slice number.
    EightBits,
    /// Bits 0 to 5 are.
    SixBits,
    /// The slice of the block's own word.
    OwnSlice,
    /// Earlier slices too.
    EarlierSlices,
    /// 13 before 4.
    Checks13First,
    /// A slice number above 127 modulo 128.
    SliceModulo,
    /// 127 is above it.
    Refuses127,
    /// Flags besides a refusal by 13.
    FlagsRefused,
    /// Takes a neighbour outside for done.
    Forgets7,
    /// 5 before 4.
    Checks5First,
    /// The second vector rounds down.
    RoundsDown,
    /// The sums of clipping in sixteen bits.
    Wraps,
    /// A vector besides a refusal.
    ClipsRefused,
    /// Writes, and then refuses.
    WritesFirst,
    /// Puts back a sample of the plane that was lent to be read.
    WritesPlane,
    /// Puts back the sample behind the lent block.
    WritesBehind,
    /// One sample of a wide block from two lists.
    OneSample,
    /// The second block is used with one list too.
    WritesSecond,
    /// Asks for the planes of a list not in use.
    NeedsBoth,
    /// The average rounds down.
    AveragesDown,
    /// A vector to the left is one longer in the last column of blocks.
    LeansLeft,
    /// Never ends.
    Loops,
    /// The direction in which a component was moved, in place of the side.
    ReportsDirection,
    /// A component at a limit is reported.
    ReportsAtLimit,
    /// Nothing is reported of the high side.
    SkipsHigh,
    /// Across and down change places in the reports.
    AcrossForDown,
    /// Reports besides a refusal.
    ReportsRefused,
    /// A list not in use is reported.
    ReportsUnused,
    /// Nothing is reported of list 1.
    SkipsList1,
    /// Nothing is reported of list 1 where list 0 alone stands.
    SkipsEqual,
    /// The counts of a header high byte first.
    HighByteFirst,
    /// A record's 12 before its 4.
    Checks12First,
    /// Writes a record, and then refuses it.
    WritesRefused,
    /// The byte behind a record becomes 0.
    WritesPastRecord,
    /// A refusal has index 0.
    ForgetsIndex,
    /// A finished replay has the index of its last record.
    LastIndex,
    /// An incomplete last record counts as excess.
    CutsIncomplete,
    /// The last byte of a record is not looked at.
    SkipsLastByte,
    /// A record of kind 3 is predicted with its own vectors.
    NotDirect,
    /// The header's two counts change places.
    SwapsCounts,
    /// The target is as it was after a refusal.
    Undoes,
    /// The last block of a trace lies one row lower.
    OneRowLower,
    /// The target is padded.
    PadsTarget,
    /// Without a record no plane is needed.
    NeedsNoPlane,
    /// Puts back a byte of the trace.
    WritesTrace,
    /// The counts are 0 after a refusal.
    ForgetsCounts,
    /// The vectors of a refused record are counted.
    CountsRefused,
    /// Those of list 0 alone are counted.
    CountsList0,
    /// The counts across and down change places.
    ExchangesCounts,
    /// The means in quarter samples.
    InQuarters,
    /// The means in single precision.
    SinglePrecision,
    /// The sums times a rounded fraction.
    RoundsTwice,
    /// The vectors of list 1.
    OtherList,
    /// A coded unit counts, intra or not.
    CountsIntra,
    /// A zero mean is -0.0.
    MinusZero,
    /// Still only if every vector is zero.
    StillByEach,
    /// Reads the number of the map behind the needed ones.
    ReadsPast,
    /// The unit behind the picture's counts, if it is lent.
    CountsPast,
    /// A refusal says still.
    StillRefused,
    /// 4 before 1.
    Checks4First,
    /// Puts back a word that was lent to be read.
    WritesWords,
    /// The sums in 32 bits.
    Sums32,
}

use Fault::*;

struct Faulty(Fault);

impl Faulty {
    /// The reports of a vector that is in use.
    fn reports(&self, b: &Block, mv: Mv, moved: Moved) -> Moved {
        let [x, y] = moved;
        match self.0 {
            ReportsDirection => moved.map(other_side),
            ReportsAtLimit => {
                // one quarter sample farther out it is moved
                let [lower, higher] =
                    [-1, 1].map(|more| Archive.mv_clip(b, mv.map(|v| v.saturating_add(more))).2);
                [0, 1].map(|d| moved[d].max(lower[d]).max(higher[d]))
            }
            SkipsHigh => moved.map(|report| if report == HIGH { NOT_MOVED } else { report }),
            AcrossForDown => [y, x],
            _ => moved,
        }
    }

    /// The reports of a block.
    fn reports_of_lists(&self, b: &Block, lists: &[List; 2], answer: Predicted) -> [Moved; 2] {
        let Predicted { code, moved } = answer;
        let by_itself = lists.map(|list| Archive.mv_clip(b, list.mv).2);
        let of_used = |reports: [Moved; 2]| {
            [0, 1].map(|k| match lists[k].used {
                true => reports[k],
                false => NOTHING_MOVED,
            })
        };
        if code != 0 {
            return match self.0 {
                ReportsRefused => of_used(by_itself),
                _ => moved,
            };
        }
        let [first, second] = of_used([0, 1].map(|k| self.reports(b, lists[k].mv, moved[k])));
        let is_alone = lists[0].used && lists[1].used && !model::is_bi(b, lists);
        match self.0 {
            ReportsUnused => by_itself,
            SkipsList1 => [first, NOTHING_MOVED],
            SkipsEqual if is_alone => [first, NOTHING_MOVED],
            _ => [first, second],
        }
    }

    fn read_outside(&self, words: &[u32]) {
        // SAFETY: none, that is the fault.
        unsafe {
            match self.0 {
                ReadsBehind => std::ptr::read_volatile(words.as_ptr().add(words.len())),
                ReadsBefore => std::ptr::read_volatile(words.as_ptr().sub(1)),
                _ => 0,
            }
        };
    }

    /// The answer to an accepted call in a slice.
    fn flags_in_slice(&self, b: &Block, slice_num: u32, words: &[u32], avail: u16) -> (u32, u16) {
        let over = |change: &dyn Fn(usize, u32) -> u32| {
            let words = words.iter().enumerate();
            let words: Vec<u32> = words.map(|(unit, word)| change(unit, *word)).collect();
            Archive.get_avail_inter_slice(b, slice_num, &words).1
        };
        let into_slice = |word: u32| word & !127 | slice_num;
        let [x, y, right, _] = b.edges();
        let avail = match self.0 {
            UpAcross => avail | Archive.get_avail_inter(b, words).1 & (1 << 0 | 1 << 9),
            LowerThrough => {
                let beside = [b.unit_at(x - 1, y), b.unit_at(right, y)];
                let lower = over(&|unit, word| match beside.contains(&Some(unit)) {
                    true => into_slice(word),
                    false => word,
                });
                avail | lower & (1 << 7 | 1 << 8)
            }
            EightBits => over(&|_, word| word ^ word >> 7 & 1),
            SixBits => over(&|_, word| word & !64 | slice_num & 64),
            EarlierSlices => over(&|_, word| match model::slice_number(word) < slice_num {
                true => into_slice(word),
                false => word,
            }),
            OwnSlice => {
                let own = words[b.unit_at(x, y).unwrap()];
                let slice_num = model::slice_number(own);
                Archive.get_avail_inter_slice(b, slice_num, words).1
            }
            Refuses127 if slice_num == 127 => return (13, 0),
            _ => avail,
        };
        (0, avail)
    }
}

impl Calls for Faulty {
    fn pad(&self, chroma: bool, pic: [u32; 2], plane: &mut [u16]) -> u32 {
        let code = Archive.pad(chroma, pic, plane);
        if code == 0 {
            let c = OnePlane::over(chroma, pic);
            match self.0 {
                PadsWrong if pic[0] > 4 => plane[c.plane_len() - 1] ^= 1,
                PadsTooFar if plane.len() > c.plane_len() => plane[c.plane_len()] ^= 1,
                _ => (),
            }
        }
        code
    }

    fn get_avail_inter(&self, b: &Block, words: &[u32]) -> (u32, u16) {
        self.read_outside(words);
        Archive.get_avail_inter(b, words)
    }

    fn get_avail_inter_slice(&self, b: &Block, slice_num: u32, words: &[u32]) -> (u32, u16) {
        self.read_outside(words);
        let (code, avail) = Archive.get_avail_inter_slice(b, slice_num, words);
        if code == 0 {
            return self.flags_in_slice(b, slice_num, words, avail);
        }
        let modulo = Archive.get_avail_inter_slice(b, slice_num % 128, words);
        match (self.0, code) {
            (Checks13First, 4) if slice_num > 127 => (13, 0),
            (SliceModulo, 13) => modulo,
            (FlagsRefused, 13) => (13, modulo.1),
            _ => (code, avail),
        }
    }

    fn get_motion(
        &self,
        b: &Block,
        lidx: u32,
        avail: u16,
        map: &[i16],
        col: Collocated,
        cand: &mut EvcCandidates,
    ) -> u32 {
        match Archive.get_motion(b, lidx, avail, map, col, cand) {
            7 if self.0 == Forgets7 => 0,
            code => code,
        }
    }

    fn get_mv_dir(&self, b: &Block, pocs: Pocs, col: Collocated) -> (u32, [Mv; 2]) {
        let (code, mut mv) = Archive.get_mv_dir(b, pocs, col);
        match self.0 {
            Checks5First if code == 4 && pocs.poc > 32767 => return (5, mv),
            RoundsDown if code == 0 && mv[1][0] < 0 => mv[1][0] -= 1,
            _ => (),
        }
        (code, mv)
    }

    fn mv_clip(&self, b: &Block, mv: Mv) -> (u32, Mv, Moved) {
        let (code, clipped, moved) = Archive.mv_clip(b, mv);
        match self.0 {
            Wraps if code == 0 && !b.in_domain(mv) => (0, mv, NOTHING_MOVED),
            ClipsRefused if code == 2 => (2, mv, moved),
            ReportsRefused if code == 2 => (2, clipped, [LOW, NOT_MOVED]),
            _ if code == 0 => (0, clipped, self.reports(b, mv, moved)),
            _ => (code, clipped, moved),
        }
    }

    fn mc_plane(&self, c: &OnePlane, plane: &[u16], pred: &mut [u16]) -> u32 {
        let code = Archive.mc_plane(c, plane, pred);
        match self.0 {
            WritesFirst if code == 6 => pred[0] ^= 1,
            // SAFETY: none, that is the fault.
            WritesPlane if code == 0 => unsafe {
                let first = plane.as_ptr() as *mut u16;
                std::ptr::write_volatile(first, *first);
            },
            WritesBehind if code == 0 => unsafe {
                let behind = pred.as_mut_ptr().add(pred.len());
                std::ptr::write_volatile(behind, *behind);
            },
            _ => (),
        }
        code
    }

    fn mc2(&self, b: &Block, lists: &[List; 2], pred0: &mut [u16], pred1: &mut [u16]) -> Predicted {
        let mut lists = *lists;
        let both = lists[0].used && lists[1].used;
        let is_last = b.place[0].wrapping_add(b.side[0]) == b.pic[0];
        match self.0 {
            NeedsBoth if lists.iter().any(|list| list.planes[2].is_empty()) => {
                let answer = Archive.mc2(b, &lists, pred0, pred1);
                let (code, moved) = (4, [NOTHING_MOVED; 2]);
                let needs = Predicted { code, moved };
                return if answer.code == 0 { needs } else { answer };
            }
            LeansLeft if is_last => {
                for list in &mut lists {
                    list.mv[0] = list.mv[0].saturating_sub(i16::from(list.mv[0] < 0));
                }
            }
            Loops if both => loop {
                std::hint::spin_loop();
            },
            _ => (),
        }
        let mut answer = Archive.mc2(b, &lists, pred0, pred1);
        if answer.code == 0 {
            let last = (b.side[0] * b.side[1]) as usize - 1;
            match self.0 {
                OneSample if both && b.side[0] == 16 => pred0[last] ^= 1,
                WritesSecond if !both => pred1[PRED_LEN - 1] ^= 1,
                AveragesDown if model::is_bi(b, &lists) => {
                    let [first, second] = [0, 1].map(|k| {
                        let mut one = lists;
                        one[1 - k].used = false;
                        let mut pred = [vec![0; PRED_LEN], vec![0; PRED_LEN]];
                        let [block, rest] = &mut pred;
                        Archive.mc2(b, &one, block, rest);
                        pred[0][0]
                    });
                    pred0[0] = (first + second) / 2;
                }
                _ => (),
            }
        }
        answer.moved = self.reports_of_lists(b, &lists, answer);
        answer
    }

    fn write_header(&self, pic: [u32; 2], poc: u16, list_poc0: u16, out: &mut [u8]) -> u32 {
        let code = Archive.write_header(pic, poc, list_poc0, out);
        if code == 0 && self.0 == HighByteFirst {
            out.swap(9, 10);
            out.swap(11, 12);
        }
        code
    }

    fn write_record(&self, pic: [u32; 2], record: &Record, out: &mut [u8]) -> u32 {
        let code = Archive.write_record(pic, record, out);
        match (self.0, code) {
            (Checks12First, 4) if record.is_refused() => return 12,
            (WritesRefused, 12) => out[..RECORD_LEN].copy_from_slice(&record.bytes()),
            (WritesPastRecord, 0) if out.len() > RECORD_LEN => out[RECORD_LEN] = 0,
            _ => (),
        }
        code
    }

    fn replay(&self, lent: trace::Lent, target: [&mut [u16]; 3]) -> Replay {
        let [y, u, v] = target;
        let old = [y.to_vec(), u.to_vec(), v.to_vec()];
        let mut bytes = lent.trace.to_vec();
        if bytes.len() >= HEADER_LEN {
            if self.0 == SwapsCounts {
                bytes[9..HEADER_LEN].rotate_left(2);
            }
            let whole = (bytes.len() - HEADER_LEN) / RECORD_LEN * RECORD_LEN;
            let records = bytes[HEADER_LEN..].chunks_exact_mut(RECORD_LEN);
            match self.0 {
                SkipsLastByte => records.for_each(|record| record[RECORD_LEN - 1] = 0),
                NotDirect => records
                    .filter(|record| record[8] == 3)
                    .for_each(|record| record[8] = 2),
                CutsIncomplete => bytes.truncate(HEADER_LEN + whole),
                _ => (),
            }
        }
        let given = trace::Lent {
            trace: &bytes,
            ..lent
        };
        let mut answer = Archive.replay(given, [&mut *y, &mut *u, &mut *v]);
        let Replay { code, index, .. } = answer;
        match self.0 {
            ForgetsIndex if code != 0 => answer.index = 0,
            LastIndex if code == 0 => answer.index = index.saturating_sub(1),
            Undoes if code != 0 => {
                y.copy_from_slice(&old[0]);
                u.copy_from_slice(&old[1]);
                v.copy_from_slice(&old[2]);
            }
            OneRowLower if code == 0 && index > 0 => {
                let pic = Header::read(&bytes).pic;
                let last = Record::read(&bytes[bytes.len() - RECORD_LEN..]).block(pic);
                let c = OnePlane::over(false, last.pic);
                let [x, top, right, below] = last.edges();
                let row = |j| c.index(x, j) as usize..c.index(right, j) as usize;
                for j in (top..below).rev() {
                    y.copy_within(row(j), row(j + 1).start);
                }
                y[row(top)].copy_from_slice(&old[0][row(top)]);
            }
            PadsTarget if code == 0 => {
                let pic = Header::read(&bytes).pic.map(u32::from);
                Archive.pad(false, pic, y);
            }
            NeedsNoPlane if code == 4 && bytes.len() == HEADER_LEN => answer.code = 0,
            // SAFETY: none, that is the fault.
            WritesTrace if !lent.trace.is_empty() => unsafe {
                let first = lent.trace.as_ptr() as *mut u8;
                std::ptr::write_volatile(first, *first);
            },
            ForgetsCounts if code != 0 => answer.moved = [0; 4],
            CountsRefused if code == 5 || code == 6 => {
                let record = Record::read(&bytes[HEADER_LEN + RECORD_LEN * index as usize..]);
                let b = record.block(Header::read(&bytes).pic);
                let reports = [0, 1].map(|k| Archive.mv_clip(&b, record.mv[k]).2);
                trace::count(&mut answer.moved, reports);
            }
            CountsList0 => {
                let calls = &Faulty(SkipsList1);
                let one_by_one = trace::replay_by(&mut Own(calls), given, &mut old.clone());
                answer.moved = one_by_one.moved;
            }
            ExchangesCounts => answer.moved.rotate_left(2),
            _ => (),
        }
        answer
    }

    fn camera_motion(&self, pic: [u32; 2], map: &[i16], words: &[u32]) -> Camera {
        let mut answer = Archive.camera_motion(pic, map, words);
        match (self.0, answer.code) {
            (StillRefused, 1..) => answer.kind = STILL,
            (Checks4First, 1) if words.is_empty() => answer.code = 4,
            _ => (),
        }
        if answer.code != 0 {
            return answer;
        }
        let needed = units(pic);
        let counted: Vec<&[i16]> = (0..needed)
            .filter(|unit| is_counted(words[*unit]))
            .map(|unit| &map[4 * unit..4 * unit + 2])
            .collect();
        let sums = [0, 1].map(|d| counted.iter().map(|mv| i64::from(mv[d])).sum::<i64>());
        let parts = (4 * counted.len()) as f64;
        let means = answer.mean.map(f64::from_bits);
        match self.0 {
            InQuarters => answer.mean = means.map(|mean| (4.0 * mean).to_bits()),
            SinglePrecision => answer.mean = means.map(|mean| f64::from(mean as f32).to_bits()),
            RoundsTwice if answer.kind == MOVING => {
                answer.mean = sums.map(|sum| (sum as f64 * (1.0 / parts)).to_bits());
            }
            OtherList => {
                let mut map = map.to_vec();
                map.chunks_exact_mut(4).for_each(|unit| unit.rotate_left(2));
                answer = Archive.camera_motion(pic, &map, words);
            }
            CountsIntra => {
                let words: Vec<u32> = words.iter().map(|word| word & !(1 << 15)).collect();
                answer = Archive.camera_motion(pic, map, &words);
            }
            MinusZero if answer.kind == MOVING => {
                answer.mean = means.map(|mean| if mean == 0.0 { -mean } else { mean }.to_bits());
            }
            StillByEach if counted.iter().any(|mv| *mv != [0, 0]) => answer.kind = MOVING,
            // SAFETY: none, that is the fault.
            ReadsPast => unsafe {
                std::ptr::read_volatile(map.as_ptr().add(4 * needed));
            },
            CountsPast if words.len() > needed && map.len() >= 4 * needed + 4 => {
                answer = Archive.camera_motion([4 * needed as u32 + 4, 4], map, words);
            }
            WritesWords => unsafe {
                let first = words.as_ptr() as *mut u32;
                std::ptr::write_volatile(first, *first);
            },
            Sums32 if answer.kind == MOVING => {
                answer.mean = sums.map(|sum| (f64::from(sum as i32) / parts).to_bits());
            }
            _ => (),
        }
        answer
    }
}

const BATCHES: u64 = 40;

/// The fault is noticed with this end, and the small case says so.
fn assert_noticed<C: Case>(fault: Fault, end: End, says: &[&str]) {
    let calls = &Faulty(fault);
    let run = Run {
        calls,
        seed: 3,
        time_limit: 120,
    };
    let (_, failure) = run.all::<C>(|batches| batches == BATCHES);
    let failure = failure.expect("it is noticed");
    assert_eq!(failure.end, end);
    assert_eq!(run.one(&failure.smaller, |_| ()), end);
    let smaller = format!("{:?}", failure.smaller);
    for part in says {
        assert!(smaller.contains(part), "{part}: {smaller}");
    }
}

const DIFFERS: End = End::Code(1);
const CRASHES: End = End::Signal(11);

#[test]
fn no_fault() {
    fn assert_none<C: Case>() {
        let run = Run {
            calls: &Faulty(NoFault),
            seed: 3,
            time_limit: 120,
        };
        let (counts, failure) = run.all::<C>(|batches| batches == BATCHES / 4);
        assert!(failure.is_none(), "{}", C::NAME);
        assert!(counts.iter().flatten().sum::<u64>() > 100, "{}", C::NAME);
    }
    assert_none::<Padding>();
    assert_none::<Flags>();
    assert_none::<Slices>();
    assert_none::<Motions>();
    assert_none::<Directs>();
    assert_none::<Clipping>();
    assert_none::<Planes>();
    assert_none::<Blocks>();
    assert_none::<Demand3>();
    assert_none::<Invisible>();
    assert_none::<Headers>();
    assert_none::<Records>();
    assert_none::<Replays>();
    assert_none::<Cameras>();
}

/// The lines of a run that fails: `cargo test -p compare told -- --nocapture`.
#[test]
fn told() {
    let options = crate::Options {
        seconds: 1.0,
        seed: 3,
        call: None,
        case: None,
        every_state: None,
    };
    assert!(!crate::compare::<Blocks>(&Faulty(OneSample), &options, 1.0));
    assert!(!crate::compare::<Flags>(
        &Faulty(ReadsBehind),
        &options,
        1.0
    ));
    assert!(crate::compare::<Flags>(&Faulty(NoFault), &options, 1.0));
}

#[test]
fn of_padding() {
    assert_noticed::<Padding>(PadsWrong, DIFFERS, &["pic: [8, 4], plane", "spare: 0"]);
    assert_noticed::<Padding>(PadsTooFar, DIFFERS, &["pic: [4, 4], plane", "spare: 1"]);
}

#[test]
fn of_flags() {
    let small = ["pic: [0, 0]", "place: [0, 0]", "side: [0, 0]"];
    assert_noticed::<Flags>(ReadsBehind, CRASHES, &small);
    assert_noticed::<Flags>(ReadsBefore, CRASHES, &small);
}

/// W5.
#[test]
fn of_flags_in_slices() {
    let small = ["pic: [0, 0]", "place: [0, 0]", "side: [0, 0]"];
    assert_noticed::<Slices>(ReadsBehind, CRASHES, &small);
    assert_noticed::<Slices>(ReadsBefore, CRASHES, &small);
    let two = ["slice_num: 0", "side: [4, 4]", "cut: Two([0, 1])"];
    assert_noticed::<Slices>(UpAcross, DIFFERS, &two);
    assert_noticed::<Slices>(LowerThrough, DIFFERS, &two);
    assert_noticed::<Slices>(EightBits, DIFFERS, &two);
    assert_noticed::<Slices>(OwnSlice, DIFFERS, &two);
    let small = ["slice_num: 0", "side: [4, 4]", "cut: Two([0, 64])"];
    assert_noticed::<Slices>(SixBits, DIFFERS, &small);
    assert_noticed::<Slices>(
        EarlierSlices,
        DIFFERS,
        &["side: [4, 4]", "cut: Two([0, 1])"],
    );
    let first = "pic: [4, 4], place: [0, 0], side: [4, 4]";
    let small = ["slice_num: 128", first, "cut: One(0)", "length: Less(1)"];
    assert_noticed::<Slices>(Checks13First, DIFFERS, &small);
    let small = ["slice_num: 128", first, "cut: One(0)", "length: Whole"];
    assert_noticed::<Slices>(SliceModulo, DIFFERS, &small);
    let small = ["slice_num: 127", first, "cut: One(0)", "length: Whole"];
    assert_noticed::<Slices>(Refuses127, DIFFERS, &small);
    let small = [
        "slice_num: 128",
        "pic: [4, 8], place: [0, 4]",
        "cut: One(0)",
    ];
    assert_noticed::<Slices>(FlagsRefused, DIFFERS, &small);
}

/// W5, in every state of the units beside a block; its slices do not differ in bit 6 alone, and all calls are accepted.
#[test]
fn of_every_state() {
    for fault in [
        UpAcross,
        LowerThrough,
        EightBits,
        EarlierSlices,
        OwnSlice,
        Refuses127,
    ] {
        assert!(every_state(&Faulty(fault), Beside::LookedAt).is_err());
    }
}

#[test]
fn of_candidates() {
    let small = ["pic: [4, 4], place: [0, 0]", "lidx: 0", "has_col: false"];
    assert_noticed::<Motions>(Forgets7, DIFFERS, &small);
}

#[test]
fn of_direct_vectors() {
    let small = ["poc: 32768, poc0: 0, poc1: 0, list_poc0: 0"];
    assert_noticed::<Directs>(Checks5First, DIFFERS, &small);
    let small = ["pic: [4, 4], place: [0, 0]"];
    assert_noticed::<Directs>(RoundsDown, DIFFERS, &small);
}

#[test]
fn of_clipping() {
    let small = ["pic: [4, 4], place: [0, 0]", "mv: [32752, 0]"];
    assert_noticed::<Clipping>(Wraps, DIFFERS, &small);
    let small = ["pic: [4, 4], place: [0, 0], side: [0, 0]"];
    assert_noticed::<Clipping>(ClipsRefused, DIFFERS, &small);
}

#[test]
fn of_one_plane() {
    let small = ["ori_mv: [0, 0]", "pic: [4, 4]"];
    assert_noticed::<Planes>(WritesFirst, DIFFERS, &small);
    assert_noticed::<Planes>(WritesPlane, CRASHES, &small);
    assert_noticed::<Planes>(WritesBehind, CRASHES, &small);
}

#[test]
fn of_blocks() {
    let small = ["side: [16, 4]", "place: [0, 0]", "mv: [[0, 0], [0, 0]]"];
    assert_noticed::<Blocks>(OneSample, DIFFERS, &small);
    let small = ["pic: [4, 4]", "mv: [[0, 0], [0, 0]]"];
    assert_noticed::<Blocks>(WritesSecond, DIFFERS, &small);
    assert_noticed::<Blocks>(NeedsBoth, DIFFERS, &small);
}

#[test]
fn of_demand_3() {
    let small = ["pic: [4, 4]", "used: [true, true]"];
    assert_noticed::<Demand3>(AveragesDown, DIFFERS, &small);
    assert_noticed::<Demand3>(LeansLeft, DIFFERS, &["used: [false, true]"]);
}

/// W2, of clipping and of a block.
#[test]
fn of_reports() {
    let block = "b: Block { pic: [4, 4], place: [0, 0], side: [4, 4] }";
    let past = [block, "257"];
    assert_noticed::<Clipping>(ReportsDirection, DIFFERS, &past);
    assert_noticed::<Clipping>(SkipsHigh, DIFFERS, &past);
    assert_noticed::<Clipping>(AcrossForDown, DIFFERS, &past);
    // at a limit no number gets smaller by itself
    assert_noticed::<Clipping>(ReportsAtLimit, DIFFERS, &["side: [4, 4]"]);
    let small = ["side: [0, 0]", "mv: [0, 0]"];
    assert_noticed::<Clipping>(ReportsRefused, DIFFERS, &small);

    assert_noticed::<Blocks>(ReportsDirection, DIFFERS, &past);
    assert_noticed::<Blocks>(SkipsHigh, DIFFERS, &past);
    assert_noticed::<Blocks>(AcrossForDown, DIFFERS, &past);
    assert_noticed::<Blocks>(ReportsAtLimit, DIFFERS, &["side: [4, 4]"]);
    assert_noticed::<Blocks>(ReportsRefused, DIFFERS, &past);
    assert_noticed::<Blocks>(ReportsUnused, DIFFERS, &past);
    assert_noticed::<Blocks>(SkipsList1, DIFFERS, &[block, "used: [false, true]"]);
    let small = [
        block,
        "used: [true, true], mv: [[256, 256], [256, 257]], poc: [2, 2]",
    ];
    assert_noticed::<Blocks>(SkipsEqual, DIFFERS, &small);

    // the mirror and the exchange see it too, and W6 where nothing is said of a vector that shows
    assert_noticed::<Demand3>(SkipsHigh, DIFFERS, &past);
    assert_noticed::<Demand3>(SkipsList1, DIFFERS, &[block, "used: [false, true]"]);
    let small = ["place: [0, 0], side: [64, 4]", "mv: [[257, 0], [0, 0]]"];
    assert_noticed::<Invisible>(SkipsHigh, DIFFERS, &small);
}

/// W2, of replay alone.
#[test]
fn of_counts() {
    let small = ["kind: 0, mv: [[0, 257], [0, 0]]", "damage: [More { len: 1"];
    assert_noticed::<Replays>(ForgetsCounts, DIFFERS, &small);
    assert_noticed::<Replays>(CountsRefused, DIFFERS, &["257", "damage: []"]);
    let one = "records: [Record { place: [0, 0], side: [4, 4], kind: 1";
    assert_noticed::<Replays>(CountsList0, DIFFERS, &[one, "257", "damage: []"]);
    assert_noticed::<Replays>(ExchangesCounts, DIFFERS, &[one, "257", "damage: []"]);
}

#[test]
fn of_w6() {
    assert_noticed::<Invisible>(LeansLeft, DIFFERS, &["used: [false, true]"]);
    // the law claimed of a side of 64 too: the case is a mirror image of W6's counterexample
    let small = ["place: [0, 0], side: [4, 64]", "[0, -257]"];
    assert_noticed::<UpTo<64>>(NoFault, DIFFERS, &small);
}

#[test]
fn of_the_writers() {
    let small = ["pic: [4, 4], poc: 1, list_poc0: 0, len: 13"];
    assert_noticed::<Headers>(HighByteFirst, DIFFERS, &small);
    let small = ["pic: [4, 4]", "mv: [[0, 0], [0, 0]]", "len: 0"];
    assert_noticed::<Records>(Checks12First, DIFFERS, &small);
    assert_noticed::<Records>(WritesRefused, DIFFERS, &["pic: [4, 4]", "len: 22"]);
    let small = ["kind: 0, mv: [[0, 0], [0, 0]], poc: [0, 0]", "len: 23"];
    assert_noticed::<Records>(WritesPastRecord, DIFFERS, &small);
}

#[test]
fn of_replay() {
    let none = "pic: [4, 4], poc: 0, list_poc0: 0 }, records: []";
    let one = "pic: [4, 4], poc: 0, list_poc0: 0 }, records: [Record { place: [0, 0], side: [4, 4], kind: 0, mv: [[0, 0], [0, 0]], poc: [0, 0] }]";
    let whole = "damage: []";
    assert_noticed::<Replays>(ForgetsIndex, DIFFERS, &[one]);
    assert_noticed::<Replays>(LastIndex, DIFFERS, &[one, whole]);
    assert_noticed::<Replays>(CutsIncomplete, DIFFERS, &[none]);
    assert_noticed::<Replays>(
        SkipsLastByte,
        DIFFERS,
        &["pic: [4, 4], poc: 0, list_poc0: 0 }"],
    );
    assert_noticed::<Replays>(NotDirect, DIFFERS, &["kind: 3", whole]);
    assert_noticed::<Replays>(SwapsCounts, DIFFERS, &["kind: 3"]);
    assert_noticed::<Replays>(Undoes, DIFFERS, &[one]);
    assert_noticed::<Replays>(OneRowLower, DIFFERS, &[one, whole]);
    // padding is accepted where the blocks cover the picture
    assert_noticed::<Replays>(
        PadsTarget,
        DIFFERS,
        &["list_poc0: 0 }, records: [Record { place: [0, 0]", whole],
    );
    assert_noticed::<Replays>(NeedsNoPlane, DIFFERS, &[none]);
    assert_noticed::<Replays>(WritesTrace, CRASHES, &["records: []"]);
}

#[test]
fn of_camera_motion() {
    let one = "pic: [4, 4], map: Map { words: Words { pic: [4, 4], counted: All, spare: 0";
    let zero = "like: Same([0, 0]), cancels: [false, false], one: None, decoys: false, spare: 0";
    let quarter = "like: Same([0, 1]), cancels: [false, false], one: None, decoys: false, spare: 0";
    assert_noticed::<Cameras>(InQuarters, DIFFERS, &[one, quarter]);
    assert_noticed::<Cameras>(MinusZero, DIFFERS, &[one, quarter]);
    // thirds are needed
    let small = ["pic: [4, 12], map", "like: Within(1)"];
    assert_noticed::<Cameras>(SinglePrecision, DIFFERS, &small);
    assert_noticed::<Cameras>(RoundsTwice, DIFFERS, &["counted: All", "like: Within(1)"]);
    let small = [
        "pic: [4, 8], map",
        "like: Same([0, 1]), cancels: [false, true]",
    ];
    assert_noticed::<Cameras>(StillByEach, DIFFERS, &small);
    // not the model, but the law sees this one, when it overwrites list 1
    assert_noticed::<Cameras>(OtherList, DIFFERS, &[one, zero]);
    assert_noticed::<Cameras>(CountsIntra, DIFFERS, &["counted: Not", zero]);
    assert_noticed::<Cameras>(ReadsPast, CRASHES, &[one, zero]);
    assert_noticed::<Cameras>(WritesWords, CRASHES, &[one, zero]);
    let small = ["pic: [4, 4], map", "counted: All, spare: 1", "spare: 4"];
    assert_noticed::<Cameras>(CountsPast, DIFFERS, &small);
    assert_noticed::<Cameras>(StillRefused, DIFFERS, &["pic: [0, 0], map", zero]);
    assert_noticed::<Cameras>(Checks4First, DIFFERS, &["pic: [0, 0], map", zero]);
}

/// The first case of the largest picture has the largest sums.
#[test]
fn of_the_largest_sums() {
    let number = (Cameras::LARGEST - 1) * BATCH as u64;
    let case = run::case::<Cameras>(3, number).unwrap();
    assert!(format!("{case:?}").contains("pic: [8128, 8128], map"));
    for (fault, end) in [(NoFault, End::Code(0)), (Sums32, DIFFERS)] {
        let run = Run {
            calls: &Faulty(fault),
            seed: 3,
            time_limit: 120,
        };
        assert_eq!(run.one(&case, |_| ()), end);
    }
}

#[test]
fn without_end() {
    let run = Run {
        calls: &Faulty(Loops),
        seed: 3,
        time_limit: 10,
    };
    let (_, failure) = run.all::<Blocks>(|batches| batches == BATCHES);
    assert_eq!(failure.expect("it is noticed").end, ALARM);
}
