//! Document 02's W2: which vectors were moved, as a program for cataloguers marks shots whose motion runs
//! far out of frame.

mod lcg;
mod pictures;
mod records;

use evc_inter::*;
use lcg::Lcg;
use records::record;

const SIDES: (u32, u32) = (48, 32);

impl Lcg {
    fn block(&mut self) -> EvcBlock {
        let (pic_w, pic_h) = SIDES;
        let [w, h] = [0, 1].map(|_| 4 << self.below(4));
        let [x, y] = [pic_w - w, pic_h - h].map(|room| 4 * self.below(room / 4 + 1));
        EvcBlock {
            pic_w,
            pic_h,
            x,
            y,
            w,
            h,
        }
    }

    /// At a limit of clipping, next to it, or anywhere.
    fn component(&mut self, pic: u32, place: u32, side: u32) -> i16 {
        let near = self.below(5) as i32 - 2;
        let mv = match self.below(3) {
            0 => -256 - 4 * place as i32 + near,
            1 => 4 * (pic + 64 - side - place) as i32 + near,
            _ => self.below(65536) as i32 - 32768,
        };
        mv as i16
    }

    fn mv(&mut self, b: EvcBlock) -> EvcMv {
        EvcMv {
            x: self.component(b.pic_w, b.x, b.w),
            y: self.component(b.pic_h, b.y, b.h),
        }
    }

    fn references(&mut self) -> [PaddedPicture; 2] {
        [0, 1].map(|_| self.picture(SIDES.0, SIDES.1))
    }
}

/// By what became of a component: one that rose ended at the low limit.
fn by_movement(given: i16, clipped: i16) -> Moved {
    match clipped.cmp(&given) {
        std::cmp::Ordering::Greater => Moved::Low,
        std::cmp::Ordering::Less => Moved::High,
        std::cmp::Ordering::Equal => Moved::Not,
    }
}

/// At a limit nothing is moved, and a quarter sample past it the component is.
#[test]
fn lines() {
    for (place, given, clipped, want) in [
        (16, -320, -320, Moved::Not),
        (16, -321, -320, Moved::Low),
        (48, 256, 256, Moved::Not),
        (48, 257, 256, Moved::High),
    ] {
        let block = EvcBlock {
            pic_w: 64,
            pic_h: 64,
            x: 0,
            y: 0,
            w: 16,
            h: 16,
        };
        let across = evc_mv_clip(EvcBlock { x: place, ..block }, EvcMv { x: given, y: 7 }).unwrap();
        assert_eq!(across.mv, EvcMv { x: clipped, y: 7 });
        assert_eq!((across.moved.x, across.moved.y), (want, Moved::Not));
        let down = evc_mv_clip(EvcBlock { y: place, ..block }, EvcMv { x: 7, y: given }).unwrap();
        assert_eq!(down.mv, EvcMv { x: 7, y: clipped });
        assert_eq!((down.moved.x, down.moved.y), (Moved::Not, want));
    }
}

/// A report tells a component that was changed, and at which limit it ended; flipped, it is the other one.
#[test]
fn clipping() {
    let lcg = &mut Lcg(11);
    let mut seen = [[0; 3]; 3];
    for _ in 0..20_000 {
        let block = lcg.block();
        let mv = lcg.mv(block);
        let clipped = evc_mv_clip(block, mv).unwrap();
        let MovedMv { x, y } = clipped.moved;
        assert_eq!(x, by_movement(mv.x, clipped.mv.x), "{block:?} {mv:?}");
        assert_eq!(y, by_movement(mv.y, clipped.mv.y), "{block:?} {mv:?}");
        assert_eq!(clipped.moved.is_moved(), clipped.mv != mv);
        seen[x as usize][y as usize] += 1;
        for flip in [Flip::LeftRight, Flip::TopBottom] {
            let turned = evc_mv_clip(block.flipped(flip), mv.flipped(flip)).unwrap();
            assert_eq!(turned.moved, clipped.moved.flipped(flip), "{mv:?}");
            assert_eq!(turned.moved.flipped(flip), clipped.moved);
        }
    }
    assert!(seen.as_flattened().iter().all(|n| *n > 500), "{seen:?}");
}

/// What the call on one vector says of each list in use, and nothing of one that is not; also where list 0
/// alone stands. The predictor says the same.
#[test]
fn lists() {
    let lcg = &mut Lcg(12);
    let pictures = lcg.references();
    let [planes0, planes1] = pictures.each_ref().map(PaddedPicture::samples);
    let mut predictor = Predictor::new();
    let (mut moved, mut alone) = ([0; 2], 0);
    for n in 0..6000 {
        let block = lcg.block();
        let used = [[true, false], [false, true], [true, true]][n % 3];
        let [first, second] = [0, 1].map(|_| lcg.mv(block));
        // past the same limits, every fifth time: equal by clipping
        let second = match n % 5 {
            0 => evc_mv_clip(block, first).unwrap().mv,
            _ => second,
        };
        let poc = [8, 8 * lcg.below(2)];
        let list = |k: usize, mv| EvcList {
            used: used[k],
            mv,
            poc: poc[k],
        };
        let lists = [list(0, first), list(1, second)];
        let (mut pred0, mut pred1) = ([0; CU_LEN], [0; CU_LEN]);
        let mut call = |[list0, list1]: [EvcList; 2]| {
            let planes = [planes0, planes1];
            evc_mc2(
                block, list0, planes[0], list1, planes[1], &mut pred0, &mut pred1,
            )
        };
        let want = lists.map(|list| match list.used {
            true => evc_mv_clip(block, list.mv).unwrap().moved,
            false => MovedMv::default(),
        });
        assert_eq!(call(lists).unwrap().moved, want, "{block:?} {lists:?}");
        let [list0, list1] = lists;
        let exchanged = call([list1, list0]).unwrap();
        assert_eq!(exchanged.moved, [want[1], want[0]]);
        let late = lists.map(|list| EvcList { poc: 32768, ..list });
        assert_eq!(call(late), Err(Refusal::OrderCount));

        let references = [0, 1].map(|k: usize| {
            let (picture, mv) = (&pictures[k], lists[k].mv);
            let reference = Reference {
                picture,
                mv,
                poc: poc[k],
            };
            used[k].then_some(reference)
        });
        let prediction = predictor.predict(block, references).unwrap();
        assert_eq!(prediction.moved(), want);
        for k in 0..2 {
            moved[k] += usize::from(want[k].is_moved());
        }
        let is_alone = used == [true; 2] && poc[0] == poc[1] && n % 5 == 0;
        alone += usize::from(is_alone && want[0].is_moved() && !want[1].is_moved());
    }
    assert!(
        moved.iter().all(|n| *n > 1000) && alone > 50,
        "{moved:?} {alone}"
    );
}

/// An item: its references, the map of the second, and its trace's records.
struct Item {
    references: [PaddedPicture; 2],
    col_mv: Vec<i16>,
    records: Vec<TraceRecord>,
}

impl Item {
    const HEADER: TraceHeader = TraceHeader {
        pic_w: SIDES.0,
        pic_h: SIDES.1,
        poc: 3,
        list_poc0: 0,
    };

    /// A record of each kind in turn.
    fn new(lcg: &mut Lcg, records: usize) -> Item {
        let references = lcg.references();
        let numbers = map_mv_len(SIDES.0, SIDES.1).unwrap();
        let mut number = || lcg.below(4001) as i16 - 2000;
        let col_mv = (0..numbers).map(|_| number()).collect();
        let mut next = |n| {
            let block = lcg.block();
            record(n, block, [(); 2].map(|()| lcg.mv(block)))
        };
        Item {
            references,
            col_mv,
            records: (0..records).map(&mut next).collect(),
        }
    }

    /// What replay says of these records.
    fn replay(&self, records: &[TraceRecord]) -> Replay {
        let mut trace = TraceWriter::with_header(Vec::new(), &Item::HEADER).unwrap();
        for record in records {
            trace.record(*record).unwrap();
        }
        let mut target = Picture::new(SIDES.0, SIDES.1).unwrap();
        let trace = trace.into_inner();
        let references = self.references.each_ref();
        replay(&trace, references, Some(&self.col_mv), &mut target)
    }

    /// What was moved of each record, by the calls one by one.
    fn one_by_one(&self) -> Vec<MovedCounts> {
        let mut predictor = Predictor::new();
        let mut counts = |record: &TraceRecord| {
            let lists = record.lists(&Item::HEADER, Some(&self.col_mv)).unwrap();
            let [list0, list1] = [0, 1].map(|k: usize| {
                let EvcList { used, mv, poc } = lists[k];
                let picture = &self.references[k];
                used.then_some(Reference { picture, mv, poc })
            });
            let block = record.block(&Item::HEADER);
            let prediction = predictor.predict(block, [list0, list1]).unwrap();
            MovedCounts::from(prediction.moved())
        };
        self.records.iter().map(&mut counts).collect()
    }
}

/// "four counts (across low, high, down low, high, both lists) over the finished records, refused or not"
#[test]
fn counts() {
    let item = Item::new(&mut Lcg(13), 40);
    let each = item.one_by_one();
    let sum = |part: &[MovedCounts]| part.iter().copied().sum::<MovedCounts>();
    let bad = TraceRecord {
        w: 12,
        ..item.records[2]
    };
    for n in 0..=40 {
        let (before, behind) = item.records.split_at(n);
        let whole = item.replay(before);
        assert_eq!(
            (whole.result(), whole.moved),
            (Ok(n as u64), sum(&each[..n]))
        );
        let refused = item.replay(&[before, &[bad], behind].concat());
        assert_eq!(refused.refusal, Some(Refusal::Block));
        assert_eq!((refused.finished, refused.moved), (n as u64, whole.moved));
        // the counts of both parts add up
        let mut both = whole.moved;
        both += item.replay(behind).moved;
        assert_eq!(both, sum(&each));
    }
    let all = sum(&each);
    let MovedCounts {
        across_low,
        across_high,
        down_low,
        down_high,
    } = all;
    let counts = [across_low, across_high, down_low, down_high];
    assert!(counts.iter().all(|n| *n > 5), "{all}");
    assert_eq!(all.total(), counts.iter().sum());
}

/// Of the flipped reel, low and high change places.
#[test]
fn flipped_counts() {
    let item = Item::new(&mut Lcg(14), 40);
    let straight = item.replay(&item.records).moved;
    for flip in [Flip::LeftRight, Flip::TopBottom] {
        let flipped = item.references.each_ref();
        let flipped = flipped.map(|p| p.picture().flipped(flip).pad().unwrap());
        let turn = |record: &TraceRecord| record.flipped(flip, &Item::HEADER, Some(&item.col_mv));
        let records: Result<Vec<_>, _> = item.records.iter().map(turn).collect();
        let turned = Item {
            references: flipped,
            col_mv: vec![0; item.col_mv.len()], // no record is direct
            records: records.unwrap(),
        };
        let counts = turned.replay(&turned.records).moved;
        assert_eq!(counts, straight.flipped(flip));
        assert_ne!(counts, straight, "{flip}");
    }
}

/// Lines for an item's note, with and without.
#[test]
fn notes() {
    let item = Item::new(&mut Lcg(15), 1);
    let at = |x, y| {
        let block = EvcBlock {
            pic_w: SIDES.0,
            pic_h: SIDES.1,
            x: 0,
            y: 0,
            w: 8,
            h: 8,
        };
        let (used, poc) = (true, 0);
        let mv = EvcMv { x, y };
        let list0 = EvcList { used, mv, poc };
        TraceRecord::from_lists(block, list0, EvcList::default()).unwrap()
    };
    let bad = TraceRecord { x: 2, ..at(0, 0) };
    let note = |records: &[TraceRecord]| item.replay(records).to_string();
    assert_eq!(note(&[at(-256, 3)]), "1 record finished");
    assert_eq!(
        note(&[at(-257, 3), at(0, 0)]),
        "2 records finished; 1 component of a vector was clipped: across 1 low, 0 high, down 0 low, 0 high"
    );
    assert_eq!(
        note(&[at(-257, 3), at(417, -300)]),
        "2 records finished; 3 components of vectors were clipped: across 1 low, 1 high, down 1 low, 0 high"
    );
    let said = "1 record finished; 2 components of vectors were clipped: \
                across 0 low, 1 high, down 0 low, 1 high; record 1: refused (2): ";
    let note = note(&[at(2000, 2000), bad]);
    assert!(note.starts_with(said), "{note}");
}
