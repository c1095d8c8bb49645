//! Flipped calls give flipped blocks, sample for sample.

mod lcg;
mod pictures;
mod records;

use evc_inter::*;
use lcg::Lcg;
use records::record;

const FLIPS: [Flip; 2] = [Flip::LeftRight, Flip::TopBottom];

impl Lcg {
    /// Near, anywhere, or at the ends of 16 bits.
    fn component(&mut self) -> i16 {
        match self.below(4) {
            0 => self.below(65536) as i16,
            1 => [-32768, -32767, 32767][self.below(3) as usize],
            _ => self.below(301) as i16 - 150,
        }
    }

    fn mv(&mut self) -> EvcMv {
        let [x, y] = [0, 1].map(|_| self.component());
        EvcMv { x, y }
    }

    /// A block of any size and place in the picture.
    fn block(&mut self, pic_w: u32, pic_h: u32) -> EvcBlock {
        let [w, h] = [pic_w, pic_h].map(|side| loop {
            let len = 4 << self.below(5);
            if len <= side {
                break len;
            }
        });
        let [x, y] = [pic_w - w, pic_h - h].map(|room| 4 * self.below(room / 4 + 1));
        EvcBlock {
            pic_w,
            pic_h,
            x,
            y,
            w,
            h,
        }
    }
}

/// The rows of a plane, each from its other end, or from the bottom.
fn mirrored<'a>(rows: impl Iterator<Item = &'a [u16]>, flip: Flip) -> Vec<Vec<u16>> {
    let mut rows: Vec<_> = rows.map(<[u16]>::to_vec).collect();
    match flip {
        Flip::LeftRight => rows.iter_mut().for_each(|row| row.reverse()),
        Flip::TopBottom => rows.reverse(),
    }
    rows
}

fn flipped_pictures(straight: &[PaddedPicture; 2], flip: Flip) -> [PaddedPicture; 2] {
    let flipped = straight.each_ref().map(|p| p.picture().flipped(flip).pad());
    flipped.map(Result::unwrap)
}

#[test]
fn pictures() {
    let straight = Lcg(1).picture(12, 20);
    for flip in FLIPS {
        let flipped = straight.picture().flipped(flip);
        for (plane, want) in flipped.planes.iter().zip(straight.planes()) {
            assert!(plane.rows().eq(mirrored(want.rows(), flip)));
        }
        assert_ne!(flipped, *straight.picture());
        let twice = flipped.pad().unwrap().picture().flipped(flip);
        assert!(twice.pad().unwrap().samples() == straight.samples());
    }
}

/// The lists in use, with these vectors.
fn references<'a>(
    pictures: &'a [PaddedPicture; 2],
    used: [bool; 2],
    mv: [EvcMv; 2],
) -> [Option<Reference<'a>>; 2] {
    [0, 1].map(|k| {
        let (picture, mv) = (&pictures[k], mv[k]);
        let poc = 8 * k as u32;
        used[k].then_some(Reference { picture, mv, poc })
    })
}

#[test]
fn predictions() {
    let lcg = &mut Lcg(2);
    let (mut straight_predictor, mut predictor) = (Predictor::new(), Predictor::new());
    let mut lowest = 0;
    for _ in 0..60 {
        let [pic_w, pic_h] = [0, 1].map(|_| 4 + 4 * lcg.below(20));
        let straight = [0, 1].map(|_| lcg.picture(pic_w, pic_h));
        for flip in FLIPS {
            let flipped = flipped_pictures(&straight, flip);
            for used in [[true, false], [false, true], [true, true]].repeat(10) {
                let block = lcg.block(pic_w, pic_h);
                let mv = [lcg.mv(), lcg.mv()];
                lowest += mv.iter().filter(|mv| mv.x.min(mv.y) == -32768).count();
                let lists = references(&straight, used, mv);
                let want = straight_predictor.predict(block, lists).unwrap();
                let lists = references(&flipped, used, mv.map(|mv| mv.flipped(flip)));
                let turned = predictor.predict(block.flipped(flip), lists).unwrap();
                let moved = want.moved().map(|moved| moved.flipped(flip));
                assert_eq!(turned.moved(), moved, "{flip}: {block:?} {mv:?}");
                for c in 0..3 {
                    let rows = mirrored(turned.rows(c), flip);
                    assert!(want.rows(c).eq(rows), "{flip}, plane {c}: {block:?} {mv:?}");
                }
            }
        }
    }
    assert!(lowest > 500, "{lowest}");
}

#[test]
fn vectors() {
    for n in i16::MIN..=i16::MAX {
        let (mv, held) = (
            EvcMv { x: n, y: 7 },
            EvcMv {
                x: n.max(-32767),
                y: 7,
            },
        );
        assert_eq!(mv.flipped(Flip::LeftRight).flipped(Flip::LeftRight), held);
        let EvcMv { x, y } = mv.flipped(Flip::LeftRight);
        assert_eq!((i32::from(x), y), (-i32::from(held.x), 7));
        let down = EvcMv { x: 7, y: n }.flipped(Flip::TopBottom);
        assert_eq!(down, EvcMv { x: y, y: x });
    }
}

/// A block that is refused is so after it is flipped, by the same number, and none is lost.
#[test]
fn blocks() {
    let numbers = |near: u32| {
        let near_it = (0..=140).map(move |n| near.wrapping_add(n).wrapping_sub(72));
        near_it.chain([1 << 16, 1 << 31]).step_by(2)
    };
    let mut answers = [0; 2];
    for pic_w in [4, 8, 64, 100, 8128, 6, 8132] {
        for w in [4, 8, 16, 32, 64, 0, 12, 68, u32::MAX] {
            for x in numbers(0)
                .chain(numbers(pic_w))
                .chain(numbers(0u32.wrapping_sub(w)))
            {
                let block = EvcBlock {
                    pic_w,
                    pic_h: 4,
                    x,
                    y: 0,
                    w,
                    h: 4,
                };
                let exchanged = |b: EvcBlock| EvcBlock {
                    pic_w: b.pic_h,
                    pic_h: b.pic_w,
                    x: b.y,
                    y: b.x,
                    w: b.h,
                    h: b.w,
                };
                let flipped = block.flipped(Flip::LeftRight);
                assert_eq!(flipped.flipped(Flip::LeftRight), block);
                let down = exchanged(block).flipped(Flip::TopBottom);
                assert_eq!(down, exchanged(flipped));
                let answer = |block| evc_mv_clip(block, EvcMv::default()).err();
                assert_eq!(answer(flipped), answer(block), "{block:?}");
                answers[usize::from(answer(block) == Some(Refusal::Block))] += 1;
            }
        }
    }
    assert!(answers.iter().all(|n| *n > 1000), "{answers:?}");
}

/// A trace, flipped record by record, is replayed over the flipped references without a map, and gives
/// the flipped target.
#[test]
fn records() {
    let lcg = &mut Lcg(3);
    let (pic_w, pic_h) = (48, 32);
    let header = TraceHeader {
        pic_w,
        pic_h,
        poc: 3,
        list_poc0: 0,
    };
    let straight = [0, 1].map(|_| lcg.picture(pic_w, pic_h));
    let col_mv: Vec<i16> = (0..4 * 12 * 8).map(|_| lcg.component()).collect();
    let records: Vec<_> = (0..40)
        .map(|n| {
            let block = lcg.block(pic_w, pic_h);
            record(n, block, [(); 2].map(|()| lcg.mv()))
        })
        .collect();
    let trace = |records: &mut dyn Iterator<Item = TraceRecord>| {
        let mut trace = TraceWriter::new(Vec::new(), pic_w, pic_h, 3, 0).unwrap();
        records.for_each(|record| trace.record(record).unwrap());
        trace.into_inner()
    };
    let replayed = |trace: &[u8], references: &[PaddedPicture; 2], col_mv| {
        let mut target = Picture::new(pic_w, pic_h).unwrap();
        let replay = replay(trace, references.each_ref(), col_mv, &mut target);
        assert_eq!(replay.result(), Ok(40));
        target.pad().unwrap()
    };
    let target = replayed(
        &trace(&mut records.iter().copied()),
        &straight,
        Some(&col_mv),
    );
    for flip in FLIPS {
        let turn = |record: &TraceRecord| record.flipped(flip, &header, Some(&col_mv)).unwrap();
        let trace = trace(&mut records.iter().map(turn));
        let flipped = replayed(&trace, &flipped_pictures(&straight, flip), None);
        let back = flipped.picture().flipped(flip).pad().unwrap();
        assert!(back.samples() == target.samples(), "{flip}");
    }
}

/// What a record is refused for, flipped, it is refused for straight.
#[test]
fn refused_records() {
    let header = TraceHeader {
        pic_w: 16,
        pic_h: 8,
        poc: 3,
        list_poc0: 0,
    };
    let poc = [0, 32768];
    let record = |x, motion| TraceRecord {
        x,
        y: 0,
        w: 8,
        h: 8,
        motion,
    };
    let direct = TraceMotion::Direct { poc };
    let both = TraceMotion::Both {
        mv: [EvcMv::default(); 2],
        poc,
    };
    let (map, short) = ([0; 4 * 8], [0; 4 * 8 - 1]);
    for (record, col_mv, want) in [
        (record(12, direct), Some(&short[..]), Err(Refusal::Block)),
        (record(8, direct), Some(&short), Err(Refusal::Buffer)),
        (record(8, direct), Some(&map), Err(Refusal::OrderCount)),
        (record(8, direct), None, Err(Refusal::OrderCount)),
        (record(12, both), Some(&short), Err(Refusal::Block)),
        (record(8, both), Some(&short), Ok(record(0, both))), // replay refuses it
    ] {
        let flipped = record.flipped(Flip::LeftRight, &header, col_mv);
        assert_eq!(flipped, want, "{record:?}");
    }
}
