//! Document 02's W1: the bytes that are written, and replay against the calls one by one.

mod lcg;
mod pictures;

use evc_inter::*;
use lcg::Lcg;
use std::io;

const SIDES: (u32, u32) = (48, 32);
const POC: [u32; 2] = [0, 8];
const CURRENT: u32 = 3;

impl Lcg {
    fn mv(&mut self) -> EvcMv {
        let [x, y] = [0, 1].map(|_| self.below(601) as i16 - 300);
        EvcMv { x, y }
    }
}

fn references() -> [PaddedPicture; 2] {
    let lcg = &mut Lcg(1);
    [0, 1].map(|_| lcg.picture(SIDES.0, SIDES.1))
}

fn col_mv() -> Vec<i16> {
    let lcg = &mut Lcg(2);
    let units = SIDES.0 / 4 * (SIDES.1 / 4);
    (0..4 * units)
        .map(|_| lcg.below(2001) as i16 - 1000)
        .collect()
}

/// Grey all over, border included: what is written shows.
fn grey() -> Picture {
    let mut picture = Picture::new(SIDES.0, SIDES.1).unwrap();
    for plane in picture.samples_mut() {
        plane.fill(2000);
    }
    picture
}

/// A trace with a record of each kind in turn; the pictures before and after each of them, made by the calls one by
/// one, and what was moved up to there.
fn kept(records: usize) -> (Vec<u8>, Vec<(Picture, MovedCounts)>) {
    let (references, col_mv, lcg) = (references(), col_mv(), &mut Lcg(3));
    let (pic_w, pic_h) = SIDES;
    let mut trace = TraceWriter::new(Vec::new(), pic_w, pic_h, CURRENT, POC[0]).unwrap();
    let mut pictures = vec![(grey(), MovedCounts::default())];
    let mut predictor = Predictor::new();
    for n in 0..records {
        let [w, h] = [0, 1].map(|_| 4 << lcg.below(4));
        let [x, y] = [pic_w - w, pic_h - h].map(|room| 4 * lcg.below(room / 4 + 1));
        let block = EvcBlock {
            pic_w,
            pic_h,
            x,
            y,
            w,
            h,
        };
        let kind = n % 4;
        let mv = match kind {
            3 => evc_get_mv_dir(block, CURRENT, POC[0], POC[1], POC[0], Some(&col_mv)).unwrap(),
            _ => [lcg.mv(), lcg.mv()],
        };
        let list = |k: usize| EvcList {
            used: kind != 1 - k,
            mv: mv[k],
            poc: POC[k],
        };
        let record = match kind {
            3 => TraceRecord::direct(block, POC[0], POC[1]),
            _ => TraceRecord::from_lists(block, list(0), list(1)),
        };
        trace.record(record.unwrap()).unwrap();
        let lists = [0, 1].map(|k: usize| {
            let picture = &references[k];
            let (mv, poc) = (mv[k], POC[k]);
            (kind != 1 - k).then_some(Reference { picture, mv, poc })
        });
        let (mut picture, mut moved) = pictures[n].clone();
        let prediction = predictor.predict(block, lists).unwrap();
        prediction.put(&mut picture);
        moved += prediction.moved().into();
        pictures.push((picture, moved));
    }
    assert_eq!(trace.records(), records as u64);
    (trace.into_inner(), pictures)
}

/// What replay says of a trace, and the target afterwards.
fn replayed(trace: &[u8]) -> (Replay, Picture) {
    let [reference0, reference1] = &references();
    let mut target = grey();
    let replay = replay(
        trace,
        [reference0, reference1],
        Some(&col_mv()),
        &mut target,
    );
    (replay, target)
}

fn record_at(n: usize) -> usize {
    TRACE_HEADER_LEN + n * TRACE_RECORD_LEN
}

/// "the letters IPT, version 1 in 16 bits, then W, H, the picture's order count and the collocated
/// reference's first listed count, 16 bits each, low byte first: 13 bytes"
#[test]
fn header_bytes() {
    let trace = TraceWriter::new(Vec::new(), 416, 240, 4, 258).unwrap();
    let want = [b'I', b'P', b'T', 1, 0, 160, 1, 240, 0, 4, 0, 2, 1];
    assert_eq!(trace.into_inner(), want);
}

/// The same bytes by a header; the writer can be reached, and its trace goes on behind what it has.
#[test]
fn with_header() {
    let header = TraceHeader {
        pic_w: 416,
        pic_h: 240,
        poc: 4,
        list_poc0: 258,
    };
    let mut trace = TraceWriter::with_header(Vec::new(), &header).unwrap();
    let want = TraceWriter::new(Vec::new(), 416, 240, 4, 258).unwrap();
    assert_eq!(trace.get_ref(), want.get_ref());
    trace.get_mut().push(7);
    let motion = TraceMotion::Direct { poc: [0, 8] };
    let (x, y, w, h) = (0, 0, 4, 4);
    let record = TraceRecord { x, y, w, h, motion };
    trace.record(record).unwrap();
    assert_eq!(trace.get_ref()[TRACE_HEADER_LEN], 7);
    assert_eq!(trace.into_inner().len(), record_at(1) + 1);

    let error = TraceWriter::with_header(Vec::new(), &TraceHeader::default()).unwrap_err();
    assert_eq!(Refusal::of(&error), Some(Refusal::Picture));
}

/// "x, y, w, h, 16 bits each; a kind byte (0 list 0, 1 list 1, 2 both, 3 direct with both lists);
/// two vectors; two reference counts; a zero byte: 22 bytes"
#[test]
fn record_bytes() {
    let block = EvcBlock {
        pic_w: 8128,
        pic_h: 8128,
        x: 4100,
        y: 260,
        w: 64,
        h: 4,
    };
    let list = |x, y, poc| EvcList {
        used: true,
        mv: EvcMv { x, y },
        poc,
    };
    let (list0, list1) = (list(-2, 300, 513), list(1, -256, 32767));
    let none = |list: EvcList| EvcList {
        used: false, // what it has beside that is not kept
        ..list
    };
    let mut trace = TraceWriter::new(Vec::new(), 8128, 8128, 4, 0).unwrap();
    for record in [
        TraceRecord::from_lists(block, list0, none(list1)),
        TraceRecord::from_lists(block, none(list0), list1),
        TraceRecord::from_lists(block, list0, list1),
        TraceRecord::direct(block, 513, 32767),
    ] {
        trace.record(record.unwrap()).unwrap();
    }
    let trace = trace.into_inner();
    let (mv0, poc0) = ([254, 255, 44, 1], [1, 2]);
    let (mv1, poc1) = ([1, 0, 0, 255], [255, 127]);
    let (no_mv, no_poc) = ([0; 4], [0; 2]);
    for (kind, mv, poc) in [
        (0, [mv0, no_mv], [poc0, no_poc]),
        (1, [no_mv, mv1], [no_poc, poc1]),
        (2, [mv0, mv1], [poc0, poc1]),
        (3, [no_mv, no_mv], [poc0, poc1]),
    ] {
        let mut want = vec![4, 16, 4, 1, 64, 0, 4, 0, kind];
        want.extend(mv.as_flattened());
        want.extend(poc.as_flattened());
        want.push(0);
        let at = record_at(kind.into());
        assert_eq!(trace[at..at + TRACE_RECORD_LEN], want, "kind {kind}");
    }
    assert_eq!(trace.len(), record_at(4));
}

/// "Replay must equal the records applied one after another", up to every record, borders included.
#[test]
fn one_after_another() {
    let (trace, pictures) = kept(40);
    for (n, (want, moved)) in pictures.iter().enumerate() {
        let (replay, target) = replayed(&trace[..record_at(n)]);
        assert_eq!((replay.result(), replay.moved), (Ok(n as u64), *moved));
        assert!(target.samples() == want.samples(), "after {n} records");
    }
    let moved = pictures[40].1;
    let said = "40 records finished; 16 components of vectors were clipped";
    assert_eq!(replayed(&trace).0.to_string(), format!("{said}: {moved}"));
}

/// "the index is returned (the record count on 0) and the target keeps the blocks before it"
#[test]
fn refused_inside() {
    let (trace, pictures) = kept(9);
    for (n, (want, moved)) in pictures[..9].iter().enumerate() {
        let mut damaged = trace.clone();
        damaged[record_at(n) + 8] = 4;
        let cut = &trace[..record_at(n) + 1 + n % 21];
        for (bytes, refusal) in [(&damaged[..], Refusal::Record), (cut, Refusal::Incomplete)] {
            let (replay, target) = replayed(bytes);
            assert_eq!((replay.finished, replay.refusal), (n as u64, Some(refusal)));
            assert_eq!(replay.moved, *moved);
            assert_eq!(replay.result().unwrap_err().record, Some(n as u64));
            assert!(
                target.samples() == want.samples(),
                "{refusal:?} in record {n}"
            );
        }
    }
    let (replay, _) = replayed(&trace[..record_at(1) + 21]);
    let said = "1 record finished; record 1: refused (11): ";
    assert!(replay.to_string().starts_with(said), "{replay}");
}

#[test]
fn refused_before() {
    let (trace, _) = kept(2);
    let with = |at: usize, byte| {
        let mut trace = trace.clone();
        trace[at] = byte;
        trace
    };
    for (bytes, refusal) in [
        (vec![], Refusal::Incomplete),
        (trace[..12].to_vec(), Refusal::Incomplete),
        (with(2, b't'), Refusal::Mark),
        (with(3, 2), Refusal::Mark),
        (with(5, 50), Refusal::Picture),
        (with(5, 44), Refusal::Buffer), // the pictures are wider than it says
        (with(7, 36), Refusal::Buffer),
    ] {
        let (replay, target) = replayed(&bytes);
        let error = replay.result().unwrap_err();
        assert_eq!((error.record, error.refusal), (None, refusal));
        assert_eq!((replay.finished, replay.moved.any()), (0, false));
        let said = "0 records finished; before the first record: refused";
        assert!(replay.to_string().starts_with(said), "{replay}");
        assert!(target.samples() == grey().samples());
    }
}

/// Any one of the three may be the picture of another size.
#[test]
fn pictures_of_two_sizes() {
    let (trace, _) = kept(1);
    for (pic_w, pic_h) in [(44, 32), (52, 32), (48, 28), (48, 36), (32, 48)] {
        let right = Picture::new(SIDES.0, SIDES.1).unwrap().pad().unwrap();
        let other = Picture::new(pic_w, pic_h).unwrap().pad().unwrap();
        for (references, target) in [
            ([&other, &right], &right),
            ([&right, &other], &right),
            ([&right, &right], &other),
        ] {
            let mut target = target.picture().clone();
            let replay = replay(&trace, references, None, &mut target);
            assert_eq!(replay.refusal, Some(Refusal::Buffer));
            assert!(target.samples().iter().all(|p| p.iter().all(|s| *s == 0)));
        }
    }
}

/// A target whose planes do not belong together is none of the header's size.
#[test]
fn exchanged_planes() {
    let (trace, _) = kept(1);
    let reference = Picture::new(SIDES.0, SIDES.1).unwrap().pad().unwrap();
    let larger = Picture::new(SIDES.0 + 4, SIDES.1).unwrap();
    for c in 0..3 {
        let mut target = grey();
        target.planes[c] = larger.planes[c].clone();
        let before = target.clone();
        let replay = replay(&trace, [&reference; 2], None, &mut target);
        assert_eq!(replay.refusal, Some(Refusal::Buffer), "{c}");
        assert!(target.samples() == before.samples());
    }
}

/// What has no room in a record is refused by the number that the call has for it.
#[test]
fn no_room() {
    let block = EvcBlock {
        pic_w: 65536,
        pic_h: 65536,
        x: 65535,
        y: 65535,
        w: 65535,
        h: 65535,
    };
    let list = |poc| EvcList {
        used: true,
        mv: EvcMv::default(),
        poc,
    };
    let (none, wide) = (EvcList::default(), list(65536));
    for outside in [
        EvcBlock { x: 65536, ..block },
        EvcBlock { y: 65536, ..block },
        EvcBlock { w: 65536, ..block },
        EvcBlock { h: 65536, ..block },
    ] {
        let lists = TraceRecord::from_lists(outside, none, none);
        assert_eq!(lists, Err(Refusal::Block));
        let direct = TraceRecord::direct(outside, 65536, 0);
        assert_eq!(direct, Err(Refusal::Block));
    }
    let from_lists = |list0, list1| TraceRecord::from_lists(block, list0, list1);
    assert_eq!(from_lists(none, none), Err(Refusal::List));
    for (list0, list1) in [(wide, none), (none, wide), (wide, list(0)), (list(0), wide)] {
        assert_eq!(from_lists(list0, list1), Err(Refusal::OrderCount));
    }
    for (poc0, poc1) in [(65536, 0), (0, u32::MAX)] {
        let direct = TraceRecord::direct(block, poc0, poc1);
        assert_eq!(direct, Err(Refusal::OrderCount));
    }
    let unused = EvcList {
        used: false,
        ..wide
    };
    assert!(from_lists(list(65535), unused).is_ok());
    assert!(TraceRecord::direct(block, 65535, 65535).is_ok());
}

/// Errors come out of the writer as they are, and what is not written is not counted.
#[test]
fn writer_errors() {
    let refusal = |error: io::Error| {
        assert_eq!(error.kind(), io::ErrorKind::InvalidInput);
        Refusal::of(&error).unwrap()
    };
    for (pic_w, poc, list_poc0, want) in [
        (50, 4, 0, Refusal::Picture),
        (48, 65536, 0, Refusal::OrderCount),
        (48, 4, 65536, Refusal::OrderCount),
    ] {
        let mut out = Vec::new();
        let error = TraceWriter::new(&mut out, pic_w, 32, poc, list_poc0).unwrap_err();
        assert_eq!((refusal(error), out.len()), (want, 0));
    }
    let mut room = [0; 34];
    assert!(TraceWriter::new(&mut room[..12], 48, 32, 4, 0).is_err());
    let mut trace = TraceWriter::new(&mut room[..], 48, 32, 4, 0).unwrap();
    let motion = TraceMotion::Direct { poc: [0, 8] };
    let record = TraceRecord {
        x: 0,
        y: 0,
        w: 4,
        h: 4,
        motion,
    };
    let error = trace.record(record).unwrap_err();
    assert_eq!(error.kind(), io::ErrorKind::WriteZero);
    assert_eq!(trace.records(), 0);
}
