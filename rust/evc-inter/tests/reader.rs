//! The reader against the proved calls: what they write it reads, and what replay refuses it refuses.

use evc_inter::*;

const SIDES: (u32, u32) = (16, 8);
const POC: u16 = 3;

/// A record of every kind, with every field that its kind has.
fn records() -> [TraceRecord; 4] {
    let mv = [
        EvcMv { x: -2, y: 300 },
        EvcMv {
            x: 32767,
            y: -32768,
        },
    ];
    let poc = [513, 32767];
    let motions = [
        TraceMotion::List0 {
            mv: mv[0],
            poc: poc[0],
        },
        TraceMotion::List1 {
            mv: mv[1],
            poc: poc[1],
        },
        TraceMotion::Both { mv, poc },
        TraceMotion::Direct { poc },
    ];
    motions.map(|motion| TraceRecord {
        x: 8,
        y: 4,
        w: 8,
        h: 4,
        motion,
    })
}

fn trace(records: &[TraceRecord]) -> Vec<u8> {
    let (pic_w, pic_h) = SIDES;
    let mut trace = TraceWriter::new(Vec::new(), pic_w, pic_h, POC.into(), 258).unwrap();
    records.iter().for_each(|r| trace.record(*r).unwrap());
    trace.into_inner()
}

/// How far the reader comes, and why no further.
fn read(trace: &[u8]) -> (u64, Option<Refusal>) {
    let mut reader = match TraceReader::new(trace) {
        Ok(reader) => reader,
        Err(refusal) => return (0, Some(refusal)),
    };
    let mut finished = 0;
    let refusal = reader.find_map(|record| {
        finished += u64::from(record.is_ok());
        record.err()
    });
    assert_eq!(reader.next(), None);
    (finished, refusal)
}

/// Holds the reader to replay, which also looks at pictures, blocks and counts; where these stop it, the
/// reader has to come at least as far. Gives what the reader says.
fn hold(trace: &[u8]) -> (u64, Option<Refusal>) {
    let reference = Picture::new(SIDES.0, SIDES.1).unwrap().pad().unwrap();
    let mut target = Picture::new(SIDES.0, SIDES.1).unwrap();
    let replay = replay(trace, [&reference; 2], None, &mut target);
    let (finished, refusal) = read(trace);
    match replay.refusal {
        Some(Refusal::Block | Refusal::Buffer | Refusal::OrderCount) => {
            assert!(refusal.is_none() || finished > replay.finished, "{trace:?}");
            assert_ne!(refusal, Some(Refusal::Mark));
            assert_ne!(refusal, Some(Refusal::Picture));
        }
        _ => assert_eq!(
            (finished, refusal),
            (replay.finished, replay.refusal),
            "{trace:?}"
        ),
    }
    (finished, refusal)
}

#[test]
fn as_written() {
    let bytes = trace(&records());
    let mut reader = TraceReader::new(&bytes).unwrap();
    let header = TraceHeader {
        pic_w: SIDES.0,
        pic_h: SIDES.1,
        poc: POC,
        list_poc0: 258,
    };
    assert_eq!(*reader.header(), header);
    for record in records() {
        assert_eq!(reader.next(), Some(Ok(record)));
        let fields = EvcTraceRecord::from(record);
        assert_eq!(TraceRecord::try_from(fields), Ok(record));
    }
    assert_eq!(reader.next(), None);
    assert_eq!(hold(&bytes), (4, None));
}

/// Every byte with every other value, and the trace cut at every length.
#[test]
fn damaged() {
    let bytes = trace(&records());
    let mut answers = std::collections::BTreeMap::new();
    for at in 0..bytes.len() {
        let (_, refusal) = hold(&bytes[..at]);
        let is_whole = at >= TRACE_HEADER_LEN && (at - TRACE_HEADER_LEN) % TRACE_RECORD_LEN == 0;
        assert_eq!(refusal, Some(Refusal::Incomplete).filter(|_| !is_whole));
        for byte in 0..=255 {
            let mut damaged = bytes.clone();
            damaged[at] = byte;
            let (_, refusal) = hold(&damaged);
            *answers.entry(refusal.map(Refusal::number)).or_insert(0) += 1;
        }
    }
    let seen: Vec<_> = answers.into_keys().collect();
    assert_eq!(seen, [None, Some(1), Some(10), Some(12)]);
}

/// 12 exactly where the writer has it: every kind, with each field alone zero or not.
#[test]
fn fields() {
    let mut taken = 0;
    for kind in 0..=255 {
        for filled in 0..64 {
            let n = |bit: u32| (filled >> bit & 1) as u16;
            let mv = |bit| EvcMv {
                x: n(bit) as i16,
                y: -256 * n(bit + 1) as i16,
            };
            let fields = EvcTraceRecord {
                kind,
                mv0: mv(0),
                mv1: mv(2),
                poc0: n(4) << 15,
                poc1: n(5),
                x: 65535,
                ..Default::default()
            };
            let mut out = [0; TRACE_RECORD_LEN];
            let written = evc_trace_write_record(16, 8, fields, &mut out);
            let record = TraceRecord::try_from(fields);
            assert_eq!(record.err(), written.err(), "{fields:?}");
            if let Ok(record) = record {
                taken += 1;
                assert_eq!(EvcTraceRecord::from(record), fields);
                assert_eq!(EvcTraceRecord::from_bytes(&out), (fields, 0));
            }
        }
    }
    assert_eq!(taken, 8 + 8 + 64 + 4);
}

/// The fields and the last byte of any 22 bytes; where they are a record the writer gives the bytes back.
#[test]
fn bytes() {
    let bytes: [u8; TRACE_RECORD_LEN] = std::array::from_fn(|n| 2 * n as u8 + 129);
    let at = |n: u16| (2 * n + 129) | (2 * n + 131) << 8;
    let mv = |n| EvcMv {
        x: at(n) as i16,
        y: at(n + 2) as i16,
    };
    let fields = EvcTraceRecord {
        x: at(0),
        y: at(2),
        w: at(4),
        h: at(6),
        kind: 145,
        mv0: mv(9),
        mv1: mv(13),
        poc0: at(17),
        poc1: at(19),
    };
    assert_eq!(EvcTraceRecord::from_bytes(&bytes), (fields, 171));

    let mut both = bytes;
    (both[8], both[21]) = (2, 0);
    let (fields, _) = EvcTraceRecord::from_bytes(&both);
    let mut out = [0; TRACE_RECORD_LEN];
    evc_trace_write_record(16, 8, fields, &mut out).unwrap();
    assert_eq!(out, both);
}

/// A record's lists are those that it was made from, and its block is the header's.
#[test]
fn lists() {
    let bytes = trace(&records());
    let reader = TraceReader::new(&bytes).unwrap();
    let header = *reader.header();
    let col_mv = [7; 4 * 8];
    let mut direct = 0;
    for record in reader {
        let record = record.unwrap();
        let block = record.block(&header);
        assert_eq!((block.pic_w, block.pic_h), SIDES);
        let lists @ [list0, list1] = record.lists(&header, Some(&col_mv)).unwrap();
        match record.motion {
            TraceMotion::Direct { poc } => {
                assert_eq!(TraceRecord::direct(block, 513, 32767), Ok(record));
                let want = evc_get_mv_dir(block, 3, 513, 32767, 258, Some(&col_mv)).unwrap();
                assert_eq!(lists.map(|list| list.mv), want);
                assert_eq!(lists.map(|list| list.poc), poc.map(u32::from));
                assert!(list0.used && list1.used);
                direct += 1;
            }
            _ => assert_eq!(TraceRecord::from_lists(block, list0, list1), Ok(record)),
        }
    }
    assert_eq!(direct, 1);
}
