//! Document 02's W1, "Keep what the decoder asked for": the bytes of a trace, its writers, and replay, with the counts
//! of W2.

use super::*;

/// "the letters IPT, version 1 in 16 bits"
pub const MARK: [u8; 5] = [b'I', b'P', b'T', 1, 0];

/// "13 bytes"
pub const HEADER_LEN: usize = 13;

/// "22 bytes"
pub const RECORD_LEN: usize = 22;

/// Behind mark and version: "W, H, the picture's order count and the collocated reference's first listed
/// count, 16 bits each".
#[derive(Clone, Copy, Debug, PartialEq)]
pub struct Header {
    pub pic: [u16; 2],
    pub poc: u16,
    pub list_poc0: u16,
}

/// "x, y, w, h, 16 bits each; a kind byte (0 list 0, 1 list 1, 2 both, 3 direct with both lists); two
/// vectors; two reference counts; a zero byte"; that byte is not among the fields.
#[derive(Clone, Copy, Debug, PartialEq)]
pub struct Record {
    pub place: [u16; 2],
    pub side: [u16; 2],
    pub kind: u8,
    pub mv: [Mv; 2],
    pub poc: [u16; 2],
}

/// "16 bits each, low byte first"
fn put(bytes: &mut Vec<u8>, numbers: &[u16]) {
    for n in numbers {
        bytes.push((n % 256) as u8);
        bytes.push((n / 256) as u8);
    }
}

fn number(bytes: &[u8], at: usize) -> u16 {
    u16::from(bytes[at]) + 256 * u16::from(bytes[at + 1])
}

fn pair(bytes: &[u8], at: usize) -> [u16; 2] {
    [number(bytes, at), number(bytes, at + 2)]
}

impl Header {
    pub fn bytes(&self) -> Vec<u8> {
        let mut bytes = MARK.to_vec();
        put(&mut bytes, &self.pic);
        put(&mut bytes, &[self.poc, self.list_poc0]);
        bytes
    }

    /// The fields of 13 bytes, whatever stands before them.
    pub fn read(bytes: &[u8]) -> Self {
        Header {
            pic: pair(bytes, 5),
            poc: number(bytes, 9),
            list_poc0: number(bytes, 11),
        }
    }
}

impl Record {
    pub fn bytes(&self) -> Vec<u8> {
        let mut bytes = Vec::new();
        put(&mut bytes, &self.place);
        put(&mut bytes, &self.side);
        bytes.push(self.kind);
        for mv in &self.mv {
            put(&mut bytes, &mv.map(|v| v as u16));
        }
        put(&mut bytes, &self.poc);
        bytes.push(0);
        bytes
    }

    /// The fields of 22 bytes, whatever the last is.
    pub fn read(bytes: &[u8]) -> Self {
        Record {
            place: pair(bytes, 0),
            side: pair(bytes, 4),
            kind: bytes[8],
            mv: [9, 13].map(|at| pair(bytes, at).map(|v| v as i16)),
            poc: pair(bytes, 17),
        }
    }

    /// "0 list 0, 1 list 1, 2 both, 3 direct with both lists"
    pub fn used(&self) -> [bool; 2] {
        [self.kind != 1, self.kind != 0]
    }

    /// "12 for a kind above 3 or a nonzero field due to be zero": "Fields of an unused list are zero, and so
    /// are both vectors of kind 3."
    pub fn is_refused(&self) -> bool {
        let used = self.used();
        let has_nonzero = |list: usize| {
            let is_mv_due = !used[list] || self.kind == 3;
            is_mv_due && self.mv[list] != [0, 0] || !used[list] && self.poc[list] != 0
        };
        self.kind > 3 || has_nonzero(0) || has_nonzero(1)
    }

    pub fn block(&self, pic: [u16; 2]) -> Block {
        Block {
            pic: pic.map(u32::from),
            place: self.place.map(u32::from),
            side: self.side.map(u32::from),
        }
    }

    /// What the direct call is asked for a record of kind 3.
    pub fn pocs(&self, header: &Header) -> Pocs {
        let [poc, poc0, poc1, list_poc0] =
            [header.poc, self.poc[0], self.poc[1], header.list_poc0].map(u32::from);
        Pocs {
            poc,
            poc0,
            poc1,
            list_poc0,
        }
    }
}

/// "The writer has one call for the header and one for a record; they refuse 1, 4 and, for a record, 12, in
/// that order.": the number returned; `out` becomes what it holds afterwards.
pub fn write_header(pic: [u32; 2], poc: u16, list_poc0: u16, out: &mut [u8]) -> u32 {
    let code = first_refusal(&[(1, is_picture_refused(pic)), (4, out.len() < HEADER_LEN)]);
    if code == 0 {
        let header = Header {
            pic: pic.map(|n| n as u16),
            poc,
            list_poc0,
        };
        out[..HEADER_LEN].copy_from_slice(&header.bytes());
    }
    code
}

/// The same for a record.
pub fn write_record(pic: [u32; 2], record: &Record, out: &mut [u8]) -> u32 {
    let code = first_refusal(&[
        (1, is_picture_refused(pic)),
        (4, out.len() < RECORD_LEN),
        (12, record.is_refused()),
    ]);
    if code == 0 {
        out[..RECORD_LEN].copy_from_slice(&record.bytes());
    }
    code
}

/// Who answers the two calls that a record can need.
pub trait OneByOne {
    fn direct(&mut self, b: &Block, pocs: Pocs, col: Collocated) -> (u32, [Mv; 2]);
    fn block(&mut self, b: &Block, lists: &[List; 2], pred: &mut [Vec<u16>; 2]) -> Predicted;
}

/// Document 01's calls.
pub struct ByTheDocument;

impl OneByOne for ByTheDocument {
    fn direct(&mut self, b: &Block, pocs: Pocs, col: Collocated) -> (u32, [Mv; 2]) {
        direct(b, pocs, col)
    }

    fn block(&mut self, b: &Block, lists: &[List; 2], pred: &mut [Vec<u16>; 2]) -> Predicted {
        let [pred0, pred1] = pred;
        block(b, lists, pred0, pred1)
    }
}

/// "the index is returned (the record count on 0)"; 0 for a refusal before the first record.
#[derive(Clone, Copy, Debug, PartialEq)]
pub struct Replay {
    pub code: u32,
    pub index: u64,
    pub moved: Counts,
}

/// W2: "four counts (across low, high, down low, high, both lists) over the finished records, refused or
/// not".
pub type Counts = [u64; 4];

/// Adds the reports of a record.
pub fn count(counts: &mut Counts, moved: [Moved; 2]) {
    for list in &moved {
        let sides = [(0, LOW), (0, HIGH), (1, LOW), (1, HIGH)];
        for (k, (d, side)) in sides.iter().enumerate() {
            counts[k] += u64::from(list[*d] == *side);
        }
    }
}

/// All that replay is lent to be read.
#[derive(Clone, Copy)]
pub struct Lent<'a> {
    pub trace: &'a [u8],
    /// Of list 0, of list 1.
    pub planes: [[&'a [u16]; 3]; 2],
    pub col: Collocated<'a>,
}

/// Replay by document 01's calls; the target becomes what it holds afterwards.
pub fn replay(lent: Lent, target: &mut [Vec<u16>; 3]) -> Replay {
    replay_by(&mut ByTheDocument, lent, target)
}

/// "Replay must equal the records applied one after another".
pub fn replay_by(calls: &mut dyn OneByOne, lent: Lent, target: &mut [Vec<u16>; 3]) -> Replay {
    let refused = |code| Replay {
        code,
        index: 0,
        moved: [0; 4],
    };
    // "Replay refuses, in this order, 11 for an incomplete header, 10 for mark or version, 1 and 4 (every lent
    // plane and map)"
    if lent.trace.len() < HEADER_LEN {
        return refused(11);
    }
    let (first, records) = lent.trace.split_at(HEADER_LEN);
    if first[..MARK.len()] != MARK {
        return refused(10);
    }
    // "Replay takes W and H from the header"
    let header = Header::read(first);
    let pic = header.pic.map(u32::from);
    if is_picture_refused(pic) {
        return refused(1);
    }
    if is_any_short(pic, lent, target) {
        return refused(4);
    }
    let mut answer = refused(0);
    for bytes in records.chunks(RECORD_LEN) {
        // "then per record, with its index from 0 .. the target keeps the blocks before it"
        let Predicted { code, moved } = apply(calls, &header, bytes, lent, target);
        if code != 0 {
            return Replay { code, ..answer };
        }
        answer.index += 1;
        count(&mut answer.moved, moved);
    }
    answer
}

/// "4 (every lent plane and map)", "from two lent references and the collocated motion map or none"
fn is_any_short(pic: [u32; 2], lent: Lent, target: &[Vec<u16>; 3]) -> bool {
    let target = [0, 1, 2].map(|k| &target[k][..]);
    let of_each = [lent.planes[0], lent.planes[1], target];
    let is_plane_short = |planes: &[&[u16]; 3]| {
        (0..3).any(|k| planes[k].len() < OnePlane::over(k > 0, pic).plane_len())
    };
    let b = Block {
        pic,
        place: [0; 2],
        side: [4; 2],
    };
    of_each.iter().any(is_plane_short) || lent.col.is_short(&b)
}

/// One record: "11 if incomplete, 12 for a kind above 3 or a nonzero field due to be zero, and the direct
/// call's or block's own number".
fn apply(
    calls: &mut dyn OneByOne,
    header: &Header,
    bytes: &[u8],
    lent: Lent,
    target: &mut [Vec<u16>; 3],
) -> Predicted {
    let refused = |code| Predicted {
        code,
        moved: [NOTHING_MOVED; 2],
    };
    if bytes.len() < RECORD_LEN {
        return refused(11);
    }
    let record = Record::read(bytes);
    if record.is_refused() || bytes[RECORD_LEN - 1] != 0 {
        return refused(12);
    }
    let b = record.block(header.pic);
    let mut mv = record.mv;
    if record.kind == 3 {
        let (code, direct) = calls.direct(&b, record.pocs(header), lent.col);
        if code != 0 {
            return refused(code);
        }
        mv = direct;
    }
    let lists = [0, 1].map(|k| List {
        used: record.used()[k],
        mv: mv[k],
        poc: record.poc[k].into(),
        planes: lent.planes[k],
    });
    let mut pred = [(); 2].map(|_| vec![0; PRED_LEN]);
    let predicted = calls.block(&b, &lists, &mut pred);
    if predicted.code == 0 {
        put_block(&b, &pred[0], target);
    }
    predicted
}

/// "puts predicted blocks into a lent target's planes, borders untouched"
fn put_block(b: &Block, pred: &[u16], target: &mut [Vec<u16>; 3]) {
    for plane in 0..3 {
        let c = OnePlane::over(plane > 0, b.pic);
        let part = 1 + u32::from(c.chroma);
        let [x, y] = b.place.map(|n| i64::from(n / part));
        let [w, h] = b.side.map(|n| (n / part) as usize);
        let samples = &pred[OFFSETS[plane]..];
        for (column, row) in places(w, h) {
            let at = c.index(x + column as i64, y + row as i64) as usize;
            target[plane][at] = samples[row * w + column];
        }
    }
}
