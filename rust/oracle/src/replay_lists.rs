//! The lists of traces to replay with their answers: one with the Rust's answers, and one of refusals, which
//! the Rust does not have and document 02's W1 and W2 (`model::trace`) answer. README.md has the layout.

use crate::cases::{arbitrary, hash, random_block, record, sides, trace, vector, ByTheRust, Rng};
use crate::lists::{small, spaced, List};
use crate::mc2_lists::{needed, random_vector, towards, Set};
use crate::model::trace::{replay, replay_by, Header, Lent, Record, Replay};
use crate::model::trace::{HEADER_LEN, RECORD_LEN};
use crate::model::{self, Block, Collocated};
use crate::{plane_config, plane_of, Picture};

/// What the program has room for.
const MAX_PLANE_LEN: usize = 65535;
const MAX_MAP_LEN: usize = 4096;
const MAX_TRACE_LEN: usize = 4096;

/// A trace, and all that is lent to its replay.
#[derive(Clone)]
struct Case {
    /// For which the references are padded.
    pic: [u32; 2],
    /// Of list 0, list 1 and the target.
    seed: [u16; 3],
    limit: u16,
    padded: bool,
    /// Samples lent of Y, U, V of list 0, of list 1, of the target.
    len: [usize; 9],
    has_col: bool,
    map_len: usize,
    map_seed: u16,
    span: u16,
    set: Option<Set>,
    trace: Vec<u8>,
}

impl Case {
    /// Buffers as long as they need to be, a map, and no trace yet.
    fn exact(pic: [u32; 2], rng: &mut Rng) -> Self {
        Case {
            pic,
            seed: [(); 3].map(|_| rng.below(65000) as u16),
            limit: 1024,
            padded: true,
            len: [0, 1, 2, 0, 1, 2, 0, 1, 2].map(|k| needed(pic, k > 0)),
            has_col: true,
            map_len: (pic[0] * pic[1] / 4) as usize,
            map_seed: rng.below(65000) as u16,
            span: 2000,
            set: None,
            trace: Vec::new(),
        }
    }

    /// Some buffers a little longer.
    fn new(pic: [u32; 2], rng: &mut Rng) -> Self {
        let mut case = Case::exact(pic, rng);
        for len in &mut case.len {
            *len += [0, 1, 17][rng.below(3)];
        }
        case.map_len += [0, 1, 9][rng.below(3)];
        case
    }

    fn without_map(self) -> Self {
        Case {
            has_col: false,
            map_len: 0,
            ..self
        }
    }

    /// Numbers about 0, in sixteen bits.
    fn map(&self) -> Vec<i16> {
        let numbers = arbitrary(self.map_len, self.map_seed).into_iter();
        let number = |n: u16| (n % self.span).wrapping_sub(self.span / 2) as i16;
        numbers.map(number).collect()
    }

    fn col<'a>(&self, map: &'a [i16]) -> Collocated<'a> {
        Collocated {
            is_present: self.has_col,
            map,
        }
    }

    /// The six planes of the references and the three of the target. A reference that may be padded and is
    /// long enough is padded.
    fn planes(&self) -> [Vec<u16>; 9] {
        [0, 1, 2, 3, 4, 5, 6, 7, 8].map(|k| {
            let (which, plane) = (k / 3, k % 3);
            let mut samples = arbitrary(self.len[k], self.seed[which] + plane as u16);
            let limit = if which == 2 { 1024 } else { self.limit };
            samples.iter_mut().for_each(|sample| *sample %= limit);
            if which < 2 && self.padded {
                model::pad(plane > 0, self.pic, &mut samples);
            }
            if let Some(set) = self.set.filter(|set| set.plane == k) {
                samples[set.place] = set.value;
            }
            samples
        })
    }

    /// Twenty-four numbers, and the trace.
    fn bytes(&self) -> Vec<u8> {
        assert!(self.len.iter().all(|len| *len <= MAX_PLANE_LEN));
        assert!(self.map_len <= MAX_MAP_LEN && self.trace.len() <= MAX_TRACE_LEN);
        let set = self.set.map_or([6, 0, 0], |set| {
            [small(set.plane), small(set.place), set.value]
        });
        let len = self.len.map(small);
        let numbers = [
            &self.pic.map(|n| small(n as usize))[..],
            &self.seed[..2],
            &[self.limit, u16::from(self.padded)],
            &len[..6],
            &set,
            &self.seed[2..],
            &len[6..],
            &[u16::from(self.has_col), small(self.map_len)],
            &[self.map_seed, self.span],
            &[small(self.trace.len())],
        ]
        .concat();
        assert_eq!(numbers.len(), 24);
        let mut bytes: Vec<u8> = numbers.iter().flat_map(|n| n.to_le_bytes()).collect();
        bytes.extend(&self.trace);
        bytes
    }

    /// What the model answers and leaves in the target. On the records before a refusal the Rust has to agree.
    fn answer(&self) -> (Replay, [Vec<u16>; 3]) {
        let planes = self.planes();
        let map = self.map();
        let of = |first: usize| [0, 1, 2].map(|k| &planes[first + k][..]);
        let lent = Lent {
            trace: &self.trace,
            planes: [of(0), of(3)],
            col: self.col(&map),
        };
        let old = of(6).map(|plane| plane.to_vec());
        let mut target = old.clone();
        let answer = replay(lent, &mut target);
        let mut by_the_rust = old;
        if answer.index > 0 {
            let finished = HEADER_LEN + RECORD_LEN * answer.index as usize;
            let header = Header::read(&self.trace);
            let pictures = lent.planes.map(|planes| picture(header.pic, planes));
            let mut rust = ByTheRust::new([&pictures[0], &pictures[1]]);
            let before = Lent {
                trace: &self.trace[..finished],
                ..lent
            };
            let all = replay_by(&mut rust, before, &mut by_the_rust);
            assert!(!rust.is_beyond, "outside the comparison domain");
            assert_eq!(all, Replay { code: 0, ..answer });
        }
        assert!(target == by_the_rust, "the Rust and document 02");
        (answer, target)
    }
}

fn picture(pic: [u16; 2], planes: [&[u16]; 3]) -> Picture {
    let [w, h] = pic.map(usize::from);
    Picture::new([0, 1, 2].map(|k| plane_of(k > 0, w, h, planes[k])))
}

fn push(list: &mut List, case: &Case) -> Replay {
    let (answer, target) = case.answer();
    list.records.extend(case.bytes());
    let [y, u, v] = [0, 1, 2].map(|k| hash(&target[k]));
    let Replay { code, index, moved } = answer;
    list.answer(&format!("{code} {index} {} {y} {u} {v}", spaced(&moved)));
    answer
}

/// A case that is meant to have this answer.
fn expect(list: &mut List, case: &Case, code: u32, index: usize) {
    let answer = push(list, case);
    assert_eq!((answer.code, answer.index), (code, index as u64));
}

// ---- accepted traces

const KINDS: [u8; 4] = [0, 1, 2, 3];

fn header(pic: [u32; 2], poc: u16, list_poc0: u16) -> Header {
    Header {
        pic: pic.map(|n| n as u16),
        poc,
        list_poc0,
    }
}

fn random_count(rng: &mut Rng) -> u16 {
    [0, 1, 4, 8, 32767, rng.below(32768) as u16][rng.below(6)]
}

fn random_header(pic: [u32; 2], rng: &mut Rng) -> Header {
    header(pic, random_count(rng), random_count(rng))
}

/// A record of a block, inside the comparison domain, where the direct vectors let it: else none.
fn of_block(case: &Case, header: &Header, b: Block, kind: u8, rng: &mut Rng) -> Option<Record> {
    let mv = [(); 2].map(|_| random_vector(&b, rng));
    let poc = [(); 2].map(|_| random_count(rng));
    let record = record(&b, kind, mv, poc);
    let (_, direct) = model::direct(&b, record.pocs(header), case.col(&case.map()));
    let is_inside = direct.iter().all(|mv| b.in_domain(*mv));
    Some(record).filter(|_| kind < 3 || is_inside)
}

fn random_record(case: &Case, header: &Header, kind: u8, rng: &mut Rng) -> Record {
    loop {
        let b = random_block(case.pic, rng);
        if let Some(record) = of_block(case, header, b, kind, rng) {
            return record;
        }
    }
}

/// So many records of these kinds in turn.
fn random_records(
    case: &Case,
    header: &Header,
    kinds: &[u8],
    n: usize,
    rng: &mut Rng,
) -> Vec<Record> {
    let kinds = kinds.iter().cycle().take(n);
    kinds
        .map(|kind| random_record(case, header, *kind, rng))
        .collect()
}

/// Accepted traces.
pub fn accepted() -> [Vec<u8>; 2] {
    let mut rng = Rng(51);
    let rng = &mut rng;
    let mut list = List::default();
    let mut push = |mut case: Case, header: Header, records: &[Record]| {
        case.trace = trace(&header, records);
        expect(&mut list, &case, 0, records.len());
    };

    // No record at all; the header's counts are then not looked at.
    push(
        Case::new([4, 4], rng).without_map(),
        header([4, 4], 4, 1),
        &[],
    );
    push(
        Case::new([20, 12], rng),
        header([20, 12], 65535, 65535),
        &[],
    );

    // One record of each kind, with a map and without.
    for kind in KINDS {
        for pic in [[8, 8], [32, 20]] {
            let mut case = Case::new(pic, rng);
            if pic == [8, 8] {
                case = case.without_map();
            }
            let header = random_header(pic, rng);
            let one = random_record(&case, &header, kind, rng);
            push(case, header, &[one]);
        }
    }

    // All kinds, blocks that overlap, vectors that lead every way; pictures padded and not, with a map and
    // without.
    let pictures = [
        [4, 4],
        [8, 4],
        [4, 12],
        [20, 16],
        [36, 28],
        [64, 4],
        [48, 64],
        [64, 64],
    ];
    for (k, pic) in pictures.iter().enumerate() {
        for padded in [false, true] {
            for has_col in [false, true] {
                let mut case = Case::new(*pic, rng);
                case.padded = padded;
                case.span = [65535, 400, 2000][k % 3];
                if !has_col {
                    case = case.without_map();
                }
                let header = random_header(*pic, rng);
                let records = random_records(&case, &header, &KINDS, 12 + 4 * k, rng);
                push(case, header, &records);
            }
        }
    }

    // A picture covered by blocks of one size, each kind.
    let pic = [64, 64];
    for kind in KINDS {
        let case = Case::new(pic, rng);
        let header = random_header(pic, rng);
        let places = (0..64).map(|k| [k % 8 * 8, k / 8 * 8]);
        let blocks = places.map(|place| Block {
            pic,
            place,
            side: [8, 8],
        });
        let record = |b| loop {
            if let Some(record) = of_block(&case, &header, b, kind, rng) {
                break record;
            }
        };
        let records: Vec<Record> = blocks.map(record).collect();
        push(case, header, &records);
    }

    // Every size of a block with each kind.
    for padded in [false, true] {
        let mut case = Case::new(pic, rng);
        case.padded = padded;
        let header = random_header(pic, rng);
        let mut records = Vec::new();
        for side in sides(64)
            .iter()
            .flat_map(|w| sides(64).into_iter().map(move |h| [*w, h]))
        {
            let side = side.map(|n| n as u32);
            for kind in KINDS {
                let place = side.map(|side| 4 * rng.below((64 - side) as usize / 4 + 1) as u32);
                let b = Block { pic, place, side };
                records.extend(of_block(&case, &header, b, kind, rng));
            }
        }
        push(case, header, &records);
    }

    // As many records as the program reads.
    for pic in [[4, 4], [36, 28]] {
        let case = Case::new(pic, rng);
        let header = random_header(pic, rng);
        let most = (MAX_TRACE_LEN - HEADER_LEN) / RECORD_LEN;
        let records = random_records(&case, &header, &KINDS, most, rng);
        push(case, header, &records);
    }

    // Equal motion, from the start or by clipping alone, and with other counts; over two pictures and over one.
    for pic in [[4, 4], [20, 12]] {
        for is_one in [false, true] {
            let mut case = Case::new(pic, rng);
            case.padded = is_one;
            if is_one {
                case.seed[1] = case.seed[0];
            }
            let mut records = Vec::new();
            for towards in towards() {
                let b = random_block(pic, rng);
                let first = vector(&b, towards, rng);
                let again = vector(&b, towards, rng);
                let is_again = b.clipped_place(again) == b.clipped_place(first);
                let second = if is_again { again } else { first };
                for poc in [[7, 7], [7, 8]] {
                    records.push(record(&b, 2, [first, second], poc));
                }
            }
            push(case, random_header(pic, rng), &records);
        }
    }

    // Direct vectors: counts at both ends, all equal, the first listed equal to reference 1's; maps of zeros, of
    // small numbers and of any.
    for (span, poc, list_poc0) in [
        (1, 4, 0),
        (3, 4, 1),
        (65535, 0, 32767),
        (65535, 32767, 0),
        (2000, 32767, 32767),
        (2000, 5, 6),
    ] {
        let pic = [20, 12];
        let mut case = Case::new(pic, rng);
        case.span = span;
        let header = header(pic, poc, list_poc0);
        let mut records = Vec::new();
        for count in [0, 1, poc, list_poc0, 32766, 32767] {
            for counts in [
                [count, list_poc0],
                [list_poc0, count],
                [poc, count],
                [count; 2],
            ] {
                let b = random_block(pic, rng);
                let direct = record(&b, 3, [[0; 2]; 2], counts);
                let (_, mv) = model::direct(&b, direct.pocs(&header), case.col(&case.map()));
                if mv.iter().all(|mv| b.in_domain(*mv)) {
                    records.push(direct);
                }
            }
        }
        push(case, header, &records);
    }

    // Header counts too high for a direct vector, which no record asks for.
    let case = Case::new([12, 8], rng);
    let high = header([12, 8], 32768, 65535);
    let records = random_records(&case, &high, &[0, 1, 2], 9, rng);
    push(case, high, &records);

    // Buffers much longer than needed.
    let mut case = Case::new([36, 28], rng);
    case.len = [MAX_PLANE_LEN; 9];
    case.map_len = MAX_MAP_LEN;
    let header = random_header([36, 28], rng);
    let records = random_records(&case, &header, &KINDS, 16, rng);
    push(case, header, &records);
    list.done()
}

// ---- refusals

/// The picture of the refusals, whose buffers are as long as they need to be.
const PIC: [u32; 2] = [20, 12];

fn some_header() -> Header {
    header(PIC, 4, 1)
}

/// Records that are finished, of each kind.
fn finished(case: &Case, n: usize, rng: &mut Rng) -> Vec<Record> {
    let mut records = random_records(case, &some_header(), &[2, 3, 0, 1], n, rng);
    for record in &mut records {
        record.poc = record.poc.map(|poc| poc % 9);
    }
    records
}

/// Refusals, and accepted traces next to them.
pub fn bad() -> [Vec<u8>; 2] {
    let mut rng = Rng(52);
    let mut list = List::default();
    headers(&mut list, &mut rng);
    lengths(&mut list, &mut rng);
    incomplete(&mut list, &mut rng);
    forms(&mut list, &mut rng);
    blocks(&mut list, &mut rng);
    counts(&mut list, &mut rng);
    examined(&mut list, &mut rng);
    moved(&mut list, &mut rng);
    list.done()
}

/// A trace of three records.
fn of_three(rng: &mut Rng) -> Case {
    let mut case = Case::exact(PIC, rng);
    case.trace = trace(&some_header(), &finished(&case, 3, rng));
    case
}

/// 11, 10 and 1 of the header, each before all that come later, and 4.
fn headers(list: &mut List, rng: &mut Rng) {
    expect(list, &of_three(rng), 0, 3);
    for len in [0, 1, 5, 12] {
        let mut case = of_three(rng);
        case.trace.truncate(len);
        expect(list, &case, 11, 0);
    }
    for (at, value) in [(0, b'i'), (1, b'Q'), (2, 0), (3, 0), (3, 2), (4, 1)] {
        let mut case = of_three(rng);
        case.trace[at] = value;
        expect(list, &case, 10, 0);
    }
    for (at, side) in [
        (5, 0u16),
        (5, 22),
        (5, 8132),
        (5, 65532),
        (7, 0),
        (7, 14),
        (7, 8132),
    ] {
        let mut case = of_three(rng);
        case.trace[at..at + 2].copy_from_slice(&side.to_le_bytes());
        expect(list, &case, 1, 0);
    }
    // planes padded for a picture that is refused stay as they are
    let mut case = of_three(rng);
    case.pic = [22, 12];
    expect(list, &case, 0, 3);

    let faults: [(u32, fn(&mut Case)); 4] = [
        (11, |case| case.trace.truncate(12)),
        (10, |case| case.trace[3] = 2),
        (1, |case| case.trace[5] = 21),
        (4, |case| case.len[4] -= 1),
    ];
    for (k, (code, first)) in faults.iter().enumerate() {
        for (_, second) in &faults[k + 1..] {
            let mut case = of_three(rng);
            second(&mut case);
            first(&mut case);
            expect(list, &case, *code, 0);
        }
    }
    // all that can be wrong in a whole header
    let mut case = of_three(rng);
    for (_, fault) in &faults[1..] {
        fault(&mut case);
    }
    expect(list, &case, 10, 0);
}

/// 4: every plane and the map, whatever the records need; 4 before all of a record's.
fn lengths(list: &mut List, rng: &mut Rng) {
    for plane in 0..9 {
        let mut case = of_three(rng);
        case.len[plane] -= 1;
        expect(list, &case, 4, 0);
    }
    for plane in [0, 5, 7] {
        let mut case = of_three(rng);
        case.len[plane] = 0;
        case.trace.truncate(HEADER_LEN);
        expect(list, &case, 4, 0);
    }
    // a list that no record uses, and a record that is refused
    for record in [
        record(&some_block(), 0, [[5, -3]; 2], [1, 2]),
        record(&some_block(), 4, [[1, 1]; 2], [40000; 2]),
    ] {
        let mut case = of_three(rng);
        case.trace = trace(&some_header(), &[record]);
        case.len[3] -= 1;
        expect(list, &case, 4, 0);
    }
    // the header's picture needs more than was lent
    let mut case = of_three(rng);
    case.trace[5] = 36;
    expect(list, &case, 4, 0);
    for (has_col, len, code) in [(true, 59, 4), (true, 0, 4), (true, 61, 0), (false, 59, 0)] {
        let mut case = of_three(rng);
        let is_short = has_col && len < 60;
        case.has_col = has_col;
        case.map_len = len;
        expect(list, &case, code, if is_short { 0 } else { 3 });
    }
}

/// 11: a last record of 1 to 21 bytes, which is not excess, and 11 before 12.
fn incomplete(list: &mut List, rng: &mut Rng) {
    for n in [0, 1, 3] {
        for len in [1, 21] {
            let mut case = of_three(rng);
            case.trace.truncate(HEADER_LEN + n * RECORD_LEN);
            let next = record(&some_block(), 2, [[5, -3]; 2], [1, 2]).bytes();
            case.trace.extend(&next[..len]);
            expect(list, &case, 11, n);
        }
    }
    let mut case = of_three(rng);
    case.trace.extend(&[255; 21]);
    expect(list, &case, 11, 3);
}

fn some_block() -> Block {
    Block {
        pic: PIC,
        place: [8, 4],
        side: [8, 4],
    }
}

/// Bytes of a record behind finished ones and before others.
fn between(case: &mut Case, header: &Header, before: usize, record: &[u8], rng: &mut Rng) {
    let [first, last] = [before, 2].map(|n| finished(case, n, rng));
    case.trace = trace(header, &first);
    case.trace.extend(record);
    case.trace.extend(last.iter().flat_map(Record::bytes));
}

/// Where the fields of a record begin that can be due to be zero.
const MV0: usize = 9;
const MV1: usize = 13;
const POC0: usize = 17;
const POC1: usize = 19;
const LAST: usize = 21;

/// 12, and 12 before 2, 5 and 6.
fn forms(list: &mut List, rng: &mut Rng) {
    let of_kind = |kind| record(&some_block(), kind, [[5, -3], [-6, 9]], [1, 2]).bytes();
    for (kind, at, value) in [
        (0, MV1, 1),
        (0, MV1 + 3, 128),
        (0, POC1, 2),
        (0, POC1 + 1, 1),
        (1, MV0 + 1, 255),
        (1, MV0 + 2, 4),
        (1, POC0, 1),
        (3, MV0, 1),
        (3, MV0 + 3, 1),
        (3, MV1 + 1, 128),
        (3, MV1 + 2, 255),
        (0, LAST, 1),
        (1, LAST, 128),
        (2, LAST, 255),
        (3, LAST, 1),
        (2, 8, 4),
        (2, 8, 255),
    ] {
        let mut case = Case::exact(PIC, rng);
        let mut bytes = of_kind(kind);
        bytes[at] = value;
        between(&mut case, &some_header(), 1, &bytes, rng);
        expect(list, &case, 12, 1);
    }
    // a side of 12; a count of 32,769; a sample of 1024 where the record looks
    let later: [fn(&mut Case, &mut Vec<u8>); 3] = [
        |_, bytes| bytes[4] = 12,
        |_, bytes| bytes[POC0 + 1] = 128,
        |case, _| case.limit = 65535,
    ];
    for (k, fault) in later.iter().enumerate() {
        let mut case = Case::exact(PIC, rng);
        let mut bytes = of_kind(2);
        fault(&mut case, &mut bytes);
        for (last, code) in [(1, 12), (0, [2, 5, 6][k])] {
            bytes[LAST] = last;
            between(&mut case, &some_header(), 0, &bytes, rng);
            expect(list, &case, code, 0);
        }
    }
}

/// 2 by the direct call and by the block, and 2 before 5.
fn blocks(list: &mut List, rng: &mut Rng) {
    let bad: [([u32; 2], [u32; 2]); 8] = [
        ([8, 4], [12, 4]),
        ([8, 4], [8, 0]),
        ([8, 4], [65532, 4]),
        ([6, 4], [8, 4]),
        ([8, 65535], [8, 4]),
        ([16, 4], [8, 4]),
        ([8, 8], [8, 8]),
        ([65532, 4], [4, 4]),
    ];
    for (k, (place, side)) in bad.iter().enumerate() {
        let b = Block {
            pic: PIC,
            place: *place,
            side: *side,
        };
        // the direct call every second time
        for kind in [3, k as u8 % 3] {
            if kind < 3 && k > 5 {
                continue;
            }
            let mut case = Case::exact(PIC, rng);
            let is_high = k % 2 == 1;
            let count = if is_high { 32768 } else { 2 };
            let record = record(&b, kind, [[5, -3], [-6, 9]], [count; 2]);
            between(&mut case, &some_header(), 2, &record.bytes(), rng);
            expect(list, &case, 2, 2);
        }
    }
}

/// 5 by the block and by the direct call, which alone looks at the header's counts; 5 before 6.
fn counts(list: &mut List, rng: &mut Rng) {
    let of_counts = |kind, poc| record(&some_block(), kind, [[5, -3], [-6, 9]], poc).bytes();
    for (kind, poc) in [
        (0, [32768, 0]),
        (1, [0, 65535]),
        (2, [32768, 1]),
        (2, [1, 32768]),
        (3, [32768, 1]),
        (3, [1, 32768]),
    ] {
        let mut case = Case::exact(PIC, rng);
        between(&mut case, &some_header(), 2, &of_counts(kind, poc), rng);
        expect(list, &case, 5, 2);
    }
    for (poc, list_poc0) in [(32768, 1), (4, 65535)] {
        let high = header(PIC, poc, list_poc0);
        for (kind, code) in [(3, 5), (2, 0)] {
            let case = Case::exact(PIC, rng);
            let before = random_records(&case, &high, &[0, 2, 1], 3, rng);
            let mut case = Case {
                trace: trace(&high, &before),
                ..case
            };
            case.trace.extend(of_counts(kind, [32767, 32767]));
            expect(list, &case, code, if code == 5 { 3 } else { 4 });
        }
    }
    for kind in [2, 3] {
        let mut case = Case::exact(PIC, rng);
        case.limit = 65535;
        let bytes = of_counts(kind, [1, 32768]);
        between(&mut case, &some_header(), 0, &bytes, rng);
        expect(list, &case, 5, 0);
    }
}

/// 6, after blocks that were finished: a sample of 1024 in the window of the third record, in each plane of
/// each list; then samples above 1023 here and there.
fn examined(list: &mut List, rng: &mut Rng) {
    let pic = [36, 28];
    let at = |place| Block {
        pic,
        place,
        side: [4, 4],
    };
    let zero = [[0; 2]; 2];
    let finished = [
        record(&at([0, 0]), 2, zero, [1, 2]),
        record(&at([4, 4]), 3, zero, [1, 2]),
    ];
    for plane in 0..6 {
        let chroma = plane % 3 > 0;
        let cfg = plane_config(chroma, pic[0] as usize, pic[1] as usize);
        let [x, y] = if chroma { [15, 11] } else { [31, 23] };
        let own = plane / 3;
        for (kind, poc, value, code) in [
            (own as u8, [1, 2], 1024, 6),
            (1 - own as u8, [1, 2], 1024, 0),
            (2 + plane as u8 % 2, [3, 3], 1024, 6),
        ] {
            let mut case = Case::exact(pic, rng);
            case.span = 1;
            case.set = Some(Set {
                plane,
                place: (cfg.yorigin + y) * cfg.stride + cfg.xorigin + x,
                value,
            });
            let records = [
                &finished[..],
                &[record(&at([28, 20]), kind, zero, poc)],
                &finished,
            ]
            .concat();
            case.trace = trace(&header(pic, 4, 1), &records);
            let is_refused = code == 6;
            expect(list, &case, code, if is_refused { 2 } else { 5 });
        }
    }
    for limit in [1026, 1026, 1027, 1030] {
        let mut case = Case::exact(pic, rng);
        case.limit = limit;
        case.padded = false;
        let header = header(pic, 4, 1);
        case.trace = trace(&header, &random_records(&case, &header, &KINDS, 24, rng));
        assert_eq!(push(list, &case).code, 6);
    }
}

/// Document 02, W2: counts "over the finished records, refused or not". Behind records whose vectors were moved,
/// and as the first, stands one whose vectors lead as far, accepted and refused by every number; others follow.
fn moved(list: &mut List, rng: &mut Rng) {
    let of = |kind, mv, poc| record(&some_block(), kind, mv, poc);
    let finished = [
        of(0, [[-2000, 2000]; 2], [1, 2]),
        of(1, [[-2000, -2000]; 2], [1, 2]),
        of(2, [[-2000, -2000], [-2000, 5]], [1, 2]),
        of(2, [[2000, 5], [3000, 5]], [7, 7]), // list 0 alone stands
        of(1, [[2000, 5]; 2], [1, 2]),
    ];
    let far = of(2, [[2000, 2000], [-2000, -2000]], [1, 2]);
    let faults: [(u32, fn(&mut Case, &mut Vec<u8>)); 6] = [
        (0, |_, _| ()),
        (11, |_, bytes| bytes.truncate(21)),
        (12, |_, bytes| bytes[LAST] = 1),
        (2, |_, bytes| bytes[4] = 12),
        (5, |_, bytes| bytes[POC0 + 1] = 128),
        (6, |case, _| {
            // where the window of no other record lies
            let cfg = plane_config(false, PIC[0] as usize, PIC[1] as usize);
            case.set = Some(Set {
                plane: 0,
                place: (cfg.yorigin + 16) * cfg.stride + cfg.xorigin + 24,
                value: 1024,
            });
        }),
    ];
    for (before, counts) in [(&finished[..], [4, 3, 2, 1]), (&[], [0; 4])] {
        for (code, fault) in &faults {
            let mut case = Case::exact(PIC, rng);
            let mut bytes = far.bytes();
            fault(&mut case, &mut bytes);
            case.trace = trace(&some_header(), before);
            case.trace.extend(&bytes);
            let mut want = Replay {
                code: *code,
                index: before.len() as u64,
                moved: counts,
            };
            if *code != 11 {
                case.trace.extend(finished[0].bytes());
            }
            if *code == 0 {
                want.index += 2;
                want.moved = [0, 1, 2, 3].map(|k| counts[k] + [2, 1, 1, 2][k]);
            }
            assert_eq!(push(list, &case), want);
        }
    }
}
