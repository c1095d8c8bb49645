//! Traces as bytes: written by hand, damaged, and asked for their blocks.

pub const HEADER: usize = 13;
pub const RECORD: usize = 22;

/// A record's fields in their order.
pub struct Record {
    /// x, y, w, h.
    pub block: [u16; 4],
    pub kind: u8,
    /// Of list 0 and list 1, across and down.
    pub mv: [i16; 4],
    pub poc: [u16; 2],
}

pub fn written(sides: (u16, u16), poc: u16, list_poc0: u16, records: &[Record]) -> Vec<u8> {
    let mut trace = b"IPT\x01\0".to_vec();
    let low_first =
        |numbers: &[u16]| -> Vec<u8> { numbers.iter().flat_map(|n| n.to_le_bytes()).collect() };
    trace.extend(low_first(&[sides.0, sides.1, poc, list_poc0]));
    for record in records {
        trace.extend(low_first(&record.block));
        trace.push(record.kind);
        trace.extend(low_first(&record.mv.map(|n| n as u16)));
        trace.extend(low_first(&record.poc));
        trace.push(0);
    }
    trace
}

/// How many records a trace has.
pub fn records(trace: &[u8]) -> usize {
    (trace.len() - HEADER) / RECORD
}

/// Where record `k` begins.
pub fn place(k: usize) -> usize {
    HEADER + k * RECORD
}

/// x, y, w and h of record `k`.
pub fn block(trace: &[u8], k: usize) -> [usize; 4] {
    let at = place(k);
    [0, 2, 4, 6].map(|n| u16::from_le_bytes([trace[at + n], trace[at + n + 1]]).into())
}

/// How many records are direct: their vectors come from a motion map.
pub fn direct(trace: &[u8]) -> usize {
    (0..records(trace))
        .filter(|k| trace[place(*k) + 8] == 3)
        .count()
}

/// The trace with the kind of record `k` changed to one that there is not.
pub fn damaged(trace: &[u8], k: usize) -> Vec<u8> {
    let mut trace = trace.to_vec();
    trace[place(k) + 8] = 7;
    trace
}
