//! Reading a trace without predicting anything: plain Rust over the bytes, held to the proved calls by
//! tests/reader.rs.

use crate::plane::check_sides;
use crate::{EvcMv, EvcTraceRecord, Refusal, TraceRecord, TRACE_HEADER_LEN, TRACE_RECORD_LEN};
use std::iter::FusedIterator;

/// What a trace begins with: the letters IPT and version 1.
const MARK: [u8; 5] = *b"IPT\x01\0";

/// What a trace's header says of its picture. The default is all zeros, so it needs a size.
///
/// ```
/// use evc_inter::{TraceHeader, TraceReader, TraceWriter};
///
/// let trace = TraceWriter::new(Vec::new(), 416, 240, 4, 0)?.into_inner();
/// let header = TraceHeader { pic_w: 416, pic_h: 240, poc: 4, list_poc0: 0 };
/// assert_eq!(*TraceReader::new(&trace)?.header(), header);
/// # Ok::<(), std::io::Error>(())
/// ```
#[derive(Clone, Copy, Debug, Default, PartialEq, Eq, Hash)]
pub struct TraceHeader {
    /// Width of the picture, in luma samples.
    pub pic_w: u32,
    /// Height of the picture.
    pub pic_h: u32,
    /// Order count of the picture.
    pub poc: u16,
    /// Order count of the first picture in reference 1's own list 0; revc's `refp[1].list_poc[0]`.
    pub list_poc0: u16,
}

/// Reads a trace record by record, and ends after the first that it refuses.
///
/// Records are refused by 11 and 12, as [`replay`](crate::replay) refuses them; blocks, counts and
/// samples are not looked at.
///
/// ```
/// use evc_inter::{EvcBlock, Refusal, TraceReader, TraceRecord, TraceWriter};
///
/// let mut trace = TraceWriter::new(Vec::new(), 64, 32, 4, 0)?;
/// let block = EvcBlock { pic_w: 64, pic_h: 32, x: 16, y: 8, w: 8, h: 4 };
/// let record = TraceRecord::direct(block, 0, 8)?;
/// trace.record(record)?;
/// trace.record(record)?;
/// let trace = trace.into_inner();
///
/// let mut reader = TraceReader::new(&trace[..trace.len() - 1])?;
/// assert_eq!(reader.header().poc, 4);
/// assert_eq!(reader.next(), Some(Ok(record)));
/// assert_eq!(reader.next(), Some(Err(Refusal::Incomplete)));
/// assert_eq!(reader.next(), None);
/// # Ok::<(), std::io::Error>(())
/// ```
#[derive(Clone, Debug)]
pub struct TraceReader<'a> {
    header: TraceHeader,
    records: &'a [u8],
}

impl<'a> TraceReader<'a> {
    /// Reads the header. Refuses 11, 10, 1.
    ///
    /// ```
    /// use evc_inter::{Refusal, TraceReader};
    ///
    /// assert_eq!(TraceReader::new(b"IPT").unwrap_err(), Refusal::Incomplete);
    /// assert_eq!(TraceReader::new(b"YUV4MPEG2 W416 H240").unwrap_err(), Refusal::Mark);
    /// ```
    pub fn new(trace: &'a [u8]) -> Result<TraceReader<'a>, Refusal> {
        let split = trace.split_first_chunk::<TRACE_HEADER_LEN>();
        let (header, records) = split.ok_or(Refusal::Incomplete)?;
        if !header.starts_with(&MARK) {
            return Err(Refusal::Mark);
        }
        let header = TraceHeader {
            pic_w: number(header, 5).into(),
            pic_h: number(header, 7).into(),
            poc: number(header, 9),
            list_poc0: number(header, 11),
        };
        check_sides(header.pic_w, header.pic_h)?;
        Ok(TraceReader { header, records })
    }

    /// What the header says.
    pub fn header(&self) -> &TraceHeader {
        &self.header
    }
}

impl Iterator for TraceReader<'_> {
    type Item = Result<TraceRecord, Refusal>;

    fn next(&mut self) -> Option<Result<TraceRecord, Refusal>> {
        // Nothing is left after a refusal.
        let records = std::mem::take(&mut self.records);
        if records.is_empty() {
            return None;
        }
        let Some((bytes, behind)) = records.split_first_chunk() else {
            return Some(Err(Refusal::Incomplete));
        };
        let record = match EvcTraceRecord::from_bytes(bytes) {
            (fields, 0) => TraceRecord::try_from(fields),
            _ => Err(Refusal::Record),
        };
        if record.is_ok() {
            self.records = behind;
        }
        Some(record)
    }
}

impl FusedIterator for TraceReader<'_> {}

impl EvcTraceRecord {
    /// The fields of a record's bytes, whatever they hold, and the byte behind them, which is due to be
    /// zero.
    ///
    /// ```
    /// use evc_inter::{EvcMv, EvcTraceRecord};
    ///
    /// let bytes = b"\x10\0\0\0\x08\0\x04\0\x01\0\0\0\0\xfe\xff\x2c\x01\0\0\x08\0\0";
    /// let (record, last) = EvcTraceRecord::from_bytes(bytes);
    /// let mv1 = EvcMv { x: -2, y: 300 };
    /// let want = EvcTraceRecord { x: 16, w: 8, h: 4, kind: 1, mv1, poc1: 8, ..Default::default() };
    /// assert_eq!((record, last), (want, 0));
    /// ```
    pub fn from_bytes(bytes: &[u8; TRACE_RECORD_LEN]) -> (EvcTraceRecord, u8) {
        let mv = |at| EvcMv {
            x: number(bytes, at) as i16,
            y: number(bytes, at + 2) as i16,
        };
        let record = EvcTraceRecord {
            x: number(bytes, 0),
            y: number(bytes, 2),
            w: number(bytes, 4),
            h: number(bytes, 6),
            kind: bytes[8],
            mv0: mv(9),
            mv1: mv(13),
            poc0: number(bytes, 17),
            poc1: number(bytes, 19),
        };
        (record, bytes[21])
    }
}

/// The number at this place, low byte first.
fn number(bytes: &[u8], at: usize) -> u16 {
    u16::from_le_bytes([bytes[at], bytes[at + 1]])
}
