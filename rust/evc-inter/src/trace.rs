//! Traces: what a decoder asked for while it predicted a picture, kept and replayed.

use crate::ffi;
use crate::{evc_get_mv_dir, evc_trace_replay, evc_trace_write_header, evc_trace_write_record};
use crate::{EvcBlock, EvcList, EvcMv, EvcTraceRecord, MovedCounts};
use crate::{PaddedPicture, Picture, Refusal, TraceHeader, TraceReader};
use std::error::Error;
use std::{fmt, io};

/// Bytes of a trace's header.
///
/// ```
/// let trace = evc_inter::TraceWriter::new(Vec::new(), 416, 240, 4, 0)?.into_inner();
/// assert_eq!(trace.len(), evc_inter::TRACE_HEADER_LEN);
/// # Ok::<(), std::io::Error>(())
/// ```
pub const TRACE_HEADER_LEN: usize = 13;

/// Bytes of a record behind it.
///
/// ```
/// use evc_inter::{TRACE_HEADER_LEN, TRACE_RECORD_LEN};
///
/// let place_of_record = |n| TRACE_HEADER_LEN + n * TRACE_RECORD_LEN;
/// assert_eq!(place_of_record(1), 35);
/// ```
pub const TRACE_RECORD_LEN: usize = 22;

/// A block of a trace and where its prediction comes from. Every one can be written: what an
/// [`EvcTraceRecord`] is refused for with 12 cannot be said here.
///
/// ```
/// use evc_inter::{EvcMv, EvcTraceRecord, TraceMotion, TraceRecord};
///
/// let motion = TraceMotion::List1 { mv: EvcMv { x: 5, y: -2 }, poc: 8 };
/// let record = EvcTraceRecord::from(TraceRecord { x: 16, y: 0, w: 8, h: 4, motion });
/// assert_eq!((record.kind, record.mv1, record.poc1), (1, EvcMv { x: 5, y: -2 }, 8));
/// assert_eq!((record.mv0, record.poc0), (EvcMv::default(), 0)); // list 0 is not in use
/// ```
#[derive(Clone, Copy, Debug, PartialEq, Eq, Hash)]
pub struct TraceRecord {
    /// Left edge of the block, in luma samples.
    pub x: u16,
    /// Upper edge of the block.
    pub y: u16,
    /// Width of the block.
    pub w: u16,
    /// Height of the block.
    pub h: u16,
    /// Lists, vectors and counts.
    pub motion: TraceMotion,
}

/// The four kinds of a record, each with the fields that it has.
///
/// ```
/// use evc_inter::{EvcMv, TraceMotion};
///
/// /// How many lists a record uses.
/// fn lists(motion: &TraceMotion) -> u32 {
///     match motion {
///         TraceMotion::List0 { .. } | TraceMotion::List1 { .. } => 1,
///         TraceMotion::Both { .. } | TraceMotion::Direct { .. } => 2,
///     }
/// }
/// assert_eq!(lists(&TraceMotion::List0 { mv: EvcMv { x: 5, y: -2 }, poc: 8 }), 1);
/// ```
#[derive(Clone, Copy, Debug, PartialEq, Eq, Hash)]
pub enum TraceMotion {
    /// Kind 0: list 0 alone.
    List0 {
        /// The vector, as decoded.
        mv: EvcMv,
        /// Order count of the reference.
        poc: u16,
    },
    /// Kind 1: list 1 alone.
    List1 {
        /// The vector, as decoded.
        mv: EvcMv,
        /// Order count of the reference.
        poc: u16,
    },
    /// Kind 2: both lists.
    Both {
        /// The vectors of list 0 and list 1, as decoded.
        mv: [EvcMv; 2],
        /// Order counts of their references.
        poc: [u16; 2],
    },
    /// Kind 3: both lists, with the vectors that [`evc_get_mv_dir`](crate::evc_get_mv_dir) gives.
    Direct {
        /// Order counts of the references.
        poc: [u16; 2],
    },
}

/// A count as wide as a trace has it; one that is wider is above the calls' limit too.
fn poc16(poc: u32) -> Result<u16, Refusal> {
    u16::try_from(poc).map_err(|_| Refusal::OrderCount)
}

impl TraceRecord {
    /// The record of an [`evc_mc2`](crate::evc_mc2) call, from the block and the lists given to it.
    ///
    /// Refuses what the call refuses too and a record has no room for, by the call's numbers and in
    /// their order: 2 for a place or side above 65,535, 3 where no list is in use, 5 for a count
    /// above 65,535 of a list in use. All else is kept, whether the call takes it or not; replay
    /// then refuses it again. The picture's size is not kept: it is the header's.
    ///
    /// ```
    /// use evc_inter::{EvcBlock, EvcList, EvcMv, Refusal, TraceMotion, TraceRecord};
    ///
    /// let block = EvcBlock { pic_w: 64, pic_h: 32, x: 16, y: 8, w: 8, h: 4 };
    /// let list0 = EvcList { used: true, mv: EvcMv { x: 2, y: 0 }, poc: 3 };
    /// let record = TraceRecord::from_lists(block, list0, EvcList::default())?;
    /// assert_eq!((record.x, record.y, record.w, record.h), (16, 8, 8, 4));
    /// assert_eq!(record.motion, TraceMotion::List0 { mv: list0.mv, poc: 3 });
    ///
    /// let none = EvcList::default();
    /// assert_eq!(TraceRecord::from_lists(block, none, none), Err(Refusal::List));
    /// let late = EvcList { poc: 65536, ..list0 };
    /// assert_eq!(TraceRecord::from_lists(block, late, none), Err(Refusal::OrderCount));
    /// # Ok::<(), Refusal>(())
    /// ```
    pub fn from_lists(
        block: EvcBlock,
        list0: EvcList,
        list1: EvcList,
    ) -> Result<TraceRecord, Refusal> {
        TraceRecord::of(block, || match (list0.used, list1.used) {
            (false, false) => Err(Refusal::List),
            (true, false) => Ok(TraceMotion::List0 {
                mv: list0.mv,
                poc: poc16(list0.poc)?,
            }),
            (false, true) => Ok(TraceMotion::List1 {
                mv: list1.mv,
                poc: poc16(list1.poc)?,
            }),
            (true, true) => Ok(TraceMotion::Both {
                mv: [list0.mv, list1.mv],
                poc: [poc16(list0.poc)?, poc16(list1.poc)?],
            }),
        })
    }

    /// The record of a block in direct mode, from the counts of its two references. Replay takes
    /// its vectors from the collocated map again.
    ///
    /// Refuses 2, 5, as [`from_lists`](TraceRecord::from_lists).
    ///
    /// ```
    /// use evc_inter::{EvcBlock, Refusal, TraceMotion, TraceRecord};
    ///
    /// let block = EvcBlock { pic_w: 64, pic_h: 32, x: 16, y: 8, w: 8, h: 4 };
    /// let record = TraceRecord::direct(block, 0, 8)?;
    /// assert_eq!(record.motion, TraceMotion::Direct { poc: [0, 8] });
    /// let outside = EvcBlock { x: 65536, ..block };
    /// assert_eq!(TraceRecord::direct(outside, 0, 8), Err(Refusal::Block));
    /// # Ok::<(), Refusal>(())
    /// ```
    pub fn direct(block: EvcBlock, poc0: u32, poc1: u32) -> Result<TraceRecord, Refusal> {
        TraceRecord::of(block, || {
            let poc = [poc16(poc0)?, poc16(poc1)?];
            Ok(TraceMotion::Direct { poc })
        })
    }

    /// The block, in the picture of the trace's header.
    ///
    /// ```
    /// use evc_inter::{EvcBlock, Refusal, TraceHeader, TraceRecord};
    ///
    /// let header = TraceHeader { pic_w: 64, pic_h: 32, poc: 4, list_poc0: 0 };
    /// let block = EvcBlock { pic_w: 64, pic_h: 32, x: 16, y: 8, w: 8, h: 4 };
    /// assert_eq!(TraceRecord::direct(block, 0, 8)?.block(&header), block);
    /// # Ok::<(), Refusal>(())
    /// ```
    pub fn block(&self, header: &TraceHeader) -> EvcBlock {
        let TraceHeader { pic_w, pic_h, .. } = *header;
        let [x, y, w, h] = [self.x, self.y, self.w, self.h].map(u32::from);
        EvcBlock {
            pic_w,
            pic_h,
            x,
            y,
            w,
            h,
        }
    }

    /// The lists, as [`evc_mc2`](crate::evc_mc2) gets them. Those of a direct record have the vectors
    /// that [`evc_get_mv_dir`] gives, which refuses 1, 2, 4, 5; no other record is refused.
    ///
    /// `col_mv` is the motion map of reference 1, or `None` if it has none.
    ///
    /// ```
    /// use evc_inter::{EvcBlock, EvcMv, Refusal, TraceHeader, TraceRecord};
    ///
    /// let header = TraceHeader { pic_w: 4, pic_h: 4, poc: 4, list_poc0: 0 };
    /// let block = EvcBlock { pic_w: 4, pic_h: 4, x: 0, y: 0, w: 4, h: 4 };
    /// let direct = TraceRecord::direct(block, 0, 8)?;
    /// let lists = direct.lists(&header, Some(&[7, -7, 0, 0]))?;
    /// assert_eq!(lists.map(|list| list.mv), [EvcMv { x: 3, y: -3 }, EvcMv { x: -3, y: 3 }]);
    /// assert_eq!(lists.map(|list| (list.used, list.poc)), [(true, 0), (true, 8)]);
    /// assert_eq!(direct.lists(&header, Some(&[])), Err(Refusal::Buffer));
    /// # Ok::<(), Refusal>(())
    /// ```
    pub fn lists(
        &self,
        header: &TraceHeader,
        col_mv: Option<&[i16]>,
    ) -> Result<[EvcList; 2], Refusal> {
        let list = |mv, poc: u16| EvcList {
            used: true,
            mv,
            poc: poc.into(),
        };
        let none = EvcList::default();
        Ok(match self.motion {
            TraceMotion::List0 { mv, poc } => [list(mv, poc), none],
            TraceMotion::List1 { mv, poc } => [none, list(mv, poc)],
            TraceMotion::Both { mv, poc } => [list(mv[0], poc[0]), list(mv[1], poc[1])],
            TraceMotion::Direct { poc } => {
                let counts = [header.poc, poc[0], poc[1], header.list_poc0];
                let [current, poc0, poc1, list_poc0] = counts.map(u32::from);
                let block = self.block(header);
                let mv = evc_get_mv_dir(block, current, poc0, poc1, list_poc0, col_mv)?;
                [list(mv[0], poc[0]), list(mv[1], poc[1])]
            }
        })
    }

    /// The block's refusal comes first, as in the calls.
    fn of(
        block: EvcBlock,
        motion: impl FnOnce() -> Result<TraceMotion, Refusal>,
    ) -> Result<TraceRecord, Refusal> {
        let [x, y, w, h] = [block.x, block.y, block.w, block.h]
            .map(|n| u16::try_from(n).map_err(|_| Refusal::Block));
        Ok(TraceRecord {
            x: x?,
            y: y?,
            w: w?,
            h: h?,
            motion: motion()?,
        })
    }
}

impl From<TraceRecord> for EvcTraceRecord {
    fn from(record: TraceRecord) -> EvcTraceRecord {
        let TraceRecord { x, y, w, h, motion } = record;
        let zero = EvcMv::default();
        let (kind, [mv0, mv1], [poc0, poc1]) = match motion {
            TraceMotion::List0 { mv, poc } => (0, [mv, zero], [poc, 0]),
            TraceMotion::List1 { mv, poc } => (1, [zero, mv], [0, poc]),
            TraceMotion::Both { mv, poc } => (2, mv, poc),
            TraceMotion::Direct { poc } => (3, [zero; 2], poc),
        };
        EvcTraceRecord {
            x,
            y,
            w,
            h,
            kind,
            mv0,
            mv1,
            poc0,
            poc1,
        }
    }
}

/// Refuses 12 where [`evc_trace_write_record`] does: a kind above 3, or a nonzero field that its kind
/// does not have.
///
/// ```
/// use evc_inter::{EvcTraceRecord, Refusal, TraceMotion, TraceRecord};
///
/// let fields = EvcTraceRecord { x: 16, w: 8, h: 4, kind: 3, poc1: 8, ..Default::default() };
/// let record = TraceRecord::try_from(fields)?;
/// assert_eq!(record.motion, TraceMotion::Direct { poc: [0, 8] });
/// let list0 = EvcTraceRecord { kind: 0, ..fields }; // which has no count of list 1
/// assert_eq!(TraceRecord::try_from(list0), Err(Refusal::Record));
/// # Ok::<(), Refusal>(())
/// ```
impl TryFrom<EvcTraceRecord> for TraceRecord {
    type Error = Refusal;

    fn try_from(fields: EvcTraceRecord) -> Result<TraceRecord, Refusal> {
        let EvcTraceRecord { x, y, w, h, .. } = fields;
        let mv = [fields.mv0, fields.mv1];
        let poc = [fields.poc0, fields.poc1];
        let motion = match fields.kind {
            0 => TraceMotion::List0 {
                mv: mv[0],
                poc: poc[0],
            },
            1 => TraceMotion::List1 {
                mv: mv[1],
                poc: poc[1],
            },
            2 => TraceMotion::Both { mv, poc },
            3 => TraceMotion::Direct { poc },
            _ => return Err(Refusal::Record),
        };
        let record = TraceRecord { x, y, w, h, motion };
        // A field that the kind does not have comes back as zero.
        match EvcTraceRecord::from(record) == fields {
            true => Ok(record),
            false => Err(Refusal::Record),
        }
    }
}

/// Writes a trace: the header, then a record for each predicted block.
///
/// `out` may be a `Vec<u8>` or a file. A file wants a [`BufWriter`](io::BufWriter) around it, since
/// records are small, and a [`flush`](io::Write::flush) at the end, which tells whether all went
/// out. After an error of `out` the trace may end inside a record.
///
/// ```
/// use evc_inter::{EvcBlock, TraceRecord, TraceWriter, TRACE_HEADER_LEN, TRACE_RECORD_LEN};
/// use std::io::Write;
///
/// let mut trace = TraceWriter::new(std::io::BufWriter::new(Vec::new()), 64, 32, 4, 0)?;
/// let block = EvcBlock { pic_w: 64, pic_h: 32, x: 16, y: 8, w: 8, h: 4 };
/// trace.record(TraceRecord::direct(block, 0, 8)?)?;
/// assert_eq!(trace.records(), 1);
///
/// let mut file = trace.into_inner();
/// file.flush()?;
/// assert_eq!(file.get_ref().len(), TRACE_HEADER_LEN + TRACE_RECORD_LEN);
/// # Ok::<(), std::io::Error>(())
/// ```
#[derive(Debug)]
pub struct TraceWriter<W> {
    out: W,
    pic_w: u32,
    pic_h: u32,
    records: u64,
}

impl<W: io::Write> TraceWriter<W> {
    /// Writes the header: the picture's size, its order count `poc`, and `list_poc0`, the order count of
    /// the first picture in reference 1's own list 0 (revc's `refp[1].list_poc[0]`; 0 where no block is
    /// direct).
    ///
    /// Fails with [`Refusal::Picture`] inside for a side that no call takes, with
    /// [`Refusal::OrderCount`] for a count above 65,535; nothing is written then. [`Refusal::of`] finds
    /// what is inside.
    ///
    /// ```
    /// use evc_inter::{Refusal, TraceWriter};
    ///
    /// let trace = TraceWriter::new(Vec::new(), 416, 240, 4, 0)?;
    /// assert_eq!(trace.get_ref()[..5], *b"IPT\x01\0");
    ///
    /// let error = TraceWriter::new(Vec::new(), 416, 239, 4, 0).unwrap_err();
    /// assert_eq!(Refusal::of(&error), Some(Refusal::Picture));
    /// # Ok::<(), std::io::Error>(())
    /// ```
    pub fn new(
        out: W,
        pic_w: u32,
        pic_h: u32,
        poc: u32,
        list_poc0: u32,
    ) -> io::Result<TraceWriter<W>> {
        let header = TraceHeader {
            pic_w,
            pic_h,
            poc: poc16(poc)?,
            list_poc0: poc16(list_poc0)?,
        };
        TraceWriter::with_header(out, &header)
    }

    /// [`new`](TraceWriter::new) with the numbers of a header, that of a [`TraceReader`] say.
    ///
    /// ```
    /// use evc_inter::{TraceHeader, TraceReader, TraceWriter};
    ///
    /// let header = TraceHeader { pic_w: 416, pic_h: 240, poc: 4, ..Default::default() };
    /// let trace = TraceWriter::with_header(Vec::new(), &header)?.into_inner();
    /// let reader = TraceReader::new(&trace)?;
    /// assert_eq!(*reader.header(), header);
    ///
    /// let mut shorter = TraceWriter::with_header(Vec::new(), reader.header())?;
    /// for record in reader.take(100) {
    ///     shorter.record(record?)?;
    /// }
    /// assert_eq!(shorter.into_inner(), trace); // it has no record
    /// # Ok::<(), std::io::Error>(())
    /// ```
    pub fn with_header(mut out: W, header: &TraceHeader) -> io::Result<TraceWriter<W>> {
        let TraceHeader {
            pic_w,
            pic_h,
            poc,
            list_poc0,
        } = *header;
        let mut bytes = [0; TRACE_HEADER_LEN];
        evc_trace_write_header(pic_w, pic_h, poc, list_poc0, &mut bytes)?;
        out.write_all(&bytes)?;
        Ok(TraceWriter {
            out,
            pic_w,
            pic_h,
            records: 0,
        })
    }

    /// Writes a record.
    pub fn record(&mut self, record: TraceRecord) -> io::Result<()> {
        let mut bytes = [0; TRACE_RECORD_LEN];
        evc_trace_write_record(self.pic_w, self.pic_h, record.into(), &mut bytes)?;
        self.out.write_all(&bytes)?;
        self.records += 1;
        Ok(())
    }
}

impl<W> TraceWriter<W> {
    /// How many records have been written.
    pub fn records(&self) -> u64 {
        self.records
    }

    /// What is written to.
    pub fn get_ref(&self) -> &W {
        &self.out
    }

    /// What is written to, to be flushed say. Bytes that are written to it by hand are part of the trace.
    ///
    /// ```
    /// use evc_inter::TraceWriter;
    /// use std::io::Write;
    ///
    /// let mut trace = TraceWriter::new(std::io::BufWriter::new(Vec::new()), 64, 32, 4, 0)?;
    /// assert!(trace.get_ref().get_ref().is_empty());
    /// trace.get_mut().flush()?;
    /// assert_eq!(trace.get_ref().get_ref().len(), 13);
    /// # Ok::<(), std::io::Error>(())
    /// ```
    pub fn get_mut(&mut self) -> &mut W {
        &mut self.out
    }

    /// What was written to, for the trace is at its end. Nothing is flushed.
    pub fn into_inner(self) -> W {
        self.out
    }
}

/// How far a replay came. It is not a `Result`: also where a record was refused, the target has the
/// blocks before it.
///
/// It reads as a line for the item's note; [`result`](Replay::result) is for `?`.
///
/// ```
/// use evc_inter::{replay, Picture, TraceWriter};
///
/// let reference = Picture::new(16, 8)?.pad()?;
/// let mut target = Picture::new(16, 8)?;
/// let trace = TraceWriter::new(Vec::new(), 16, 8, 4, 0)?.into_inner();
/// let replayed = replay(&trace, [&reference; 2], None, &mut target);
/// assert_eq!((replayed.finished, replayed.refusal), (0, None));
/// assert_eq!(replayed.to_string(), "0 records finished");
/// # Ok::<(), std::io::Error>(())
/// ```
///
/// Where clipping has moved a vector, the line says so too:
///
/// ```
/// use evc_inter::{replay, EvcBlock, EvcList, EvcMv, Picture, TraceRecord, TraceWriter};
///
/// let reference = Picture::new(16, 8)?.pad()?;
/// let mut target = Picture::new(16, 8)?;
/// let mut trace = TraceWriter::new(Vec::new(), 16, 8, 4, 0)?;
/// let block = EvcBlock { pic_w: 16, pic_h: 8, x: 8, y: 0, w: 8, h: 8 };
/// let list0 = EvcList { used: true, mv: EvcMv { x: -300, y: 300 }, poc: 0 };
/// trace.record(TraceRecord::from_lists(block, list0, EvcList::default())?)?;
/// let replayed = replay(trace.get_ref(), [&reference; 2], None, &mut target);
/// assert_eq!((replayed.moved.across_low, replayed.moved.down_high), (1, 1));
/// let line = "1 record finished; 2 components of vectors were clipped: \
///             across 1 low, 0 high, down 0 low, 1 high";
/// assert_eq!(replayed.to_string(), line);
/// # Ok::<(), std::io::Error>(())
/// ```
#[must_use]
#[non_exhaustive]
#[derive(Clone, Copy, Debug, PartialEq, Eq)]
pub struct Replay {
    /// How many records, from the first on, have their blocks in the target.
    pub finished: u64,
    /// Why the next one was refused, or the trace before its first record; none if all went through.
    pub refusal: Option<Refusal>,
    /// How many components of vectors clipping has moved in the finished records, of both lists; also
    /// where the next record was refused.
    pub moved: MovedCounts,
    before_first: bool,
}

impl Replay {
    /// What the C call returned for a trace of `len` bytes.
    pub(crate) fn new(returned: ffi::EvcReplay, len: usize) -> Replay {
        let refusal = Refusal::check(returned.code).err();
        let before_first = match refusal {
            Some(Refusal::Mark | Refusal::Picture | Refusal::Buffer) => true,
            Some(Refusal::Incomplete) => len < TRACE_HEADER_LEN,
            _ => false,
        };
        Replay {
            finished: returned.index,
            refusal,
            moved: MovedCounts::new(&returned),
            before_first,
        }
    }

    /// The number of records, or what was refused. Either way the target has the blocks of the
    /// finished records.
    ///
    /// ```
    /// use evc_inter::{replay, Picture, Refusal, TraceWriter};
    ///
    /// let reference = Picture::new(64, 32)?.pad()?;
    /// let mut target = Picture::new(64, 32)?;
    /// let mut trace = TraceWriter::new(Vec::new(), 64, 32, 4, 0)?.into_inner();
    /// trace[0] = b'J';
    /// let replayed = replay(&trace, [&reference; 2], None, &mut target);
    /// let error = replayed.result().unwrap_err();
    /// assert_eq!((error.record, error.refusal), (None, Refusal::Mark));
    /// assert!(error.to_string().starts_with("before the first record: refused (10): "));
    /// # Ok::<(), std::io::Error>(())
    /// ```
    pub fn result(self) -> Result<u64, ReplayError> {
        match self.refusal {
            None => Ok(self.finished),
            Some(refusal) => Err(ReplayError {
                record: (!self.before_first).then_some(self.finished),
                refusal,
            }),
        }
    }
}

impl fmt::Display for Replay {
    fn fmt(&self, f: &mut fmt::Formatter<'_>) -> fmt::Result {
        match self.finished {
            1 => write!(f, "1 record finished")?,
            n => write!(f, "{n} records finished")?,
        }
        match self.moved.total() {
            0 => {}
            1 => write!(f, "; 1 component of a vector was clipped: {}", self.moved)?,
            n => write!(
                f,
                "; {n} components of vectors were clipped: {}",
                self.moved
            )?,
        }
        match self.result() {
            Ok(_) => Ok(()),
            Err(error) => write!(f, "; {error}"),
        }
    }
}

/// Where and why a replay stopped. By `?` it becomes a [`Refusal`], without the place, or an
/// [`io::Error`], with it.
///
/// ```
/// use evc_inter::{replay, Picture, Refusal, TraceWriter};
///
/// let reference = Picture::new(16, 8)?.pad()?;
/// let mut target = Picture::new(16, 8)?;
/// let mut trace = TraceWriter::new(Vec::new(), 16, 8, 4, 0)?.into_inner();
/// trace.push(0); // a record that is cut off
/// let error = replay(&trace, [&reference; 2], None, &mut target).result().unwrap_err();
/// assert_eq!((error.record, error.refusal), (Some(0), Refusal::Incomplete));
/// assert!(error.to_string().starts_with("record 0: refused (11): "));
/// assert_eq!(Refusal::from(error), Refusal::Incomplete);
/// let error = std::io::Error::from(error);
/// assert!(error.to_string().starts_with("record 0: refused (11): "));
/// assert_eq!(Refusal::of(&error), Some(Refusal::Incomplete));
/// # Ok::<(), std::io::Error>(())
/// ```
#[non_exhaustive]
#[derive(Clone, Copy, Debug, PartialEq, Eq)]
pub struct ReplayError {
    /// The record refused, counted from 0; none if it was the trace before its first record.
    pub record: Option<u64>,
    /// Why.
    pub refusal: Refusal,
}

impl fmt::Display for ReplayError {
    fn fmt(&self, f: &mut fmt::Formatter<'_>) -> fmt::Result {
        match self.record {
            Some(record) => write!(f, "record {record}: {}", self.refusal),
            None => write!(f, "before the first record: {}", self.refusal),
        }
    }
}

/// The source is the refusal, which [`Refusal::of`] finds.
impl Error for ReplayError {
    fn source(&self) -> Option<&(dyn Error + 'static)> {
        Some(&self.refusal)
    }
}

impl From<ReplayError> for Refusal {
    fn from(error: ReplayError) -> Refusal {
        error.refusal
    }
}

/// As a [`Refusal`] becomes one, with the replay's error inside.
impl From<ReplayError> for io::Error {
    fn from(error: ReplayError) -> io::Error {
        io::Error::new(io::ErrorKind::InvalidInput, error)
    }
}

/// Replays a trace: [`evc_trace_replay`] over pictures.
///
/// The references are those of the trace's counts; `col_mv` is the motion map of the second, or `None`
/// if it has none. The target's borders stay as they are. A picture of another size than
/// the header's is refused with 4, also a larger one, whose rows do not lie where the header says.
///
/// ```
/// use evc_inter::{replay, EvcBlock, Picture, Refusal, TraceRecord, TraceWriter};
///
/// let [mut reference, mut target] = [Picture::new(16, 8)?, Picture::new(16, 8)?];
/// for plane in &mut reference.planes {
///     plane.rows_mut().for_each(|row| row.fill(300));
/// }
/// let reference = reference.pad()?;
/// let mut trace = TraceWriter::new(Vec::new(), 16, 8, 4, 0)?;
/// let block = EvcBlock { pic_w: 16, pic_h: 8, x: 0, y: 0, w: 8, h: 8 };
/// trace.record(TraceRecord::direct(block, 0, 8)?)?;
/// trace.record(TraceRecord::direct(EvcBlock { x: 12, ..block }, 0, 8)?)?; // reaches past the picture
///
/// let replayed = replay(trace.get_ref(), [&reference; 2], None, &mut target);
/// assert_eq!((replayed.finished, replayed.refusal), (1, Some(Refusal::Block)));
/// assert!(replayed.to_string().starts_with("1 record finished; record 1: refused (2): "));
/// assert_eq!(target.planes[0].row(0)[7..9], [300, 0]); // the first block is there
/// # Ok::<(), std::io::Error>(())
/// ```
pub fn replay(
    trace: &[u8],
    references: [&PaddedPicture; 2],
    col_mv: Option<&[i16]>,
    target: &mut Picture,
) -> Replay {
    // Without a header that can be read the call refuses before it looks at the pictures.
    let sides = TraceReader::new(trace).ok().map(|trace| {
        let TraceHeader { pic_w, pic_h, .. } = *trace.header();
        (pic_w, pic_h)
    });
    let [planes0, planes1] = references.map(|picture| picture.samples_for(sides));
    let fits = sides.is_some_and(|sides| target.misfit(sides).is_none());
    let planes = match fits {
        true => target.samples_mut(),
        false => Default::default(),
    };
    evc_trace_replay(trace, planes0, planes1, col_mv, planes)
}
