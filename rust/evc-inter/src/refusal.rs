//! Why a call was refused.

use std::error::Error;
use std::{fmt, io};

/// The numbers of document 01's table and, from 10 on, of document 02. A call that returns one has
/// written nothing; only a replay keeps the blocks before the record that it refuses, as
/// [`Replay`](crate::Replay) says.
///
/// The message is for whoever looks after the item: what was found, and where to look.
///
/// ```
/// use evc_inter::{EvcBlock, EvcMv, Refusal};
///
/// let block = EvcBlock { pic_w: 720, pic_h: 575, x: 0, y: 0, w: 16, h: 16 };
/// let refusal = evc_inter::evc_mv_clip(block, EvcMv { x: 0, y: 0 }).unwrap_err();
/// assert_eq!(refusal, Refusal::Picture);
/// assert_eq!(refusal.number(), 1);
/// assert!(refusal.to_string().starts_with("refused (1): picture width or height"));
/// ```
///
/// Refusals are ordered by their numbers. Later requests may add numbers, so a `match` needs an arm for
/// those.
#[non_exhaustive]
#[derive(Clone, Copy, Debug, PartialEq, Eq, PartialOrd, Ord, Hash)]
#[repr(u32)]
pub enum Refusal {
    /// A picture side is not allowed.
    Picture = 1,
    /// A block side, place or extent is not allowed.
    Block = 2,
    /// No list is in use; or a list number is neither 0 nor 1.
    List = 3,
    /// A buffer that is needed is too short.
    Buffer = 4,
    /// An order count in use exceeds 32,767.
    OrderCount = 5,
    /// A sample above 1023 is among those examined.
    Sample = 6,
    /// A flag names a neighbour outside the picture.
    Neighbour = 7,
    /// What is replayed is no trace, or one of another version.
    Mark = 10,
    /// A trace ends inside its header or inside a record.
    Incomplete = 11,
    /// A record has a kind above 3, or a nonzero field that is due to be zero.
    Record = 12,
    /// A slice number exceeds 127.
    Slice = 13,
}

impl Refusal {
    /// Every refusal, in rising number.
    ///
    /// ```
    /// use evc_inter::Refusal;
    ///
    /// for refusal in Refusal::ALL {
    ///     println!("{}: {refusal}", refusal.number());
    /// }
    /// assert!(Refusal::ALL.contains(&Refusal::Sample));
    /// ```
    pub const ALL: &'static [Refusal] = &[
        Refusal::Picture,
        Refusal::Block,
        Refusal::List,
        Refusal::Buffer,
        Refusal::OrderCount,
        Refusal::Sample,
        Refusal::Neighbour,
        Refusal::Mark,
        Refusal::Incomplete,
        Refusal::Record,
        Refusal::Slice,
    ];

    /// The number of the documents, as the C call returns it.
    ///
    /// ```
    /// assert_eq!(evc_inter::Refusal::Sample.number(), 6);
    /// ```
    pub fn number(self) -> u32 {
        self as u32
    }

    /// The refusal inside an error: a refusal itself, a [`PadError`](crate::PadError), a
    /// [`ReplayError`](crate::ReplayError), an [`io::Error`] made from one of these, or any other error
    /// that has one of them among its sources. `None` for a full disk, say.
    ///
    /// ```
    /// use evc_inter::{Refusal, TraceWriter};
    ///
    /// let error = TraceWriter::new(Vec::new(), 416, 239, 4, 0).unwrap_err();
    /// assert_eq!(Refusal::of(&error), Some(Refusal::Picture));
    ///
    /// let full = TraceWriter::new(&mut [0; 12][..], 416, 240, 4, 0).unwrap_err();
    /// assert_eq!(Refusal::of(&full), None);
    /// ```
    pub fn of(error: &(dyn Error + 'static)) -> Option<Refusal> {
        if let Some(refusal) = error.downcast_ref() {
            return Some(*refusal);
        }
        let inside = match error.downcast_ref::<io::Error>() {
            // Its source is that of the error inside, which is passed over.
            Some(error) => error.get_ref().map(|inside| inside as _),
            None => error.source(),
        };
        inside.and_then(Refusal::of)
    }

    /// What a C call returned; 0 is done.
    pub(crate) fn check(code: u32) -> Result<(), Refusal> {
        if code == 0 {
            return Ok(());
        }
        match Refusal::try_from(code) {
            Ok(refusal) => Err(refusal),
            Err(UnknownRefusal(code)) => unreachable!("the contracts allow no {code}"),
        }
    }
}

/// A number that a C call returned, or that a note has, as a refusal. 0 is no refusal: it is done.
///
/// ```
/// use evc_inter::{Refusal, UnknownRefusal};
///
/// assert_eq!(Refusal::try_from(6), Ok(Refusal::Sample));
/// assert_eq!(Refusal::try_from(0), Err(UnknownRefusal(0)));
/// ```
impl TryFrom<u32> for Refusal {
    type Error = UnknownRefusal;

    fn try_from(number: u32) -> Result<Refusal, UnknownRefusal> {
        let mut all = Refusal::ALL.iter().copied();
        all.find(|refusal| refusal.number() == number)
            .ok_or(UnknownRefusal(number))
    }
}

/// [`number`](Refusal::number), for what takes any number.
///
/// ```
/// use evc_inter::Refusal;
///
/// assert_eq!(u32::from(Refusal::Record), 12);
/// assert_eq!(Refusal::try_from(u32::from(Refusal::Mark)), Ok(Refusal::Mark));
/// ```
impl From<Refusal> for u32 {
    fn from(refusal: Refusal) -> u32 {
        refusal.number()
    }
}

/// A number that no refusal has.
///
/// ```
/// let error = evc_inter::Refusal::try_from(8).unwrap_err();
/// assert_eq!(error.to_string(), "no refusal has the number 8");
/// ```
#[derive(Clone, Copy, Debug, PartialEq, Eq, Hash)]
pub struct UnknownRefusal(pub u32);

impl fmt::Display for UnknownRefusal {
    fn fmt(&self, f: &mut fmt::Formatter<'_>) -> fmt::Result {
        write!(f, "no refusal has the number {}", self.0)
    }
}

impl Error for UnknownRefusal {}

impl fmt::Display for Refusal {
    fn fmt(&self, f: &mut fmt::Formatter<'_>) -> fmt::Result {
        let what = match self {
            Refusal::Picture => {
                "picture width or height is not a multiple of 4 from 4 to 8128; \
                 look at the size in the copy's header"
            }
            Refusal::Block => {
                "a block has a side other than 4, 8, 16, 32 or 64, is not at a multiple of 4, or \
                 reaches past the picture; the stream is damaged or has another size than it says"
            }
            Refusal::List => {
                "a block refers to no picture, or to a list other than 0 and 1; \
                 look for a missing reference picture at this place of the stream"
            }
            Refusal::Buffer => {
                "a plane, map or block is shorter than the picture needs; \
                 look whether the copy is cut off or mixes pictures of two sizes"
            }
            Refusal::OrderCount => {
                "a picture's order count is above 32,767; \
                 look for a wrong picture number, or a run of more pictures than that"
            }
            Refusal::Sample => {
                "a sample is above 1023, more than 10 bits hold; \
                 look whether the copy was scanned or stored with another bit depth"
            }
            Refusal::Neighbour => {
                "a flag names a neighbour outside the picture; \
                 the flags belong to another block or the stream is damaged"
            }
            Refusal::Mark => {
                "a trace does not begin with the letters IPT and version 1; \
                 look whether it is another file, or comes from a newer decoder"
            }
            Refusal::Incomplete => {
                "a trace ends inside its header or inside a record; \
                 look whether it was cut off while it was written or copied"
            }
            Refusal::Record => {
                "a record of a trace has a kind above 3, or a number where that kind asks for zero; \
                 the trace is damaged"
            }
            Refusal::Slice => {
                "a slice number is above 127; \
                 look for a wrong slice number, or a picture that is cut into more than 128 slices"
            }
        };
        write!(f, "refused ({}): {what}", self.number())
    }
}

impl Error for Refusal {}

/// A refusal among errors of reading and writing: [`io::ErrorKind::InvalidInput`], with the refusal
/// inside, which [`Refusal::of`] finds.
///
/// ```
/// use evc_inter::Refusal;
/// use std::io;
///
/// let error = io::Error::from(Refusal::Sample);
/// assert_eq!(error.kind(), io::ErrorKind::InvalidInput);
/// assert_eq!(error.to_string(), Refusal::Sample.to_string());
/// assert_eq!(Refusal::of(&error), Some(Refusal::Sample));
/// ```
impl From<Refusal> for io::Error {
    fn from(refusal: Refusal) -> io::Error {
        io::Error::new(io::ErrorKind::InvalidInput, refusal)
    }
}

#[test]
fn numbers() {
    assert_eq!(Refusal::check(0), Ok(()));
    let numbers = [1, 2, 3, 4, 5, 6, 7, 10, 11, 12, 13];
    assert_eq!(Refusal::ALL.len(), numbers.len());
    for (&refusal, number) in Refusal::ALL.iter().zip(numbers) {
        assert_eq!([refusal.number(), refusal.into()], [number; 2]);
        assert_eq!(Refusal::check(number), Err(refusal));
        assert!(refusal
            .to_string()
            .starts_with(&format!("refused ({number}): ")));
        assert_eq!(refusal.to_string().lines().count(), 1);
    }
    assert!(Refusal::ALL.is_sorted());
    for number in [0, 8, 9, 14, u32::MAX] {
        assert_eq!(Refusal::try_from(number), Err(UnknownRefusal(number)));
    }
}

#[test]
#[should_panic(expected = "the contracts allow no 8")]
fn no_other_number() {
    let _ = Refusal::check(8);
}
