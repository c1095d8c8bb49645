//! Which components of vectors clipping has moved, for cataloguers who mark shots whose motion runs far
//! out of frame.

use crate::{ffi, EvcMv};
use std::fmt;
use std::iter::Sum;
use std::ops::AddAssign;

/// Where clipping left one component of a vector.
///
/// The side is that of the limit at which the component ends: one that was too low rose to the low
/// limit. A component exactly at a limit is not moved.
///
/// ```
/// use evc_inter::{evc_mv_clip, EvcBlock, EvcMv, Moved, Refusal};
///
/// let block = EvcBlock { pic_w: 64, pic_h: 64, x: 16, y: 0, w: 16, h: 16 };
/// let across = |x| Ok::<_, Refusal>(evc_mv_clip(block, EvcMv { x, y: 0 })?.moved.x);
/// assert_eq!([across(-321)?, across(-320)?], [Moved::Low, Moved::Not]);
/// assert_eq!([across(384)?, across(385)?], [Moved::Not, Moved::High]);
/// assert_eq!(format!("{}, {}", Moved::Not, Moved::Low), "not moved, moved to the low side");
/// # Ok::<(), Refusal>(())
/// ```
#[derive(Clone, Copy, Debug, Default, PartialEq, Eq, Hash)]
pub enum Moved {
    /// It is as it was given.
    #[default]
    Not,
    /// The block would have lain more than 64 samples left of or above the picture.
    Low,
    /// The block would have lain more than 64 samples right of or below the picture.
    High,
}

impl Moved {
    /// A report of a C call.
    pub(crate) fn new(report: u8) -> Moved {
        match report {
            0 => Moved::Not,
            1 => Moved::Low,
            2 => Moved::High,
            _ => unreachable!("the contracts allow no report {report}"),
        }
    }

    /// Whether it was moved, to either side.
    ///
    /// ```
    /// use evc_inter::Moved;
    ///
    /// assert_eq!([Moved::Not, Moved::Low, Moved::High].map(Moved::is_moved), [false, true, true]);
    /// ```
    pub fn is_moved(self) -> bool {
        self != Moved::Not
    }
}

impl fmt::Display for Moved {
    fn fmt(&self, f: &mut fmt::Formatter<'_>) -> fmt::Result {
        f.pad(match self {
            Moved::Not => "not moved",
            Moved::Low => "moved to the low side",
            Moved::High => "moved to the high side",
        })
    }
}

/// Where clipping left both components of a vector. The default is one that is not moved, as is that of
/// a list not in use.
///
/// ```
/// use evc_inter::{evc_mv_clip, EvcBlock, EvcMv, Moved, MovedMv, Refusal};
///
/// let block = EvcBlock { pic_w: 64, pic_h: 64, x: 0, y: 0, w: 16, h: 16 };
/// let clipped = evc_mv_clip(block, EvcMv { x: -300, y: 5 })?;
/// assert_eq!(clipped.moved, MovedMv { x: Moved::Low, y: Moved::Not });
/// assert!(clipped.moved.is_moved());
/// # Ok::<(), Refusal>(())
/// ```
#[derive(Clone, Copy, Debug, Default, PartialEq, Eq, Hash)]
pub struct MovedMv {
    /// Across.
    pub x: Moved,
    /// Down.
    pub y: Moved,
}

impl MovedMv {
    pub(crate) fn new(report: ffi::EvcMoved) -> MovedMv {
        let ffi::EvcMoved { x, y } = report;
        MovedMv {
            x: Moved::new(x),
            y: Moved::new(y),
        }
    }

    /// Whether either component was moved: whether clipping has changed the vector.
    ///
    /// ```
    /// use evc_inter::{Moved, MovedMv};
    ///
    /// assert!(MovedMv { y: Moved::High, ..Default::default() }.is_moved());
    /// assert!(!MovedMv::default().is_moved());
    /// ```
    pub fn is_moved(self) -> bool {
        self.x.is_moved() || self.y.is_moved()
    }
}

/// What [`evc_mv_clip`](crate::evc_mv_clip) gives: the clipped vector, and which of its components were
/// moved.
///
/// ```
/// use evc_inter::{evc_mv_clip, EvcBlock, EvcMv, Moved, Refusal};
///
/// let block = EvcBlock { pic_w: 64, pic_h: 64, x: 0, y: 0, w: 16, h: 16 };
/// let clipped = evc_mv_clip(block, EvcMv { x: 5, y: 500 })?;
/// assert_eq!((clipped.mv, clipped.moved.y), (EvcMv { x: 5, y: 448 }, Moved::High));
/// # Ok::<(), Refusal>(())
/// ```
#[non_exhaustive]
#[derive(Clone, Copy, Debug, PartialEq, Eq, Hash)]
pub struct Clipped {
    /// The vector.
    pub mv: EvcMv,
    /// Which components are not those that were given.
    pub moved: MovedMv,
}

impl Clipped {
    /// What the C call returned, if it was not refused.
    pub(crate) fn new(returned: ffi::EvcClipped) -> Clipped {
        Clipped {
            mv: returned.mv,
            moved: MovedMv::new(returned.moved),
        }
    }
}

/// What [`evc_mc2`](crate::evc_mc2) gives beside the samples: which components of the lists' vectors were
/// moved.
///
/// ```
/// use evc_inter::{evc_mc2, EvcBlock, EvcList, EvcMv, Moved, MovedMv, Picture, Refusal, CU_LEN};
///
/// let picture = Picture::new(16, 8)?;
/// let block = EvcBlock { pic_w: 16, pic_h: 8, x: 8, y: 0, w: 8, h: 8 };
/// let list1 = EvcList { used: true, mv: EvcMv { x: -5, y: -257 }, poc: 8 };
/// let none = EvcList { used: false, ..list1 };
/// let (mut pred0, mut pred1) = ([0; CU_LEN], [0; CU_LEN]);
/// let predicted =
///     evc_mc2(block, none, [&[]; 3], list1, picture.samples(), &mut pred0, &mut pred1)?;
/// let up = MovedMv { x: Moved::Not, y: Moved::Low };
/// assert_eq!(predicted.moved, [MovedMv::default(), up]); // list 0 is not in use
/// # Ok::<(), Refusal>(())
/// ```
#[non_exhaustive]
#[derive(Clone, Copy, Debug, PartialEq, Eq, Hash)]
pub struct Predicted {
    /// Of list 0 and list 1. A list not in use has nothing moved. Where both have equal counts and equal
    /// clipped vectors, so that list 0 alone stands, list 1 is in use all the same, and has its own.
    pub moved: [MovedMv; 2],
}

impl Predicted {
    /// What the C call returned, if it was not refused.
    pub(crate) fn new(returned: ffi::EvcPredicted) -> Predicted {
        Predicted {
            moved: [returned.moved0, returned.moved1].map(MovedMv::new),
        }
    }
}

/// How many components of vectors were moved, to each side: those of a [`Replay`](crate::Replay), or
/// whatever is added up.
///
/// ```
/// use evc_inter::{EvcBlock, EvcMv, MovedCounts, Picture, Predictor, Reference, Refusal};
///
/// let picture = Picture::new(16, 8)?.pad()?;
/// let block = EvcBlock { pic_w: 16, pic_h: 8, x: 8, y: 0, w: 8, h: 8 };
/// let mut predictor = Predictor::new();
/// let mut counts = MovedCounts::default();
/// for x in [-300, 5, 300] {
///     let list0 = Reference { picture: &picture, mv: EvcMv { x, y: 257 }, poc: 0 };
///     counts += predictor.predict(block, [Some(list0), None])?.moved().into();
/// }
/// assert_eq!((counts.total(), counts.down_high), (5, 3));
/// assert_eq!(counts.to_string(), "across 1 low, 1 high, down 0 low, 3 high");
/// # Ok::<(), Refusal>(())
/// ```
#[derive(Clone, Copy, Debug, Default, PartialEq, Eq, Hash)]
pub struct MovedCounts {
    /// Components across, moved to the low side.
    pub across_low: u64,
    /// Components across, moved to the high side.
    pub across_high: u64,
    /// Components down, moved to the low side.
    pub down_low: u64,
    /// Components down, moved to the high side.
    pub down_high: u64,
}

impl MovedCounts {
    /// All four together.
    ///
    /// ```
    /// use evc_inter::MovedCounts;
    ///
    /// let counts = MovedCounts { across_low: 3, down_low: 8, down_high: 1, ..Default::default() };
    /// assert_eq!(counts.total(), 12);
    /// ```
    pub fn total(self) -> u64 {
        let counts = [self.across_high, self.down_low, self.down_high];
        counts
            .into_iter()
            .fold(self.across_low, u64::saturating_add)
    }

    /// Whether any component was moved.
    ///
    /// ```
    /// use evc_inter::MovedCounts;
    ///
    /// assert!(!MovedCounts::default().any());
    /// assert!(MovedCounts { down_high: 1, ..Default::default() }.any());
    /// ```
    pub fn any(self) -> bool {
        self.total() > 0
    }

    /// Adds what was moved of one block.
    ///
    /// ```
    /// use evc_inter::{evc_mc2, EvcBlock, EvcList, EvcMv, MovedCounts, Picture, Refusal, CU_LEN};
    ///
    /// let picture = Picture::new(16, 8)?;
    /// let block = EvcBlock { pic_w: 16, pic_h: 8, x: 8, y: 0, w: 8, h: 8 };
    /// let list = EvcList { used: true, mv: EvcMv { x: -300, y: -300 }, poc: 0 };
    /// let planes = picture.samples();
    /// let (mut pred0, mut pred1) = ([0; CU_LEN], [0; CU_LEN]);
    /// let predicted = evc_mc2(block, list, planes, list, planes, &mut pred0, &mut pred1)?;
    /// let mut counts = MovedCounts::default();
    /// counts.add(&predicted);
    /// assert_eq!((counts.across_low, counts.down_low), (2, 2)); // of both lists
    /// # Ok::<(), Refusal>(())
    /// ```
    pub fn add(&mut self, predicted: &Predicted) {
        *self += predicted.moved.into();
    }

    /// What the C call returned.
    pub(crate) fn new(returned: &ffi::EvcReplay) -> MovedCounts {
        MovedCounts {
            across_low: returned.across_low,
            across_high: returned.across_high,
            down_low: returned.down_low,
            down_high: returned.down_high,
        }
    }
}

/// Those of one block, of both its lists.
///
/// ```
/// use evc_inter::{Moved, MovedCounts, MovedMv};
///
/// let both = MovedMv { x: Moved::High, y: Moved::Low };
/// let counts = MovedCounts::from([both, MovedMv { y: Moved::Not, ..both }]);
/// assert_eq!((counts.across_high, counts.down_low), (2, 1));
/// ```
impl From<[MovedMv; 2]> for MovedCounts {
    fn from(lists: [MovedMv; 2]) -> MovedCounts {
        let count = |of: fn(MovedMv) -> Moved, side| {
            let on_side = lists.iter().filter(|moved| of(**moved) == side);
            on_side.count() as u64
        };
        MovedCounts {
            across_low: count(|moved| moved.x, Moved::Low),
            across_high: count(|moved| moved.x, Moved::High),
            down_low: count(|moved| moved.y, Moved::Low),
            down_high: count(|moved| moved.y, Moved::High),
        }
    }
}

/// A sum that 64 bits do not hold stays at the largest number.
///
/// ```
/// use evc_inter::MovedCounts;
///
/// let mut reel = MovedCounts { across_low: 3, ..Default::default() };
/// reel += MovedCounts { across_low: 1, down_high: 2, ..Default::default() };
/// assert_eq!((reel.across_low, reel.down_high), (4, 2));
/// ```
impl AddAssign for MovedCounts {
    fn add_assign(&mut self, other: MovedCounts) {
        let add = |count: &mut u64, more| *count = count.saturating_add(more);
        add(&mut self.across_low, other.across_low);
        add(&mut self.across_high, other.across_high);
        add(&mut self.down_low, other.down_low);
        add(&mut self.down_high, other.down_high);
    }
}

/// Those of a reel from those of its items.
///
/// ```
/// use evc_inter::MovedCounts;
///
/// let item = MovedCounts { across_low: 3, ..Default::default() };
/// let reel: MovedCounts = [item, item].into_iter().sum();
/// assert_eq!(reel.across_low, 6);
/// ```
impl Sum for MovedCounts {
    fn sum<I: Iterator<Item = MovedCounts>>(items: I) -> MovedCounts {
        items.fold(MovedCounts::default(), |mut sum, counts| {
            sum += counts;
            sum
        })
    }
}

/// For an item's note.
impl fmt::Display for MovedCounts {
    fn fmt(&self, f: &mut fmt::Formatter<'_>) -> fmt::Result {
        write!(
            f,
            "across {} low, {} high, down {} low, {} high",
            self.across_low, self.across_high, self.down_low, self.down_high
        )
    }
}

#[cfg(test)]
mod tests {
    use super::*;

    #[test]
    fn reports() {
        let all = [Moved::Not, Moved::Low, Moved::High];
        assert_eq!([0, 1, 2].map(Moved::new), all);
        assert_eq!(all.map(Moved::is_moved), [false, true, true]);
        assert_eq!(Moved::default(), Moved::Not);
        let texts = all.map(|moved| moved.to_string());
        let sides = [
            "not moved",
            "moved to the low side",
            "moved to the high side",
        ];
        assert_eq!(texts, sides);
        for (x, of_x) in (0..3).zip(all) {
            for (y, of_y) in (0..3).zip(all) {
                let moved = MovedMv::new(ffi::EvcMoved { x, y });
                assert_eq!(moved, MovedMv { x: of_x, y: of_y });
                assert_eq!(moved.is_moved(), x + y > 0);
            }
        }
    }

    /// A list has its own report, and a component its own.
    #[test]
    fn places() {
        let (code, mv) = (0, EvcMv { x: 7, y: 8 });
        let moved = ffi::EvcMoved { x: 1, y: 2 };
        let clipped = Clipped::new(ffi::EvcClipped { code, mv, moved });
        let [first, second] =
            [(Moved::Low, Moved::High), (Moved::High, Moved::Not)].map(|(x, y)| MovedMv { x, y });
        assert_eq!((clipped.mv, clipped.moved), (mv, first));
        let predicted = Predicted::new(ffi::EvcPredicted {
            code,
            moved0: moved,
            moved1: ffi::EvcMoved { x: 2, y: 0 },
        });
        assert_eq!(predicted.moved, [first, second]);
        let mut counts = MovedCounts::default();
        counts.add(&predicted);
        let want = MovedCounts {
            across_low: 1,
            across_high: 1,
            down_low: 0,
            down_high: 1,
        };
        assert_eq!(counts, want);
    }

    #[test]
    fn sums() {
        let counts = |n: [u64; 4]| {
            let [across_low, across_high, down_low, down_high] = n;
            MovedCounts {
                across_low,
                across_high,
                down_low,
                down_high,
            }
        };
        let returned = ffi::EvcReplay {
            code: 0,
            index: 9,
            across_low: 1,
            across_high: 20,
            down_low: 300,
            down_high: 4000,
        };
        let one = counts([1, 20, 300, 4000]);
        assert_eq!(MovedCounts::new(&returned), one);
        assert_eq!(one.total(), 4321);
        let text = "across 1 low, 20 high, down 300 low, 4000 high";
        assert_eq!(one.to_string(), text);
        let twice: MovedCounts = [one, one].into_iter().sum();
        assert_eq!(twice, counts([2, 40, 600, 8000]));
        for k in 0..4 {
            let mut alone = [0; 4];
            alone[k] = 1;
            assert!(counts(alone).any());
            assert_eq!(counts(alone).total(), 1);
        }
        assert!(!counts([0; 4]).any());

        let most = counts([u64::MAX; 4]);
        let mut more = most;
        more += one;
        assert_eq!((more, most.total()), (most, u64::MAX));
    }

    #[test]
    #[should_panic(expected = "the contracts allow no report 3")]
    fn no_other_report() {
        MovedMv::new(ffi::EvcMoved { x: 0, y: 3 });
    }
}
