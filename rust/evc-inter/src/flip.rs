//! A reel that was scanned with the wrong side to the lens, or upside down: its pictures, places and
//! vectors. docs/INTEGRATION.md, 'A flipped copy', says what comes out.

use crate::{EvcBlock, EvcList, EvcMv, Moved, MovedCounts, MovedMv, Picture, Refusal};
use crate::{TraceHeader, TraceRecord};
use std::fmt;

/// Which sides are exchanged.
///
/// ```
/// use evc_inter::Flip;
///
/// assert_eq!(Flip::LeftRight.to_string(), "left to right");
/// assert_eq!(Flip::TopBottom.to_string(), "top to bottom");
/// ```
#[derive(Clone, Copy, Debug, PartialEq, Eq, Hash)]
pub enum Flip {
    /// Each row from its other end.
    LeftRight,
    /// The rows from the bottom.
    TopBottom,
}

impl fmt::Display for Flip {
    fn fmt(&self, f: &mut fmt::Formatter<'_>) -> fmt::Result {
        f.pad(match self {
            Flip::LeftRight => "left to right",
            Flip::TopBottom => "top to bottom",
        })
    }
}

impl Picture {
    /// The picture flipped. Its border is not: it is to be padded.
    ///
    /// ```
    /// use evc_inter::{Flip, Picture, Refusal};
    ///
    /// let mut picture = Picture::new(4, 4)?;
    /// picture.planes[0].row_mut(0).copy_from_slice(&[1, 2, 3, 4]);
    /// assert_eq!(picture.flipped(Flip::LeftRight).planes[0].row(0), [4, 3, 2, 1]);
    /// assert_eq!(picture.flipped(Flip::TopBottom).planes[0].row(3), [1, 2, 3, 4]);
    /// # Ok::<(), Refusal>(())
    /// ```
    pub fn flipped(&self, flip: Flip) -> Picture {
        let mut flipped = self.clone();
        for (plane, straight) in flipped.planes.iter_mut().zip(&self.planes) {
            for (row, from_bottom) in plane.rows_mut().zip(straight.rows().rev()) {
                match flip {
                    Flip::LeftRight => row.reverse(),
                    Flip::TopBottom => row.copy_from_slice(from_bottom),
                }
            }
        }
        flipped
    }
}

impl EvcMv {
    /// The vector of a flipped block: that component is negated.
    ///
    /// -32768, which has no negation in 16 bits, is taken as -32767; at every place both are clipped to
    /// the same vector.
    ///
    /// ```
    /// use evc_inter::{EvcMv, Flip};
    ///
    /// let mv = EvcMv { x: 13, y: -32768 };
    /// assert_eq!(mv.flipped(Flip::LeftRight), EvcMv { x: -13, y: -32768 });
    /// assert_eq!(mv.flipped(Flip::TopBottom), EvcMv { x: 13, y: 32767 });
    /// ```
    pub fn flipped(self, flip: Flip) -> EvcMv {
        let EvcMv { x, y } = self;
        let negated = |n: i16| -n.max(-i16::MAX);
        match flip {
            Flip::LeftRight => EvcMv { x: negated(x), y },
            Flip::TopBottom => EvcMv { x, y: negated(y) },
        }
    }
}

impl EvcBlock {
    /// The block's place in the flipped picture: `x` becomes `pic_w - x - w`, or `y` `pic_h - y - h`.
    ///
    /// The sums wrap. A block that every call refuses with 2 thus becomes one that they refuse with 2,
    /// and a block that is flipped twice the same way is as it was.
    ///
    /// ```
    /// use evc_inter::{evc_mv_clip, EvcBlock, EvcMv, Flip, Refusal};
    ///
    /// let block = EvcBlock { pic_w: 64, pic_h: 32, x: 16, y: 8, w: 8, h: 4 };
    /// assert_eq!(block.flipped(Flip::LeftRight), EvcBlock { x: 40, ..block });
    /// assert_eq!(block.flipped(Flip::TopBottom), EvcBlock { y: 20, ..block });
    ///
    /// let outside = EvcBlock { x: 60, ..block }.flipped(Flip::LeftRight);
    /// assert_eq!(evc_mv_clip(outside, EvcMv::default()), Err(Refusal::Block));
    /// ```
    pub fn flipped(self, flip: Flip) -> EvcBlock {
        let place = |side: u32, at, len| side.wrapping_sub(at).wrapping_sub(len);
        match flip {
            Flip::LeftRight => EvcBlock {
                x: place(self.pic_w, self.x, self.w),
                ..self
            },
            Flip::TopBottom => EvcBlock {
                y: place(self.pic_h, self.y, self.h),
                ..self
            },
        }
    }
}

impl MovedMv {
    /// What is moved of the flipped block's vector: low and high change places in that component.
    ///
    /// ```
    /// use evc_inter::{Flip, Moved, MovedMv};
    ///
    /// let moved = MovedMv { x: Moved::Low, y: Moved::High };
    /// assert_eq!(moved.flipped(Flip::LeftRight), MovedMv { x: Moved::High, ..moved });
    /// assert_eq!(moved.flipped(Flip::TopBottom), MovedMv { y: Moved::Low, ..moved });
    /// ```
    pub fn flipped(self, flip: Flip) -> MovedMv {
        let MovedMv { x, y } = self;
        let exchanged = |moved| match moved {
            Moved::Not => Moved::Not,
            Moved::Low => Moved::High,
            Moved::High => Moved::Low,
        };
        match flip {
            Flip::LeftRight => MovedMv { x: exchanged(x), y },
            Flip::TopBottom => MovedMv { x, y: exchanged(y) },
        }
    }
}

impl MovedCounts {
    /// The counts of the flipped trace.
    ///
    /// ```
    /// use evc_inter::{Flip, MovedCounts};
    ///
    /// let counts = MovedCounts { across_low: 3, down_high: 1, ..Default::default() };
    /// let flipped = counts.flipped(Flip::LeftRight);
    /// assert_eq!((flipped.across_low, flipped.across_high, flipped.down_high), (0, 3, 1));
    /// ```
    pub fn flipped(self, flip: Flip) -> MovedCounts {
        match flip {
            Flip::LeftRight => MovedCounts {
                across_low: self.across_high,
                across_high: self.across_low,
                ..self
            },
            Flip::TopBottom => MovedCounts {
                down_low: self.down_high,
                down_high: self.down_low,
                ..self
            },
        }
    }
}

impl TraceRecord {
    /// The record of the flipped block: its place and its vectors.
    ///
    /// A direct record becomes one of both lists, with the vectors that it has here: the collocated unit
    /// that they come from does not turn with the block. `col_mv` is the straight map, as for
    /// [`lists`](TraceRecord::lists), whose refusals are those of a direct record. Refuses 2 for a block
    /// that reaches past the picture.
    ///
    /// ```
    /// use evc_inter::{EvcBlock, EvcMv, Flip, Refusal, TraceHeader, TraceMotion, TraceRecord};
    ///
    /// let header = TraceHeader { pic_w: 8, pic_h: 4, poc: 4, list_poc0: 0 };
    /// let block = EvcBlock { pic_w: 8, pic_h: 4, x: 0, y: 0, w: 4, h: 4 };
    /// let col_mv = [7, -7, 0, 0, 0, 0, 0, 0];
    /// let direct = TraceRecord::direct(block, 0, 8)?;
    /// let flipped = direct.flipped(Flip::LeftRight, &header, Some(&col_mv))?;
    /// assert_eq!((flipped.x, flipped.y), (4, 0));
    /// let mv = [EvcMv { x: -3, y: -3 }, EvcMv { x: 3, y: 3 }];
    /// assert_eq!(flipped.motion, TraceMotion::Both { mv, poc: [0, 8] });
    /// # Ok::<(), Refusal>(())
    /// ```
    pub fn flipped(
        &self,
        flip: Flip,
        header: &TraceHeader,
        col_mv: Option<&[i16]>,
    ) -> Result<TraceRecord, Refusal> {
        let block = self.block(header).flipped(flip);
        let [list0, list1] = self.lists(header, col_mv)?.map(|list| EvcList {
            mv: list.mv.flipped(flip),
            ..list
        });
        TraceRecord::from_lists(block, list0, list1)
    }
}
