//! The structs of include/evc_inter.h that a caller fills or reads.

/// A vector in quarter luma samples, or a position in them.
///
/// ```
/// use evc_inter::EvcMv;
///
/// let half_a_sample_left = EvcMv { x: -2, y: 0 };
/// assert_eq!(EvcMv::default(), EvcMv { x: 0, y: 0 });
/// # assert_ne!(half_a_sample_left, EvcMv::default());
/// ```
#[derive(Clone, Copy, Debug, Default, PartialEq, Eq, Hash)]
#[repr(C)]
pub struct EvcMv {
    /// Across; positive is right.
    pub x: i16,
    /// Down.
    pub y: i16,
}

/// From revc's form, across and down.
///
/// ```
/// use evc_inter::EvcMv;
///
/// assert_eq!(EvcMv::from([-2, 300]), EvcMv { x: -2, y: 300 });
/// assert_eq!([[1, 2], [3, 4]].map(EvcMv::from)[1].x, 3);
/// ```
impl From<[i16; 2]> for EvcMv {
    fn from([x, y]: [i16; 2]) -> EvcMv {
        EvcMv { x, y }
    }
}

/// To revc's form, across and down.
///
/// ```
/// use evc_inter::EvcMv;
///
/// assert_eq!(<[i16; 2]>::from(EvcMv { x: -2, y: 300 }), [-2, 300]);
/// ```
impl From<EvcMv> for [i16; 2] {
    fn from(EvcMv { x, y }: EvcMv) -> [i16; 2] {
        [x, y]
    }
}

/// A block of a picture, in luma samples.
///
/// ```
/// use evc_inter::EvcBlock;
///
/// let first = EvcBlock { pic_w: 416, pic_h: 240, x: 0, y: 0, w: 64, h: 64 };
/// let beside = EvcBlock { x: 64, ..first };
/// assert_eq!((beside.pic_w, beside.x, beside.w), (416, 64, 64));
/// ```
#[derive(Clone, Copy, Debug, Default, PartialEq, Eq, Hash)]
#[repr(C)]
pub struct EvcBlock {
    /// Width of the picture: a multiple of 4 from 4 to [`MAX_SIDE`](crate::MAX_SIDE).
    pub pic_w: u32,
    /// Height of the picture, likewise.
    pub pic_h: u32,
    /// Left edge of the block, a multiple of 4.
    pub x: u32,
    /// Upper edge of the block, likewise.
    pub y: u32,
    /// Width of the block: 4, 8, 16, 32 or 64.
    pub w: u32,
    /// Height of the block, likewise.
    pub h: u32,
}

/// What a block takes from one list of references. The default is a list not in use.
///
/// ```
/// use evc_inter::{EvcList, EvcMv};
///
/// let list0 = EvcList { used: true, mv: EvcMv { x: 2, y: 0 }, poc: 8 };
/// let none = EvcList::default();
/// assert!(list0.used && !none.used);
/// ```
#[derive(Clone, Copy, Debug, Default, PartialEq, Eq, Hash)]
#[repr(C)]
pub struct EvcList {
    /// Whether the list is in use; if not, nothing else of it is read.
    pub used: bool,
    /// The vector, as decoded: `evc_mc2` clips it.
    pub mv: EvcMv,
    /// Order count of the reference, at most [`MAX_POC`](crate::MAX_POC).
    pub poc: u32,
}

/// The record of four candidates that [`evc_get_motion`](crate::evc_get_motion) changes.
///
/// ```
/// use evc_inter::{evc_get_motion, EvcBlock, EvcCandidates, EvcMv, Refusal};
///
/// let block = EvcBlock { pic_w: 4, pic_h: 4, x: 0, y: 0, w: 4, h: 4 };
/// let mut cand = EvcCandidates { refi: [-1; 4], ..Default::default() };
/// evc_get_motion(block, 0, 0, &[0; 4], None, &mut cand)?; // no neighbour, no collocated map
/// assert_eq!([cand.left, cand.up, cand.up_right], [EvcMv { x: 1, y: 1 }; 3]);
/// assert_eq!((cand.collocated, cand.refi), (EvcMv::default(), [0; 4]));
/// # Ok::<(), Refusal>(())
/// ```
#[derive(Clone, Copy, Debug, Default, PartialEq, Eq, Hash)]
#[repr(C)]
pub struct EvcCandidates {
    /// From the unit left of the block, or (1, 1).
    pub left: EvcMv,
    /// From the unit above the block's first, or (1, 1).
    pub up: EvcMv,
    /// From the unit above and right of the block, or (1, 1).
    pub up_right: EvcMv,
    /// From list 0 of the collocated map; without that map it keeps its old value.
    pub collocated: EvcMv,
    /// Reference numbers of the four; all become 0.
    pub refi: [i8; 4],
}

/// The fields of a trace's record; the trace has them in this order, 16 bits each but for the kind, and a
/// zero byte behind them.
///
/// [`TraceRecord`](crate::TraceRecord) makes those that are accepted: "Fields of an unused list are
/// zero, and so are both vectors of kind 3."
///
/// ```
/// use evc_inter::{EvcTraceRecord, TraceMotion, TraceRecord};
///
/// let motion = TraceMotion::Direct { poc: [0, 8] };
/// let record = EvcTraceRecord::from(TraceRecord { x: 16, y: 0, w: 8, h: 4, motion });
/// let want = EvcTraceRecord { x: 16, w: 8, h: 4, kind: 3, poc1: 8, ..Default::default() };
/// assert_eq!(record, want);
/// ```
#[derive(Clone, Copy, Debug, Default, PartialEq, Eq, Hash)]
#[repr(C)]
pub struct EvcTraceRecord {
    /// Left edge of the block.
    pub x: u16,
    /// Upper edge of the block.
    pub y: u16,
    /// Width of the block.
    pub w: u16,
    /// Height of the block.
    pub h: u16,
    /// 0 list 0, 1 list 1, 2 both, 3 direct with both lists.
    pub kind: u8,
    /// The vector of list 0, as decoded.
    pub mv0: EvcMv,
    /// The vector of list 1, likewise.
    pub mv1: EvcMv,
    /// Order count of list 0's reference.
    pub poc0: u16,
    /// Order count of list 1's reference.
    pub poc1: u16,
}

/// The header's layout on x86-64; tests/c holds the header to the same numbers.
#[cfg(test)]
mod layout {
    use super::*;
    use crate::ffi::{
        EvcAvail, EvcCamera, EvcClipped, EvcDirect, EvcMoved, EvcPredicted, EvcReplay,
    };
    use std::mem::{align_of, offset_of, size_of};

    macro_rules! layout {
        ($name:ident, $type:ty, $size:literal, $align:literal, $($field:ident $at:literal),+) => {
            #[test]
            fn $name() {
                assert_eq!((size_of::<$type>(), align_of::<$type>()), ($size, $align));
                $(assert_eq!(offset_of!($type, $field), $at, stringify!($field));)+
            }
        };
    }

    layout!(mv, EvcMv, 4, 2, x 0, y 2);
    layout!(block, EvcBlock, 24, 4, pic_w 0, pic_h 4, x 8, y 12, w 16, h 20);
    layout!(list, EvcList, 12, 4, used 0, mv 2, poc 8);
    layout!(avail, EvcAvail, 8, 4, code 0, avail 4);
    layout!(moved, EvcMoved, 2, 1, x 0, y 1);
    layout!(clipped, EvcClipped, 12, 4, code 0, mv 4, moved 8);
    layout!(predicted, EvcPredicted, 8, 4, code 0, moved0 4, moved1 6);
    layout!(direct, EvcDirect, 12, 4, code 0, mv0 4, mv1 8);
    layout!(candidates, EvcCandidates, 20, 2, left 0, up 4, up_right 8, collocated 12, refi 16);
    layout!(
        trace_record, EvcTraceRecord, 22, 2,
        x 0, y 2, w 4, h 6, kind 8, mv0 10, mv1 14, poc0 18, poc1 20
    );
    layout!(
        replay, EvcReplay, 48, 8,
        code 0, index 8, across_low 16, across_high 24, down_low 32, down_high 40
    );
    layout!(camera, EvcCamera, 24, 8, code 0, kind 4, x 8, y 16);
}
