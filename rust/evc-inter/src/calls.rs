//! The calls of include/evc_inter.h over slices.
//!
//! Safe for any arguments: a slice is lent as its pointer and length, and the contracts in
//! crates/evc_inter say that a call reads and writes nothing but what is lent, and keeps none of it.

use crate::ffi;
use crate::{CameraMotion, Clipped, EvcBlock, EvcCandidates, EvcList, EvcMv, EvcTraceRecord};
use crate::{Predicted, Refusal, Replay};

/// The border step: fills the border of one plane in place. Refuses 1, 4, 6.
///
/// The plane is laid out as [`PlaneConfig`](crate::PlaneConfig) says; the picture's samples are
/// examined, the old border is not.
///
/// ```
/// use evc_inter::{evc_pad, PlaneConfig, Refusal, MAX_SAMPLE};
///
/// let cfg = PlaneConfig::new(false, 8, 8)?;
/// let mut plane = vec![0; cfg.len];
/// plane[cfg.index(0, 0)] = 700;
/// evc_pad(false, 8, 8, &mut plane)?;
/// assert_eq!(plane[0], 700); // the upper left corner of the border
///
/// plane[cfg.index(7, 7)] = MAX_SAMPLE + 1;
/// assert_eq!(evc_pad(false, 8, 8, &mut plane), Err(Refusal::Sample));
/// # Ok::<(), Refusal>(())
/// ```
pub fn evc_pad(chroma: bool, pic_w: u32, pic_h: u32, plane: &mut [u16]) -> Result<(), Refusal> {
    Refusal::check(unsafe { ffi::evc_pad(chroma, pic_w, pic_h, plane.as_mut_ptr(), plane.len()) })
}

/// Neighbour flags of a block, [`AVAIL_UP`](crate::AVAIL_UP) and so on, in revc's bits. Refuses 1, 2, 4.
/// The picture counts as one slice; [`evc_get_avail_inter_slice`] is for those of several.
///
/// `map_scu` has a word for each 4 by 4 unit of the picture, row by row, with the bits
/// [`SCU_CODED`](crate::SCU_CODED) and [`SCU_INTRA`](crate::SCU_INTRA).
///
/// ```
/// use evc_inter::{evc_get_avail_inter, map_scu_len, EvcBlock, Refusal, SCU_CODED};
/// use evc_inter::{AVAIL_LE, AVAIL_RI_UP, AVAIL_UP, AVAIL_UP_LE};
///
/// let block = EvcBlock { pic_w: 8, pic_h: 8, x: 4, y: 4, w: 4, h: 4 };
/// let map_scu = vec![SCU_CODED; map_scu_len(8, 8)?];
/// let avail = evc_get_avail_inter(block, &map_scu)?;
/// assert_eq!(avail, AVAIL_UP | AVAIL_LE | AVAIL_UP_LE | AVAIL_RI_UP);
/// assert_eq!(evc_get_avail_inter(block, &map_scu[1..]), Err(Refusal::Buffer));
/// # Ok::<(), Refusal>(())
/// ```
pub fn evc_get_avail_inter(block: EvcBlock, map_scu: &[u32]) -> Result<u16, Refusal> {
    let r = unsafe { ffi::evc_get_avail_inter(block, map_scu.as_ptr(), map_scu.len()) };
    Refusal::check(r.code).map(|()| r.avail)
}

/// Neighbour flags of a block of slice `slice_num`, 0 to [`MAX_SLICE_NUM`](crate::MAX_SLICE_NUM), in a
/// picture of several slices. Refuses 1, 2, 4, 13.
///
/// They are those of [`evc_get_avail_inter`], but a unit of another slice has none, by the bits
/// [`SCU_SLICE`](crate::SCU_SLICE) of its word. The block's own words are not read. [`evc_get_motion`]
/// takes these flags as it takes the others.
///
/// ```
/// use evc_inter::{evc_get_avail_inter, evc_get_avail_inter_slice, EvcBlock, Refusal, SCU_CODED};
/// use evc_inter::{AVAIL_LE, AVAIL_RI_UP, AVAIL_UP, AVAIL_UP_LE};
///
/// // Two rows of two units, each row a slice.
/// let block = EvcBlock { pic_w: 8, pic_h: 8, x: 4, y: 4, w: 4, h: 4 };
/// let map_scu = [0, 0, 1, 1].map(|slice_num| SCU_CODED | slice_num);
/// let avail = evc_get_avail_inter(block, &map_scu)?;
/// assert_eq!(avail, AVAIL_UP | AVAIL_LE | AVAIL_UP_LE | AVAIL_RI_UP);
/// assert_eq!(evc_get_avail_inter_slice(block, 1, &map_scu)?, AVAIL_LE);
/// assert_eq!(evc_get_avail_inter_slice(block, 128, &map_scu), Err(Refusal::Slice));
/// # Ok::<(), Refusal>(())
/// ```
pub fn evc_get_avail_inter_slice(
    block: EvcBlock,
    slice_num: u32,
    map_scu: &[u32],
) -> Result<u16, Refusal> {
    let (words, len) = (map_scu.as_ptr(), map_scu.len());
    let r = unsafe { ffi::evc_get_avail_inter_slice(block, slice_num, words, len) };
    Refusal::check(r.code).map(|()| r.avail)
}

/// The four candidates of list `lidx`, into the record lent. Refuses 1, 2, 3, 4, 7.
///
/// A motion map has four numbers for each 4 by 4 unit, row by row: list 0 across, down, list 1
/// across, down. `None` is a picture without a collocated map.
///
/// ```
/// use evc_inter::{evc_get_motion, EvcBlock, EvcCandidates, EvcMv, Refusal, AVAIL_LE, AVAIL_UP};
///
/// let block = EvcBlock { pic_w: 8, pic_h: 4, x: 4, y: 0, w: 4, h: 4 };
/// let map_mv = [10, 11, 12, 13, 0, 0, 0, 0];
/// let col_mv = [0, 0, 0, 0, 30, 31, 32, 33];
/// let mut cand = EvcCandidates::default();
/// evc_get_motion(block, 1, AVAIL_LE, &map_mv, Some(&col_mv), &mut cand)?;
/// assert_eq!(cand.left, EvcMv { x: 12, y: 13 });
/// assert_eq!(cand.up, EvcMv { x: 1, y: 1 });
/// assert_eq!(cand.collocated, EvcMv { x: 30, y: 31 }); // list 0, for either list number
///
/// let before = cand;
/// let up = evc_get_motion(block, 1, AVAIL_UP, &map_mv, None, &mut cand);
/// assert_eq!((up, cand), (Err(Refusal::Neighbour), before)); // nothing is above y = 0
/// # Ok::<(), Refusal>(())
/// ```
pub fn evc_get_motion(
    block: EvcBlock,
    lidx: u32,
    avail: u16,
    map_mv: &[i16],
    col_mv: Option<&[i16]>,
    cand: &mut EvcCandidates,
) -> Result<(), Refusal> {
    let col = col_mv.unwrap_or(&[]);
    Refusal::check(unsafe {
        ffi::evc_get_motion(
            block,
            lidx,
            avail,
            map_mv.as_ptr(),
            map_mv.len(),
            col_mv.is_some(),
            col.as_ptr(),
            col.len(),
            cand,
        )
    })
}

/// The direct vectors of both lists. Refuses 1, 2, 4, 5.
///
/// `poc` is the order count of the picture, `poc0` and `poc1` those of the references, `list_poc0` the
/// order count of the first picture in reference 1's own list 0; revc's `refp[1].list_poc[0]`. `None` is a
/// reference 1 without a motion map.
///
/// ```
/// use evc_inter::{evc_get_mv_dir, EvcBlock, EvcMv, Refusal, MAX_POC};
///
/// let block = EvcBlock { pic_w: 4, pic_h: 4, x: 0, y: 0, w: 4, h: 4 };
/// let col_mv = [7, -7, 0, 0];
/// let [mv0, mv1] = evc_get_mv_dir(block, 4, 0, 8, 0, Some(&col_mv))?;
/// assert_eq!(mv0, EvcMv { x: 3, y: -3 });
/// assert_eq!(mv1, EvcMv { x: -3, y: 3 });
/// assert_eq!(evc_get_mv_dir(block, MAX_POC + 1, 0, 8, 0, None), Err(Refusal::OrderCount));
/// # Ok::<(), Refusal>(())
/// ```
pub fn evc_get_mv_dir(
    block: EvcBlock,
    poc: u32,
    poc0: u32,
    poc1: u32,
    list_poc0: u32,
    col_mv: Option<&[i16]>,
) -> Result<[EvcMv; 2], Refusal> {
    let col = col_mv.unwrap_or(&[]);
    let r = unsafe {
        ffi::evc_get_mv_dir(
            block,
            poc,
            poc0,
            poc1,
            list_poc0,
            col_mv.is_some(),
            col.as_ptr(),
            col.len(),
        )
    };
    Refusal::check(r.code).map(|()| [r.mv0, r.mv1])
}

/// The vector, clipped so that the block lies within 64 samples of the picture, and which of its
/// components were moved for that. Refuses 1, 2.
///
/// ```
/// use evc_inter::{evc_mv_clip, EvcBlock, EvcMv, Moved, Refusal};
///
/// let block = EvcBlock { pic_w: 64, pic_h: 64, x: 0, y: 0, w: 16, h: 16 };
/// let clipped = evc_mv_clip(block, EvcMv { x: -300, y: 5 })?;
/// assert_eq!(clipped.mv, EvcMv { x: -256, y: 5 });
/// assert_eq!((clipped.moved.x, clipped.moved.y), (Moved::Low, Moved::Not));
/// let block = EvcBlock { x: 2, ..block };
/// assert_eq!(evc_mv_clip(block, EvcMv { x: 0, y: 0 }), Err(Refusal::Block));
/// # Ok::<(), Refusal>(())
/// ```
pub fn evc_mv_clip(block: EvcBlock, mv: EvcMv) -> Result<Clipped, Refusal> {
    let r = unsafe { ffi::evc_mv_clip(block, mv) };
    Refusal::check(r.code).map(|()| Clipped::new(r))
}

/// The prediction of a block of one plane, rows as wide as the block. Refuses 1, 2, 4, 6.
///
/// The path comes from `ori_mv`, the vector before clipping; phase and place come from `gmv`, the
/// position in the reference. `w` and `h` are the sides on this plane: half the block's for chroma.
///
/// ```
/// use evc_inter::{evc_mc_plane, EvcMv, Plane, Refusal};
///
/// let mut plane = Plane::new(false, 16, 16)?;
/// for y in 0..16 {
///     plane.row_mut(y).fill(100 + y as u16);
/// }
/// plane.pad()?;
/// let mut pred = [0; 16];
/// let mv = EvcMv { x: 0, y: 4 }; // one sample down
/// evc_mc_plane(false, 16, 16, mv, mv, 4, 4, plane.samples(), &mut pred)?;
/// assert_eq!(pred[..8], [101, 101, 101, 101, 102, 102, 102, 102]);
/// # Ok::<(), Refusal>(())
/// ```
#[allow(clippy::too_many_arguments)] // the header's
pub fn evc_mc_plane(
    chroma: bool,
    pic_w: u32,
    pic_h: u32,
    ori_mv: EvcMv,
    gmv: EvcMv,
    w: u32,
    h: u32,
    plane: &[u16],
    pred: &mut [u16],
) -> Result<(), Refusal> {
    Refusal::check(unsafe {
        ffi::evc_mc_plane(
            chroma,
            pic_w,
            pic_h,
            ori_mv,
            gmv,
            w,
            h,
            plane.as_ptr(),
            plane.len(),
            pred.as_mut_ptr(),
            pred.len(),
        )
    })
}

/// The prediction of a block from one list or both, into the first block lent, and which components of
/// the vectors were moved by clipping. Refuses 1 to 6.
///
/// `planes0` and `planes1` are Y, U, V of each list's picture; those of a list not in use may be
/// empty. Both blocks need [`CU_LEN`](crate::CU_LEN) samples; [`cu_plane`](crate::cu_plane) reads
/// them. With two predictions the second block keeps that of list 1.
///
/// ```
/// use evc_inter::{cu_plane, evc_mc2, EvcBlock, EvcList, EvcMv, Picture, Refusal, CU_LEN};
///
/// let mut pictures = [Picture::new(16, 8)?, Picture::new(16, 8)?];
/// for (picture, grey) in pictures.iter_mut().zip([300, 401]) {
///     for plane in picture.samples_mut() {
///         plane.fill(grey); // with its border
///     }
/// }
/// let block = EvcBlock { pic_w: 16, pic_h: 8, x: 8, y: 0, w: 8, h: 8 };
/// let list0 = EvcList { used: true, mv: EvcMv { x: -5, y: 2 }, poc: 0 };
/// let list1 = EvcList { used: true, mv: EvcMv { x: 5, y: -2 }, poc: 8 };
/// let (mut pred0, mut pred1) = ([0; CU_LEN], [0; CU_LEN]);
/// let [planes0, planes1] = pictures.each_ref().map(Picture::samples);
/// let predicted = evc_mc2(block, list0, planes0, list1, planes1, &mut pred0, &mut pred1)?;
/// assert_eq!(cu_plane(&pred0, 0, block.w, block.h), [351; 64]); // (300 + 401 + 1) >> 1
/// assert_eq!(cu_plane(&pred1, 2, block.w, block.h), [401; 16]);
/// assert!(!predicted.moved[0].is_moved() && !predicted.moved[1].is_moved()); // near the picture
///
/// let none = EvcList::default();
/// let refused = evc_mc2(block, none, [&[]; 3], none, [&[]; 3], &mut pred0, &mut pred1);
/// assert_eq!(refused, Err(Refusal::List));
/// # Ok::<(), Refusal>(())
/// ```
pub fn evc_mc2(
    block: EvcBlock,
    list0: EvcList,
    planes0: [&[u16]; 3],
    list1: EvcList,
    planes1: [&[u16]; 3],
    pred0: &mut [u16],
    pred1: &mut [u16],
) -> Result<Predicted, Refusal> {
    let ([y0, u0, v0], [y1, u1, v1]) = (planes0, planes1);
    let r = unsafe {
        ffi::evc_mc2(
            block,
            list0,
            y0.as_ptr(),
            y0.len(),
            u0.as_ptr(),
            u0.len(),
            v0.as_ptr(),
            v0.len(),
            list1,
            y1.as_ptr(),
            y1.len(),
            u1.as_ptr(),
            u1.len(),
            v1.as_ptr(),
            v1.len(),
            pred0.as_mut_ptr(),
            pred0.len(),
            pred1.as_mut_ptr(),
            pred1.len(),
        )
    };
    Refusal::check(r.code).map(|()| Predicted::new(r))
}

/// The header of a trace, into the first 13 bytes lent. Refuses 1, 4.
///
/// `poc` is the order count of the picture, `list_poc0` the order count of the first picture in reference
/// 1's own list 0; revc's `refp[1].list_poc[0]`. [`TraceWriter`](crate::TraceWriter) writes whole traces.
///
/// ```
/// use evc_inter::{evc_trace_write_header, Refusal, TRACE_HEADER_LEN};
///
/// let mut out = [0; TRACE_HEADER_LEN];
/// evc_trace_write_header(416, 240, 4, 0, &mut out)?;
/// assert_eq!(out, *b"IPT\x01\0\xa0\x01\xf0\0\x04\0\0\0");
/// let short = evc_trace_write_header(416, 240, 4, 0, &mut out[1..]);
/// assert_eq!(short, Err(Refusal::Buffer));
/// # Ok::<(), Refusal>(())
/// ```
pub fn evc_trace_write_header(
    pic_w: u32,
    pic_h: u32,
    poc: u16,
    list_poc0: u16,
    out: &mut [u8],
) -> Result<(), Refusal> {
    Refusal::check(unsafe {
        ffi::evc_trace_write_header(pic_w, pic_h, poc, list_poc0, out.as_mut_ptr(), out.len())
    })
}

/// A record of a trace, into the first 22 bytes lent. Refuses 1, 4, 12.
///
/// Neither the block nor a count is tested: what a decoder asked for can be kept also where it is
/// refused.
///
/// ```
/// use evc_inter::{evc_trace_write_record, EvcMv, EvcTraceRecord, Refusal, TRACE_RECORD_LEN};
///
/// let mut out = [0; TRACE_RECORD_LEN];
/// let mv1 = EvcMv { x: -2, y: 300 };
/// let record = EvcTraceRecord { x: 16, w: 8, h: 4, kind: 1, mv1, poc1: 8, ..Default::default() };
/// evc_trace_write_record(416, 240, record, &mut out)?;
/// assert_eq!(out, *b"\x10\0\0\0\x08\0\x04\0\x01\0\0\0\0\xfe\xff\x2c\x01\0\0\x08\0\0");
/// let direct = EvcTraceRecord { kind: 3, ..record }; // which has no vectors
/// assert_eq!(evc_trace_write_record(416, 240, direct, &mut out), Err(Refusal::Record));
/// # Ok::<(), Refusal>(())
/// ```
pub fn evc_trace_write_record(
    pic_w: u32,
    pic_h: u32,
    record: EvcTraceRecord,
    out: &mut [u8],
) -> Result<(), Refusal> {
    Refusal::check(unsafe {
        ffi::evc_trace_write_record(pic_w, pic_h, record, out.as_mut_ptr(), out.len())
    })
}

/// A trace's records one after another, their blocks into the target's picture; what clipping has moved
/// of their vectors is counted. Refuses 11, 10, 1, 4, and for each record 11, 12, 2, 5, 6.
///
/// `planes0` and `planes1` are Y, U, V of the references, padded, of the header's size, and needed
/// whole, also if no record uses one; so is the target, whose borders stay. `col_mv` is the motion
/// map of reference 1, or `None` if it has none. [`replay`](crate::replay) does the same over
/// pictures.
///
/// ```
/// use evc_inter::{evc_trace_replay, EvcBlock, Picture, Refusal, TraceRecord, TraceWriter};
///
/// let [mut reference, mut target] = [Picture::new(16, 8)?, Picture::new(16, 8)?];
/// for plane in reference.samples_mut() {
///     plane.fill(300); // with its border
/// }
/// let planes = reference.samples();
/// let mut trace = TraceWriter::new(Vec::new(), 16, 8, 4, 0)?;
/// let block = EvcBlock { pic_w: 16, pic_h: 8, x: 8, y: 0, w: 8, h: 8 };
/// trace.record(TraceRecord::direct(block, 0, 8)?)?;
/// let trace = trace.into_inner();
///
/// let replay = evc_trace_replay(&trace, planes, planes, None, target.samples_mut());
/// assert_eq!((replay.finished, replay.refusal), (1, None));
/// assert_eq!(target.planes[0].row(0)[6..10], [0, 0, 300, 300]);
/// assert!(!replay.moved.any()); // no vector was clipped
///
/// let cut = &trace[..20]; // inside the record
/// let replay = evc_trace_replay(cut, planes, planes, None, target.samples_mut());
/// assert_eq!((replay.finished, replay.refusal), (0, Some(Refusal::Incomplete)));
/// # Ok::<(), std::io::Error>(())
/// ```
pub fn evc_trace_replay(
    trace: &[u8],
    planes0: [&[u16]; 3],
    planes1: [&[u16]; 3],
    col_mv: Option<&[i16]>,
    target: [&mut [u16]; 3],
) -> Replay {
    let ([y0, u0, v0], [y1, u1, v1], [y, u, v]) = (planes0, planes1, target);
    let col = col_mv.unwrap_or(&[]);
    let returned = unsafe {
        ffi::evc_trace_replay(
            trace.as_ptr(),
            trace.len(),
            y0.as_ptr(),
            y0.len(),
            u0.as_ptr(),
            u0.len(),
            v0.as_ptr(),
            v0.len(),
            y1.as_ptr(),
            y1.len(),
            u1.as_ptr(),
            u1.len(),
            v1.as_ptr(),
            v1.len(),
            col_mv.is_some(),
            col.as_ptr(),
            col.len(),
            y.as_mut_ptr(),
            y.len(),
            u.as_mut_ptr(),
            u.len(),
            v.as_mut_ptr(),
            v.len(),
        )
    };
    Replay::new(returned, trace.len())
}

/// The camera movement of a picture, from its motion map and its unit words. Refuses 1, 4.
///
/// Over the units that are coded and not intra, the mean of their list 0 vectors, in luma samples: the
/// exact whole sum, divided once by four times the number of these units. `map_mv` is laid out as for
/// [`evc_get_motion`], `map_scu` as for [`evc_get_avail_inter`].
///
/// ```
/// use evc_inter::{evc_camera_motion, CameraMotion, Refusal, SCU_CODED, SCU_INTRA};
///
/// let words = [SCU_CODED; 2];
/// let panned = [6, 0, 0, 0, 7, 0, 0, 0];
/// let mean = CameraMotion::Moving { x: 1.625, y: 0.0 }; // 13 quarter samples over two units
/// assert_eq!(evc_camera_motion(8, 4, &panned, &words)?, mean);
///
/// let apart = [4, 0, 0, 0, -4, 0, 0, 0]; // the sums decide, not each vector
/// assert_eq!(evc_camera_motion(8, 4, &apart, &words)?, CameraMotion::Still);
///
/// let intra = [SCU_CODED | SCU_INTRA; 2];
/// assert_eq!(evc_camera_motion(8, 4, &panned, &intra)?, CameraMotion::None);
/// assert_eq!(evc_camera_motion(8, 4, &panned[1..], &words), Err(Refusal::Buffer));
/// # Ok::<(), Refusal>(())
/// ```
pub fn evc_camera_motion(
    pic_w: u32,
    pic_h: u32,
    map_mv: &[i16],
    map_scu: &[u32],
) -> Result<CameraMotion, Refusal> {
    let r = unsafe {
        ffi::evc_camera_motion(
            pic_w,
            pic_h,
            map_mv.as_ptr(),
            map_mv.len(),
            map_scu.as_ptr(),
            map_scu.len(),
        )
    };
    Refusal::check(r.code).map(|()| CameraMotion::new(r))
}

/// docs/INTEGRATION.md: -32767 may stand in for -32768, in pictures and places of any size.
#[test]
fn lowest_component() {
    for pic_w in (4..=8128).step_by(4) {
        for w in [4, 8, 16, 32, 64].into_iter().filter(|w| *w <= pic_w) {
            for x in [0, pic_w - w] {
                let block = EvcBlock {
                    pic_w,
                    pic_h: 4,
                    x,
                    y: 0,
                    w,
                    h: 4,
                };
                let clipped = |mvx| evc_mv_clip(block, EvcMv { x: mvx, y: 0 }).unwrap();
                assert_eq!(clipped(-32768), clipped(-32767), "{block:?}");
            }
        }
    }
}
