//! The calls of include/evc_inter.h, as the archive has them, on the oracle's types.

use evc_inter::ffi::*;
use evc_inter::{EvcBlock, EvcCandidates, EvcList, EvcMv};
use oracle::model::trace::Replay;
use oracle::model::{Block, Candidates, Moved, Mv, OnePlane, Pocs, Predicted};

fn vector([x, y]: Mv) -> EvcMv {
    EvcMv { x, y }
}

fn block(b: &Block) -> EvcBlock {
    let [[pic_w, pic_h], [x, y], [w, h]] = [b.pic, b.place, b.side];
    EvcBlock {
        pic_w,
        pic_h,
        x,
        y,
        w,
        h,
    }
}

pub fn pad(chroma: bool, [pic_w, pic_h]: [u32; 2], plane: &mut [u16]) -> u32 {
    unsafe { evc_pad(chroma, pic_w, pic_h, plane.as_mut_ptr(), plane.len()) }
}

pub fn avail_inter(b: &Block, words: &[u32]) -> (u32, u16) {
    let r = unsafe { evc_get_avail_inter(block(b), words.as_ptr(), words.len()) };
    (r.code, r.avail)
}

pub fn avail_inter_slice(b: &Block, slice_num: u32, words: &[u32]) -> (u32, u16) {
    let (at, len) = (words.as_ptr(), words.len());
    let r = unsafe { evc_get_avail_inter_slice(block(b), slice_num, at, len) };
    (r.code, r.avail)
}

/// Candidates of list 0, with a collocated map. The record has the layout of the header's.
pub fn motion(b: &Block, avail: u16, map: &[i16], col: &[i16], cand: &mut Record) -> u32 {
    let (map_len, col_len) = (map.len(), col.len());
    let (map, col) = (map.as_ptr(), col.as_ptr());
    unsafe {
        evc_get_motion(
            block(b),
            0,
            avail,
            map,
            map_len,
            true,
            col,
            col_len,
            &mut cand.0,
        )
    }
}

/// The record of candidates as the header has it.
pub struct Record(EvcCandidates);

impl Record {
    pub fn new(c: &Candidates) -> Self {
        let [left, up, up_right, collocated] = c.mv.map(vector);
        let refi = c.refi;
        Record(EvcCandidates {
            left,
            up,
            up_right,
            collocated,
            refi,
        })
    }

    pub fn candidates(&self) -> Candidates {
        let c = &self.0;
        Candidates {
            mv: [c.left, c.up, c.up_right, c.collocated].map(|mv| [mv.x, mv.y]),
            refi: c.refi,
        }
    }
}

pub fn mv_dir(b: &Block, p: &Pocs, col: &[i16]) -> (u32, [Mv; 2]) {
    let (at, len) = (col.as_ptr(), col.len());
    let r = unsafe { evc_get_mv_dir(block(b), p.poc, p.poc0, p.poc1, p.list_poc0, true, at, len) };
    (r.code, [[r.mv0.x, r.mv0.y], [r.mv1.x, r.mv1.y]])
}

pub fn mv_clip(b: &Block, mv: Mv) -> (u32, Mv, Moved) {
    let r = unsafe { evc_mv_clip(block(b), vector(mv)) };
    (r.code, [r.mv.x, r.mv.y], [r.moved.x, r.moved.y])
}

pub fn mc_plane(c: &OnePlane, plane: &[u16], pred: &mut [u16]) -> u32 {
    let ([pic_w, pic_h], [w, h]) = (c.pic, c.side);
    let (mv, gmv) = (vector(c.ori_mv), vector(c.gmv));
    let (at, len) = (plane.as_ptr(), plane.len());
    let (to, room) = (pred.as_mut_ptr(), pred.len());
    unsafe { evc_mc_plane(c.chroma, pic_w, pic_h, mv, gmv, w, h, at, len, to, room) }
}

/// A list of a block: its vector and count if it is in use, and its picture's planes.
pub struct List<'a> {
    pub used: bool,
    pub mv: Mv,
    pub poc: u32,
    pub planes: [&'a [u16]; 3],
}

#[rustfmt::skip]
pub fn mc2(b: &Block, lists: &[List; 2], pred0: &mut [u16], pred1: &mut [u16]) -> Predicted {
    let [list0, list1] = [0, 1].map(|k| {
        let List { used, mv, poc, .. } = lists[k];
        EvcList { used, mv: vector(mv), poc }
    });
    let [[y0, u0, v0], [y1, u1, v1]] = [lists[0].planes, lists[1].planes];
    let r = unsafe {
        evc_mc2(block(b),
            list0, y0.as_ptr(), y0.len(), u0.as_ptr(), u0.len(), v0.as_ptr(), v0.len(),
            list1, y1.as_ptr(), y1.len(), u1.as_ptr(), u1.len(), v1.as_ptr(), v1.len(),
            pred0.as_mut_ptr(), pred0.len(), pred1.as_mut_ptr(), pred1.len())
    };
    Predicted { code: r.code, moved: [[r.moved0.x, r.moved0.y], [r.moved1.x, r.moved1.y]] }
}

/// With a collocated map.
#[rustfmt::skip]
pub fn replay(trace: &[u8], planes: [[&[u16]; 3]; 2], col: &[i16], target: [&mut [u16]; 3]) -> Replay {
    let [[y0, u0, v0], [y1, u1, v1]] = planes;
    let [y, u, v] = target;
    let r = unsafe {
        evc_trace_replay(trace.as_ptr(), trace.len(),
            y0.as_ptr(), y0.len(), u0.as_ptr(), u0.len(), v0.as_ptr(), v0.len(),
            y1.as_ptr(), y1.len(), u1.as_ptr(), u1.len(), v1.as_ptr(), v1.len(),
            true, col.as_ptr(), col.len(),
            y.as_mut_ptr(), y.len(), u.as_mut_ptr(), u.len(), v.as_mut_ptr(), v.len())
    };
    Replay { code: r.code, index: r.index, moved: [r.across_low, r.across_high, r.down_low, r.down_high] }
}

/// The number returned, the kind, and the mean across and down.
pub fn camera_motion([pic_w, pic_h]: [u32; 2], map: &[i16], words: &[u32]) -> (u32, u32, [f64; 2]) {
    let (at, len) = (map.as_ptr(), map.len());
    let r = unsafe { evc_camera_motion(pic_w, pic_h, at, len, words.as_ptr(), words.len()) };
    (r.code, r.kind, [r.x, r.y])
}
