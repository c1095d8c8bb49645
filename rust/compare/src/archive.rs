//! The calls of the archive on the oracle's types, by the declarations of evc-inter.

use evc_inter::{ffi, EvcBlock, EvcCandidates, EvcList, EvcMv, EvcTraceRecord};
use oracle::model::camera::Camera;
use oracle::model::trace::{Lent, Record, Replay};
use oracle::model::{Block, Collocated, List, Moved, Mv, OnePlane, Pocs, Predicted};

/// Whoever is compared: the archive, or a faulty one in a test.
pub trait Calls {
    fn pad(&self, chroma: bool, pic: [u32; 2], plane: &mut [u16]) -> u32;
    fn get_avail_inter(&self, b: &Block, words: &[u32]) -> (u32, u16);
    fn get_avail_inter_slice(&self, b: &Block, slice_num: u32, words: &[u32]) -> (u32, u16);
    fn get_motion(
        &self,
        b: &Block,
        lidx: u32,
        avail: u16,
        map: &[i16],
        col: Collocated,
        cand: &mut EvcCandidates,
    ) -> u32;
    fn get_mv_dir(&self, b: &Block, pocs: Pocs, col: Collocated) -> (u32, [Mv; 2]);
    fn mv_clip(&self, b: &Block, mv: Mv) -> (u32, Mv, Moved);
    fn mc_plane(&self, c: &OnePlane, plane: &[u16], pred: &mut [u16]) -> u32;
    fn mc2(&self, b: &Block, lists: &[List; 2], pred0: &mut [u16], pred1: &mut [u16]) -> Predicted;
    fn write_header(&self, pic: [u32; 2], poc: u16, list_poc0: u16, out: &mut [u8]) -> u32;
    fn write_record(&self, pic: [u32; 2], record: &Record, out: &mut [u8]) -> u32;
    fn replay(&self, lent: Lent, target: [&mut [u16]; 3]) -> Replay;
    fn camera_motion(&self, pic: [u32; 2], map: &[i16], words: &[u32]) -> Camera;
}

pub struct Archive;

fn block(b: &Block) -> EvcBlock {
    let Block {
        pic: [pic_w, pic_h],
        place: [x, y],
        side: [w, h],
    } = *b;
    EvcBlock {
        pic_w,
        pic_h,
        x,
        y,
        w,
        h,
    }
}

fn vector([x, y]: Mv) -> EvcMv {
    EvcMv { x, y }
}

fn pair(mv: EvcMv) -> Mv {
    [mv.x, mv.y]
}

fn reports(moved: ffi::EvcMoved) -> Moved {
    [moved.x, moved.y]
}

/// An empty buffer is lent as C's callers do it, without a place.
fn pointer<T>(buffer: &[T]) -> *const T {
    match buffer {
        [] => std::ptr::null(),
        _ => buffer.as_ptr(),
    }
}

fn pointer_mut<T>(buffer: &mut [T]) -> *mut T {
    match buffer {
        [] => std::ptr::null_mut(),
        _ => buffer.as_mut_ptr(),
    }
}

// SAFETY, of all calls below: every pointer goes with the length of its slice.
impl Calls for Archive {
    fn pad(&self, chroma: bool, [pic_w, pic_h]: [u32; 2], plane: &mut [u16]) -> u32 {
        unsafe { ffi::evc_pad(chroma, pic_w, pic_h, pointer_mut(plane), plane.len()) }
    }

    fn get_avail_inter(&self, b: &Block, words: &[u32]) -> (u32, u16) {
        let r = unsafe { ffi::evc_get_avail_inter(block(b), pointer(words), words.len()) };
        (r.code, r.avail)
    }

    fn get_avail_inter_slice(&self, b: &Block, slice_num: u32, words: &[u32]) -> (u32, u16) {
        let (map_scu, len) = (pointer(words), words.len());
        let r = unsafe { ffi::evc_get_avail_inter_slice(block(b), slice_num, map_scu, len) };
        (r.code, r.avail)
    }

    fn get_motion(
        &self,
        b: &Block,
        lidx: u32,
        avail: u16,
        map: &[i16],
        col: Collocated,
        cand: &mut EvcCandidates,
    ) -> u32 {
        let (map_mv, len) = (pointer(map), map.len());
        let (col_mv, col_len) = (pointer(col.map), col.map.len());
        let has_col = col.is_present;
        unsafe {
            ffi::evc_get_motion(
                block(b),
                lidx,
                avail,
                map_mv,
                len,
                has_col,
                col_mv,
                col_len,
                cand,
            )
        }
    }

    fn get_mv_dir(&self, b: &Block, p: Pocs, col: Collocated) -> (u32, [Mv; 2]) {
        let (col_mv, col_len) = (pointer(col.map), col.map.len());
        let has_col = col.is_present;
        let r = unsafe {
            ffi::evc_get_mv_dir(
                block(b),
                p.poc,
                p.poc0,
                p.poc1,
                p.list_poc0,
                has_col,
                col_mv,
                col_len,
            )
        };
        (r.code, [pair(r.mv0), pair(r.mv1)])
    }

    fn mv_clip(&self, b: &Block, mv: Mv) -> (u32, Mv, Moved) {
        let r = unsafe { ffi::evc_mv_clip(block(b), vector(mv)) };
        (r.code, pair(r.mv), reports(r.moved))
    }

    fn mc_plane(&self, c: &OnePlane, plane: &[u16], pred: &mut [u16]) -> u32 {
        let ([pic_w, pic_h], [w, h]) = (c.pic, c.side);
        unsafe {
            ffi::evc_mc_plane(
                c.chroma,
                pic_w,
                pic_h,
                vector(c.ori_mv),
                vector(c.gmv),
                w,
                h,
                pointer(plane),
                plane.len(),
                pointer_mut(pred),
                pred.len(),
            )
        }
    }

    fn mc2(&self, b: &Block, lists: &[List; 2], pred0: &mut [u16], pred1: &mut [u16]) -> Predicted {
        let [list0, list1] = lists.each_ref().map(|l| EvcList {
            used: l.used,
            mv: vector(l.mv),
            poc: l.poc,
        });
        let [[y0, u0, v0], [y1, u1, v1]] = lists.each_ref().map(|l| l.planes);
        let r = unsafe {
            ffi::evc_mc2(
                block(b),
                list0,
                pointer(y0),
                y0.len(),
                pointer(u0),
                u0.len(),
                pointer(v0),
                v0.len(),
                list1,
                pointer(y1),
                y1.len(),
                pointer(u1),
                u1.len(),
                pointer(v1),
                v1.len(),
                pointer_mut(pred0),
                pred0.len(),
                pointer_mut(pred1),
                pred1.len(),
            )
        };
        Predicted {
            code: r.code,
            moved: [r.moved0, r.moved1].map(reports),
        }
    }

    fn write_header(
        &self,
        [pic_w, pic_h]: [u32; 2],
        poc: u16,
        list_poc0: u16,
        out: &mut [u8],
    ) -> u32 {
        let (at, len) = (pointer_mut(out), out.len());
        unsafe { ffi::evc_trace_write_header(pic_w, pic_h, poc, list_poc0, at, len) }
    }

    fn write_record(&self, [pic_w, pic_h]: [u32; 2], r: &Record, out: &mut [u8]) -> u32 {
        let Record {
            place: [x, y],
            side: [w, h],
            kind,
            mv,
            poc: [poc0, poc1],
        } = *r;
        let [mv0, mv1] = mv.map(vector);
        let record = EvcTraceRecord {
            x,
            y,
            w,
            h,
            kind,
            mv0,
            mv1,
            poc0,
            poc1,
        };
        unsafe { ffi::evc_trace_write_record(pic_w, pic_h, record, pointer_mut(out), out.len()) }
    }

    fn replay(&self, lent: Lent, target: [&mut [u16]; 3]) -> Replay {
        let [[y0, u0, v0], [y1, u1, v1]] = lent.planes;
        let [y, u, v] = target;
        let r = unsafe {
            ffi::evc_trace_replay(
                pointer(lent.trace),
                lent.trace.len(),
                pointer(y0),
                y0.len(),
                pointer(u0),
                u0.len(),
                pointer(v0),
                v0.len(),
                pointer(y1),
                y1.len(),
                pointer(u1),
                u1.len(),
                pointer(v1),
                v1.len(),
                lent.col.is_present,
                pointer(lent.col.map),
                lent.col.map.len(),
                pointer_mut(y),
                y.len(),
                pointer_mut(u),
                u.len(),
                pointer_mut(v),
                v.len(),
            )
        };
        Replay {
            code: r.code,
            index: r.index,
            moved: [r.across_low, r.across_high, r.down_low, r.down_high],
        }
    }

    fn camera_motion(&self, [pic_w, pic_h]: [u32; 2], map: &[i16], words: &[u32]) -> Camera {
        let (map_mv, len) = (pointer(map), map.len());
        let (map_scu, words_len) = (pointer(words), words.len());
        let r = unsafe { ffi::evc_camera_motion(pic_w, pic_h, map_mv, len, map_scu, words_len) };
        Camera {
            code: r.code,
            kind: r.kind,
            mean: [r.x, r.y].map(f64::to_bits),
        }
    }
}
