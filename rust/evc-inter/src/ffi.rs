//! include/evc_inter.h, declaration for declaration: the only one in Rust. The structs that a caller
//! fills or reads are in types.rs.

use crate::{EvcBlock, EvcCandidates, EvcList, EvcMv, EvcTraceRecord};

#[repr(C)]
pub struct EvcAvail {
    pub code: u32,
    pub avail: u16,
}

/// Of each component: 0 not moved, 1 low, 2 high.
#[derive(Clone, Copy)]
#[repr(C)]
pub struct EvcMoved {
    pub x: u8,
    pub y: u8,
}

#[repr(C)]
pub struct EvcClipped {
    pub code: u32,
    pub mv: EvcMv,
    pub moved: EvcMoved,
}

#[repr(C)]
pub struct EvcPredicted {
    pub code: u32,
    pub moved0: EvcMoved,
    pub moved1: EvcMoved,
}

#[repr(C)]
pub struct EvcDirect {
    pub code: u32,
    pub mv0: EvcMv,
    pub mv1: EvcMv,
}

#[repr(C)]
pub struct EvcReplay {
    pub code: u32,
    pub index: u64,
    pub across_low: u64,
    pub across_high: u64,
    pub down_low: u64,
    pub down_high: u64,
}

#[repr(C)]
pub struct EvcCamera {
    pub code: u32,
    pub kind: u32,
    pub x: f64,
    pub y: f64,
}

extern "C" {
    pub fn evc_pad(chroma: bool, pic_w: u32, pic_h: u32, plane: *mut u16, plane_len: usize) -> u32;

    pub fn evc_get_avail_inter(
        block: EvcBlock,
        map_scu: *const u32,
        map_scu_len: usize,
    ) -> EvcAvail;

    pub fn evc_get_avail_inter_slice(
        block: EvcBlock,
        slice_num: u32,
        map_scu: *const u32,
        map_scu_len: usize,
    ) -> EvcAvail;

    pub fn evc_get_motion(
        block: EvcBlock,
        lidx: u32,
        avail: u16,
        map_mv: *const i16,
        map_mv_len: usize,
        has_col: bool,
        col_mv: *const i16,
        col_mv_len: usize,
        cand: *mut EvcCandidates,
    ) -> u32;

    pub fn evc_get_mv_dir(
        block: EvcBlock,
        poc: u32,
        poc0: u32,
        poc1: u32,
        list_poc0: u32,
        has_col: bool,
        col_mv: *const i16,
        col_mv_len: usize,
    ) -> EvcDirect;

    pub fn evc_mv_clip(block: EvcBlock, mv: EvcMv) -> EvcClipped;

    pub fn evc_mc_plane(
        chroma: bool,
        pic_w: u32,
        pic_h: u32,
        ori_mv: EvcMv,
        gmv: EvcMv,
        w: u32,
        h: u32,
        plane: *const u16,
        plane_len: usize,
        pred: *mut u16,
        pred_len: usize,
    ) -> u32;

    pub fn evc_mc2(
        block: EvcBlock,
        list0: EvcList,
        y0: *const u16,
        y0_len: usize,
        u0: *const u16,
        u0_len: usize,
        v0: *const u16,
        v0_len: usize,
        list1: EvcList,
        y1: *const u16,
        y1_len: usize,
        u1: *const u16,
        u1_len: usize,
        v1: *const u16,
        v1_len: usize,
        pred0: *mut u16,
        pred0_len: usize,
        pred1: *mut u16,
        pred1_len: usize,
    ) -> EvcPredicted;

    pub fn evc_trace_write_header(
        pic_w: u32,
        pic_h: u32,
        poc: u16,
        list_poc0: u16,
        out: *mut u8,
        out_len: usize,
    ) -> u32;

    pub fn evc_trace_write_record(
        pic_w: u32,
        pic_h: u32,
        record: EvcTraceRecord,
        out: *mut u8,
        out_len: usize,
    ) -> u32;

    pub fn evc_trace_replay(
        trace: *const u8,
        trace_len: usize,
        y0: *const u16,
        y0_len: usize,
        u0: *const u16,
        u0_len: usize,
        v0: *const u16,
        v0_len: usize,
        y1: *const u16,
        y1_len: usize,
        u1: *const u16,
        u1_len: usize,
        v1: *const u16,
        v1_len: usize,
        has_col: bool,
        col_mv: *const i16,
        col_mv_len: usize,
        y: *mut u16,
        y_len: usize,
        u: *mut u16,
        u_len: usize,
        v: *mut u16,
        v_len: usize,
    ) -> EvcReplay;

    pub fn evc_camera_motion(
        pic_w: u32,
        pic_h: u32,
        map_mv: *const i16,
        map_mv_len: usize,
        map_scu: *const u32,
        map_scu_len: usize,
    ) -> EvcCamera;
}
