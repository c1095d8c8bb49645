//! Calls of mc.rs in plain numbers.

use crate::def::*;
use crate::model::{Block, Mv, OnePlane};
use crate::picman::{EvcPic, EvcRefP};
use crate::plane::Plane;
use crate::standins::frame::Frame;
use std::cell::RefCell;
use std::rc::Rc;

/// A list in use has its picture at 0.
fn refi_of(used: [bool; REFP_NUM]) -> [i8; REFP_NUM] {
    used.map(|used| if used { 0 } else { REFI_INVALID })
}

/// `mv_clip` with list 0 alone in use.
pub fn mv_clip(x: i16, y: i16, pic_w: i16, pic_h: i16, w: i16, h: i16, mv: [i16; 2]) -> [i16; 2] {
    let refi = [0, REFI_INVALID];
    let mut mv_t = [[0; MV_D]; REFP_NUM];
    super::mv_clip(x, y, pic_w, pic_h, w, h, &refi, &[mv, mv], &mut mv_t);
    mv_t[REFP_0]
}

/// `mv_clip` of both lists; the vector of one that is not in use is copied.
pub fn mv_clip_of_lists(b: &Block, used: [bool; REFP_NUM], mv: [Mv; REFP_NUM]) -> [Mv; REFP_NUM] {
    let [[pic_w, pic_h], [x, y], [w, h]] = [b.pic, b.place, b.side].map(|n| n.map(|n| n as i16));
    let mut mv_t = [[0; MV_D]; REFP_NUM];
    super::mv_clip(x, y, pic_w, pic_h, w, h, &refi_of(used), &mv, &mut mv_t);
    mv_t
}

/// `evc_mc_l` or `evc_mc_c`, over a plane of the call's picture.
pub fn evc_mc_plane(c: &OnePlane, plane: &Plane<pel>, pred: &mut [pel]) {
    let [ori_mv_x, ori_mv_y] = c.ori_mv;
    let [gmv_x, gmv_y] = c.gmv;
    let [cuw, cuh] = c.side.map(|side| side as i16);
    let evc_mc = if c.chroma {
        super::evc_mc_c
    } else {
        super::evc_mc_l
    };
    evc_mc(ori_mv_x, ori_mv_y, plane, gmv_x, gmv_y, pred, cuw, cuh)
}

/// Luma, cb and cr, made once; a clone shares them.
#[derive(Clone)]
pub struct Picture(Rc<RefCell<Frame<pel>>>);

impl Picture {
    pub fn new(planes: [Plane<pel>; 3]) -> Self {
        Picture(Rc::new(RefCell::new(Frame { planes })))
    }
}

/// The pictures of both lists with their counts. Made once for many calls, which copy no plane.
pub struct References(Vec<Vec<EvcRefP>>);

impl References {
    pub fn new(pictures: [&Picture; REFP_NUM], pocs: [u32; REFP_NUM]) -> Self {
        let refp = |list: usize| {
            let pic = EvcPic {
                frame: Rc::clone(&pictures[list].0),
                poc: pocs[list],
                ..EvcPic::default()
            };
            let mut refp = EvcRefP::new();
            refp.pic = Some(Rc::new(RefCell::new(pic)));
            refp.poc = pocs[list];
            refp
        };
        References(vec![vec![refp(REFP_0), refp(REFP_1)]])
    }

    /// A list in use refers to its picture; that of a list not in use is a decoy.
    pub fn evc_mc2(
        &self,
        b: &Block,
        used: [bool; REFP_NUM],
        mv: [Mv; REFP_NUM],
        pred0: &mut [pel],
        pred1: &mut [pel],
    ) {
        let [[pic_w, pic_h], [x, y], [w, h]] =
            [b.pic, b.place, b.side].map(|n| n.map(|n| n as i16));
        let refi = refi_of(used);
        super::evc_mc2(x, y, pic_w, pic_h, w, h, &refi, &mv, &self.0, pred0, pred1);
    }
}

/// Why one list is enough: list 1 is clipped as list 0 is, and a list not in use stays.
#[test]
fn mv_clip_by_lists() {
    use crate::cases::*;
    let inside: Vec<_> = corners(64)
        .into_iter()
        .filter(Component::in_domain)
        .collect();
    for &x in &inside {
        for &y in &inside {
            let mv = [x.mv, y.mv];
            let clipped = clip(x, y);
            let b = Block {
                pic: [x.pic, y.pic].map(|n| n as u32),
                place: [x.place, y.place].map(|n| n as u32),
                side: [x.side, y.side].map(|n| n as u32),
            };
            for (used, want) in [
                ([true, false], [clipped, mv]),
                ([false, true], [mv, clipped]),
                ([true, true], [clipped, clipped]),
                ([false, false], [mv, mv]),
            ] {
                let got = mv_clip_of_lists(&b, used, [mv, mv]);
                assert_eq!(got, want, "{x:?} {y:?} {used:?}");
            }
        }
    }
}
