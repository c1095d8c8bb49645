//! Calls of util.rs in plain numbers. Motion maps are as document 01 has them, four numbers a unit.

use crate::def::*;
use crate::model::{Block, Candidates, Mv, Pocs};
use crate::picman::EvcRefP;
use std::cell::RefCell;
use std::rc::Rc;

/// The block's first unit, and the picture's sides in units.
fn scus(b: &Block) -> ([usize; 2], [usize; 2]) {
    let scu = |samples: u32| PEL2SCU(samples as usize);
    (b.place.map(scu), b.pic.map(scu))
}

fn scup(b: &Block) -> usize {
    let ([x_scu, y_scu], [w_scu, _]) = scus(b);
    y_scu * w_scu + x_scu
}

fn map_mv(numbers: &[i16]) -> Vec<[[i16; MV_D]; REFP_NUM]> {
    numbers
        .chunks_exact(4)
        .map(|mv| [[mv[0], mv[1]], [mv[2], mv[3]]])
        .collect()
}

/// A reference; counts that it lists behind the first are decoys.
fn refp(poc: u32, list_poc0: u32, map: Option<&[i16]>) -> EvcRefP {
    let mut refp = EvcRefP::new();
    refp.poc = poc;
    refp.list_poc.fill(12345);
    refp.list_poc[0] = list_poc0;
    refp.map_mv = map.map(|map| Rc::new(RefCell::new(map_mv(map))));
    refp
}

/// Unit words, made once for many calls, which copy nothing.
pub struct Words(Vec<MCU>);

impl Words {
    pub fn new(words: &[u32]) -> Self {
        Words(words.iter().map(|word| MCU::from(*word)).collect())
    }

    pub fn evc_get_avail_inter(&self, b: &Block) -> u16 {
        let ([x_scu, y_scu], [w_scu, h_scu]) = scus(b);
        let [cuw, cuh] = b.side.map(|side| side as usize);
        super::evc_get_avail_inter(x_scu, y_scu, w_scu, h_scu, scup(b), cuw, cuh, &self.0)
    }
}

pub fn evc_get_avail_inter(b: &Block, words: &[u32]) -> u16 {
    Words::new(words).evc_get_avail_inter(b)
}

/// The slice number of a unit word.
pub fn get_sn(word: u32) -> u32 {
    MCU::from(word).GET_SN()
}

/// The slice number of a unit word for which this one was set.
pub fn get_sn_after_set(word: u32, slice_num: u32) -> u32 {
    let mut unit = MCU::from(word);
    unit.SET_SN(slice_num);
    unit.GET_SN()
}

/// The motion map and the references for the candidates of one list, made once for many calls.
pub struct Motion {
    lidx: usize,
    map_mv: Vec<[[i16; MV_D]; REFP_NUM]>,
    references: Vec<Vec<EvcRefP>>,
}

impl Motion {
    /// The Rust takes the collocated map of the given list's first reference; the other references
    /// have `decoy`.
    pub fn new(lidx: usize, map: &[i16], col: Option<&[i16]>, decoy: Option<&[i16]>) -> Self {
        let mut references: Vec<Vec<EvcRefP>> = (0..2)
            .map(|_| (0..REFP_NUM).map(|_| refp(1, 2, decoy)).collect())
            .collect();
        references[0][lidx] = refp(1, 2, col);
        Motion {
            lidx,
            map_mv: map_mv(map),
            references,
        }
    }

    pub fn evc_get_motion(&self, b: &Block, avail: u16, cand: &mut Candidates) {
        let (_, [w_scu, _]) = scus(b);
        let [cuw, cuh] = b.side.map(|side| side as usize);
        super::evc_get_motion(
            scup(b),
            self.lidx,
            &self.map_mv,
            &self.references,
            cuw,
            cuh,
            w_scu,
            avail,
            &mut cand.refi,
            &mut cand.mv,
        );
    }
}

pub fn evc_get_motion(
    b: &Block,
    lidx: usize,
    avail: u16,
    map: &[i16],
    col: Option<&[i16]>,
    decoy: Option<&[i16]>,
    old: Candidates,
) -> Candidates {
    let mut cand = old;
    Motion::new(lidx, map, col, decoy).evc_get_motion(b, avail, &mut cand);
    cand
}

/// Both references for direct vectors, made once for many calls.
pub struct Direct {
    poc: u32,
    references: [EvcRefP; REFP_NUM],
}

impl Direct {
    /// The Rust takes the collocated map of reference 1; reference 0 has `decoy`.
    pub fn new(pocs: Pocs, col: Option<&[i16]>, decoy: Option<&[i16]>) -> Self {
        Direct {
            poc: pocs.poc,
            references: [
                refp(pocs.poc0, 54321, decoy),
                refp(pocs.poc1, pocs.list_poc0, col),
            ],
        }
    }

    pub fn evc_get_mv_dir(&self, b: &Block) -> [Mv; 2] {
        let mut mvp = [[1234; MV_D]; REFP_NUM];
        super::evc_get_mv_dir(&self.references, self.poc as i32, scup(b), &mut mvp);
        mvp
    }
}

pub fn evc_get_mv_dir(
    b: &Block,
    pocs: Pocs,
    col: Option<&[i16]>,
    decoy: Option<&[i16]>,
) -> [Mv; 2] {
    Direct::new(pocs, col, decoy).evc_get_mv_dir(b)
}
