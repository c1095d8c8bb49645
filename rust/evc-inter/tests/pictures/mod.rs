//! Pictures of samples that look random, padded.

use crate::lcg::Lcg;
use evc_inter::{PaddedPicture, Picture};

impl Lcg {
    pub fn below(&mut self, n: u32) -> u32 {
        self.next() % n
    }

    pub fn picture(&mut self, pic_w: u32, pic_h: u32) -> PaddedPicture {
        let mut picture = Picture::new(pic_w, pic_h).unwrap();
        for row in picture.planes.iter_mut().flat_map(|p| p.rows_mut()) {
            row.fill_with(|| self.below(1024) as u16);
        }
        picture.pad().unwrap()
    }
}
