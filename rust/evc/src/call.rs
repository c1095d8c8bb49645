//! One prediction: a block, and what each list takes for it.

use evc_inter::{EvcBlock, EvcMv, PaddedPicture, Prediction, Predictor, Reference, Refusal};
use std::fmt;

/// What a list takes its samples from: one of two pictures.
#[derive(Clone, Copy, Debug, PartialEq)]
pub struct List {
    pub from: usize,
    pub mv: EvcMv,
    pub poc: u32,
}

/// A block, and the lists in use.
#[derive(Clone, Copy, Debug, PartialEq)]
pub struct Call {
    pub block: EvcBlock,
    pub lists: [Option<List>; 2],
}

impl fmt::Display for Call {
    fn fmt(&self, f: &mut fmt::Formatter<'_>) -> fmt::Result {
        let b = &self.block;
        write!(f, "block of {} by {} at {}, {}", b.w, b.h, b.x, b.y)?;
        for (k, list) in self.lists.iter().enumerate() {
            if let Some(List { mv, .. }) = list {
                write!(f, ", list {k} by ({}, {})", mv.x, mv.y)?;
            }
        }
        Ok(())
    }
}

impl Call {
    pub fn predict<'a>(
        &self,
        pictures: &[PaddedPicture; 2],
        predictor: &'a mut Predictor,
    ) -> Result<Prediction<'a>, Refusal> {
        let reference = |list: List| Reference {
            picture: &pictures[list.from],
            mv: list.mv,
            poc: list.poc,
        };
        predictor.predict(self.block, self.lists.map(|list| list.map(reference)))
    }
}
