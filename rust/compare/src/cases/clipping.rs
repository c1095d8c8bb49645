//! `evc_mv_clip`.

use super::*;
use crate::numbers::{block, picture, smaller_blocks, smaller_vectors, vector, wild};
use oracle::cases::moved_between;
use oracle::model::{self, Block, Mv};

#[derive(Clone, Debug)]
pub struct Clipping {
    b: Block,
    mv: Mv,
}

/// Any picture side, since nothing is lent.
fn any_picture(rng: &mut Rng) -> [u32; 2] {
    match rng.below(4) {
        0 => picture(rng),
        1 => [wild(8128, rng), wild(64, rng)].map(|n| (n / 4 * 4).clamp(4, 8128)),
        _ => [(); 2].map(|_| 4 + 4 * rng.below(2032) as u32),
    }
}

impl Case for Clipping {
    const NAME: &'static str = "evc_mv_clip";
    type Lent = ();

    fn batch(_: [u32; 2], rng: &mut Rng) -> Vec<Self> {
        let mut one = || {
            let b = block(any_picture(rng), rng);
            let mv = vector(&b, rng);
            Clipping { b, mv }
        };
        (0..BATCH).map(|_| one()).collect()
    }

    fn run(&self, calls: &dyn Calls, _: &mut ()) -> Outcome {
        let Clipping { b, mv } = self;
        let (code, want, moved) = model::clip(b, *mv);
        let got = calls.mv_clip(b, *mv);
        assert_same("code, vector and reports", got, (code, want, moved))?;
        let in_domain = code == 0 && b.in_domain(*mv);
        if in_domain {
            let [[pic_w, pic_h], [x, y], [w, h]] =
                [b.pic, b.place, b.side].map(|pair| pair.map(|n| n as i16));
            let rust = oracle::mv_clip(x, y, pic_w, pic_h, w, h, *mv);
            assert_same("the Rust's vector and the model's", rust, want)?;
            let changed = moved_between(*mv, rust);
            assert_same("what the Rust changed and the reports", changed, moved)?;
        }
        Ok(Seen { code, in_domain })
    }

    fn smaller(&self) -> Vec<Self> {
        let blocks = smaller_blocks(&self.b).into_iter();
        let vectors = smaller_vectors(self.mv).into_iter();
        blocks
            .map(|b| Clipping { b, ..*self })
            .chain(vectors.map(|mv| Clipping { mv, ..*self }))
            .collect()
    }
}
