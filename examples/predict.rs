//! Predicts a block from half a sample to its right, and notes which vector leads too far out of the
//! picture and why another block is refused.
//!
//!     cargo run --offline --manifest-path rust/Cargo.toml --package evc-inter --example predict

use evc_inter::{EvcBlock, EvcMv, MovedMv, PaddedPicture, Picture, Predictor, Reference, Refusal};

/// A padded picture whose every row is 8 * x.
fn ramp(pic_w: u32, pic_h: u32) -> Result<PaddedPicture, Refusal> {
    let mut picture = Picture::new(pic_w, pic_h)?;
    for row in picture.planes.iter_mut().flat_map(|plane| plane.rows_mut()) {
        for (x, sample) in (0..).zip(row) {
            *sample = 8 * x;
        }
    }
    Ok(picture.pad()?)
}

fn main() -> Result<(), Refusal> {
    let (pic_w, pic_h) = (64, 32);
    let picture = &ramp(pic_w, pic_h)?;
    let near = EvcMv { x: 2, y: 0 }; // two quarter samples to the right
    let far = EvcMv { x: -2000, y: 0 };
    let mut predictor = Predictor::new();

    for (x, mv) in [(16, near), (24, far), (60, near)] {
        let (y, w, h) = (8, 8, 4);
        let block = EvcBlock {
            pic_w,
            pic_h,
            x,
            y,
            w,
            h,
        };
        let list0 = Reference {
            picture,
            mv,
            poc: 0,
        };
        match predictor.predict(block, [Some(list0), None]) {
            Ok(prediction) => {
                print!("a row of the block:");
                for sample in &prediction.plane(0)[..8] {
                    print!(" {sample}");
                }
                println!();
                let [moved, _] = prediction.moved();
                if moved.is_moved() {
                    let MovedMv { x: across, y: down } = moved;
                    println!("reel 7, block at {x}, {y}: vector across {across}, down {down}");
                }
            }
            Err(refusal) => println!("reel 7, block at {x}, {y}: {refusal}"),
        }
    }
    Ok(())
}
