//! The Rust's `Plane::pad` against document 01, 'Planes', by position.

use oracle::cases::{Padding, Rng};
use oracle::{model, plane_config};

/// The sample that document 01 gives to column x and row y: the picture's, at the column and row
/// held to the picture.
fn expected(r: &Padding, before: &[u16], x: usize, y: usize) -> u16 {
    let (pad, origin) = if r.chroma { (40, 48) } else { (80, 80) };
    let half = 1 + usize::from(r.chroma);
    let (pw, ph) = (r.pic_w / half, r.pic_h / half);
    let stride = (origin + pw + pad + 15) / 16 * 16;
    let i = x.saturating_sub(origin).min(pw - 1);
    let j = y.saturating_sub(pad).min(ph - 1);
    before[(pad + j) * stride + origin + i]
}

fn assert_padded(r: Padding) {
    let cfg = plane_config(r.chroma, r.pic_w, r.pic_h);
    let (before, after) = (r.buffer(), r.padded());
    let (rows, spare) = after.split_at(cfg.stride * cfg.alloc_height);
    for (y, row) in rows.chunks(cfg.stride).enumerate() {
        for (x, &sample) in row.iter().enumerate() {
            assert_eq!(sample, expected(&r, &before, x, y), "{r:?} at {x}, {y}");
        }
    }
    assert_eq!(spare, &before[rows.len()..], "{r:?}");

    let mut by_the_document = before;
    let pic = [r.pic_w as u32, r.pic_h as u32];
    assert_eq!(model::pad(r.chroma, pic, &mut by_the_document), 0, "{r:?}");
    for (k, (sample, want)) in after.iter().zip(&by_the_document).enumerate() {
        let (x, y) = (k % cfg.stride, k / cfg.stride);
        assert_eq!(sample, want, "{r:?} at {x}, {y}");
    }
}

/// Every allowed side up to 36, both ways, and some larger ones.
#[test]
fn by_position() {
    let mut rng = Rng(3);
    let small = (4..=36).step_by(4);
    let sizes = small
        .clone()
        .flat_map(|w| small.clone().map(move |h| (w, h)))
        .chain([(176, 144), (8128, 4), (4, 8128), (1920, 1080)]);
    for (pic_w, pic_h) in sizes {
        for chroma in [false, true] {
            assert_padded(Padding {
                chroma,
                pic_w,
                pic_h,
                spare: rng.below(20),
                seed: rng.below(65536) as u16,
                limit: 1024,
            });
        }
    }
}
