//! Document 02, W6: where clipping cannot be seen, and a block predicted as its four quarters.

use crate::call::{Call, List};
use crate::y4m::PLANES;
use evc_inter::{cu_plane, evc_mv_clip, EvcBlock, Refusal};

/// Clipping shows along a side of 64 alone, where it moves a vector by one to three quarter samples.
pub fn is_clipping_hidden(call: &Call) -> Result<bool, Refusal> {
    let b = call.block;
    let shows =
        |side: u32, mv: i16, clipped: i16| side == 64 && (1..=3).contains(&mv.abs_diff(clipped));
    for List { mv, .. } in call.lists.into_iter().flatten() {
        let clipped = evc_mv_clip(b, mv)?.mv;
        if shows(b.w, mv.x, clipped.x) || shows(b.h, mv.y, clipped.y) {
            return Ok(false);
        }
    }
    Ok(true)
}

/// Upper left, upper right, lower left, lower right; none below sides of 8.
pub fn quarters(b: &EvcBlock) -> Option<[EvcBlock; 4]> {
    let (w, h) = (b.w / 2, b.h / 2);
    let quarter = |k: u32| EvcBlock {
        x: b.x + k % 2 * w,
        y: b.y + k / 2 * h,
        w,
        h,
        ..*b
    };
    (w >= 4 && h >= 4).then(|| [0, 1, 2, 3].map(quarter))
}

/// The first sample of the n-th quarter that is not the block's, if there is one.
pub fn difference(b: &EvcBlock, whole: &[u16], n: usize, quarter: &[u16]) -> Option<String> {
    (0..3).find_map(|c| {
        let q = cu_plane(quarter, c, b.w / 2, b.h / 2);
        let half = if c == 0 { 1 } else { 2 };
        let [w, h] = [b.w, b.h].map(|side| (side / 2 / half) as usize);
        let at = |k: usize| (n / 2 * h + k / w) * 2 * w + n % 2 * w + k % w;
        let whole = cu_plane(whole, c, b.w, b.h);
        let k = (0..w * h).find(|k| q[*k] != whole[at(*k)])?;
        let plane = PLANES[c];
        Some(format!(
            "plane {plane}, quarter {n}, column {}, row {}: {} by the quarter, {} by the block",
            k % w,
            k / w,
            q[k],
            whole[at(k)]
        ))
    })
}

#[cfg(test)]
mod tests {
    use super::*;
    use evc_inter::EvcMv;

    fn block(w: u32, h: u32) -> EvcBlock {
        EvcBlock {
            pic_w: 128,
            pic_h: 128,
            x: 8,
            y: 4,
            w,
            h,
        }
    }

    #[test]
    fn hidden() {
        for (side, moved, want) in [
            (64, 0, true),
            (64, 1, false),
            (64, 3, false),
            (64, 4, true),
            (32, 1, true),
        ] {
            // past the low limit across by list 0, past the high limit down by list 1
            let low = -256 - 4 * 8 - moved;
            let high = 4 * (128 + 64 - side as i16 - 4) + moved;
            let list = |mv| {
                Some(List {
                    from: 0,
                    mv,
                    poc: 0,
                })
            };
            let still = list(EvcMv::default());
            for (block, lists) in [
                (block(side, 4), [list(EvcMv { x: low, y: 0 }), still]),
                (block(side, 4), [list(EvcMv { x: low, y: 0 }), None]),
                (block(4, side), [still, list(EvcMv { x: 0, y: high })]),
            ] {
                assert_eq!(is_clipping_hidden(&Call { block, lists }), Ok(want));
            }
        }
    }

    #[test]
    fn four() {
        assert_eq!(quarters(&block(4, 8)), None);
        assert_eq!(quarters(&block(8, 4)), None);
        let all = quarters(&block(16, 8)).unwrap();
        let places = all.map(|b| (b.x, b.y, b.w, b.h));
        assert_eq!(
            places,
            [(8, 4, 8, 4), (16, 4, 8, 4), (8, 8, 8, 4), (16, 8, 8, 4)]
        );
    }

    #[test]
    fn differences() {
        let b = block(8, 8);
        let mut whole = [0; evc_inter::CU_LEN];
        let mut quarter = whole;
        for n in 0..4 {
            assert_eq!(difference(&b, &whole, n, &quarter), None);
        }
        whole[4096 + 3 * 4 + 2] = 9; // U, column 2 and row 3 of 4 by 4: the lower right quarter
        for n in 0..3 {
            assert_eq!(difference(&b, &whole, n, &quarter), None);
        }
        let said = difference(&b, &whole, 3, &quarter).unwrap();
        assert_eq!(
            said,
            "plane U, quarter 3, column 0, row 1: 0 by the quarter, 9 by the block"
        );
        quarter[4096 + 2] = 9;
        assert_eq!(difference(&b, &whole, 3, &quarter), None);
    }
}
