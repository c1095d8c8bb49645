//! Blocks of all sizes with vectors of all sorts, made up and the same in every run: what is tried and
//! not shown.

use crate::call::{Call, List};
use crate::coded::{Coded, Kind, References};
use crate::report::{Failure, Result};
use evc_inter::{evc_mv_clip, EvcBlock, EvcMv};
use std::collections::BTreeSet;

/// Numbers that look random, from a linear congruential sequence.
struct Lcg(u64);

impl Lcg {
    fn below(&mut self, n: u32) -> u32 {
        self.0 = self
            .0
            .wrapping_mul(6364136223846793005)
            .wrapping_add(1442695040888963407);
        (((self.0 >> 32) * u64::from(n)) >> 32) as u32
    }

    fn within(&mut self, limit: i32) -> i32 {
        self.below(2 * limit as u32 + 1) as i32 - limit
    }

    /// Mostly near zero, in every phase; now and then across the border, or anywhere. -32768 is left
    /// out: a mirror has to negate it.
    fn mv(&mut self) -> EvcMv {
        let limit = match self.below(16) {
            0 => 32767,
            1 => 512,
            _ => 67,
        };
        let [x, y] = [0, 0].map(|_| self.within(limit) as i16);
        EvcMv { x, y }
    }
}

/// Blocks that cover the picture, each predicted by list 0, by list 1, by both, by both with direct
/// vectors, and by both from one picture with equal vectors, where list 0 alone stands.
pub fn calls(references: &References) -> Result<Vec<Call>> {
    let (pic_w, pic_h) = references.sides();
    let mut calls = Vec::new();
    let mut lcg = Lcg(2); // has every size at 416 by 240
    for y in (0..pic_h).step_by(64) {
        for x in (0..pic_w).step_by(64) {
            let whole = EvcBlock {
                pic_w,
                pic_h,
                x,
                y,
                w: 64,
                h: 64,
            };
            split(whole, &mut lcg, &mut |block, lcg| {
                calls.extend(ways(references, block, [lcg.mv(), lcg.mv()])?);
                Ok(())
            })?;
        }
    }
    Ok(calls)
}

/// What is tried: sizes, vectors by path of luma, and those that clipping moves.
pub fn said(calls: &[Call]) -> Result<String> {
    let sizes: BTreeSet<_> = calls
        .iter()
        .map(|call| (call.block.w, call.block.h))
        .collect();
    let (mut vectors, mut clipped) = (0, 0);
    for call in calls {
        for List { mv, .. } in call.lists.into_iter().flatten() {
            vectors += 1;
            let report = evc_mv_clip(call.block, mv).map_err(Failure::at(call))?;
            clipped += u64::from(report.moved.is_moved());
        }
    }
    Ok(format!(
        "{} predictions of blocks in {} sizes by {vectors} far, near and random vectors, of which {clipped} are clipped",
        calls.len(),
        sizes.len()
    ))
}

/// Those that a trace has room for: list 1 is always the second picture there.
pub fn coded(calls: &[Call]) -> Vec<Coded> {
    let coded = |call: &Call| {
        let kind = match call.lists {
            [Some(_), None] => Kind::List0,
            [None, _] => Kind::List1,
            [Some(_), Some(list1)] if list1.from == 1 => Kind::Both,
            _ => return None,
        };
        let mv = call
            .lists
            .map(|list| list.map_or(EvcMv::default(), |list| list.mv));
        let block = call.block;
        Some(Coded { block, kind, mv })
    };
    calls.iter().filter_map(coded).collect()
}

fn ways(references: &References, block: EvcBlock, mv: [EvcMv; 2]) -> Result<[Call; 5]> {
    let poc = references.poc;
    let place = format!(
        "block of {} by {} at {}, {}",
        block.w, block.h, block.x, block.y
    );
    let direct = references.direct(block).map_err(Failure::at(place))?;
    let list = |from: usize, mv: [EvcMv; 2]| {
        Some(List {
            from,
            mv: mv[from],
            poc: poc[from],
        })
    };
    let call = |lists| Call { block, lists };
    Ok([
        call([list(0, mv), None]),
        call([None, list(1, mv)]),
        call([list(0, mv), list(1, mv)]),
        call([list(0, direct), list(1, direct)]),
        call([list(0, mv), list(0, mv)]),
    ])
}

/// Halves the block until it lies inside the picture and chance has had enough.
fn split(
    b: EvcBlock,
    lcg: &mut Lcg,
    make: &mut impl FnMut(EvcBlock, &mut Lcg) -> Result<()>,
) -> Result<()> {
    if b.x >= b.pic_w || b.y >= b.pic_h {
        return Ok(());
    }
    let fits = b.x + b.w <= b.pic_w && b.y + b.h <= b.pic_h;
    if fits && (b.w.max(b.h) == 4 || lcg.below(3) == 0) {
        return make(b, lcg);
    }
    let is_across = b.h == 4 || b.w > 4 && lcg.below(2) == 0;
    let [first, second] = match is_across {
        true => [b.x, b.x + b.w / 2].map(|x| EvcBlock { x, w: b.w / 2, ..b }),
        false => [b.y, b.y + b.h / 2].map(|y| EvcBlock { y, h: b.h / 2, ..b }),
    };
    split(first, lcg, make)?;
    split(second, lcg, make)
}

#[cfg(test)]
mod tests {
    use super::*;
    use crate::{general, moved, scene};
    use evc_inter::{MovedMv, Picture};

    fn references(w: u32, h: u32) -> References {
        let picture = || Picture::new(w, h).unwrap().pad().unwrap();
        References {
            pictures: [picture(), picture()],
            poc: [2, 7],
            current: 4,
            col_mv: scene::motion_map(w, h, 7, 2),
        }
    }

    /// Each sample is predicted once in every way.
    #[test]
    fn every_sample() {
        for (w, h) in [(4, 4), (68, 132), (64, 8)] {
            let mut times = vec![[0; 5]; (w * h) as usize];
            for (n, call) in calls(&references(w, h)).unwrap().iter().enumerate() {
                let b = call.block;
                for y in b.y..b.y + b.h {
                    (b.x..b.x + b.w).for_each(|x| times[(y * w + x) as usize][n % 5] += 1);
                }
            }
            assert!(times.iter().all(|n| *n == [1; 5]), "{w} by {h}");
        }
    }

    /// A record predicts as its call does.
    #[test]
    fn of_a_trace() {
        let references = references(64, 8);
        let calls = calls(&references).unwrap();
        let mut coded = coded(&calls).into_iter();
        for (n, call) in calls.iter().enumerate().filter(|(n, _)| n % 5 < 4) {
            let again = coded.next().unwrap().call(references.poc);
            assert_eq!(again, *call, "{n}");
        }
        assert_eq!(coded.next(), None);
    }

    /// What is tried at the size of the built-in scene.
    #[test]
    fn sorts() {
        let references = references(416, 240);
        let calls = calls(&references).unwrap();
        let said = said(&calls).unwrap();
        assert!(said.contains("in 25 sizes"), "{said}");
        // Each component is clipped at each side, by each list.
        let reports = calls.iter().map(general::report);
        let counts = |list: usize| {
            let alone = reports.clone().map(|report| report[list]);
            let report = alone.map(|moved| [moved, MovedMv::default()]);
            moved::counts(&report.collect::<Vec<_>>())
        };
        for counts in [counts(0), counts(1)] {
            assert!(counts.across_low > 0 && counts.across_high > 0, "{counts}");
            assert!(counts.down_low > 0 && counts.down_high > 0, "{counts}");
        }
        let lists = || calls.iter().flat_map(|call| call.lists).flatten();
        assert!(lists().all(|list| list.mv.x > -32768 && list.mv.y > -32768));
        assert!(lists().any(|list| list.mv.x.unsigned_abs() > 16000));
        for (across, down) in [(0, 0), (0, 1), (1, 0), (1, 1)] {
            let path = |list: &List| (u8::from(list.mv.x & 3 != 0), u8::from(list.mv.y & 3 != 0));
            assert!(lists().any(|list| path(&list) == (across, down)));
        }
    }
}
