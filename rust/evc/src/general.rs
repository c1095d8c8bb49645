//! Demand 3's general filter, one sample at a time as document 01 writes it out.

use crate::call::Call;
use crate::moved::Report;
use crate::y4m::PLANES;
use evc_inter::{cu_plane, EvcBlock, EvcMv, Moved, MovedMv, PaddedPicture, Plane};

const TBL_MC_L_COEFF: [[i32; 6]; 4] = [
    [0, 0, 64, 0, 0, 0],
    [1, -5, 52, 20, -5, 1],
    [2, -10, 40, 40, -10, 2],
    [1, -5, 20, 52, -5, 1],
];

const TBL_MC_C_COEFF: [[i32; 4]; 8] = [
    [0, 64, 0, 0],
    [-2, 58, 10, -2],
    [-4, 52, 20, -4],
    [-6, 46, 30, -6],
    [-8, 40, 40, -8],
    [-6, 30, 46, -6],
    [-4, 20, 52, -4],
    [-2, 10, 58, -2],
];

/// Where the filter runs: demand 3 says the clipped place, document 02's W6 the exact one.
#[derive(Clone, Copy, PartialEq)]
pub enum Place {
    Clipped,
    Exact,
}

/// Where a vector leads, and the limits that clipping holds it to, in quarter samples.
fn place(at: u32, mv: i16, side: u32, pic: u32) -> (i32, [i32; 2]) {
    let [at, side, pic] = [at, side, pic].map(|n| n as i32);
    (4 * at + i32::from(mv), [-256, 4 * (pic + 64 - side)])
}

/// A place on plane `c`: the taps of its phase, and where they begin.
fn taps(c: usize, which: Place, at: u32, mv: i16, side: u32, pic: u32) -> (&'static [i32], i32) {
    let (exact, [low, high]) = place(at, mv, side, pic);
    let place = match which {
        Place::Clipped => exact.clamp(low, high),
        Place::Exact => exact,
    };
    match c {
        0 => (&TBL_MC_L_COEFF[(place & 3) as usize], (place >> 2) - 2),
        _ => (&TBL_MC_C_COEFF[(place & 7) as usize], (place >> 3) - 1),
    }
}

/// One list's prediction of plane `c`, over the plane prolonged by its edge samples.
fn predicted(plane: &Plane, c: usize, b: &EvcBlock, mv: EvcMv, which: Place) -> Vec<u16> {
    let (across, left) = taps(c, which, b.x, mv.x, b.w, b.pic_w);
    let (down, top) = taps(c, which, b.y, mv.y, b.h, b.pic_h);
    let half = if c == 0 { 1 } else { 2 };
    let [w, h] = [b.w, b.h].map(|side| (side / half) as usize);
    let held = |n: i32, side: usize| n.clamp(0, side as i32 - 1) as usize;

    let mut first = Vec::new(); // the results of the taps across, w to a row
    for j in 0..h + down.len() - 1 {
        let row = plane.row(held(top + j as i32, plane.cfg().height));
        for i in 0..w as i32 {
            let samples = (left + i..).map(|n| i32::from(row[held(n, row.len())]));
            let sum: i32 = across.iter().zip(samples).map(|(a, s)| a * s).sum();
            first.push(sum >> 2);
        }
    }
    let second = |k: usize| {
        let column = first[k..].iter().step_by(w);
        let sum: i32 = down.iter().zip(column).map(|(a, s)| a * s).sum();
        ((sum + 512) >> 10).clamp(0, 1023) as u16
    };
    (0..w * h).map(second).collect()
}

/// Document 02, W2: "for each component whether it was moved to the low side, the high side or not at
/// all"; nothing of a list not in use.
pub fn report(call: &Call) -> Report {
    let b = &call.block;
    let moved = |at, mv, side, pic| match place(at, mv, side, pic) {
        (exact, [low, _]) if exact < low => Moved::Low,
        (exact, [_, high]) if exact > high => Moved::High,
        _ => Moved::Not,
    };
    call.lists.map(|list| {
        list.map_or(MovedMv::default(), |list| MovedMv {
            x: moved(b.x, list.mv.x, b.w, b.pic_w),
            y: moved(b.y, list.mv.y, b.h, b.pic_h),
        })
    })
}

/// The first sample of the first block that the general filter does not give there, if there is one.
pub fn difference(
    call: &Call,
    pictures: &[PaddedPicture; 2],
    pred0: &[u16],
    which: Place,
) -> Option<String> {
    let b = &call.block;
    (0..3).find_map(|c| {
        let lists = call.lists.iter().flatten().map(|list| {
            let plane = &pictures[list.from].planes()[c];
            predicted(plane, c, b, list.mv, which)
        });
        let average =
            |a: Vec<u16>, b: Vec<u16>| a.iter().zip(b).map(|(a, b)| (a + b + 1) >> 1).collect();
        let want = lists.reduce(average)?;
        let got = cu_plane(pred0, c, b.w, b.h);
        let k = (0..got.len()).find(|k| got[*k] != want[*k])?;
        let plane = PLANES[c];
        let place = match which {
            Place::Clipped => "clipped",
            Place::Exact => "exact",
        };
        Some(format!(
            "plane {plane}, sample {k}: {} predicted, {} by the general filter at the {place} place",
            got[k], want[k]
        ))
    })
}

#[cfg(test)]
mod tests {
    use super::*;
    use crate::call::List;

    /// Document 01's edges on luma, taken through both stages.
    #[test]
    fn edges() {
        for (samples, phase, want) in [
            ([0, 0, 1023, 1023, 0, 0], 2, 1023),
            ([1023, 1023, 0, 0, 1023, 1023], 2, 0),
            ([0, 0, 100, 200, 0, 0], 1, 144),
            ([0, 0, 100, 200, 0, 0], 3, 194),
        ] {
            let mut plane = Plane::new(false, 8, 4).unwrap();
            plane
                .rows_mut()
                .for_each(|row| row[..6].copy_from_slice(&samples));
            let block = EvcBlock {
                pic_w: 8,
                pic_h: 4,
                x: 0,
                y: 0,
                w: 4,
                h: 4,
            };
            let mv = EvcMv { x: 8 + phase, y: 0 };
            assert_eq!(predicted(&plane, 0, &block, mv, Place::Clipped)[0], want);
        }
    }

    /// W2's sides: at a limit and a quarter sample past it, across by list 0 and down by list 1.
    #[test]
    fn reports() {
        let block = EvcBlock {
            pic_w: 64,
            pic_h: 32,
            x: 16,
            y: 8,
            w: 8,
            h: 4,
        };
        let still = MovedMv::default();
        let across = |x| MovedMv { x, ..still };
        let down = |y| MovedMv { y, ..still };
        for (x, y, want) in [
            (-320, -288, [still; 2]),
            (-321, 336, [across(Moved::Low), still]),
            (416, -289, [still, down(Moved::Low)]),
            (417, 337, [across(Moved::High), down(Moved::High)]),
            (-32768, 32767, [across(Moved::Low), down(Moved::High)]),
        ] {
            let list = |mv| {
                let (from, poc) = (0, 0);
                Some(List { from, mv, poc })
            };
            let lists = [list(EvcMv { x, y: 0 }), list(EvcMv { x: 0, y })];
            let call = Call { block, lists };
            assert_eq!(report(&call), want);
            let alone = Call {
                lists: [None, lists[1]],
                ..call
            };
            assert_eq!(report(&alone), [still, want[1]]);
        }
    }

    /// W6's counterexample.
    #[test]
    fn places() {
        let mut plane = Plane::new(false, 64, 4).unwrap();
        plane.rows_mut().for_each(|row| row[1] = 1023);
        let block = EvcBlock {
            pic_w: 64,
            pic_h: 4,
            x: 0,
            y: 0,
            w: 64,
            h: 4,
        };
        let mv = EvcMv { x: -257, y: 0 };
        for (which, want) in [(Place::Clipped, 0), (Place::Exact, 16)] {
            assert_eq!(predicted(&plane, 0, &block, mv, which)[63], want);
        }
    }
}
