//! Document 02's W4, "A camera movement field": a summary of a picture's motion map with its unit words. In whole
//! numbers alone, the means too, since the machine's division is among what is compared with it.

use super::*;
use std::fmt;

/// "The reading is one of three: no such unit; still, when both sums are zero; or moving".
pub const NO_SUCH_UNIT: u32 = 0;
pub const STILL: u32 = 1;
pub const MOVING: u32 = 2;

/// The number returned, the reading, and "the mean across and down as double-precision numbers": the bits of each,
/// in which +0.0 and -0.0 differ; 0 unless moving.
#[derive(Clone, Copy, PartialEq)]
pub struct Camera {
    pub code: u32,
    pub kind: u32,
    pub mean: [u64; 2],
}

impl Camera {
    /// "It refuses .. with the first reading."
    pub fn refused(code: u32) -> Self {
        Camera {
            code,
            kind: NO_SUCH_UNIT,
            mean: [0; 2],
        }
    }
}

/// As the programs print it: bits in sixteen digits.
impl fmt::Display for Camera {
    fn fmt(&self, f: &mut fmt::Formatter) -> fmt::Result {
        let [x, y] = self.mean;
        write!(f, "{} {} {x:016x} {y:016x}", self.code, self.kind)
    }
}

/// And what the bits stand for.
impl fmt::Debug for Camera {
    fn fmt(&self, f: &mut fmt::Formatter) -> fmt::Result {
        let [x, y] = self.mean.map(f64::from_bits);
        write!(f, "{self} ({x:?}, {y:?})")
    }
}

/// "over units coded and not intra"
pub fn is_counted(word: u32) -> bool {
    is_coded(word) && !is_intra(word)
}

/// The number returned and the reading.
pub fn camera_motion(pic: [u32; 2], map: &[i16], words: &[u32]) -> Camera {
    let b = Block {
        pic,
        place: [0; 2],
        side: [4; 2],
    };
    let units = b.units();
    // "It refuses 1, then 4"
    let code = first_refusal(&[
        (1, is_picture_refused(pic)),
        (4, map.len() < 4 * units || words.len() < units),
    ]);
    if code != 0 {
        return Camera::refused(code);
    }
    let counted = (0..units).filter(|unit| is_counted(words[*unit]));
    let vectors: Vec<Mv> = counted.map(|unit| vector(map, unit, 0)).collect();
    let sum = |d: usize| vectors.iter().map(|mv| i128::from(mv[d])).sum();
    let sums = [sum(0), sum(1)];
    let kind = if vectors.is_empty() {
        NO_SUCH_UNIT
    } else if sums == [0, 0] {
        STILL
    } else {
        MOVING
    };
    let mean = match kind {
        MOVING => sums.map(|sum| mean(sum, vectors.len())),
        _ => [0; 2],
    };
    Camera { code, kind, mean }
}

/// "Each mean is the exact whole sum divided once by four times the number of units.": the bits of the nearest
/// double-precision number, of two equally near ones that with an even last place; +0.0 for 0. The quotient is
/// neither too large nor too small for a number of 53 places.
pub fn mean(sum: i128, units: usize) -> u64 {
    let (dividend, divisor) = (sum.unsigned_abs(), 4 * units as u128);
    if dividend == 0 {
        return 0;
    }
    let exponent = leading_place(dividend, divisor);
    // so many times the quotient has 53 places before the point
    let (dividend, divisor) = scaled(dividend, divisor, 52 - exponent);
    let (quotient, rest) = (dividend / divisor, dividend % divisor);
    let is_odd = quotient % 2 == 1;
    let is_up = 2 * rest > divisor || 2 * rest == divisor && is_odd;
    // The first of the 53 places is not among the bits. Where rounding up gives one place more, all others are 0,
    // and the sum goes over into the exponent, as it has to.
    let places = quotient as u64 - (1 << 52) + u64::from(is_up);
    let sign = u64::from(sum < 0) << 63;
    sign + ((1023 + exponent) as u64) * (1 << 52) + places
}

/// The exponent e of a quotient from 2^e on and below 2^(e + 1).
fn leading_place(dividend: u128, divisor: u128) -> i32 {
    let places = |n: u128| 128 - n.leading_zeros() as i32;
    let most = places(dividend) - places(divisor);
    let (dividend, least) = scaled(dividend, divisor, -most);
    if dividend < least {
        most - 1
    } else {
        most
    }
}

/// The quotient 2^exponent times as large, without a fraction in either number.
fn scaled(dividend: u128, divisor: u128, exponent: i32) -> (u128, u128) {
    if exponent < 0 {
        (dividend, divisor << -exponent)
    } else {
        (dividend << exponent, divisor)
    }
}
