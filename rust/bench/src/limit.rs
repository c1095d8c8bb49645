//! The limit: prediction by hand with SSE2's multiply-and-add of pairs, unproved. It refuses nothing but
//! samples of the examined window, and clips no vector.

use crate::cases::PREDICTED;
use oracle::model::{Block, Mv, OnePlane};
use oracle::Plane;
use std::arch::x86_64::*;
use std::array::from_fn;
use std::mem::MaybeUninit;

static LUMA: [[i32; 6]; 4] = [
    [0, 0, 64, 0, 0, 0],
    [1, -5, 52, 20, -5, 1],
    [2, -10, 40, 40, -10, 2],
    [1, -5, 20, 52, -5, 1],
];

static CHROMA: [[i32; 4]; 8] = [
    [0, 64, 0, 0],
    [-2, 58, 10, -2],
    [-4, 52, 20, -4],
    [-6, 46, 30, -6],
    [-8, 40, 40, -8],
    [-6, 30, 46, -6],
    [-4, 20, 52, -4],
    [-2, 10, 58, -2],
];

/// Taps in pairs, one after the other in each 32 bits.
#[inline(always)]
unsafe fn pairs<const N: usize>(taps: &[i32; N]) -> [__m128i; 3] {
    from_fn(|k| {
        let pair = taps.get(2 * k..2 * k + 2).unwrap_or(&[0, 0]);
        _mm_set1_epi32((pair[0] & 0xffff) | pair[1] << 16)
    })
}

/// L samples.
#[inline(always)]
unsafe fn get<const L: usize>(p: *const u16) -> __m128i {
    match L {
        2 => _mm_cvtsi32_si128(p.cast::<i32>().read_unaligned()),
        4 => _mm_loadl_epi64(p.cast()),
        _ => _mm_loadu_si128(p.cast()),
    }
}

#[inline(always)]
unsafe fn put<const L: usize>(p: *mut u16, v: __m128i) {
    match L {
        2 => p.cast::<i32>().write_unaligned(_mm_cvtsi128_si32(v)),
        4 => _mm_storel_epi64(p.cast(), v),
        _ => _mm_storeu_si128(p.cast(), v),
    }
}

/// The tap sums of eight lanes, (sum + add) >> shift.
#[inline(always)]
unsafe fn sums<const N: usize>(
    v: [__m128i; N],
    taps: &[__m128i; 3],
    add: i32,
    shift: i32,
) -> __m128i {
    let shift = _mm_cvtsi32_si128(shift);
    let mut low = _mm_set1_epi32(add);
    let mut high = low;
    for k in 0..N / 2 {
        let (a, b) = (v[2 * k], v[2 * k + 1]);
        low = _mm_add_epi32(low, _mm_madd_epi16(_mm_unpacklo_epi16(a, b), taps[k]));
        high = _mm_add_epi32(high, _mm_madd_epi16(_mm_unpackhi_epi16(a, b), taps[k]));
    }
    _mm_packs_epi32(_mm_sra_epi32(low, shift), _mm_sra_epi32(high, shift))
}

#[inline(always)]
unsafe fn held(v: __m128i) -> __m128i {
    _mm_max_epi16(_mm_min_epi16(v, _mm_set1_epi16(1023)), _mm_setzero_si128())
}

/// Where samples are read and predicted samples written: L columns after the other, down all rows.
#[derive(Clone, Copy)]
struct Work {
    from: *const u16,
    stride: usize,
    to: *mut u16,
    w: usize,
    h: usize,
}

impl Work {
    #[inline(always)]
    unsafe fn copy<const L: usize>(self) {
        for x in (0..self.w).step_by(L) {
            for y in 0..self.h {
                let v = get::<L>(self.from.add(y * self.stride + x));
                put::<L>(self.to.add(y * self.w + x), v);
            }
        }
    }

    /// One direction; its samples are `step` apart.
    #[inline(always)]
    unsafe fn one<const L: usize, const N: usize>(self, step: usize, taps: &[i32; N]) {
        let taps = pairs(taps);
        for x in (0..self.w).step_by(L) {
            for y in 0..self.h {
                let from = self.from.add(y * self.stride + x);
                let v: [_; N] = from_fn(|t| get::<L>(from.add(t * step)));
                put::<L>(self.to.add(y * self.w + x), held(sums(v, &taps, 32, 6)));
            }
        }
    }

    #[inline(always)]
    unsafe fn two<const L: usize, const N: usize>(self, across: &[i32; N], down: &[i32; N]) {
        let (across, down) = (pairs(across), pairs(down));
        let mut middle = MaybeUninit::<[u16; (64 + 5) * 8]>::uninit();
        let middle = middle.as_mut_ptr().cast::<u16>();
        for x in (0..self.w).step_by(L) {
            for y in 0..self.h + N - 1 {
                let from = self.from.add(y * self.stride + x);
                let v: [_; N] = from_fn(|t| get::<L>(from.add(t)));
                put::<L>(middle.add(y * 8), sums(v, &across, 0, 2));
            }
            for y in 0..self.h {
                let v: [_; N] = from_fn(|t| get::<L>(middle.add((y + t) * 8)));
                put::<L>(self.to.add(y * self.w + x), held(sums(v, &down, 512, 10)));
            }
        }
    }

    #[inline(always)]
    unsafe fn path<const L: usize, const N: usize>(
        self,
        filtered: [bool; 2],
        across: &[i32; N],
        down: &[i32; N],
    ) {
        match filtered {
            [false, false] => self.copy::<L>(),
            [true, false] => self.one::<L, N>(1, across),
            [false, true] => self.one::<L, N>(self.stride, down),
            [true, true] => self.two::<L, N>(across, down),
        }
    }
}

/// The OR of h rows, of each L samples and L more from `second` on.
#[inline(always)]
unsafe fn strip<const L: usize>(
    from: *const u16,
    stride: usize,
    second: usize,
    h: usize,
) -> __m128i {
    let mut all = _mm_setzero_si128();
    for y in 0..h {
        let row = from.add(y * stride);
        let both = _mm_or_si128(get::<L>(row), get::<L>(row.add(second)));
        all = _mm_or_si128(all, both);
    }
    all
}

/// Whether a sample above 1023 is among h rows of n.
#[inline(always)]
unsafe fn exceeds(from: *const u16, stride: usize, n: usize, h: usize) -> bool {
    let mut all = match n {
        0..8 => strip::<4>(from, stride, n - 4, h),
        8..16 => strip::<8>(from, stride, n - 8, h),
        _ => strip::<8>(from.add(n - 16), stride, 8, h),
    };
    for x in (0..n.saturating_sub(16)).step_by(16) {
        all = _mm_or_si128(all, strip::<8>(from.add(x), stride, 8, h));
    }
    let above = _mm_subs_epu16(all, _mm_set1_epi16(1023));
    _mm_movemask_epi8(_mm_cmpeq_epi16(above, _mm_setzero_si128())) != 0xffff
}

/// The first sample, held as `PlaneSlice::clamp` does; `lead` samples before the place.
#[inline(always)]
fn start(c: &OnePlane, plane: &Plane<u16>, bits: i16, lead: [isize; 2]) -> *const u16 {
    let cfg = &plane.cfg;
    let held = |d: usize, origin: usize, size: usize| {
        let at = (c.gmv[d] >> bits) as isize - lead[d];
        (at.clamp(-(origin as isize), size as isize) + origin as isize) as usize
    };
    let row = held(1, cfg.yorigin, cfg.height);
    plane.data[row * cfg.stride + held(0, cfg.xorigin, cfg.width)..].as_ptr()
}

#[inline(always)]
unsafe fn plane_exceeds<const N: usize>(c: &OnePlane, plane: &Plane<u16>, bits: i16) -> bool {
    let [w, h] = c.side.map(|side| side as usize + N - 1);
    let lead = N as isize / 2 - 1;
    exceeds(start(c, plane, bits, [lead; 2]), plane.cfg.stride, w, h)
}

#[inline(always)]
unsafe fn predict<const N: usize>(
    c: &OnePlane,
    plane: &Plane<u16>,
    bits: i16,
    taps: &[[i32; N]],
    pred: &mut [u16],
) {
    let [w, h] = c.side.map(|side| side as usize);
    let pred = &mut pred[..w * h];
    let phase = |z: i16| (z & ((1 << bits) - 1)) as usize;
    let filtered = c.ori_mv.map(|mv| phase(mv) != 0);
    let lead = filtered.map(|filtered| (N as isize / 2 - 1) * isize::from(filtered));
    let work = Work {
        from: start(c, plane, bits, lead),
        stride: plane.cfg.stride,
        to: pred.as_mut_ptr(),
        w,
        h,
    };
    let [across, down] = c.gmv.map(|z| &taps[phase(z)]);
    match w {
        2 => work.path::<2, N>(filtered, across, down),
        4 => work.path::<4, N>(filtered, across, down),
        _ => work.path::<8, N>(filtered, across, down),
    }
}

/// One-plane prediction, with the examined window or without; the answer is 0 or 6.
#[inline(never)]
pub fn mc_plane(c: &OnePlane, plane: &Plane<u16>, examine: bool, pred: &mut [u16]) -> u32 {
    unsafe {
        if c.chroma {
            if examine && plane_exceeds::<4>(c, plane, 3) {
                return 6;
            }
            predict(c, plane, 3, &CHROMA, pred);
        } else {
            if examine && plane_exceeds::<6>(c, plane, 2) {
                return 6;
            }
            predict(c, plane, 2, &LUMA, pred);
        }
    }
    0
}

/// The call on a plane of a block, at the place that the vector gives.
fn on_plane(b: &Block, mv: Mv, chroma: bool) -> OnePlane {
    OnePlane {
        chroma,
        pic: b.pic,
        ori_mv: mv,
        gmv: [0, 1].map(|d| 4 * b.place[d] as i16 + mv[d]),
        side: b.side.map(|side| side >> u32::from(chroma)),
    }
}

/// Block prediction from the lists in use, all windows first; the answer is 0 or 6.
#[inline(never)]
pub fn mc2(
    b: &Block,
    lists: &[(Mv, &[Plane<u16>; 3])],
    examine: bool,
    pred0: &mut [u16],
    pred1: &mut [u16],
) -> u32 {
    if examine {
        for (mv, planes) in lists {
            let (luma, chroma) = (on_plane(b, *mv, false), on_plane(b, *mv, true));
            let refused = unsafe {
                plane_exceeds::<6>(&luma, &planes[0], 2)
                    | plane_exceeds::<4>(&chroma, &planes[1], 3)
                    | plane_exceeds::<4>(&chroma, &planes[2], 3)
            };
            if refused {
                return 6;
            }
        }
    }
    for (k, (mv, planes)) in lists.iter().enumerate() {
        let pred = if k == 0 { &mut *pred0 } else { &mut *pred1 };
        for (plane, at) in PREDICTED.into_iter().enumerate() {
            let c = on_plane(b, *mv, plane > 0);
            mc_plane(&c, &planes[plane], false, &mut pred[at..]);
        }
    }
    if lists.len() == 2 {
        let n = b.side.iter().product::<u32>() as usize;
        for (plane, at) in PREDICTED.into_iter().enumerate() {
            let n = if plane > 0 { n / 4 } else { n };
            average(&mut pred0[at..at + n], &pred1[at..at + n]);
        }
    }
    0
}

/// The first block gets the rounded average. At least four samples, a multiple of four.
fn average(pred0: &mut [u16], pred1: &[u16]) {
    unsafe fn lanes<const L: usize>(a: &mut [u16], b: &[u16]) {
        let mean = _mm_avg_epu16(get::<L>(a.as_ptr()), get::<L>(b.as_ptr()));
        put::<L>(a.as_mut_ptr(), mean);
    }
    let (mut octs0, mut octs1) = (pred0.chunks_exact_mut(8), pred1.chunks_exact(8));
    for (a, b) in octs0.by_ref().zip(octs1.by_ref()) {
        unsafe { lanes::<8>(a, b) };
    }
    if octs1.remainder().len() == 4 {
        unsafe { lanes::<4>(octs0.into_remainder(), octs1.remainder()) };
    }
}
