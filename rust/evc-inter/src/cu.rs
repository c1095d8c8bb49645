//! How a predicted block lies in its buffer.

/// Where Y, U and V begin, revc's `tbl_cu_dim_offset`.
///
/// ```
/// assert_eq!(evc_inter::CU_OFFSET[1], 64 * 64); // behind the luma of the largest block
/// ```
pub const CU_OFFSET: [usize; 3] = [0, 4096, 5120];

/// Samples that each block lent to [`evc_mc2`](crate::evc_mc2) needs.
///
/// ```
/// assert_eq!(evc_inter::CU_LEN, 64 * 64 + 2 * 32 * 32);
/// ```
pub const CU_LEN: usize = 6144;

/// Plane `c` (0 Y, 1 U, 2 V) of a predicted block of `w` by `h` luma samples: its rows one behind
/// the other, as wide as the block on that plane.
///
/// ```
/// let pred = [0; evc_inter::CU_LEN];
/// assert_eq!(evc_inter::cu_plane(&pred, 0, 16, 8).chunks(16).count(), 8);
/// assert_eq!(evc_inter::cu_plane(&pred, 1, 16, 8).chunks(8).count(), 4);
/// ```
///
/// # Panics
/// If there is no such plane, or the buffer ends before it.
pub fn cu_plane(pred: &[u16], c: usize, w: u32, h: u32) -> &[u16] {
    &pred[CU_OFFSET[c]..][..on_plane(c, w) * on_plane(c, h)]
}

/// A place or side in luma samples, as plane `c` has it.
pub(crate) fn on_plane(c: usize, luma: u32) -> usize {
    let half = if c == 0 { 1 } else { 2 };
    (luma / half) as usize
}
