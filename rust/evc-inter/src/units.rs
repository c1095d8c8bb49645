//! Names and lengths that include/evc_inter.h has too: limits, units, unit words, motion maps, flags.

use crate::plane::check_sides;
use crate::Refusal;

/// The largest side of a picture, in luma samples.
///
/// ```
/// use evc_inter::{Picture, Refusal, MAX_SIDE};
///
/// assert!(Picture::new(MAX_SIDE, 4).is_ok());
/// assert_eq!(Picture::new(MAX_SIDE + 4, 4), Err(Refusal::Picture));
/// ```
pub const MAX_SIDE: u32 = 8128;

/// The highest order count that a call takes.
///
/// ```
/// use evc_inter::{evc_get_mv_dir, EvcBlock, Refusal, MAX_POC};
///
/// let block = EvcBlock { pic_w: 4, pic_h: 4, x: 0, y: 0, w: 4, h: 4 };
/// assert!(evc_get_mv_dir(block, MAX_POC, 0, 8, 0, None).is_ok());
/// let late = evc_get_mv_dir(block, MAX_POC + 1, 0, 8, 0, None);
/// assert_eq!(late, Err(Refusal::OrderCount));
/// ```
pub const MAX_POC: u32 = 32767;

/// The highest sample of 10 bits.
///
/// ```
/// use evc_inter::{Plane, Refusal, MAX_SAMPLE};
///
/// let mut plane = Plane::new(false, 4, 4)?;
/// plane.row_mut(0)[0] = MAX_SAMPLE;
/// assert_eq!(plane.pad(), Ok(()));
/// plane.row_mut(0)[0] = MAX_SAMPLE + 1;
/// assert_eq!(plane.pad(), Err(Refusal::Sample));
/// # Ok::<(), Refusal>(())
/// ```
pub const MAX_SAMPLE: u16 = 1023;

/// The highest number of a slice that a call takes, and that a unit word holds.
///
/// ```
/// use evc_inter::{evc_get_avail_inter_slice, EvcBlock, Refusal, MAX_SLICE_NUM};
///
/// let block = EvcBlock { pic_w: 4, pic_h: 4, x: 0, y: 0, w: 4, h: 4 };
/// assert_eq!(evc_get_avail_inter_slice(block, MAX_SLICE_NUM, &[0]), Ok(0));
/// let above = evc_get_avail_inter_slice(block, MAX_SLICE_NUM + 1, &[0]);
/// assert_eq!(above, Err(Refusal::Slice));
/// ```
pub const MAX_SLICE_NUM: u32 = 127;

/// Bit of a unit word: the unit is coded.
///
/// ```
/// use evc_inter::{evc_camera_motion, CameraMotion, Refusal, MOTION_LEN, SCU_CODED, SCU_INTRA};
///
/// let map_mv = [4; MOTION_LEN];
/// let read = |word| evc_camera_motion(4, 4, &map_mv, &[word]);
/// assert_eq!(read(SCU_CODED)?, CameraMotion::Moving { x: 1.0, y: 1.0 });
/// assert_eq!(read(SCU_CODED | SCU_INTRA)?, CameraMotion::None);
/// assert_eq!(read(0)?, CameraMotion::None);
/// # Ok::<(), Refusal>(())
/// ```
pub const SCU_CODED: u32 = 0x8000_0000;

/// Bit of a unit word: the unit is intra. [`SCU_CODED`] has an example.
pub const SCU_INTRA: u32 = 0x8000;

/// Bits of a unit word: the number of the unit's slice. [`scu_slice_num`] has an example.
pub const SCU_SLICE: u32 = 0x7f;

/// The number of the slice that a unit belongs to, from 0 to [`MAX_SLICE_NUM`], by its word.
///
/// ```
/// use evc_inter::{scu_slice_num, SCU_CODED, SCU_INTRA, SCU_SLICE};
///
/// let word = SCU_CODED | SCU_INTRA | 3;
/// assert_eq!(scu_slice_num(word), 3);
/// assert_eq!(word & !SCU_SLICE | 4, SCU_CODED | SCU_INTRA | 4); // the same unit in the next slice
/// ```
pub fn scu_slice_num(word: u32) -> u32 {
    word & SCU_SLICE
}

/// Numbers of a motion map for a unit: list 0 across, down, list 1 across, down. [`map_mv_len`] has an
/// example.
pub const MOTION_LEN: usize = 4;

/// Flag of the unit above the block's first unit, which need not be coded.
///
/// A flag says that its unit is inside the picture, coded and not intra; only this one and
/// [`AVAIL_RI_UP`] are also set where it is not coded. By
/// [`evc_get_avail_inter_slice`](crate::evc_get_avail_inter_slice) the unit is of the block's slice, too.
///
/// ```
/// use evc_inter::*;
///
/// let block = EvcBlock { pic_w: 8, pic_h: 8, x: 4, y: 4, w: 4, h: 4 };
/// let avail = evc_get_avail_inter(block, &[SCU_CODED; 4])?;
/// assert_eq!(avail, AVAIL_UP | AVAIL_LE | AVAIL_UP_LE | AVAIL_RI_UP);
///
/// let avail = evc_get_avail_inter(EvcBlock { x: 0, y: 0, ..block }, &[SCU_CODED; 4])?;
/// assert_eq!(avail, AVAIL_RI | AVAIL_LO_RI);
/// let avail = evc_get_avail_inter(EvcBlock { x: 4, y: 0, ..block }, &[SCU_CODED; 4])?;
/// assert_eq!(avail, AVAIL_LE | AVAIL_LO_LE);
/// let avail = evc_get_avail_inter(EvcBlock { x: 0, y: 4, ..block }, &[SCU_CODED; 4])?;
/// assert_eq!(avail, AVAIL_UP | AVAIL_RI | AVAIL_UP_RI | AVAIL_RI_UP);
/// # Ok::<(), Refusal>(())
/// ```
pub const AVAIL_UP: u16 = 1 << 0;

/// Flag of the unit left of the block's first unit. [`AVAIL_UP`] has an example of all flags.
pub const AVAIL_LE: u16 = 1 << 1;

/// Flag of the unit right of the block's first row of units.
pub const AVAIL_RI: u16 = 1 << 3;

/// Flag of the unit above and left.
pub const AVAIL_UP_LE: u16 = 1 << 5;

/// Flag of the unit above and right.
pub const AVAIL_UP_RI: u16 = 1 << 6;

/// Flag of the unit below and left; only with [`AVAIL_LE`].
pub const AVAIL_LO_LE: u16 = 1 << 7;

/// Flag of the unit below and right; only with [`AVAIL_RI`].
pub const AVAIL_LO_RI: u16 = 1 << 8;

/// Flag of the unit above the last unit of the block's first row, which need not be coded.
pub const AVAIL_RI_UP: u16 = 1 << 9;

/// Unit words that a picture needs: one for each unit of 4 by 4 luma samples. Refuses 1.
///
/// ```
/// use evc_inter::{map_scu_len, Refusal};
///
/// assert_eq!(map_scu_len(416, 240), Ok(104 * 60));
/// assert_eq!(map_scu_len(416, 239), Err(Refusal::Picture));
/// ```
pub fn map_scu_len(pic_w: u32, pic_h: u32) -> Result<usize, Refusal> {
    check_sides(pic_w, pic_h)?;
    Ok((pic_w / 4 * (pic_h / 4)) as usize)
}

/// Numbers of a motion map that a picture needs: [`MOTION_LEN`] for each unit. Refuses 1.
///
/// ```
/// use evc_inter::{map_mv_len, unit_at, Refusal, MOTION_LEN};
///
/// let mut map_mv = vec![0; map_mv_len(16, 8)?];
/// let unit = unit_at(16, 8, 12, 4).unwrap(); // the last one
/// map_mv[MOTION_LEN * unit..][..MOTION_LEN].copy_from_slice(&[5, -3, 0, 0]);
/// assert_eq!(map_mv[28..], [5, -3, 0, 0]);
/// assert_eq!(map_mv_len(16, 0), Err(Refusal::Picture));
/// # Ok::<(), Refusal>(())
/// ```
pub fn map_mv_len(pic_w: u32, pic_h: u32) -> Result<usize, Refusal> {
    Ok(MOTION_LEN * map_scu_len(pic_w, pic_h)?)
}

/// The unit that holds the luma sample in column `x` and row `y`, from 0, row by row: revc's `scup`. Its
/// word is there, and its vectors begin at [`MOTION_LEN`] times it.
///
/// `None` for a place outside the picture, and for a picture that no call takes.
///
/// ```
/// use evc_inter::unit_at;
///
/// assert_eq!(unit_at(16, 8, 0, 0), Some(0));
/// assert_eq!(unit_at(16, 8, 7, 4), Some(5)); // the second of the second row
/// assert_eq!(unit_at(16, 8, 16, 0), None);
/// assert_eq!(unit_at(16, 8, 0, 8), None);
/// assert_eq!(unit_at(16, 6, 0, 0), None);
/// ```
pub fn unit_at(pic_w: u32, pic_h: u32, x: u32, y: u32) -> Option<usize> {
    check_sides(pic_w, pic_h).ok()?;
    let is_inside = x < pic_w && y < pic_h;
    is_inside.then(|| (y / 4 * (pic_w / 4) + x / 4) as usize)
}
