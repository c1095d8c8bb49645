//! Planes that the calls take.

use crate::{evc_pad, Refusal, MAX_SIDE};
use std::fmt;

/// Refuses 1 for a picture that no call takes.
pub(crate) fn check_sides(pic_w: u32, pic_h: u32) -> Result<(), Refusal> {
    let is_side = |side: u32| side % 4 == 0 && (4..=MAX_SIDE).contains(&side);
    match is_side(pic_w) && is_side(pic_h) {
        true => Ok(()),
        false => Err(Refusal::Picture),
    }
}

/// How a plane of a picture lies in its buffer, with the names of revc's `PlaneConfig`.
///
/// ```
/// use evc_inter::{PlaneConfig, Refusal};
///
/// let luma = PlaneConfig::new(false, 1920, 1080)?;
/// assert_eq!((luma.xorigin, luma.yorigin), (80, 80));
/// assert_eq!((luma.stride, luma.alloc_height), (2080, 1240));
/// let chroma = PlaneConfig::new(true, 1920, 1080)?;
/// assert_eq!((chroma.xorigin, chroma.yorigin), (48, 40));
/// assert_eq!((chroma.width, chroma.stride), (960, 1056));
/// assert_eq!(PlaneConfig::new(false, 8132, 4), Err(Refusal::Picture));
/// # Ok::<(), Refusal>(())
/// ```
#[derive(Clone, Copy, Debug, PartialEq, Eq)]
pub struct PlaneConfig {
    /// Width of the picture on this plane.
    pub width: usize,
    /// Height of the picture on this plane.
    pub height: usize,
    /// Columns before the picture.
    pub xorigin: usize,
    /// Rows above the picture.
    pub yorigin: usize,
    /// Samples of a row, border included.
    pub stride: usize,
    /// Rows, border included.
    pub alloc_height: usize,
    /// Samples that a call needs, stride × rows.
    pub len: usize,
}

impl PlaneConfig {
    /// The luma plane, or either chroma plane, of a picture of `pic_w` by `pic_h`. Refuses 1.
    pub fn new(chroma: bool, pic_w: u32, pic_h: u32) -> Result<PlaneConfig, Refusal> {
        check_sides(pic_w, pic_h)?;
        let (pad, half) = if chroma { (40, 2) } else { (80, 1) };
        let (width, height) = (pic_w as usize / half, pic_h as usize / half);
        // "The left origin is the pad rounded up to a multiple of 16", the stride likewise.
        let xorigin = usize::next_multiple_of(pad, 16);
        let stride = (xorigin + width + pad).next_multiple_of(16);
        let alloc_height = pad + height + pad;
        Ok(PlaneConfig {
            width,
            height,
            xorigin,
            yorigin: pad,
            stride,
            alloc_height,
            len: stride * alloc_height,
        })
    }

    /// Where the buffer has the picture's sample of column `x` and row `y`.
    ///
    /// ```
    /// let cfg = evc_inter::PlaneConfig::new(false, 4, 4)?;
    /// assert_eq!(cfg.index(1, 2), 82 * 176 + 81);
    /// # Ok::<(), evc_inter::Refusal>(())
    /// ```
    pub fn index(&self, x: usize, y: usize) -> usize {
        (self.yorigin + y) * self.stride + self.xorigin + x
    }
}

/// A plane with its border, as the calls take it.
///
/// Set the picture's samples by [`row_mut`](Plane::row_mut), then [`pad`](Plane::pad): a change
/// after that needs another `pad`.
///
/// Two planes are equal if both are luma or both chroma, of pictures of the same sides, with the same
/// samples in the picture. Borders are not compared: a plane equals its padded copy.
/// [`samples`](Plane::samples) compares them too.
///
/// ```
/// use evc_inter::{Plane, Refusal};
///
/// let mut plane = Plane::new(true, 8, 8)?; // chroma: 4 by 4
/// plane.row_mut(0).copy_from_slice(&[5, 6, 7, 8]);
/// plane.pad()?;
/// assert_eq!(plane.row(0), [5, 6, 7, 8]);
/// assert_eq!(plane.samples()[0], 5);
///
/// let mut other = plane.clone();
/// other.samples_mut()[0] = 900; // of the border
/// assert_eq!(other, plane);
/// assert_ne!(other.samples(), plane.samples());
/// # Ok::<(), Refusal>(())
/// ```
#[derive(Clone)]
pub struct Plane {
    chroma: bool,
    pic_w: u32,
    pic_h: u32,
    cfg: PlaneConfig,
    data: Vec<u16>,
}

impl Plane {
    /// A plane of zeros for a picture of `pic_w` by `pic_h`. Refuses 1.
    pub fn new(chroma: bool, pic_w: u32, pic_h: u32) -> Result<Plane, Refusal> {
        let len = PlaneConfig::new(chroma, pic_w, pic_h)?.len;
        Plane::from_samples(chroma, pic_w, pic_h, vec![0; len])
    }

    /// A plane over a buffer that is laid out as [`PlaneConfig`] says, border included, without a copy.
    /// Refuses 1, 4.
    ///
    /// What lies behind the needed length is cut off. Samples are not examined here, but by
    /// [`pad`](Plane::pad) and by the calls. A buffer of another stride cannot be told from a right one.
    ///
    /// ```
    /// use evc_inter::{Plane, PlaneConfig, Refusal};
    ///
    /// let cfg = PlaneConfig::new(true, 16, 8)?;
    /// let mut decoded = vec![0; cfg.len + 9];
    /// decoded[cfg.index(7, 3)] = 700;
    /// let plane = Plane::from_samples(true, 16, 8, decoded)?;
    /// assert_eq!(plane.row(3)[6..], [0, 700]);
    /// assert_eq!(plane.samples().len(), cfg.len);
    ///
    /// let short = Plane::from_samples(true, 16, 8, vec![0; cfg.len - 1]);
    /// assert_eq!(short, Err(Refusal::Buffer));
    /// # Ok::<(), Refusal>(())
    /// ```
    pub fn from_samples(
        chroma: bool,
        pic_w: u32,
        pic_h: u32,
        mut samples: Vec<u16>,
    ) -> Result<Plane, Refusal> {
        let cfg = PlaneConfig::new(chroma, pic_w, pic_h)?;
        if samples.len() < cfg.len {
            return Err(Refusal::Buffer);
        }
        samples.truncate(cfg.len);
        Ok(Plane {
            chroma,
            pic_w,
            pic_h,
            cfg,
            data: samples,
        })
    }

    /// Whether it is the luma plane, or a chroma plane, of a picture of these sides.
    pub(crate) fn is_of(&self, chroma: bool, sides: (u32, u32)) -> bool {
        self.chroma == chroma && self.sides() == sides
    }

    /// Width and height of the whole picture, in luma samples.
    pub(crate) fn sides(&self) -> (u32, u32) {
        (self.pic_w, self.pic_h)
    }

    /// How the plane lies in its buffer.
    ///
    /// ```
    /// let plane = evc_inter::Plane::new(true, 16, 8)?;
    /// assert_eq!((plane.cfg().width, plane.cfg().height), (8, 4));
    /// # Ok::<(), evc_inter::Refusal>(())
    /// ```
    pub fn cfg(&self) -> &PlaneConfig {
        &self.cfg
    }

    /// Row `y` of the picture, without the border.
    ///
    /// # Panics
    /// If the picture has no such row.
    pub fn row(&self, y: usize) -> &[u16] {
        assert!(y < self.cfg.height, "row {y} of {}", self.cfg.height);
        let at = self.cfg.index(0, y);
        &self.data[at..at + self.cfg.width]
    }

    /// Row `y` of the picture, to be set.
    ///
    /// # Panics
    /// If the picture has no such row.
    pub fn row_mut(&mut self, y: usize) -> &mut [u16] {
        assert!(y < self.cfg.height, "row {y} of {}", self.cfg.height);
        let at = self.cfg.index(0, y);
        &mut self.data[at..at + self.cfg.width]
    }

    /// The picture's rows from the top.
    ///
    /// ```
    /// let mut plane = evc_inter::Plane::new(false, 4, 8)?;
    /// plane.row_mut(7).fill(9);
    /// assert_eq!(plane.rows().len(), 8);
    /// assert_eq!(plane.rows().next_back(), Some(&[9; 4][..]));
    /// # Ok::<(), evc_inter::Refusal>(())
    /// ```
    pub fn rows(&self) -> impl DoubleEndedIterator<Item = &[u16]> + ExactSizeIterator {
        (0..self.cfg.height).map(|y| self.row(y))
    }

    /// The picture's rows from the top, to be set.
    ///
    /// ```
    /// let mut plane = evc_inter::Plane::new(false, 4, 4)?;
    /// plane.rows_mut().zip(1..).for_each(|(row, grey)| row.fill(grey));
    /// assert!(plane.rows().eq([[1; 4], [2; 4], [3; 4], [4; 4]]));
    /// # Ok::<(), evc_inter::Refusal>(())
    /// ```
    pub fn rows_mut(&mut self) -> impl DoubleEndedIterator<Item = &mut [u16]> + ExactSizeIterator {
        let PlaneConfig {
            width,
            height,
            xorigin,
            yorigin,
            stride,
            ..
        } = self.cfg;
        let rows = self.data.chunks_exact_mut(stride);
        rows.skip(yorigin)
            .take(height)
            .map(move |row| &mut row[xorigin..xorigin + width])
    }

    /// Fills the border by [`evc_pad`]. Refuses 6, and changes nothing then.
    pub fn pad(&mut self) -> Result<(), Refusal> {
        evc_pad(self.chroma, self.pic_w, self.pic_h, &mut self.data)
    }

    /// The whole buffer with its border, to be lent to a call.
    pub fn samples(&self) -> &[u16] {
        &self.data
    }

    /// The whole buffer with its border, to be lent to a call that writes to it.
    ///
    /// ```
    /// let mut plane = evc_inter::Plane::new(false, 4, 4)?;
    /// plane.samples_mut().fill(512);
    /// assert_eq!(plane.row(3), [512; 4]);
    /// # Ok::<(), evc_inter::Refusal>(())
    /// ```
    pub fn samples_mut(&mut self) -> &mut [u16] {
        &mut self.data
    }
}

/// Kind, sides and the picture's samples.
impl PartialEq for Plane {
    fn eq(&self, other: &Plane) -> bool {
        other.is_of(self.chroma, self.sides()) && self.rows().eq(other.rows())
    }
}

impl Eq for Plane {}

/// Without the samples, which nobody reads in a message.
impl fmt::Debug for Plane {
    fn fmt(&self, f: &mut fmt::Formatter<'_>) -> fmt::Result {
        f.debug_struct("Plane")
            .field("chroma", &self.chroma)
            .field("pic_w", &self.pic_w)
            .field("pic_h", &self.pic_h)
            .finish_non_exhaustive()
    }
}

#[cfg(test)]
mod tests {
    use super::*;

    /// Document 01's line on strides, with the lengths that follow.
    #[test]
    fn strides() {
        for (side, luma, chroma) in [(4, 176, 96), (8128, 8288, 4160)] {
            let cfg = |chroma| PlaneConfig::new(chroma, side, side).unwrap();
            assert_eq!([cfg(false), cfg(true)].map(|c| c.stride), [luma, chroma]);
            assert_eq!(cfg(false).len, luma * (side as usize + 160));
            assert_eq!(cfg(true).len, chroma * (side as usize / 2 + 80));
        }
    }

    /// The length is what the call needs and no more, and sides are refused as the call refuses.
    #[test]
    fn as_the_call_has_it() {
        for chroma in [false, true] {
            for (w, h) in [(4, 4), (4, 12), (20, 8), (36, 36), (72, 4), (1920, 1080)] {
                let len = PlaneConfig::new(chroma, w, h).unwrap().len;
                assert_eq!(evc_pad(chroma, w, h, &mut vec![9; len]), Ok(()));
                let short = evc_pad(chroma, w, h, &mut vec![9; len - 1]);
                assert_eq!(short, Err(Refusal::Buffer));
            }
            for (w, h) in [(0, 4), (4, 0), (6, 4), (4, 8132), (u32::MAX, 4)] {
                let refused = PlaneConfig::new(chroma, w, h);
                assert_eq!(refused, Err(Refusal::Picture));
                let call = evc_pad(chroma, w, h, &mut []);
                assert_eq!(call, Err(Refusal::Picture));
            }
        }
    }

    /// Every sample of the buffer is the picture's nearest.
    #[test]
    fn padded() {
        for chroma in [false, true] {
            let mut plane = Plane::new(chroma, 12, 20).unwrap();
            for (y, row) in plane.rows_mut().enumerate() {
                for (x, sample) in row.iter_mut().enumerate() {
                    *sample = (40 * y + x) as u16;
                }
            }
            plane.pad().unwrap();
            let cfg = *plane.cfg();
            for (at, sample) in plane.samples().iter().enumerate() {
                let held =
                    |n: usize, origin: usize, side: usize| n.saturating_sub(origin).min(side - 1);
                let x = held(at % cfg.stride, cfg.xorigin, cfg.width);
                let y = held(at / cfg.stride, cfg.yorigin, cfg.height);
                assert_eq!(*sample, (40 * y + x) as u16, "{at}");
            }
            assert!(plane.rows().eq((0..cfg.height).map(|y| plane.row(y))));
        }
    }

    /// From either end, and each row once.
    #[test]
    fn rows() {
        for chroma in [false, true] {
            let mut plane = Plane::new(chroma, 12, 20).unwrap();
            let height = plane.cfg().height;
            assert_eq!(plane.rows().len(), height);
            assert_eq!(plane.rows_mut().len(), height);
            for (row, grey) in plane.rows_mut().rev().zip(1..) {
                row.fill(grey);
            }
            let greys = plane.rows().map(|row| usize::from(row[0]));
            assert!(greys.eq((1..=height).rev()));
            let bottom = plane.rows().rev().map(|row| usize::from(row[0]));
            assert!(bottom.eq(1..=height));
            let last = plane.rows_mut().next_back().unwrap().as_ptr();
            assert_eq!(last, plane.row(height - 1).as_ptr());
        }
    }

    /// Each sample of the picture counts, and none of the border.
    #[test]
    fn equality() {
        for chroma in [false, true] {
            let plane = Plane::new(chroma, 8, 4).unwrap();
            let (cfg, mut differ) = (*plane.cfg(), 0);
            for at in 0..cfg.len {
                let mut other = plane.clone();
                other.samples_mut()[at] = 1;
                let is_in_picture = other.rows().flatten().any(|sample| *sample == 1);
                assert_eq!(other != plane, is_in_picture, "{at}");
                differ += usize::from(is_in_picture);
            }
            assert_eq!(differ, cfg.width * cfg.height);
            assert_ne!(plane, Plane::new(!chroma, 8, 4).unwrap());
            assert_ne!(plane, Plane::new(chroma, 4, 8).unwrap());
        }
        // Both have 4 by 4 samples, all of them 0.
        let luma = Plane::new(false, 4, 4).unwrap();
        let chroma = Plane::new(true, 8, 8).unwrap();
        assert!(luma.rows().eq(chroma.rows()) && luma != chroma);
    }

    /// The buffer that is given is the plane's, cut off.
    #[test]
    fn from_samples() {
        for chroma in [false, true] {
            let len = PlaneConfig::new(chroma, 8, 4).unwrap().len;
            for excess in [0, 1, 100] {
                let samples: Vec<u16> = (0..=u16::MAX).cycle().take(len + excess).collect();
                let (at, want) = (samples.as_ptr(), samples[..len].to_vec());
                let plane = Plane::from_samples(chroma, 8, 4, samples).unwrap();
                assert_eq!(plane.samples().as_ptr(), at);
                assert!(plane.samples() == want);
                assert!(plane.is_of(chroma, (8, 4)));
            }
            let short = Plane::from_samples(chroma, 8, 4, vec![0; len - 1]);
            assert_eq!(short, Err(Refusal::Buffer));
            let bad_picture = Plane::from_samples(chroma, 8, 6, vec![]);
            assert_eq!(bad_picture, Err(Refusal::Picture));
        }
    }

    #[test]
    fn shown_without_samples() {
        let plane = Plane::new(true, 8, 4).unwrap();
        let shown = "Plane { chroma: true, pic_w: 8, pic_h: 4, .. }";
        assert_eq!(format!("{plane:?}"), shown);
    }
}
