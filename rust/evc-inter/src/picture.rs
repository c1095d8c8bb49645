//! Pictures that the calls take, with their borders and without.

use crate::{Plane, Refusal};
use std::error::Error;
use std::{fmt, io};

/// Which of the three planes are chroma.
const CHROMA: [bool; 3] = [false, true, true];

/// The three planes of a picture: Y, U, V.
///
/// Its samples can be set; to be a reference it is padded, which makes it a [`PaddedPicture`]. Two are
/// equal if their planes are, which compare the picture's samples and not the borders.
///
/// ```
/// use evc_inter::{Picture, Refusal};
///
/// let mut picture = Picture::new(16, 8)?;
/// picture.planes[0].row_mut(7)[15] = 1024;
/// let error = picture.pad().unwrap_err();
/// assert_eq!((error.refusal(), error.plane()), (Refusal::Sample, 0));
///
/// let mut picture = error.into_picture();
/// picture.planes[0].row_mut(7)[15] = 1023;
/// let padded = picture.clone().pad()?;
/// assert_eq!(padded.sides(), (16, 8));
/// assert_eq!(*padded.picture(), picture); // whose border is not filled
/// # Ok::<(), Refusal>(())
/// ```
#[derive(Clone, Debug, PartialEq, Eq)]
pub struct Picture {
    /// Y, U, V.
    pub planes: [Plane; 3],
}

impl Picture {
    /// A picture of zeros. Refuses 1.
    ///
    /// ```
    /// use evc_inter::{Picture, Refusal};
    ///
    /// let picture = Picture::new(16, 8)?;
    /// assert_eq!(picture.planes[0].row(7), [0; 16]);
    /// assert_eq!(Picture::new(16, 6), Err(Refusal::Picture));
    /// # Ok::<(), Refusal>(())
    /// ```
    pub fn new(pic_w: u32, pic_h: u32) -> Result<Picture, Refusal> {
        let [y, u, v] = CHROMA.map(|chroma| Plane::new(chroma, pic_w, pic_h));
        Ok(Picture {
            planes: [y?, u?, v?],
        })
    }

    /// Width and height in luma samples.
    ///
    /// ```
    /// let picture = evc_inter::Picture::new(16, 8)?;
    /// assert_eq!(picture.sides(), (16, 8));
    /// # Ok::<(), evc_inter::Refusal>(())
    /// ```
    pub fn sides(&self) -> (u32, u32) {
        self.planes[0].sides()
    }

    /// The first plane that is not one of a picture of these sides: `planes` is public, so others
    /// can have been put there.
    pub(crate) fn misfit(&self, sides: (u32, u32)) -> Option<usize> {
        let planes = self.planes.iter().zip(CHROMA);
        let mut fits = planes.map(|(plane, chroma)| plane.is_of(chroma, sides));
        fits.position(|fits| !fits)
    }

    /// Fills the borders of the three planes, which makes the picture a reference. Refuses 4 for
    /// planes that do not belong together, 6 for a sample above 1023.
    ///
    /// A refusal names the plane, and has the picture inside.
    ///
    /// ```
    /// use evc_inter::{Picture, Refusal};
    ///
    /// let mut picture = Picture::new(16, 8)?;
    /// picture.planes[2] = Picture::new(16, 12)?.planes[2].clone(); // of another picture
    /// let error = picture.pad().unwrap_err();
    /// assert_eq!((error.refusal(), error.plane()), (Refusal::Buffer, 2));
    /// # Ok::<(), Refusal>(())
    /// ```
    pub fn pad(mut self) -> Result<PaddedPicture, PadError> {
        match self.fill_borders() {
            Ok(()) => Ok(PaddedPicture(self)),
            Err((plane, refusal)) => Err(PadError(Box::new(Unpadded {
                picture: self,
                plane,
                refusal,
            }))),
        }
    }

    fn fill_borders(&mut self) -> Result<(), (usize, Refusal)> {
        if let Some(c) = self.misfit(self.sides()) {
            return Err((c, Refusal::Buffer));
        }
        for (c, plane) in self.planes.iter_mut().enumerate() {
            plane.pad().map_err(|refusal| (c, refusal))?;
        }
        Ok(())
    }

    /// The three planes with their borders, as they are.
    ///
    /// ```
    /// let picture = evc_inter::Picture::new(16, 8)?;
    /// let [y, u, v] = picture.samples();
    /// assert_eq!((y.len(), u.len(), v.len()), (176 * 168, 96 * 84, 96 * 84));
    /// # Ok::<(), evc_inter::Refusal>(())
    /// ```
    pub fn samples(&self) -> [&[u16]; 3] {
        self.planes.each_ref().map(Plane::samples)
    }

    /// The three planes, to be lent to [`evc_trace_replay`](crate::evc_trace_replay) as its target.
    ///
    /// ```
    /// let mut picture = evc_inter::Picture::new(16, 8)?;
    /// picture.samples_mut()[1].fill(512); // with its border
    /// assert_eq!(picture.planes[1].row(0), [512; 8]);
    /// # Ok::<(), evc_inter::Refusal>(())
    /// ```
    pub fn samples_mut(&mut self) -> [&mut [u16]; 3] {
        self.planes.each_mut().map(Plane::samples_mut)
    }
}

/// A picture whose borders are filled, to be read as a reference. [`Picture::pad`] makes it.
///
/// It cannot be changed, so its borders are always those of its samples.
///
/// ```
/// use evc_inter::{Picture, Refusal};
///
/// let mut picture = Picture::new(16, 8)?;
/// picture.planes[0].row_mut(0).fill(7);
/// let padded = picture.pad()?;
/// assert_eq!(padded.samples()[0][0], 7); // the upper left corner of the border
/// # Ok::<(), Refusal>(())
/// ```
#[derive(Clone, Debug, PartialEq, Eq)]
pub struct PaddedPicture(Picture);

impl PaddedPicture {
    /// Width and height in luma samples.
    ///
    /// ```
    /// let padded = evc_inter::Picture::new(16, 8)?.pad()?;
    /// assert_eq!(padded.sides(), (16, 8));
    /// # Ok::<(), evc_inter::Refusal>(())
    /// ```
    pub fn sides(&self) -> (u32, u32) {
        self.0.sides()
    }

    /// Y, U, V.
    ///
    /// ```
    /// let padded = evc_inter::Picture::new(16, 8)?.pad()?;
    /// assert_eq!(padded.planes()[2].row(3), [0; 8]);
    /// # Ok::<(), evc_inter::Refusal>(())
    /// ```
    pub fn planes(&self) -> &[Plane; 3] {
        &self.0.planes
    }

    /// The three planes with their borders, to be lent to [`evc_mc2`](crate::evc_mc2).
    ///
    /// ```
    /// let padded = evc_inter::Picture::new(16, 8)?.pad()?;
    /// assert_eq!(padded.samples(), padded.picture().samples());
    /// # Ok::<(), evc_inter::Refusal>(())
    /// ```
    pub fn samples(&self) -> [&[u16]; 3] {
        self.0.samples()
    }

    /// [`samples`](PaddedPicture::samples), or nothing if the picture has other sides: the call that
    /// it is lent to then refuses 4 in its turn.
    pub(crate) fn samples_for(&self, sides: Option<(u32, u32)>) -> [&[u16]; 3] {
        match sides == Some(self.sides()) {
            true => self.samples(),
            false => Default::default(),
        }
    }

    /// The picture, to be read or copied.
    ///
    /// ```
    /// use evc_inter::{Flip, Picture, Refusal};
    ///
    /// let padded = Picture::new(16, 8)?.pad()?;
    /// let flipped = padded.picture().flipped(Flip::LeftRight).pad()?;
    /// assert_eq!(flipped, padded); // all of it is 0
    /// # Ok::<(), Refusal>(())
    /// ```
    pub fn picture(&self) -> &Picture {
        &self.0
    }

    /// The picture, to be changed; it is padded again after that.
    ///
    /// ```
    /// use evc_inter::{Picture, Refusal};
    ///
    /// let mut picture = Picture::new(16, 8)?.pad()?.into_picture();
    /// picture.planes[1].row_mut(0)[0] = 500;
    /// assert_eq!(picture.pad()?.samples()[1][0], 500);
    /// # Ok::<(), Refusal>(())
    /// ```
    pub fn into_picture(self) -> Picture {
        self.0
    }
}

/// Why a picture could not be padded, and the picture. By `?` it becomes a [`Refusal`], without the plane,
/// or an [`io::Error`], with it.
///
/// ```
/// use evc_inter::{Picture, Refusal};
///
/// let mut picture = Picture::new(16, 8)?;
/// picture.planes[1].row_mut(3)[7] = 4095;
/// let error = picture.pad().unwrap_err();
/// assert!(error.to_string().starts_with("plane U: refused (6): a sample is above 1023"));
/// let error = std::io::Error::from(error);
/// assert!(error.to_string().starts_with("plane U: refused (6): a sample is above 1023"));
/// assert_eq!(Refusal::of(&error), Some(Refusal::Sample));
/// # Ok::<(), Refusal>(())
/// ```
pub struct PadError(Box<Unpadded>);

struct Unpadded {
    picture: Picture,
    plane: usize,
    refusal: Refusal,
}

impl PadError {
    /// Why: [`Refusal::Buffer`] or [`Refusal::Sample`].
    ///
    /// ```
    /// use evc_inter::{Picture, Refusal};
    ///
    /// let mut picture = Picture::new(16, 8)?;
    /// picture.planes.swap(0, 1);
    /// assert_eq!(picture.pad().unwrap_err().refusal(), Refusal::Buffer);
    /// # Ok::<(), Refusal>(())
    /// ```
    pub fn refusal(&self) -> Refusal {
        self.0.refusal
    }

    /// The plane refused: 0 Y, 1 U, 2 V.
    ///
    /// ```
    /// use evc_inter::{Picture, Refusal};
    ///
    /// let mut picture = Picture::new(16, 8)?;
    /// picture.planes[2].row_mut(0)[0] = 1024;
    /// assert_eq!(picture.pad().unwrap_err().plane(), 2);
    /// # Ok::<(), Refusal>(())
    /// ```
    pub fn plane(&self) -> usize {
        self.0.plane
    }

    /// The picture, with all its samples as they were; only borders of planes before the refused one
    /// may be filled.
    ///
    /// ```
    /// use evc_inter::{Picture, Refusal};
    ///
    /// let mut picture = Picture::new(16, 8)?;
    /// picture.planes[0].row_mut(0)[0] = 1024;
    /// let as_it_was = picture.clone();
    /// assert_eq!(picture.pad().unwrap_err().into_picture(), as_it_was);
    /// # Ok::<(), Refusal>(())
    /// ```
    pub fn into_picture(self) -> Picture {
        self.0.picture
    }
}

/// Without the samples, which nobody reads in a message.
impl fmt::Debug for PadError {
    fn fmt(&self, f: &mut fmt::Formatter<'_>) -> fmt::Result {
        f.debug_struct("PadError")
            .field("plane", &self.0.plane)
            .field("refusal", &self.0.refusal)
            .finish_non_exhaustive()
    }
}

impl fmt::Display for PadError {
    fn fmt(&self, f: &mut fmt::Formatter<'_>) -> fmt::Result {
        let plane = ['Y', 'U', 'V'][self.0.plane];
        write!(f, "plane {plane}: {}", self.0.refusal)
    }
}

/// The source is the refusal, which [`Refusal::of`] finds.
impl Error for PadError {
    fn source(&self) -> Option<&(dyn Error + 'static)> {
        Some(&self.0.refusal)
    }
}

impl From<PadError> for Refusal {
    fn from(error: PadError) -> Refusal {
        error.refusal()
    }
}

/// As a [`Refusal`] becomes one, with the error inside, and so the plane in its text.
impl From<PadError> for io::Error {
    fn from(error: PadError) -> io::Error {
        io::Error::new(io::ErrorKind::InvalidInput, error)
    }
}
