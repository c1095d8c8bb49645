//! Block prediction from padded pictures.

use crate::cu::on_plane;
use crate::{cu_plane, evc_mc2, EvcBlock, EvcList, EvcMv, MovedMv, PaddedPicture, Picture};
use crate::{Predicted, Refusal, CU_LEN};
use std::fmt;

/// What a block takes from one list: a picture, a vector and the picture's order count.
///
/// ```
/// use evc_inter::{EvcMv, Picture, Reference, Refusal};
///
/// let picture = Picture::new(16, 8)?.pad()?;
/// let reference = Reference { picture: &picture, mv: EvcMv { x: -5, y: 2 }, poc: 8 };
/// let later = Reference { poc: 16, ..reference };
/// assert_eq!((reference.mv, later.mv.x), (later.mv, -5));
/// # Ok::<(), Refusal>(())
/// ```
#[derive(Clone, Copy, Debug)]
pub struct Reference<'a> {
    /// The picture, padded.
    pub picture: &'a PaddedPicture,
    /// The vector, as decoded: it is clipped here.
    pub mv: EvcMv,
    /// The picture's order count, at most [`MAX_POC`](crate::MAX_POC).
    pub poc: u32,
}

/// The list that a reference is in use by, for [`evc_mc2`] or a trace's record.
///
/// ```
/// use evc_inter::{EvcBlock, EvcList, EvcMv, Picture, Predictor, Reference, Refusal, TraceRecord};
///
/// let picture = Picture::new(16, 8)?.pad()?;
/// let list1 = Reference { picture: &picture, mv: EvcMv { x: -5, y: 2 }, poc: 8 };
/// assert_eq!(EvcList::from(list1), EvcList { used: true, mv: list1.mv, poc: 8 });
///
/// // A prediction and its record from one value.
/// let block = EvcBlock { pic_w: 16, pic_h: 8, x: 8, y: 0, w: 8, h: 8 };
/// let lists = [None, Some(list1)];
/// let [list0, list1] = lists.map(EvcList::from);
/// assert!(!list0.used);
/// let record = TraceRecord::from_lists(block, list0, list1)?;
/// Predictor::new().predict(block, lists)?;
/// # assert_eq!(record.x, 8);
/// # Ok::<(), Refusal>(())
/// ```
impl From<Reference<'_>> for EvcList {
    fn from(reference: Reference<'_>) -> EvcList {
        let Reference { mv, poc, .. } = reference;
        EvcList {
            used: true,
            mv,
            poc,
        }
    }
}

/// `None` is a list that is not in use.
impl From<Option<Reference<'_>>> for EvcList {
    fn from(reference: Option<Reference<'_>>) -> EvcList {
        reference.map_or_else(EvcList::default, EvcList::from)
    }
}

/// Predicts blocks, one after another: [`evc_mc2`] with the two blocks that are lent to it.
///
/// ```
/// use evc_inter::{EvcBlock, EvcMv, Picture, Predictor, Reference, Refusal};
///
/// let mut pictures = [Picture::new(16, 8)?, Picture::new(16, 8)?];
/// for (picture, grey) in pictures.iter_mut().zip([300, 401]) {
///     picture.planes[0].rows_mut().for_each(|row| row.fill(grey));
/// }
/// let [first, second] = pictures;
/// let (first, second) = (first.pad()?, second.pad()?);
///
/// let block = EvcBlock { pic_w: 16, pic_h: 8, x: 8, y: 0, w: 8, h: 8 };
/// let list0 = Reference { picture: &first, mv: EvcMv { x: -5, y: 2 }, poc: 0 };
/// let list1 = Reference { picture: &second, mv: EvcMv { x: 5, y: -2 }, poc: 8 };
/// let mut predictor = Predictor::new();
/// let prediction = predictor.predict(block, [Some(list0), Some(list1)])?;
/// assert_eq!(prediction.plane(0), [351; 64]); // (300 + 401 + 1) >> 1
/// # Ok::<(), Refusal>(())
/// ```
#[derive(Clone)]
pub struct Predictor {
    lent: [Box<[u16]>; 2],
}

impl Predictor {
    /// One for any number of predictions; what it needs is allocated here.
    ///
    /// ```
    /// let predictors = [evc_inter::Predictor::new(), evc_inter::Predictor::default()]; // the same
    /// # drop(predictors);
    /// ```
    pub fn new() -> Predictor {
        Predictor {
            lent: [(); 2].map(|()| vec![0; CU_LEN].into()),
        }
    }

    /// The prediction of a block from one list or both. Refuses 1 to 5, as [`evc_mc2`]; padding has
    /// examined every sample already, so 6 does not come.
    ///
    /// A list that is `None` is not in use. 4 is for a reference of another size than the block's
    /// picture.
    ///
    /// ```
    /// use evc_inter::{EvcBlock, EvcMv, Picture, Predictor, Reference, Refusal};
    ///
    /// let [small, large] = [Picture::new(16, 8)?.pad()?, Picture::new(32, 8)?.pad()?];
    /// let block = EvcBlock { pic_w: 16, pic_h: 8, x: 8, y: 0, w: 8, h: 8 };
    /// let list0 = Reference { picture: &small, mv: EvcMv::default(), poc: 0 };
    /// let list1 = Reference { picture: &large, ..list0 };
    /// let mut predictor = Predictor::new();
    /// assert!(predictor.predict(block, [Some(list0), None]).is_ok());
    ///
    /// let mut refused = |block, lists| predictor.predict(block, lists).unwrap_err();
    /// assert_eq!(refused(block, [None, None]), Refusal::List);
    /// assert_eq!(refused(block, [Some(list0), Some(list1)]), Refusal::Buffer);
    /// let outside = EvcBlock { x: 12, ..block };
    /// assert_eq!(refused(outside, [Some(list0), Some(list1)]), Refusal::Block);
    /// # Ok::<(), Refusal>(())
    /// ```
    ///
    /// A prediction is borrowed from the predictor, so it cannot be read once another is asked for:
    ///
    /// ```compile_fail,E0499
    /// # use evc_inter::{EvcBlock, Predictor, Refusal};
    /// # let block = EvcBlock::default();
    /// let mut predictor = Predictor::new();
    /// let prediction = predictor.predict(block, [None, None])?;
    /// let refused = predictor.predict(block, [None, None]);
    /// prediction.plane(0);
    /// # Ok::<(), Refusal>(())
    /// ```
    pub fn predict(
        &mut self,
        block: EvcBlock,
        lists: [Option<Reference<'_>>; 2],
    ) -> Result<Prediction<'_>, Refusal> {
        let [list0, list1] = lists.map(EvcList::from);
        let sides = Some((block.pic_w, block.pic_h));
        let [planes0, planes1] = lists.map(|reference| match reference {
            Some(reference) => reference.picture.samples_for(sides),
            None => Default::default(),
        });
        let [pred0, pred1] = &mut self.lent;
        let predicted = evc_mc2(block, list0, planes0, list1, planes1, pred0, pred1)?;
        Ok(Prediction {
            block,
            predicted,
            samples: pred0,
        })
    }
}

impl Default for Predictor {
    fn default() -> Predictor {
        Predictor::new()
    }
}

/// Without the samples of the lent blocks, which mean nothing by themselves.
impl fmt::Debug for Predictor {
    fn fmt(&self, f: &mut fmt::Formatter<'_>) -> fmt::Result {
        f.debug_struct("Predictor").finish_non_exhaustive()
    }
}

/// A predicted block, until the next prediction of its [`Predictor`].
///
/// ```
/// use evc_inter::{cu_plane, EvcBlock, EvcMv, Picture, Predictor, Reference, Refusal};
///
/// let mut picture = Picture::new(16, 8)?;
/// for (y, row) in (0..).zip(picture.planes[0].rows_mut()) {
///     row.fill(100 + y);
/// }
/// let picture = picture.pad()?;
/// let block = EvcBlock { pic_w: 16, pic_h: 8, x: 8, y: 4, w: 8, h: 4 };
/// let list0 = Reference { picture: &picture, mv: EvcMv { x: 0, y: -8 }, poc: 0 }; // two samples up
/// let mut predictor = Predictor::new();
/// let prediction = predictor.predict(block, [Some(list0), None])?;
/// assert_eq!(prediction.block(), block);
/// assert_eq!(prediction.plane(0)[..9], [102, 102, 102, 102, 102, 102, 102, 102, 103]);
/// assert_eq!(prediction.rows(0).map(|row| row[7]).collect::<Vec<_>>(), [102, 103, 104, 105]);
/// assert_eq!(cu_plane(prediction.samples(), 0, 8, 4), prediction.plane(0));
///
/// let mut target = Picture::new(16, 8)?;
/// prediction.put(&mut target);
/// assert_eq!(target.planes[0].row(4)[6..10], [0, 0, 102, 102]);
/// # Ok::<(), Refusal>(())
/// ```
#[derive(Clone, Copy)]
pub struct Prediction<'a> {
    block: EvcBlock,
    predicted: Predicted,
    samples: &'a [u16],
}

impl<'a> Prediction<'a> {
    /// The block that was asked for.
    pub fn block(&self) -> EvcBlock {
        self.block
    }

    /// Which components of the vectors of list 0 and list 1 clipping has moved, as
    /// [`Predicted::moved`] has them.
    ///
    /// ```
    /// use evc_inter::{EvcBlock, EvcMv, Moved, MovedMv, Picture, Predictor, Reference, Refusal};
    ///
    /// let picture = Picture::new(16, 8)?.pad()?;
    /// let block = EvcBlock { pic_w: 16, pic_h: 8, x: 8, y: 0, w: 8, h: 8 };
    /// let far = Reference { picture: &picture, mv: EvcMv { x: 300, y: 5 }, poc: 0 };
    /// let mut predictor = Predictor::new();
    /// let [list0, list1] = predictor.predict(block, [Some(far), None])?.moved();
    /// assert_eq!(list0, MovedMv { x: Moved::High, y: Moved::Not });
    /// assert!(!list1.is_moved()); // it is not in use
    /// # Ok::<(), Refusal>(())
    /// ```
    pub fn moved(&self) -> [MovedMv; 2] {
        self.predicted.moved
    }

    /// The first block lent, whole, for [`cu_plane`]; what lies outside the predicted planes means
    /// nothing.
    pub fn samples(&self) -> &'a [u16] {
        self.samples
    }

    /// Plane `c` (0 Y, 1 U, 2 V): its rows one behind the other, as wide as the block on that plane.
    ///
    /// # Panics
    /// If there is no such plane.
    pub fn plane(&self, c: usize) -> &'a [u16] {
        cu_plane(self.samples, c, self.block.w, self.block.h)
    }

    /// The rows of plane `c`, from the top.
    ///
    /// ```
    /// # use evc_inter::{EvcBlock, EvcMv, Picture, Predictor, Reference, Refusal};
    /// # let picture = Picture::new(16, 8)?.pad()?;
    /// # let lists = [Some(Reference { picture: &picture, mv: EvcMv::default(), poc: 0 }), None];
    /// # let mut predictor = Predictor::new();
    /// let block = EvcBlock { pic_w: 16, pic_h: 8, x: 8, y: 0, w: 8, h: 4 };
    /// let prediction = predictor.predict(block, lists)?;
    /// assert_eq!([0, 1, 2].map(|c| prediction.rows(c).len()), [4, 2, 2]);
    /// assert_eq!(prediction.rows(1).next_back(), Some(&[0; 4][..]));
    /// # Ok::<(), Refusal>(())
    /// ```
    ///
    /// # Panics
    /// If there is no such plane.
    pub fn rows(&self, c: usize) -> impl DoubleEndedIterator<Item = &'a [u16]> + ExactSizeIterator {
        self.plane(c).chunks_exact(on_plane(c, self.block.w))
    }

    /// Puts the block in its place in a picture; the picture's border stays.
    ///
    /// # Panics
    /// If the picture has another size than the block's.
    pub fn put(&self, picture: &mut Picture) {
        let EvcBlock { pic_w, pic_h, .. } = self.block;
        if let Some(c) = picture.misfit((pic_w, pic_h)) {
            panic!("plane {c} is not one of a picture of {pic_w} by {pic_h}");
        }
        for (c, plane) in picture.planes.iter_mut().enumerate() {
            let [x, y, w] =
                [self.block.x, self.block.y, self.block.w].map(|place| on_plane(c, place));
            for (row, predicted) in plane.rows_mut().skip(y).zip(self.rows(c)) {
                row[x..x + w].copy_from_slice(predicted);
            }
        }
    }
}

/// Without the samples, which nobody reads in a message.
impl fmt::Debug for Prediction<'_> {
    fn fmt(&self, f: &mut fmt::Formatter<'_>) -> fmt::Result {
        f.debug_struct("Prediction")
            .field("block", &self.block)
            .field("moved", &self.moved())
            .finish_non_exhaustive()
    }
}
