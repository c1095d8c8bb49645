//! The proved inter prediction of EVC Baseline, called from Rust.
//!
//! A [`Picture`] holds samples; padded, it is a reference, a [`PaddedPicture`]. A [`Predictor`] predicts
//! blocks from one or two of these. [`TraceWriter`] keeps a trace of what was predicted, [`replay`]
//! predicts it again, and [`TraceReader`] says what is in it. For the catalogue [`Predicted`] and
//! [`MovedCounts`] tell of motion that runs far out of the frame, and [`evc_camera_motion`] says whether
//! a picture is still or moving. [`Flip`] is for reels that were scanned with the wrong side to the lens.
//!
//! ```
//! use evc_inter::{EvcBlock, EvcMv, Picture, Predictor, Reference, Refusal};
//!
//! // A reference with a ramp across.
//! let mut picture = Picture::new(64, 32)?;
//! for plane in &mut picture.planes {
//!     for row in plane.rows_mut() {
//!         row.iter_mut().zip(0..).for_each(|(sample, x)| *sample = 8 * x);
//!     }
//! }
//! let picture = picture.pad()?;
//!
//! // A block of 8 by 4 from list 0, half a sample to the right.
//! let block = EvcBlock { pic_w: 64, pic_h: 32, x: 16, y: 8, w: 8, h: 4 };
//! let list0 = Reference { picture: &picture, mv: EvcMv { x: 2, y: 0 }, poc: 0 };
//! let mut predictor = Predictor::new();
//! let prediction = predictor.predict(block, [Some(list0), None])?;
//! assert_eq!(prediction.plane(0)[..8], [132, 140, 148, 156, 164, 172, 180, 188]);
//!
//! // A list that is not in use takes nothing; where neither is, there is nothing to predict.
//! let refusal = predictor.predict(block, [None, None]).unwrap_err();
//! assert_eq!(refusal, Refusal::List);
//! assert!(refusal.to_string().starts_with("refused (3): a block refers to no picture"));
//! # Ok::<(), Refusal>(())
//! ```
//!
//! # The calls
//!
//! Each call of `include/evc_inter.h` is here under its name, over slices, for whoever owns the buffers.
//! A call gives a finished result or one [`Refusal`], for any numbers and any buffers; after a refusal
//! all that was lent is as it was, but for the target of a replay. Sizes and places are in luma samples,
//! vectors in quarter luma samples, samples are 10 bits. [`PlaneConfig`] says how a plane lies in its
//! buffer, [`cu_plane`] how a predicted block does, [`map_scu_len`], [`map_mv_len`] and [`unit_at`] how
//! unit words and motion maps do.
//!
//! No call panics. What reads a row or a plane by its number, as [`Plane::row`], [`Prediction::rows`] and
//! [`cu_plane`], panics if there is none, and [`Prediction::put`] if the picture has another size.
//!
//! # Requirements
//!
//! Rust 1.84 or later, and nothing beside its standard library. x86-64 Linux, for which the archive of
//! the proved calls is made. The Rattle toolchain `rattle-kit-13f` to make it: `rust/archive` at the root
//! of the repository writes `target/staticlib/libevc_inter.a`, where the build script looks for it.
//! `EVC_INTER_ARCHIVE_DIR`, an absolute path, names another folder; if it is empty, it is as if it were
//! not set.

#![deny(missing_docs)]

mod calls;
mod camera;
mod cu;
#[doc(hidden)] // for comparison and benchmark, which need the calls as C has them
pub mod ffi;
mod flip;
mod moved;
mod picture;
mod plane;
mod predictor;
mod reader;
mod refusal;
mod trace;
mod types;
mod units;

pub use calls::*;
pub use camera::*;
pub use cu::*;
pub use flip::*;
pub use moved::*;
pub use picture::*;
pub use plane::*;
pub use predictor::*;
pub use reader::*;
pub use refusal::*;
pub use trace::*;
pub use types::*;
pub use units::*;

/// The examples of docs/INTEGRATION.md are tests too.
#[cfg(doctest)]
#[doc = include_str!("../../../docs/INTEGRATION.md")]
struct Integration;
