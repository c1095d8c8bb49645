//! The camera movement of a picture, for the catalogue.

use crate::ffi;
use std::fmt;

/// What [`evc_camera_motion`](crate::evc_camera_motion) reads from a picture's motion map.
///
/// As a text it is the word for the catalogue's field; the alternate form adds the numbers, for a note.
///
/// ```
/// use evc_inter::CameraMotion;
///
/// let moving = CameraMotion::Moving { x: 1.625, y: 0.0 };
/// assert_eq!(format!("{moving}, {}", CameraMotion::Still), "moving, still");
/// assert_eq!(format!("{moving:#}"), "moving (1.625 across, 0 down)");
/// // Not `none`, which would read as no movement.
/// assert_eq!(CameraMotion::None.to_string(), "undetermined");
/// ```
#[derive(Clone, Copy, Debug, PartialEq)]
pub enum CameraMotion {
    /// No unit is coded and not intra, so there is nothing to tell it by.
    None,
    /// Both sums are zero; the vectors need not be.
    Still,
    /// The mean vector in luma samples, at least one of the two not zero.
    Moving {
        /// Across; positive where samples come from the right, as when the camera has panned right
        /// since the reference.
        x: f64,
        /// Down, likewise.
        y: f64,
    },
}

impl CameraMotion {
    /// What the C call returned, if it was not refused.
    pub(crate) fn new(returned: ffi::EvcCamera) -> CameraMotion {
        let ffi::EvcCamera { kind, x, y, .. } = returned;
        match kind {
            0 => CameraMotion::None,
            1 => CameraMotion::Still,
            2 => CameraMotion::Moving { x, y },
            _ => unreachable!("the contracts allow no kind {kind}"),
        }
    }
}

impl fmt::Display for CameraMotion {
    fn fmt(&self, f: &mut fmt::Formatter<'_>) -> fmt::Result {
        match self {
            CameraMotion::None => f.pad("undetermined"),
            CameraMotion::Still => f.pad("still"),
            CameraMotion::Moving { x, y } if f.alternate() => {
                f.pad(&format!("moving ({x} across, {y} down)"))
            }
            CameraMotion::Moving { .. } => f.pad("moving"),
        }
    }
}

#[cfg(test)]
mod tests {
    use super::*;

    fn of_kind(kind: u32) -> CameraMotion {
        let (code, x, y) = (0, -0.375, 2.0);
        CameraMotion::new(ffi::EvcCamera { code, kind, x, y })
    }

    #[test]
    fn kinds() {
        let moving = CameraMotion::Moving { x: -0.375, y: 2.0 };
        let want = [CameraMotion::None, CameraMotion::Still, moving];
        assert_eq!([0, 1, 2].map(of_kind), want);
    }

    #[test]
    #[should_panic(expected = "the contracts allow no kind 3")]
    fn no_other_kind() {
        of_kind(3);
    }
}
