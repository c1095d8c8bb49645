//! Calls of plane.rs in plain numbers.

use super::*;
use crate::api::ChromaSampling;
use crate::standins::frame::Frame;

/// The plane of a picture: Y, or U for both chroma planes.
fn plane(chroma: bool, pic_w: usize, pic_h: usize) -> Plane<u16> {
    let [y, u, _] = Frame::new(pic_w, pic_h, ChromaSampling::Cs420).planes;
    if chroma {
        u
    } else {
        y
    }
}

pub fn plane_config(chroma: bool, pic_w: usize, pic_h: usize) -> PlaneConfig {
    plane(chroma, pic_w, pic_h).cfg
}

/// A plane that holds `samples`, as many as it needs of them.
pub fn plane_of(chroma: bool, pic_w: usize, pic_h: usize, samples: &[u16]) -> Plane<u16> {
    let mut plane = plane(chroma, pic_w, pic_h);
    let len = plane.data.len();
    plane.data.copy_from_slice(&samples[..len]);
    plane
}

/// `Plane::pad` over a plane that holds `samples`.
pub fn pad(chroma: bool, pic_w: usize, pic_h: usize, samples: &mut [u16]) {
    let mut plane = plane_of(chroma, pic_w, pic_h, samples);
    plane.pad();
    samples[..plane.data.len()].copy_from_slice(&plane.data);
}

/// `Plane::pad` alone.
pub fn pad_plane(plane: &mut Plane<u16>) {
    plane.pad();
}
