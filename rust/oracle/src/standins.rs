//! What revc's files name inside their own crate and the text leaves out.

/// Stands for what api/frame.rs is cut of.
pub mod frame {
    use crate::api::ChromaSampling;
    use crate::def::{PIC_PAD_SIZE_C, PIC_PAD_SIZE_L};
    use crate::plane::Plane;
    use std::fmt::{Debug, Display};
    use std::ops::Shl;

    /// Stands for CastFrom: a cast as by `as`.
    pub trait CastFrom<T> {
        fn cast_from(v: T) -> Self;
    }

    macro_rules! cast_from {
        ($to:ty: $($from:ty)*) => {
            $(impl CastFrom<$from> for $to {
                fn cast_from(v: $from) -> Self {
                    v as Self
                }
            })*
        };
    }
    cast_from!(u16: u8 u16 u32 i32);

    impl<T: Pixel> CastFrom<T> for u32 {
        fn cast_from(v: T) -> Self {
            v.into()
        }
    }

    /// Stands for Pixel, with what plane.rs asks of a sample; `pel` is u16.
    pub trait Pixel:
        Copy
        + Debug
        + Display
        + Into<u32>
        + CastFrom<u8>
        + CastFrom<u16>
        + CastFrom<u32>
        + CastFrom<i32>
        + Shl<usize, Output = Self>
    {
    }
    impl Pixel for u16 {}

    /// Stands for the trait of `align_power_of_two`: up to a multiple of 2^n.
    pub trait Fixed {
        fn align_power_of_two(&self, n: usize) -> usize;
    }
    impl Fixed for usize {
        fn align_power_of_two(&self, n: usize) -> usize {
            (self + (1 << n) - 1) >> n << n
        }
    }

    /// Stands for Frame: three planes, with document 01's sizes and pads.
    #[derive(Debug, Default)]
    pub struct Frame<T: Pixel> {
        pub planes: [Plane<T>; 3],
    }

    impl<T: Pixel> Frame<T> {
        /// Chroma at half size both ways, as document 01 has it.
        pub fn new(width: usize, height: usize, chroma_sampling: ChromaSampling) -> Self {
            assert_eq!(chroma_sampling, ChromaSampling::Cs420);
            let (l, c) = (PIC_PAD_SIZE_L, PIC_PAD_SIZE_C);
            let luma = Plane::new(width, height, 0, 0, l, l);
            let chroma = || Plane::new(width / 2, height / 2, 1, 1, c, c);
            Frame {
                planes: [luma, chroma(), chroma()],
            }
        }
    }

    /// Document 01's origins, strides and rows.
    #[test]
    fn frame_sizes() {
        for (width, luma, chroma) in [(4, 176, 96), (8128, 8288, 4160)] {
            let frame = Frame::<u16>::new(width, 4, ChromaSampling::Cs420);
            let sizes = frame.planes.each_ref().map(|p| &p.cfg);
            assert_eq!(sizes.map(|p| p.xorigin), [80, 48, 48]);
            assert_eq!(sizes.map(|p| p.yorigin), [80, 40, 40]);
            assert_eq!(sizes.map(|p| p.stride), [luma, chroma, chroma]);
            assert_eq!(sizes.map(|p| p.alloc_height), [164, 82, 82]);
        }
    }
}

/// Stands for region.rs: the types that plane.rs hands out and nothing here takes.
pub mod region {
    use super::frame::Pixel;
    use crate::plane::Plane;

    pub struct Rect;

    pub enum Area {
        StartingAt { x: isize, y: isize },
    }
    impl Area {
        pub fn to_rect(&self, _: usize, _: usize, _: usize, _: usize) -> Rect {
            Rect
        }
    }

    pub struct PlaneRegion<'a, T: Pixel>(&'a Plane<T>);
    impl<'a, T: Pixel> PlaneRegion<'a, T> {
        pub fn new(plane: &'a Plane<T>, _: Rect) -> Self {
            PlaneRegion(plane)
        }
    }

    pub struct PlaneRegionMut<'a, T: Pixel>(&'a mut Plane<T>);
    impl<'a, T: Pixel> PlaneRegionMut<'a, T> {
        pub fn new(plane: &'a mut Plane<T>, _: Rect) -> Self {
            PlaneRegionMut(plane)
        }
    }
}

/// Stands for dec: the decoder, named by api/mod.rs and not run here.
pub mod dec {
    use crate::api::*;
    use crate::def::pel;
    use std::{cell::RefCell, rc::Rc};

    pub struct EvcdCtx;
    impl EvcdCtx {
        pub fn new(_: &Config) -> Self {
            unimplemented!()
        }
        pub fn push_pkt(&mut self, _: &mut Option<Packet>) -> Result<(), EvcError> {
            unimplemented!()
        }
        pub fn decode_nalu(&mut self) -> Result<EvcStat, EvcError> {
            unimplemented!()
        }
        pub fn pull_frm(&mut self) -> Result<Rc<RefCell<Frame<pel>>>, EvcError> {
            unimplemented!()
        }
    }
}

/// Stands for enc: the encoder, named by api/mod.rs and not run here.
pub mod enc {
    use crate::api::*;
    use crate::def::pel;
    use std::{cell::RefCell, rc::Rc};

    // Stand for two constants that api/mod.rs reads; EVC's range, unused here.
    pub const MIN_QUANT: u8 = 0;
    pub const MAX_QUANT: u8 = 51;

    pub struct EvceCtx;
    impl EvceCtx {
        pub fn new(_: &Config) -> Self {
            unimplemented!()
        }
        pub fn push_frm(&mut self, _: &mut Option<Frame<pel>>) -> Result<(), EvcError> {
            unimplemented!()
        }
        pub fn encode_frm(&mut self) -> Result<EvcStat, EvcError> {
            unimplemented!()
        }
        pub fn pull_pkt(&mut self) -> Result<Rc<RefCell<Packet>>, EvcError> {
            unimplemented!()
        }
    }
}
