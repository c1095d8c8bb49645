//! revc's inter prediction as the oracle: its files unchanged, stand-ins for what they miss, and
//! a thin function for each call that is compared.

#![allow(warnings)] // revc's files are taken as they are
#![deny(non_fmt_panics)] // in edition 2018 the values of a message alone are not put in

// The crates that revc's files name.
#[macro_use]
extern crate standin_crates as lazy_static;
extern crate standin_crates as cfg_if;
extern crate standin_crates as num_traits;
#[macro_use]
extern crate standin_derives as num_derive;
extern crate standin_derives as thiserror;

mod standins;
use standins::{dec, enc, region};

// By include!, so that rustfmt leaves the files alone, and so that stand-ins and calls can be put
// beside them: a module `calls` reaches what is private in the file above it.
mod api {
    include!("../revc/src/api/mod.rs");
    pub use crate::standins::frame::*;
}
mod def {
    include!("../revc/src/def.rs");
}
mod mc {
    include!("../revc/src/mc.rs");
    pub mod calls;
}
mod picman {
    include!("../revc/src/picman.rs");
}
mod plane {
    include!("../revc/src/plane.rs");
    use crate::standins::frame::*;
    pub mod calls;
}
mod tbl {
    include!("../revc/src/tbl.rs");
}
mod util {
    include!("../revc/src/util.rs");
    pub mod calls;
}

pub mod camera_lists;
pub mod cases;
mod lists;
pub mod mc2_lists;
pub mod mc_lists;
pub mod model;
pub mod mv_clip_lists;
pub mod pad_lists;
pub mod replay_lists;
pub mod slice_lists;
pub mod util_lists;
pub use mc::calls::{evc_mc_plane, mv_clip, mv_clip_of_lists, Picture, References};
pub use plane::calls::{pad, pad_plane, plane_config, plane_of};
pub use plane::Plane;
pub use util::calls::{evc_get_avail_inter, evc_get_motion, evc_get_mv_dir};
pub use util::calls::{get_sn, get_sn_after_set, Direct, Motion, Words};
