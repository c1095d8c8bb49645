//! The tool as its users meet it: the ingest bench, the cataloguers and the support desk.

mod camera;
mod clip;
mod desk;
mod ffmpeg;
mod flipped_reel;
mod interrupted;
mod json;
mod out_of_frame;
mod output;
mod predict;
mod refused;
mod tool;
mod trace;
mod words;
