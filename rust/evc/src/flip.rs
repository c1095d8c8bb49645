//! `evc flip` and `evc flip-trace`: a reel that was scanned with the wrong side to the lens, turned.

use crate::args::Given;
use crate::output::Files;
use crate::replay;
use crate::report::{counted, Console, Failure, Outcome, Result};
use crate::y4m::{self, Clip};
use evc_inter::{Flip, TraceMotion, TraceReader, TraceWriter};
use std::io::{self, Write};
use std::path::{Path, PathBuf};

fn way(given: &Given) -> std::result::Result<Flip, String> {
    match (given.has("--left-right"), given.has("--top-bottom")) {
        (true, true) => Err("--left-right or --top-bottom, one of them".into()),
        (false, true) => Ok(Flip::TopBottom),
        _ => Ok(Flip::LeftRight),
    }
}

/// The one file that is turned.
fn file(given: &Given) -> std::result::Result<PathBuf, String> {
    match &given.files()[..] {
        [file] => Ok(file.clone()),
        [] => Err("which file is to be turned?".into()),
        _ => Err("one file is turned at a time".into()),
    }
}

fn said(console: &mut Console, path: &Path, outcome: Result<Outcome>) {
    console.item(
        &path.display().to_string(),
        outcome.unwrap_or_else(Outcome::from),
    );
}

/// A clip, picture by picture.
pub fn run(given: &Given, console: &mut Console) -> std::result::Result<(), String> {
    let (path, out, flip) = (file(given)?, given.wanted_output("--out")?, way(given)?);
    let files = Files::new([&path]);
    let turn = || {
        files.try_file(&out)?;
        let mut clip = Clip::open(&path)?;
        let mut picture = clip.picture()?;
        let mut failure = None;
        let written = files.write(&out, |file| {
            clip.header.flipped(flip).write(file)?;
            loop {
                match clip.read(&mut picture) {
                    Ok(Some(tags)) => y4m::write_frame(file, &tags, &picture.flipped(flip))?,
                    Ok(None) => return Ok(()),
                    Err(e) => {
                        failure = Some(e);
                        return Err(io::ErrorKind::InvalidData.into());
                    }
                }
            }
        });
        failure.map_or(written, Err)?;
        let frames = counted(clip.frames, "frame");
        let note = format!("{frames} flipped {flip} into {}", out.display());
        Ok(Outcome::done(note).fact("frames", clip.frames))
    };
    said(console, &path, turn());
    Ok(())
}

/// The records of a trace, turned one by one.
fn turned(trace: &[u8], flip: Flip, col_mv: Option<&[i16]>) -> Result<(Vec<u8>, u64, u64)> {
    let reader = TraceReader::new(trace).map_err(Failure::at("before the first record"))?;
    let header = *reader.header();
    let failed = |e: io::Error| Failure::File(e.to_string());
    let mut out = TraceWriter::with_header(Vec::new(), &header).map_err(failed)?;
    let mut direct = 0;
    for record in reader {
        let at = || Failure::at(format!("record {}", out.records()));
        let record = record.map_err(at())?;
        direct += u64::from(matches!(record.motion, TraceMotion::Direct { .. }));
        let record = record.flipped(flip, &header, col_mv).map_err(at())?;
        out.record(record).map_err(failed)?;
    }
    let records = out.records();
    Ok((out.into_inner(), records, direct))
}

/// A trace.
pub fn run_trace(given: &Given, console: &mut Console) -> std::result::Result<(), String> {
    let (path, out, flip) = (file(given)?, given.wanted_output("--out")?, way(given)?);
    let map = given.path("--motion");
    let files = Files::new([&path].into_iter().chain(&map));
    let turn = || {
        files.try_file(&out)?;
        let trace = replay::trace(&path)?;
        let col_mv = map.as_deref().map(replay::motion).transpose()?;
        let (trace, records, direct) = turned(&trace, flip, col_mv.as_deref())?;
        files.write(&out, |file| file.write_all(&trace))?;
        let from = match col_mv {
            Some(_) => "the map's",
            None => "zero, as without a map",
        };
        let direct_said = match direct {
            0 => String::new(),
            n => format!("; {n} direct ones became both lists, their vectors are {from}"),
        };
        let out = out.display();
        let note = format!(
            "{} flipped {flip} into {out}{direct_said}",
            counted(records, "record")
        );
        Ok(Outcome::done(note)
            .fact("records", records)
            .fact("direct", direct))
    };
    said(console, &path, turn());
    Ok(())
}
