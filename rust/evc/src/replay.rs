//! `evc replay`: a trace's predictions once more, for the support desk.

use crate::args::Given;
use crate::coded;
use crate::colour;
use crate::folder::{folders, Folder};
use crate::json::Json;
use crate::material::padded;
use crate::moved;
use crate::output::Files;
use crate::predict::WAYS;
use crate::predicted::difference;
use crate::report::{counted, Console, Failure, Outcome, Result};
use crate::y4m::{Clip, Header};
use evc_inter::{EvcTraceRecord, Flip, PaddedPicture, Picture, Replay, TraceMotion, TraceReader};
use evc_inter::{MAX_SIDE, MOTION_LEN, TRACE_HEADER_LEN, TRACE_RECORD_LEN};
use std::fs::File;
use std::io::{self, Read};
use std::path::{Path, PathBuf};

/// Units of the largest picture: no map of one picture is longer, and no trace without overlaps.
const MOST_UNITS: usize = (MAX_SIDE as usize / 4).pow(2);

/// A file or standard input, up to `most` bytes and one more.
fn bytes(path: &Path, most: usize) -> Result<Vec<u8>> {
    let mut bytes = Vec::new();
    let read = opened(path).and_then(|file| file.take(most as u64 + 1).read_to_end(&mut bytes));
    read.map_err(|e| Failure::File(format!("not read: {e}")))?;
    Ok(bytes)
}

/// A file, or standard input by the name `-`.
pub fn opened(path: &Path) -> io::Result<Box<dyn Read>> {
    Ok(match path == Path::new("-") {
        true => Box::new(io::stdin().lock()),
        false => Box::new(File::open(path)?),
    })
}

/// Says of which file a failure speaks, where that is not the item.
fn of_file(path: &Path) -> impl FnOnce(Failure) -> Failure + '_ {
    move |failure| match failure {
        Failure::File(what) => Failure::File(format!("{}: {what}", path.display())),
        refused => refused,
    }
}

/// A file that may be a trace.
pub fn trace(path: &Path) -> Result<Vec<u8>> {
    let most = TRACE_HEADER_LEN + MOST_UNITS * TRACE_RECORD_LEN;
    let trace = bytes(path, most)?;
    if trace.len() > most {
        return Err(Failure::File(format!(
            "longer than {most} bytes, the trace of the largest picture"
        )));
    }
    Ok(trace)
}

/// A motion map of one picture; what is too short for it is refused by the call.
pub fn motion(path: &Path) -> Result<Vec<i16>> {
    let bytes = bytes(path, 2 * MOTION_LEN * MOST_UNITS).map_err(of_file(path))?;
    let pairs = bytes.chunks_exact(2);
    Ok(pairs
        .map(|pair| i16::from_le_bytes([pair[0], pair[1]]))
        .collect())
}

/// A picture of a clip, with the clip's header.
fn picture(path: &Path, frame: u64) -> Result<(Header, Picture)> {
    let mut clip = Clip::open(path).map_err(of_file(path))?;
    let picture = clip.frame(frame).map_err(of_file(path))?;
    Ok((clip.header, picture))
}

/// How many of the first records are direct.
fn direct(trace: &[u8], records: u64) -> u64 {
    let Ok(reader) = TraceReader::new(trace) else {
        return 0;
    };
    let finished = reader.take(records as usize).flatten();
    let direct = finished.filter(|record| matches!(record.motion, TraceMotion::Direct { .. }));
    direct.count() as u64
}

/// What a trace is replayed with.
struct Desk {
    header: Header,
    references: [PaddedPicture; 2],
    col_mv: Option<Vec<i16>>,
    target: Option<Picture>,
    beside: Option<Picture>,
    back: Option<Flip>,
}

impl Desk {
    fn new(asked: &Asked) -> Result<Desk> {
        let reference = |k: usize| {
            let (path, frame) = (&asked.references[k], asked.frames[k]);
            let (header, picture) = picture(path, frame)?;
            let place = format!("{}, frame {frame}", path.display());
            Ok((header, padded(picture, &place)?))
        };
        let (header, first) = reference(0)?;
        let (_, second) = reference(1)?;
        let one = |path: &Option<PathBuf>| -> Result<Option<Picture>> {
            let picture = path.as_ref().map(|path| picture(path, 0)).transpose()?;
            Ok(picture.map(|(_, picture)| picture))
        };
        Ok(Desk {
            header,
            references: [first, second],
            col_mv: asked.motion.as_deref().map(motion).transpose()?,
            target: one(&asked.target)?,
            beside: one(&asked.beside)?,
            back: asked.back,
        })
    }

    /// Replays a trace, writes the picture, and says how far it came.
    fn item(&self, console: &mut Console, path: &Path, folder: &mut Folder) -> Result<Outcome> {
        let trace = trace(path)?;
        let mut target = match &self.target {
            Some(target) => target.clone(),
            None => coded::target(self.references[0].sides())?,
        };
        let [first, second] = &self.references;
        let col_mv = self.col_mv.as_deref();
        let replay = evc_inter::replay(&trace, [first, second], col_mv, &mut target);
        folder.y4m("replayed", &self.header, &target)?;
        let image = colour::image(&target, self.header.is_full_range());
        folder.png("replayed", &image)?;
        if replay.finished > 0 {
            console.say(moved::said(replay.moved)); // of the finished records, refused or not
        }
        let agrees = match &self.beside {
            Some(beside) => self.set_beside(console, folder, beside, &target)?,
            None => true,
        };
        folder.said(console);
        let direct = direct(&trace, replay.finished);
        let without_map = match (direct, &self.col_mv) {
            (0, _) | (_, Some(_)) => String::new(),
            (n, None) => format!(
                "; {n} finished ones are direct and have zero vectors, for want of --motion"
            ),
        };
        let finished = counted(replay.finished, "record");
        let out_of_frame = moved::noted(replay.moved);
        let refused = replay.result().err();
        let refused = refused.map_or(String::new(), |error| format!("; {error}"));
        let more = self.said_more(&trace, &replay);
        let note = format!("{finished} finished{out_of_frame}{refused}{more}{without_map}");
        let outcome = match (replay.result(), agrees) {
            (Ok(_), true) => Outcome::done(note),
            (Ok(_), false) => Outcome::disagrees(format!("{note}; NOT the picture beside it")),
            (Err(error), _) => {
                let place = match error.record {
                    Some(record) => format!("record {record}"),
                    None => "before the first record".into(),
                };
                Outcome::refused(note, place, error.refusal)
            }
        };
        let folder = folder.path.display().to_string();
        let outcome = outcome
            .fact("finished", replay.finished)
            .fact("direct", direct);
        let outcome = moved::facts(outcome, replay.moved).fact("folder", &folder[..]);
        Ok(match self.beside {
            Some(_) => outcome.fact("equal", Json::Bool(agrees)),
            None => outcome,
        })
    }

    /// Whether the picture, turned back if that is asked for, is the one that it is set beside.
    fn set_beside(
        &self,
        console: &mut Console,
        folder: &mut Folder,
        beside: &Picture,
        target: &Picture,
    ) -> Result<bool> {
        let turned = self.back.map(|flip| target.flipped(flip));
        let turned = turned.as_ref().unwrap_or(target);
        if beside.sides() != turned.sides() {
            console.say("beside it: NOT equal: pictures of two sizes");
            return Ok(false);
        }
        let is_full_range = self.header.is_full_range();
        let images = [beside, turned].map(|picture| colour::image(picture, is_full_range));
        folder.png("side-by-side", &colour::side_by_side(&images))?;
        let apart = difference(turned, beside);
        console.say(match &apart {
            None => "beside it: equal sample for sample".into(),
            Some(what) => format!("beside it: NOT equal: {what}"),
        });
        Ok(apart.is_none())
    }

    /// What helps to find out why a trace was refused.
    fn said_more(&self, trace: &[u8], replay: &Replay) -> String {
        let Err(error) = replay.result() else {
            return String::new();
        };
        let Some(record) = error.record else {
            let Ok(header) = TraceReader::new(trace).map(|reader| *reader.header()) else {
                return String::new();
            };
            let sides = (header.pic_w, header.pic_h);
            let lent = self.references.iter().map(PaddedPicture::sides);
            let lent = lent.chain(self.target.as_ref().map(Picture::sides));
            let others: Vec<_> = lent.filter(|other| *other != sides).collect();
            return match others.first() {
                Some((w, h)) => format!(
                    "; the trace is of {} by {}, and a picture of {w} by {h}",
                    sides.0, sides.1
                ),
                None => "; is the motion map that of the second reference?".into(),
            };
        };
        let at = TRACE_HEADER_LEN + record as usize * TRACE_RECORD_LEN;
        let bytes = trace
            .get(at..at + TRACE_RECORD_LEN)
            .and_then(|bytes| bytes.try_into().ok());
        match bytes.map(EvcTraceRecord::from_bytes) {
            Some((r, _)) => format!(
                "; record {record} is at byte {at}: kind {}, {} by {} at {}, {}, vectors ({}, {}) and ({}, {}), counts {} and {}",
                r.kind, r.w, r.h, r.x, r.y, r.mv0.x, r.mv0.y, r.mv1.x, r.mv1.y, r.poc0, r.poc1
            ),
            None => format!("; record {record} is at byte {at}, where {} bytes are left", trace.len() - at),
        }
    }
}

struct Asked {
    references: [PathBuf; 2],
    frames: [u64; 2],
    motion: Option<PathBuf>,
    target: Option<PathBuf>,
    beside: Option<PathBuf>,
    back: Option<Flip>,
}

pub fn run(given: &Given, console: &mut Console) -> std::result::Result<(), String> {
    let traces = given.files();
    if traces.is_empty() {
        return Err("which trace?".into());
    }
    let frame = |name| {
        let frame = given.number(name, "the number of a frame, from 0 on");
        frame.map(|frame: Option<u64>| frame.unwrap_or(0))
    };
    let asked = Asked {
        references: [given.wanted_path("--ref0")?, given.wanted_path("--ref1")?],
        frames: [frame("--frame0")?, frame("--frame1")?],
        motion: given.path("--motion"),
        target: given.path("--target"),
        beside: given.path("--beside"),
        back: given.one_of("--turn-back", &WAYS)?,
    };
    if asked.back.is_some() && asked.beside.is_none() {
        return Err("--turn-back is for the picture that is set --beside".into());
    }
    let others = asked
        .references
        .iter()
        .chain(&asked.motion)
        .chain(&asked.target);
    let files = Files::new(traces.iter().chain(others).chain(&asked.beside));
    let out = given.output("--out")?.unwrap_or("evc-out".into());
    let folders = folders(&out, &traces, "").into_iter();
    // All are tried before the work begins.
    let folders: Vec<_> = folders.map(|path| Folder::new(&files, path)).collect();
    let desk = match Desk::new(&asked) {
        Ok(desk) => desk,
        Err(failure) => {
            console.items(&traces, &failure);
            return Ok(());
        }
    };
    for (path, folder) in traces.iter().zip(folders) {
        let outcome = folder.and_then(|mut folder| desk.item(console, path, &mut folder));
        console.item(
            &path.display().to_string(),
            outcome.unwrap_or_else(Outcome::from),
        );
    }
    Ok(())
}
