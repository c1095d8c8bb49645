//! `evc predict`: pictures from two others each, and whether they are what the laws say.

use crate::args::Given;
use crate::coded::{self, Tally};
use crate::folder::{folders, Folder};
use crate::json::Json;
use crate::laws;
use crate::material::{frames, scene, Material};
use crate::moved;
use crate::output::Files;
use crate::predicted::Predicted;
use crate::random;
use crate::report::{Console, Outcome, Result};
use crate::shell::quoted;
use evc_inter::Flip;
use std::io::Write;
use std::path::{Path, PathBuf};

/// The ways to flip, by the words of the command line.
pub const WAYS: [(&str, Flip); 2] = [
    ("left-right", Flip::LeftRight),
    ("top-bottom", Flip::TopBottom),
];

/// What is asked of `evc predict`, beside the clips.
struct Asked {
    frame: u64,
    flip: Option<Flip>,
    trace: Option<PathBuf>,
}

/// Whether all predictions are what they should be; with the scene many that are not shown are tried.
fn hold(console: &mut Console, predicted: &Predicted, is_scene: bool) -> Result<bool> {
    let references = &predicted.material.references;
    let mut calls = predicted.calls();
    let mut random = Vec::new();
    if is_scene {
        random = random::calls(references)?;
        console.say(format!("not shown: {}", random::said(&random)?));
        calls.extend(&random);
    }
    let mut all = laws::hold_to_laws(console, references, &calls)?;
    all &= predicted.hold_to_flip(console);
    let (trace, answers) = (&predicted.trace, &predicted.straight);
    all &= laws::hold_to_replay(console, "trace", references, trace, answers)?;
    if is_scene {
        // The scene's own vectors are never clipped, so its trace counts nothing.
        let blocks = random::coded(&random);
        let trace = coded::trace(references, &blocks)?;
        let answers = coded::predicted(&references.pictures, references.poc, &blocks)?;
        let name = "not shown, as a trace";
        all &= laws::hold_to_replay(console, name, references, &trace, &answers)?;
    }
    Ok(all)
}

/// Predicts an item, holds it to the laws, and writes it.
fn item(
    console: &mut Console,
    files: &Files,
    folder: &mut Folder,
    asked: &Asked,
    material: Material,
) -> Result<Outcome> {
    let is_scene = material.known.is_some();
    let predicted = Predicted::new(material, asked.flip.unwrap_or(Flip::LeftRight))?;
    let references = &predicted.material.references;
    let named = &predicted.material.named;
    let tally = Tally::of(&predicted.blocks, &predicted.straight.reports);
    let psnr = predicted.psnr();
    let [y, u, v] = psnr.map(|psnr| psnr.map_or("equal".into(), |psnr| format!("{psnr:.2} dB")));
    let psnr_said = format!("PSNR Y {y}, U {u}, V {v}");
    let (w, h) = references.sides();
    console.say(format!("{w} by {h}, {named}: {psnr_said}"));
    tally.said(console);
    console.say(format!("camera: {}", predicted.said_camera()?));
    console.say(moved::said(tally.moved));

    let all = hold(console, &predicted, is_scene)?;
    predicted.write(folder)?;
    if is_scene || asked.trace.is_some() {
        predicted.write_references(folder)?;
    }
    if asked.flip.is_some() {
        predicted.write_flipped(folder)?;
    }
    folder.said(console);
    if let Some(path) = &asked.trace {
        files.write(path, |file| file.write_all(&predicted.trace))?;
        let at = |name: &str| quoted(&folder.path.join(name));
        console.say(format!(
            "wrote {}; to replay it: evc replay --ref0 {} --ref1 {} --motion {} -- {}",
            path.display(),
            at("reference0.y4m"),
            at("reference1.y4m"),
            at("reference1.motion"),
            quoted(path)
        ));
    }
    let note = format!(
        "{named} predicted, {psnr_said}{}",
        moved::noted(tally.moved)
    );
    let outcome = match all {
        true => Outcome::done(format!("{note}; all agree")),
        false => Outcome::disagrees(format!("{note}; NOT all agree")),
    };
    let names = ["psnr_y", "psnr_u", "psnr_v"];
    let facts = names.into_iter().zip(psnr);
    let with_psnr = facts.fold(outcome, |outcome, (name, psnr)| {
        outcome.fact(name, psnr.map_or(Json::Null, Json::Number))
    });
    let frame = if is_scene {
        Json::Null
    } else {
        asked.frame.into()
    };
    let folder = folder.path.display().to_string();
    let with_blocks = with_psnr
        .fact("frame", frame)
        .fact("blocks", tally.blocks())
        .fact("clipped", tally.clipped);
    Ok(moved::facts(with_blocks, tally.moved).fact("folder", &folder[..]))
}

pub fn run(given: &Given, console: &mut Console) -> std::result::Result<(), String> {
    let clips = given.files();
    let size = given.size("--size")?;
    let frame = given.number("--frame", "the number of a frame, from 0 on")?;
    let way = |clip: &&PathBuf| {
        WAYS.iter()
            .any(|(word, _)| clip.as_path() == Path::new(word))
    };
    if let Some(way) = clips.iter().find(way).filter(|way| !way.exists()) {
        return Err(format!(
            "{0} is no clip; is --flip={0} meant?",
            way.display()
        ));
    }
    if size.is_some() && !clips.is_empty() {
        return Err("--size is for the built-in scene; a clip has its own".into());
    }
    if frame.is_some() && clips.is_empty() {
        return Err("--frame is for a clip; the built-in scene has one picture".into());
    }
    let asked = Asked {
        frame: frame.unwrap_or(1),
        flip: given.one_of("--flip", &WAYS)?,
        trace: given.output("--trace")?,
    };
    if asked.trace.is_some() && clips.len() > 1 {
        return Err("--trace is for one clip".into());
    }
    let out = given.output("--out")?.unwrap_or("evc-out".into());
    let files = Files::new(&clips);
    let (items, behind) = match clips.is_empty() {
        true => (vec![PathBuf::from("scene")], String::new()),
        false => (clips.clone(), format!("-frame{}", asked.frame)),
    };
    if let Some(Err(failure)) = asked.trace.as_ref().map(|path| files.try_file(path)) {
        console.items(&items, &failure);
        return Ok(());
    }
    let folders = folders(&out, &items, &behind).into_iter();
    // All are tried before the work begins.
    let folders: Vec<_> = folders.map(|path| Folder::new(&files, path)).collect();
    for (path, folder) in items.iter().zip(folders) {
        let outcome = folder.and_then(|mut folder| {
            let material = match clips.is_empty() {
                true => scene(size.unwrap_or((416, 240))),
                false => frames(path, asked.frame),
            };
            item(console, &files, &mut folder, &asked, material?)
        });
        console.item(
            &path.display().to_string(),
            outcome.unwrap_or_else(Outcome::from),
        );
    }
    Ok(())
}
