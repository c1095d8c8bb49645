//! Predictions held to what a caller may rely on: demand 3, and document 02's W2 and W6.

use crate::call::Call;
use crate::coded::{self, Answers, References};
use crate::general::{self, Place};
use crate::moved::{self, Report};
use crate::predicted::difference;
use crate::progress::Progress;
use crate::report::{counted, Console, Failure, Result};
use crate::splits;
use crate::turns::Turn;
use evc_inter::{evc_mv_clip, PaddedPicture, Prediction, Predictor, Refusal};
use std::fmt::Display;

/// Predicts every call and checks each prediction; says how many pass and which does not, if any, and
/// gives whether all do.
fn hold(
    console: &mut Console,
    name: impl Display,
    pictures: &[PaddedPicture; 2],
    calls: &[Call],
    mut check: impl FnMut(&Call, &Prediction) -> std::result::Result<Option<String>, Refusal>,
) -> Result<bool> {
    let mut predictor = Predictor::new();
    let (mut agree, mut first) = (0, None);
    let mut progress = Progress::new(name.to_string(), calls.len());
    for call in calls {
        progress.step();
        let predicted = call.predict(pictures, &mut predictor);
        let checked = predicted.and_then(|prediction| check(call, &prediction));
        match checked.map_err(Failure::at(call))? {
            None => agree += 1,
            Some(what) => first = first.or(Some(format!("{call}: {what}"))),
        }
    }
    drop(progress);
    console.say(format!(
        "{name}: {agree} of {} predictions agree",
        calls.len()
    ));
    if let Some(first) = first {
        console.say(format!("  first difference: {first}"));
    }
    Ok(agree == calls.len())
}

/// What clipping reports of the vectors in use, each by itself.
fn clipped(call: &Call) -> std::result::Result<Report, Refusal> {
    let mut report = Report::default();
    for (moved, list) in report.iter_mut().zip(call.lists) {
        if let Some(list) = list {
            *moved = evc_mv_clip(call.block, list.mv)?.moved;
        }
    }
    Ok(report)
}

/// Document 02, W2: a prediction reports what the places of its vectors say, and what clipping reports.
fn hold_to_w2(
    console: &mut Console,
    pictures: &[PaddedPicture; 2],
    calls: &[Call],
) -> Result<bool> {
    hold(
        console,
        "reports of clipping",
        pictures,
        calls,
        |call, prediction| {
            let report = prediction.moved();
            let of_places = moved::difference(report, general::report(call));
            let of_clipping = moved::difference(report, clipped(call)?);
            Ok(of_places.or(of_clipping.map(|what| format!("{what}, by evc_mv_clip"))))
        },
    )
}

/// Document 02, W6: blocks are what the exact unclipped place gives, and what their quarters give. Not
/// asked of a block in which clipping may show.
fn hold_to_w6(
    console: &mut Console,
    pictures: &[PaddedPicture; 2],
    calls: &[Call],
) -> Result<bool> {
    let mut hidden = Vec::new();
    for call in calls {
        if splits::is_clipping_hidden(call).map_err(Failure::at(call))? {
            hidden.push(*call);
        }
    }
    let exact = hold(
        console,
        "unclipped place",
        pictures,
        &hidden,
        |call, prediction| {
            let pred = prediction.samples();
            Ok(general::difference(call, pictures, pred, Place::Exact))
        },
    )?;
    hidden.retain(|call| splits::quarters(&call.block).is_some());
    let mut predictor = Predictor::new();
    let split = hold(
        console,
        "split into quarters",
        pictures,
        &hidden,
        |call, prediction| {
            let pred = prediction.samples();
            let quarters = splits::quarters(&call.block).into_iter().flatten();
            for (n, block) in quarters.enumerate() {
                let quarter = Call { block, ..*call }.predict(pictures, &mut predictor)?;
                let difference = splits::difference(&call.block, pred, n, quarter.samples());
                if difference.is_some() {
                    return Ok(difference);
                }
            }
            Ok(None)
        },
    )?;
    Ok(exact && split)
}

/// Whether every prediction is what the laws say: demand 3, then W2 and W6.
pub fn hold_to_laws(
    console: &mut Console,
    references: &References,
    calls: &[Call],
) -> Result<bool> {
    let pictures = &references.pictures;
    let mut all = hold(
        console,
        "general filter",
        pictures,
        calls,
        |call, prediction| {
            let pred = prediction.samples();
            Ok(general::difference(call, pictures, pred, Place::Clipped))
        },
    )?;
    for turn in Turn::ALL {
        let mirrored = match turn {
            Turn::Mirror(flip) => Some(references.flipped(flip)?),
            Turn::Exchange => None,
        };
        let turned = mirrored.as_ref().unwrap_or(pictures);
        let mut predictor = Predictor::new();
        all &= hold(console, turn, pictures, calls, |call, prediction| {
            let again = turn.call(call).predict(turned, &mut predictor)?;
            let samples = turn.difference(&call.block, prediction.samples(), again.samples());
            let due = turn.report(prediction.moved());
            Ok(samples.or_else(|| moved::difference(again.moved(), due)))
        })?;
    }
    all &= hold_to_w2(console, pictures, calls)?;
    all &= hold_to_w6(console, pictures, calls)?;
    Ok(all)
}

/// Whether a trace, replayed, gives what the predictions of its records gave: the picture, and what they
/// report, added up.
pub fn hold_to_replay(
    console: &mut Console,
    name: &str,
    references: &References,
    trace: &[u8],
    predicted: &Answers,
) -> Result<bool> {
    let References {
        pictures, col_mv, ..
    } = references;
    let Answers { picture, reports } = predicted;
    let mut target = coded::target(references.sides())?;
    let replay = evc_inter::replay(trace, pictures.each_ref(), Some(col_mv), &mut target);
    let is_same = target.samples() == picture.samples(); // borders too, which replay leaves
    let due = moved::counts(reports);
    let what = match (replay.refusal, difference(&target, picture)) {
        (Some(_), _) => Some(replay.to_string()),
        (None, None) if !is_same => Some("the border is changed".into()),
        (None, None) if replay.moved != due => {
            Some(format!("clipped {}, where {due} is due", replay.moved))
        }
        (None, difference) => difference,
    };
    let gives = match &what {
        None => "the same picture and reports".into(),
        Some(what) => format!("ANOTHER answer: {what}"),
    };
    let records = counted(reports.len() as u64, "record");
    let bytes = trace.len();
    console.say(format!(
        "{name}: {records}, {bytes} bytes; replay gives {gives}"
    ));
    Ok(what.is_none())
}
