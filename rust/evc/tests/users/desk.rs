//! The support desk: a trace is kept, replayed, and found out about when it is damaged.

use crate::clip::{planes, Clip};
use crate::json::Value;
use crate::tool::{Folder, Run};
use crate::trace;

const SIDES: (usize, usize) = (64, 48);

/// A folder with a clip, its frame 2 predicted into `out/reel-frame2`, and the trace of that.
struct Desk {
    folder: Folder,
    clip: Clip,
    trace: Vec<u8>,
    /// What predict has said.
    said: Run,
}

/// The references of frame 2 as the clip has them.
const FROM_CLIP: &str = "--ref0 reel.y4m --frame0 1 --ref1 reel.y4m --frame1 3 \
                         --motion out/reel-frame2/reference1.motion";

impl Desk {
    fn new() -> Desk {
        let folder = Folder::new();
        let clip = Clip::moving(SIDES, (5, -3), 5);
        folder.write("reel.y4m", clip.bytes());
        let said = folder.evc("predict reel.y4m --frame 2 --trace kept.ipt --out out");
        let trace = folder.read("kept.ipt");
        assert!(trace::records(&trace) > 3 && trace::direct(&trace) > 0);
        Desk {
            clip,
            trace,
            said: said.done(),
            folder,
        }
    }

    fn predicted(&self) -> Clip {
        self.folder.clip("out/reel-frame2/predicted.y4m")
    }
}

/// The picture with some blocks of a trace from one clip, and all else from another.
fn with_blocks(trace: &[u8], finished: usize, blocks: &Clip, elsewhere: &Clip) -> Clip {
    let mut picture = elsewhere.only(0);
    let mut start = 0;
    for (c, (pic_w, pic_h)) in planes(picture.sides).into_iter().enumerate() {
        let scale = if c == 0 { 1 } else { 2 };
        for k in 0..finished {
            let [x, y, w, h] = trace::block(trace, k).map(|n| n / scale);
            for row in y..y + h {
                let at = start + row * pic_w + x;
                picture.frames[0][at..at + w].copy_from_slice(&blocks.frames[0][at..at + w]);
            }
        }
        start += pic_w * pic_h;
    }
    picture
}

fn grey() -> Clip {
    let mut clip = Clip::moving(SIDES, (0, 0), 1);
    clip.frames[0].fill(512);
    clip
}

/// The line that predict gives is pasted.
#[test]
fn the_line_to_replay() {
    let desk = Desk::new();
    let line = desk.said.behind("to replay it: ");
    let run = desk.folder.shell(line).done();
    let records = trace::records(&desk.trace);
    assert!(run
        .out
        .ends_with(&format!("kept.ipt: {records} records finished\n")));
    let replayed = desk.folder.read("evc-out/kept/replayed.y4m");
    assert!(replayed == desk.predicted().bytes());
    assert_eq!(
        desk.folder.names("evc-out/kept"),
        ["replayed.png", "replayed.y4m"]
    );
}

/// The line can be pasted too where names have blanks in them.
#[test]
fn the_line_to_replay_with_blanks() {
    let folder = Folder::new();
    folder.write("reel 7.y4m", Clip::moving((32, 16), (5, -3), 3).bytes());
    let mut command = folder.command("predict");
    command.args(["reel 7.y4m", "--trace", "kept for $5.ipt"]);
    let said = Run::of(&mut command).done();
    folder.shell(said.behind("to replay it: ")).done();
    let replayed = folder.read("evc-out/kept for $5/replayed.y4m");
    assert!(replayed == folder.read("evc-out/reel 7-frame1/predicted.y4m"));
}

/// The references are frames of the clip itself.
#[test]
fn from_the_clip() {
    let desk = Desk::new();
    let run = desk.folder.evc(&format!("replay kept.ipt {FROM_CLIP}"));
    assert_eq!(
        run.done().behind("kept.ipt: "),
        format!("{} records finished", trace::records(&desk.trace))
    );
    let replayed = desk.folder.read("evc-out/kept/replayed.y4m");
    assert!(replayed == desk.predicted().bytes());

    // Another frame, or no map, gives another picture.
    for (given, other) in [
        ("--frame0 1", "--frame0 0"),
        ("--frame1 3", "--frame1 4"),
        ("--motion out/reel-frame2/reference1.motion", ""),
    ] {
        let others = FROM_CLIP.replace(given, other);
        let run = desk.folder.evc(&format!("replay kept.ipt {others}")).done();
        let replayed = desk.folder.read("evc-out/kept/replayed.y4m");
        assert!(replayed != desk.predicted().bytes(), "{others}");
        // That no map was given is said, since nothing is refused.
        let direct = trace::direct(&desk.trace);
        let said = format!("; {direct} finished ones are direct and have zero vectors");
        assert_eq!(run.out.contains(&said), other.is_empty(), "{run:?}");
    }

    // A trace from a pipe.
    let mut command = desk.folder.command(&format!("replay - {FROM_CLIP}"));
    Run::fed(&mut command, &desk.trace).done();
    assert!(desk.folder.read("evc-out/input/replayed.y4m") == desk.predicted().bytes());

    let none = FROM_CLIP.replace("--frame1 3", "--frame1 5");
    let run = desk.folder.evc(&format!("replay kept.ipt {none}")).exits(3);
    let said = "reel.y4m: there is no frame 5: the clip has frames 0 to 4";
    assert!(run.note().ends_with(said), "{run:?}");
}

/// A note says which record is damaged and where it lies; the picture has the blocks before it.
#[test]
fn damaged_record() {
    let Desk {
        folder,
        clip,
        trace,
        ..
    } = &Desk::new();
    let predicted = folder.clip("out/reel-frame2/predicted.y4m");
    let records = trace::records(trace);
    folder.write("target.y4m", clip.only(0).bytes());
    for k in [0, 1, records / 2, records - 1] {
        folder.write("damaged.ipt", trace::damaged(trace, k));
        let run = folder
            .evc(&format!("replay damaged.ipt {FROM_CLIP}"))
            .exits(1);
        let finished = if k == 1 {
            "1 record"
        } else {
            &format!("{k} records")
        };
        for said in [
            &format!("evc: damaged.ipt: {finished} finished; record {k}: refused (12): ")[..],
            &format!("; record {k} is at byte {}: kind 7, ", trace::place(k)),
        ] {
            assert!(run.note().contains(said), "'{said}': {run:?}");
        }
        let replayed = folder.clip("evc-out/damaged/replayed.y4m");
        assert!(
            replayed == with_blocks(trace, k, &predicted, &grey()),
            "{k}"
        );

        // The same into a target, and told to the catalogue.
        let line = format!("replay damaged.ipt {FROM_CLIP} --target target.y4m --json");
        let line = folder.evc(&line).exits(1).json_line();
        assert_eq!(line.text("item"), "damaged.ipt");
        assert_eq!(line.number("code"), 12.0);
        assert_eq!(line.text("place"), format!("record {k}"));
        assert_eq!(line.number("finished"), k as f64);
        assert_eq!(
            format!("evc: damaged.ipt: {}\n", line.text("note")),
            run.err
        );
        let replayed = folder.clip("evc-out/damaged/replayed.y4m");
        assert!(
            replayed == with_blocks(trace, k, &predicted, &clip.only(0)),
            "{k}"
        );
    }
}

/// What is no whole trace.
#[test]
fn cut_off_or_something_else() {
    let Desk { folder, trace, .. } = &Desk::new();
    let mut other_mark = trace.clone();
    other_mark[3] = 2; // another version
    for (bytes, code, place, more) in [
        (
            &trace[..trace::place(2) + 5],
            11,
            "record 2",
            &format!(
                "; record 2 is at byte {}, where 5 bytes are left",
                trace::place(2)
            )[..],
        ),
        (&trace[..12], 11, "before the first record", ""),
        (b"", 11, "before the first record", ""),
        (&other_mark, 10, "before the first record", ""),
        (&folder.read("reel.y4m"), 10, "before the first record", ""),
    ] {
        folder.write("bad.ipt", bytes);
        let run = folder.evc(&format!("replay bad.ipt {FROM_CLIP}")).exits(1);
        let said = format!("finished; {place}: refused ({code}): ");
        assert!(run.note().contains(&said), "{run:?}");
        assert!(run.note().ends_with(more), "{run:?}");
        let line = folder.evc(&format!("replay bad.ipt {FROM_CLIP} --json"));
        let line = line.exits(1).json_line();
        assert_eq!(line.number("code"), f64::from(code));
        assert_eq!(line.text("place"), place);
        assert_eq!(
            line.number("finished"),
            f64::from(2 * u32::from(place == "record 2"))
        );
    }
}

/// The references of another film.
#[test]
fn references_of_another_size() {
    let Desk { folder, .. } = &Desk::new();
    folder.write("other.y4m", Clip::moving((32, 16), (1, 1), 1).bytes());
    let both = "the trace is of 64 by 48, and a picture of 32 by 16";
    for line in [
        FROM_CLIP.replace("--ref0 reel.y4m --frame0 1", "--ref0 other.y4m"),
        FROM_CLIP.replace("--ref1 reel.y4m --frame1 3", "--ref1 other.y4m"),
        format!("{FROM_CLIP} --target other.y4m"),
    ] {
        let run = folder.evc(&format!("replay kept.ipt {line}")).exits(1);
        let said = "kept.ipt: 0 records finished; before the first record: refused (4): ";
        assert!(run.note().contains(said), "{line}: {run:?}");
        assert!(run.note().ends_with(both), "{line}: {run:?}");
    }
    // A map of another picture.
    folder.write("short.motion", [0; 8]);
    let line = FROM_CLIP.replace("out/reel-frame2/reference1.motion", "short.motion");
    let run = folder.evc(&format!("replay kept.ipt {line}")).exits(1);
    assert!(run.note().contains("refused (4): "), "{run:?}");
    assert!(run.note().contains("motion map"), "{run:?}");
}

/// One damaged trace and one that is not there do not end the run.
#[test]
fn several_traces() {
    let Desk { folder, trace, .. } = &Desk::new();
    folder.write("damaged.ipt", trace::damaged(trace, 1));
    folder.write("again/kept.ipt", trace);
    let lines =
        format!("replay --json kept.ipt damaged.ipt no-such.ipt again/kept.ipt {FROM_CLIP}");
    let lines = folder.evc(&lines).exits(3).json();
    let items: Vec<_> = lines.iter().map(|line| line.text("item")).collect();
    let want = ["kept.ipt", "damaged.ipt", "no-such.ipt", "again/kept.ipt"];
    assert_eq!(items, want);
    let codes: Vec<_> = lines.iter().map(|line| line.value("code")).collect();
    let [done, damaged] = [0.0, 12.0].map(Value::Number);
    assert_eq!(codes, [done.clone(), damaged, Value::Null, done]);
    let records = trace::records(trace) as f64;
    for (k, finished, at) in [
        (0, records, "evc-out/kept"),
        (1, 1.0, "evc-out/damaged"),
        (3, records, "evc-out/kept-2"),
    ] {
        assert_eq!(lines[k].number("finished"), finished);
        assert_eq!(lines[k].text("folder"), at);
        assert!(folder.names(at).contains(&"replayed.y4m".into()));
    }
    assert_eq!(lines[0].value("place"), Value::Null);
    assert!(lines[2].text("note").starts_with("not read: "));
    let [first, last] =
        ["kept", "kept-2"].map(|item| folder.read(&format!("evc-out/{item}/replayed.y4m")));
    assert!(first == last);

    // In sentences: those that are done on standard output, the others on standard error.
    let run = folder.evc(&format!("replay damaged.ipt kept.ipt {FROM_CLIP}"));
    let run = run.exits(1);
    assert!(run
        .note()
        .starts_with("evc: damaged.ipt: 1 record finished"));
    assert!(run
        .out
        .ends_with(&format!("kept.ipt: {records} records finished\n")));
}
