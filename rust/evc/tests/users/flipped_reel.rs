//! The flipped reel: clips, traces and pictures turned, and set beside the straight print.

use crate::clip::{Clip, TAGS};
use crate::json::Value;
use crate::out_of_frame::runs;
use crate::tool::{Folder, Run};
use crate::trace::{self, Record};

const WAYS: [&str; 2] = ["left-right", "top-bottom"];

#[test]
fn clip_turned() {
    let folder = Folder::new();
    let clip = Clip::moving((32, 16), (3, 2), 3);
    folder.write("reel.y4m", clip.bytes());
    for (option, way, tags) in [
        ("", "left-right", TAGS),
        ("--left-right", "left-right", TAGS),
        ("--top-bottom", "top-bottom", &TAGS.replace("It", "Ib")),
    ] {
        let run = folder.evc(&format!("flip reel.y4m {option} --out once.y4m"));
        let said = format!(
            "3 frames flipped {} into once.y4m",
            way.replace('-', " to ")
        );
        assert_eq!(run.done().behind("reel.y4m: "), said);
        let once = folder.clip("once.y4m");
        assert_eq!(once.tags, tags);
        assert!(once.frames == clip.turned(way).frames, "{way}");
        let run = folder.evc(&format!("flip once.y4m {option} --out twice.y4m --json"));
        let line = run.done().json_line();
        assert_eq!((line.number("code"), line.number("frames")), (0.0, 3.0));
        assert!(folder.read("twice.y4m") == clip.bytes(), "{way}");
    }
}

/// The tags of a frame stay with it, and no frames are no error.
#[test]
fn clip_turned_with_its_frames_tags() {
    let folder = Folder::new();
    let clip = Clip::moving((32, 16), (3, 2), 0);
    for frames in [0, 2] {
        let mut bytes = clip.bytes();
        for n in 0..frames {
            bytes.extend(format!("FRAME XN={n}\n").bytes());
            bytes.extend((0..1536).map(|k| (k % 2 * n) as u8)); // one grey all over
        }
        folder.write("reel.y4m", &bytes);
        folder.evc("flip reel.y4m --out turned.y4m").done();
        assert!(folder.read("turned.y4m") == bytes, "{frames}");
    }
}

/// A reel as predicted, and what its flipped copy gives: references, trace and picture are turned, and
/// the picture turned back is the straight one.
#[test]
fn flipped_reel() {
    let folder = Folder::new();
    folder.write("reel.y4m", Clip::moving((64, 48), (5, -3), 3).bytes());
    let out = "out/reel-frame1";
    for (way, back) in WAYS
        .into_iter()
        .zip(["--turn-back", "--turn-back=top-bottom"])
    {
        let line = format!("predict reel.y4m --trace kept.ipt --flip={way} --out out");
        folder.evc(&line).done();
        for k in [0, 1] {
            let line = format!("flip {out}/reference{k}.y4m --{way} --out f{k}.y4m");
            folder.evc(&line).done();
            let turned = folder.read(&format!("{out}/flipped-reference{k}.y4m"));
            assert!(folder.read(&format!("f{k}.y4m")) == turned, "{way}");
        }
        let line = format!(
            "flip-trace kept.ipt --{way} --motion {out}/reference1.motion --out flipped.ipt --json"
        );
        let line = folder.evc(&line).done().json_line();
        let records = trace::records(&folder.read("kept.ipt"));
        assert_eq!(line.number("records"), records as f64);
        assert!(line.number("direct") > 0.0, "{line:?}");

        // The map of the straight reel is of no use here, and not asked for.
        let from = "--ref0 f0.y4m --ref1 f1.y4m";
        let beside = format!("--beside {out}/predicted.y4m");
        let run = folder.evc(&format!("replay flipped.ipt {from} {beside} {back}"));
        assert_eq!(run.done().behind("beside it: "), "equal sample for sample");
        let replayed = folder.read("evc-out/flipped/replayed.y4m");
        assert!(
            replayed == folder.read(&format!("{out}/flipped.y4m")),
            "{way}"
        );
        let names = ["replayed.png", "replayed.y4m", "side-by-side.png"];
        assert_eq!(folder.names("evc-out/flipped"), names);

        // Not turned back, or turned back the other way, it is another picture.
        let other_way = format!("--turn-back={}", WAYS[usize::from(way == WAYS[0])]);
        for back in ["", &other_way] {
            let line = format!("replay flipped.ipt {from} {beside} {back}");
            let run = folder.evc(&line).exits(4);
            assert!(run
                .behind("beside it: ")
                .starts_with("NOT equal: plane Y, "));
            assert!(run.note().contains("NOT the picture beside it"), "{run:?}");
            let line = folder.evc(&format!("{line} --json")).exits(4).json_line();
            // Nothing was refused.
            assert_eq!(line.number("code"), 0.0);
            assert_eq!(line.value("equal"), Value::Bool(false));
        }
    }
}

/// Without the map direct vectors are zero, straight and flipped.
#[test]
fn flipped_without_a_map() {
    let folder = Folder::new();
    folder.write("reel.y4m", Clip::moving((64, 48), (5, -3), 3).bytes());
    folder.evc("predict reel.y4m --trace kept.ipt").done();
    let refs = "--ref0 reel.y4m --ref1 reel.y4m --frame1 2 --out straight";
    folder.evc(&format!("replay kept.ipt {refs}")).done();
    let straight = folder.read("straight/kept/replayed.y4m");
    assert!(straight != folder.read("evc-out/reel-frame1/predicted.y4m"));

    folder.evc("flip reel.y4m --out f.y4m").done();
    let run = folder.evc("flip-trace kept.ipt --out flipped.ipt").done();
    assert!(run
        .out
        .ends_with("their vectors are zero, as without a map\n"));
    let refs = "--ref0 f.y4m --ref1 f.y4m --frame1 2 --out flipped --turn-back";
    let line = format!("replay flipped.ipt {refs} --beside straight/kept/replayed.y4m --json");
    let line = folder.evc(&line).done().json_line();
    assert_eq!(line.value("equal"), Value::Bool(true));
}

/// -32768 cannot be negated in 16 bits, and is turned all the same.
#[test]
fn the_lowest_vector() {
    let folder = Folder::new();
    let clip = Clip::moving((64, 48), (5, -3), 2);
    folder.write("reel.y4m", clip.bytes());
    let record = |x, y, kind, mv, poc| Record {
        block: [x, y, 16, 16],
        kind,
        mv,
        poc,
    };
    let trace = trace::written(
        (64, 48),
        1,
        0,
        &[
            record(48, 0, 0, [-32768, -32768, 0, 0], [0, 0]),
            record(16, 16, 1, [0, 0, -32768, 3], [0, 2]),
            record(0, 32, 2, [5, -32768, -32768, 32767], [0, 2]),
            record(32, 32, 2, [-32767, 2, 32767, -32768], [0, 2]),
        ],
    );
    folder.write("low.ipt", trace);
    let refs = |clip| format!("--ref0 {clip} --ref1 {clip} --frame1 1");
    let straight = folder.evc(&format!("replay low.ipt {}", refs("reel.y4m")));
    let note = |counts| format!("4 records finished; {}", runs(counts));
    assert_eq!(straight.done().behind("low.ipt: "), note([4, 1, 3, 1]));
    for (way, counts) in WAYS.into_iter().zip([[1, 4, 3, 1], [4, 1, 1, 3]]) {
        folder
            .evc(&format!("flip reel.y4m --{way} --out f.y4m"))
            .done();
        folder
            .evc(&format!("flip-trace low.ipt --{way} --out f.ipt"))
            .done();
        let beside = format!("--beside evc-out/low/replayed.y4m --turn-back={way}");
        let run = folder.evc(&format!("replay f.ipt {} {beside}", refs("f.y4m")));
        let run = run.done();
        assert_eq!(run.behind("beside it: "), "equal sample for sample");
        assert_eq!(run.behind("f.ipt: "), note(counts));
    }
}

/// Of a damaged trace nothing is written, and what was there stays.
#[test]
fn damaged_trace() {
    let folder = Folder::new();
    folder.evc("predict --size 32x16 --trace kept.ipt").done();
    let kept = folder.read("kept.ipt");
    let record = trace::records(&kept) - 1;
    let mut outside = kept.clone();
    outside[trace::place(1)] = 32; // its left edge
    for (bytes, code, place) in [
        (
            trace::damaged(&kept, record),
            12,
            &format!("record {record}")[..],
        ),
        (
            kept[..kept.len() - 1].to_vec(),
            11,
            &format!("record {record}"),
        ),
        (outside, 2, "record 1"),
        (b"IPT\x01".to_vec(), 11, "before the first record"),
        (
            b"IPT\x02\0\0\0\0\0\0\0\0\0".to_vec(),
            10,
            "before the first record",
        ),
    ] {
        folder.write("bad.ipt", bytes);
        let run = folder.evc("flip-trace bad.ipt --out flipped.ipt").exits(1);
        let said = format!("evc: bad.ipt: {place}: refused ({code}): ");
        assert!(run.note().starts_with(&said), "{run:?}");
        assert_eq!(folder.names("."), ["bad.ipt", "evc-out", "kept.ipt"]);
        let line = folder
            .evc("flip-trace bad.ipt --out kept.ipt --json")
            .exits(1);
        assert_eq!(line.json_line().number("code"), f64::from(code));
        assert!(folder.read("kept.ipt") == kept);
    }
    let run: Run = folder.evc("flip-trace no-such.ipt --out flipped.ipt");
    assert!(run.exits(3).note().contains("no-such.ipt: not read"));
}
