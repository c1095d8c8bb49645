//! Clips that are not taken: each is told why, and what helps, and the run goes on.

use crate::clip::Clip;
use crate::json::Value;
use crate::tool::{Folder, Run};

const FFMPEG: &str = "ffmpeg -i reel.y4m -pix_fmt yuv420p10le -strict -1 reel-10bit.y4m";

fn good() -> Clip {
    Clip::moving((32, 16), (4, 0), 3)
}

/// The bytes of the clip behind another header.
fn headed(header: &str) -> Vec<u8> {
    let bytes = good().bytes();
    let end = bytes.iter().position(|byte| *byte == b'\n').unwrap();
    [header.as_bytes(), &bytes[end..]].concat()
}

/// What is no clip of ours.
#[test]
fn told_apart() {
    let folder = Folder::new();
    let cut_off = good().bytes();
    for (bytes, said, helps) in [
        (
            headed("YUV4MPEG2 W32 H16 F25:1 Ip A1:1 C420jpeg"),
            "C420jpeg",
            true,
        ),
        (headed("YUV4MPEG2 W32 H16 C422p10"), "C422p10", true),
        (headed("YUV4MPEG2 W32 H16"), "8-bit", true),
        (headed("YUV4MPEG2 W32 H16 C420p10\r"), "CR LF", false),
        (
            headed("YUV4MPEG2 W32 W64 H16 C420p10"),
            "the tag W twice",
            false,
        ),
        (
            headed("YUV4MPEG2 W32 H16 C420p10 F25:1 F24:1"),
            "the tag F twice",
            false,
        ),
        (headed("YUV4MPEG2 W32 C420p10"), "no height", false),
        (headed("YUV4MPEG2 W32 Hsixteen C420p10"), "no size", false),
        (
            cut_off[..cut_off.len() - 1].to_vec(),
            "cut off: it ends in frame 2, row 7 of plane V",
            false,
        ),
        (
            b"RIFF\x24\0\0\0WAVEfmt ".repeat(200),
            "not a y4m clip",
            true,
        ),
        (vec![], "it is empty", false),
        (
            b"YUV4MPEG2 W32 H16 C420p10".to_vec(),
            "its header's line has no end",
            false,
        ),
    ] {
        folder.write("reel.y4m", &bytes);
        // Whether it is predicted or turned.
        for line in ["predict reel.y4m", "flip reel.y4m --out turned.y4m"] {
            let run = folder.evc(line).exits(3);
            assert!(run.note().starts_with("evc: reel.y4m: "), "{run:?}");
            assert!(run.note().contains(said), "'{said}': {run:?}");
            assert_eq!(run.note().ends_with(FFMPEG), helps, "{run:?}");
        }
        let line = folder.evc("predict reel.y4m --json").exits(3).json_line();
        assert_eq!(
            (line.value("code"), line.value("place")),
            (Value::Null, Value::Null)
        );
        assert!(line.text("note").contains(said), "{line:?}");
    }
    assert_eq!(folder.names("."), ["evc-out", "reel.y4m"]);
    assert!(folder.names("evc-out").is_empty()); // no folder is left for nothing
    let run = folder.evc("predict no-such.y4m").exits(3);
    assert!(run.note().contains("no-such.y4m: not read"), "{run:?}");
    let run = folder.evc("predict evc-out").exits(3);
    assert!(run.note().contains("evc-out: not read"), "{run:?}");
}

/// The calls take sides of 4, 8, 12 and so on.
#[test]
fn sides_that_no_call_takes() {
    let folder = Folder::new();
    for (sides, helps) in [
        ("W14 H8", true),
        ("W16 H9", true),
        ("W0 H8", false),
        ("W8 H8132", false),
    ] {
        folder.write("reel.y4m", headed(&format!("YUV4MPEG2 {sides} C420p10")));
        let run = folder.evc("predict reel.y4m").exits(1);
        let note = run.note();
        assert!(note.contains("refused (1): "), "{run:?}");
        let padded = "ffmpeg -i reel.y4m -vf 'pad=ceil(iw/4)*4:ceil(ih/4)*4' -pix_fmt yuv420p10le";
        assert_eq!(note.contains(padded), helps, "{run:?}");
        let line = folder.evc("predict reel.y4m --json").exits(1).json_line();
        assert_eq!(line.number("code"), 1.0);
    }
}

/// 1024 does not fit into 10 bits, in whatever frame and plane that is looked at.
#[test]
fn sample_above_1023() {
    let folder = Folder::new();
    for (n, at, plane) in [(0, 511, "Y"), (1, 512, "U"), (2, 767, "V")] {
        let mut clip = Clip::moving((32, 16), (4, 0), 4);
        clip.frames[n][at] = 1024;
        folder.write("reel.y4m", clip.bytes());
        let run = folder.evc("predict reel.y4m").exits(1);
        let place = format!("frame {n}, plane {plane}");
        let said = format!("evc: reel.y4m: {place}: refused (6): ");
        assert!(run.note().starts_with(&said), "{run:?}");
        let line = folder.evc("predict reel.y4m --json").exits(1).json_line();
        assert_eq!((line.number("code"), line.text("place")), (6.0, place));
        clip.frames[n][at] = 1023;
        folder.write("reel.y4m", clip.bytes());
        folder.evc("predict reel.y4m").done();
    }
}

/// A line for each clip, in order, whatever becomes of it and whatever it is called.
#[test]
fn several_clips() {
    let folder = Folder::new();
    let mut bright = good();
    bright.frames[1][0] = 1024;
    let odd = "a \"quoted\\reel\"\n, part é.y4m";
    folder.write("reel.y4m", good().bytes());
    folder.write("bright.y4m", bright.bytes());
    folder.write("eight.y4m", headed("YUV4MPEG2 W32 H16"));
    folder.write(odd, good().bytes());
    folder.write("again/reel.y4m", good().bytes());
    let clips = ["reel.y4m", "bright.y4m", "eight.y4m", odd, "again/reel.y4m"];

    let mut command = folder.command("predict --json");
    let lines = Run::of(command.args(clips)).exits(3).json();
    let said: Vec<_> = lines
        .iter()
        .map(|l| (l.text("item"), l.value("code")))
        .collect();
    let [done, sample] = [0.0, 6.0].map(Value::Number);
    let codes = [done.clone(), sample, Value::Null, done.clone(), done];
    let want: Vec<_> = clips.map(String::from).into_iter().zip(codes).collect();
    assert_eq!(said, want);
    for k in [0, 3, 4] {
        let at = lines[k].text("folder");
        assert!(folder.names(&at).contains(&"predicted.y4m".into()), "{at}");
    }
    assert_eq!(lines[0].text("folder"), "evc-out/reel-frame1");
    assert_eq!(lines[4].text("folder"), "evc-out/reel-frame1-2");

    // In sentences: what is done on standard output, the rest on standard error.
    let run = folder
        .evc("predict reel.y4m bright.y4m eight.y4m again/reel.y4m")
        .exits(3);
    let notes: Vec<_> = run.err.lines().collect();
    assert_eq!(notes.len(), 2, "{run:?}");
    assert!(notes[0].starts_with("evc: bright.y4m: frame 1, plane Y: refused (6)"));
    assert!(notes[1].starts_with("evc: eight.y4m: its samples are 8-bit"));
    for item in ["reel.y4m", "again/reel.y4m"] {
        assert!(run
            .out
            .contains(&format!("\n{item}: frame 1 from 0 and 2 predicted")));
    }

    // The worst of them decides, wherever it stands.
    for (line, code) in [
        ("predict reel.y4m again/reel.y4m", 0),
        ("predict bright.y4m reel.y4m", 1),
        ("predict reel.y4m bright.y4m", 1),
        ("predict eight.y4m bright.y4m", 3),
        ("predict bright.y4m eight.y4m reel.y4m", 3),
    ] {
        folder.evc(line).exits(code);
    }
}

/// Where no item can be begun, each of them is told so.
#[test]
fn none_of_several() {
    let folder = Folder::new();
    folder.write("reel.y4m", good().bytes());
    folder.write("other.y4m", good().bytes());
    for line in [
        "predict --json reel.y4m other.y4m --out reel.y4m",
        "replay --json reel.y4m other.y4m --ref0 no-such.y4m --ref1 reel.y4m",
    ] {
        let lines = folder.evc(line).exits(3).json();
        let items: Vec<_> = lines.iter().map(|line| line.text("item")).collect();
        assert_eq!(items, ["reel.y4m", "other.y4m"], "{line}");
        for line in lines {
            assert_eq!(line.value("code"), Value::Null);
        }
    }
}

/// An item that has no room for its pictures does not stop the others.
#[test]
fn folder_of_one_item() {
    let folder = Folder::new();
    for name in ["a.y4m", "b.y4m", "c.y4m"] {
        folder.write(name, good().bytes());
    }
    folder.write("evc-out/b-frame1", "no folder");
    let run = folder.evc("predict --json a.y4m b.y4m c.y4m").exits(3);
    let codes: Vec<_> = run.json().iter().map(|line| line.value("code")).collect();
    let done = Value::Number(0.0);
    assert_eq!(codes, [done.clone(), Value::Null, done]);
}

/// A clip of whatever name has a folder inside the one that was asked for.
#[test]
fn folder_inside() {
    let folder = Folder::new();
    for name in ["...y4m", "..y4m"] {
        folder.write(name, good().bytes());
    }
    folder.evc("predict ...y4m ..y4m --out there/out").done();
    assert_eq!(folder.names("there"), ["out"]);
    assert_eq!(folder.names("there/out").len(), 2);
}
