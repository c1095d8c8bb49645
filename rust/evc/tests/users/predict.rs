//! `evc predict`: the built-in scene, and frames of a clip.

use crate::clip::{samples, Clip, TAGS};
use crate::tool::{Folder, Run};

/// The laws that predictions are held to.
const LAWS: [&str; 7] = [
    "general filter",
    "mirrored left to right",
    "mirrored top to bottom",
    "lists exchanged",
    "reports of clipping",
    "unclipped place",
    "split into quarters",
];

/// Every law has been asked of some predictions, and all agree.
#[track_caller]
fn all_agree(run: &Run) {
    for law in LAWS {
        let counts = run.behind(&format!("{law}: "));
        let counts = counts.strip_suffix(" predictions agree").unwrap();
        let (agree, of) = counts.split_once(" of ").unwrap();
        assert_eq!(agree, of, "{law}");
        assert!(of.parse::<u64>().unwrap() > 0, "{law}");
    }
    assert_eq!(
        run.behind("predicted and turned back: "),
        "equal sample for sample"
    );
    // The scene has a second trace, of what is not shown.
    let replays = run
        .out
        .lines()
        .filter(|line| line.contains("; replay gives "));
    let replays: Vec<_> = replays.collect();
    let is_scene = run.out.contains("\nnot shown: ");
    assert_eq!(replays.len(), 1 + usize::from(is_scene), "{run:?}");
    for said in replays {
        assert!(
            said.ends_with(" gives the same picture and reports"),
            "{said}"
        );
    }
    assert!(run.out.ends_with("; all agree\n"), "{run:?}");
}

/// The sides of a .png, if it has its end.
#[track_caller]
fn png_sides(bytes: &[u8]) -> (usize, usize) {
    let number = |at: usize| u32::from_be_bytes(bytes[at..at + 4].try_into().unwrap()) as usize;
    assert!(bytes.starts_with(b"\x89PNG\r\n\x1a\n"));
    let (mut at, mut names) = (8, Vec::new());
    while at < bytes.len() {
        names.push(&bytes[at + 4..at + 8]);
        at += 12 + number(at); // length, name and sum beside the data
    }
    assert_eq!(at, bytes.len());
    assert_eq!(names, [b"IHDR", b"IDAT", b"IEND"]);
    (number(16), number(20))
}

/// An item's folder has the files that it is said to have, all of them whole, and no others.
#[track_caller]
fn whole(folder: &Folder, run: &Run, at: &str, sides: (usize, usize)) -> Vec<String> {
    let (w, h) = sides;
    let said = run.behind(&format!("wrote in {at}: "));
    let mut names: Vec<String> = said.split(", ").map(String::from).collect();
    names.sort();
    assert_eq!(folder.names(at), names);
    for name in &names {
        let path = format!("{at}/{name}");
        let (stem, ending) = name.rsplit_once('.').unwrap();
        match ending {
            "y4m" => {
                let clip = folder.clip(&path);
                assert_eq!((clip.sides, clip.frames.len()), (sides, 1), "{name}");
            }
            "png" => {
                let two = ["side-by-side", "flipped"].contains(&stem);
                let wide = if two { 2 * w + 8 } else { w };
                assert_eq!(png_sides(&folder.read(&path)), (wide, h), "{name}");
            }
            // Four numbers of two bytes, or one of four, for each 4 by 4 samples.
            "motion" => assert_eq!(folder.read(&path).len(), w * h / 2, "{name}"),
            "units" => assert_eq!(folder.read(&path).len(), w * h / 4, "{name}"),
            _ => panic!("what is {name}?"),
        }
    }
    names
}

#[test]
fn small_scene() {
    let folder = Folder::new();
    let run = folder.evc("predict --size 64x48").done();
    all_agree(&run);
    let names = whole(&folder, &run, "evc-out/scene", (64, 48));
    for name in [
        "predicted.y4m",
        "predicted.png",
        "true.y4m",
        "true.png",
        "difference.y4m",
        "difference.png",
        "blocks.png",
        "side-by-side.png",
        "reference0.y4m",
        "reference1.y4m",
        "predicted.motion",
        "predicted.units",
        "reference1.motion",
    ] {
        assert!(names.iter().any(|other| other == name), "{name}");
    }
    assert_eq!(names.len(), 13);
    assert_eq!(folder.names("."), ["evc-out"]);
    assert_eq!(folder.names("evc-out"), ["scene"]);
}

#[test]
fn scene_as_it_comes() {
    let folder = Folder::new();
    let run = folder.evc("predict").done();
    all_agree(&run);
    whole(&folder, &run, "evc-out/scene", (416, 240));
    let [predicted, picture] =
        ["predicted", "true"].map(|name| folder.clip(&format!("evc-out/scene/{name}.y4m")));
    let psnr = predicted.psnr(&picture);
    assert!(run.out.contains(&psnr), "{psnr}: {run:?}");
    let luma = psnr.split(' ').nth(2).unwrap().parse::<f64>().unwrap();
    assert!(luma > 30.0, "{psnr}");
}

/// What the help names is there.
#[test]
fn files_of_the_help() {
    let folder = Folder::new();
    folder
        .evc("predict --size 32x16 --flip --trace kept.ipt")
        .done();
    let names = folder.names("evc-out/scene");
    let help = folder.evc("predict --help").done().out;
    let (help, _) = help.split_once("to try:").unwrap();
    let words = help.split(|c: char| !c.is_ascii_alphanumeric() && !"-.".contains(c));
    let named: Vec<_> = words
        .filter(|word| word.ends_with(".png") || word.ends_with(".y4m"))
        .filter(|word| !word.starts_with('.') && *word != "CLIP.y4m")
        .collect();
    for name in ["blocks.png", "side-by-side.png", "flipped.y4m"] {
        assert!(named.contains(&name), "{named:?}");
    }
    for name in named {
        assert!(names.iter().any(|other| other == name), "{name}");
    }
    assert_eq!(folder.names("."), ["evc-out", "kept.ipt"]);
}

/// Threads share the work, and it comes out the same.
#[test]
fn the_same_again() {
    let folder = Folder::new();
    folder.write("reel.y4m", Clip::moving((132, 68), (5, -3), 3).bytes());
    for out in ["first", "second"] {
        folder
            .evc(&format!("predict reel.y4m --out {out} --trace {out}.ipt"))
            .done();
    }
    assert_eq!(folder.read("first.ipt"), folder.read("second.ipt"));
    let names = folder.names("first/reel-frame1");
    assert_eq!(folder.names("second/reel-frame1"), names);
    for name in names {
        let [first, second] =
            ["first", "second"].map(|out| folder.read(&format!("{out}/reel-frame1/{name}")));
        assert!(first == second, "{name}");
    }
}

/// Frames at both ends of a clip and inside, of a pattern that moves by quarter samples.
#[test]
fn frames_of_a_clip() {
    let folder = Folder::new();
    let clip = Clip::moving((64, 48), (5, -3), 5);
    folder.write("reel.y4m", clip.bytes());
    for (n, from) in [(0, "1 and 2"), (2, "1 and 3"), (4, "2 and 3")] {
        let run = folder.evc(&format!("predict reel.y4m --frame {n}")).done();
        all_agree(&run);
        let out = format!("evc-out/reel-frame{n}");
        whole(&folder, &run, &out, (64, 48));
        let said = run.behind(&format!("64 by 48, frame {n} from {from}: "));
        let [predicted, picture, difference] = ["predicted", "true", "difference"]
            .map(|name| folder.clip(&format!("{out}/{name}.y4m")));
        assert_eq!(said, predicted.psnr(&picture));
        let luma = said.split(' ').nth(2).unwrap().parse::<f64>().unwrap();
        assert!(luma > 40.0, "frame {n}: {said}");
        assert!(picture == clip.only(n), "frame {n}");
        let pairs = predicted.frames[0].iter().zip(&picture.frames[0]);
        let apart = pairs.map(|(a, b)| (512 + *a - *b).clamp(0, 1023));
        assert!(difference.frames[0].iter().copied().eq(apart), "frame {n}");
    }
}

#[test]
fn short_clips() {
    let folder = Folder::new();
    let clip = Clip::moving((32, 16), (4, 0), 3);
    folder.write("three.y4m", clip.bytes());
    for (n, from) in [(0, "1 and 2"), (1, "0 and 2"), (2, "0 and 1")] {
        let run = folder.evc(&format!("predict three.y4m --frame {n}")).done();
        assert!(run.out.contains(&format!("frame {n} from {from}")));
        assert!(folder.clip(&format!("evc-out/three-frame{n}/true.y4m")) == clip.only(n));
    }
    let none = folder.evc("predict three.y4m --frame 3").exits(3);
    let said = "evc: three.y4m: there is no frame 3: the clip has frames 0 to 2";
    assert_eq!(none.note(), said);
    let far = folder
        .evc("predict three.y4m --frame 18446744073709551615")
        .exits(3);
    assert!(far.note().ends_with("the clip has frames 0 to 2"));

    for (frames, has) in [(2, "the clip has 2"), (0, "the clip has 0")] {
        folder.write("short.y4m", Clip::moving((32, 16), (4, 0), frames).bytes());
        let run = folder.evc("predict short.y4m").exits(3);
        assert!(run.note().starts_with("evc: short.y4m: "), "{run:?}");
        assert!(run.note().contains(has), "{run:?}");
    }
}

/// The frame rate, the aspect and the colour range are in every clip that is written; the field order
/// changes with the rows.
#[test]
fn tags_are_carried_over() {
    let folder = Folder::new();
    let clip = Clip::moving((32, 16), (-2, 5), 3);
    folder.write("reel.y4m", clip.bytes());
    folder
        .evc("predict reel.y4m --trace kept.ipt --flip=top-bottom")
        .done();
    let names = folder.names("evc-out/reel-frame1");
    let clips: Vec<_> = names.iter().filter(|name| name.ends_with(".y4m")).collect();
    assert_eq!(clips.len(), 8, "{names:?}");
    for name in clips {
        let tags = folder.clip(&format!("evc-out/reel-frame1/{name}")).tags;
        match name.starts_with("flipped") {
            true => assert_eq!(tags, TAGS.replace("It", "Ib"), "{name}"),
            false => assert_eq!(tags, TAGS, "{name}"),
        }
    }
    for (straight, flipped) in [
        ("predicted", "flipped"),
        ("reference0", "flipped-reference0"),
        ("reference1", "flipped-reference1"),
    ] {
        let [straight, flipped] =
            [straight, flipped].map(|name| folder.clip(&format!("evc-out/reel-frame1/{name}.y4m")));
        assert!(flipped.frames == straight.turned("top-bottom").frames);
        assert!(flipped.frames != straight.frames);
    }
}

#[test]
fn clip_from_a_pipe() {
    let folder = Folder::new();
    let clip = Clip::moving((64, 48), (5, -3), 4);
    folder.write("reel.y4m", clip.bytes());
    folder.evc("predict reel.y4m --frame 2").done();
    let run = Run::fed(&mut folder.command("predict - --frame 2"), &clip.bytes()).done();
    assert!(run.out.contains("\n-: frame 2 from 1 and 3 predicted"));
    let [from_file, from_pipe] =
        ["reel", "input"].map(|item| folder.read(&format!("evc-out/{item}-frame2/predicted.y4m")));
    assert!(from_file == from_pipe);
}

/// What the catalogue gets.
#[test]
fn lines_of_json() {
    let folder = Folder::new();
    let clip = Clip::moving((64, 48), (5, -3), 3);
    folder.write("reel.y4m", clip.bytes());
    let line = folder.evc("predict reel.y4m --json").done().json_line();
    assert_eq!(line.text("item"), "reel.y4m");
    assert_eq!((line.number("code"), line.number("frame")), (0.0, 1.0));
    assert_eq!(line.text("folder"), "evc-out/reel-frame1");
    let [predicted, picture] =
        ["predicted", "true"].map(|name| folder.clip(&format!("evc-out/reel-frame1/{name}.y4m")));
    let psnr = ["psnr_y", "psnr_u", "psnr_v"].map(|name| line.number(name));
    let [y, u, v] = psnr;
    let said = format!("PSNR Y {y:.2} dB, U {u:.2} dB, V {v:.2} dB");
    assert_eq!(said, predicted.psnr(&picture));
    assert!(line.text("note").contains(&said), "{line:?}");
    // Whole blocks of 16 samples or more cover the picture.
    let most = (samples(clip.sides) / 24) as f64;
    assert!((1.0..=most).contains(&line.number("blocks")), "{line:?}");
}
