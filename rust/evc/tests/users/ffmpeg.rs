//! ffmpeg, from which clips come and by which those that are not taken are mended.

use crate::clip::Clip;
use crate::tool::{Folder, Run};
use std::process::Command;

/// What comes before the line that helps.
const HELPS: &str = "a copy that is taken: ";

fn is_there() -> bool {
    let there = Command::new("ffmpeg").arg("-version").output().is_ok();
    if !there {
        println!("skipped: no ffmpeg");
    }
    there
}

/// Its test picture as a clip.
fn made(folder: &Folder, name: &str, size: &str, format: &str) {
    let source = format!("testsrc2=size={size}:rate=25");
    let mut ffmpeg = Command::new("ffmpeg");
    ffmpeg.args(["-v", "error", "-f", "lavfi", "-i", &source]);
    ffmpeg.args(["-frames:v", "4", "-pix_fmt", format, "-strict", "-1"]);
    Run::of(ffmpeg.arg(folder.path(name))).exits(0);
}

#[test]
fn taken() {
    if !is_there() {
        return;
    }
    let folder = Folder::new();
    made(&folder, "test.y4m", "128x96", "yuv420p10le");
    let run = folder.evc("predict test.y4m").done();
    assert!(run.out.ends_with("; all agree\n"), "{run:?}");
    // It reads what is written.
    for name in folder.names("evc-out/test-frame1") {
        if name.ends_with(".y4m") || name.ends_with(".png") {
            let mut ffmpeg = Command::new("ffmpeg");
            ffmpeg.args([
                "-v",
                "error",
                "-err_detect",
                "crccheck+bitstream+explode",
                "-i",
            ]);
            ffmpeg.arg(folder.path(&format!("evc-out/test-frame1/{name}")));
            let run = Run::of(ffmpeg.args(["-f", "null", "-"]));
            assert!(run.err.is_empty(), "{name}: {run:?}");
            run.exits(0);
        }
    }
}

/// The line that a refusal has is pasted, and the copy that it makes is taken.
#[test]
fn mended() {
    if !is_there() {
        return;
    }
    for (name, size, format, code) in [
        ("eight.y4m", "128x96", "yuv420p", 3),
        ("wide.y4m", "128x96", "yuv422p10le", 3),
        ("odd.y4m", "130x98", "yuv420p10le", 1),
        ("reel 7's.y4m", "128x96", "yuv420p", 3),
        ("10:30.y4m", "128x96", "yuv420p", 3),
        ("-eight.y4m", "128x96", "yuv420p", 3),
    ] {
        let folder = Folder::new();
        made(&folder, name, size, format);
        let mut command = folder.command("predict --");
        let run = Run::of(command.arg(name)).exits(code);
        let (_, line) = run.note().split_once(HELPS).unwrap();
        let made = folder.shell(line);
        assert_eq!(made.code, Some(0), "{line}: {made:?}");
        let names = folder.names(".").into_iter();
        let copies: Vec<_> = names.filter(|name| name.ends_with("-10bit.y4m")).collect();
        assert_eq!(copies.len(), 1, "{name}");
        let mut command = folder.command("predict --");
        Run::of(command.arg(&copies[0])).done();
    }
}

/// The words of the line that helps, as a shell has them; none if there is no line.
fn words(folder: &Folder, run: &Run) -> Option<Vec<String>> {
    let (_, line) = run.err.trim_end().split_once(HELPS)?;
    let line = format!("ffmpeg() {{ printf '%s\\n' \"$@\"; }}\n{line}");
    let said = folder.shell(&line).done();
    Some(said.out.lines().map(String::from).collect())
}

/// The line names the clip, whatever signs the name has, and the copy lies beside it.
#[test]
fn any_name() {
    let folder = Folder::new();
    let mut clip = Clip::moving((32, 16), (4, 0), 3);
    clip.tags = "C420jpeg".into();
    for (name, copy) in [
        ("reel.mov", "reel-10bit.y4m"),
        ("reel", "reel-10bit.y4m"),
        ("a folder/reel 7.y4m", "a folder/reel 7-10bit.y4m"),
        ("it's.y4m", "it's-10bit.y4m"),
        (
            "$HOME & (more); \"too\".y4m",
            "$HOME & (more); \"too\"-10bit.y4m",
        ),
        ("a|b<c>d.y4m", "a|b<c>d-10bit.y4m"),
        ("`ls`.y4m", "`ls`-10bit.y4m"),
        ("back\\slash.y4m", "back\\slash-10bit.y4m"),
        ("*.y4m", "*-10bit.y4m"),
        ("~root.y4m", "~root-10bit.y4m"),
        ("reels.2024/reel", "reels.2024/reel-10bit.y4m"),
        ("reels/.hidden", "reels/.hidden-10bit.y4m"),
    ] {
        folder.write(name, clip.bytes());
        let run = Run::of(folder.command("predict").arg(name)).exits(3);
        let words = words(&folder, &run).unwrap();
        let [i, from, .., to] = &words[..] else {
            panic!("{words:?}")
        };
        let [from, to] = [from, to].map(|word| word.strip_prefix("./").unwrap_or(word));
        assert_eq!([i, from, to], ["-i", name, copy]);
    }
}

/// Of standard input no file is made up.
#[test]
fn no_name() {
    let folder = Folder::new();
    let mut clip = Clip::moving((32, 16), (4, 0), 3);
    clip.tags = "C420jpeg".into();
    let run = Run::fed(&mut folder.command("predict -"), &clip.bytes()).exits(3);
    if let Some(words) = words(&folder, &run) {
        assert_eq!(words[1], "-", "{run:?}");
    }
}
