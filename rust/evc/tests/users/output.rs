//! What is written: whole, and never over an input.

use crate::clip::Clip;
use crate::tool::{Folder, Run};
use std::fs::{self, File, OpenOptions, Permissions};
use std::os::unix::fs::{symlink, FileTypeExt, MetadataExt, PermissionsExt};
use std::os::unix::process::CommandExt;
use std::process::Command;

fn reel() -> (Folder, Clip) {
    let folder = Folder::new();
    let clip = Clip::moving((32, 16), (4, 0), 3);
    folder.write("reel.y4m", clip.bytes());
    (folder, clip)
}

/// It ends with 3, says that the file is an input, and leaves the clip as it was.
#[track_caller]
fn is_refused(folder: &Folder, clip: &Clip, run: Run) {
    assert!(run.err.contains("input"), "{run:?}");
    run.exits(3);
    assert!(folder.read("reel.y4m") == clip.bytes());
}

#[test]
fn over_an_input() {
    let (folder, clip) = &reel();
    symlink("reel.y4m", folder.path("link.y4m")).unwrap();
    fs::hard_link(folder.path("reel.y4m"), folder.path("hard.y4m")).unwrap();
    for name in ["reel.y4m", "./reel.y4m", "link.y4m", "hard.y4m"] {
        for line in [
            format!("predict reel.y4m --trace {name}"),
            format!("predict {name} --trace reel.y4m"),
            format!("flip reel.y4m --out {name}"),
            format!("flip {name} --out reel.y4m"),
        ] {
            is_refused(folder, clip, folder.evc(&line));
        }
    }
    assert!(folder.path("link.y4m").is_symlink());
    // One of several, and the other clips are as they were too.
    folder.write("other.y4m", clip.bytes());
    folder.evc("predict reel.y4m other.y4m --out there").done();
    fs::remove_file(folder.path("there/other-frame1/true.y4m")).unwrap();
    fs::hard_link(
        folder.path("reel.y4m"),
        folder.path("there/other-frame1/true.y4m"),
    )
    .unwrap();
    is_refused(
        folder,
        clip,
        folder.evc("predict reel.y4m other.y4m --out there"),
    );
}

/// The clip is an input too where the shell opens it.
#[test]
fn over_standard_input() {
    let (folder, clip) = &reel();
    for line in ["flip - --out reel.y4m", "predict - --trace reel.y4m"] {
        let stdin = File::open(folder.path("reel.y4m")).unwrap();
        let run = Run::of(folder.command(line).stdin(stdin));
        is_refused(folder, clip, run);
    }
}

#[test]
fn over_what_replay_reads() {
    let (folder, clip) = &reel();
    folder.evc("predict reel.y4m --trace kept.ipt").done();
    fs::create_dir_all(folder.path("there/kept")).unwrap();
    let replayed = folder.path("there/kept/replayed.y4m");
    fs::hard_link(folder.path("reel.y4m"), replayed).unwrap();
    let [trace, map] = ["kept.ipt", "evc-out/reel-frame1/reference1.motion"];
    let maps = folder.read(map);
    for refs in [
        "--ref0 reel.y4m --ref1 evc-out/reel-frame1/true.y4m",
        "--ref1 reel.y4m --ref0 evc-out/reel-frame1/true.y4m",
    ] {
        let line = format!("replay {trace} {refs} --motion {map} --out there");
        is_refused(folder, clip, folder.evc(&line));
    }
    for name in [trace, map] {
        let line = format!("flip-trace {trace} --motion {map} --out {name}");
        is_refused(folder, clip, folder.evc(&line));
    }
    assert!(folder.read(map) == maps);
}

/// Whether it can be written is found out before the clip is read, or the scene is made.
#[test]
fn before_any_work() {
    let (folder, _) = &reel();
    folder.write("file", "as it was");
    fs::create_dir(folder.path("folder")).unwrap();
    for line in [
        "predict - --out file",
        "predict - --out file/below",
        "predict - --trace folder",
        "predict - --trace no-such/kept.ipt",
        "predict --out file",
        "predict --trace no-such/kept.ipt",
        "flip - --out folder",
        "flip - --out no-such/turned.y4m",
    ] {
        let run = Run::unfed(&mut folder.command(line)).exits(3);
        assert!(run.note().contains("not written: "), "{line}: {run:?}");
        assert_eq!(run.out, "", "{line}");
    }
    assert_eq!(folder.read("file"), b"as it was");
    assert!(folder.names("folder").is_empty());
}

#[test]
fn folder_without_permission() {
    let (folder, _) = &reel();
    for name in ["closed", "there/input-frame1"] {
        fs::create_dir_all(folder.path(name)).unwrap();
        fs::set_permissions(folder.path(name), Permissions::from_mode(0o555)).unwrap();
    }
    let is_root = fs::metadata(folder.path("closed")).unwrap().uid() == 0;
    let command = |line| {
        let mut command = folder.command(line);
        if is_root {
            command.uid(65534).gid(65534); // nobody, since root may write anywhere
        }
        command
    };
    if let Err(e) = command("--version").output() {
        println!("skipped: as root, and nobody cannot start the tool: {e}");
        return;
    }
    for line in [
        "predict - --out closed",
        "predict - --out there",
        "flip - --out closed/turned.y4m",
    ] {
        let run = Run::unfed(&mut command(line)).exits(3);
        let said = "not written: Permission denied";
        assert!(run.note().contains(said), "{line}: {run:?}");
    }
    assert!(folder.names("closed").is_empty() && folder.names("there/input-frame1").is_empty());
}

/// What was there before, however long, is replaced; beside it nothing is left.
#[test]
fn replaced_whole() {
    let (folder, clip) = &reel();
    folder.write("turned.y4m", vec![b'x'; 100_000]);
    folder.write("kept.ipt", vec![b'x'; 100_000]);
    folder.write("evc-out/reel-frame1/predicted.png", vec![b'x'; 100_000]);
    folder.evc("flip reel.y4m --out turned.y4m").done();
    assert!(folder.clip("turned.y4m").frames == clip.turned("left-right").frames);
    folder.evc("predict reel.y4m --trace kept.ipt").done();
    let trace = folder.read("kept.ipt");
    assert!(trace.starts_with(b"IPT\x01\0") && trace.len() % 22 == 13);
    let png = folder.read("evc-out/reel-frame1/predicted.png");
    assert!(png.starts_with(b"\x89PNG") && png.len() < 100_000);
    assert_eq!(
        folder.names("."),
        ["evc-out", "kept.ipt", "reel.y4m", "turned.y4m"]
    );
}

/// A clip that is cut off gives no turned one, and the one from before stays.
#[test]
fn not_half_written() {
    let (folder, clip) = &reel();
    let bytes = clip.bytes();
    folder.write("cut.y4m", &bytes[..bytes.len() - 1]);
    folder.evc("flip cut.y4m --out turned.y4m").exits(3);
    assert_eq!(folder.names("."), ["cut.y4m", "reel.y4m"]);
    folder.write("turned.y4m", "as it was");
    folder.evc("flip cut.y4m --out turned.y4m").exits(3);
    assert_eq!(folder.read("turned.y4m"), b"as it was");
    assert_eq!(folder.names("."), ["cut.y4m", "reel.y4m", "turned.y4m"]);
}

/// A link is followed: who keeps the clips elsewhere finds them there.
#[test]
fn through_a_link() {
    let (folder, clip) = &reel();
    folder.write("elsewhere/turned.y4m", "as it was");
    symlink("elsewhere/turned.y4m", folder.path("link.y4m")).unwrap();
    folder.evc("flip reel.y4m --out link.y4m").done();
    assert!(folder.path("link.y4m").is_symlink());
    assert!(folder.clip("elsewhere/turned.y4m").frames == clip.turned("left-right").frames);
    assert_eq!(folder.names("elsewhere"), ["turned.y4m"]);
}

/// No file takes the place of what is none, as /dev/null is for root.
#[test]
fn over_a_pipe() {
    let (folder, _) = &reel();
    let fifo = folder.path("fifo");
    assert!(Command::new("mkfifo")
        .arg(&fifo)
        .status()
        .unwrap()
        .success());
    // Open on both sides, so that nobody has to wait.
    let held = OpenOptions::new()
        .read(true)
        .write(true)
        .open(&fifo)
        .unwrap();
    folder.evc("flip reel.y4m --out fifo");
    assert!(fs::metadata(&fifo).unwrap().file_type().is_fifo());
    drop(held);
    assert_eq!(folder.names("."), ["fifo", "reel.y4m"]);
}

/// The trace and the pictures do not take each other's place.
#[test]
fn trace_over_a_picture() {
    let (folder, _) = &reel();
    let line = "predict reel.y4m --trace evc-out/reel-frame1/predicted.y4m";
    let run = folder.evc(line);
    assert_ne!(run.code, Some(0), "{run:?}");
}
