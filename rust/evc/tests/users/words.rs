//! Command lines: what is taken, what makes no sense, and how a run ends.

use crate::clip::Clip;
use crate::tool::{Folder, Run};
use std::fs::{File, OpenOptions};
use std::process::{Command, Stdio};

const COMMANDS: [&str; 7] = [
    "predict",
    "replay",
    "flip",
    "flip-trace",
    "camera",
    "install",
    "man",
];

#[test]
fn each_exit_code() {
    let folder = Folder::new();
    let clip = Clip::moving((32, 16), (4, 0), 3);
    folder.write("reel.y4m", clip.bytes());
    folder.evc("predict reel.y4m --trace kept.ipt").exits(0);
    folder.evc("predict --size 32x18").exits(1);
    folder.evc("predict --size 32").exits(2);
    folder.evc("predict no-such.y4m").exits(3);
    let refs = "--ref0 reel.y4m --ref1 reel.y4m --frame1 2";
    folder
        .evc(&format!("replay kept.ipt {refs} --beside reel.y4m"))
        .exits(4);
    // The help says so.
    let help = folder.evc("--help").done().out;
    for code in 0..=4 {
        assert!(help
            .lines()
            .any(|line| line.starts_with(&format!("  {code}  "))));
    }
}

#[test]
fn help() {
    let folder = Folder::new();
    let all = folder.evc("--help").done().out;
    for line in ["", "-h", "help"] {
        assert_eq!(folder.evc(line).done().out, all);
    }
    for name in COMMANDS {
        assert!(all.contains(&format!("\n  {name} ")), "{name}");
        let help = folder.evc(&format!("{name} --help")).done().out;
        assert!(help.starts_with(&format!("usage: evc {name}")), "{help}");
        assert!(help.contains("to try:"), "{help}");
        for line in [format!("{name} -h"), format!("help {name}")] {
            assert_eq!(folder.evc(&line).done().out, help);
        }
    }
    for line in ["--version", "-V"] {
        assert!(folder.evc(line).done().out.starts_with("evc 0."));
    }
    let man = folder.evc("man").done().out;
    assert!(man.starts_with(".TH EVC 1 "));
    for name in COMMANDS {
        let heading = format!(".SS evc {}", name.replace('-', "\\-"));
        assert!(man.contains(&heading), "{name}");
    }
    assert!(folder.names(".").is_empty());
}

/// One line on standard error, nothing else, and nothing is begun.
#[test]
fn words_that_make_no_sense() {
    let folder = Folder::new();
    for (line, said) in [
        ("predicts", "no such command: predicts"),
        ("help predicts", "no such command: predicts"),
        ("--size 64x48", "no such command: --size"),
        ("predict --sizes 64x48", "no such option: --sizes"),
        ("predict -x", "no such option: -x"),
        ("predict --size 64x48 --size 32x16", "--size is given twice"),
        ("predict --json --json", "--json is given twice"),
        ("predict --json=yes", "--json takes nothing behind it"),
        ("predict --size", "--size needs WxH behind it"),
        (
            "predict --size 64",
            "--size needs WxH, as 416x240, not '64'",
        ),
        ("predict --size 64x-4", "not '64x-4'"),
        ("predict --size 99999999999x4", "not '99999999999x4'"),
        (
            "predict --size 64x48 reel.y4m",
            "--size is for the built-in scene",
        ),
        ("predict --frame 1", "--frame is for a clip"),
        ("predict reel.y4m --frame -1", "not '-1'"),
        (
            "predict reel.y4m --frame 18446744073709551616",
            "--frame needs",
        ),
        (
            "predict --flip=round",
            "--flip needs left-right or top-bottom",
        ),
        (
            "predict reel.y4m --flip top-bottom",
            "top-bottom is no clip; is --flip=top-bottom meant?",
        ),
        (
            "predict a.y4m b.y4m --trace kept.ipt",
            "--trace is for one clip",
        ),
        ("replay --ref0 a.y4m --ref1 b.y4m", "which trace?"),
        ("replay kept.ipt --ref1 b.y4m", "--ref0 is needed"),
        ("replay kept.ipt --ref0 a.y4m", "--ref1 is needed"),
        (
            "replay kept.ipt --ref0 a --ref1 b --frame0 x",
            "--frame0 needs",
        ),
        (
            "replay kept.ipt --ref0 a --ref1 b --turn-back",
            "--turn-back is for",
        ),
        ("flip reel.y4m", "--out is needed"),
        ("flip --out turned.y4m", "which file is to be turned?"),
        ("flip a.y4m --out -", "--out needs a name"),
        ("predict --out=", "--out needs a name"),
        ("predict --trace=", "--trace needs a name"),
        ("man page", "takes nothing, not 'page'"),
        ("flip a.y4m b.y4m --out turned.y4m", "one file"),
        (
            "flip a.y4m --out b.y4m --left-right --top-bottom",
            "one of them",
        ),
        ("flip-trace kept.ipt", "--out is needed"),
        ("camera --size 64x48", "pairs"),
        ("install", "./evc install"),
    ] {
        let run = folder.evc(line).exits(2);
        assert!(run.note().starts_with("evc: "), "{line}: {run:?}");
        assert!(run.note().contains(said), "{line}: {run:?}");
        assert_eq!(run.out, "", "{line}");
    }
    assert!(folder.names(".").is_empty());
}

/// Values behind `=` too, and names that begin with a dash behind `--`.
#[test]
fn as_people_type_them() {
    let folder = Folder::new();
    let clip = Clip::moving((32, 16), (4, 0), 3);
    folder.write("-reel.y4m", clip.bytes());
    folder.write("--odd.y4m", clip.bytes());
    let run = folder
        .evc("predict --frame=2 --out=there -- -reel.y4m --odd.y4m")
        .done();
    for name in ["-reel", "--odd"] {
        let said = format!("\n{name}.y4m: frame 2 from 0 and 1 predicted");
        assert!(run.out.contains(&said), "{run:?}");
        assert!(folder.clip(&format!("there/{name}-frame2/true.y4m")) == clip.only(2));
    }
    folder.evc("predict -reel.y4m").exits(2);
    let run = folder.evc("predict --size=64x48").done();
    assert!(run.out.starts_with("64 by 48, "), "{run:?}");
}

/// Who reads one line and goes does not end the work.
#[test]
fn nobody_reads_on() {
    let folder = Folder::new();
    let predict = "predict --size 32x16";
    // The camera has nothing to do but to tell, so it ends too, though these files do not.
    let endless = "camera --size 4x4 /dev/zero /dev/zero";
    for line in [predict, "--help", "predict --help", "man", endless] {
        let mut command = folder.command(line);
        let mut child = command
            .stdout(Stdio::piped())
            .stderr(Stdio::piped())
            .spawn()
            .unwrap();
        drop(child.stdout.take());
        Run::from(child.wait_with_output().unwrap()).done();
    }
    assert_eq!(folder.names("evc-out/scene").len(), 13);
}

fn full() -> File {
    OpenOptions::new().write(true).open("/dev/full").unwrap()
}

fn ends_with(command: &mut Command) -> Option<i32> {
    command.stderr(Stdio::null()).status().unwrap().code()
}

/// A line for the catalogue, or a page, that could not be kept is an error.
#[test]
fn no_room_for_the_lines() {
    let folder = Folder::new();
    for line in ["predict --size 32x16", "predict --size 32x16 --json", "man"] {
        let code = ends_with(folder.command(line).stdout(full()));
        assert_eq!(code, Some(3), "{line}");
    }
}

/// The exit code is right also where nobody hears why.
#[test]
fn no_room_for_the_notes() {
    let folder = Folder::new();
    for (line, code) in [("no-such-command", 2), ("predict no-such.y4m", 3)] {
        let status = folder.command(line).stderr(full()).status().unwrap();
        assert_eq!(status.code(), Some(code), "{line}");
    }
}
