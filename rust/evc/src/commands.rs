//! The subcommands: what each takes, and its help, from which the manual page is made too.

use crate::args::{Given, Opt, Value};
use crate::report::Console;
use crate::{camera, flip, predict, replay};
use std::fmt::Write;

pub struct Command {
    pub name: &'static str,
    /// What stands behind the name.
    takes: &'static str,
    /// One line.
    what: &'static str,
    text: &'static str,
    pub options: &'static [Opt],
    /// Lines to try, each with what it does.
    examples: &'static [(&'static str, &'static str)],
    pub run: fn(&Given, &mut Console) -> Result<(), String>,
}

const OUT: Opt = opt(
    "--out",
    Value::Wanted("DIR"),
    "the folder that gets a folder for each item; evc-out if it is not given",
);
const JSON: Opt = opt(
    "--json",
    Value::Nothing,
    "one line of JSON an item, for the catalogue, and nothing else on standard output",
);
const LEFT_RIGHT: Opt = opt(
    "--left-right",
    Value::Nothing,
    "turns left to right, which is the default",
);
const TOP_BOTTOM: Opt = opt("--top-bottom", Value::Nothing, "turns top to bottom");
const WAY: &str = "left-right|top-bottom";

const fn opt(name: &'static str, value: Value, text: &'static str) -> Opt {
    Opt { name, value, text }
}

pub const COMMANDS: [Command; 7] = [
    Command {
        name: "predict",
        takes: "[CLIP.y4m ..]",
        what: "predicts a picture from two others, and checks it",
        text: "With no clip it predicts a picture of a built-in scene by the scene's own motion. With clips it \
               predicts one frame of each from its two neighbours (at an end of the clip, from the two nearest), \
               by a plain motion search: whole samples, then halves and quarters, measured on what the proved \
               call predicts. Every predicted block is checked against the general filter, its mirror images, \
               the exchanged lists and its quarters, and what is reported of its vectors against where they lead; \
               the picture is predicted again from flipped references, and its trace is replayed. A vector may lead \
               a block up to 64 samples out of the picture. One that leads farther is clipped to that, and the note \
               says that motion runs out of frame: how many vectors of both lists lead past the left edge \
               (across_low in JSON), the right (across_high), the top (down_low) and the bottom (down_high). In JSON \
               clipped is how many vectors are; one that leads past the left edge and the top counts once there, \
               and at both edges. Clips have 10-bit 4:2:0 samples (C420p10); - is standard input. The folder \
               of an item, CLIP-frameN, gets predicted, true and difference pictures (.y4m, .png; difference.y4m \
               is 512 where both are equal), blocks.png with the blocks' edges (yellow list 0, blue list 1, white \
               both, pink direct), side-by-side.png (straight, and flipped and turned back), and the raw maps that \
               evc camera and evc replay read. A PSNR is null in JSON where all samples are equal.",
        options: &[
            opt("--frame", Value::Wanted("N"), "the frame of each clip, from 0 on; 1 if it is not given"),
            opt("--flip", Value::Optional(WAY), "writes the reel as scanned with the wrong side to the lens too: flipped.y4m, flipped.png beside the straight print, and the flipped references"),
            opt("--trace", Value::Wanted("FILE"), "keeps the trace: what was asked for each block; the references are written beside the pictures"),
            opt("--size", Value::Wanted("WxH"), "the size of the built-in scene; 416x240 if it is not given"),
            OUT,
            JSON,
        ],
        examples: &[
            ("evc predict", "the built-in scene, into evc-out/scene"),
            ("evc predict reel7.y4m --frame 12 --flip", "frame 12 of a clip, and of its flipped copy"),
            ("evc predict --json reel*.y4m", "a line of JSON for each clip; the run goes on past a bad one"),
        ],
        run: predict::run,
    },
    Command {
        name: "replay",
        takes: "TRACE .. --ref0 A.y4m --ref1 B.y4m",
        what: "replays a trace into a picture",
        text: "Predicts a trace's records once more, one after another, from two references. A note says how many \
               were finished, which one was refused, and why. Where the motion of the finished ones runs out of \
               frame, by more than 64 samples, it also says how many vectors of both lists lead past the left edge \
               (across_low in JSON), the right (across_high), the top (down_low) and the bottom (down_high). The \
               picture has the blocks before the refused one, grey or the target's samples elsewhere: replayed.y4m, \
               replayed.png.",
        options: &[
            opt("--ref0", Value::Wanted("A.y4m"), "the reference of list 0"),
            opt("--ref1", Value::Wanted("B.y4m"), "the reference of list 1"),
            opt("--frame0", Value::Wanted("N"), "its frame of A.y4m; 0 if it is not given"),
            opt("--frame1", Value::Wanted("N"), "its frame of B.y4m; 0 if it is not given"),
            opt("--motion", Value::Wanted("MAP"), "the motion map of the reference of list 1, for direct records: four numbers of 16 bits a unit, low byte first; none if it had none"),
            opt("--target", Value::Wanted("T.y4m"), "the picture that the blocks are put into; grey without it"),
            opt("--beside", Value::Wanted("P.y4m"), "a picture to set it beside, sample for sample: side-by-side.png"),
            opt("--turn-back", Value::Optional(WAY), "turns the picture before that, as one from a flipped reel has to be"),
            OUT,
            JSON,
        ],
        examples: &[
            (
                "evc replay t.ipt --ref0 reel7.y4m --frame0 11 --ref1 reel7.y4m --frame1 13 --motion reference1.motion",
                "from frames of the clip",
            ),
            (
                "evc replay flipped.ipt --ref0 f0.y4m --ref1 f1.y4m --beside predicted.y4m --turn-back",
                "a flipped reel, beside the straight print",
            ),
        ],
        run: replay::run,
    },
    Command {
        name: "flip",
        takes: "CLIP.y4m --out FLIPPED.y4m",
        what: "turns a clip that was scanned with the wrong side to the lens",
        text: "Every picture is turned, one at a time; frame rate, aspect and colour range stay, and field order \
               changes with the rows.",
        options: &[
            LEFT_RIGHT,
            TOP_BOTTOM,
            opt("--out", Value::Wanted("FLIPPED.y4m"), "the turned clip"),
            JSON,
        ],
        examples: &[("evc flip reel7.y4m --out reel7-flipped.y4m", "left to right")],
        run: flip::run,
    },
    Command {
        name: "flip-trace",
        takes: "TRACE --out FLIPPED",
        what: "turns a trace, for the references of a flipped reel",
        text: "Places and vectors are turned. A direct record becomes one of both lists with the vectors that it \
               gave, since the collocated unit does not turn with the block; -32768 counts as -32767, which every \
               place clips to the same. What evc replay makes of it is the mirror image, sample for sample.",
        options: &[
            LEFT_RIGHT,
            TOP_BOTTOM,
            opt("--motion", Value::Wanted("MAP"), "the straight motion map of the reference of list 1, as for evc replay"),
            opt("--out", Value::Wanted("FLIPPED"), "the turned trace"),
            JSON,
        ],
        examples: &[("evc flip-trace t.ipt --motion reference1.motion --out flipped.ipt", "left to right")],
        run: flip::run_trace,
    },
    Command {
        name: "camera",
        takes: "--size WxH MOTION UNITS ..",
        what: "says whether the camera moves",
        text: "Reads pairs of raw files: motion maps (four numbers of 16 bits for each 4 by 4 unit: list 0 across, \
               down, list 1 across, down) and unit words (32 bits each: bit 31 coded, bit 15 intra), row by row, \
               low byte first. A pair may hold any number of pictures, one behind the other. Each gets a sentence: \
               undetermined, still, or moving with the mean of its list 0 vectors in luma samples. A unit that is \
               predicted from list 1 alone counts too, with what the map has for list 0.",
        options: &[opt("--size", Value::Wanted("WxH"), "the size of the pictures"), JSON],
        examples: &[(
            "evc camera --size 416x240 evc-out/scene/predicted.motion evc-out/scene/predicted.units",
            "what evc predict has left",
        )],
        run: camera::run,
    },
    Command {
        name: "install",
        takes: "--prefix DIR | --tarball[=FILE]",
        what: "installs header, archive, tool and manual page",
        text: "From the repository, as ./evc install: bin/evc, include/evc_inter.h, lib/libevc_inter.a, \
               lib/pkgconfig/evc_inter.pc, share/man/man1/evc.1, the crate in share/evc_inter/evc-inter, documents and \
               examples, below DIR or in a tarball for machines without the Rattle toolchain.",
        options: &[
            opt("--prefix", Value::Wanted("DIR"), "where to; DESTDIR is put before it"),
            opt("--tarball", Value::Optional("FILE"), "packs the same; evc_inter-VERSION-x86_64-linux.tar.gz if no FILE is given"),
        ],
        examples: &[("./evc install --prefix /usr/local", "for all users of a machine")],
        run: |_, _| Err("is for the repository: run ./evc install there".into()),
    },
    Command {
        name: "man",
        takes: "",
        what: "prints the manual page",
        text: "In roff, for man: evc man | man -l -",
        options: &[],
        examples: &[("evc man > evc.1", "as evc install does")],
        run: |given, console| {
            given.no_words()?;
            console.say(man().trim_end());
            Ok(())
        },
    },
];

pub fn command(name: &str) -> Option<&'static Command> {
    COMMANDS.iter().find(|command| command.name == name)
}

const EXITS: [(&str, &str); 5] = [
    ("0", "done"),
    ("1", "an item was refused"),
    ("2", "the words make no sense"),
    (
        "3",
        "a file was not read or written, or is not what it should be",
    ),
    ("4", "a comparison disagreed"),
];

pub fn version() -> String {
    let version = env!("CARGO_PKG_VERSION");
    format!("evc {version}, with the proved calls of documents 01 and 02 (W1 to W4, W6)\n")
}

/// Words on lines of at most 100 columns, each behind some blanks.
fn filled(text: &str, indent: usize) -> String {
    let mut out = String::new();
    let mut column = 0;
    for word in text.split_whitespace() {
        let width = word.chars().count();
        if column > 0 && column + 1 + width > 100 {
            out.push('\n');
            column = 0;
        }
        if column == 0 {
            out.push_str(&" ".repeat(indent));
            column = indent + width;
        } else {
            out.push(' ');
            column += 1 + width;
        }
        out.push_str(word);
    }
    out.push('\n');
    out
}

impl Opt {
    fn shown(&self) -> String {
        match self.value {
            Value::Nothing => self.name.into(),
            Value::Wanted(what) => format!("{} {what}", self.name),
            Value::Optional(what) => format!("{}[={what}]", self.name),
        }
    }
}

impl Command {
    fn usage(&self) -> String {
        let options = if self.options.is_empty() {
            ""
        } else {
            " [option ..]"
        };
        format!("evc {} {}", self.name, self.takes)
            .trim_end()
            .to_string()
            + options
    }

    pub fn help(&self) -> String {
        let mut help = format!("usage: {}\n\n{}", self.usage(), filled(self.text, 0));
        for (k, opt) in self.options.iter().enumerate() {
            help.push_str(if k == 0 { "\noptions:\n" } else { "" });
            let _ = write!(help, "  {}\n{}", opt.shown(), filled(opt.text, 6));
        }
        help.push_str("\nto try:\n");
        for (line, what) in self.examples {
            let _ = write!(help, "  {line}\n{}", filled(what, 6));
        }
        help
    }
}

pub fn help() -> String {
    let mut help = String::from(
        "usage: evc COMMAND ..\nInter prediction of EVC Baseline with proved calls, for a film archive.\n\n",
    );
    for command in &COMMANDS {
        let _ = writeln!(help, "  {:11} {}", command.name, command.what);
    }
    help.push_str(
        "\nevc COMMAND --help tells more, evc --version which calls are in it. It ends with\n",
    );
    for (number, what) in EXITS {
        let _ = writeln!(help, "  {number}  {what}");
    }
    help
}

/// A line of roff that begins with no request.
fn roff(text: &str) -> String {
    text.replace('\\', "\\e").replace('-', "\\-")
}

fn man() -> String {
    let version = env!("CARGO_PKG_VERSION");
    let mut man = format!(
        ".TH EVC 1 \"\" \"evc {version}\"\n.SH NAME\nevc \\- inter prediction of EVC Baseline with proved calls\n\
         .SH SYNOPSIS\n.B evc\n.I COMMAND\n[option ..]\n.SH DESCRIPTION\nPredicts, replays and flips pictures of \
         film copies with the calls of libevc_inter.a, each of which is proved to meet its contract.\n"
    );
    for command in &COMMANDS {
        let _ = write!(
            man,
            ".SS {}\n{}\n.PP\n",
            roff(&command.usage()),
            roff(command.text)
        );
        for opt in command.options {
            let _ = write!(man, ".TP\n.B {}\n{}\n", roff(&opt.shown()), roff(opt.text));
        }
        for (line, what) in command.examples {
            let _ = write!(man, ".PP\n{}:\n.br\n.B {}\n", roff(what), roff(line));
        }
    }
    man.push_str(
        ".SH OPTIONS\n.TP\n.B evc COMMAND \\-\\-help\nthe help of a command\n\
         .TP\n.B evc \\-\\-version\nthe version, and which calls are in it\n.SH EXIT STATUS\n",
    );
    for (number, what) in EXITS {
        let _ = write!(man, ".TP\n.B {number}\n{what}\n");
    }
    man.push_str(
        ".SH FILES\nA file is written as .evc.PID.part first, beside its own name, and renamed when it is whole. Only a run that was killed \
         by force leaves one, which may be deleted.\n.SH SEE ALSO\nThe calls for C and C++ are declared and described in evc_inter.h; putting them into a \
         decoder, from Rust too, is in INTEGRATION.md of the installed documents (share/doc/evc_inter).\n",
    );
    man
}

#[cfg(test)]
mod tests {
    use super::*;

    #[test]
    fn told_of_everything() {
        let man = man();
        for command in &COMMANDS {
            assert!(help().contains(command.name));
            let help = command.help();
            assert!(
                help.starts_with(&format!("usage: evc {}", command.name)),
                "{help}"
            );
            assert!(!command.examples.is_empty());
            for opt in command.options {
                assert!(help.contains(&opt.shown()) && man.contains(&roff(&opt.shown())));
            }
            for (line, _) in command.examples {
                let words = line.split_once(&format!("evc {}", command.name)).unwrap().1;
                let words = words.split(['>', '|']).next().unwrap().split_whitespace();
                let given = Given::read(command, words.map(Into::into));
                assert!(given.unwrap().is_some(), "{line}");
            }
            for line in help.lines().filter(|line| !line.contains("evc ")) {
                assert!(line.chars().count() <= 100, "{line}");
            }
        }
        assert!(man.lines().all(|line| !line.starts_with('\'')));
    }
}
