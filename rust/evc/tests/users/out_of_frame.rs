//! Shots whose motion runs far out of frame, which cataloguers mark: the counts, the words and the note.

use crate::clip::{planes, Clip};
use crate::json::Line;
use crate::tool::Folder;
use crate::trace::{self, Record};

const SIDES: (usize, usize) = (64, 48);

/// Vectors past the left edge, the right, the top, the bottom.
pub type Counts = [u64; 4];

fn counts(line: &Line) -> Counts {
    ["across_low", "across_high", "down_low", "down_high"].map(|name| line.number(name) as u64)
}

const STAYS: &str = "motion stays within 64 samples of the frame";

/// What is said of them, and noted.
pub fn runs([left, right, top, bottom]: Counts) -> String {
    let vectors = if left == 1 { "vector" } else { "vectors" };
    format!(
        "motion runs out of frame: {left} {vectors} past the left edge, {right} past the right, \
         {top} past the top, {bottom} past the bottom"
    )
}

fn sum(counts: &[Counts]) -> Counts {
    [0, 1, 2, 3].map(|edge| counts.iter().map(|counts| counts[edge]).sum())
}

/// A block of 16 by 16 whose vectors stay within the frame's reach from -320 to 384 across and from -320
/// to 320 down.
fn record(kind: u8, mv: [i16; 4], poc: [u16; 2]) -> Record {
    Record {
        block: [16, 16, 16, 16],
        kind,
        mv,
        poc,
    }
}

/// Records of every kind, and what is moved of each.
fn records() -> Vec<(Record, Counts)> {
    vec![
        // At a limit nothing is moved, and a quarter sample past it the component is.
        (record(0, [-320, -320, 0, 0], [0, 0]), [0; 4]),
        (record(1, [0, 0, 384, 320], [0, 2]), [0; 4]),
        (record(0, [-321, 0, 0, 0], [0, 0]), [1, 0, 0, 0]),
        (record(0, [385, 0, 0, 0], [0, 0]), [0, 1, 0, 0]),
        (record(1, [0, 0, 0, -321], [0, 2]), [0, 0, 1, 0]),
        (record(1, [0, 0, 0, 321], [0, 2]), [0, 0, 0, 1]),
        // Both components, and both lists.
        (record(0, [-32768, 32767, 0, 0], [0, 0]), [1, 0, 0, 1]),
        (record(2, [385, -321, -321, 5], [0, 2]), [1, 1, 1, 0]),
        (record(2, [385, 0, 385, 0], [0, 2]), [0, 2, 0, 0]),
        // Equal counts and vectors that clipping makes equal: list 0 alone stands, list 1 is in use.
        (record(2, [0, -400, 0, -401], [2, 2]), [0, 0, 2, 0]),
        (record(2, [0, -320, 0, -401], [2, 2]), [0, 0, 1, 0]),
        // Half of the map's vector, and the same backward.
        (record(3, [0; 4], [0, 2]), [1, 1, 0, 0]),
    ]
}

const REFERENCES: &str = "--ref0 reel.y4m --ref1 reel.y4m --frame1 1 --motion map.motion";

/// A folder with two frames of a clip, and a motion map of vectors that lead 200 samples to the left.
fn desk() -> Folder {
    let folder = Folder::new();
    folder.write("reel.y4m", Clip::moving(SIDES, (5, -3), 2).bytes());
    let unit: Vec<u8> = [-800i16, 0, 0, 0].map(i16::to_le_bytes).concat();
    folder.write("map.motion", unit.repeat(SIDES.0 * SIDES.1 / 16));
    folder
}

fn written(records: Vec<Record>) -> Vec<u8> {
    trace::written((64, 48), 1, 0, &records)
}

/// Each record alone.
#[test]
fn past_each_edge() {
    let folder = desk();
    for (n, (record, want)) in records().into_iter().enumerate() {
        folder.write("one.ipt", written(vec![record]));
        let line = format!("replay one.ipt {REFERENCES}");
        let run = folder.evc(&line).done();
        let said = match want {
            [0, 0, 0, 0] => STAYS.into(),
            want => runs(want),
        };
        assert!(run.out.starts_with(&format!("{said}\n")), "{n}: {run:?}");
        let note = match want {
            [0, 0, 0, 0] => "1 record finished".into(),
            want => format!("1 record finished; {}", runs(want)),
        };
        assert_eq!(run.behind("one.ipt: "), note, "{n}");
        let line = folder.evc(&format!("{line} --json")).done().json_line();
        assert_eq!((counts(&line), line.text("note")), (want, note), "{n}");
    }
}

/// Refused in record k, the counts are of the records before it.
#[test]
fn refused_or_not() {
    let folder = desk();
    let (records, moved): (Vec<_>, Vec<_>) = records().into_iter().unzip();
    let whole = written(records);
    folder.write("whole.ipt", &whole);
    let line = format!("replay whole.ipt {REFERENCES} --json");
    let line = folder.evc(&line).done().json_line();
    assert_eq!(counts(&line), sum(&moved));
    assert!(sum(&moved).iter().all(|count| *count > 1));
    for k in 0..moved.len() {
        let want = sum(&moved[..k]);
        folder.write("damaged.ipt", trace::damaged(&whole, k));
        let line = format!("replay damaged.ipt {REFERENCES}");
        let run = folder.evc(&line).exits(1);
        let line = folder.evc(&format!("{line} --json")).exits(1).json_line();
        assert_eq!((line.number("finished"), counts(&line)), (k as f64, want));
        // In the note behind what is finished, and before what is refused.
        let (finished, refused) = line
            .text("note")
            .split_once(&format!("; record {k}: refused (12): "))
            .map(|(finished, refused)| (finished.to_string(), refused.to_string()))
            .unwrap();
        let runs_out = want != [0; 4];
        assert_eq!(finished.ends_with(&format!("; {}", runs(want))), runs_out);
        assert!(!refused.contains("out of frame"), "{refused}");
        // Of no record there is nothing to be said.
        let said = [runs(want), STAYS.into()].map(|said| run.out.lines().any(|line| line == said));
        assert_eq!(said, [runs_out, k > 0 && !runs_out], "{run:?}");
    }

    // Before the first record nothing is predicted.
    for bytes in [&whole[..5], b"IPT\x02\0\0\0\0\0\0\0\0\0"] {
        folder.write("bad.ipt", bytes);
        let line = format!("replay bad.ipt {REFERENCES} --json");
        let line = folder.evc(&line).exits(1).json_line();
        assert_eq!(counts(&line), [0; 4]);
        assert!(!line.text("note").contains("frame"), "{line:?}");
    }
}

/// Without the map a direct record has zero vectors.
#[test]
fn direct_without_a_map() {
    let folder = desk();
    folder.write("direct.ipt", written(vec![record(3, [0; 4], [0, 2])]));
    let references = REFERENCES.replace("--motion map.motion", "");
    let line = format!("replay direct.ipt {references} --json");
    assert_eq!(counts(&folder.evc(&line).done().json_line()), [0; 4]);
}

/// A flipped reel runs out at the other edge.
#[test]
fn flipped() {
    let folder = desk();
    let (records, moved): (Vec<_>, Vec<_>) = records().into_iter().unzip();
    folder.write("straight.ipt", written(records));
    let [left, right, top, bottom] = sum(&moved);
    for (way, want) in [
        ("left-right", [right, left, top, bottom]),
        ("top-bottom", [left, right, bottom, top]),
    ] {
        for line in [
            format!("flip reel.y4m --{way} --out f.y4m"),
            format!("flip-trace straight.ipt --{way} --motion map.motion --out f.ipt"),
        ] {
            folder.evc(&line).done();
        }
        assert_ne!(want, sum(&moved), "{way}");
        let line = "replay f.ipt --ref0 f.y4m --ref1 f.y4m --frame1 1 --json";
        assert_eq!(counts(&folder.evc(line).done().json_line()), want, "{way}");
    }
}

/// A curtain of one grey, drawn across or down by 34 samples a frame, and a pattern that it pushes on. In
/// the last frame it goes on as before: twice as far, and then past the edge from which it is drawn.
fn curtain(sides: (usize, usize), is_down: bool) -> Clip {
    let step = if is_down { (0, 4 * 34) } else { (4 * 34, 0) };
    let mut clip = Clip::moving(sides, step, 3);
    for (n, frame) in clip.frames.iter_mut().enumerate() {
        let mut rest = &mut frame[..];
        for (c, (w, h)) in planes(sides).into_iter().enumerate() {
            let (plane, behind) = rest.split_at_mut(w * h);
            rest = behind;
            let drawn = (4 + 34 * n) / if c == 0 { 1 } else { 2 };
            let is_curtain = |k: usize| (if is_down { k / w } else { k % w }) < drawn;
            let samples = plane.iter_mut().enumerate();
            samples
                .filter(|(k, _)| is_curtain(*k))
                .for_each(|(_, sample)| *sample = 400);
        }
    }
    clip
}

/// By document 02's sentences, of a block's x, y, w, h and one vector.
fn moved((pic_w, pic_h): (usize, usize), [x, y, w, h]: [usize; 4], mv: [i16; 2]) -> Counts {
    let edges = |at: usize, mv: i16, side: usize, pic: usize| {
        let [at, side, pic] = [at, side, pic].map(|n| n as i64);
        let place = 4 * at + i64::from(mv);
        let is_high = place + 4 * side - 4 > 4 * (pic - 1 + 64);
        [place < -256, is_high].map(u64::from)
    };
    let [left, right] = edges(x, mv[0], w, pic_w);
    let [top, bottom] = edges(y, mv[1], h, pic_h);
    [left, right, top, bottom]
}

/// What a kept trace asks for, with the vectors of the predicted picture's motion map, direct ones too:
/// how much of it is moved, and how many vectors are.
fn asked_for(folder: &Folder, trace: &str, out: &str, sides: (usize, usize)) -> (Counts, u64) {
    let trace = folder.read(trace);
    let map = folder.read(&format!("{out}/predicted.motion"));
    let numbers: Vec<_> = map
        .chunks_exact(2)
        .map(|pair| i16::from_le_bytes([pair[0], pair[1]]))
        .collect();
    let mut all = Vec::new();
    for k in 0..trace::records(&trace) {
        let block = trace::block(&trace, k);
        let unit = block[1] / 4 * (sides.0 / 4) + block[0] / 4;
        // The map has zeros for a list that is not in use.
        for mv in numbers[4 * unit..4 * unit + 4].chunks(2) {
            all.push(moved(sides, block, [mv[0], mv[1]]));
        }
    }
    let clipped = all.iter().filter(|moved| **moved != [0; 4]).count();
    (sum(&all), clipped as u64)
}

/// Frames of clips, one for each edge and one that stays.
#[test]
fn predicted() {
    let folder = Folder::new();
    let out = "evc-out/reel-frame2";
    let predict = "predict reel.y4m --frame 2 --trace kept.ipt";
    let replay = format!(
        "replay kept.ipt --ref0 {out}/reference0.y4m --ref1 {out}/reference1.y4m --motion {out}/reference1.motion"
    );
    for (clip, edge) in [
        (Clip::moving((64, 48), (5, -3), 3), None),
        (curtain((80, 64), false), Some(0)),
        (curtain((128, 64), false).turned("left-right"), Some(1)),
        (curtain((64, 80), true), Some(2)),
        (curtain((64, 128), true).turned("top-bottom"), Some(3)),
    ] {
        folder.write("reel.y4m", clip.bytes());
        let line = folder.evc(&format!("{predict} --json")).done().json_line();
        let (want, clipped) = asked_for(&folder, "kept.ipt", out, clip.sides);
        for (other, count) in want.into_iter().enumerate() {
            assert_eq!(count > 0, edge == Some(other), "{edge:?}: {want:?}");
        }
        assert_eq!(counts(&line), want);
        assert_eq!(line.number("clipped"), clipped as f64);
        let note = line.text("note");
        let noted = note.ends_with(&format!("; {}; all agree", runs(want)));
        assert_eq!(noted, edge.is_some(), "{note}");
        assert_eq!(note.contains("frame:"), edge.is_some(), "{note}");

        // Its trace, at the desk.
        let line = folder.evc(&format!("{replay} --json")).done().json_line();
        assert_eq!(counts(&line), want);

        // In sentences.
        if edge.is_none_or(|edge| edge == 0) {
            let run = folder.evc(predict).done();
            let said = edge.map_or(STAYS.into(), |_| runs(want));
            assert!(run.out.lines().any(|line| line == said), "{run:?}");
            let said = format!("; {clipped} are clipped");
            assert!(run.behind("vectors: ").ends_with(&said), "{run:?}");
            assert_eq!(run.behind("reel.y4m: "), note);
        }
    }
}

/// The help says what each number is.
#[test]
fn told_in_the_help() {
    let folder = Folder::new();
    let man = folder.evc("man").done().out;
    for command in ["predict", "replay"] {
        let help = folder.evc(&format!("{command} --help")).done().out;
        let help = help.split_whitespace().collect::<Vec<_>>().join(" ");
        for words in [
            "past the left edge (across_low in JSON), the right (across_high), the top (down_low) and the \
             bottom (down_high)",
            "out of frame",
        ] {
            assert!(help.contains(words), "{command}: {words}: {help}");
            assert!(man.contains(words), "{words}");
        }
    }
}
