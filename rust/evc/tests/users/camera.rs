//! `evc camera`: the field of the catalogue, from maps on disk.

use crate::json::Value;
use crate::tool::Folder;

const INTER: u32 = 1 << 31;
const INTRA: u32 = 1 << 31 | 1 << 15;

/// A motion map of some vectors of list 0, with others in list 1, which is not looked at.
fn motion(vectors: &[(i16, i16)]) -> Vec<u8> {
    let numbers = vectors.iter().flat_map(|(x, y)| [*x, *y, 99, -99]);
    numbers.flat_map(i16::to_le_bytes).collect()
}

fn units(words: &[u32]) -> Vec<u8> {
    words.iter().copied().flat_map(u32::to_le_bytes).collect()
}

/// Four pictures of two units each: document 02's 6 and 7, one that is still, one that is intra, and
/// one of which half is.
fn write_reel(folder: &Folder) {
    let vectors = [
        [(6, 0), (7, 0)],
        [(5, -2), (-5, 2)],
        [(8, 8), (8, 8)],
        [(-3, 2), (100, 100)],
    ];
    let words = [
        [INTER, INTER],
        [INTER, INTER],
        [INTRA, INTRA],
        [INTER, INTRA],
    ];
    folder.write("reel.motion", motion(vectors.as_flattened()));
    folder.write("reel.units", units(words.as_flattened()));
}

#[test]
fn pictures_of_a_pair() {
    let folder = Folder::new();
    write_reel(&folder);
    let run = folder
        .evc("camera --size 8x4 reel.motion reel.units")
        .done();
    let want = [
        "reel.motion: picture 0: moving (1.625 across, 0 down)",
        "reel.motion: picture 1: still",
        "reel.motion: picture 2: undetermined",
        "reel.motion: picture 3: moving (-0.75 across, 0.5 down)",
    ];
    assert_eq!(run.out.lines().collect::<Vec<_>>(), want);

    let run = folder.evc("camera --json --size=8x4 reel.motion reel.units");
    let lines = run.done().json();
    for (k, (camera, across, down)) in [
        ("moving", Value::Number(1.625), Value::Number(0.0)),
        ("still", Value::Null, Value::Null),
        ("undetermined", Value::Null, Value::Null),
        ("moving", Value::Number(-0.75), Value::Number(0.5)),
    ]
    .into_iter()
    .enumerate()
    {
        let line = &lines[k];
        assert_eq!(line.text("item"), "reel.motion");
        assert_eq!(line.number("code"), 0.0);
        assert_eq!(line.number("picture"), k as f64);
        assert_eq!(line.text("camera"), camera);
        assert_eq!((line.value("across"), line.value("down")), (across, down));
    }
    assert_eq!(lines.len(), 4);
}

/// A pair that is short, or not there, does not end the run.
#[test]
fn several_pairs() {
    let folder = Folder::new();
    write_reel(&folder);
    let motion = folder.read("reel.motion");
    folder.write("short.motion", &motion[..motion.len() - 1]);
    folder.write("empty.motion", b"");
    let line = "camera --json --size 8x4 short.motion reel.units no-such.motion reel.units \
                empty.motion reel.units reel.motion reel.units";
    let lines = folder.evc(line).exits(3).json();
    let said: Vec<_> = lines
        .iter()
        .map(|l| (l.text("item"), l.value("code")))
        .collect();
    let mut want = Vec::new();
    // The three whole pictures before the short one have their lines.
    for (item, code, count) in [
        ("short.motion", Value::Number(0.0), 3),
        ("short.motion", Value::Number(4.0), 1),
        ("no-such.motion", Value::Null, 1),
        ("empty.motion", Value::Number(4.0), 1),
        ("reel.motion", Value::Number(0.0), 4),
    ] {
        want.extend(vec![(item.to_string(), code); count]);
    }
    assert_eq!(said, want);
    assert_eq!(lines[3].text("place"), "picture 3");

    let run = folder
        .evc("camera --size 8x4 short.motion reel.units")
        .exits(1);
    let said = "evc: short.motion: picture 3: refused (4): ";
    assert!(run.note().starts_with(said), "{run:?}");
    assert_eq!(run.out.lines().count(), 3);
}

/// Bytes that make no number are the rest of a picture too.
#[test]
fn cut_off_inside_a_number() {
    let folder = Folder::new();
    write_reel(&folder);
    for (motion_rest, units_rest) in [(1, 0), (0, 3), (1, 3)] {
        let [motion, units] = [("reel.motion", motion_rest), ("reel.units", units_rest)]
            .map(|(name, rest)| [folder.read(name), vec![0; rest]].concat());
        folder.write("cut.motion", motion);
        folder.write("cut.units", units);
        let run = folder.evc("camera --size 8x4 cut.motion cut.units");
        let run = run.exits(1);
        let said = "evc: cut.motion: picture 4: refused (4): ";
        assert!(run.note().starts_with(said), "{run:?}");
    }
}

#[test]
fn words_for_the_camera() {
    let folder = Folder::new();
    write_reel(&folder);
    for size in ["10x4", "8x0", "8x8132"] {
        let line = format!("camera --size {size} reel.motion reel.units");
        let run = folder.evc(&line).exits(1);
        assert!(run.note().contains("refused (1): "), "{size}: {run:?}");
    }
    for (line, said) in [
        ("camera --size 8x4 reel.motion", "pairs"),
        ("camera --size 8x4", "pairs"),
        (
            "camera --size 8x4 reel.motion reel.units reel.motion",
            "pairs",
        ),
        ("camera reel.motion reel.units", "--size"),
        ("camera --size 8 reel.motion reel.units", "--size"),
    ] {
        let run = folder.evc(line).exits(2);
        assert!(run.note().contains(said), "{line}: {run:?}");
        assert_eq!(run.out, "", "{line}");
    }
}

/// The maps that predict leaves say what predict has said.
#[test]
fn what_predict_has_left() {
    let folder = Folder::new();
    let run = folder.evc("predict --size 64x48").done();
    let said = run.behind("camera: ");
    assert!(said.starts_with("moving ("), "{said}");
    let maps = "evc-out/scene/predicted.motion evc-out/scene/predicted.units";
    let camera = folder.evc(&format!("camera --size 64x48 {maps}")).done();
    assert_eq!(camera.behind("picture 0: "), said);
    assert_eq!(camera.out.lines().count(), 1);
}
