//! What is predicted: a picture of the built-in scene, or a frame of a clip.

use crate::coded::{self, Kind, References};
use crate::report::{Failure, Result};
use crate::scene;
use crate::search::{Search, Vectors};
use crate::y4m::{Clip, Header, PLANES};
use evc_inter::{EvcMv, PaddedPicture, Picture, MAX_POC};
use std::path::Path;

/// When the scene is shown: order counts of the references, and that of the picture between them. Their
/// distances meet every path of the filter.
const SCENE_POC: [u32; 2] = [2, 7];
const SCENE_CURRENT: u32 = 4;

/// A picture and what it is predicted from.
pub struct Material {
    /// Which picture, from which: for its note.
    pub named: String,
    pub header: Header,
    pub references: References,
    pub picture: Picture,
    /// The vectors of all that moves, where they are known.
    pub known: Option<Vec<[EvcMv; 2]>>,
}

/// Padded, to be a reference; `place` is where the picture comes from.
pub fn padded(picture: Picture, place: &str) -> Result<PaddedPicture> {
    picture.pad().map_err(|e| {
        let plane = PLANES[e.plane()];
        Failure::at(format!("{place}, plane {plane}"))(e.refusal())
    })
}

/// The built-in scene.
pub fn scene(sides: (u32, u32)) -> Result<Material> {
    let (w, h) = sides;
    let picture = |time| {
        let picture = scene::picture(w, h, time).map_err(Failure::at(format!("{w} by {h}")))?;
        padded(picture, &format!("picture {time}"))
    };
    let [first, second] = SCENE_POC.map(picture);
    let vectors = SCENE_POC.map(|poc| scene::vectors(SCENE_CURRENT, poc));
    let known = (0..2)
        .map(|thing| [vectors[0][thing], vectors[1][thing]])
        .collect();
    let [poc0, poc1] = SCENE_POC;
    Ok(Material {
        named: format!("picture {SCENE_CURRENT} from {poc0} and {poc1}"),
        header: Header::new(sides),
        references: References {
            pictures: [first?, second?],
            poc: SCENE_POC,
            current: SCENE_CURRENT,
            col_mv: scene::motion_map(w, h, SCENE_POC[1], SCENE_POC[0]),
        },
        picture: picture(SCENE_CURRENT)?.into_picture(),
        known: Some(known),
    })
}

/// The motion map that a decoder would have kept of the second reference.
fn collocated(references: &References) -> Result<Vec<i16>> {
    let search = Search {
        references,
        picture: references.pictures[1].picture(),
        kinds: &[Kind::List0],
        vectors: Vectors::Searched,
    };
    let blocks = search.blocks("motion of the second reference")?;
    let (map_mv, _) = coded::maps(references.sides(), &blocks);
    Ok(map_mv)
}

/// The last three frames of a clip that is read up to the one behind frame `n`, or to its end.
fn last_three(clip: &mut Clip, n: u64) -> Result<[Picture; 3]> {
    let mut last = [clip.picture()?, clip.picture()?, clip.picture()?];
    let mut next = clip.picture()?;
    while clip.frames < n.saturating_add(2).max(3) && clip.read(&mut next)?.is_some() {
        last.rotate_left(1);
        std::mem::swap(&mut last[2], &mut next);
    }
    match clip.frames {
        read @ 0..3 => Err(Failure::File(format!(
            "a picture is predicted from two others, and the clip has {read}"
        ))),
        read if n >= read => Err(Failure::File(format!(
            "there is no frame {n}: the clip has frames 0 to {}",
            read - 1
        ))),
        _ => Ok(last),
    }
}

/// Frame `n` of a clip, with its two neighbours or, at an end of the clip, the two nearest.
pub fn frames(path: &Path, n: u64) -> Result<Material> {
    let mut clip = Clip::open(path)?;
    let last = last_three(&mut clip, n)?;
    let first = clip.frames - 3;
    let [a, b, c] = last;
    let [a, b, c] = [(0, a), (1, b), (2, c)]
        .map(|(k, picture)| padded(picture, &format!("frame {}", first + k)));
    let (picture, pictures, others) = match n - first {
        0 => (a?, [b?, c?], [1, 2]),
        1 => (b?, [a?, c?], [0, 2]),
        _ => (c?, [a?, b?], [0, 1]),
    };
    let [other0, other1] = others.map(|k| first + u64::from(k));
    // Frames are the order counts; where these have no more room, their distances still do.
    let base = Some(first)
        .filter(|first| first + 2 <= u64::from(MAX_POC))
        .unwrap_or(0) as u32;
    let mut references = References {
        pictures,
        poc: others.map(|k| base + k),
        current: base + (n - first) as u32,
        col_mv: Vec::new(),
    };
    references.col_mv = collocated(&references)?;
    Ok(Material {
        named: format!("frame {n} from {other0} and {other1}"),
        header: clip.header,
        references,
        picture: picture.into_picture(),
        known: None,
    })
}

#[cfg(test)]
mod tests {
    use super::*;
    use crate::output::test_folder;
    use std::fs;

    /// Order counts end at 32,767, and clips do not.
    #[test]
    fn counts() {
        let folder = test_folder("counts");
        let path = folder.join("long.y4m");
        let frame = [&b"FRAME\n"[..], &[1, 0].repeat(24)].concat();
        let clip = [&b"YUV4MPEG2 W4 H4 C420p10\n"[..], &frame.repeat(32_770)];
        fs::write(&path, clip.concat()).unwrap();
        for (n, named, current, poc) in [
            (0, "frame 0 from 1 and 2", 0, [1, 2]),
            (7, "frame 7 from 6 and 8", 7, [6, 8]),
            (
                32_766,
                "frame 32766 from 32765 and 32767",
                32_766,
                [32_765, 32_767],
            ),
            (32_767, "frame 32767 from 32766 and 32768", 1, [0, 2]),
            (32_769, "frame 32769 from 32767 and 32768", 2, [0, 1]),
        ] {
            let material = frames(&path, n).unwrap();
            let References {
                current: count,
                poc: counts,
                ..
            } = material.references;
            assert_eq!((&material.named[..], count, counts), (named, current, poc));
        }
        let Err(Failure::File(said)) = frames(&path, 32_770) else {
            panic!("there is such a frame")
        };
        assert_eq!(
            said,
            "there is no frame 32770: the clip has frames 0 to 32769"
        );
        fs::remove_dir_all(&folder).unwrap();
    }
}
