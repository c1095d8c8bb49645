//! A picture as a list of blocks, each with what it is predicted from.

use crate::call::{Call, List};
use crate::moved::{self, Report};
use crate::report::{Console, Failure, Result};
use evc_inter::{evc_get_mv_dir, EvcBlock, EvcList, EvcMv, Flip, MovedCounts, PaddedPicture};
use evc_inter::{Picture, Predictor, Refusal, TraceRecord, TraceWriter, MOTION_LEN, SCU_CODED};
use std::collections::BTreeMap;
use std::fmt;

/// What a decoder has at hand for a picture between two others.
pub struct References {
    pub pictures: [PaddedPicture; 2],
    pub poc: [u32; 2],
    /// The picture's own order count.
    pub current: u32,
    /// The motion map of the second reference, four numbers a unit; its vectors lead to the first.
    pub col_mv: Vec<i16>,
}

impl References {
    pub fn sides(&self) -> (u32, u32) {
        self.pictures[0].sides()
    }

    /// The first count that the second reference lists.
    pub fn list_poc0(&self) -> u32 {
        self.poc[0]
    }

    pub fn direct(&self, block: EvcBlock) -> std::result::Result<[EvcMv; 2], Refusal> {
        let ([poc0, poc1], list_poc0) = (self.poc, self.list_poc0());
        evc_get_mv_dir(
            block,
            self.current,
            poc0,
            poc1,
            list_poc0,
            Some(&self.col_mv),
        )
    }

    pub fn flipped(&self, flip: Flip) -> Result<[PaddedPicture; 2]> {
        let [first, second] = self.pictures.each_ref().map(|picture| {
            let flipped = picture.picture().flipped(flip).pad();
            flipped.map_err(|e| Failure::at("flipped reference")(e.refusal()))
        });
        Ok([first?, second?])
    }
}

/// The kinds of a trace's records, by their numbers.
#[derive(Clone, Copy, Debug, PartialEq, Eq, PartialOrd, Ord)]
pub enum Kind {
    List0,
    List1,
    Both,
    Direct,
}

impl Kind {
    pub const ALL: [Kind; 4] = [Kind::List0, Kind::List1, Kind::Both, Kind::Direct];

    pub fn uses(self, list: usize) -> bool {
        self as usize == list || self >= Kind::Both
    }
}

impl fmt::Display for Kind {
    fn fmt(&self, f: &mut fmt::Formatter<'_>) -> fmt::Result {
        f.write_str(["list 0", "list 1", "both", "direct"][*self as usize])
    }
}

/// A block and its motion; the vector of a list not in use is not looked at.
#[derive(Clone, Copy, Debug, PartialEq)]
pub struct Coded {
    pub block: EvcBlock,
    pub kind: Kind,
    pub mv: [EvcMv; 2],
}

impl fmt::Display for Coded {
    fn fmt(&self, f: &mut fmt::Formatter<'_>) -> fmt::Result {
        self.call([0; 2]).fmt(f)
    }
}

impl Coded {
    /// The prediction, from references of these order counts.
    pub fn call(&self, poc: [u32; 2]) -> Call {
        let lists = [0, 1].map(|list| {
            self.kind.uses(list).then(|| List {
                from: list,
                mv: self.mv[list],
                poc: poc[list],
            })
        });
        let block = self.block;
        Call { block, lists }
    }

    /// The vectors in use.
    pub fn vectors(&self) -> impl Iterator<Item = EvcMv> + '_ {
        (0..2)
            .filter(|list| self.kind.uses(*list))
            .map(|list| self.mv[list])
    }

    /// Direct vectors are kept as they are, since the collocated unit does not turn with the block.
    pub fn flipped(&self, flip: Flip) -> Coded {
        Coded {
            block: self.block.flipped(flip),
            kind: self.kind.min(Kind::Both),
            mv: self.mv.map(|mv| mv.flipped(flip)),
        }
    }

    fn record(&self, poc: [u32; 2]) -> std::result::Result<TraceRecord, Refusal> {
        if self.kind == Kind::Direct {
            return TraceRecord::direct(self.block, poc[0], poc[1]);
        }
        let list = |List { mv, poc, .. }| EvcList {
            used: true,
            mv,
            poc,
        };
        let lists = self.call(poc).lists;
        let [list0, list1] = lists.map(|used| used.map(list).unwrap_or_default());
        TraceRecord::from_lists(self.block, list0, list1)
    }
}

/// Grey all over, borders too: a place that is not written, or wrongly is, shows.
pub fn target((w, h): (u32, u32)) -> Result<Picture> {
    let mut picture = Picture::new(w, h).map_err(Failure::at(format!("{w} by {h}")))?;
    picture
        .samples_mut()
        .into_iter()
        .for_each(|plane| plane.fill(512));
    Ok(picture)
}

/// What blocks give, one after another.
pub struct Answers {
    pub picture: Picture,
    /// What each prediction reports.
    pub reports: Vec<Report>,
}

/// The blocks, predicted from these references.
pub fn predicted(
    pictures: &[PaddedPicture; 2],
    poc: [u32; 2],
    blocks: &[Coded],
) -> Result<Answers> {
    let mut picture = target(pictures[0].sides())?;
    let mut reports = Vec::new();
    let mut predictor = Predictor::new();
    for coded in blocks {
        let prediction = coded.call(poc).predict(pictures, &mut predictor);
        let prediction = prediction.map_err(Failure::at(coded))?;
        prediction.put(&mut picture);
        reports.push(prediction.moved());
    }
    Ok(Answers { picture, reports })
}

/// What was asked for, as a trace.
pub fn trace(references: &References, blocks: &[Coded]) -> Result<Vec<u8>> {
    let (w, h) = references.sides();
    let failed = |e: std::io::Error| Failure::File(format!("trace: {e}"));
    let mut trace = TraceWriter::new(Vec::new(), w, h, references.current, references.list_poc0())
        .map_err(failed)?;
    for coded in blocks {
        let record = coded.record(references.poc).map_err(Failure::at(coded))?;
        trace.record(record).map_err(failed)?;
    }
    Ok(trace.into_inner())
}

/// The motion map and the unit words that a decoder has once the picture is decoded.
pub fn maps((w, h): (u32, u32), blocks: &[Coded]) -> (Vec<i16>, Vec<u32>) {
    let columns = (w / 4) as usize;
    let units = columns * (h / 4) as usize;
    let (mut map_mv, mut map_scu) = (vec![0; MOTION_LEN * units], vec![0; units]);
    for Coded { block: b, kind, mv } in blocks {
        let [x, y, w, h] = [b.x, b.y, b.w, b.h].map(|n| (n / 4) as usize);
        let motion = [0, 1].map(|list| match kind.uses(list) {
            true => mv[list].into(),
            false => [0; 2],
        });
        for at in (y..y + h).flat_map(|row| (x..x + w).map(move |column| row * columns + column)) {
            map_mv[MOTION_LEN * at..][..MOTION_LEN].copy_from_slice(motion.as_flattened());
            map_scu[at] = SCU_CODED;
        }
    }
    (map_mv, map_scu)
}

/// How many blocks and vectors of each sort there are.
#[derive(Default)]
pub struct Tally {
    sizes: BTreeMap<(u32, u32), u64>,
    kinds: [u64; 4],
    /// Vectors that copy, filter down, across, both ways.
    paths: [u64; 4],
    /// Vectors that are moved, across, down or both ways.
    pub clipped: u64,
    pub moved: MovedCounts,
}

impl Tally {
    /// Of blocks, and what their predictions report.
    pub fn of(blocks: &[Coded], reports: &[Report]) -> Tally {
        let vectors = reports.iter().flatten();
        let mut tally = Tally {
            clipped: vectors.filter(|moved| moved.is_moved()).count() as u64,
            moved: moved::counts(reports),
            ..Tally::default()
        };
        for coded in blocks {
            *tally
                .sizes
                .entry((coded.block.w, coded.block.h))
                .or_default() += 1;
            tally.kinds[coded.kind as usize] += 1;
            for mv in coded.vectors() {
                let [across, down] = [mv.x, mv.y].map(|n| usize::from(n & 3 != 0));
                tally.paths[2 * across + down] += 1;
            }
        }
        tally
    }

    pub fn blocks(&self) -> u64 {
        self.kinds.iter().sum()
    }

    pub fn said(&self, console: &mut Console) {
        console.say(format!("{} blocks: {}", self.blocks(), self.said_sizes()));
        console.say(format!("kinds: {}", self.said_kinds()));
        console.say(format!("vectors: {}", self.said_vectors()));
    }

    fn said_sizes(&self) -> String {
        let largest_first = self.sizes.iter().rev();
        let said = largest_first.map(|((w, h), n)| format!("{n} of {w}x{h}"));
        said.collect::<Vec<_>>().join(", ")
    }

    fn said_kinds(&self) -> String {
        let said = Kind::ALL.map(|kind| format!("{} {kind}", self.kinds[kind as usize]));
        said.join(", ")
    }

    fn said_vectors(&self) -> String {
        let [copied, down, across, both] = self.paths;
        format!(
            "{copied} copy, {across} filter across, {down} down, {both} both ways; {} are clipped",
            self.clipped
        )
    }
}

#[cfg(test)]
mod tests {
    use super::*;

    fn coded(x: u32, kind: Kind) -> Coded {
        Coded {
            block: EvcBlock {
                pic_w: 16,
                pic_h: 8,
                x,
                y: 0,
                w: 8,
                h: 8,
            },
            kind,
            mv: [EvcMv { x: 5, y: -400 }, EvcMv { x: 0, y: 3 }],
        }
    }

    #[test]
    fn lists_in_use() {
        let used = |kind: Kind| [kind.uses(0), kind.uses(1)];
        let want = [[true, false], [false, true], [true, true], [true, true]];
        assert_eq!(Kind::ALL.map(used), want);
        assert_eq!(
            coded(0, Kind::List1).to_string(),
            "block of 8 by 8 at 0, 0, list 1 by (0, 3)"
        );
    }

    /// What camera and candidates read: the vector of a list not in use is zero.
    #[test]
    fn in_maps() {
        let blocks = [coded(0, Kind::List1), coded(8, Kind::Both)];
        let (map_mv, map_scu) = maps((16, 8), &blocks);
        assert_eq!(map_scu, [SCU_CODED; 8]);
        let (first, second) = ([0, 0, 0, 3], [5, -400, 0, 3]);
        let row = [first, first, second, second].concat();
        assert_eq!(map_mv, [&row[..], &row].concat());
        let (_, map_scu) = maps((16, 8), &blocks[1..]);
        assert_eq!(map_scu[..4], [0, 0, SCU_CODED, SCU_CODED]);
    }

    #[test]
    fn counted() {
        let blocks = [Kind::List0, Kind::List1, Kind::Direct].map(|kind| coded(8, kind));
        let pictures = [(); 2].map(|()| Picture::new(16, 8).unwrap().pad().unwrap());
        let answers = predicted(&pictures, [0, 8], &blocks).unwrap();
        let tally = Tally::of(&blocks, &answers.reports);
        assert_eq!((tally.blocks(), tally.clipped), (3, 2));
        let moved = MovedCounts {
            down_low: 2,
            ..MovedCounts::default()
        };
        assert_eq!(tally.moved, moved);
        assert_eq!(tally.said_sizes(), "3 of 8x8");
        assert_eq!(tally.said_kinds(), "1 list 0, 1 list 1, 0 both, 1 direct");
        assert_eq!(
            tally.said_vectors(),
            "0 copy, 2 filter across, 2 down, 0 both ways; 2 are clipped"
        );
    }

    #[test]
    fn turned() {
        for flip in [Flip::LeftRight, Flip::TopBottom] {
            for kind in Kind::ALL {
                let turned = coded(0, kind).flipped(flip);
                assert_eq!(
                    turned.kind,
                    if kind == Kind::Direct {
                        Kind::Both
                    } else {
                        kind
                    }
                );
                let back = Coded {
                    kind,
                    ..turned.flipped(flip)
                };
                assert_eq!(back, coded(0, kind));
            }
        }
    }
}
