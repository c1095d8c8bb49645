//! Which blocks a picture is cut into, and from where each is predicted: a plain search, whose cost is
//! measured on what the proved call predicts.

use crate::coded::{Coded, Kind, References};
use crate::progress::Progress;
use crate::report::{Failure, Result};
use evc_inter::{EvcBlock, EvcMv, Picture, Predictor};
use std::collections::HashMap;
use std::sync::atomic::{AtomicUsize, Ordering::Relaxed};
use std::sync::Mutex;
use std::thread;

/// Where vectors come from.
#[derive(Clone, Copy)]
pub enum Vectors<'a> {
    /// From some that are known, each for both lists.
    Known(&'a [[EvcMv; 2]]),
    /// By a search: whole samples, then halves and quarters.
    Searched,
}

/// What is searched: a picture, from its references, by some kinds of blocks.
#[derive(Clone, Copy)]
pub struct Search<'a> {
    pub references: &'a References,
    pub picture: &'a Picture,
    pub kinds: &'a [Kind],
    pub vectors: Vectors<'a>,
}

/// What a block and a vector cost beside the differences of their samples: without a price all blocks
/// would be of 4 by 4, and of vectors that do equally well any would be taken, not the shortest.
const BLOCK_PRICE: u64 = 80;
const VECTOR_PRICE: u64 = 60;

/// Direct vectors are not written down, and cost nothing.
fn price(coded: &Coded) -> u64 {
    if coded.kind == Kind::Direct {
        return 0;
    }
    let length = |mv: EvcMv| u64::from(mv.x.unsigned_abs()) + u64::from(mv.y.unsigned_abs());
    coded
        .vectors()
        .map(|mv| VECTOR_PRICE + length(mv) / 8)
        .sum()
}

const SIDES: [u32; 5] = [4, 8, 16, 32, 64];

impl Search<'_> {
    /// The blocks with the least cost, square by square of 64.
    pub fn blocks(&self, name: &'static str) -> Result<Vec<Coded>> {
        let (w, h) = self.references.sides();
        let corners = (0..h)
            .step_by(64)
            .flat_map(|y| (0..w).step_by(64).map(move |x| (x, y)));
        let corners: Vec<_> = corners.collect();
        let progress = Mutex::new(Progress::new(name, corners.len()));
        let (next, found) = (AtomicUsize::new(0), Mutex::new(Vec::new()));
        let work = || -> Result<()> {
            let mut square = Square::new(self);
            while let Some(corner) = corners.get(next.fetch_add(1, Relaxed)) {
                let blocks = square.blocks(*corner)?;
                found
                    .lock()
                    .expect("no thread panics")
                    .push((*corner, blocks));
                progress.lock().expect("no thread panics").step();
            }
            Ok(())
        };
        let threads = thread::available_parallelism().map_or(1, usize::from);
        thread::scope(|scope| {
            let threads: Vec<_> = (0..threads).map(|_| scope.spawn(work)).collect();
            threads
                .into_iter()
                .try_for_each(|thread| match thread.join() {
                    Ok(done) => done,
                    Err(panic) => std::panic::resume_unwind(panic),
                })
        })?;
        let mut found = found.into_inner().expect("no thread panics");
        found.sort_by_key(|((x, y), _)| (*y, *x));
        Ok(found.into_iter().flat_map(|(_, blocks)| blocks).collect())
    }
}

/// A block by its place and sides.
type Key = (u32, u32, u32, u32);

/// A block's best, and the best vector of each list, from which smaller blocks begin.
#[derive(Clone, Copy)]
struct Leaf {
    cost: u64,
    kind: Kind,
    chosen: [EvcMv; 2],
    best: [EvcMv; 2],
}

/// The search in one square of 64.
struct Square<'a> {
    search: &'a Search<'a>,
    predictor: Predictor,
    leaves: HashMap<Key, Leaf>,
}

impl<'a> Square<'a> {
    fn new(search: &'a Search<'a>) -> Square<'a> {
        Square {
            search,
            predictor: Predictor::new(),
            leaves: HashMap::new(),
        }
    }

    /// The blocks of the square at a corner: each size at each of its places is searched, large ones
    /// first; then of all ways to halve the square again and again the cheapest is taken.
    fn blocks(&mut self, corner: (u32, u32)) -> Result<Vec<Coded>> {
        self.leaves.clear();
        let mut sizes: Vec<_> = SIDES.iter().flat_map(|w| SIDES.map(|h| (*w, h))).collect();
        sizes.sort_by_key(|(w, h)| std::cmp::Reverse(w * h));
        for (w, h) in sizes {
            for y in (corner.1..corner.1 + 64).step_by(h as usize) {
                for x in (corner.0..corner.0 + 64).step_by(w as usize) {
                    self.leaf((x, y, w, h), corner)?;
                }
            }
        }
        let mut blocks = Vec::new();
        self.collect(
            (corner.0, corner.1, 64, 64),
            &mut HashMap::new(),
            &mut blocks,
        );
        Ok(blocks)
    }

    fn block(&self, (x, y, w, h): Key) -> EvcBlock {
        let (pic_w, pic_h) = self.search.references.sides();
        EvcBlock {
            pic_w,
            pic_h,
            x,
            y,
            w,
            h,
        }
    }

    /// Searches a block, if it lies in the picture.
    fn leaf(&mut self, key: Key, corner: (u32, u32)) -> Result<()> {
        let (x, y, w, h) = key;
        let block = self.block(key);
        if x + w > block.pic_w || y + h > block.pic_h {
            return Ok(());
        }
        // The block of twice the size around it, which was searched before if it lies in the picture.
        let around = match w <= h && w < 64 {
            true => (x - (x - corner.0) % (2 * w), y, 2 * w, h),
            false => (x, y - (y - corner.1) % (2 * h), w, 2 * h),
        };
        let start = self.leaves.get(&around).map(|leaf| leaf.best);
        let mut best = [EvcMv::default(); 2];
        for (list, kind) in [Kind::List0, Kind::List1].into_iter().enumerate() {
            if self.search.kinds.iter().any(|other| other.uses(list)) {
                best[list] = self.vector(block, kind, start.map(|start| start[list]))?;
            }
        }
        let mut leaf: Option<Leaf> = None;
        for &kind in self.search.kinds {
            let chosen = match kind {
                Kind::Direct => {
                    let direct = self.search.references.direct(block);
                    direct.map_err(Failure::at(Coded {
                        block,
                        kind,
                        mv: best,
                    }))?
                }
                _ => best,
            };
            let enough = leaf.map_or(u64::MAX, |leaf| leaf.cost);
            let cost = self.cost(block, kind, chosen, enough)?;
            if leaf.is_none_or(|leaf| cost < leaf.cost) {
                leaf = Some(Leaf {
                    cost,
                    kind,
                    chosen,
                    best,
                });
            }
        }
        self.leaves.extend(leaf.map(|leaf| (key, leaf)));
        Ok(())
    }

    /// The differences of the predicted samples from the picture's, and the price; no further than to
    /// where `enough` is reached.
    fn cost(&mut self, block: EvcBlock, kind: Kind, mv: [EvcMv; 2], enough: u64) -> Result<u64> {
        let References { pictures, poc, .. } = self.search.references;
        let coded = Coded { block, kind, mv };
        let predicted = coded.call(*poc).predict(pictures, &mut self.predictor);
        let prediction = predicted.map_err(Failure::at(coded))?;
        let mut cost = BLOCK_PRICE + price(&coded);
        for (c, plane) in self.search.picture.planes.iter().enumerate() {
            let half = if c == 0 { 1 } else { 2 };
            let [x, y, w] = [block.x, block.y, block.w].map(|n| (n / half) as usize);
            for (row, got) in prediction.rows(c).enumerate() {
                if cost >= enough {
                    return Ok(cost);
                }
                let want = &plane.row(y + row)[x..x + w];
                cost += u64::from(difference(got, want));
            }
        }
        Ok(cost)
    }

    /// The best vector of one list.
    fn vector(&mut self, block: EvcBlock, kind: Kind, start: Option<EvcMv>) -> Result<EvcMv> {
        let list = kind as usize;
        let mut best = (u64::MAX, EvcMv::default());
        if let Vectors::Known(known) = self.search.vectors {
            self.try_all(block, kind, known.iter().map(|mv| mv[list]), &mut best)?;
            return Ok(best.1);
        }
        self.try_all(block, kind, start.into_iter().chain([best.1]), &mut best)?;
        // Far steps where a small thing may go another way than all around it.
        let grid = match (block.w, block.h) {
            (64, 64) => Some((6, 32)),
            (16, 16) => Some((4, 16)),
            _ => None,
        };
        if let Some((reach, step)) = grid {
            let at = best.1;
            let steps = (-reach..=reach).flat_map(|y| (-reach..=reach).map(move |x| (x, y)));
            let far = steps.map(|(x, y)| moved(at, step * x, step * y));
            self.try_all(block, kind, far, &mut best)?;
        }
        let steps: &[i16] = match grid {
            Some(_) => &[16, 8, 4, 2, 1],
            None => &[4, 2, 1],
        };
        for &step in steps {
            loop {
                let at = best.1;
                let around = NEIGHBOURS
                    .iter()
                    .map(|(x, y)| moved(at, step * x, step * y));
                self.try_all(block, kind, around, &mut best)?;
                if best.1 == at {
                    break;
                }
            }
        }
        Ok(best.1)
    }

    fn try_all(
        &mut self,
        block: EvcBlock,
        kind: Kind,
        vectors: impl IntoIterator<Item = EvcMv>,
        best: &mut (u64, EvcMv),
    ) -> Result<()> {
        for mv in vectors {
            let cost = self.cost(block, kind, [mv; 2], best.0)?;
            if cost < best.0 {
                *best = (cost, mv);
            }
        }
        Ok(())
    }

    /// The least cost of what lies in the picture of a square's part; none outside.
    fn least(&self, key: Key, known: &mut HashMap<Key, u64>) -> u64 {
        let (x, y, ..) = key;
        let (pic_w, pic_h) = self.search.references.sides();
        if x >= pic_w || y >= pic_h {
            return 0;
        }
        if let Some(cost) = known.get(&key) {
            return *cost;
        }
        let whole = self.leaves.get(&key).map(|leaf| leaf.cost);
        let halved = halves(key).into_iter().flatten();
        let halved = halved.map(|halves| halves.map(|half| self.least(half, known)).iter().sum());
        let least = whole.into_iter().chain(halved.collect::<Vec<_>>()).min();
        let least = least.expect("a unit in the picture has a leaf");
        known.insert(key, least);
        least
    }

    fn collect(&self, key: Key, known: &mut HashMap<Key, u64>, blocks: &mut Vec<Coded>) {
        let least = self.least(key, known);
        let (x, y, ..) = key;
        let (pic_w, pic_h) = self.search.references.sides();
        if x >= pic_w || y >= pic_h {
            return;
        }
        if let Some(leaf) = self.leaves.get(&key).filter(|leaf| leaf.cost == least) {
            return blocks.push(Coded {
                block: self.block(key),
                kind: leaf.kind,
                mv: leaf.chosen,
            });
        }
        let halved = halves(key).into_iter().flatten();
        let cheapest = halved.min_by_key(|halves| {
            halves
                .map(|half| self.least(half, known))
                .iter()
                .sum::<u64>()
        });
        for half in cheapest.into_iter().flatten() {
            self.collect(half, known, blocks);
        }
    }
}

/// The sum of the differences of a row's samples, at most 64 of them: in vectors, which a check of the
/// sum would rule out.
fn difference(got: &[u16], want: &[u16]) -> u32 {
    let apart = got.iter().zip(want).map(|(a, b)| u32::from(a.abs_diff(*b)));
    apart.fold(0, u32::wrapping_add)
}

const NEIGHBOURS: [(i16, i16); 8] = [
    (-1, 0),
    (1, 0),
    (0, -1),
    (0, 1),
    (-1, -1),
    (1, -1),
    (-1, 1),
    (1, 1),
];

/// Held to what a flipped copy can turn.
fn moved(mv: EvcMv, x: i16, y: i16) -> EvcMv {
    let [x, y] = [mv.x.saturating_add(x), mv.y.saturating_add(y)].map(|n| n.max(-32767));
    EvcMv { x, y }
}

/// The ways to halve a part: side by side, one above the other.
fn halves((x, y, w, h): Key) -> [Option<[Key; 2]>; 2] {
    [
        (w > 4).then(|| [(x, y, w / 2, h), (x + w / 2, y, w / 2, h)]),
        (h > 4).then(|| [(x, y, w, h / 2), (x, y + h / 2, w, h / 2)]),
    ]
}

#[cfg(test)]
mod tests {
    use super::*;
    use crate::coded;
    use crate::scene;

    /// A picture of the scene between two others, with the motion of the second.
    fn material(w: u32, h: u32) -> (References, Picture) {
        let picture = |time| scene::picture(w, h, time).unwrap();
        let references = References {
            pictures: [1, 3].map(|time| picture(time).pad().unwrap()),
            poc: [1, 3],
            current: 2,
            col_mv: scene::motion_map(w, h, 3, 1),
        };
        (references, picture(2))
    }

    fn difference(search: &Search, blocks: &[Coded]) -> u64 {
        let References { pictures, poc, .. } = search.references;
        let predicted = coded::predicted(pictures, *poc, blocks).unwrap();
        let planes = predicted.picture.planes.iter().zip(&search.picture.planes);
        let rows = planes.flat_map(|(a, b)| a.rows().zip(b.rows()));
        rows.map(|(a, b)| u64::from(super::difference(a, b))).sum()
    }

    /// Also in pictures whose sides are no multiples of 64, or below it.
    #[test]
    fn every_sample_once() {
        for (w, h) in [(4, 4), (68, 36), (64, 8), (20, 76)] {
            let (references, picture) = material(w, h);
            let known = [[EvcMv::default(); 2]];
            let search = Search {
                references: &references,
                picture: &picture,
                kinds: &Kind::ALL,
                vectors: Vectors::Known(&known),
            };
            let mut times = vec![0; (w * h) as usize];
            for Coded { block: b, .. } in search.blocks("").unwrap() {
                for y in b.y..b.y + b.h {
                    (b.x..b.x + b.w).for_each(|x| times[(y * w + x) as usize] += 1);
                }
            }
            assert!(times.iter().all(|n| *n == 1), "{w} by {h}");
        }
    }

    /// The search comes about as near to the picture as the scene's own vectors, and much nearer than
    /// no vectors; the direct kind, whose vectors cost nothing, is among those taken.
    #[test]
    fn found() {
        let (references, picture) = material(96, 64);
        let [list0, list1] = [1, 3].map(|time| scene::vectors(2, time));
        let own = [[list0[0], list1[0]], [list0[1], list1[1]]];
        let by = |kinds: &[Kind], vectors| {
            let search = Search {
                references: &references,
                picture: &picture,
                kinds,
                vectors,
            };
            let blocks = search.blocks("").unwrap();
            let direct = blocks.iter().any(|coded| coded.kind == Kind::Direct);
            (difference(&search, &blocks), direct)
        };
        let searched = by(&Kind::ALL, Vectors::Searched);
        let known = by(&Kind::ALL, Vectors::Known(&own));
        let still = by(&[Kind::Both], Vectors::Known(&[[EvcMv::default(); 2]]));
        assert!(known.1 && !still.1);
        assert!(searched.0 < 2 * known.0, "{searched:?} {known:?}");
        assert!(4 * searched.0 < still.0, "{searched:?} {still:?}");
    }

    #[test]
    fn one_list_alone() {
        let (references, _) = material(68, 36);
        let search = Search {
            references: &references,
            picture: references.pictures[1].picture(),
            kinds: &[Kind::List0],
            vectors: Vectors::Searched,
        };
        let blocks = search.blocks("").unwrap();
        assert!(blocks.iter().all(|coded| coded.kind == Kind::List0));
        // Most of the wall goes where the scene says.
        let [wall, _] = scene::vectors(3, 1);
        let area = |blocks: &[Coded]| -> u32 { blocks.iter().map(|c| c.block.w * c.block.h).sum() };
        let on_the_wall: Vec<_> = blocks
            .into_iter()
            .filter(|coded| coded.mv[0] == wall)
            .collect();
        assert!(2 * area(&on_the_wall) > 68 * 36, "{}", area(&on_the_wall));
    }
}
