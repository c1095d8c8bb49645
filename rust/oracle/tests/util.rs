//! The Rust's flags, candidates and direct vectors against document 01 (`oracle::model`).

use oracle::cases::*;
use oracle::model::{self, Block, Candidates, Collocated, Pocs};
use oracle::{evc_get_avail_inter, evc_get_motion, evc_get_mv_dir};

/// Small pictures, in units.
const PICTURES: [[u32; 2]; 6] = [[1, 1], [1, 2], [2, 1], [2, 2], [3, 3], [4, 3]];

fn assert_flags(b: &Block, words: &[u32]) {
    let want = (0, evc_get_avail_inter(b, words));
    assert_eq!(model::flags(b, words), want, "{b:?} {words:x?}");
}

/// All states of all units around the block; the units inside it and the other bits vary too.
#[test]
fn every_neighbour_state() {
    let mut rng = Rng(3);
    for b in blocks([3, 3]) {
        let [x, y, right, below] = b.edges();
        let outside: Vec<usize> = (0..9)
            .filter(|unit| {
                let (ux, uy) = (unit % 3 * 4, unit / 3 * 4);
                !((x..right).contains(&ux) && (y..below).contains(&uy))
            })
            .map(|unit| unit as usize)
            .collect();
        for states in 0..1 << (2 * outside.len()) {
            let mut words: Vec<u32> = (0..9).map(|_| word(rng.below(8) as u8)).collect();
            for (k, unit) in outside.iter().enumerate() {
                let other = 4 * rng.below(2) as u8;
                words[*unit] = word((states >> (2 * k) & 3) as u8 | other);
            }
            assert_flags(&b, &words);
        }
    }
}

#[test]
fn random_words() {
    let mut rng = Rng(4);
    for b in PICTURES.iter().flat_map(|units| blocks(*units)) {
        for _ in 0..200 {
            let words: Vec<u32> = (0..b.units()).map(|_| rng.below(1 << 32) as u32).collect();
            assert_flags(&b, &words);
        }
    }
}

/// 'Edges to try'.
#[test]
fn flags_of_the_document() {
    let b = Block {
        pic: [8, 8],
        place: [4, 4],
        side: [4, 4],
    };
    assert_eq!(evc_get_avail_inter(&b, &[0; 4]), 513);
    assert_eq!(evc_get_avail_inter(&b, &[0x80000000; 4]), 547);
}

fn random_map(b: &Block, rng: &mut Rng) -> Vec<i16> {
    (0..4 * b.units())
        .map(|_| match rng.below(4) {
            0 => LIMITS[rng.below(5)],
            _ => rng.below(65536) as i16,
        })
        .collect()
}

/// Both lists, with and without a collocated map; the other references have another one.
fn assert_candidates(b: &Block, avail: u16, rng: &mut Rng) {
    let [map, col_map, decoy] = [(); 3].map(|_| random_map(b, rng));
    let old = Candidates {
        mv: [[0; 2]; 4].map(|mv| mv.map(|_: i16| rng.below(65536) as i16)),
        refi: [0; 4].map(|_| rng.below(256) as i8),
    };
    for lidx in 0..2 {
        for is_present in [false, true] {
            let col = is_present.then(|| &col_map[..]);
            let got = evc_get_motion(b, lidx, avail, &map, col, Some(&decoy), old);
            let col = Collocated {
                is_present,
                map: &col_map,
            };
            let want = model::candidates(b, lidx as u32, avail, &map, col, old);
            assert_eq!(want, (0, got), "{b:?} {lidx} {avail:x} {is_present}");
        }
    }
}

#[test]
fn candidates_for_arbitrary_flags() {
    let mut rng = Rng(5);
    for b in PICTURES.iter().flat_map(|units| blocks(*units)) {
        for avail in allowed_flags(&b) {
            for others in [0, 0xffff, rng.below(65536) as u16] {
                assert_candidates(&b, avail | others & !0b100_0011, &mut rng);
            }
        }
    }
}

/// The flags that the Rust gives name no neighbour outside.
#[test]
fn candidates_for_the_flags_of_the_rust() {
    let mut rng = Rng(6);
    for b in PICTURES.iter().flat_map(|units| blocks(*units)) {
        for _ in 0..50 {
            let words: Vec<u32> = (0..b.units()).map(|_| word(rng.below(8) as u8)).collect();
            assert_candidates(&b, evc_get_avail_inter(&b, &words), &mut rng);
        }
    }
}

fn assert_direct(b: &Block, pocs: Pocs, col_map: &[i16], decoy: &[i16]) {
    for is_present in [false, true] {
        let col = is_present.then(|| col_map);
        let got = evc_get_mv_dir(b, pocs, col, Some(decoy));
        let col = Collocated {
            is_present,
            map: col_map,
        };
        let want = model::direct(b, pocs, col);
        assert_eq!(want, (0, got), "{pocs:?} {is_present} {col_map:?}");
    }
}

fn pocs([poc, poc0, poc1, list_poc0]: [u32; 4]) -> Pocs {
    Pocs {
        poc,
        poc0,
        poc1,
        list_poc0,
    }
}

/// Counts around 0 and 32,767, with every pair of limits as the vector: co is 0, positive and
/// negative, and the quotients go far beyond sixteen bits.
#[test]
fn direct_vectors_at_the_limits() {
    const COUNTS: [u32; 6] = [0, 1, 2, 32765, 32766, 32767];
    let b = blocks([1, 1])[0];
    for k in 0..6usize.pow(4) {
        let counts = [k, k / 6, k / 36, k / 216].map(|k| COUNTS[k % 6]);
        for x in LIMITS {
            for y in LIMITS {
                assert_direct(&b, pocs(counts), &[x, y, 5, 6], &[7, 8, 9, 10]);
            }
        }
    }
}

#[test]
fn random_direct_vectors() {
    let mut rng = Rng(7);
    for b in PICTURES.iter().flat_map(|units| blocks(*units)) {
        for _ in 0..500 {
            let most = [4, 64, 32768][rng.below(3)];
            let counts = [0; 4].map(|_| rng.below(most) as u32);
            let [col_map, decoy] = [(); 2].map(|_| random_map(&b, &mut rng));
            assert_direct(&b, pocs(counts), &col_map, &decoy);
        }
    }
}

/// 'Edges to try'.
#[test]
fn direct_vectors_of_the_document() {
    let b = blocks([1, 1])[0];
    let direct = |counts, v: [i16; 2]| {
        let map = [v[0], v[1], 0, 0];
        evc_get_mv_dir(&b, pocs(counts), Some(&map), None)
    };
    assert_eq!(direct([4, 0, 8, 0], [7, -7]), [[3, -3], [-3, 3]]);
    assert_eq!(direct([5, 0, 6, 5], [10000, 0]), [[-15536, 0], [-10000, 0]]);
}
