//! The planes to pad with their answers: a few printed whole, to be read; the Rust's; and refusals, which the Rust does not have and document 01
//! (`model`) answers. README.md has the layout.

use crate::cases::{arbitrary, hash, Rng};
use crate::lists::{small, spaced, List};
use crate::mc2_lists::needed;
use crate::{model, pad, plane_config};

/// A plane to pad: arbitrary samples, the picture's below the limit.
struct Case {
    chroma: bool,
    pic: [u32; 2],
    /// The picture whose samples they are, if they are those of an allowed one.
    of: [usize; 2],
    len: usize,
    seed: u16,
    limit: u16,
    whole: bool,
}

impl Case {
    fn new(chroma: bool, [w, h]: [u32; 2], spare: usize, seed: u16) -> Self {
        Case {
            chroma,
            pic: [w, h],
            of: [w as usize, h as usize],
            len: needed([w, h], chroma) + spare,
            seed,
            limit: 1024,
            whole: false,
        }
    }
}

/// Where document 01 refuses nothing, the Rust has to agree.
fn push(list: &mut List, case: &Case) -> u32 {
    let cfg = plane_config(case.chroma, case.of[0], case.of[1]);
    let first = cfg.yorigin * cfg.stride + cfg.xorigin;
    let numbers = [
        &[u16::from(case.chroma)][..],
        &case.pic.map(|n| small(n as usize)),
        &[small(case.len), case.seed, case.limit],
        &[first, cfg.stride, cfg.width, cfg.height].map(small),
        &[u16::from(case.whole)],
    ]
    .concat();
    list.record(&numbers);

    let mut samples = arbitrary(case.len, case.seed);
    for row in (0..cfg.height).map(|y| first + y * cfg.stride) {
        if let Some(row) = samples.get_mut(row..row + cfg.width) {
            row.iter_mut().for_each(|sample| *sample %= case.limit);
        }
    }
    let mut by_the_rust = samples.clone();
    let code = model::pad(case.chroma, case.pic, &mut samples);
    if code == 0 {
        let [w, h] = case.of;
        pad(case.chroma, w, h, &mut by_the_rust);
    }
    assert!(by_the_rust == samples, "the Rust and document 01");
    list.answer(&code.to_string());
    for row in by_the_rust.chunks(cfg.stride) {
        if case.whole {
            list.answer(&spaced(row));
        } else {
            list.answer(&hash(row).to_string());
        }
    }
    code
}

/// Printed whole.
fn whole(list: &mut List) {
    for (k, pic) in [[4, 4], [12, 8]].iter().enumerate() {
        for chroma in [false, true] {
            let seed = 1 + 2 * k as u16 + u16::from(chroma);
            push(
                list,
                &Case {
                    limit: 100,
                    whole: true,
                    ..Case::new(chroma, *pic, 3, seed)
                },
            );
        }
    }
}

/// Small pictures of every shape, both types.
fn accepted(list: &mut List) {
    let mut rng = Rng(2);
    for pic in [
        [4, 4],
        [8, 4],
        [4, 8],
        [12, 8],
        [16, 20],
        [28, 12],
        [36, 4],
        [4, 44],
        [64, 64],
    ] {
        for chroma in [false, true] {
            let spare = [0, 1, 17][rng.below(3)];
            let case = Case::new(chroma, pic, spare, rng.below(65536) as u16);
            assert_eq!(push(list, &case), 0);
        }
    }
}

/// Refusals, and accepted planes next to them. A border is arbitrary, so that it has samples above 1023 in any case.
fn refusals(list: &mut List) {
    for chroma in [false, true] {
        let good = || Case::new(chroma, [8, 4], 0, 9);
        // 1, and 1 before 4 and 6.
        for (pic, len, limit) in [
            ([0, 4], good().len, 1024),
            ([8, 0], good().len, 65535),
            ([10, 4], 0, 1024),
            ([8, 6], good().len, 1024),
            ([8132, 4], good().len, 65535),
            ([8, 8132], 0, 1024),
        ] {
            let case = Case {
                pic,
                len,
                limit,
                ..good()
            };
            assert_eq!(push(list, &case), 1);
        }
        // 4, and 4 before 6.
        for (len, limit) in [(good().len - 1, 1024), (good().len - 1, 65535), (0, 1024)] {
            let case = Case {
                len,
                limit,
                ..good()
            };
            assert_eq!(push(list, &case), 4);
        }
        // 6: some samples are above 1023, so that one lies in about half of the pictures.
        for seed in 0..8 {
            let case = Case {
                limit: if chroma { 1120 } else { 1048 },
                seed,
                ..good()
            };
            push(list, &case);
        }
    }
}

/// The whole list.
pub fn pad_list() -> [Vec<u8>; 2] {
    let mut list = List::default();
    whole(&mut list);
    accepted(&mut list);
    refusals(&mut list);
    list.done()
}
