//! Predictions over padded pictures: what `evc_mc2` gives and refuses, without an allocation.

mod lcg;
mod pictures;

use evc_inter::*;
use lcg::Lcg;
use std::alloc::{GlobalAlloc, Layout, System};
use std::cell::Cell;

const BLOCK: EvcBlock = EvcBlock {
    pic_w: 32,
    pic_h: 16,
    x: 8,
    y: 4,
    w: 16,
    h: 8,
};

/// Counts the allocations of each thread.
struct Counting;

thread_local! {
    static ALLOCATIONS: Cell<usize> = const { Cell::new(0) };
}

// SAFETY: the system's allocator does the work.
unsafe impl GlobalAlloc for Counting {
    unsafe fn alloc(&self, layout: Layout) -> *mut u8 {
        ALLOCATIONS.set(ALLOCATIONS.get() + 1);
        System.alloc(layout)
    }

    unsafe fn dealloc(&self, at: *mut u8, layout: Layout) {
        System.dealloc(at, layout)
    }
}

#[global_allocator]
static COUNTING: Counting = Counting;

fn list(reference: Option<Reference>) -> EvcList {
    match reference {
        Some(Reference { mv, poc, .. }) => EvcList {
            used: true,
            mv,
            poc,
        },
        None => EvcList::default(),
    }
}

/// Every use of the lists, one after another with one predictor: nothing of an earlier block is left.
#[test]
fn as_the_call() {
    let pictures = [1, 2].map(|seed| Lcg(seed).picture(32, 16));
    let (lcg, mut predictor) = (&mut Lcg(3), Predictor::new());
    let mut moved = MovedCounts::default();
    for n in 0..200 {
        let [w, h] = [0, 1].map(|_| 4 << lcg.below(3));
        let [x, y] = [32 - w, 16 - h].map(|room| 4 * lcg.below(room / 4 + 1));
        let block = EvcBlock {
            x,
            y,
            w,
            h,
            ..BLOCK
        };
        let references = [0, 1].map(|k: usize| Reference {
            picture: &pictures[k],
            mv: EvcMv {
                x: lcg.below(801) as i16 - 400,
                y: lcg.below(801) as i16 - 400,
            },
            poc: 8 * k as u32,
        });
        let lists = [0, 1].map(|k| Some(references[k]).filter(|_| n % 3 != k));
        let [planes0, planes1] = pictures.each_ref().map(PaddedPicture::samples);
        let (mut pred0, mut pred1) = ([0; CU_LEN], [0; CU_LEN]);
        let [list0, list1] = lists.map(list);
        assert_eq!(lists.map(EvcList::from), [list0, list1]);
        let given = EvcList::from(references[0]);
        assert_eq!(given, list(Some(references[0])));
        let predicted = evc_mc2(
            block, list0, planes0, list1, planes1, &mut pred0, &mut pred1,
        )
        .unwrap();

        let prediction = predictor.predict(block, lists).unwrap();
        assert_eq!(prediction.block(), block);
        assert_eq!(prediction.moved(), predicted.moved);
        moved.add(&predicted);
        let mut target = Lcg(4).picture(32, 16).into_picture();
        let before = target.clone();
        prediction.put(&mut target);
        for c in 0..3 {
            let want = cu_plane(&pred0, c, w, h);
            assert_eq!(prediction.plane(c), want);
            assert_eq!(cu_plane(prediction.samples(), c, w, h), want);
            assert_eq!(prediction.rows(c).collect::<Vec<_>>().concat(), want);
            let half = if c == 0 { 1 } else { 2 };
            let [x, y, w, h] = [x, y, w, h].map(|n| (n / half) as usize);
            assert_eq!(prediction.rows(c).len(), h);
            let mut from_bottom = prediction.rows(c).rev();
            assert_eq!(from_bottom.next().unwrap(), &want[(h - 1) * w..]);
            assert_eq!(from_bottom.count(), h - 1);
            // Every sample of the buffer: the block's in its place, all others as before.
            let mut want_put = before.planes[c].clone();
            for j in 0..h {
                want_put.row_mut(y + j)[x..x + w].copy_from_slice(&want[j * w..][..w]);
            }
            assert!(target.planes[c].samples() == want_put.samples());
        }
    }
    assert!(moved.total() > 50, "{moved}");
}

/// With equal counts and vectors list 0 alone stands, so the lists are lent in their order.
#[test]
fn equal_motion() {
    let pictures = [1, 2].map(|seed| Lcg(seed).picture(32, 16));
    let [list0, list1] = pictures.each_ref().map(|picture| Reference {
        picture,
        mv: EvcMv { x: 1, y: 2 },
        poc: 8,
    });
    let mut predictor = Predictor::new();
    let mut luma = |lists| predictor.predict(BLOCK, lists).unwrap().plane(0).to_vec();
    let want = [luma([Some(list0), None]), luma([None, Some(list1)])];
    assert_ne!(want[0], want[1]);
    assert_eq!(luma([Some(list0), Some(list1)]), want[0]);
    assert_eq!(luma([Some(list1), Some(list0)]), want[1]);
}

/// Each refusal with those that come behind it.
#[test]
fn refusals() {
    let [right, wider, taller] = [(32, 16), (36, 16), (32, 20)].map(|(w, h)| Lcg(1).picture(w, h));
    let from = |picture, poc| {
        let mv = EvcMv { x: 3, y: -70 };
        Some(Reference { picture, mv, poc })
    };
    let bad_block = EvcBlock { w: 12, ..BLOCK };
    let bad_picture = EvcBlock {
        pic_w: 34,
        ..bad_block
    };
    let (on, late) = (from(&right, 32767), from(&right, 32768));
    let mut predictor = Predictor::new();
    let mut refusal = |block, lists| predictor.predict(block, lists).err();
    assert_eq!(refusal(bad_picture, [None; 2]), Some(Refusal::Picture));
    assert_eq!(refusal(bad_block, [None; 2]), Some(Refusal::Block));
    assert_eq!(refusal(BLOCK, [None; 2]), Some(Refusal::List));
    for other in [&wider, &taller] {
        for lists in [[from(other, 32768), on], [late, from(other, 0)]] {
            assert_eq!(refusal(bad_picture, lists), Some(Refusal::Picture));
            assert_eq!(refusal(bad_block, lists), Some(Refusal::Block));
            assert_eq!(refusal(BLOCK, lists), Some(Refusal::Buffer));
        }
    }
    for lists in [[late, None], [None, late], [on, late]] {
        assert_eq!(refusal(BLOCK, lists), Some(Refusal::OrderCount));
    }
    for lists in [[on, None], [None, on], [on, on]] {
        assert_eq!(refusal(BLOCK, lists), None);
    }
}

/// A padded picture has no sample above 1023, so 6 is not among the refusals.
#[test]
fn no_sample_above() {
    for (pic_w, pic_h) in [(4, 4), (12, 20), (36, 8)] {
        let mut white = Picture::new(pic_w, pic_h).unwrap();
        for plane in &mut white.planes {
            plane.samples_mut().fill(u16::MAX); // the border too
            plane.rows_mut().for_each(|row| row.fill(1023));
        }
        let white = white.pad().unwrap();
        let mut samples = white.samples().into_iter().flatten();
        assert!(samples.all(|sample| *sample == 1023));
    }
}

/// The two blocks are allocated once.
#[test]
fn allocations() {
    let picture = Lcg(1).picture(32, 16);
    let reference = Reference {
        picture: &picture,
        mv: EvcMv { x: 5, y: 6 },
        poc: 0,
    };
    let count = |work: &mut dyn FnMut()| {
        let before = ALLOCATIONS.get();
        work();
        ALLOCATIONS.get() - before
    };
    let mut predictor = None;
    assert_eq!(count(&mut || predictor = Some(Predictor::new())), 2);
    let mut predictor = predictor.unwrap();
    let mut predict = || {
        let lists = [Some(reference); 2];
        assert!(predictor.predict(BLOCK, lists).is_ok());
        assert!(predictor.predict(BLOCK, [None; 2]).is_err());
    };
    assert_eq!(count(&mut predict), 0);
}

/// A whole block, put where it does not belong.
fn put(picture: &mut Picture) {
    let reference = Reference {
        picture: &Picture::new(32, 16).unwrap().pad().unwrap(),
        mv: EvcMv::default(),
        poc: 0,
    };
    let mut predictor = Predictor::default();
    let prediction = predictor.predict(BLOCK, [Some(reference), None]);
    prediction.unwrap().put(picture);
}

#[test]
#[should_panic(expected = "plane 0 is not one of a picture of 32 by 16")]
fn put_into_another_size() {
    put(&mut Picture::new(36, 16).unwrap());
}

#[test]
#[should_panic(expected = "plane 2 is not one of a picture of 32 by 16")]
fn put_into_exchanged_planes() {
    let mut picture = Picture::new(32, 16).unwrap();
    picture.planes[2] = picture.planes[0].clone();
    put(&mut picture);
}

#[test]
fn shown_without_samples() {
    assert_eq!(format!("{:?}", Predictor::new()), "Predictor { .. }");
    let picture = &Lcg(1).picture(32, 16);
    let (mv, poc) = (EvcMv::default(), 0);
    let reference = Reference { picture, mv, poc };
    let mut predictor = Predictor::new();
    let prediction = predictor.predict(BLOCK, [Some(reference), None]);
    let moved = [MovedMv::default(); 2];
    let shown = format!("Prediction {{ block: {BLOCK:?}, moved: {moved:?}, .. }}");
    assert_eq!(format!("{:?}", prediction.unwrap()), shown);
    let shown = format!("Reference {{ picture: {picture:?}, mv: {mv:?}, poc: 0 }}");
    assert_eq!(format!("{reference:?}"), shown);
}
