//! Pictures, padded and refused.

use evc_inter::*;
use std::error::Error;
use std::io;
use std::mem::size_of;

/// A picture whose samples all differ from their neighbours.
fn picture(pic_w: u32, pic_h: u32) -> Picture {
    let mut picture = Picture::new(pic_w, pic_h).unwrap();
    for (c, plane) in picture.planes.iter_mut().enumerate() {
        for (y, row) in plane.rows_mut().enumerate() {
            for (x, sample) in row.iter_mut().enumerate() {
                *sample = (300 * c + 31 * y + x) as u16 % 1024;
            }
        }
    }
    picture
}

/// The samples without their borders.
fn samples(picture: &Picture) -> Vec<Vec<u16>> {
    let planes = picture.planes.iter();
    planes
        .map(|plane| plane.rows().collect::<Vec<_>>().concat())
        .collect()
}

/// Each plane as `evc_pad` makes it, and the samples as they were.
#[test]
fn padded() {
    let straight = picture(12, 20);
    let padded = straight.clone().pad().unwrap();
    for (c, mut plane) in straight
        .samples()
        .map(<[u16]>::to_vec)
        .into_iter()
        .enumerate()
    {
        evc_pad(c > 0, 12, 20, &mut plane).unwrap();
        assert_eq!(padded.samples()[c], plane);
        assert_eq!(padded.planes()[c].samples(), plane);
    }
    assert_eq!(padded.sides(), (12, 20));
    assert_eq!(samples(padded.picture()), samples(&straight));
    let again = padded.clone().into_picture().pad().unwrap();
    assert!(again.samples() == padded.samples());
    assert_eq!(*padded.picture(), straight);
    assert!(padded.samples() != straight.samples());
}

/// A sample of 1024 at either end of each plane.
#[test]
fn refused_samples() {
    for (c, name) in ["Y", "U", "V"].into_iter().enumerate() {
        for last in [false, true] {
            let mut picture = picture(16, 8);
            let plane = &mut picture.planes[c];
            let (x, y) = (plane.cfg().width - 1, plane.cfg().height - 1);
            *match last {
                true => &mut plane.row_mut(y)[x],
                false => &mut plane.row_mut(0)[0],
            } = 1024;
            let before = picture.clone();
            let error = picture.pad().unwrap_err();
            assert_eq!((error.refusal(), error.plane()), (Refusal::Sample, c));
            assert_eq!(
                error.to_string(),
                format!("plane {name}: {}", Refusal::Sample)
            );
            let back = error.into_picture();
            assert_eq!(samples(&back), samples(&before));
            // Borders may be filled before the refused plane, and nowhere else.
            assert!(back.samples()[c..] == before.samples()[c..]);
        }
    }
}

/// Planes of other pictures, and of other kinds.
#[test]
fn refused_planes() {
    let [luma, chroma, _] = picture(16, 8).planes;
    let [wider, wider_chroma, _] = picture(20, 8).planes;
    let [_, taller_chroma, _] = picture(16, 12).planes;
    for (planes, at) in [
        ([&chroma, &luma, &chroma], 0),
        ([&chroma, &chroma, &chroma], 0),
        ([&luma, &luma, &chroma], 1),
        ([&luma, &chroma, &luma], 2),
        ([&luma, &wider_chroma, &chroma], 1),
        ([&luma, &wider_chroma, &wider_chroma], 1),
        ([&luma, &chroma, &taller_chroma], 2),
        ([&wider, &chroma, &chroma], 1),
    ] {
        let picture = Picture {
            planes: planes.map(Plane::clone),
        };
        let before = picture.clone();
        let error = picture.pad().unwrap_err();
        assert_eq!((error.refusal(), error.plane()), (Refusal::Buffer, at));
        let back = error.into_picture();
        assert!(back.samples() == before.samples()); // no border is filled
        assert_eq!(back, before);
    }
    let exchanged = Picture {
        planes: [&luma, &chroma, &chroma].map(Plane::clone),
    };
    assert!(exchanged.pad().is_ok()); // U in V's place is of the right size
}

#[test]
fn errors() {
    let refused = || {
        let mut picture = picture(16, 8);
        picture.planes[1].row_mut(0)[0] = 1024;
        picture.pad().unwrap_err()
    };
    assert_eq!(Refusal::from(refused()), Refusal::Sample);
    let error = io::Error::from(refused());
    assert_eq!(error.kind(), io::ErrorKind::InvalidInput);
    assert_eq!(error.to_string(), refused().to_string());
    let inside = error.get_ref().unwrap().downcast_ref::<PadError>();
    assert_eq!(inside.unwrap().plane(), 1);
    let shown = format!("{:?}", refused());
    assert_eq!(shown, "PadError { plane: 1, refusal: Sample, .. }"); // and not the samples
    assert_eq!(size_of::<PadError>(), size_of::<usize>());
}

/// The refusal by each way that an error can be wrapped, and none where there is none.
#[test]
fn refusal_inside() {
    let mut bad = picture(16, 8);
    bad.planes[2].row_mut(0)[0] = 1024;
    let bad = || bad.clone().pad().unwrap_err();
    let reference = picture(16, 8).pad().unwrap();
    let replayed = replay(b"IPT", [&reference; 2], None, &mut picture(16, 8));
    let replayed = replayed.result().unwrap_err();
    let errors: [(Box<dyn Error>, Option<Refusal>); 9] = [
        (Refusal::List.into(), Some(Refusal::List)),
        (bad().into(), Some(Refusal::Sample)),
        (replayed.into(), Some(Refusal::Incomplete)),
        (io::Error::from(Refusal::List).into(), Some(Refusal::List)),
        (io::Error::from(bad()).into(), Some(Refusal::Sample)),
        (io::Error::from(replayed).into(), Some(Refusal::Incomplete)),
        (
            io::Error::other(io::Error::from(bad())).into(),
            Some(Refusal::Sample),
        ),
        (io::Error::from(io::ErrorKind::StorageFull).into(), None),
        (UnknownRefusal(8).into(), None),
    ];
    for (error, want) in errors {
        assert_eq!(Refusal::of(&*error), want, "{error}");
    }
    assert_eq!(Refusal::from(replayed), Refusal::Incomplete);
    let error = io::Error::from(replayed);
    assert_eq!(error.kind(), io::ErrorKind::InvalidInput);
    assert_eq!(error.to_string(), replayed.to_string());
    let source = bad().source().unwrap().to_string();
    assert_eq!(source, Refusal::Sample.to_string());
    let source = replayed.source().unwrap().to_string();
    assert_eq!(source, Refusal::Incomplete.to_string());
}

/// A message about pictures is short.
#[test]
fn shown_without_samples() {
    let plane = |chroma| format!("Plane {{ chroma: {chroma}, pic_w: 16, pic_h: 8, .. }}");
    let [luma, chroma] = [plane(false), plane(true)];
    let shown = format!("Picture {{ planes: [{luma}, {chroma}, {chroma}] }}");
    assert_eq!(format!("{:?}", picture(16, 8)), shown);
    let padded = picture(16, 8).pad().unwrap();
    assert_eq!(format!("{padded:?}"), format!("PaddedPicture({shown})"));
}
