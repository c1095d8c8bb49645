//! Pictures as they are looked at: in colours, side by side, with their blocks, by their differences.

use crate::coded::{Coded, Kind};
use crate::png::Image;
use evc_inter::{EvcBlock, Picture};

/// ITU-R BT.601 below 720 rows, BT.709 from there on, as players guess.
pub fn image(picture: &Picture, is_full_range: bool) -> Image {
    let [y, u, v] = &picture.planes;
    let (w, h) = (y.cfg().width, y.cfg().height);
    let [red_v, green_u, green_v, blue_u] = match h < 720 {
        true => [1.402, -0.344136, -0.714136, 1.772],
        false => [1.5748, -0.187324, -0.468124, 1.8556],
    };
    let (black, white, chroma) = match is_full_range {
        true => (0.0, 1023.0, 1023.0),
        false => (64.0, 876.0, 896.0),
    };
    let mut rgb = Vec::with_capacity(w * h);
    for (j, luma) in y.rows().enumerate() {
        let (us, vs) = (u.row(j / 2), v.row(j / 2));
        for (i, luma) in luma.iter().enumerate() {
            let luma = (f32::from(*luma) - black) / white;
            let [u, v] = [us[i / 2], vs[i / 2]].map(|c| (f32::from(c) - 512.0) / chroma);
            let colours = [
                luma + red_v * v,
                luma + green_u * u + green_v * v,
                luma + blue_u * u,
            ];
            rgb.push(colours.map(|colour| (255.0 * colour).round() as u8)); // `as` holds it to 0..255
        }
    }
    Image { w, h, rgb }
}

/// How far the luma of two pictures lies apart: grey where it is equal, a step for each step of 10 bits.
pub fn difference_image(predicted: &Picture, picture: &Picture) -> Image {
    let [a, b] = [predicted, picture].map(|picture| &picture.planes[0]);
    let (w, h) = (a.cfg().width, a.cfg().height);
    let samples = a.rows().zip(b.rows()).flat_map(|(a, b)| a.iter().zip(b));
    let grey = |(a, b): (&u16, &u16)| (128 + i32::from(*a) - i32::from(*b)).clamp(0, 255) as u8;
    let rgb = samples.map(|pair| [grey(pair); 3]).collect();
    Image { w, h, rgb }
}

/// The same as a picture: 512 where samples are equal.
pub fn difference(predicted: &Picture, picture: &Picture) -> Picture {
    let mut difference = predicted.clone();
    for (plane, other) in difference.planes.iter_mut().zip(&picture.planes) {
        for (row, other) in plane.rows_mut().zip(other.rows()) {
            for (sample, other) in row.iter_mut().zip(other) {
                let apart = i32::from(*sample) - i32::from(*other);
                *sample = (512 + apart).clamp(0, 1023) as u16;
            }
        }
    }
    difference
}

/// Images of one size from left to right, a white gap between them.
pub fn side_by_side(images: &[Image]) -> Image {
    const GAP: usize = 8;
    let (w, h) = (images[0].w, images[0].h);
    let mut rgb = Vec::new();
    for y in 0..h {
        for (k, image) in images.iter().enumerate() {
            if k > 0 {
                rgb.extend([[255; 3]; GAP]);
            }
            rgb.extend(&image.rgb[y * w..(y + 1) * w]);
        }
    }
    Image {
        w: images.len() * (w + GAP) - GAP,
        h,
        rgb,
    }
}

/// The blocks' edges, in a colour for each kind.
pub fn outlined(mut image: Image, blocks: &[Coded]) -> Image {
    for Coded { block, kind, .. } in blocks {
        let colour = match kind {
            Kind::List0 => [255, 220, 60],
            Kind::List1 => [70, 220, 255],
            Kind::Both => [255; 3],
            Kind::Direct => [255, 100, 220],
        };
        let EvcBlock { x, y, w, h, .. } = *block;
        let [x, y, w, h] = [x, y, w, h].map(|n| n as usize);
        let edge = (0..w).map(|k| (x + k, y)).chain((0..h).map(|k| (x, y + k)));
        for (x, y) in edge {
            image.rgb[y * image.w + x] = colour;
        }
    }
    image
}

/// Peak signal-to-noise ratio of a plane in decibels; none if all samples are equal.
pub fn psnr(predicted: &Picture, picture: &Picture, c: usize) -> Option<f64> {
    let [a, b] = [predicted, picture].map(|picture| &picture.planes[c]);
    let samples = a.rows().zip(b.rows()).flat_map(|(a, b)| a.iter().zip(b));
    let squares: u64 = samples.map(|(a, b)| u64::from(a.abs_diff(*b)).pow(2)).sum();
    let count = (a.cfg().width * a.cfg().height) as f64;
    (squares > 0).then(|| 10.0 * (1023.0 * 1023.0 * count / squares as f64).log10())
}

#[cfg(test)]
mod tests {
    use super::*;

    fn picture(samples: [u16; 3]) -> Picture {
        let mut picture = Picture::new(4, 4).unwrap();
        for (plane, sample) in picture.planes.iter_mut().zip(samples) {
            plane.rows_mut().for_each(|row| row.fill(sample));
        }
        picture
    }

    #[test]
    fn colours() {
        for (samples, is_full_range, want) in [
            ([64, 512, 512], false, [0; 3]),
            ([940, 512, 512], false, [255; 3]),
            ([0, 512, 512], true, [0; 3]),
            ([1023, 512, 512], true, [255; 3]),
            ([502, 512, 512], false, [128, 128, 128]),
            ([326, 361, 960], false, [255, 0, 0]), // red, by BT.601
        ] {
            let image = image(&picture(samples), is_full_range);
            assert_eq!((image.w, image.h, image.rgb.len()), (4, 4, 16));
            assert!(
                image.rgb.iter().all(|rgb| *rgb == want),
                "{:?}",
                image.rgb[0]
            );
        }
    }

    #[test]
    fn apart() {
        let (a, mut b) = (picture([500, 300, 200]), picture([500, 300, 200]));
        assert_eq!(psnr(&a, &b, 0), None);
        b.planes[0].row_mut(1)[2] = 501;
        assert_eq!(
            psnr(&a, &b, 0),
            Some(10.0 * (1023.0f64 * 1023.0 * 16.0).log10())
        );
        assert_eq!(psnr(&a, &b, 1), None);
        assert_eq!(difference(&a, &b).planes[0].row(1), [512, 512, 511, 512]);
        let image = difference_image(&a, &b);
        assert_eq!((image.rgb[5], image.rgb[6]), ([128; 3], [127; 3]));
    }

    #[test]
    fn beside() {
        let [a, b] = [1, 2].map(|n| Image {
            w: 2,
            h: 2,
            rgb: vec![[n; 3]; 4],
        });
        let both = side_by_side(&[a, b]);
        assert_eq!((both.w, both.h), (12, 2));
        assert_eq!(both.rgb[12..14], [[1; 3]; 2]);
        assert_eq!(both.rgb[14..22], [[255; 3]; 8]);
        assert_eq!(both.rgb[22..], [[2; 3]; 2]);
    }
}
