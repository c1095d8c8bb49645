//! A made-up film: a wall under a panning camera, and a ringed disc that goes its own way.

use evc_inter::{EvcMv, Picture, Refusal};

/// Quarter samples that the wall and the disc go from one picture to the next.
const WALL: (i32, i32) = (-10, 4);
const DISC: (i32, i32) = (14, -9);

/// The vectors of wall and disc from one time to another.
pub fn vectors(time: u32, other: u32) -> [EvcMv; 2] {
    [WALL, DISC].map(|way| vector(way, time, other))
}

fn vector((across, down): (i32, i32), time: u32, other: u32) -> EvcMv {
    let [x, y] = [across, down].map(|way| (way * (other as i32 - time as i32)) as i16);
    EvcMv { x, y }
}

/// How far something has gone at a time, in samples.
fn gone(way: (i32, i32), time: u32) -> (f64, f64) {
    (
        f64::from(way.0 * time as i32) / 4.0,
        f64::from(way.1 * time as i32) / 4.0,
    )
}

/// How far a place is from the centre of the disc, and its radius.
fn from_centre(pic_w: u32, pic_h: u32, time: u32, x: f64, y: f64) -> (f64, f64) {
    let [w, h] = [pic_w, pic_h].map(f64::from);
    let (gone_x, gone_y) = gone(DISC, time);
    let (dx, dy) = (x - 0.35 * w - gone_x, y - 0.6 * h - gone_y);
    ((dx * dx + dy * dy).sqrt(), 0.22 * w.min(h))
}

/// The motion map of the picture at one time, four numbers a unit; its vectors lead to another time.
pub fn motion_map(pic_w: u32, pic_h: u32, time: u32, other: u32) -> Vec<i16> {
    let [wall, disc] = vectors(time, other);
    let units = (0..pic_h)
        .step_by(4)
        .flat_map(|y| (0..pic_w).step_by(4).map(move |x| (x, y)));
    let motion = |(x, y)| {
        let [x, y] = [x, y].map(|n| f64::from(n) + 2.0);
        let (far, radius) = from_centre(pic_w, pic_h, time, x, y);
        let mv = if far < radius { disc } else { wall };
        [mv.x, mv.y, 0, 0]
    };
    units.flat_map(motion).collect()
}

/// The picture at a time, counted in pictures.
pub fn picture(pic_w: u32, pic_h: u32, time: u32) -> Result<Picture, Refusal> {
    let mut picture = Picture::new(pic_w, pic_h)?;
    let (wall_x, wall_y) = gone(WALL, time);
    for (c, plane) in picture.planes.iter_mut().enumerate() {
        let step = if c == 0 { 1.0 } else { 2.0 };
        for (j, row) in plane.rows_mut().enumerate() {
            for (i, sample) in row.iter_mut().enumerate() {
                let (x, y) = (i as f64 * step, j as f64 * step);
                let (far, radius) = from_centre(pic_w, pic_h, time, x, y);
                let disc_part = (radius - far + 0.5).clamp(0.0, 1.0); // no sharper than film
                let value = disc_part * disc(c, far / radius)
                    + (1.0 - disc_part) * wall(c, x - wall_x, y - wall_y);
                *sample = value.clamp(64.0, 940.0) as u16;
            }
        }
    }
    Ok(picture)
}

fn disc(c: usize, far: f64) -> f64 {
    let ring = (far * 5.0).fract(); // up and down five times from the centre out
    [
        900.0 - 640.0 * (2.0 * ring - 1.0).abs(),
        420.0,
        680.0 - 120.0 * far,
    ][c]
}

/// Bricks under three sizes of blotches.
fn wall(c: usize, x: f64, y: f64) -> f64 {
    let large = noise(c, x / 61.0, y / 61.0);
    if c > 0 {
        return 452.0 + 120.0 * large;
    }
    let row = (y / 24.0).floor();
    let along = (x / 48.0 + row / 2.0).rem_euclid(1.0) * 48.0;
    // Dark within a sample or two of a joint, which lies in the middle of its three samples.
    let near = |at: f64, of: f64| (at - 1.5).abs().min((at - 1.5 - of).abs());
    let joint = near(y - row * 24.0, 24.0).min(near(along, 48.0));
    let brick = 130.0 + 270.0 * ((joint - 0.75) / 2.0).clamp(0.0, 1.0);
    brick + 260.0 * large + 150.0 * noise(3, x / 11.0, y / 11.0) + 70.0 * noise(4, x / 4.0, y / 4.0)
}

/// 0 to 1: random at whole numbers, smooth between them.
fn noise(seed: usize, x: f64, y: f64) -> f64 {
    let (i, j) = (x.floor(), y.floor());
    let at = |i: f64, j: f64| {
        let z = (i as i64 as u32).wrapping_mul(0x9e37_79b1)
            ^ (j as i64 as u32).wrapping_mul(0x85eb_ca77);
        let z = (z ^ z >> 15 ^ seed as u32).wrapping_mul(0x2c1b_3c6d);
        let z = (z ^ z >> 12).wrapping_mul(0x297a_2d39);
        f64::from(z >> 16) / 65535.0
    };
    let smooth = |f: f64| f * f * (3.0 - 2.0 * f);
    let (fx, fy) = (smooth(x - i), smooth(y - j));
    let across = |j: f64| at(i, j) * (1.0 - fx) + at(i + 1.0, j) * fx;
    across(j) * (1.0 - fy) + across(j + 1.0) * fy
}

#[cfg(test)]
mod tests {
    use super::*;

    /// A vector leads to where a thing is at the other time.
    #[test]
    fn moved() {
        let (w, h) = (256, 128);
        let [before, after] = [1, 5].map(|time| picture(w, h, time).unwrap());
        let [wall, disc] = vectors(1, 5); // whole samples over four pictures
        assert_eq!(
            (wall.x % 4, wall.y % 4, disc.x % 4, disc.y % 4),
            (0, 0, 0, 0)
        );
        let sample =
            |picture: &Picture, x: i32, y: i32| picture.planes[0].row(y as usize)[x as usize];
        let map = motion_map(w, h, 1, 5);
        assert_eq!(map.len(), 4 * 64 * 32);
        let unit = |x: i32, y: i32| &map[4 * (y / 4 * 64 + x / 4) as usize..][..2];
        let centre = (0.35 * 256.0 + 3.5, 0.6 * 128.0 - 2.25);
        let disc_at = (centre.0 as i32, centre.1 as i32);
        for (mv, (x, y)) in [(wall, (180, 20)), (disc, disc_at)] {
            assert_eq!(unit(x, y), [mv.x, mv.y]);
            for (x, y) in [(x, y), (x + 1, y), (x, y + 2)] {
                let there = (x + i32::from(mv.x) / 4, y + i32::from(mv.y) / 4);
                assert_eq!(sample(&before, x, y), sample(&after, there.0, there.1));
            }
        }
    }
}
