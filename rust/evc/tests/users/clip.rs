//! Clips that are made and read here, by other code than the tool's.

use std::fmt::Write;

/// As a film transfer may have them: each is to be carried over.
pub const TAGS: &str = "F30000:1001 It A10:11 C420p10 XYSCSS=420P10 XCOLORRANGE=FULL";

#[derive(Clone, Debug, PartialEq)]
pub struct Clip {
    pub sides: (usize, usize),
    /// What its header has behind the sides.
    pub tags: String,
    /// Samples of Y, then U, then V.
    pub frames: Vec<Vec<u16>>,
}

/// The sides of Y, U and V.
pub fn planes((w, h): (usize, usize)) -> [(usize, usize); 3] {
    [(w, h), (w / 2, h / 2), (w / 2, h / 2)]
}

/// How many samples a frame has.
pub fn samples(sides: (usize, usize)) -> usize {
    planes(sides).iter().map(|(w, h)| w * h).sum()
}

impl Clip {
    /// A pattern that goes some quarter samples across and down from frame to frame.
    pub fn moving(sides: (usize, usize), step: (i32, i32), frames: usize) -> Clip {
        let frame = |n: usize| {
            let [across, down] = [step.0, step.1].map(|step| f64::from(step) / 4.0 * n as f64);
            let mut samples = Vec::new();
            for (c, (w, h)) in planes(sides).into_iter().enumerate() {
                let scale = if c == 0 { 1.0 } else { 2.0 };
                for (y, x) in (0..h).flat_map(|y| (0..w).map(move |x| (y, x))) {
                    samples.push(pattern(
                        c,
                        x as f64 * scale - across,
                        y as f64 * scale - down,
                    ));
                }
            }
            samples
        };
        Clip {
            sides,
            tags: TAGS.into(),
            frames: (0..frames).map(frame).collect(),
        }
    }

    pub fn bytes(&self) -> Vec<u8> {
        let (w, h) = self.sides;
        let mut bytes = format!("YUV4MPEG2 W{w} H{h} {}\n", self.tags).into_bytes();
        for frame in &self.frames {
            bytes.extend(b"FRAME\n");
            bytes.extend(frame.iter().flat_map(|sample| sample.to_le_bytes()));
        }
        bytes
    }

    /// Fails unless it is whole, with nothing behind it.
    #[track_caller]
    pub fn read(bytes: &[u8]) -> Clip {
        let end = bytes.iter().position(|byte| *byte == b'\n').unwrap();
        let header = String::from_utf8(bytes[..end].to_vec()).unwrap();
        let words: Vec<_> = header.splitn(4, ' ').collect();
        let [mark, w, h, tags] = words[..] else {
            panic!("{header}")
        };
        assert_eq!(mark, "YUV4MPEG2");
        let side = |word: &str, tag| word.strip_prefix(tag).unwrap().parse().unwrap();
        let sides = (side(w, 'W'), side(h, 'H'));
        let len = b"FRAME\n".len() + 2 * samples(sides);
        let frames = bytes[end + 1..].chunks(len).map(|frame| {
            assert_eq!(frame.len(), len, "cut off");
            let samples = frame.strip_prefix(b"FRAME\n").unwrap();
            let pairs = samples.chunks_exact(2);
            pairs.map(|p| u16::from_le_bytes([p[0], p[1]])).collect()
        });
        Clip {
            sides,
            tags: tags.into(),
            frames: frames.collect(),
        }
    }

    /// A clip of one frame of it.
    pub fn only(&self, n: usize) -> Clip {
        Clip {
            frames: vec![self.frames[n].clone()],
            ..self.clone()
        }
    }

    /// Its pictures turned, `left-right` or `top-bottom`.
    pub fn turned(&self, way: &str) -> Clip {
        let mut turned = self.clone();
        for frame in &mut turned.frames {
            let mut rest = &mut frame[..];
            for (w, h) in planes(self.sides) {
                let (plane, behind) = rest.split_at_mut(w * h);
                rest = behind;
                // Reversed as a whole a plane is turned both ways.
                if way == "top-bottom" {
                    plane.reverse();
                }
                plane.chunks_mut(w).for_each(<[u16]>::reverse);
            }
        }
        turned
    }

    /// Peak signal-to-noise ratios of Y, U and V of the first frames, as the tool says them.
    pub fn psnr(&self, other: &Clip) -> String {
        let mut said = String::from("PSNR");
        let mut at = 0;
        for ((w, h), name) in planes(self.sides).into_iter().zip(["Y", "U", "V"]) {
            let plane = at..at + w * h;
            at = plane.end;
            let pairs = self.frames[0][plane.clone()]
                .iter()
                .zip(&other.frames[0][plane]);
            let squares: f64 = pairs
                .map(|(a, b)| (f64::from(*a) - f64::from(*b)).powi(2))
                .sum();
            let psnr = 10.0 * (1023f64.powi(2) / (squares / (w * h) as f64)).log10();
            let comma = if name == "Y" { "" } else { "," };
            write!(said, "{comma} {name} {psnr:.2} dB").unwrap();
        }
        said
    }
}

/// Waves of several lengths, smooth enough for quarter samples and nowhere the same.
fn pattern(c: usize, x: f64, y: f64) -> u16 {
    let waves = [
        150.0 * (0.31 * x + 0.12 * y).sin(),
        120.0 * (0.27 * y - 0.15 * x + 1.0).sin(),
        60.0 * (0.55 * x + 0.43 * y).cos(),
    ];
    let scale = [1.0, 0.5, -0.7][c];
    (512.0 + scale * waves.iter().sum::<f64>()).round() as u16
}
