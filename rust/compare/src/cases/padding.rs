//! `evc_pad`.

use super::*;
use crate::guard::{Guarded, PRESSES};
use crate::lent::{Border, Contents, PlaneOf, Samples};
use crate::numbers::{one_in, smaller_number, wild, Length};
use oracle::model;

#[derive(Clone, Debug)]
pub struct Padding {
    chroma: bool,
    pic: [u32; 2],
    plane: PlaneOf,
    length: Length,
    /// A picture sample of this value, at these 256ths of width and height.
    put: Option<([u8; 2], u16)>,
}

#[derive(Default)]
pub struct Lent {
    /// The plane before the call.
    made: Option<(PlaneOf, Vec<u16>)>,
    plane: Guarded<u16>,
}

impl Case for Padding {
    const NAME: &'static str = "evc_pad";
    type Lent = Lent;

    fn batch(pic: [u32; 2], rng: &mut Rng) -> Vec<Self> {
        let chroma = one_in(2, rng);
        let samples = [Samples::Allowed, Samples::Extreme, Samples::Sparse][rng.below(3)];
        let border = Border::Has([Samples::Allowed, Samples::Any][rng.below(2)]);
        let plane = PlaneOf::random(chroma, pic, samples, border, rng);
        let mut one = || {
            let mut case = Padding {
                chroma,
                pic,
                plane: plane.clone(),
                length: Length::random(rng),
                put: None,
            };
            if one_in(8, rng) {
                let d = rng.below(2);
                case.pic[d] = wild(pic[d], rng);
                case.chroma ^= one_in(4, rng);
            }
            if one_in(4, rng) {
                let at = [(); 2].map(|_| [0, 255, rng.below(256)][rng.below(3)] as u8);
                case.put = Some((at, [1023, 1024, 65535][rng.below(3)]));
            }
            case
        };
        (0..BATCH / 4).map(|_| one()).collect()
    }

    fn run(&self, calls: &dyn Calls, lent: &mut Lent) -> Outcome {
        if lent.made.as_ref().map(|(plane, _)| plane) != Some(&self.plane) {
            lent.made = Some((self.plane.clone(), self.plane.make(calls)));
        }
        let (_, made) = lent.made.as_mut().unwrap();
        let put = self.put.map(|(at, value)| {
            let c = self.plane.sizes();
            let [i, j] = [0, 1].map(|d| i64::from(at[d]) * (c.size()[d] - 1) / 255);
            let k = c.index(i, j) as usize;
            (k, std::mem::replace(&mut made[k], value))
        });
        let before = &made[..self.length.of(made.len())];
        let mut want = before.to_vec();
        let code = model::pad(self.chroma, self.pic, &mut want);
        let mut compare = || {
            for press in PRESSES {
                let plane = lent.plane.lend_mut(press, before);
                assert_same("code", calls.pad(self.chroma, self.pic, plane), code)?;
                assert_all_same("plane", plane, &want)?;
            }
            if code == 0 {
                let mut rust = before.to_vec();
                let [w, h] = self.pic.map(|n| n as usize);
                oracle::pad(self.chroma, w, h, &mut rust);
                assert_all_same("the Rust's plane and the model's", &rust, &want)?;
            }
            Ok(())
        };
        let compared = compare();
        if let Some((k, old)) = put {
            made[k] = old;
        }
        compared.map(|()| Seen {
            code,
            in_domain: code == 0,
        })
    }

    fn smaller(&self) -> Vec<Self> {
        let mut all = Vec::new();
        for d in 0..2 {
            for side in smaller_number(self.pic[d]) {
                let mut case = self.clone();
                case.pic[d] = side;
                all.push(case.clone());
                if self.pic == self.plane.pic && !model::is_picture_refused(case.pic) {
                    case.plane.pic = case.pic;
                    all.insert(0, case);
                }
            }
        }
        if self.pic != self.plane.pic && !model::is_picture_refused(self.pic) {
            for spare in [self.plane.spare, 1] {
                let mut case = self.clone();
                (case.plane.chroma, case.plane.pic) = (self.chroma, self.pic);
                case.plane.spare = spare;
                all.push(case);
            }
        }
        for length in self.length.smaller() {
            let same = self.clone();
            all.push(Padding { length, ..same });
        }
        for plane in self.plane.smaller() {
            let same = self.clone();
            all.push(Padding { plane, ..same });
        }
        if self.put.is_some() {
            let same = self.clone();
            all.push(Padding { put: None, ..same });
        }
        all
    }
}
