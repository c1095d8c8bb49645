//! Demand 3: a call, the call turned, and whether their first blocks and what they report agree.

use crate::call::{Call, List};
use crate::moved::Report;
use crate::y4m::PLANES;
use evc_inter::{cu_plane, EvcBlock, Flip};
use std::fmt;

#[derive(Clone, Copy, Debug, PartialEq)]
pub enum Turn {
    Mirror(Flip),
    Exchange,
}

impl Turn {
    pub const ALL: [Turn; 3] = [
        Turn::Mirror(Flip::LeftRight),
        Turn::Mirror(Flip::TopBottom),
        Turn::Exchange,
    ];

    /// "x becomes W - x - w, mvx of each list in use is negated, and all else stays"
    pub fn call(self, call: &Call) -> Call {
        let Call { block, mut lists } = *call;
        match self {
            Turn::Mirror(flip) => {
                let turned = |list: List| List {
                    mv: list.mv.flipped(flip),
                    ..list
                };
                Call {
                    block: block.flipped(flip),
                    lists: lists.map(|list| list.map(turned)),
                }
            }
            Turn::Exchange => {
                lists.reverse();
                Call { block, lists }
            }
        }
    }

    /// What the turned call has to report.
    pub fn report(self, mut report: Report) -> Report {
        match self {
            Turn::Mirror(flip) => report.map(|moved| moved.flipped(flip)),
            Turn::Exchange => {
                report.reverse();
                report
            }
        }
    }

    /// The first sample that is not where the turn puts it, if there is one.
    pub fn difference(self, b: &EvcBlock, straight: &[u16], turned: &[u16]) -> Option<String> {
        (0..3).find_map(|c| {
            let [s, t] = [straight, turned].map(|pred| cu_plane(pred, c, b.w, b.h));
            let half = if c == 0 { 1 } else { 2 };
            let [w, h] = [b.w, b.h].map(|side| (side / half) as usize);
            let at = |x: usize, y: usize| match self {
                Turn::Mirror(Flip::LeftRight) => y * w + w - 1 - x,
                Turn::Mirror(Flip::TopBottom) => (h - 1 - y) * w + x,
                Turn::Exchange => y * w + x,
            };
            let differs = |k: &usize| s[*k] != t[at(k % w, k / w)];
            let k = (0..w * h).find(differs)?;
            let (x, y, plane) = (k % w, k / w, PLANES[c]);
            let (s, t) = (s[k], t[at(x, y)]);
            Some(format!(
                "plane {plane}, column {x}, row {y}: {s} straight, {t} turned"
            ))
        })
    }
}

impl fmt::Display for Turn {
    fn fmt(&self, f: &mut fmt::Formatter<'_>) -> fmt::Result {
        match self {
            Turn::Mirror(flip) => write!(f, "mirrored {flip}"),
            Turn::Exchange => f.write_str("lists exchanged"),
        }
    }
}

#[cfg(test)]
mod tests {
    use super::*;
    use evc_inter::{EvcMv, Moved, MovedMv, CU_LEN};

    fn call() -> Call {
        let mv = EvcMv { x: 13, y: -32767 };
        let list = List {
            from: 0,
            mv,
            poc: 3,
        };
        Call {
            block: EvcBlock {
                pic_w: 64,
                pic_h: 32,
                x: 8,
                y: 4,
                w: 16,
                h: 4,
            },
            lists: [Some(list), None],
        }
    }

    #[test]
    fn turned_twice() {
        for turn in Turn::ALL {
            assert_ne!(turn.call(&call()), call());
            assert_eq!(turn.call(&turn.call(&call())), call());
        }
        let left_right = Turn::Mirror(Flip::LeftRight).call(&call());
        assert_eq!((left_right.block.x, left_right.block.y), (40, 4));
        assert_eq!(left_right.lists[0].unwrap().mv, EvcMv { x: -13, y: -32767 });
    }

    #[test]
    fn reports() {
        let [low, high] = [Moved::Low, Moved::High].map(|x| MovedMv { x, y: Moved::Low });
        let none = MovedMv::default();
        let across = Turn::Mirror(Flip::LeftRight);
        assert_eq!(across.report([low, none]), [high, none]);
        let down = Turn::Mirror(Flip::TopBottom);
        let bottom = MovedMv {
            y: Moved::High,
            ..low
        };
        assert_eq!(down.report([none, low]), [none, bottom]);
        assert_eq!(Turn::Exchange.report([low, none]), [none, low]);
    }

    #[test]
    fn differences() {
        let b = call().block;
        let straight: Vec<u16> = (0..CU_LEN as u16).collect();
        let same = Turn::Exchange.difference(&b, &straight, &straight);
        assert_eq!(same, None);
        for flip in [Flip::LeftRight, Flip::TopBottom] {
            let said = Turn::Mirror(flip)
                .difference(&b, &straight, &straight)
                .unwrap();
            assert!(
                said.starts_with("plane Y, column 0, row 0: 0 straight"),
                "{said}"
            );
        }
        let mut turned = straight.clone();
        turned[5120 + 9] = 7;
        let said = Turn::Exchange.difference(&b, &straight, &turned).unwrap();
        assert_eq!(said, "plane V, column 1, row 1: 5129 straight, 7 turned");
        turned = straight.clone();
        turned[64] = 7; // past the block's 16 by 4
        assert_eq!(Turn::Exchange.difference(&b, &straight, &turned), None);
    }
}
