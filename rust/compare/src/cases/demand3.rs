//! Demand 3: the general filter over the prolonged picture, mirrors and exchange, by `evc_pad` and `evc_mc2`; what
//! becomes of document 02's reports, W2, under these.

use super::padded::{all_same, Lent, PaddedCall, Predicted, FORMS};
use super::*;
use oracle::cases::{other_side, random_block, BlockCall};
use oracle::model::{self, Block};

#[derive(Clone, Debug)]
pub struct Demand3(PaddedCall);

/// "column c of each predicted plane equals the straight call's column n - 1 - c"; rows likewise.
fn mirrored(b: &Block, d: usize, planes: &Predicted) -> Predicted {
    [0, 1, 2].map(|k| {
        let w = b.side[0] as usize >> usize::from(k > 0);
        let rows = planes[k].chunks(w);
        match d {
            0 => rows.flat_map(|row| row.iter().rev().copied()).collect(),
            _ => rows.rev().flatten().copied().collect(),
        }
    })
}

/// "x becomes W - x - w, mvx of each list in use is negated, and all else stays". None where a
/// component to negate is -32768.
fn mirrored_call(call: &BlockCall, d: usize) -> Option<BlockCall> {
    let mut turned = *call;
    turned.b.place[d] = call.b.pic[d] - call.b.place[d] - call.b.side[d];
    for list in (0..2).filter(|list| call.used[*list]) {
        turned.mv[list][d] = call.mv[list][d].checked_neg()?;
    }
    Some(turned)
}

impl Case for Demand3 {
    const NAME: &'static str = "demand3";
    type Lent = Lent;

    fn batch(pic: [u32; 2], rng: &mut Rng) -> Vec<Self> {
        let cases = PaddedCall::batch(pic, random_block, rng);
        cases.into_iter().map(Demand3).collect()
    }

    fn run(&self, calls: &dyn Calls, lent: &mut Lent) -> Outcome {
        let Demand3(case) = self;
        if !case.is_due() {
            return Ok(case.seen());
        }
        lent.hold(case, FORMS.len(), calls);
        let which = case.which();
        let (straight, moved) = lent.predict(calls, &case.call, which, 0, case)?;
        let general = model::general_block(&case.call.b, &lent.lists(case));
        all_same("block by the general filter", &straight, &general)?;

        for d in 0..2 {
            if let Some(call) = mirrored_call(&case.call, d) {
                let (turned, reports) = lent.predict(calls, &call, which, 1 + d, case)?;
                let want = mirrored(&case.call.b, d, &straight);
                let what = ["mirrored left to right", "mirrored top to bottom"][d];
                all_same(what, &turned, &want)?;
                let mut want = moved;
                want.iter_mut().for_each(|m| m[d] = other_side(m[d]));
                assert_same(&format!("{what}, reports"), reports, want)?;
            }
        }

        let mut call = case.call;
        call.used.reverse();
        call.mv.reverse();
        call.poc.reverse();
        let (exchanged, reports) = lent.predict(calls, &call, [which[1], which[0]], 0, case)?;
        all_same("exchanged", &exchanged, &straight)?;
        assert_same("exchanged, reports", reports, [moved[1], moved[0]])?;
        Ok(case.seen())
    }

    fn smaller(&self) -> Vec<Self> {
        self.0.smaller().into_iter().map(Demand3).collect()
    }
}
