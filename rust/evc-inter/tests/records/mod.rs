//! Records of a trace, of every kind.

use evc_inter::{EvcBlock, EvcList, EvcMv, TraceRecord};

/// The `n`th: the kinds by turns, from references with the counts 0 and 8 and these vectors.
pub fn record(n: usize, block: EvcBlock, [mv0, mv1]: [EvcMv; 2]) -> TraceRecord {
    let [list0, list1] = [(mv0, 0), (mv1, 8)].map(|(mv, poc)| EvcList {
        used: true,
        mv,
        poc,
    });
    let none = EvcList::default();
    let record = match n % 4 {
        0 => TraceRecord::from_lists(block, list0, none),
        1 => TraceRecord::from_lists(block, none, list1),
        2 => TraceRecord::from_lists(block, list0, list1),
        _ => TraceRecord::direct(block, 0, 8),
    };
    record.unwrap()
}
