//! Motion that runs out of frame: vectors that clipping moves, as the proved calls report them.

use crate::report::{counted, Outcome};
use evc_inter::{MovedCounts, MovedMv};

/// What a prediction reports of the vectors of list 0 and list 1.
pub type Report = [MovedMv; 2];

/// What a cataloguer is told. A block may lie up to 64 samples outside the picture, and is predicted from
/// there if its vector leads farther.
pub fn said(counts: MovedCounts) -> String {
    if !counts.any() {
        return "motion stays within 64 samples of the frame".into();
    }
    let MovedCounts {
        across_low,
        across_high,
        down_low,
        down_high,
    } = counts;
    let left = counted(across_low, "vector");
    format!(
        "motion runs out of frame: {left} past the left edge, {across_high} past the right, \
         {down_low} past the top, {down_high} past the bottom"
    )
}

/// What the note of such an item gets; nothing where all stays.
pub fn noted(counts: MovedCounts) -> String {
    match counts.any() {
        true => format!("; {}", said(counts)),
        false => String::new(),
    }
}

/// The same for its line of JSON, under the names that the calls have for them.
pub fn facts(outcome: Outcome, counts: MovedCounts) -> Outcome {
    outcome
        .fact("across_low", counts.across_low)
        .fact("across_high", counts.across_high)
        .fact("down_low", counts.down_low)
        .fact("down_high", counts.down_high)
}

/// Of all these predictions together.
pub fn counts(reports: &[Report]) -> MovedCounts {
    reports.iter().copied().map(MovedCounts::from).sum()
}

/// The first component of which another report was due, if there is one.
pub fn difference(report: Report, due: Report) -> Option<String> {
    (0..2).find_map(|list| {
        let (report, due) = (report[list], due[list]);
        let mut ways = [("across", report.x, due.x), ("down", report.y, due.y)].into_iter();
        let (way, report, due) = ways.find(|(_, report, due)| report != due)?;
        Some(format!("list {list} {way}: {report}, where {due} is due"))
    })
}

#[cfg(test)]
mod tests {
    use super::*;
    use evc_inter::Moved;

    const ALL: [Moved; 3] = [Moved::Not, Moved::Low, Moved::High];

    /// Every report that a prediction may give.
    fn every() -> Vec<Report> {
        let lists = ALL.into_iter().flat_map(|x| ALL.map(|y| MovedMv { x, y }));
        let with = |list0| lists.clone().map(move |list1| [list0, list1]);
        lists.clone().flat_map(with).collect()
    }

    #[test]
    fn in_words() {
        let none = MovedCounts::default();
        assert_eq!(said(none), "motion stays within 64 samples of the frame");
        assert_eq!(noted(none), "");
        let counts = MovedCounts {
            across_low: 1,
            across_high: 20,
            down_low: 0,
            down_high: 4,
        };
        let words = "motion runs out of frame: 1 vector past the left edge, 20 past the right, \
                     0 past the top, 4 past the bottom";
        assert_eq!(said(counts), words);
        assert_eq!(noted(counts), format!("; {words}"));
        let above = MovedCounts {
            down_low: 1,
            ..none
        };
        assert!(said(above).contains("0 vectors past the left edge, 0 past the right, 1 past"));
    }

    /// Each of the three stands in each of four places 27 times.
    #[test]
    fn added_up() {
        let counts = counts(&every());
        assert_eq!(every().len(), 81);
        let MovedCounts {
            across_low,
            across_high,
            down_low,
            down_high,
        } = counts;
        assert_eq!([across_low, across_high, down_low, down_high], [2 * 27; 4]);
    }

    #[test]
    fn differences() {
        for report in every() {
            for due in every() {
                assert_eq!(difference(report, due).is_none(), report == due);
            }
        }
        let mut report = [MovedMv::default(); 2];
        report[1].y = Moved::Low;
        assert_eq!(
            difference(report, Report::default()).unwrap(),
            "list 1 down: moved to the low side, where not moved is due"
        );
    }
}
