//! Tables, for a terminal or for docs/SPEED-TABLES.md, and the targets.

/// A ratio that is not to be exceeded.
pub struct Target {
    pub name: &'static str,
    pub at_most: f64,
}

const fn target(name: &'static str, at_most: f64) -> Target {
    Target { name, at_most }
}

pub const ONE_LUMA: Target = target("luma, one direction, 8x8, 16x16, 64x64", 0.30);
pub const ONE_CHROMA: Target = target("chroma of these, one direction", 0.30);
pub const TWO_LUMA: Target = target("luma, two directions, 8x8, 16x16, 64x64", 0.25);
pub const TWO_CHROMA: Target = target("chroma of these, two directions", 0.25);
pub const BLOCK: Target = target("block, two directions, 8x8, 16x16, 64x64", 0.30);
pub const SMALL_LUMA: Target = target("luma, filtered, 4x4", 0.5);
pub const SMALL_CHROMA: Target = target("chroma of these, filtered", 0.5);
pub const SMALL_BLOCK: Target = target("block, two directions, 4x4", 0.5);
pub const WHOLE: Target = target("whole samples", 1.5);
pub const BORDER: Target = target("border alone", 1.0);
pub const VECTORS: Target = target("flags, candidates, direct vectors, clipping", 1.5);
pub const SLICES: Target = target("flags by slice, to those of a picture of one", 1.3);
pub const REPLAY: Target = target("replay, to its calls and copies", 1.05);
pub const CAMERA: Target = target("camera movement, to the plainest loop", 1.0);
pub const LIMIT_LUMA: Target = target("luma, to the limit", 1.3);
pub const LIMIT_CHROMA: Target = target("chroma, to the limit", 1.3);
pub const LIMIT_BLOCK: Target = target("block, to the limit", 1.3);

const TARGETS: [&Target; 17] = [
    &ONE_LUMA,
    &ONE_CHROMA,
    &TWO_LUMA,
    &TWO_CHROMA,
    &BLOCK,
    &SMALL_LUMA,
    &SMALL_CHROMA,
    &SMALL_BLOCK,
    &WHOLE,
    &BORDER,
    &VECTORS,
    &SLICES,
    &REPLAY,
    &CAMERA,
    &LIMIT_LUMA,
    &LIMIT_CHROMA,
    &LIMIT_BLOCK,
];

/// How many times the limit's time a filtered block of one plane may take before the guard ends with 1.
/// docs/SPEED.md has how far from it the rows are, with and without the products that the optimizer
/// makes of the tap sums.
const GUARD: f64 = 3.0;

pub struct Report {
    pub rounds: usize,
    markdown: bool,
    filter: String,
    /// Where the names of the rows go if these alone are asked for.
    names: Option<Vec<String>>,
    judged: Vec<(&'static str, String, f64)>,
    later: String,
}

impl Report {
    pub fn new(rounds: usize, markdown: bool, filter: String) -> Self {
        Report {
            rounds,
            markdown,
            filter,
            names: None,
            judged: Vec::new(),
            later: String::new(),
        }
    }

    pub fn wants(&mut self, what: &str) -> bool {
        if let Some(names) = &mut self.names {
            names.push(what.to_string());
            return false;
        }
        what.contains(&self.filter)
    }

    /// Holds a ratio to a target, and gives the table's cell.
    pub fn judge(&mut self, target: Option<&Target>, what: &str, ratio: f64) -> String {
        let Some(target) = target else {
            return String::new();
        };
        self.judged.push((target.name, what.to_string(), ratio));
        let missed = if ratio > target.at_most {
            " missed"
        } else {
            ""
        };
        format!("{:.2}{missed}", target.at_most)
    }

    /// Shows a table: in a terminal at once, on a page below the targets.
    pub fn table(&mut self, title: &str, head: &[&str], rows: &[Vec<String>]) {
        if rows.is_empty() {
            return;
        }
        if self.markdown {
            self.later += &markdown(title, head, rows);
        } else {
            println!("{}", terminal(title, head, rows));
        }
    }

    /// Says which filtered rows of one plane have lost their vector form, and gives the status to end
    /// with: 1 also where there was no such row to look at.
    pub fn guard(&self) -> i32 {
        let (mut rows, mut slow) = (0, 0);
        for (target, what, ratio) in &self.judged {
            let of_limit = [LIMIT_LUMA.name, LIMIT_CHROMA.name].contains(target);
            if !of_limit || what.contains(" copy ") {
                continue;
            }
            rows += 1;
            if *ratio > GUARD {
                slow += 1;
                println!("{what}: {ratio:.2} times the limit's time, at most {GUARD}");
            }
        }
        if rows == 0 {
            println!("no filtered row of one plane to look at");
        }
        i32::from(rows == 0 || slow > 0)
    }

    /// Of each target the largest ratio, and how many are above it.
    pub fn targets(&mut self) {
        let mut rows = Vec::new();
        for target in TARGETS {
            let mut of: Vec<_> = self.judged.iter().filter(|j| j.0 == target.name).collect();
            of.sort_by(|a, b| b.2.total_cmp(&a.2));
            let Some((_, what, worst)) = of.first() else {
                continue;
            };
            let missed = of.iter().filter(|j| j.2 > target.at_most).count();
            rows.push(vec![
                target.name.to_string(),
                format!("{:.2}", target.at_most),
                format!("{worst:.2}"),
                what.clone(),
                format!("{missed} of {}", of.len()),
            ]);
        }
        let head = ["target", "at most", "largest", "where", "missed"];
        let tables = std::mem::take(&mut self.later);
        self.table("The targets", &head, &rows);
        print!("{}{tables}", self.later);
    }
}

/// The names of the rows of some tables, none of which is measured.
pub fn names(run: fn(&mut Report)) -> Vec<String> {
    let mut report = Report::new(1, false, String::new());
    report.names = Some(Vec::new());
    run(&mut report);
    report.names.unwrap_or_default()
}

fn markdown(title: &str, head: &[&str], rows: &[Vec<String>]) -> String {
    let mut text = format!("## {title}\n\n| {} |\n|---|", head.join(" | "));
    text += &"---:|".repeat(head.len() - 1);
    for row in rows {
        text += &format!("\n| {} |", row.join(" | "));
    }
    text + "\n\n"
}

/// The first column is words, the others are numbers.
fn terminal(title: &str, head: &[&str], rows: &[Vec<String>]) -> String {
    let head = head.iter().map(|name| name.to_string()).collect();
    let all = || std::iter::once(&head).chain(rows);
    let width = |k: usize| all().map(|row: &Vec<String>| row[k].len()).max().unwrap();
    let mut text = title.to_string();
    for row in all() {
        text += &format!("\n  {:<1$}", row[0], width(0));
        for (k, cell) in row.iter().enumerate().skip(1) {
            text += &format!("  {cell:>0$}", width(k));
        }
    }
    text + "\n"
}

pub fn number(n: f64) -> String {
    match n {
        n if n >= 1000.0 => format!("{n:.0}"),
        n if n >= 100.0 => format!("{n:.1}"),
        _ => format!("{n:.2}"),
    }
}

/// Prediction: times of a call in nanoseconds.
pub struct Prediction {
    pub original: f64,
    pub ours: f64,
    pub limit: f64,
    pub unexamined: f64,
}

pub const PREDICTION: [&str; 11] = [
    "block",
    "original",
    "ours",
    "limit",
    "limit, unexamined",
    "ours a sample",
    "ours/original",
    "target",
    "ours/limit",
    "target",
    "ours/unexamined",
];

impl Prediction {
    pub fn row(
        &self,
        report: &mut Report,
        what: &str,
        samples: u32,
        target: Option<&Target>,
        limit: &Target,
    ) -> Vec<String> {
        let ratio = self.ours / self.original;
        let of_limit = self.ours / self.limit;
        vec![
            what.to_string(),
            number(self.original),
            number(self.ours),
            number(self.limit),
            number(self.unexamined),
            format!("{:.3}", self.ours / f64::from(samples)),
            format!("{ratio:.2}"),
            report.judge(target, what, ratio),
            format!("{of_limit:.2}"),
            report.judge(Some(limit), what, of_limit),
            format!("{:.2}", self.ours / self.unexamined),
        ]
    }
}

#[cfg(test)]
mod tests {
    use super::*;

    #[test]
    fn the_guard_notices_a_slow_filter_and_a_run_without_filters() {
        let mut report = Report::new(1, false, String::new());
        assert_eq!(report.guard(), 1);
        report.judge(Some(&LIMIT_LUMA), "luma copy 8x8", GUARD + 0.01);
        assert_eq!(report.guard(), 1);
        report.judge(Some(&LIMIT_LUMA), "luma both 8x8", GUARD);
        report.judge(Some(&TWO_LUMA), "luma both 8x8", GUARD + 0.01);
        assert_eq!(report.guard(), 0);
        report.judge(Some(&LIMIT_CHROMA), "chroma down 4x4", GUARD + 0.01);
        assert_eq!(report.guard(), 1);
    }
}
