//! The proved archive against the original Rust and a hand-written limit, in one run; docs/SPEED.md
//! says how to read it.
//!
//! `cargo run --profile wrapping -p bench -- [FILTER] [--rounds N] [--markdown]`, or `--guard`

mod block;
mod border;
mod camera;
mod cases;
mod growth;
mod limit;
mod measure;
mod one_plane;
mod ours;
mod replay;
mod report;
mod room;
mod vectors;

use report::{names, Report};

const USAGE: &str = "\
usage: bench [FILTER] [--rounds N] [--markdown] [--guard]

FILTER      only rows that have it in their names
--rounds N  rounds, of which the least time counts; 200 if not given
--markdown  tables as in docs/SPEED-TABLES.md
--guard     luma and chroma alone; ends with 1 where a filter has lost its vector form, or a
            call of the table 'Room' takes more stack than include/evc_inter.h says

names of rows begin with: ";

type Tables = (&'static [&'static str], fn(&mut Report));

/// What measures, with what the names of its rows begin with.
const TABLES: [Tables; 8] = [
    (&["luma", "chroma"], one_plane::run),
    (&["one list", "two lists"], block::run),
    (&["border"], border::run),
    (
        &["flags", "candidates", "direct vectors", "clipping"],
        vectors::run,
    ),
    (&["replay"], replay::run),
    (&["camera"], camera::run),
    (&["growth"], growth::run),
    (&["room"], room::run),
];

fn usage() -> String {
    USAGE.to_string() + &TABLES.map(|(begin, _)| begin.join(", ")).join(", ")
}

#[derive(Debug, PartialEq)]
struct Options {
    rounds: usize,
    markdown: bool,
    guard: bool,
    filter: String,
}

impl Options {
    /// None where the usage is asked for. The value of --rounds is the next word, or stands behind '='.
    fn new(mut words: impl Iterator<Item = String>) -> Result<Option<Self>, String> {
        let (mut rounds, mut markdown, mut guard, mut filter) = (200, false, false, None);
        while let Some(word) = words.next() {
            match word.as_str() {
                "--help" | "-h" => return Ok(None),
                "--rounds" => rounds = rounds_of(&words.next().ok_or("--rounds has no value")?)?,
                "--markdown" => markdown = true,
                "--guard" => guard = true,
                _ => match word.strip_prefix("--rounds=") {
                    Some(value) => rounds = rounds_of(value)?,
                    None if word.starts_with('-') => return Err(format!("unknown option {word}")),
                    None if filter.is_some() => return Err(format!("a second FILTER: {word}")),
                    None => filter = Some(word),
                },
            }
        }
        let options = Options {
            rounds,
            markdown,
            guard,
            filter: filter.unwrap_or_default(),
        };
        let mut names = options.tables().iter().flat_map(|(_, run)| names(*run));
        if names.any(|name| name.contains(&options.filter)) {
            return Ok(Some(options));
        }
        let of = if guard { " of the guard" } else { "" };
        Err(format!("no row{of} has '{}' in its name", options.filter))
    }

    /// The guard looks at those of one plane.
    fn tables(&self) -> &'static [Tables] {
        if self.guard {
            &TABLES[..1]
        } else {
            &TABLES
        }
    }
}

fn rounds_of(value: &str) -> Result<usize, String> {
    let rounds = value.parse().ok().filter(|n| *n > 0);
    rounds.ok_or(format!("--rounds: {value} is not a whole number above 0"))
}

/// The processor's name.
fn processor() -> Option<String> {
    let text = std::fs::read_to_string("/proc/cpuinfo").ok()?;
    let line = text.lines().find(|line| line.starts_with("model name"))?;
    Some(line.split_once(": ")?.1.to_string())
}

fn main() {
    let words = std::env::args_os().skip(1);
    let options = match Options::new(words.map(|word| word.to_string_lossy().into_owned())) {
        Ok(Some(options)) => options,
        Ok(None) => return println!("{}", usage()),
        Err(why) => {
            eprintln!("bench: {why}\n{}", usage());
            std::process::exit(2);
        }
    };
    let tables = options.tables();
    let mut report = Report::new(options.rounds, options.markdown, options.filter);
    let processor = processor().unwrap_or("unknown processor".to_string());
    println!("{processor}, least of {} rounds.\n", report.rounds);
    for (_, run) in tables {
        run(&mut report);
    }
    if options.guard {
        std::process::exit(report.guard() | room::guard());
    }
    report.targets();
}

#[cfg(test)]
mod tests {
    use super::*;

    fn of(words: &[&str]) -> Result<Option<Options>, String> {
        Options::new(words.iter().map(|word| word.to_string()))
    }

    #[test]
    fn options_in_any_order() {
        let asked = |rounds, markdown, guard, filter: &str| {
            Ok(Some(Options {
                rounds,
                markdown,
                guard,
                filter: filter.to_string(),
            }))
        };
        assert_eq!(of(&[]), asked(200, false, false, ""));
        let words = ["--rounds", "7", "luma both", "--markdown"];
        assert_eq!(of(&words), asked(7, true, false, "luma both"));
        let words = ["chroma", "--guard", "--rounds=7"];
        assert_eq!(of(&words), asked(7, false, true, "chroma"));
        assert_eq!(of(&["border", "--help"]), Ok(None));
        assert_eq!(of(&["-h"]), Ok(None));
    }

    #[test]
    fn wrong_words_are_named() {
        let told = |words: &[&str]| of(words).unwrap_err();
        assert_eq!(told(&["--fast"]), "unknown option --fast");
        assert_eq!(told(&["luma", "both"]), "a second FILTER: both");
        assert_eq!(told(&["--rounds"]), "--rounds has no value");
        for value in ["0", "few", "-1", ""] {
            let why = format!("--rounds: {value} is not a whole number above 0");
            assert_eq!(told(&["--rounds", value]), why);
        }
        assert_eq!(told(&["Luma"]), "no row has 'Luma' in its name");
        let why = "no row of the guard has 'border' in its name";
        assert_eq!(told(&["border", "--guard"]), why);
    }

    #[test]
    fn names_of_rows_begin_as_told() {
        for (begin, run) in TABLES {
            let names = names(run);
            let begins = |name: &String| begin.iter().any(|word| name.starts_with(word));
            assert!(names.iter().all(begins), "{begin:?}: {names:?}");
            let is_met = |word: &&str| names.iter().any(|name| name.starts_with(word));
            assert!(begin.iter().all(is_met), "{begin:?}: {names:?}");
        }
    }
}
