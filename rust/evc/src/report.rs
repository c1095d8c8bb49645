//! What is said of an item, and how the run ends.

use crate::json::Json;
use evc_inter::Refusal;
use std::fmt::Display;
use std::io::{self, Write};
use std::path::PathBuf;
use std::process::ExitCode;

/// How a run ends, by its item that went worst.
#[derive(Clone, Copy, Debug, PartialEq, Eq, PartialOrd, Ord)]
pub enum Exit {
    Done = 0,
    Refused = 1,
    Usage = 2,
    File = 3,
    Disagrees = 4,
}

impl From<Exit> for ExitCode {
    fn from(exit: Exit) -> ExitCode {
        ExitCode::from(exit as u8)
    }
}

/// Why an item came to no end.
#[derive(Clone, Debug, PartialEq)]
pub enum Failure {
    /// A call refused; `place` says at what, `remedy` what can be done about it, if that is known.
    Refused {
        place: String,
        refusal: Refusal,
        remedy: Option<String>,
    },
    /// A file was not read or written, or is not what it should be.
    File(String),
}

impl Failure {
    /// A call's refusal at a place of the item.
    pub fn at(place: impl Display) -> impl FnOnce(Refusal) -> Failure {
        move |refusal| Failure::Refused {
            place: place.to_string(),
            refusal,
            remedy: None,
        }
    }
}

pub type Result<T> = std::result::Result<T, Failure>;

/// What becomes of an item: its note for the catalogue.
pub struct Outcome {
    pub exit: Exit,
    pub note: String,
    code: Option<u32>,
    place: Option<String>,
    facts: Vec<(&'static str, Json)>,
}

impl Outcome {
    pub fn done(note: impl Display) -> Outcome {
        Outcome {
            exit: Exit::Done,
            note: note.to_string(),
            code: Some(0),
            place: None,
            facts: Vec::new(),
        }
    }

    /// All calls were accepted, and yet something is not as it should be.
    pub fn disagrees(note: impl Display) -> Outcome {
        Outcome {
            exit: Exit::Disagrees,
            ..Outcome::done(note)
        }
    }

    pub fn refused(note: impl Display, place: impl Display, refusal: Refusal) -> Outcome {
        Outcome {
            exit: Exit::Refused,
            code: Some(refusal.number()),
            place: Some(place.to_string()),
            ..Outcome::done(note)
        }
    }

    /// One more field of its line of JSON.
    pub fn fact(mut self, name: &'static str, value: impl Into<Json>) -> Outcome {
        self.facts.push((name, value.into()));
        self
    }
}

impl From<Failure> for Outcome {
    fn from(failure: Failure) -> Outcome {
        match failure {
            Failure::Refused {
                place,
                refusal,
                remedy,
            } => {
                let remedy = remedy.map_or(String::new(), |remedy| format!("; {remedy}"));
                Outcome::refused(format!("{place}: {refusal}{remedy}"), place, refusal)
            }
            Failure::File(what) => Outcome {
                exit: Exit::File,
                code: None,
                ..Outcome::done(what)
            },
        }
    }
}

/// Where a run says things: sentences, or a line of JSON an item.
pub struct Console {
    json: bool,
    worst: Exit,
    /// Nothing more can be said on standard output.
    pub is_closed: bool,
}

impl Console {
    pub fn new(json: bool) -> Console {
        Console {
            json,
            worst: Exit::Done,
            is_closed: false,
        }
    }

    /// A line for a person.
    pub fn say(&mut self, line: impl Display) {
        if !self.json {
            self.out(line);
        }
    }

    /// That nobody reads on does not end the work; that a line could not be kept is an error, told once.
    fn out(&mut self, line: impl Display) {
        if self.is_closed {
            return;
        }
        if let Err(e) = writeln!(io::stdout(), "{line}") {
            self.is_closed = true;
            if e.kind() != io::ErrorKind::BrokenPipe {
                let _ = writeln!(io::stderr(), "evc: standard output: {e}");
                self.worst = self.worst.max(Exit::File);
            }
        }
    }

    /// The note of an item; the run goes on.
    pub fn item(&mut self, item: &str, outcome: Outcome) {
        let Outcome {
            exit,
            note,
            code,
            place,
            facts,
        } = outcome;
        self.worst = self.worst.max(exit);
        if self.json {
            let mut fields: Vec<(String, Json)> = vec![
                ("item".into(), item.into()),
                (
                    "code".into(),
                    code.map_or(Json::Null, |n| u64::from(n).into()),
                ),
                ("note".into(), Json::Text(note)),
                ("place".into(), place.map_or(Json::Null, Json::Text)),
            ];
            let facts = facts.into_iter();
            fields.extend(facts.map(|(name, value)| (name.into(), value)));
            self.out(Json::Object(fields));
        } else if exit == Exit::Done {
            self.out(printable(&format!("{item}: {note}")));
        } else {
            let _ = writeln!(
                io::stderr(),
                "evc: {}",
                printable(&format!("{item}: {note}"))
            );
        }
    }

    /// The same for all of them.
    pub fn items(&mut self, items: &[PathBuf], failure: &Failure) {
        for item in items {
            self.item(&item.display().to_string(), failure.clone().into());
        }
    }

    pub fn exit(&self) -> Exit {
        self.worst
    }
}

/// Without what a terminal would take for more than a sign: names of files may hold anything.
fn printable(text: &str) -> String {
    let shown = |c: char| if c.is_control() { '\u{fffd}' } else { c };
    text.chars().map(shown).collect()
}

/// `1 record`, `2 records`.
pub fn counted(n: u64, what: &str) -> String {
    match n {
        1 => format!("1 {what}"),
        n => format!("{n} {what}s"),
    }
}

#[test]
fn as_text() {
    assert_eq!(printable("a\x1b[31m\nb é"), "a\u{fffd}[31m\u{fffd}b é");
    assert_eq!(
        [0, 1, 2].map(|n| counted(n, "frame")),
        ["0 frames", "1 frame", "2 frames"]
    );
}
