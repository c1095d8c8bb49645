//! The words of a command line, against what a subcommand takes.

use crate::commands::Command;
use std::ffi::{OsStr, OsString};
use std::os::unix::ffi::OsStrExt;
use std::path::PathBuf;
use std::str::FromStr;

/// What an option has behind it.
#[derive(Clone, Copy, Debug, PartialEq)]
pub enum Value {
    Nothing,
    /// `--out DIR` or `--out=DIR`.
    Wanted(&'static str),
    /// `--flip` or `--flip=WAY`.
    Optional(&'static str),
}

/// An option of a subcommand, with its line of the help.
#[derive(Debug)]
pub struct Opt {
    pub name: &'static str,
    pub value: Value,
    pub text: &'static str,
}

/// What was given to a subcommand.
#[derive(Debug, Default)]
pub struct Given {
    options: Vec<(&'static str, Option<OsString>)>,
    /// What is no option: files, mostly.
    pub words: Vec<OsString>,
}

impl Given {
    /// The words against the options of a subcommand; none if help is asked for.
    pub fn read(
        command: &Command,
        words: impl IntoIterator<Item = OsString>,
    ) -> Result<Option<Given>, String> {
        let mut words = words.into_iter();
        let mut given = Given::default();
        while let Some(word) = words.next() {
            let bytes = word.as_bytes();
            if word == "--" {
                given.words.extend(words);
                break;
            }
            if word == "-h" || word == "--help" {
                return Ok(None);
            }
            if !bytes.starts_with(b"-") || word == "-" {
                given.words.push(word);
                continue;
            }
            let equals = bytes.iter().position(|byte| *byte == b'=');
            let (name, inside) = match equals {
                Some(at) => (&bytes[..at], Some(OsStr::from_bytes(&bytes[at + 1..]))),
                None => (bytes, None),
            };
            let name = String::from_utf8_lossy(name);
            let Some(opt) = command.options.iter().find(|opt| opt.name == name) else {
                return Err(format!("no such option: {name}"));
            };
            if given.has(opt.name) {
                return Err(format!("{name} is given twice"));
            }
            let value = match (opt.value, inside) {
                (Value::Nothing, Some(_)) => return Err(format!("{name} takes nothing behind it")),
                (Value::Nothing, None) | (Value::Optional(_), None) => None,
                (Value::Optional(_) | Value::Wanted(_), Some(inside)) => Some(inside.into()),
                (Value::Wanted(what), None) => match words.next() {
                    Some(next) => Some(next),
                    None => return Err(format!("{name} needs {what} behind it")),
                },
            };
            given.options.push((opt.name, value));
        }
        Ok(Some(given))
    }

    pub fn has(&self, name: &str) -> bool {
        self.options.iter().any(|(option, _)| *option == name)
    }

    fn value(&self, name: &str) -> Option<&OsStr> {
        let (_, value) = self.options.iter().find(|(option, _)| *option == name)?;
        value.as_deref()
    }

    pub fn path(&self, name: &str) -> Option<PathBuf> {
        self.value(name).map(PathBuf::from)
    }

    /// The file that an option has to name.
    pub fn wanted_path(&self, name: &str) -> Result<PathBuf, String> {
        self.path(name).ok_or(format!("{name} is needed"))
    }

    /// A file or folder that is written; standard output is for notes.
    pub fn output(&self, name: &str) -> Result<Option<PathBuf>, String> {
        let path = self.path(name);
        match path.as_ref().and_then(|path| path.to_str()) {
            Some("" | "-") => Err(format!("{name} needs a name")),
            _ => Ok(path),
        }
    }

    pub fn wanted_output(&self, name: &str) -> Result<PathBuf, String> {
        self.output(name)?.ok_or(format!("{name} is needed"))
    }

    /// That there is nothing but options.
    pub fn no_words(&self) -> Result<(), String> {
        match self.words.first() {
            Some(word) => Err(format!("takes nothing, not '{}'", word.to_string_lossy())),
            None => Ok(()),
        }
    }

    /// The value of an option, if it is given; `what` says what it should be, with an example.
    pub fn number<T: FromStr>(&self, name: &str, what: &str) -> Result<Option<T>, String> {
        let parsed = |value: &OsStr| {
            let number = value.to_str().and_then(|value| value.parse().ok());
            number.ok_or(format!(
                "{name} needs {what}, not '{}'",
                value.to_string_lossy()
            ))
        };
        self.value(name).map(parsed).transpose()
    }

    /// A size, as 416x240.
    pub fn size(&self, name: &str) -> Result<Option<(u32, u32)>, String> {
        let sides = |value: &OsStr| {
            let (w, h) = value.to_str()?.split_once(['x', 'X'])?;
            Some((w.parse().ok()?, h.parse().ok()?))
        };
        let parsed = |value: &OsStr| {
            let shown = value.to_string_lossy();
            sides(value).ok_or(format!("{name} needs WxH, as 416x240, not '{shown}'"))
        };
        self.value(name).map(parsed).transpose()
    }

    /// One of some words; the first of them where the option stands alone.
    pub fn one_of<T: Copy>(&self, name: &str, words: &[(&str, T)]) -> Result<Option<T>, String> {
        if !self.has(name) {
            return Ok(None);
        }
        let Some(value) = self.value(name) else {
            return Ok(Some(words[0].1));
        };
        let found = words.iter().find(|(word, _)| value == *word);
        let names: Vec<_> = words.iter().map(|(word, _)| *word).collect();
        let (_, one) = found.ok_or(format!("{name} needs {}", names.join(" or ")))?;
        Ok(Some(*one))
    }

    /// The words as files.
    pub fn files(&self) -> Vec<PathBuf> {
        self.words.iter().map(PathBuf::from).collect()
    }
}

#[cfg(test)]
mod tests {
    use super::*;
    use crate::commands::command;

    fn read(line: &str) -> Result<Option<Given>, String> {
        let (name, words) = line.split_once(' ').unwrap_or((line, ""));
        let words = words.split_whitespace().map(OsString::from);
        Given::read(command(name).unwrap(), words)
    }

    fn taken(line: &str) -> Given {
        read(line).unwrap().unwrap()
    }

    #[test]
    fn as_people_type_them() {
        for line in ["predict --size 64x32", "predict --size=64x32"] {
            assert_eq!(taken(line).size("--size"), Ok(Some((64, 32))));
        }
        let given = taken("predict a.y4m --frame=3 -- --odd.y4m -");
        assert_eq!(given.number("--frame", "a frame"), Ok(Some(3)));
        assert_eq!(given.words, ["a.y4m", "--odd.y4m", "-"]);
        assert_eq!(
            taken("replay t --out=a=b").path("--out"),
            Some("a=b".into())
        );
        assert!(!taken("predict").has("--json"));
        assert_eq!(taken("predict").size("--size"), Ok(None));
        let ways = [("left-right", 0), ("top-bottom", 1)];
        for (line, way) in [
            ("predict", None),
            ("predict --flip", Some(0)),
            ("predict --flip=top-bottom", Some(1)),
        ] {
            assert_eq!(taken(line).one_of("--flip", &ways), Ok(way));
        }
        for help in ["predict -h", "replay --help", "predict --size 1x1 --help"] {
            assert!(read(help).unwrap().is_none());
        }
    }

    #[test]
    fn said_in_one_line() {
        for (line, want) in [
            ("predict --out", "--out needs DIR behind it"),
            ("predict --sizes 64x64", "no such option: --sizes"),
            ("predict -x", "no such option: -x"),
            ("predict --json=yes", "--json takes nothing behind it"),
            ("predict --out a --out b", "--out is given twice"),
        ] {
            assert_eq!(read(line).unwrap_err(), want);
        }
        for (size, want) in [("64", "'64'"), ("64x-4", "'64x-4'"), ("x", "'x'")] {
            let said = taken(&format!("predict --size {size}")).size("--size");
            let said = said.unwrap_err();
            assert!(said.contains("needs WxH") && said.ends_with(want), "{said}");
        }
        let given = taken("predict --frame ten --flip=round");
        let said = given
            .number::<u64>("--frame", "a frame, as 12")
            .unwrap_err();
        assert_eq!(said, "--frame needs a frame, as 12, not 'ten'");
        let ways = [("left-right", 0), ("top-bottom", 1)];
        let said = given.one_of("--flip", &ways).unwrap_err();
        assert_eq!(said, "--flip needs left-right or top-bottom");
        let said = given.wanted_path("--out").unwrap_err();
        assert_eq!(said, "--out is needed");
    }
}
