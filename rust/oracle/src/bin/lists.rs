//! Writes the fixed lists into a directory: the inputs of the programs, and what they have to print. In each the calls
//! with the Rust's answers come first, then the refusals, which the Rust does not have and the documents (`model`)
//! answer.

use oracle::{
    camera_lists, mc2_lists, mc_lists, mv_clip_lists, pad_lists, replay_lists, slice_lists,
    util_lists,
};
use std::ffi::OsString;
use std::path::{Path, PathBuf};
use std::{env, fs, io, process};

const USAGE: &str = "\
usage: lists DIR

Writes NAME.records and NAME.answers of each list into DIR, which is made if it is not there.";

/// DIR; none where the usage is asked for.
fn dir(words: impl Iterator<Item = OsString>) -> Result<Option<PathBuf>, String> {
    let mut dir = None;
    for word in words {
        let told = word.to_string_lossy();
        if told == "--help" || told == "-h" {
            return Ok(None);
        }
        if told.starts_with('-') {
            return Err(format!("unknown option {told}"));
        }
        if dir.is_some() {
            return Err(format!("a second DIR: {told}"));
        }
        dir = Some(PathBuf::from(word));
    }
    dir.map(Some).ok_or("DIR is missing".to_string())
}

/// Records and answers.
type List = [Vec<u8>; 2];

fn one_behind_the_other(parts: &[List]) -> List {
    [0, 1].map(|k| parts.iter().flat_map(|part| part[k].clone()).collect())
}

fn write(dir: &Path) -> io::Result<()> {
    fs::create_dir_all(dir)?;
    let lists = [
        ("mv_clip", vec![mv_clip_lists::mv_clip()]),
        ("pad", vec![pad_lists::pad_list()]),
        ("util", vec![util_lists::accepted(), util_lists::bad()]),
        (
            "mc",
            vec![mc_lists::whole(), mc_lists::accepted(), mc_lists::bad()],
        ),
        ("mc2", vec![mc2_lists::accepted(), mc2_lists::bad()]),
        (
            "replay",
            vec![replay_lists::accepted(), replay_lists::bad()],
        ),
        ("camera", vec![camera_lists::camera()]),
        ("slice", vec![slice_lists::accepted(), slice_lists::bad()]),
    ];
    for (name, parts) in lists {
        let [records, answers] = one_behind_the_other(&parts);
        fs::write(dir.join(format!("{name}.records")), records)?;
        fs::write(dir.join(format!("{name}.answers")), answers)?;
    }
    Ok(())
}

fn main() {
    match dir(env::args_os().skip(1)) {
        Ok(None) => println!("{USAGE}"),
        Ok(Some(dir)) => {
            if let Err(why) = write(&dir) {
                eprintln!("lists: {}: {why}", dir.display());
                process::exit(1);
            }
        }
        Err(why) => {
            eprintln!("lists: {why}\n{USAGE}");
            process::exit(2);
        }
    }
}

#[cfg(test)]
mod tests {
    use super::*;

    fn of(words: &[&str]) -> Result<Option<PathBuf>, String> {
        dir(words.iter().map(OsString::from))
    }

    #[test]
    fn a_directory_the_usage_or_what_is_wrong() {
        assert_eq!(of(&["out"]), Ok(Some(PathBuf::from("out"))));
        assert_eq!(of(&["--help"]), Ok(None));
        assert_eq!(of(&["out", "-h"]), Ok(None));
        assert_eq!(of(&[]), Err("DIR is missing".to_string()));
        assert_eq!(of(&["--dir"]), Err("unknown option --dir".to_string()));
        assert_eq!(of(&["out", "more"]), Err("a second DIR: more".to_string()));
    }
}
