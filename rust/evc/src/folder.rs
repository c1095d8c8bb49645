//! The folder of an item's pictures.

use crate::output::Files;
use crate::png::{self, Image};
use crate::report::{Console, Result};
use crate::y4m::{self, Header};
use evc_inter::Picture;
use std::fs::{self, File};
use std::io::{self, BufWriter, Write};
use std::path::{Path, PathBuf};

pub struct Folder<'a> {
    files: &'a Files,
    pub path: PathBuf,
    names: Vec<String>,
    is_new: bool,
}

impl<'a> Folder<'a> {
    /// Makes the folder and tries that files can be made in it.
    pub fn new(files: &'a Files, path: PathBuf) -> Result<Folder<'a>> {
        let is_new = !path.exists();
        files.try_folder(&path)?;
        Ok(Folder {
            files,
            path,
            names: Vec::new(),
            is_new,
        })
    }

    pub fn write(
        &mut self,
        name: &str,
        with: impl FnOnce(&mut BufWriter<File>) -> io::Result<()>,
    ) -> Result<()> {
        self.files.write(&self.path.join(name), with)?;
        self.names.push(name.into());
        Ok(())
    }

    pub fn y4m(&mut self, name: &str, header: &Header, picture: &Picture) -> Result<()> {
        self.write(&format!("{name}.y4m"), |file| {
            y4m::write(file, header, picture)
        })
    }

    pub fn png(&mut self, name: &str, image: &Image) -> Result<()> {
        self.write(&format!("{name}.png"), |file| png::write(file, image))
    }

    /// Numbers low byte first, as `evc camera` and `--motion` read them.
    pub fn raw<const N: usize>(
        &mut self,
        name: &str,
        numbers: impl IntoIterator<Item = [u8; N]>,
    ) -> Result<()> {
        self.write(name, |file| {
            numbers
                .into_iter()
                .try_for_each(|bytes| file.write_all(&bytes))
        })
    }

    /// Says what was written.
    pub fn said(&self, console: &mut Console) {
        console.say(format!(
            "wrote in {}: {}",
            self.path.display(),
            self.names.join(", ")
        ));
    }
}

/// One that was made for nothing does not stay.
impl Drop for Folder<'_> {
    fn drop(&mut self) {
        if self.is_new && self.names.is_empty() {
            let _ = fs::remove_dir(&self.path); // which takes an empty one alone
        }
    }
}

/// A folder for each of some items, by their names without the ending, and what stands behind them;
/// equal ones get a number.
pub fn folders(out: &Path, items: &[PathBuf], behind: &str) -> Vec<PathBuf> {
    let mut folders: Vec<PathBuf> = Vec::new();
    for item in items {
        let stem = item.file_stem().unwrap_or_default();
        let name = match stem.to_string_lossy() {
            stem if stem.is_empty() || stem == "-" => format!("input{behind}"),
            stem if stem == "." || stem == ".." => format!("{stem}y4m{behind}"), // no folder above
            stem => format!("{stem}{behind}"),
        };
        let numbered = (2..).map(|n| out.join(format!("{name}-{n}")));
        let mut names = std::iter::once(out.join(&name)).chain(numbered);
        folders.extend(names.find(|name| !folders.contains(name)));
    }
    folders
}

#[test]
fn names() {
    let items = [
        "a/reel.y4m",
        "b/reel.y4m",
        "reel-2.y4m",
        "-",
        "reel",
        "...y4m",
        "..ipt",
    ];
    let items = items.map(PathBuf::from);
    let out = Path::new("out");
    let want = [
        "reel", "reel-2", "reel-2-2", "input", "reel-3", "..y4m", ".y4m",
    ];
    assert_eq!(folders(out, &items, ""), want.map(|name| out.join(name)));
    let want = ["reel-frame7", "reel-frame7-2"].map(|name| out.join(name));
    assert_eq!(folders(out, &items[..2], "-frame7"), want);
}
