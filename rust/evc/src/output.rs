//! Files that are written: under a temporary name first, so that nothing stands half-written under
//! its own, and never over an input.

use crate::report::{Failure, Result};
use std::cell::RefCell;
use std::ffi::{c_char, c_int, CString};
use std::fs::{self, File};
use std::io::{self, BufWriter};
use std::os::unix::ffi::OsStrExt;
use std::os::unix::fs::MetadataExt;
use std::path::{Path, PathBuf};
use std::ptr::null_mut;
use std::sync::atomic::{AtomicPtr, Ordering::SeqCst};

/// The temporary name that is being written to, if there is one: an interrupted run takes it away.
static UNFINISHED: AtomicPtr<c_char> = AtomicPtr::new(null_mut());

const SIGHUP: c_int = 1;
const SIGINT: c_int = 2;
const SIGTERM: c_int = 15;
const SIG_DFL: usize = 0;
const SIG_IGN: usize = 1;

extern "C" {
    fn signal(signum: c_int, handler: usize) -> usize;
    fn raise(signum: c_int) -> c_int;
    fn unlink(path: *const c_char) -> c_int;
}

/// Ends the run by the same signal, so that whoever started it sees why.
extern "C" fn interrupted(signum: c_int) {
    let path = UNFINISHED.load(SeqCst);
    // SAFETY: these may be called while a signal is handled; a path is set while it is alive.
    unsafe {
        if !path.is_null() {
            unlink(path);
        }
        signal(signum, SIG_DFL);
        raise(signum);
    }
}

/// From here on an interrupted run leaves no temporary file.
pub fn tidy_when_interrupted() {
    for signum in [SIGHUP, SIGINT, SIGTERM] {
        // SAFETY: the handler is a function for the whole run.
        unsafe {
            // What is ignored stays so: a run under nohup outlives its terminal.
            if signal(signum, SIG_IGN) != SIG_IGN {
                signal(signum, interrupted as extern "C" fn(c_int) as usize);
            }
        }
    }
}

/// A temporary file, gone when dropped, but for one that was renamed.
struct Temporary {
    path: PathBuf,
    name: *mut c_char,
}

impl Temporary {
    fn new(beside: &Path) -> io::Result<(Temporary, File)> {
        let path = beside.with_file_name(format!(".evc.{}.part", std::process::id()));
        let name = CString::new(path.as_os_str().as_bytes())?.into_raw();
        UNFINISHED.store(name, SeqCst);
        let temporary = Temporary { path, name };
        let file = File::create(&temporary.path)?;
        Ok((temporary, file))
    }
}

impl Drop for Temporary {
    fn drop(&mut self) {
        let _ = fs::remove_file(&self.path); // gone already if it was renamed
        UNFINISHED.store(null_mut(), SeqCst);
        // SAFETY: made by `into_raw`, and given back once.
        drop(unsafe { CString::from_raw(self.name) });
    }
}

/// A file as the system tells them apart, whatever its name.
fn identity(path: &Path) -> Option<(u64, u64)> {
    let file = fs::metadata(path).ok()?;
    Some((file.dev(), file.ino()))
}

/// The files that a run reads, which it must not write to, and those that it has written.
#[derive(Default)]
pub struct Files {
    inputs: Vec<(u64, u64)>,
    written: RefCell<Vec<(u64, u64)>>,
}

impl Files {
    /// `-` is standard input, which may be a file too.
    pub fn new<'a>(inputs: impl IntoIterator<Item = &'a PathBuf>) -> Files {
        let identity = |path: &PathBuf| match path == Path::new("-") {
            true => identity(Path::new("/dev/stdin")),
            false => identity(path),
        };
        Files {
            inputs: inputs.into_iter().filter_map(identity).collect(),
            written: RefCell::default(),
        }
    }

    /// Where a file is written: what a symbolic link leads to, no input, and nothing but a file.
    fn place(&self, path: &Path) -> Result<PathBuf> {
        let is_among =
            |files: &[(u64, u64)]| identity(path).is_some_and(|file| files.contains(&file));
        if is_among(&self.inputs) {
            return Err(not_written(path, "it is an input"));
        }
        if is_among(&self.written.borrow()) {
            return Err(not_written(path, "it was written just now"));
        }
        if fs::metadata(path).is_ok_and(|there| !there.is_file()) {
            return Err(not_written(path, "something else than a file is there"));
        }
        Ok(fs::canonicalize(path).unwrap_or(path.into()))
    }

    /// Writes a file whole, or leaves what was there.
    pub fn write(
        &self,
        path: &Path,
        with: impl FnOnce(&mut BufWriter<File>) -> io::Result<()>,
    ) -> Result<()> {
        let place = self.place(path)?;
        let written = Temporary::new(&place).and_then(|(temporary, file)| {
            let mut file = BufWriter::new(file);
            with(&mut file)?;
            file.into_inner()?.sync_all()?;
            fs::rename(&temporary.path, &place)
        });
        written.map_err(|e| not_written(path, e))?;
        self.written.borrow_mut().extend(identity(&place));
        Ok(())
    }

    /// Tries that a file can be made there, before the work begins; `path` is left as it is.
    pub fn try_file(&self, path: &Path) -> Result<()> {
        let tried = Temporary::new(&self.place(path)?).map(drop);
        tried.map_err(|e| not_written(path, e))
    }

    /// Makes a folder, and tries that files can be made in it.
    pub fn try_folder(&self, path: &Path) -> Result<()> {
        fs::create_dir_all(path).map_err(|e| not_written(path, e))?;
        let tried = Temporary::new(&path.join("evc")).map(drop);
        tried.map_err(|e| not_written(path, e))
    }
}

fn not_written(path: &Path, why: impl std::fmt::Display) -> Failure {
    Failure::File(format!("{}: not written: {why}", path.display()))
}

/// A folder of a test's own.
#[cfg(test)]
pub fn test_folder(name: &str) -> PathBuf {
    let folder = std::env::temp_dir().join(format!("evc-{name}-{}", std::process::id()));
    let _ = fs::remove_dir_all(&folder);
    fs::create_dir_all(&folder).unwrap();
    folder
}

#[cfg(test)]
mod tests {
    use super::*;
    use std::io::Write;

    fn names(folder: &Path) -> Vec<String> {
        let entries = fs::read_dir(folder).unwrap();
        let mut names: Vec<_> = entries
            .map(|entry| entry.unwrap().file_name().into_string().unwrap())
            .collect();
        names.sort();
        names
    }

    /// One test, since a process has one unfinished file at a time.
    #[test]
    fn whole_or_not_at_all() {
        let folder = test_folder("output");
        let path = folder.join("picture");
        let first = Files::default();
        first.write(&path, |file| file.write_all(b"old")).unwrap();
        assert_eq!(fs::read(&path).unwrap(), b"old");
        assert_eq!(names(&folder), ["picture"]);

        // A second time in one run is a mistake of its words.
        let again = first.write(&path, |file| file.write_all(b"new"));
        assert!(matches!(again, Err(Failure::File(said)) if said.contains("written just now")));

        let none = Files::default();
        let full = none.write(&path, |file| {
            file.write_all(b"new")?;
            file.flush()?;
            assert_eq!(names(&folder).len(), 2); // under another name
            Err(io::Error::from(io::ErrorKind::StorageFull))
        });
        let Err(Failure::File(said)) = full else {
            panic!("it was written")
        };
        assert!(said.contains("picture: not written: "), "{said}");
        assert_eq!(fs::read(&path).unwrap(), b"old");
        assert_eq!(names(&folder), ["picture"]);

        // An input, also by another of its names.
        let other = folder.join("link");
        std::os::unix::fs::symlink(&path, &other).unwrap();
        let inputs = Files::new([&path]);
        for path in [&path, &other] {
            let said = inputs.write(path, |file| file.write_all(b"new"));
            assert!(matches!(said, Err(Failure::File(said)) if said.contains("it is an input")));
            assert!(inputs.try_file(path).is_err());
        }
        assert_eq!(fs::read(&path).unwrap(), b"old");

        // A link is followed, and a device is no file to be replaced.
        none.write(&other, |file| file.write_all(b"by the link"))
            .unwrap();
        assert_eq!(fs::read(&path).unwrap(), b"by the link");
        assert!(other.is_symlink());
        let null = Path::new("/dev/null");
        assert!(none.write(null, |_| Ok(())).is_err() && none.try_file(null).is_err());

        none.try_file(&folder.join("new")).unwrap();
        none.try_folder(&folder.join("a/b")).unwrap();
        assert_eq!(names(&folder), ["a", "link", "picture"]);
        assert!(names(&folder.join("a/b")).is_empty());
        assert!(none.try_folder(&path).is_err()); // a file
        assert!(none.try_file(&folder.join("a")).is_err());
        assert!(none.try_file(&folder.join("no/such/picture")).is_err());
        fs::remove_dir_all(&folder).unwrap();
    }
}
