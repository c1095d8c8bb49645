//! Starts the tool, in a folder of the test's own.

use crate::clip::Clip;
use crate::json::Line;
use std::env;
use std::fs;
use std::io::{ErrorKind, Write};
use std::path::{Path, PathBuf};
use std::process::{Command, Output, Stdio};
use std::sync::atomic::{AtomicU32, Ordering::Relaxed};
use std::thread::sleep;
use std::time::{Duration, Instant};

const EVC: &str = env!("CARGO_BIN_EXE_evc");

/// Far more than anything here takes.
const PATIENCE: Duration = Duration::from_secs(60);

/// Waits until something is there.
#[track_caller]
pub fn wait_for<T>(what: &str, mut look: impl FnMut() -> Option<T>) -> T {
    let end = Instant::now() + PATIENCE;
    loop {
        if let Some(found) = look() {
            return found;
        }
        assert!(Instant::now() < end, "waited in vain for {what}");
        sleep(Duration::from_millis(5));
    }
}

/// How many folders have been made.
static MADE: AtomicU32 = AtomicU32::new(0);

/// A folder that is removed when its test ends.
pub struct Folder(PathBuf);

impl Drop for Folder {
    fn drop(&mut self) {
        let _ = fs::remove_dir_all(&self.0);
    }
}

impl Folder {
    pub fn new() -> Folder {
        loop {
            let n = MADE.fetch_add(1, Relaxed);
            let path = env::temp_dir().join(format!("evc-users-{}-{n}", std::process::id()));
            match fs::create_dir(&path) {
                Ok(()) => return Folder(path),
                Err(e) => assert_eq!(e.kind(), ErrorKind::AlreadyExists, "{path:?}"),
            }
        }
    }

    pub fn path(&self, name: &str) -> PathBuf {
        self.0.join(name)
    }

    pub fn write(&self, name: &str, bytes: impl AsRef<[u8]>) {
        let path = self.path(name);
        fs::create_dir_all(path.parent().unwrap()).unwrap();
        fs::write(path, bytes).unwrap();
    }

    #[track_caller]
    pub fn read(&self, name: &str) -> Vec<u8> {
        fs::read(self.path(name)).unwrap_or_else(|e| panic!("{name}: {e}"))
    }

    #[track_caller]
    pub fn clip(&self, name: &str) -> Clip {
        Clip::read(&self.read(name))
    }

    /// What is in a folder of it, hidden files too, in order.
    #[track_caller]
    pub fn names(&self, name: &str) -> Vec<String> {
        let entries = fs::read_dir(self.path(name)).unwrap_or_else(|e| panic!("{name}: {e}"));
        let mut names: Vec<_> = entries
            .map(|entry| entry.unwrap().file_name().into_string().unwrap())
            .collect();
        names.sort();
        names
    }

    /// The tool, with words that have no blanks in them.
    pub fn command(&self, line: &str) -> Command {
        let mut command = Command::new(EVC);
        command.current_dir(&self.0).args(line.split_whitespace());
        command
    }

    pub fn evc(&self, line: &str) -> Run {
        Run::of(&mut self.command(line))
    }

    /// A line as a person pastes it, with the tool on the path.
    pub fn shell(&self, line: &str) -> Run {
        let mut path = Path::new(EVC).parent().unwrap().as_os_str().to_owned();
        path.push(":");
        path.push(env::var_os("PATH").unwrap_or_default());
        let mut sh = Command::new("sh");
        sh.args(["-c", line]).current_dir(&self.0).env("PATH", path);
        Run::of(&mut sh)
    }
}

/// What became of a run.
#[derive(Debug)]
pub struct Run {
    /// None if a signal ended it.
    pub code: Option<i32>,
    pub out: String,
    pub err: String,
}

impl From<Output> for Run {
    fn from(output: Output) -> Run {
        Run {
            code: output.status.code(),
            out: String::from_utf8(output.stdout).unwrap(),
            err: String::from_utf8(output.stderr).unwrap(),
        }
    }
}

impl Run {
    /// Standard input is empty.
    #[track_caller]
    pub fn of(command: &mut Command) -> Run {
        command.output().unwrap().into()
    }

    /// With standard input from a pipe.
    pub fn fed(command: &mut Command, bytes: &[u8]) -> Run {
        let pipes = command.stdin(Stdio::piped()).stdout(Stdio::piped());
        let mut child = pipes.stderr(Stdio::piped()).spawn().unwrap();
        // What the tool has no use for it does not read.
        let _ = child.stdin.take().unwrap().write_all(bytes);
        child.wait_with_output().unwrap().into()
    }

    /// With a standard input that nothing ever comes from: it ends only if it does not wait for it.
    #[track_caller]
    pub fn unfed(command: &mut Command) -> Run {
        let pipes = command.stdin(Stdio::piped()).stdout(Stdio::piped());
        let mut child = pipes.stderr(Stdio::piped()).spawn().unwrap();
        let stdin = child.stdin.take();
        wait_for("its end", || child.try_wait().unwrap());
        drop(stdin);
        child.wait_with_output().unwrap().into()
    }

    #[track_caller]
    pub fn exits(self, code: i32) -> Run {
        assert_eq!(self.code, Some(code), "{self:?}");
        self
    }

    /// Done, and quiet in a pipe.
    #[track_caller]
    pub fn done(self) -> Run {
        assert_eq!(self.err, "");
        self.exits(0)
    }

    /// What stands behind this in the only line that has it.
    #[track_caller]
    pub fn behind(&self, start: &str) -> &str {
        let mut found = self.out.lines().filter_map(|line| line.split_once(start));
        let (_, rest) = found
            .next()
            .unwrap_or_else(|| panic!("no '{start}': {self:?}"));
        assert!(found.next().is_none(), "'{start}' twice: {self:?}");
        rest
    }

    /// The one line that is said of the one item, which failed.
    #[track_caller]
    pub fn note(&self) -> &str {
        let lines: Vec<_> = self.err.lines().collect();
        assert_eq!(lines.len(), 1, "{self:?}");
        lines[0]
    }

    /// The lines of `--json`, beside which nothing is said.
    #[track_caller]
    pub fn json(&self) -> Vec<Line> {
        assert_eq!(self.err, "");
        assert!(self.out.ends_with('\n'), "{self:?}");
        self.out.lines().map(Line::read).collect()
    }

    /// The line of the one item.
    #[track_caller]
    pub fn json_line(&self) -> Line {
        let mut lines = self.json();
        assert_eq!(lines.len(), 1, "{self:?}");
        lines.remove(0)
    }
}
