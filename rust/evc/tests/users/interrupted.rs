//! A run that is ended from outside leaves nothing half-written.

use crate::clip::Clip;
use crate::tool::{wait_for, Folder};
use std::ffi::c_int;
use std::fs;
use std::io::Write;
use std::os::unix::process::{CommandExt, ExitStatusExt};
use std::process::{Child, ChildStdin, Stdio};

const SIGHUP: c_int = 1;
const SIGINT: c_int = 2;
const SIGTERM: c_int = 15;

const SIG_DFL: usize = 0;
const SIG_IGN: usize = 1;

extern "C" {
    fn kill(pid: c_int, signum: c_int) -> c_int;
    fn signal(signum: c_int, handler: usize) -> usize;
}

/// The tool in the midst of a clip from standard input.
struct Running {
    folder: Folder,
    clip: Clip,
    child: Child,
    stdin: ChildStdin,
}

impl Running {
    /// Starts to turn a clip, under a shell that leaves the signal as `handler` says, and waits until
    /// some of it is in the temporary file.
    fn new(signum: c_int, handler: usize, before: Option<&str>) -> Running {
        let folder = Folder::new();
        if let Some(before) = before {
            folder.write("turned.y4m", before);
        }
        // A frame is longer than what a writer holds back.
        let clip = Clip::moving((96, 64), (3, 2), 2);
        let mut command = folder.command("flip - --out turned.y4m");
        // SAFETY: it may be called between fork and exec.
        unsafe {
            command.pre_exec(move || {
                signal(signum, handler);
                Ok(())
            })
        };
        let mut child = command
            .stdin(Stdio::piped())
            .stdout(Stdio::null())
            .spawn()
            .unwrap();
        let mut stdin = child.stdin.take().unwrap();
        stdin.write_all(&clip.only(0).bytes()).unwrap();
        wait_for("a temporary file", || {
            let mut names = folder.names(".").into_iter();
            let name = names.find(|name| name.ends_with(".part"))?;
            let there = fs::metadata(folder.path(&name)).ok()?;
            (there.len() > 0).then_some(())
        });
        Running {
            folder,
            clip,
            child,
            stdin,
        }
    }

    fn send(&self, signum: c_int) {
        // SAFETY: the child has not been waited for, so the number is its own.
        assert_eq!(unsafe { kill(self.child.id() as c_int, signum) }, 0);
    }
}

/// Ended by the signal itself, without a file of its own, and with the old one as it was.
fn leaves_nothing(signum: c_int) {
    for before in [None, Some("as it was")] {
        let mut running = Running::new(signum, SIG_DFL, before);
        running.send(signum);
        let status = wait_for("its end", || running.child.try_wait().unwrap());
        assert_eq!(status.signal(), Some(signum));
        match before {
            None => assert!(running.folder.names(".").is_empty()),
            Some(before) => {
                assert_eq!(running.folder.names("."), ["turned.y4m"]);
                assert_eq!(running.folder.read("turned.y4m"), before.as_bytes());
            }
        }
        drop(running.stdin); // which was open to the end
    }
}

#[test]
fn by_the_keyboard() {
    leaves_nothing(SIGINT);
}

#[test]
fn by_the_system() {
    leaves_nothing(SIGTERM);
}

#[test]
fn by_a_closed_terminal() {
    leaves_nothing(SIGHUP);
}

/// Under nohup a run outlives its terminal.
#[test]
fn overnight() {
    let mut running = Running::new(SIGHUP, SIG_IGN, None);
    running.send(SIGHUP);
    let bytes = running.clip.bytes();
    let rest = &bytes[running.clip.only(0).bytes().len()..];
    let _ = running.stdin.write_all(rest); // which nobody reads if it has ended
    drop(running.stdin);
    let status = running.child.wait().unwrap();
    assert_eq!(status.code(), Some(0), "{status}");
    let turned = running.folder.clip("turned.y4m");
    assert!(turned.frames == running.clip.turned("left-right").frames);
    assert_eq!(running.folder.names("."), ["turned.y4m"]);
}
