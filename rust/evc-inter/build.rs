//! Finds the archive of the proved calls, or says what is in the way.

use std::path::{Path, PathBuf};
use std::time::SystemTime;
use std::{env, fs};

const ARCHIVE: &str = "libevc_inter.a";
const VARIABLE: &str = "EVC_INTER_ARCHIVE_DIR";
const MAKE: &str = "run `rust/archive` at the root of the repository";

/// What the archive is made for, as Cargo names it.
const MADE_FOR: [(&str, &str); 3] = [
    ("CARGO_CFG_TARGET_ARCH", "x86_64"),
    ("CARGO_CFG_TARGET_OS", "linux"),
    ("CARGO_CFG_TARGET_POINTER_WIDTH", "64"),
];

fn main() {
    println!("cargo::rerun-if-env-changed={VARIABLE}");
    if MADE_FOR.iter().any(|(name, want)| var(name) != *want) {
        println!(
            "cargo::error={ARCHIVE} is made for x86-64 Linux with pointers of 64 bits, not for {}",
            var("TARGET")
        );
        return;
    }
    let root = root();
    let given = env::var_os(VARIABLE).filter(|dir| !dir.is_empty());
    let is_own = given.is_none();
    let dir = given.map_or_else(|| own_dir(&root), PathBuf::from);
    if !dir.is_absolute() {
        println!(
            "cargo::error={VARIABLE} is {}, which is not an absolute path",
            dir.display()
        );
        return;
    }
    let archive = dir.join(ARCHIVE);
    println!("cargo::rerun-if-changed={}", archive.display());
    if !archive.exists() {
        println!(
            "cargo::error=no {ARCHIVE} in {}: {}",
            dir.display(),
            ways(&root)
        );
        return;
    }
    if is_own {
        warn_if_stale(&archive, &root);
    }
    println!("cargo::rustc-link-search=native={}", dir.display());
    println!("cargo::rustc-link-lib=static=evc_inter");
}

fn var(name: &str) -> String {
    env::var(name).unwrap_or_default()
}

/// Two folders above the crate: the repository, or `share` where `evc install` has put the crate. It is
/// shown in messages, so it has no `..` inside.
fn root() -> PathBuf {
    let root = Path::new(&var("CARGO_MANIFEST_DIR")).join("../..");
    root.canonicalize().unwrap_or(root)
}

/// Where the archive is if nobody says: in the repository, or where `evc install` has put it with the crate.
fn own_dir(root: &Path) -> PathBuf {
    let made = root.join("target/staticlib");
    if made.exists() || root.join("crates").exists() {
        made
    } else {
        root.parent().unwrap_or(root).join("lib")
    }
}

/// What to do without an archive: a crate that is not in the repository cannot have one made.
fn ways(root: &Path) -> String {
    if root.join("crates").exists() {
        format!("{MAKE}, or set {VARIABLE} to the folder that has it, as an absolute path")
    } else {
        format!("set {VARIABLE} to the folder that has it, as an absolute path, or {MAKE}")
    }
}

/// The sources beside the repository's own archive may have changed since it was made.
fn warn_if_stale(archive: &Path, root: &Path) {
    let crates = root.join("crates");
    if !crates.is_dir() {
        return;
    }
    for source in sources(&crates).chain([root.join("crates.txt")]) {
        println!("cargo::rerun-if-changed={}", source.display());
    }
    let made = fs::metadata(archive).and_then(|archive| archive.modified());
    if let Some(source) = made
        .ok()
        .and_then(|made| sources(&crates).find_map(|it| newer_source(&it, made)))
    {
        let source = source.strip_prefix(&crates).unwrap_or(&source);
        println!(
            "cargo::warning={ARCHIVE} is stale: crates/{} is newer; {MAKE} to make it again",
            source.display()
        );
    }
}

/// The folders of a crate that it is made from. Beside them `out` has what `rt` keeps, copies of sources among it.
fn sources(crates: &Path) -> impl Iterator<Item = PathBuf> {
    let crates = fs::read_dir(crates).into_iter().flatten().flatten();
    crates
        .flat_map(|it| ["src", "specs", "proofs"].map(|part| it.path().join(part)))
        .filter(|it| it.is_dir())
}

/// A source in this folder that is newer than the archive, if there is one.
fn newer_source(folder: &Path, made: SystemTime) -> Option<PathBuf> {
    fs::read_dir(folder).ok()?.flatten().find_map(|entry| {
        let (path, entry) = (entry.path(), entry.metadata().ok()?);
        if entry.is_dir() {
            return newer_source(&path, made);
        }
        let kind = path.extension()?;
        let is_newer = (kind == "rt" || kind == "antt") && entry.modified().ok()? > made;
        is_newer.then_some(path)
    })
}
