//! The build script, compiled and run in folders that are made up: where it finds the archive, and what it
//! says if it does not.

use std::fs;
use std::path::{Path, PathBuf};
use std::process::Command;

/// What it prints for a crate in this folder, with this variable.
fn said(script: &Path, manifest_dir: &Path, archive_dir: Option<&str>) -> String {
    let mut run = Command::new(script);
    run.env_remove("EVC_INTER_ARCHIVE_DIR");
    run.envs(archive_dir.map(|dir| ("EVC_INTER_ARCHIVE_DIR", dir)));
    run.env("CARGO_MANIFEST_DIR", manifest_dir)
        .env("CARGO_CFG_TARGET_ARCH", "x86_64")
        .env("CARGO_CFG_TARGET_OS", "linux")
        .env("CARGO_CFG_TARGET_POINTER_WIDTH", "64");
    let run = run.output().unwrap();
    assert!(run.status.success());
    String::from_utf8(run.stdout).unwrap()
}

fn made(folder: PathBuf) -> PathBuf {
    fs::create_dir_all(&folder).unwrap();
    folder
}

#[test]
fn archive() {
    let tmp = Path::new(env!("CARGO_TARGET_TMPDIR")).join("build_script");
    if tmp.exists() {
        fs::remove_dir_all(&tmp).unwrap(); // of a run before
    }
    let tmp = made(tmp).canonicalize().unwrap();
    let script = tmp.join("script");
    let rustc = std::env::var_os("RUSTC").unwrap_or("rustc".into());
    let source = concat!(env!("CARGO_MANIFEST_DIR"), "/build.rs");
    let mut rustc = Command::new(rustc);
    rustc.args(["--edition", "2021", source, "-o"]).arg(&script);
    assert!(rustc.status().unwrap().success());

    let repository = made(tmp.join("repository/rust/evc-inter"));
    made(tmp.join("repository/crates"));
    let installed = made(tmp.join("installed/share/evc_inter/evc-inter"));
    let (made_in, lib) = (
        made(tmp.join("repository/target/staticlib")),
        made(tmp.join("installed/lib")),
    );
    let error = |manifest_dir, archive_dir| {
        let said = said(&script, manifest_dir, archive_dir);
        assert!(!said.contains("cargo::rustc-link"), "{said}");
        let error = said
            .lines()
            .find_map(|line| line.strip_prefix("cargo::error="));
        error.unwrap_or_else(|| panic!("{said}")).to_string()
    };
    let missing = |dir: &Path| format!("no libevc_inter.a in {}: ", dir.display());

    // Without an archive: what can be done there comes first.
    let text = error(&repository, None);
    let ways = text
        .strip_prefix(&missing(&made_in))
        .unwrap_or_else(|| panic!("{text}"));
    assert!(ways.starts_with("run `rust/archive`"), "{ways}");
    assert!(ways.contains("EVC_INTER_ARCHIVE_DIR"), "{ways}");
    for variable in [None, Some("")] {
        let text = error(&installed, variable);
        let ways = text
            .strip_prefix(&missing(&lib))
            .unwrap_or_else(|| panic!("{text}"));
        assert!(ways.starts_with("set EVC_INTER_ARCHIVE_DIR"), "{ways}");
        assert!(!text.contains(".."), "{text}");
    }
    let empty = made(tmp.join("empty"));
    let text = error(&installed, empty.to_str());
    assert!(text.starts_with(&missing(&empty)), "{text}");
    for relative in ["lib", "./lib", "../lib"] {
        let text = error(&installed, Some(relative));
        let want = format!("EVC_INTER_ARCHIVE_DIR is {relative}, which is not an absolute path");
        assert_eq!(text, want);
    }

    // With one.
    let other = made(tmp.join("other"));
    for dir in [&made_in, &lib, &other] {
        fs::write(dir.join("libevc_inter.a"), "").unwrap();
    }
    for (manifest_dir, archive_dir, dir) in [
        (&repository, None, &made_in),
        (&repository, Some(""), &made_in),
        (&installed, None, &lib),
        (&installed, Some(""), &lib),
        (&installed, other.to_str(), &other),
    ] {
        let said = said(&script, manifest_dir, archive_dir);
        let search = format!("cargo::rustc-link-search=native={}", dir.display());
        assert!(said.lines().any(|line| line == search), "{said}");
        assert!(!said.contains("cargo::error"), "{said}");
    }
}
