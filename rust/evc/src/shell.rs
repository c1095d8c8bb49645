//! Names in lines that are pasted into a shell.

use std::path::Path;

/// A name as a shell takes it.
pub fn quoted(name: &Path) -> String {
    let name = name.display().to_string();
    let is_plain = |c: char| c.is_alphanumeric() || "_-./,+@%=".contains(c);
    match !name.is_empty() && name.chars().all(is_plain) {
        true => name,
        false => format!("'{}'", name.replace('\'', "'\\''")),
    }
}

/// The same for a program that may take the name for an option or an address.
pub fn quoted_file(name: &Path) -> String {
    let shown = name.to_string_lossy();
    match shown != "-" && (shown.starts_with('-') || shown.contains(':')) && name.is_relative() {
        true => quoted(&Path::new(".").join(name)),
        false => quoted(name),
    }
}

#[test]
fn names() {
    for (name, want) in [
        ("a/reel-7.y4m", "a/reel-7.y4m"),
        ("", "''"),
        ("reel 7", "'reel 7'"),
        ("it's", "'it'\\''s'"),
        ("~root", "'~root'"),
        ("-x", "./-x"),
        ("10:30", "'./10:30'"),
        ("-", "-"),
    ] {
        assert_eq!(quoted_file(Path::new(name)), want);
    }
    assert_eq!(quoted(Path::new("-x")), "-x");
}
