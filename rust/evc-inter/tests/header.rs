//! A C caller reads what a Rust caller reads.

use evc_inter::{Moved, Refusal};

/// The header, with literals that stand beside each other as one, which they are in C.
fn header() -> String {
    let (mut header, mut quote) = (String::new(), "");
    for piece in include_str!("../../../include/evc_inter.h").split('"') {
        if piece.trim().is_empty() {
            quote = ""; // between two literals
            continue;
        }
        header += quote;
        header += piece;
        quote = "\"";
    }
    header
}

/// The header's version is the crate's.
#[test]
fn version() {
    let line = format!(
        "#define EVC_INTER_VERSION \"{}\"\n",
        env!("CARGO_PKG_VERSION")
    );
    assert!(header().contains(&line), "{line}");
}

/// Each message, without its number, is a text of `evc_message`.
#[test]
fn messages() {
    let header = header();
    for refusal in Refusal::ALL {
        let text = refusal.to_string();
        let (_, message) = text.split_once("): ").unwrap();
        assert!(header.contains(&format!("\"{message}\"")), "{message}");
    }
}

/// Each report is a text of `evc_moved_text`.
#[test]
fn reports() {
    let header = header();
    for moved in [Moved::Not, Moved::Low, Moved::High] {
        assert!(header.contains(&format!("return \"{moved}\";")), "{moved}");
    }
}
