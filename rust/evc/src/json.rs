//! One line of JSON an item.

use std::fmt;

pub enum Json {
    Null,
    Bool(bool),
    Number(f64),
    Text(String),
    Object(Vec<(String, Json)>),
}

impl From<&str> for Json {
    fn from(text: &str) -> Json {
        Json::Text(text.into())
    }
}

impl From<u64> for Json {
    fn from(n: u64) -> Json {
        Json::Number(n as f64) // counts of one run are far below 2^53
    }
}

impl fmt::Display for Json {
    fn fmt(&self, f: &mut fmt::Formatter<'_>) -> fmt::Result {
        match self {
            Json::Null => f.write_str("null"),
            Json::Bool(is) => write!(f, "{is}"),
            Json::Number(n) if n.is_finite() => write!(f, "{n}"),
            Json::Number(_) => f.write_str("null"), // JSON has no infinity
            Json::Text(text) => quoted(f, text),
            Json::Object(fields) => {
                for (k, (name, value)) in fields.iter().enumerate() {
                    f.write_str(if k == 0 { "{" } else { "," })?;
                    quoted(f, name)?;
                    write!(f, ":{value}")?;
                }
                f.write_str(if fields.is_empty() { "{}" } else { "}" })
            }
        }
    }
}

fn quoted(f: &mut fmt::Formatter<'_>, text: &str) -> fmt::Result {
    f.write_str("\"")?;
    for c in text.chars() {
        match c {
            '"' | '\\' => write!(f, "\\{c}")?,
            c if c < ' ' || c == '\x7f' => write!(f, "\\u{:04x}", c as u32)?,
            c => write!(f, "{c}")?,
        }
    }
    f.write_str("\"")
}

#[test]
fn one_line() {
    let object = Json::Object(vec![
        ("item".into(), "a \"reel\"\\\n\u{7f}, part é".into()),
        ("code".into(), 12.into()),
        ("mean".into(), Json::Number(-1.625)),
        ("psnr".into(), Json::Number(f64::INFINITY)),
        ("equal".into(), Json::Bool(true)),
        ("place".into(), Json::Null),
        ("more".into(), Json::Object(vec![])),
    ]);
    let want = r#"{"item":"a \"reel\"\\\u000a\u007f, part é","code":12,"mean":-1.625,"psnr":null,"#;
    let want = format!("{want}\"equal\":true,\"place\":null,\"more\":{{}}}}");
    assert_eq!(object.to_string(), want);
}
