//! Reads what `--json` writes: an object a line, with nothing but words, numbers and texts in it.

#[derive(Clone, Debug, PartialEq)]
pub enum Value {
    Null,
    Bool(bool),
    Number(f64),
    Text(String),
}

#[derive(Debug)]
pub struct Line(Vec<(String, Value)>);

impl Line {
    /// Fails unless it is JSON from end to end.
    #[track_caller]
    pub fn read(line: &str) -> Line {
        Line(whole(line).unwrap_or_else(|| panic!("no JSON: {line}")))
    }

    pub fn names(&self) -> Vec<&str> {
        self.0.iter().map(|(name, _)| &name[..]).collect()
    }

    #[track_caller]
    pub fn value(&self, name: &str) -> Value {
        let mut found = self.0.iter().filter(|(other, _)| other == name);
        let (_, value) = found
            .next()
            .unwrap_or_else(|| panic!("no {name}: {self:?}"));
        assert!(found.next().is_none(), "{name} twice: {self:?}");
        value.clone()
    }

    #[track_caller]
    pub fn number(&self, name: &str) -> f64 {
        match self.value(name) {
            Value::Number(number) => number,
            other => panic!("{name} is {other:?}"),
        }
    }

    #[track_caller]
    pub fn text(&self, name: &str) -> String {
        match self.value(name) {
            Value::Text(text) => text,
            other => panic!("{name} is {other:?}"),
        }
    }
}

fn take(rest: &mut &str, start: &str) -> Option<()> {
    *rest = rest.strip_prefix(start)?;
    Some(())
}

fn whole(mut line: &str) -> Option<Vec<(String, Value)>> {
    let fields = object(&mut line)?;
    line.is_empty().then_some(fields)
}

fn object(rest: &mut &str) -> Option<Vec<(String, Value)>> {
    let mut fields = Vec::new();
    take(rest, "{")?;
    loop {
        let name = text(rest)?;
        take(rest, ":")?;
        fields.push((name, value(rest)?));
        if take(rest, ",").is_none() {
            take(rest, "}")?;
            return Some(fields);
        }
    }
}

fn value(rest: &mut &str) -> Option<Value> {
    for (word, value) in [
        ("null", Value::Null),
        ("true", Value::Bool(true)),
        ("false", Value::Bool(false)),
    ] {
        if take(rest, word).is_some() {
            return Some(value);
        }
    }
    match rest.starts_with('"') {
        true => text(rest).map(Value::Text),
        false => number(rest).map(Value::Number),
    }
}

/// As JSON has them: `inf`, `.5` and `05` are none.
fn number(rest: &mut &str) -> Option<f64> {
    let end = rest.find(|c: char| !matches!(c, '-' | '.' | '0'..='9'))?;
    let (number, behind) = rest.split_at(end);
    let (whole, part) = number.split_once('.').unwrap_or((number, "0"));
    let digits = whole.strip_prefix('-').unwrap_or(whole);
    let all_digits = |text: &str| !text.is_empty() && text.bytes().all(|b| b.is_ascii_digit());
    if !all_digits(digits) || !all_digits(part) || digits.len() > 1 && digits.starts_with('0') {
        return None;
    }
    *rest = behind;
    number.parse().ok()
}

fn text(rest: &mut &str) -> Option<String> {
    let mut text = String::new();
    take(rest, "\"")?;
    loop {
        let c = rest.chars().next()?;
        *rest = &rest[c.len_utf8()..];
        match c {
            '"' => return Some(text),
            '\\' if take(rest, "u").is_some() => {
                let code = u32::from_str_radix(rest.get(..4)?, 16).ok()?;
                *rest = &rest[4..];
                text.push(char::from_u32(code)?);
            }
            '\\' => {
                let c = rest.chars().next().filter(|c| "\"\\/".contains(*c))?;
                *rest = &rest[1..];
                text.push(c);
            }
            c if c < ' ' => return None,
            c => text.push(c),
        }
    }
}

#[test]
fn reads_json_alone() {
    let line = Line::read(r#"{"item":"a \"reel\"\\\u000a","code":-1.5,"place":null,"equal":true}"#);
    assert_eq!(line.names(), ["item", "code", "place", "equal"]);
    assert_eq!(line.text("item"), "a \"reel\"\\\n");
    assert_eq!(line.number("code"), -1.5);
    assert_eq!(line.value("place"), Value::Null);
    assert_eq!(line.value("equal"), Value::Bool(true));
    for bad in [
        "",
        "{",
        r#"{"a":1}x"#,
        r#"{"a":1}}"#,
        r#"{"a":1,}"#,
        r#"{"a":inf}"#,
        r#"{"a":.5}"#,
        r#"{"a":05}"#,
        r#"{"a":"\x"}"#,
        "{\"a\":\"\n\"}",
        r#"{"a" 1}"#,
    ] {
        assert_eq!(whole(bad), None, "{bad}");
    }
}
