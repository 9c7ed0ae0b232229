//! Reading JSON, documents and the lines of commands, and printing JSON texts.
use std::borrow::Cow;
use std::fmt::Write;

pub enum Json {
    /// `null` and a number that is no whole one: in a valid document a later member of the same name counts.
    Other,
    Flag(bool),
    Whole(u64),
    Text(String),
    List(Vec<Json>),
    Object(Vec<(String, Json)>),
}

static ABSENT: Json = Json::Other;

impl Json {
    /// The member of the name, the last one where there are several.
    pub fn member(&self, name: &str) -> Option<&Json> {
        match self {
            Json::Object(members) => members.iter().rev().find(|member| member.0 == name).map(|member| &member.1),
            _ => None,
        }
    }

    /// A member that has to be there.
    pub fn part(&self, name: &str) -> &Json {
        self.member(name).unwrap_or(&ABSENT)
    }

    /// The only member of an object that has exactly one, unless a name is repeated.
    pub fn only(&self) -> (&str, &Json) {
        match self {
            Json::Object(members) => members.last().map_or(("", &ABSENT), |member| (member.0.as_str(), &member.1)),
            _ => ("", &ABSENT),
        }
    }

    pub fn as_text(&self) -> Option<&str> {
        match self {
            Json::Text(text) => Some(text),
            _ => None,
        }
    }

    pub fn text(&self) -> &str {
        self.as_text().unwrap_or("")
    }

    pub fn whole(&self, name: &str) -> Option<u64> {
        match self.member(name) {
            Some(Json::Whole(number)) => Some(*number),
            _ => None,
        }
    }

    pub fn elements(&self) -> &[Json] {
        match self {
            Json::List(elements) => elements,
            _ => &[],
        }
    }

    /// The elements of a member that is a list, none where it is absent.
    pub fn list(&self, name: &str) -> &[Json] {
        self.part(name).elements()
    }
}

struct Reader<'a> {
    text: &'a str,
    at: usize,
}

impl<'a> Reader<'a> {
    fn byte(&self) -> Option<u8> {
        self.text.as_bytes().get(self.at).copied()
    }

    fn skip_space(&mut self) {
        while matches!(self.byte(), Some(b' ' | b'\t' | b'\r' | b'\n')) {
            self.at += 1;
        }
    }

    /// Takes the byte, if it comes next behind white space.
    fn takes(&mut self, byte: u8) -> bool {
        self.skip_space();
        let is_next = self.byte() == Some(byte);
        self.at += usize::from(is_next);
        is_next
    }

    /// The text that begins with a quotation mark here.
    fn text(&mut self) -> Option<Cow<'a, str>> {
        if !self.takes(b'"') {
            return None;
        }
        let mut text = Cow::Borrowed("");
        loop {
            let start = self.at;
            while !matches!(self.byte()?, b'"' | b'\\' | 0..0x20) {
                self.at += 1;
            }
            let plain = &self.text[start..self.at];
            if text.is_empty() {
                text = Cow::Borrowed(plain);
            } else {
                text.to_mut().push_str(plain);
            }
            self.at += 1;
            match self.text.as_bytes()[self.at - 1] {
                b'"' => return Some(text),
                b'\\' => text.to_mut().push(self.escape()?),
                _ => return None,
            }
        }
    }

    /// The character that is written behind a backslash.
    fn escape(&mut self) -> Option<char> {
        let byte = self.byte()?;
        self.at += 1;
        Some(match byte {
            b'"' | b'\\' | b'/' => char::from(byte),
            b'b' => '\u{8}',
            b'f' => '\u{c}',
            b'n' => '\n',
            b'r' => '\r',
            b't' => '\t',
            b'u' => {
                let first = self.four_digits()?;
                if !(0xD800..0xDC00).contains(&first) {
                    return char::from_u32(first);
                }
                if !self.text[self.at..].starts_with("\\u") {
                    return None;
                }
                self.at += 2;
                let second = self.four_digits()?;
                if !(0xDC00..0xE000).contains(&second) {
                    return None;
                }
                return char::from_u32(0x10000 + ((first - 0xD800) << 10) + (second - 0xDC00));
            }
            _ => return None,
        })
    }

    fn four_digits(&mut self) -> Option<u32> {
        let digits = self.text.as_bytes().get(self.at..self.at + 4)?;
        self.at += 4;
        digits.iter().try_fold(0, |sum, digit| Some(16 * sum + char::from(*digit).to_digit(16)?))
    }

    fn value(&mut self) -> Option<Json> {
        self.skip_space();
        let start = self.at;
        match self.byte()? {
            b'"' => Some(Json::Text(self.text()?.into_owned())),
            b'[' => {
                let mut elements = Vec::new();
                self.at += 1;
                while !self.takes(b']') {
                    if !elements.is_empty() && !self.takes(b',') {
                        return None;
                    }
                    elements.push(self.value()?);
                }
                Some(Json::List(elements))
            }
            b'{' => {
                let mut members = Vec::new();
                self.at += 1;
                while !self.takes(b'}') {
                    if !members.is_empty() && !self.takes(b',') {
                        return None;
                    }
                    let name = self.text()?.into_owned();
                    if !self.takes(b':') {
                        return None;
                    }
                    members.push((name, self.value()?));
                }
                Some(Json::Object(members))
            }
            _ => {
                while matches!(self.byte(), Some(b'0'..=b'9' | b'a'..=b'z' | b'E' | b'+' | b'-' | b'.')) {
                    self.at += 1;
                }
                match &self.text[start..self.at] {
                    "true" => Some(Json::Flag(true)),
                    "false" => Some(Json::Flag(false)),
                    "" => None,
                    other => Some(other.parse().map_or(Json::Other, Json::Whole)),
                }
            }
        }
    }

    fn is_at_end(&mut self) -> bool {
        self.skip_space();
        self.at == self.text.len()
    }
}

/// The value that a document stands for.
pub fn document(text: &str) -> Option<Json> {
    let mut reader = Reader { text, at: 0 };
    let value = reader.value()?;
    reader.is_at_end().then_some(value)
}

/// The texts of a line that is one array of texts, at least one.
pub fn texts(line: &[u8]) -> Option<Vec<Cow<'_, str>>> {
    let mut reader = Reader { text: std::str::from_utf8(line).ok()?, at: 0 };
    if !reader.takes(b'[') {
        return None;
    }
    let mut texts = vec![reader.text()?];
    while reader.takes(b',') {
        texts.push(reader.text()?);
    }
    (reader.takes(b']') && reader.is_at_end()).then_some(texts)
}

/// Adds a text with its quotation marks and escapes.
pub fn push_text(text: &str, out: &mut String) {
    out.push('"');
    let mut start = 0;
    for (at, byte) in text.bytes().enumerate() {
        if byte >= 0x20 && byte != b'"' && byte != b'\\' {
            continue;
        }
        out.push_str(&text[start..at]);
        start = at + 1;
        match byte {
            b'"' => out.push_str("\\\""),
            b'\\' => out.push_str("\\\\"),
            0x08 => out.push_str("\\b"),
            0x0C => out.push_str("\\f"),
            b'\n' => out.push_str("\\n"),
            b'\r' => out.push_str("\\r"),
            b'\t' => out.push_str("\\t"),
            _ => write!(out, "\\u{byte:04x}").expect("a String takes all"),
        }
    }
    out.push_str(&text[start..]);
    out.push('"');
}
