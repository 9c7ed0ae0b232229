//! Values of the datatypes: reading, printing, comparing, arithmetic, and the restrictions of a property.
use std::cmp::Ordering;
use std::fmt::Write;

const TEXT_LIMIT: usize = 4_096;
const FIRST_MOMENT: i64 = -62_135_596_800;
pub const LAST_MOMENT: i64 = 253_402_300_799;
const LONGEST_SPAN: i64 = 999_999_999_999;
const DAY: i64 = 86_400;

/// A value that owns its text, or one that borrows it (`Seen`).
#[derive(Clone, Copy, PartialEq, Eq)]
pub enum Value<T = String> {
    Text(T),
    Boolean(bool),
    Integer(i64),
    Moment(i64),
    Span(i64),
}

pub type Seen<'a> = Value<&'a str>;

#[derive(Clone, Copy, PartialEq, Eq)]
pub enum Datatype {
    Text,
    Uri,
    Boolean,
    Integer,
    Moment,
    Span,
}

impl Datatype {
    pub fn named(word: &str) -> Datatype {
        match word {
            "uri" => Datatype::Uri,
            "boolean" => Datatype::Boolean,
            "integer" => Datatype::Integer,
            "datetime" => Datatype::Moment,
            "duration" => Datatype::Span,
            _ => Datatype::Text,
        }
    }

    /// The value that a text has.
    pub fn read(self, text: &str) -> Option<Seen<'_>> {
        match self {
            Datatype::Text => (text.len() <= TEXT_LIMIT).then_some(Value::Text(text)),
            Datatype::Uri => is_uri(text).then_some(Value::Text(text)),
            Datatype::Boolean => match text {
                "true" => Some(Value::Boolean(true)),
                "false" => Some(Value::Boolean(false)),
                _ => None,
            },
            Datatype::Integer => integer(text).map(Value::Integer),
            Datatype::Moment => moment(text).map(Value::Moment),
            Datatype::Span => span(text).map(Value::Span),
        }
    }
}

impl Value {
    pub fn seen(&self) -> Seen<'_> {
        match self {
            Value::Text(text) => Value::Text(text),
            Value::Boolean(flag) => Value::Boolean(*flag),
            Value::Integer(number) => Value::Integer(*number),
            Value::Moment(moment) => Value::Moment(*moment),
            Value::Span(span) => Value::Span(*span),
        }
    }
}

impl<'a> Seen<'a> {
    pub fn kept(self) -> Value {
        match self {
            Value::Text(text) => Value::Text(text.to_owned()),
            Value::Boolean(flag) => Value::Boolean(flag),
            Value::Integer(number) => Value::Integer(number),
            Value::Moment(moment) => Value::Moment(moment),
            Value::Span(span) => Value::Span(span),
        }
    }

    /// How two values of one type compare by size.
    pub fn compared(self, other: Self) -> Option<Ordering> {
        match (self, other) {
            (Value::Integer(a), Value::Integer(b)) => Some(a.cmp(&b)),
            (Value::Moment(a), Value::Moment(b)) => Some(a.cmp(&b)),
            (Value::Span(a), Value::Span(b)) => Some(a.cmp(&b)),
            _ => None,
        }
    }

    pub fn sum(self, other: Self) -> Option<Self> {
        match (self, other) {
            (Value::Integer(a), Value::Integer(b)) => a.checked_add(b).map(Value::Integer),
            (Value::Moment(a), Value::Span(b)) => moment_in_range(a + b),
            (Value::Span(a), Value::Span(b)) => span_in_range(a + b),
            _ => None,
        }
    }

    pub fn difference(self, other: Self) -> Option<Self> {
        match (self, other) {
            (Value::Integer(a), Value::Integer(b)) => a.checked_sub(b).map(Value::Integer),
            (Value::Moment(a), Value::Span(b)) => moment_in_range(a - b),
            (Value::Moment(a), Value::Moment(b)) | (Value::Span(a), Value::Span(b)) => span_in_range(a - b),
            _ => None,
        }
    }

    pub fn product(self, other: Self) -> Option<Self> {
        match (self, other) {
            (Value::Integer(a), Value::Integer(b)) => a.checked_mul(b).map(Value::Integer),
            _ => None,
        }
    }

    pub fn quotient(self, other: Self) -> Option<Self> {
        match (self, other) {
            (Value::Integer(a), Value::Integer(b)) => a.checked_div(b).map(Value::Integer),
            _ => None,
        }
    }

    /// The text of a value.
    pub fn printed(self) -> String {
        match self {
            Value::Text(text) => text.to_owned(),
            Value::Boolean(flag) => flag.to_string(),
            Value::Integer(number) => number.to_string(),
            Value::Moment(moment) => {
                let mut text = String::new();
                push_moment(moment, &mut text);
                text
            }
            Value::Span(span) => printed_span(span),
        }
    }
}

fn moment_in_range<'a>(moment: i64) -> Option<Seen<'a>> {
    (FIRST_MOMENT..=LAST_MOMENT).contains(&moment).then_some(Value::Moment(moment))
}

fn span_in_range<'a>(span: i64) -> Option<Seen<'a>> {
    (0..=LONGEST_SPAN).contains(&span).then_some(Value::Span(span))
}

pub fn is_uri(text: &str) -> bool {
    (1..=TEXT_LIMIT).contains(&text.len()) && text.bytes().all(|byte| byte.is_ascii_graphic())
}

pub fn is_identifier(text: &str) -> bool {
    let is_first = |byte: u8| byte.is_ascii_alphabetic() || byte == b'_';
    let is_later = |byte: u8| is_first(byte) || byte.is_ascii_digit() || byte == b'-' || byte == b'.';
    text.len() <= 64 && text.bytes().next().is_some_and(is_first) && text.bytes().all(is_later)
}

/// The number that digits alone write.
fn number(digits: &[u8]) -> Option<i64> {
    digits.iter().try_fold(0, |sum: i64, digit| {
        let digit = digit.is_ascii_digit().then(|| i64::from(digit - b'0'))?;
        sum.checked_mul(10)?.checked_add(digit)
    })
}

fn integer(text: &str) -> Option<i64> {
    let digits = text.strip_prefix('-').unwrap_or(text);
    let is_written = (1..=19).contains(&digits.len()) && digits.bytes().all(|byte| byte.is_ascii_digit());
    if is_written { text.parse().ok() } else { None }
}

fn span(text: &str) -> Option<i64> {
    let mut rest = text.strip_prefix('P')?.as_bytes();
    let (mut sum, mut is_in_time, mut parts_here) = (0, false, 0);
    let mut units = [(b'D', DAY, false), (b'H', 3_600, true), (b'M', 60, true), (b'S', 1, true)].into_iter();
    loop {
        if rest.is_empty() {
            return (parts_here > 0 && sum <= LONGEST_SPAN).then_some(sum);
        }
        if rest[0] == b'T' && !is_in_time {
            (is_in_time, parts_here) = (true, 0);
            rest = &rest[1..];
        }
        let length = rest.iter().take_while(|byte| byte.is_ascii_digit()).count();
        let letter = *rest.get(length)?;
        let unit = units.find(|unit| unit.0 == letter)?;
        if !(1..=12).contains(&length) || unit.2 != is_in_time {
            return None;
        }
        sum += number(&rest[..length])? * unit.1;
        parts_here += 1;
        rest = &rest[length + 1..];
    }
}

fn printed_span(span: i64) -> String {
    let parts = [(span / DAY, 'D'), (span / 3_600 % 24, 'H'), (span / 60 % 60, 'M'), (span % 60, 'S')];
    let mut text = String::from("P");
    for (place, (count, letter)) in parts.into_iter().enumerate() {
        if place == 1 && span % DAY != 0 {
            text.push('T');
        }
        if count != 0 {
            write!(text, "{count}{letter}").expect("a String takes all");
        }
    }
    if span == 0 { "PT0S".to_owned() } else { text }
}

/// The seconds from the beginning of 1970 to a moment.
pub fn moment(text: &str) -> Option<i64> {
    let b = text.as_bytes();
    if b.len() != 20 || (b[4], b[7], b[10], b[13], b[16], b[19]) != (b'-', b'-', b'T', b':', b':', b'Z') {
        return None;
    }
    let (year, month, day) = (number(&b[0..4])?, number(&b[5..7])?, number(&b[8..10])?);
    let (hour, minute, second) = (number(&b[11..13])?, number(&b[14..16])?, number(&b[17..19])?);
    let days = match month {
        2 => 28 + i64::from(year % 4 == 0 && (year % 100 != 0 || year % 400 == 0)),
        4 | 6 | 9 | 11 => 30,
        1..=12 => 31,
        _ => return None,
    };
    if year == 0 || day == 0 || day > days || hour > 23 || minute > 59 || second > 59 {
        return None;
    }
    let (y, m) = if month > 2 { (year, month - 3) } else { (year - 1, month + 9) };
    let number = 365 * y + y / 4 - y / 100 + y / 400 + (153 * m + 2) / 5 + day - 719_469;
    Some(DAY * number + 3_600 * hour + 60 * minute + second)
}

/// Adds the text of a moment.
pub fn push_moment(moment: i64, out: &mut String) {
    let (number, second) = (moment.div_euclid(DAY) + 719_468, moment.rem_euclid(DAY));
    let (era, day_of_era) = (number / 146_097, number % 146_097);
    let year_of_era = (day_of_era - day_of_era / 1_460 + day_of_era / 36_524 - day_of_era / 146_096) / 365;
    let day_of_year = day_of_era - (365 * year_of_era + year_of_era / 4 - year_of_era / 100);
    let m = (5 * day_of_year + 2) / 153;
    let (day, month) = (day_of_year - (153 * m + 2) / 5 + 1, if m < 10 { m + 3 } else { m - 9 });
    let year = 400 * era + year_of_era + i64::from(month <= 2);
    let (hour, minute, second) = (second / 3_600, second / 60 % 60, second % 60);
    write!(out, "{year:04}-{month:02}-{day:02}T{hour:02}:{minute:02}:{second:02}Z").expect("a String takes all");
}

#[derive(Default)]
pub struct Restrictions {
    pub least: Option<Value>,
    pub most: Option<Value>,
    pub shortest: Option<u64>,
    pub longest: Option<u64>,
    pub listed: Vec<Value>,
}

impl Restrictions {
    /// Whether a value of the datatype meets them.
    pub fn are_met(&self, value: Seen<'_>) -> bool {
        let is_within = |bound: &Option<Value>, beyond: Ordering| {
            bound.as_ref().is_none_or(|bound| value.compared(bound.seen()).is_some_and(|order| order != beyond))
        };
        let has_length = match value {
            Value::Text(text) if self.shortest.is_some() || self.longest.is_some() => {
                let length = text.chars().count() as u64;
                self.shortest.is_none_or(|least| length >= least) && self.longest.is_none_or(|most| length <= most)
            }
            _ => true,
        };
        has_length
            && is_within(&self.least, Ordering::Less)
            && is_within(&self.most, Ordering::Greater)
            && (self.listed.is_empty() || self.listed.iter().any(|each| each.seen() == value))
    }
}
