//! The same work as in program/src/main.rt, over maps: of uris, of persons, of keys by their numbers, and
//! of the keys by the number of their last write.
use std::collections::BTreeMap;

#[allow(dead_code)]
#[derive(Clone, PartialEq)]
enum Value {
    Text(String),
    Bool(bool),
    Int(i64),
    Moment(i64),
    Span(u64),
}

#[derive(Clone, Copy, PartialEq)]
enum GlobalKind {
    Glob,
    GlobPers,
}

#[allow(dead_code)]
#[derive(Clone, Copy, PartialEq)]
enum Kind {
    String,
    Integer,
}

#[derive(PartialEq)]
struct Limits {
    least: Option<Value>,
    most: Option<Value>,
    min_length: Option<u64>,
    max_length: Option<u64>,
    one_of: Vec<Value>,
}

#[derive(PartialEq)]
struct Declared {
    kind: GlobalKind,
    datatype: Kind,
    limits: Limits,
    initial: Option<Value>,
}

#[derive(PartialEq)]
enum Fault {
    UnknownGlobal,
    BadValue,
    NotAllowed,
    Differs,
}

type Key = (usize, Option<usize>);

struct Cell {
    value: Option<Value>,
    number: u64,
}

#[derive(Default)]
struct Globals {
    uris: BTreeMap<String, usize>,
    declared: Vec<(String, Declared)>,
    persons: BTreeMap<String, usize>,
    ids: Vec<String>,
    cells: BTreeMap<Key, Cell>,
    latest: BTreeMap<u64, Key>,
    stamp: u64,
}

fn suits(kind: GlobalKind, person: Option<&str>) -> bool {
    (kind == GlobalKind::GlobPers) == person.is_some()
}

fn read(kind: Kind, text: &str) -> Option<Value> {
    match kind {
        Kind::String => Some(Value::Text(String::from(text))),
        Kind::Integer => text.parse().ok().map(Value::Int),
    }
}

fn fits(limits: &Limits, value: &Value) -> bool {
    let number = match value {
        Value::Int(number) => *number,
        _ => return limits.one_of.is_empty() || limits.one_of.contains(value),
    };
    let least = match limits.least {
        Some(Value::Int(least)) => least <= number,
        _ => true,
    };
    let most = match limits.most {
        Some(Value::Int(most)) => number <= most,
        _ => true,
    };
    least && most && (limits.one_of.is_empty() || limits.one_of.contains(value))
}

impl Globals {
    fn declare(&mut self, list: Vec<(String, Declared)>) -> Result<(), Fault> {
        for (uri, declared) in &list {
            if self.uris.get(uri).is_some_and(|number| self.declared[*number].1 != *declared) {
                return Err(Fault::Differs);
            }
        }
        for (uri, declared) in list {
            if !self.uris.contains_key(&uri) {
                self.uris.insert(uri.clone(), self.declared.len());
                self.declared.push((uri, declared));
            }
        }
        Ok(())
    }

    fn find(&self, uri: usize, person: Option<&str>) -> Option<&Cell> {
        let person = match person {
            Some(id) => Some(*self.persons.get(id)?),
            None => None,
        };
        self.cells.get(&(uri, person))
    }

    fn get(&self, uri: &str, person: Option<&str>) -> Result<Option<&Value>, Fault> {
        let number = *self.uris.get(uri).ok_or(Fault::UnknownGlobal)?;
        let declared = &self.declared[number].1;
        if !suits(declared.kind, person) {
            return Err(Fault::NotAllowed);
        }
        match self.find(number, person) {
            Some(cell) => Ok(cell.value.as_ref()),
            None => Ok(declared.initial.as_ref()),
        }
    }

    fn set(&mut self, uri: &str, person: Option<&str>, text: &str) -> Result<(), Fault> {
        let number = *self.uris.get(uri).ok_or(Fault::UnknownGlobal)?;
        let declared = &self.declared[number].1;
        let value = read(declared.datatype, text).ok_or(Fault::BadValue)?;
        if !fits(&declared.limits, &value) {
            return Err(Fault::BadValue);
        }
        if !suits(declared.kind, person) {
            return Err(Fault::NotAllowed);
        }
        self.give(number, person, Some(value));
        Ok(())
    }

    fn put(&mut self, uri: &str, person: Option<String>, value: Option<Value>) {
        if let Some(number) = self.uris.get(uri) {
            self.give(*number, person.as_deref(), value);
        }
    }

    fn give(&mut self, uri: usize, person: Option<&str>, value: Option<Value>) {
        let number = self.stamp + 1;
        let person = person.map(|id| match self.persons.get(id) {
            Some(number) => *number,
            None => {
                self.persons.insert(String::from(id), self.ids.len());
                self.ids.push(String::from(id));
                self.ids.len() - 1
            }
        });
        let key = (uri, person);
        match self.cells.get_mut(&key) {
            Some(cell) if cell.value == value => return,
            Some(cell) => {
                self.latest.remove(&cell.number);
                *cell = Cell { value, number };
            }
            None if self.declared[uri].1.initial == value => return,
            None => {
                self.cells.insert(key, Cell { value, number });
            }
        }
        self.latest.insert(number, key);
        self.stamp = number;
    }

    fn changed_since(&self, stamp: u64) -> impl Iterator<Item = (&str, Option<&str>)> {
        self.latest.range(stamp + 1..).rev().map(move |(_, (uri, person))| {
            (self.declared[*uri].0.as_str(), person.map(|number| self.ids[number].as_str()))
        })
    }
}

const URIS: u64 = 200;
const PERSONS: u64 = 1000;
const TEXTS: [&str; 4] = ["0", "1", "20", "300"];

#[derive(Clone, Copy, PartialEq)]
enum Work {
    Declare,
    Get,
    Set,
    Put,
    Since,
}

struct Draw {
    state: u64,
}

impl Draw {
    fn below(&mut self, bound: u64) -> u64 {
        self.state = self
            .state
            .wrapping_mul(6_364_136_223_846_793_005)
            .wrapping_add(1_442_695_040_888_963_407);
        (self.state >> 33) % bound
    }
}

struct Names {
    uris: Vec<String>,
    persons: Vec<String>,
}

fn declare(store: &mut Globals, uri: &str, number: u64) -> i64 {
    let limits = Limits {
        least: None,
        most: None,
        min_length: None,
        max_length: None,
        one_of: Vec::new(),
    };
    let value = Value::Int(0);
    if !fits(&limits, &value) {
        return 0;
    }
    let declared = Declared {
        kind: if number % 2 == 0 { GlobalKind::Glob } else { GlobalKind::GlobPers },
        datatype: Kind::Integer,
        limits,
        initial: Some(value),
    };
    store.declare(vec![(String::from(uri), declared)]).is_ok() as i64
}

fn get(store: &Globals, uri: &str, person: Option<&str>) -> i64 {
    match store.get(uri, person) {
        Ok(Some(Value::Int(number))) => *number,
        Ok(_) => 7,
        Err(_) => -1,
    }
}

fn set(store: &mut Globals, uri: &str, person: Option<&str>, draw: &mut Draw) -> i64 {
    store.set(uri, person, TEXTS[draw.below(4) as usize]).is_ok() as i64
}

fn put(store: &mut Globals, uri: &str, person: Option<&str>) -> i64 {
    let copy = person.map(String::from);
    if store.get(uri, person).is_err() {
        return 0;
    }
    store.put(uri, copy, None);
    2
}

fn since(store: &Globals) -> i64 {
    let mut sum = 0;
    for (uri, person) in store.changed_since(store.stamp.saturating_sub(50)) {
        sum += uri.len() as i64 + person.is_some() as i64;
    }
    sum
}

fn call(store: &mut Globals, names: &Names, work: Work, times: u32, draw: &mut Draw) -> i64 {
    let mut sum = 0;
    for _ in 0..times {
        let number = draw.below(URIS);
        let uri = names.uris[number as usize].as_str();
        let mut person = Some(names.persons[draw.below(PERSONS) as usize].as_str());
        if number % 2 == 0 {
            person = None;
        }
        sum += match work {
            Work::Declare => declare(store, uri, number),
            Work::Get => get(store, uri, person),
            Work::Set => set(store, uri, person, draw),
            Work::Put if draw.below(2) == 0 => set(store, uri, person, draw),
            Work::Put => put(store, uri, person),
            Work::Since => since(store),
        };
    }
    sum
}

fn main() {
    let word = std::env::args().nth(1).unwrap_or_default();
    let work = match word.as_str() {
        "declare" => Work::Declare,
        "set" => Work::Set,
        "put" => Work::Put,
        "since" => Work::Since,
        _ => Work::Get,
    };
    let names = Names {
        uris: (0..URIS).map(|number| format!("urn:example:property:{number:03}")).collect(),
        persons: (0..PERSONS).map(|number| format!("person-{number:03}")).collect(),
    };
    let mut draw = Draw { state: 1 };
    let mut store = Globals::default();
    for (number, uri) in names.uris.iter().enumerate() {
        declare(&mut store, uri, number as u64);
    }
    call(&mut store, &names, Work::Set, 100_000, &mut draw);
    let times = if work == Work::Since { 300_000 } else { 3_000_000 };
    let sum = call(&mut store, &names, work, times, &mut draw);
    println!("{sum} {}", store.stamp);
}
