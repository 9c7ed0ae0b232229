//! The same work as in program/src/main.rt, over a plain vector with an undo list.
use std::mem;

#[allow(dead_code)]
#[derive(PartialEq)]
enum Value {
    Text(String),
    Bool(bool),
    Int(i64),
    Moment(i64),
    Span(u64),
}

struct Cells {
    values: Vec<Option<Value>>,
    changes: Vec<(u32, Option<Value>)>,
    mark: Option<usize>,
}

impl Cells {
    fn write(&mut self, slot: u32, value: Option<Value>) -> bool {
        let held = &mut self.values[slot as usize];
        if *held == value {
            return false;
        }
        let before = mem::replace(held, value);
        if self.mark.is_some_and(|count| (slot as usize) < count) {
            self.changes.push((slot, before));
        }
        true
    }

    fn mark(&mut self) {
        self.mark = Some(self.values.len());
    }

    fn undo(&mut self) {
        if let Some(count) = self.mark.take() {
            self.values.truncate(count);
        }
        while let Some((slot, before)) = self.changes.pop() {
            self.values[slot as usize] = before;
        }
    }

    fn keep(&mut self) {
        self.changes.clear();
        self.mark = None;
    }
}

struct Draw {
    state: u64,
}

impl Draw {
    fn below(&mut self, bound: u64) -> u64 {
        self.state = self
            .state
            .wrapping_mul(6_364_136_223_846_793_005)
            .wrapping_add(1_442_695_040_888_963_407);
        (self.state >> 33) % bound
    }
}

fn value_of(texts: bool, number: u64) -> Option<Value> {
    if number == 0 {
        return None;
    }
    if texts {
        let text = if number % 2 == 0 { "an even number" } else { "an odd number" };
        return Some(Value::Text(String::from(text)));
    }
    Some(Value::Int(number as i64))
}

fn write_some(cells: &mut Cells, draw: &mut Draw, texts: bool, times: u32) -> u64 {
    let mut changed = 0;
    for _ in 0..times {
        let count = cells.values.len();
        if count == 0 {
            return changed;
        }
        let slot = draw.below(count as u64) as u32;
        let value = value_of(texts, draw.below(16));
        if cells.write(slot, value) {
            changed += 1;
        }
    }
    changed
}

fn sum(cells: &Cells) -> i64 {
    let mut sum = 0;
    for slot in 0..cells.values.len() {
        sum += match &cells.values[slot] {
            Some(Value::Int(number)) => *number,
            Some(_) => 1,
            None => 0,
        };
    }
    sum
}

fn main() {
    let texts = std::env::args().any(|word| word == "texts");
    let rounds = if texts { 60_000 } else { 300_000 };
    let mut draw = Draw { state: 1 };
    let mut cells = Cells { values: Vec::new(), changes: Vec::new(), mark: None };
    for _ in 0..10_000 {
        cells.values.push(None);
    }
    let mut changed = 0;
    for round in 0..rounds {
        cells.mark();
        changed += write_some(&mut cells, &mut draw, texts, 200);
        if round % 2 == 0 {
            cells.undo();
        } else {
            cells.keep();
        }
    }
    println!("{changed} {}", sum(&cells));
}
