//! The published units, the runs, and what a line does and gets in reply.
use crate::alarm::next_alarm;
use crate::json;
use crate::rules::{Course, Work};
use crate::run::{Run, Store};
use crate::tree::Tree;
use crate::unit::{Completion, Done, Named, Unit, read_unit};
use crate::value::{self, Value, is_identifier, is_uri, push_moment};
use std::borrow::Cow;
use std::collections::HashMap;
use std::fmt::Write;
use std::path::Path;

const MOST_PERSONS: usize = 200;

pub enum Refusal {
    Plain(u8),
    MomentBack(i64),
    RoleShort(String, u64, u64),
}

impl Refusal {
    fn push(&self, out: &mut String) {
        let (number, word) = match self {
            Refusal::Plain(number) => (*number, word_of(*number)),
            Refusal::MomentBack(_) => (5, "moment-back"),
            Refusal::RoleShort(..) => (16, "role-short"),
        };
        push(out, format_args!("no {number} {word}"));
        match self {
            Refusal::Plain(_) => {}
            Refusal::MomentBack(moment) => {
                out.push(' ');
                push_moment(*moment, out);
            }
            Refusal::RoleShort(role, count, least) => push(out, format_args!(" {role} {count} {least}")),
        }
        out.push('\n');
    }
}

fn word_of(number: u8) -> &'static str {
    match number {
        1 => "bad-line",
        2 => "unknown-unit",
        3 => "run-exists",
        4 => "unknown-run",
        6 => "not-started",
        7 => "started-already",
        8 => "unknown-person",
        9 => "person-exists",
        10 => "run-full",
        11 => "unknown-role",
        12 => "holds-already",
        13 => "not-held",
        14 => "role-full",
        15 => "role-exclusive",
        17 => "unknown-activity",
        18 => "not-by-choice",
        19 => "unknown-property",
        20 => "unknown-global",
        21 => "bad-value",
        22 => "not-allowed",
        30 => "turn-budget",
        _ => "not-open",
    }
}

fn push(out: &mut String, arguments: std::fmt::Arguments<'_>) {
    out.write_fmt(arguments).expect("a String takes all");
}

fn refused_if(is_so: bool, number: u8) -> Result<(), Refusal> {
    if is_so { Err(Refusal::Plain(number)) } else { Ok(()) }
}

/// What a command of a run does, with all that it names looked up.
enum Deed {
    Enrol,
    Assign(usize, usize),
    Drop(usize, usize),
    Start,
    Open(usize, usize),
    Complete(usize, usize),
    Set(usize, usize, Value),
    Clear(usize, usize),
    Get(usize, usize),
    Tree(usize),
    Outbox(usize),
    Report,
    Tick,
    Next,
}

impl Deed {
    fn is_change(&self) -> bool {
        !matches!(self, Deed::Get(..) | Deed::Tree(_) | Deed::Outbox(_) | Deed::Report | Deed::Tick | Deed::Next)
    }

    fn is_allowed_before_start(verb: &str) -> bool {
        matches!(verb, "enrol" | "assign" | "drop" | "start")
    }
}

/// Whether the words have the form that the verb asks for.
fn are_formed(verb: &str, words: &[Cow<'_, str>]) -> bool {
    let is_person = |text: &str| text.is_empty() || is_identifier(text);
    match (verb, words) {
        ("start" | "report" | "tick" | "next", [_])
        | ("create" | "enrol" | "tree" | "outbox", [_, _])
        | ("assign" | "drop" | "open" | "complete" | "clear" | "get", [_, _, _]) => {
            words.iter().all(|word| is_identifier(word))
        }
        ("set", [run, person, property, _]) => is_identifier(run) && is_identifier(person) && is_identifier(property),
        ("global-set", [uri, person, _]) | ("global-get", [uri, person]) => is_uri(uri) && is_person(person),
        _ => false,
    }
}

#[derive(Default)]
pub struct World {
    units: Vec<Unit>,
    places: HashMap<String, usize>,
    store: Store,
    runs: HashMap<String, Run>,
    lines: String,
}

impl World {
    pub fn publish(&mut self, folder: &Path) {
        let unit = read_unit(folder, &mut self.store);
        self.places.insert(unit.head.identifier.clone(), self.units.len());
        self.units.push(unit);
    }

    /// Does what a line says and adds its reply.
    pub fn answer(&mut self, line: &[u8], out: &mut String) {
        let answered = match json::texts(line).as_deref() {
            Some([moment, verb, words @ ..]) if are_formed(verb, words) => match value::moment(moment) {
                Some(moment) => self.command(moment, verb, words, out),
                None => Err(Refusal::Plain(1)),
            },
            _ => Err(Refusal::Plain(1)),
        };
        if let Err(refusal) = answered {
            refusal.push(out);
        }
    }

    fn command(&mut self, now: i64, verb: &str, words: &[Cow<'_, str>], out: &mut String) -> Result<(), Refusal> {
        match (verb, words) {
            ("create", [name, unit]) => self.create(now, name, unit, out),
            ("global-set", [uri, person, text]) => {
                let (global, person) = self.global(uri, person, Some(text))?;
                let value = self.store.globals[global].datatype.read(text).map(value::Seen::kept);
                let person = person.map_or(0, |name| self.store.person(name));
                self.store.set(global, person, value);
                out.push_str("ok global-set\n");
                Ok(())
            }
            ("global-get", [uri, person]) => {
                let (global, person) = self.global(uri, person, None)?;
                // (of whom nothing was ever written, a number behind all others)
                let person = person.map_or(0, |name| self.store.known_person(name).unwrap_or(usize::MAX));
                out.push_str("ok global-get ");
                push_value(self.store.get(global, person), out);
                out.push('\n');
                Ok(())
            }
            _ => self.step(now, verb, words, out),
        }
    }

    fn create(&mut self, now: i64, name: &str, unit: &str, out: &mut String) -> Result<(), Refusal> {
        let number = *self.places.get(unit).ok_or(Refusal::Plain(2))?;
        refused_if(self.runs.contains_key(name), 3)?;
        self.runs.insert(name.to_owned(), Run::new(number, &self.units[number], now));
        out.push_str("ok create\n");
        Ok(())
    }

    /// The number of a global property, and the person for whom it has a value, if each has one.
    fn global<'w>(&self, uri: &str, person: &'w str, text: Option<&str>) -> Result<(usize, Option<&'w str>), Refusal> {
        let number = *self.store.numbers.get(uri).ok_or(Refusal::Plain(20))?;
        let global = &self.store.globals[number];
        if let Some(text) = text {
            let value = global.datatype.read(text);
            refused_if(!value.is_some_and(|value| global.restrictions.are_met(value)), 21)?;
        }
        refused_if(person.is_empty() == global.is_personal, 22)?;
        Ok((number, global.is_personal.then_some(person)))
    }

    fn step(&mut self, now: i64, verb: &str, words: &[Cow<'_, str>], out: &mut String) -> Result<(), Refusal> {
        let run = self.runs.get_mut(&*words[0]).ok_or(Refusal::Plain(4))?;
        let unit = &self.units[run.unit];
        let deed = admitted(unit, run, now, verb, words)?;
        run.begin(now);
        let mut course = Course { unit, run, store: &mut self.store, work: Work::default() };
        if let Err(refusal) = follow(&mut course, &deed, words) {
            course.run.take_back(unit, course.store);
            return Err(refusal);
        }
        let Work { turns, fired, rejected, sent } = course.work;
        push(out, format_args!("ok {verb} turns={turns} fired={fired} rejected={rejected} sent={sent}"));
        self.lines.clear();
        if let Deed::Get(person, property) = deed {
            out.push_str(" value=");
            let value = course.run.value(unit, course.store, property, Some(person));
            push_seen(value, out);
        }
        if matches!(deed, Deed::Next) {
            out.push_str(" at=");
            match next_alarm(course.view()) {
                Some(moment) => push_moment(moment, out),
                None => out.push_str("none"),
            }
        }
        if let Some(count) = shown(&course, &deed, &mut self.lines) {
            push(out, format_args!(" lines={count}"));
        }
        out.push('\n');
        out.push_str(&self.lines);
        Ok(())
    }
}

fn push_value(value: Option<&Value>, out: &mut String) {
    push_seen(value.map(Value::seen), out);
}

fn push_seen(value: Option<value::Seen<'_>>, out: &mut String) {
    match value {
        None => out.push_str("none"),
        Some(Value::Text(text)) => json::push_text(text, out),
        Some(value) => json::push_text(&value.printed(), out),
    }
}

/// The checks of a command that look at the state before it, in the order of their numbers.
fn admitted(unit: &Unit, run: &Run, now: i64, verb: &str, words: &[Cow<'_, str>]) -> Result<Deed, Refusal> {
    if now < run.now {
        return Err(Refusal::MomentBack(run.now));
    }
    refused_if(run.started.is_none() && !Deed::is_allowed_before_start(verb), 6)?;
    let person = || run.seats.get(&*words[1]).copied().ok_or(Refusal::Plain(8));
    let activity = || match unit.names.get(&*words[2]) {
        Some(Named::Activity(number)) => Ok(*number),
        _ => Err(Refusal::Plain(17)),
    };
    let property = || match unit.names.get(&*words[2]) {
        Some(Named::Property(number)) => Ok(*number),
        _ => Err(Refusal::Plain(19)),
    };
    let role = || match unit.names.get(&*words[2]) {
        Some(Named::Role(number)) => Ok(*number),
        _ => Err(Refusal::Plain(11)),
    };
    Ok(match verb {
        "enrol" => {
            refused_if(run.seats.contains_key(&*words[1]), 9)?;
            refused_if(run.persons.len() >= MOST_PERSONS, 10)?;
            Deed::Enrol
        }
        "assign" => {
            let (person, role) = (person()?, role()?);
            check_assign(unit, run, person, role)?;
            Deed::Assign(person, role)
        }
        "drop" => {
            let (person, role) = (person()?, role()?);
            check_drop(unit, run, person, role)?;
            Deed::Drop(person, role)
        }
        "start" => {
            refused_if(run.started.is_some(), 7)?;
            for (number, role) in unit.roles.iter().enumerate() {
                check_count(unit, number, run.count_members(number), role.least)?;
            }
            Deed::Start
        }
        "open" => Deed::Open(person()?, activity()?),
        "complete" => {
            let (person, activity) = (person()?, activity()?);
            let completion = &unit.activities[activity].ending.completion;
            refused_if(!matches!(completion, Some(Completion::Choice)), 18)?;
            Deed::Complete(person, activity)
        }
        "set" => {
            let (person, number) = (person()?, property()?);
            let property = &unit.properties[number];
            let value = property.datatype.read(&words[3]).filter(|value| property.restrictions.are_met(*value));
            let value = value.ok_or(Refusal::Plain(21))?.kept();
            check_owner(unit, run, person, number)?;
            Deed::Set(person, number, value)
        }
        "clear" => {
            let (person, property) = (person()?, property()?);
            check_owner(unit, run, person, property)?;
            Deed::Clear(person, property)
        }
        "get" => Deed::Get(person()?, property()?),
        "tree" => Deed::Tree(person()?),
        "outbox" => Deed::Outbox(person()?),
        "report" => Deed::Report,
        "next" => Deed::Next,
        _ => Deed::Tick,
    })
}

fn check_count(unit: &Unit, role: usize, count: u64, least: u64) -> Result<(), Refusal> {
    if count < least { Err(Refusal::RoleShort(unit.roles[role].identifier.clone(), count, least)) } else { Ok(()) }
}

fn check_owner(unit: &Unit, run: &Run, person: usize, property: usize) -> Result<(), Refusal> {
    let is_member = |role: usize| run.persons[person].member >> role & 1 == 1;
    refused_if(unit.properties[property].role.is_some_and(|role| !is_member(role)), 22)
}

fn check_assign(unit: &Unit, run: &Run, person: usize, role: usize) -> Result<(), Refusal> {
    let member = run.persons[person].member;
    refused_if(run.persons[person].held >> role & 1 == 1, 12)?;
    let is_full = |role: usize| member >> role & 1 == 0 && run.count_members(role) >= unit.roles[role].most;
    refused_if(outwards(unit, role).any(is_full), 14)?;
    // Whether the person is a member of another role right within an exclusive one.
    let is_excluded = |role: usize| {
        let parent = unit.roles[role].parent;
        let is_other = |other: usize| other != role && unit.roles[other].parent == parent && member >> other & 1 == 1;
        parent.is_some_and(|parent| unit.roles[parent].is_exclusive) && (0..unit.roles.len()).any(is_other)
    };
    refused_if(outwards(unit, role).any(is_excluded), 15)
}

fn check_drop(unit: &Unit, run: &Run, person: usize, role: usize) -> Result<(), Refusal> {
    let (held, member) = (run.persons[person].held, run.persons[person].member);
    refused_if(held >> role & 1 == 0, 13)?;
    if run.started.is_none() {
        return Ok(());
    }
    let left = unit.member_of(held & !(1 << role));
    for role in outwards(unit, role) {
        let is_lost = member >> role & 1 == 1 && left >> role & 1 == 0;
        check_count(unit, role, run.count_members(role) - u64::from(is_lost), unit.roles[role].least)?;
    }
    Ok(())
}

/// The role, the one within which it stands, and so on.
fn outwards(unit: &Unit, role: usize) -> impl Iterator<Item = usize> + '_ {
    std::iter::successors(Some(role), |role| unit.roles[*role].parent)
}

/// The stages of a command behind its checks.
fn follow(course: &mut Course<'_>, deed: &Deed, words: &[Cow<'_, str>]) -> Result<(), Refusal> {
    refused_if(course.run.started.is_some() && !course.settle(), 30)?;
    if let Deed::Open(person, activity) | Deed::Complete(person, activity) = deed {
        refused_if(!tree_of(course, *person, String::new()).has_open(*activity), 31)?;
    }
    let (unit, run) = (course.unit, &mut *course.run);
    match deed {
        Deed::Enrol => run.enrol(unit, &words[1], course.store.person(&words[1])),
        Deed::Assign(person, role) => run.hold(unit, *person, run.persons[*person].held | 1 << role),
        Deed::Drop(person, role) => run.hold(unit, *person, run.persons[*person].held & !(1 << role)),
        Deed::Start => run.start(),
        Deed::Open(person, activity) => run.open(*activity, *person),
        Deed::Complete(person, activity) => run.choose(*activity, *person),
        Deed::Set(person, property, value) => {
            run.set(unit, course.store, *property, Some(*person), Some(value.clone()));
        }
        Deed::Clear(person, property) => run.set(unit, course.store, *property, Some(*person), None),
        Deed::Get(..) | Deed::Tree(_) | Deed::Outbox(_) | Deed::Report | Deed::Tick | Deed::Next => {}
    }
    refused_if(course.run.started.is_some() && deed.is_change() && !course.settle(), 30)
}

fn tree_of<'a>(course: &'a Course<'_>, person: usize, text: String) -> Tree<'a> {
    Tree { view: course.view(), person, text, count: 0 }
}

/// Writes the lines that a command shows, and gives their number.
fn shown(course: &Course<'_>, deed: &Deed, lines: &mut String) -> Option<u64> {
    match deed {
        Deed::Tree(person) => {
            let mut tree = tree_of(course, *person, std::mem::take(lines));
            tree.write();
            *lines = tree.text;
            Some(tree.count)
        }
        Deed::Outbox(person) => Some(push_outbox(course, *person, lines)),
        Deed::Report => {
            push_report(course, lines);
            Some(lines.lines().count() as u64)
        }
        _ => None,
    }
}

fn push_outbox(course: &Course<'_>, person: usize, lines: &mut String) -> u64 {
    let mut count = 0;
    for (place, sent) in course.run.outbox.iter().enumerate().filter(|(_, sent)| sent.to.contains(&person)) {
        let notice = &course.unit.notices[sent.notice];
        let activity = notice.activity.map_or("-", |number| &course.unit.activities[number].head.identifier);
        count += 1;
        push(lines, format_args!("notice {} ", place + 1));
        push_moment(sent.moment, lines);
        push(lines, format_args!(" {activity} "));
        json::push_text(&notice.subject, lines);
        lines.push('\n');
    }
    count
}

fn push_report(course: &Course<'_>, lines: &mut String) {
    let (unit, run) = (course.unit, &*course.run);
    let is_done = |done: Done| course.view().is_done(done, None);
    let state_of = |done: Done| if is_done(done) { "done" } else { "open" };
    lines.push_str("started ");
    push_moment(run.started.unwrap_or(run.now), lines);
    lines.push('\n');
    for (number, role) in unit.roles.iter().enumerate() {
        push(lines, format_args!("role {} members={}\n", role.identifier, run.count_members(number)));
    }
    for play in &unit.plays {
        push(lines, format_args!("play {} {}\n", play.head.identifier, state_of(play.done)));
        for number in &play.acts {
            let (act, opened) = (&unit.acts[*number], run.act_opened[*number]);
            let state = |done: Done| if opened.is_none() && !is_done(done) { "waiting" } else { state_of(done) };
            push(lines, format_args!("act {} {}", act.head.identifier, state(act.done)));
            if let Some(moment) = opened {
                lines.push(' ');
                push_moment(moment, lines);
            }
            lines.push('\n');
            for part in act.parts.iter().map(|part| &unit.parts[*part]) {
                push(lines, format_args!("part {} {}\n", part.head.identifier, state(part.done)));
            }
        }
    }
    push(lines, format_args!("unit {} {}\nnotices {}\n", unit.head.identifier, state_of(unit.done), run.outbox.len()));
}
