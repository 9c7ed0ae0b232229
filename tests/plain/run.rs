//! The state of a run, the store of global values, and what takes a command back.
use crate::unit::{Place, Rule, Unit};
use crate::value::{Datatype, Restrictions, Seen, Value};
use std::collections::HashMap;

/// The values that all runs share.
#[derive(Default)]
pub struct Store {
    pub numbers: HashMap<String, usize>,
    pub globals: Vec<Global>,
    /// Each person by name, in any run or none.
    persons: HashMap<String, usize>,
}

pub struct Global {
    pub is_personal: bool,
    pub datatype: Datatype,
    pub restrictions: Restrictions,
    initial: Option<Value>,
    /// The values of persons by their number in the store, or the one that all share; behind the end the initial one.
    values: Vec<Option<Value>>,
}

impl Store {
    pub fn declare(
        &mut self,
        uri: &str,
        is_personal: bool,
        datatype: Datatype,
        initial: Option<Value>,
        restrictions: Restrictions,
    ) -> usize {
        if let Some(number) = self.numbers.get(uri) {
            return *number;
        }
        self.numbers.insert(uri.to_owned(), self.globals.len());
        self.globals.push(Global { is_personal, datatype, restrictions, initial, values: Vec::new() });
        self.globals.len() - 1
    }

    pub fn person(&mut self, name: &str) -> usize {
        if let Some(number) = self.persons.get(name) {
            return *number;
        }
        self.persons.insert(name.to_owned(), self.persons.len());
        self.persons.len() - 1
    }

    pub fn known_person(&self, name: &str) -> Option<usize> {
        self.persons.get(name).copied()
    }

    pub fn get(&self, number: usize, person: usize) -> Option<&Value> {
        let global = &self.globals[number];
        global.values.get(person).unwrap_or(&global.initial).as_ref()
    }

    /// Puts the value in, and gives back the one before.
    pub fn set(&mut self, number: usize, person: usize, value: Option<Value>) -> Option<Value> {
        let global = &mut self.globals[number];
        if global.values.len() <= person {
            global.values.resize(person + 1, global.initial.clone());
        }
        std::mem::replace(&mut global.values[person], value)
    }
}

pub struct Person {
    /// Its number in the store.
    pub number: usize,
    /// The roles that the person holds, and those that the person is a member of, as bits.
    pub held: u64,
    pub member: u64,
    /// By thing.
    pub visible: Vec<bool>,
}

pub struct Sent {
    pub moment: i64,
    pub notice: usize,
    pub to: Vec<usize>,
}

/// The person of a site or a term, or none where it is the run's.
pub type Owner = Option<usize>;

pub struct Run {
    pub unit: usize,
    pub now: i64,
    pub started: Option<i64>,
    pub persons: Vec<Person>,
    pub seats: HashMap<String, usize>,
    /// By property, then by person where each has one. Those of global properties stand in the store.
    pub values: Vec<Vec<Option<Value>>>,
    pub act_opened: Vec<Option<i64>>,
    /// By activity, then by person.
    pub chosen: Vec<Vec<bool>>,
    pub opened: Vec<Vec<Option<i64>>>,
    /// By rule, then by person where it has a site with each; none where a condition was never judged.
    pub marks: Vec<Vec<Option<bool>>>,
    pub outbox: Vec<Sent>,
    /// What takes the present command back, from the first change on.
    changes: Vec<Old>,
}

enum Old {
    Now(i64),
    Started,
    Enrolled(String),
    Roles(usize, u64, u64),
    Value(usize, usize, Option<Value>),
    Global(usize, usize, Option<Value>),
    ActOpened(usize),
    Chosen(usize, usize, bool),
    Opened(usize, usize),
    Mark(usize, usize, Option<bool>),
    Visible(usize, usize, bool),
    Sent,
}

fn first_mark(rule: Rule) -> Option<bool> {
    if matches!(rule, Rule::Condition(_)) { None } else { Some(false) }
}

impl Run {
    pub fn new(number: usize, unit: &Unit, moment: i64) -> Run {
        let value_of_run = |place: Place, initial: &Option<Value>| match place {
            Place::Run => vec![initial.clone()],
            _ => Vec::new(),
        };
        let mark_of_run = |rule: &Rule| if rule.is_personal() { Vec::new() } else { vec![first_mark(*rule)] };
        Run {
            unit: number,
            now: moment,
            started: None,
            persons: Vec::new(),
            seats: HashMap::new(),
            values: unit.properties.iter().map(|each| value_of_run(each.place, &each.initial)).collect(),
            act_opened: vec![None; unit.acts.len()],
            chosen: vec![Vec::new(); unit.activities.len()],
            opened: vec![Vec::new(); unit.activities.len()],
            marks: unit.rules.iter().map(mark_of_run).collect(),
            outbox: Vec::new(),
            changes: Vec::new(),
        }
    }

    /// From here on changes can be taken back.
    pub fn begin(&mut self, moment: i64) {
        self.changes.clear();
        self.changes.push(Old::Now(self.now));
        self.now = moment;
    }

    pub fn take_back(&mut self, unit: &Unit, store: &mut Store) {
        while let Some(old) = self.changes.pop() {
            match old {
                Old::Now(moment) => self.now = moment,
                Old::Started => self.started = None,
                Old::Enrolled(name) => self.leave(unit, &name),
                Old::Roles(person, held, member) => {
                    (self.persons[person].held, self.persons[person].member) = (held, member);
                }
                Old::Value(property, owner, value) => self.values[property][owner] = value,
                Old::Global(number, person, value) => drop(store.set(number, person, value)),
                Old::ActOpened(act) => self.act_opened[act] = None,
                Old::Chosen(activity, person, was) => self.chosen[activity][person] = was,
                Old::Opened(activity, person) => self.opened[activity][person] = None,
                Old::Mark(rule, owner, mark) => self.marks[rule][owner] = mark,
                Old::Visible(person, thing, was) => self.persons[person].visible[thing] = was,
                Old::Sent => drop(self.outbox.pop()),
            }
        }
    }

    pub fn enrol(&mut self, unit: &Unit, name: &str, number: usize) {
        self.seats.insert(name.to_owned(), self.persons.len());
        self.persons.push(Person { number, held: 0, member: 0, visible: unit.visible.clone() });
        for (property, values) in unit.properties.iter().zip(&mut self.values) {
            if matches!(property.place, Place::Person) {
                values.push(property.initial.clone());
            }
        }
        self.chosen.iter_mut().for_each(|chosen| chosen.push(false));
        self.opened.iter_mut().for_each(|opened| opened.push(None));
        for (rule, marks) in unit.rules.iter().zip(&mut self.marks) {
            if rule.is_personal() {
                marks.push(first_mark(*rule));
            }
        }
        self.changes.push(Old::Enrolled(name.to_owned()));
    }

    /// The last person is gone again.
    fn leave(&mut self, unit: &Unit, name: &str) {
        self.seats.remove(name);
        self.persons.pop();
        let count = self.persons.len();
        for (property, values) in unit.properties.iter().zip(&mut self.values) {
            if matches!(property.place, Place::Person) {
                values.truncate(count);
            }
        }
        self.chosen.iter_mut().for_each(|chosen| chosen.truncate(count));
        self.opened.iter_mut().for_each(|opened| opened.truncate(count));
        for (rule, marks) in unit.rules.iter().zip(&mut self.marks) {
            if rule.is_personal() {
                marks.truncate(count);
            }
        }
    }

    pub fn hold(&mut self, unit: &Unit, person: usize, held: u64) {
        let it = &mut self.persons[person];
        self.changes.push(Old::Roles(person, it.held, it.member));
        it.held = held;
        it.member = unit.member_of(held);
    }

    pub fn start(&mut self) {
        self.changes.push(Old::Started);
        self.started = Some(self.now);
    }

    pub fn open_act(&mut self, act: usize) {
        self.changes.push(Old::ActOpened(act));
        self.act_opened[act] = Some(self.now);
    }

    pub fn open(&mut self, activity: usize, person: usize) {
        if self.opened[activity][person].is_none() {
            self.changes.push(Old::Opened(activity, person));
            self.opened[activity][person] = Some(self.now);
        }
    }

    pub fn choose(&mut self, activity: usize, person: usize) {
        self.changes.push(Old::Chosen(activity, person, self.chosen[activity][person]));
        self.chosen[activity][person] = true;
    }

    pub fn mark(&mut self, rule: usize, owner: usize, says: bool) {
        let old = self.marks[rule][owner].replace(says);
        self.changes.push(Old::Mark(rule, owner, old));
    }

    pub fn see(&mut self, person: usize, thing: usize, is_visible: bool) {
        let visible = &mut self.persons[person].visible[thing];
        self.changes.push(Old::Visible(person, thing, *visible));
        *visible = is_visible;
    }

    pub fn send(&mut self, notice: usize, roles: u64) {
        let to = self.members(roles).collect();
        self.outbox.push(Sent { moment: self.now, notice, to });
        self.changes.push(Old::Sent);
    }

    /// The members of any of the roles, in the order of enrolment.
    pub fn members(&self, roles: u64) -> impl Iterator<Item = usize> + '_ {
        let persons = self.persons.iter().enumerate();
        persons.filter(move |(_, person)| person.member & roles != 0).map(|(number, _)| number)
    }

    pub fn count_members(&self, role: usize) -> u64 {
        self.members(1 << role).count() as u64
    }

    /// The value of a property, the person's own one where each person has one.
    pub fn value<'a>(&'a self, unit: &Unit, store: &'a Store, property: usize, owner: Owner) -> Option<Seen<'a>> {
        let value = match (unit.properties[property].place, owner) {
            (Place::Run, _) => self.values[property][0].as_ref(),
            (Place::Person, Some(person)) => self.values[property][person].as_ref(),
            (Place::Shared(number), _) => store.get(number, 0),
            (Place::Own(number), Some(person)) => store.get(number, self.persons[person].number),
            (Place::Person | Place::Own(_), None) => None,
        };
        value.map(Value::seen)
    }

    pub fn set(&mut self, unit: &Unit, store: &mut Store, property: usize, owner: Owner, value: Option<Value>) {
        let person = owner.unwrap_or(0);
        let old = match unit.properties[property].place {
            Place::Run => Old::Value(property, 0, std::mem::replace(&mut self.values[property][0], value)),
            Place::Person => Old::Value(property, person, std::mem::replace(&mut self.values[property][person], value)),
            Place::Shared(number) => Old::Global(number, 0, store.set(number, 0, value)),
            Place::Own(number) => {
                let person = self.persons[person].number;
                Old::Global(number, person, store.set(number, person, value))
            }
        };
        self.changes.push(old);
    }
}
