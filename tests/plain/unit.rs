//! A unit, read from the documents of its folder: every identifier is looked up here once and stands as a number after.
use crate::json::{self, Json};
use crate::run::Store;
use crate::value::{Datatype, Restrictions, Seen, Value};
use std::collections::HashMap;
use std::fs;
use std::path::Path;

pub struct Unit {
    pub head: Head,
    pub turns: u64,
    pub names: HashMap<String, Named>,
    pub roles: Vec<Role>,
    pub properties: Vec<Property>,
    pub environments: Vec<Environment>,
    pub activities: Vec<Activity>,
    pub structures: Vec<Structure>,
    pub plays: Vec<Play>,
    pub acts: Vec<Act>,
    pub parts: Vec<Part>,
    pub ending: Ending,
    pub done: Done,
    pub conditions: Vec<Condition>,
    pub notices: Vec<Notice>,
    pub rules: Vec<Rule>,
    /// Of each thing by its number, whether it is visible at first.
    pub visible: Vec<bool>,
}

impl Unit {
    /// Whether each person has a value of the property.
    pub fn is_of_person(&self, property: usize) -> bool {
        matches!(self.properties[property].place, Place::Person | Place::Own(_))
    }

    /// The roles of which a person who holds these is a member.
    pub fn member_of(&self, held: u64) -> u64 {
        let roles = self.roles.iter().enumerate().filter(|(number, _)| held >> number & 1 == 1);
        roles.fold(0, |member, (_, role)| member | role.reach)
    }
}

#[derive(Clone, Copy)]
pub enum Named {
    Unit,
    Role(usize),
    Property(usize),
    Environment(usize),
    Activity(usize),
    Structure(usize),
    Play(usize),
    Act(usize),
    Part(usize),
}

/// What all things have; `thing` is the number by which a thing is shown or hidden.
pub struct Head {
    pub identifier: String,
    pub title: Option<String>,
    pub thing: usize,
}

pub struct Role {
    pub identifier: String,
    pub parent: Option<usize>,
    /// The role and all within which it stands, as bits.
    pub reach: u64,
    pub is_exclusive: bool,
    pub least: u64,
    pub most: u64,
}

/// Where the values of a property stand: in the run, with each person of it, or in the store by this number.
#[derive(Clone, Copy)]
pub enum Place {
    Run,
    Person,
    Shared(usize),
    Own(usize),
}

pub struct Property {
    pub place: Place,
    pub datatype: Datatype,
    pub role: Option<usize>,
    pub initial: Option<Value>,
    pub restrictions: Restrictions,
}

impl Property {
    pub fn accepts(&self, value: Seen<'_>) -> bool {
        let is_of_datatype = match value {
            Value::Text(text) => self.datatype.read(text).is_some(),
            _ => true,
        };
        is_of_datatype && self.restrictions.are_met(value)
    }
}

pub struct Item {
    pub head: Head,
    pub href: String,
}

pub struct Environment {
    pub head: Head,
    pub objects: Vec<(Head, Vec<Item>)>,
    pub services: Vec<(Head, String)>,
    pub environments: Vec<usize>,
}

pub struct Activity {
    pub head: Head,
    pub is_support: bool,
    pub environments: Vec<usize>,
    pub items: Vec<Item>,
    pub ending: Ending,
    pub done: Done,
    /// The roles of the role-parts that reach it, as bits.
    pub roles: u64,
}

pub struct Structure {
    pub head: Head,
    pub is_sequence: bool,
    /// How many children have to be done, where not all.
    pub least: Option<usize>,
    pub environments: Vec<usize>,
    pub children: Vec<Target>,
    pub done: Done,
}

#[derive(Clone, Copy)]
pub enum Target {
    Activity(usize),
    Structure(usize),
    Environment(usize),
}

pub struct Play {
    pub head: Head,
    pub acts: Vec<usize>,
    pub ending: Ending,
    pub done: Done,
}

pub struct Act {
    pub head: Head,
    pub parts: Vec<usize>,
    /// What is said of the act before it, of the first one nothing.
    pub before: Option<Done>,
    pub ending: Ending,
    pub done: Done,
}

pub struct Part {
    pub head: Head,
    pub act: usize,
    pub role: usize,
    pub target: Target,
    pub done: Done,
}

/// When a thing is completed, if that is said, and what follows.
pub struct Ending {
    pub completion: Option<Completion>,
    pub feedback: Vec<Item>,
    pub changes: Vec<Change>,
    pub notices: Vec<usize>,
}

pub enum Completion {
    Choice,
    Limit(i64),
    Property(usize, Option<Value>),
    All(Vec<Done>),
    Members(usize, Test),
}

/// The rule by whose mark a thing is done: with the person, with the run, or none.
#[derive(Clone, Copy)]
pub enum Done {
    Person(usize),
    Run(usize),
    Never,
}

pub struct Change {
    pub property: usize,
    pub term: Term,
}

pub struct Notice {
    /// The roles as bits.
    pub roles: u64,
    pub subject: String,
    pub activity: Option<usize>,
}

pub struct Condition {
    pub test: Test,
    pub then: Vec<Action>,
    pub otherwise: Vec<Action>,
}

pub enum Action {
    See(Vec<usize>, bool),
    Change(Change),
    Notify(usize),
}

pub enum Test {
    Compare(Comparison, Term, Term),
    And(Vec<Test>),
    Or(Vec<Test>),
    Not(Box<Test>),
    NoValue(usize),
    IsMember(usize),
    Users(usize, Box<Test>),
    Complete(Done),
}

#[derive(Clone, Copy)]
pub enum Comparison {
    Is,
    IsNot,
    Greater,
    Less,
}

pub enum Term {
    Property(usize),
    Literal(Value),
    Worked(Operator, Vec<Term>),
    Now,
    Opened(usize),
    Started,
}

#[derive(Clone, Copy)]
pub enum Operator {
    Sum,
    Multiply,
    Subtract,
    Divide,
}

#[derive(Clone, Copy)]
pub enum Rule {
    Activity(usize),
    Structure(usize),
    Opening(usize),
    Part(usize),
    Act(usize),
    Play(usize),
    Unit,
    Condition(usize),
}

impl Rule {
    pub fn is_personal(self) -> bool {
        matches!(self, Rule::Activity(_) | Rule::Structure(_) | Rule::Condition(_))
    }
}

/// What has been read so far of a unit.
#[derive(Default)]
struct Builder {
    names: HashMap<String, Named>,
    /// By the numbers of the things: how each is done, where it can be.
    activities: Vec<Done>,
    structures: Vec<Done>,
    plays: Vec<Done>,
    acts: Vec<Done>,
    parts: Vec<Done>,
    unit: Option<Done>,
    datatypes: Vec<Datatype>,
    rules: Vec<Rule>,
    things: HashMap<String, usize>,
    visible: Vec<bool>,
    notices: Vec<Notice>,
}

impl Builder {
    fn name(&mut self, json: &Json, named: Named) {
        self.names.insert(json.part("identifier").text().to_owned(), named);
    }

    /// Adds a rule, and says how what it is about is done.
    fn rule(&mut self, rule: Rule) -> Done {
        self.rules.push(rule);
        let number = self.rules.len() - 1;
        if rule.is_personal() { Done::Person(number) } else { Done::Run(number) }
    }

    fn rule_if_said(&mut self, json: &Json, rule: Rule) -> Done {
        if json.member("complete").is_some() { self.rule(rule) } else { Done::Never }
    }

    /// Numbers the activities, structures and the method, and makes their rules.
    fn number_method(&mut self, activities: &Json, unit: &Json) {
        for (number, json) in activities.list("activities").iter().enumerate() {
            self.name(json, Named::Activity(number));
            let done = self.rule(Rule::Activity(number));
            self.activities.push(done);
        }
        for (number, json) in activities.list("structures").iter().enumerate() {
            self.name(json, Named::Structure(number));
            let done = self.rule(Rule::Structure(number));
            self.structures.push(done);
        }
        let method = unit.part("method");
        for (number, play) in method.list("plays").iter().enumerate() {
            self.name(play, Named::Play(number));
            for act in play.list("acts") {
                let number = self.acts.len();
                self.name(act, Named::Act(number));
                self.rule(Rule::Opening(number));
                for part in act.list("role-parts") {
                    let number = self.parts.len();
                    self.name(part, Named::Part(number));
                    let done = self.rule(Rule::Part(number));
                    self.parts.push(done);
                }
                let done = self.rule_if_said(act, Rule::Act(number));
                self.acts.push(done);
            }
            let done = self.rule_if_said(play, Rule::Play(number));
            self.plays.push(done);
        }
        self.name(unit, Named::Unit);
        self.unit = Some(self.rule_if_said(method, Rule::Unit));
    }

    fn role(&self, json: &Json) -> usize {
        match self.names[json.text()] {
            Named::Role(number) => number,
            _ => panic!("no role"),
        }
    }

    fn roles(&self, list: &[Json]) -> u64 {
        list.iter().fold(0, |bits, json| bits | 1 << self.role(json))
    }

    fn property(&self, json: &Json) -> usize {
        match self.names[json.text()] {
            Named::Property(number) => number,
            _ => panic!("no property"),
        }
    }

    fn activity(&self, json: &Json) -> usize {
        match self.names[json.text()] {
            Named::Activity(number) => number,
            _ => panic!("no activity"),
        }
    }

    fn target(&self, json: &Json) -> Target {
        match self.names[json.text()] {
            Named::Activity(number) => Target::Activity(number),
            Named::Structure(number) => Target::Structure(number),
            Named::Environment(number) => Target::Environment(number),
            _ => panic!("nothing to do"),
        }
    }

    fn environments(&self, json: &Json) -> Vec<usize> {
        let number = |json: &Json| match self.names[json.text()] {
            Named::Environment(number) => number,
            _ => panic!("no environment"),
        };
        json.list("environments").iter().map(number).collect()
    }

    fn done(&self, json: &Json) -> Done {
        match self.names[json.text()] {
            Named::Activity(number) => self.activities[number],
            Named::Structure(number) => self.structures[number],
            Named::Play(number) => self.plays[number],
            Named::Act(number) => self.acts[number],
            Named::Part(number) => self.parts[number],
            Named::Unit => self.unit.unwrap_or(Done::Never),
            _ => panic!("nothing that is done"),
        }
    }

    fn head(&mut self, json: &Json) -> Head {
        let identifier = json.part("identifier").text().to_owned();
        let thing = self.visible.len();
        self.things.insert(identifier.clone(), thing);
        self.visible.push(!matches!(json.member("visible"), Some(Json::Flag(false))));
        Head { identifier, title: json.part("title").as_text().map(str::to_owned), thing }
    }

    fn items(&mut self, list: &[Json]) -> Vec<Item> {
        list.iter().map(|json| Item { head: self.head(json), href: json.part("href").text().to_owned() }).collect()
    }

    fn environment(&mut self, json: &Json) -> Environment {
        let head = self.head(json);
        let objects = json.list("learning-objects").iter();
        let objects = objects.map(|json| (self.head(json), self.items(json.list("items")))).collect();
        let services = json.list("services").iter();
        let services = services.map(|json| (self.head(json), json.part("kind").text().to_owned())).collect();
        Environment { head, objects, services, environments: self.environments(json) }
    }

    fn activity_of(&mut self, number: usize, json: &Json) -> Activity {
        let head = self.head(json);
        // (objectives and prerequisites are not shown, but may be named)
        self.items(json.list("learning-objectives"));
        self.items(json.list("prerequisites"));
        Activity {
            head,
            is_support: json.part("kind").text() == "support",
            environments: self.environments(json),
            items: self.items(json.list("items")),
            ending: self.ending(json, Done::Never),
            done: self.activities[number],
            roles: 0,
        }
    }

    fn structure_of(&mut self, number: usize, json: &Json) -> Structure {
        let children: Vec<_> = json.list("children").iter().map(|child| self.target(child)).collect();
        Structure {
            head: self.head(json),
            is_sequence: json.part("kind").text() == "sequence",
            least: json.whole("number-to-select").map(|number| number as usize),
            environments: self.environments(json),
            children,
            done: self.structures[number],
        }
    }

    fn act_of(&mut self, number: usize, json: &Json, before: Option<Done>, parts: &mut Vec<Part>) -> Act {
        let head = self.head(json);
        let first = parts.len();
        for json in json.list("role-parts") {
            parts.push(Part {
                head: self.head(json),
                act: number,
                role: self.role(json.part("role")),
                target: self.target(json.part("ref")),
                done: self.parts[parts.len()],
            });
        }
        let parts = (first..parts.len()).collect();
        Act { head, parts, before, ending: self.ending(json, Done::Never), done: self.acts[number] }
    }

    /// The ending of a thing; `last` says how the last act of a play is done.
    fn ending(&mut self, json: &Json, last: Done) -> Ending {
        let after = json.part("on-completion");
        Ending {
            completion: json.member("complete").map(|json| self.completion(json, last)),
            feedback: self.items(after.list("feedback")),
            changes: after.list("change").iter().map(|json| self.change(json)).collect(),
            notices: after.list("notify").iter().map(|json| self.notice(json)).collect(),
        }
    }

    fn completion(&self, json: &Json, last: Done) -> Completion {
        match json.only() {
            ("time-limit", limit) => match Datatype::Span.read(limit.text()) {
                Some(Value::Span(limit)) => Completion::Limit(limit),
                _ => panic!("no duration"),
            },
            ("when-property-value-is-set", json) => {
                let property = self.property(json.part("property"));
                let text = json.member("value").map(Json::text);
                Completion::Property(property, text.and_then(|text| read(self.datatypes[property], text)))
            }
            ("when-role-part-completed" | "when-play-completed", json) => {
                Completion::All(json.elements().iter().map(|json| self.done(json)).collect())
            }
            ("when-condition-true", json) => {
                Completion::Members(self.role(json.part("role")), self.test(json.part("expression")))
            }
            ("when-last-act-completed", _) => Completion::All(vec![last]),
            _ => Completion::Choice,
        }
    }

    fn change(&self, json: &Json) -> Change {
        Change { property: self.property(json.part("property")), term: self.term(json.part("value")) }
    }

    fn notice(&mut self, json: &Json) -> usize {
        self.notices.push(Notice {
            roles: self.roles(json.list("roles")),
            subject: json.part("subject").text().to_owned(),
            activity: json.member("activity").map(|json| self.activity(json)),
        });
        self.notices.len() - 1
    }

    fn action(&mut self, json: &Json) -> Action {
        match json.only() {
            ("change", json) => Action::Change(self.change(json)),
            ("notify", json) => Action::Notify(self.notice(json)),
            (word, json) => {
                let things = json.elements().iter().map(|json| self.things[json.text()]).collect();
                Action::See(things, word == "show")
            }
        }
    }

    fn tests(&self, json: &Json) -> Vec<Test> {
        json.elements().iter().map(|json| self.test(json)).collect()
    }

    fn test(&self, json: &Json) -> Test {
        let compare = |comparison, json: &Json| {
            Test::Compare(comparison, self.term(&json.elements()[0]), self.term(&json.elements()[1]))
        };
        match json.only() {
            ("is", json) => compare(Comparison::Is, json),
            ("is-not", json) => compare(Comparison::IsNot, json),
            ("greater-than", json) => compare(Comparison::Greater, json),
            ("less-than", json) => compare(Comparison::Less, json),
            ("and", json) => Test::And(self.tests(json)),
            ("or", json) => Test::Or(self.tests(json)),
            ("not", json) => Test::Not(Box::new(self.test(json))),
            ("no-value", json) => Test::NoValue(self.property(json)),
            ("is-member-of-role", json) => Test::IsMember(self.role(json)),
            ("users-in-role", json) => {
                Test::Users(self.role(json.part("role")), Box::new(self.test(json.part("expression"))))
            }
            ("complete", json) => Test::Complete(self.done(json)),
            _ => panic!("no test"),
        }
    }

    fn term(&self, json: &Json) -> Term {
        let worked = |operator, json: &Json| {
            Term::Worked(operator, json.elements().iter().map(|json| self.term(json)).collect())
        };
        match json.only() {
            ("property", json) => Term::Property(self.property(json)),
            ("sum", json) => worked(Operator::Sum, json),
            ("multiply", json) => worked(Operator::Multiply, json),
            ("subtract", json) => worked(Operator::Subtract, json),
            ("divide", json) => worked(Operator::Divide, json),
            ("current-datetime", _) => Term::Now,
            ("datetime-activity-started", json) => Term::Opened(self.activity(json)),
            ("time-unit-of-learning-started", _) => Term::Started,
            (word, json) => Term::Literal(read(Datatype::named(word), json.text()).expect("a value")),
        }
    }
}

fn read(datatype: Datatype, text: &str) -> Option<Value> {
    datatype.read(text).map(Seen::kept)
}

fn read_document(folder: &Path, name: &str) -> Json {
    match fs::read_to_string(folder.join(name)) {
        Ok(text) => json::document(&text).expect("a document is JSON"),
        Err(_) => Json::Object(Vec::new()),
    }
}

/// Adds the roles of a list, each before those within it.
fn push_roles(list: &[Json], parent: Option<usize>, roles: &mut Vec<Role>) {
    for json in list {
        let number = roles.len();
        roles.push(Role {
            identifier: json.part("identifier").text().to_owned(),
            parent,
            reach: 1 << number | parent.map_or(0, |parent| roles[parent].reach),
            is_exclusive: json.part("match-persons").text() == "exclusively-in-roles",
            least: json.whole("min-persons").unwrap_or(0),
            most: json.whole("max-persons").unwrap_or(u64::MAX),
        });
        push_roles(json.list("roles"), Some(number), roles);
    }
}

fn restrictions(json: &Json, datatype: Datatype) -> Restrictions {
    let value = |json: &Json| read(datatype, json.text());
    Restrictions {
        least: json.member("minInclusive").and_then(value),
        most: json.member("maxInclusive").and_then(value),
        shortest: json.whole("minLength"),
        longest: json.whole("maxLength"),
        listed: json.list("enumeration").iter().filter_map(value).collect(),
    }
}

fn property(json: &Json, builder: &Builder, store: &mut Store) -> Property {
    let datatype = Datatype::named(json.part("datatype").text());
    let initial = json.member("initial").and_then(|json| read(datatype, json.text()));
    let restrictions = || restrictions(json.part("restrictions"), datatype);
    let uri = json.part("uri").text();
    let mut declare = |is_personal| store.declare(uri, is_personal, datatype, initial.clone(), restrictions());
    let place = match json.part("kind").text() {
        "locpers" => Place::Person,
        "glob" => Place::Shared(declare(false)),
        "globpers" => Place::Own(declare(true)),
        _ => Place::Run,
    };
    let role = json.member("role").map(|json| builder.role(json));
    Property { place, datatype, role, restrictions: restrictions(), initial }
}

/// The activities that a target leads to get the role.
fn reach(target: Target, role: usize, structures: &[Structure], seen: &mut [bool], activities: &mut [Activity]) {
    match target {
        Target::Activity(number) => activities[number].roles |= 1 << role,
        Target::Structure(number) if !seen[number] => {
            seen[number] = true;
            for child in &structures[number].children {
                reach(*child, role, structures, seen, activities);
            }
        }
        _ => {}
    }
}

/// The unit of a folder whose documents are valid.
pub fn read_unit(folder: &Path, store: &mut Store) -> Unit {
    let document = |name| read_document(folder, name);
    let (activities, unit) = (document("activities.json"), document("unit.json"));
    let mut builder = Builder::default();
    let mut roles = Vec::new();
    push_roles(document("roles.json").list("roles"), None, &mut roles);
    for (number, role) in roles.iter().enumerate() {
        builder.names.insert(role.identifier.clone(), Named::Role(number));
    }
    let mut properties = Vec::new();
    for (number, json) in document("properties.json").list("properties").iter().enumerate() {
        builder.name(json, Named::Property(number));
        properties.push(property(json, &builder, store));
    }
    builder.datatypes = properties.iter().map(|property| property.datatype).collect();
    let environments = document("environments.json");
    for (number, json) in environments.list("environments").iter().enumerate() {
        builder.name(json, Named::Environment(number));
    }
    builder.number_method(&activities, &unit);
    let environments = environments.list("environments").iter().map(|json| builder.environment(json)).collect();
    let with_numbers = |name| activities.list(name).iter().enumerate();
    let mut activities: Vec<_> = with_numbers("activities").map(|it| builder.activity_of(it.0, it.1)).collect();
    let structures: Vec<_> = with_numbers("structures").map(|it| builder.structure_of(it.0, it.1)).collect();
    let head = builder.head(&unit);
    builder.items(unit.list("learning-objectives"));
    builder.items(unit.list("prerequisites"));
    let method = unit.part("method");
    let (mut plays, mut acts, mut parts) = (Vec::new(), Vec::new(), Vec::new());
    for json in method.list("plays") {
        let head = builder.head(json);
        let mut before = None;
        let first = acts.len();
        for json in json.list("acts") {
            let act = builder.act_of(acts.len(), json, before, &mut parts);
            before = Some(act.done);
            acts.push(act);
        }
        let ending = builder.ending(json, before.unwrap_or(Done::Never));
        plays.push(Play { head, acts: (first..acts.len()).collect(), ending, done: builder.plays[plays.len()] });
    }
    let ending = builder.ending(method, Done::Never);
    let mut conditions = Vec::new();
    for json in document("conditions.json").list("conditions") {
        builder.rule(Rule::Condition(conditions.len()));
        conditions.push(Condition {
            test: builder.test(json.part("if")),
            then: json.list("then").iter().map(|json| builder.action(json)).collect(),
            otherwise: json.list("else").iter().map(|json| builder.action(json)).collect(),
        });
    }
    for part in &parts {
        reach(part.target, part.role, &structures, &mut vec![false; structures.len()], &mut activities);
    }
    Unit {
        head,
        turns: unit.whole("turns").unwrap_or(64),
        names: builder.names,
        roles,
        properties,
        environments,
        activities,
        structures,
        plays,
        acts,
        parts,
        ending,
        done: builder.unit.unwrap_or(Done::Never),
        conditions,
        notices: builder.notices,
        rules: builder.rules,
        visible: builder.visible,
    }
}
