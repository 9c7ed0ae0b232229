//! Tests, terms, completion, and the firing of sites, in sweeps over all of them.
use crate::run::{Owner, Run, Store};
use crate::unit::{Action, Change, Comparison, Completion, Done, Ending, Operator, Rule, Target, Term, Test, Unit};
use crate::value::{Seen, Value};
use std::cmp::Ordering;

/// Where questions about a run are answered.
#[derive(Clone, Copy)]
pub struct View<'a> {
    pub unit: &'a Unit,
    pub run: &'a Run,
    pub store: &'a Store,
    /// The moment, which is the run's last one where nothing else is asked.
    pub now: i64,
}

impl<'a> View<'a> {
    pub fn is_done(self, done: Done, owner: Owner) -> bool {
        match (done, owner) {
            (Done::Person(rule), Some(person)) => self.run.marks[rule][person] == Some(true),
            (Done::Run(rule), _) => self.run.marks[rule][0] == Some(true),
            _ => false,
        }
    }

    fn value(self, property: usize, owner: Owner) -> Option<Seen<'a>> {
        self.run.value(self.unit, self.store, property, owner)
    }

    pub fn term(self, term: &'a Term, owner: Owner) -> Option<Seen<'a>> {
        match term {
            Term::Property(property) => self.value(*property, owner),
            Term::Literal(value) => Some(value.seen()),
            Term::Now => Some(Value::Moment(self.now)),
            Term::Opened(activity) => self.run.opened[*activity][owner?].map(Value::Moment),
            Term::Started => self.run.started.map(Value::Moment),
            Term::Worked(operator, terms) => {
                let mut terms = terms.iter().map(|term| self.term(term, owner));
                let first = terms.next()??;
                terms.try_fold(first, |sum, term| match operator {
                    Operator::Sum => sum.sum(term?),
                    Operator::Multiply => sum.product(term?),
                    Operator::Subtract => sum.difference(term?),
                    Operator::Divide => sum.quotient(term?),
                })
            }
        }
    }

    fn compares(self, comparison: Comparison, first: &'a Term, second: &'a Term, owner: Owner) -> bool {
        let (Some(first), Some(second)) = (self.term(first, owner), self.term(second, owner)) else {
            return false;
        };
        match comparison {
            Comparison::Is => first == second,
            Comparison::IsNot => first != second,
            Comparison::Greater => first.compared(second) == Some(Ordering::Greater),
            Comparison::Less => first.compared(second) == Some(Ordering::Less),
        }
    }

    fn holds(self, test: &'a Test, owner: Owner) -> bool {
        match test {
            Test::Compare(comparison, first, second) => self.compares(*comparison, first, second, owner),
            Test::And(tests) => tests.iter().all(|test| self.holds(test, owner)),
            Test::Or(tests) => tests.iter().any(|test| self.holds(test, owner)),
            Test::Not(test) => !self.holds(test, owner),
            Test::NoValue(property) => self.value(*property, owner).is_none(),
            Test::IsMember(role) => owner.is_some_and(|person| self.run.persons[person].member >> role & 1 == 1),
            Test::Users(role, test) => self.holds_for_members(*role, test),
            Test::Complete(done) => self.is_done(*done, owner),
        }
    }

    /// Whether the role has a member, and the test holds for each.
    fn holds_for_members(self, role: usize, test: &'a Test) -> bool {
        self.is_so_for_members(role, |person| self.holds(test, Some(person)))
    }

    fn is_so_for_members(self, role: usize, is_so: impl Fn(usize) -> bool) -> bool {
        let mut members = self.run.members(1 << role).peekable();
        members.peek().is_some() && members.all(is_so)
    }

    fn has_passed(self, beginning: Option<i64>, limit: i64) -> bool {
        beginning.is_some_and(|beginning| beginning + limit <= self.now)
    }

    /// Whether the completion rule of an activity for a person, or of what is the run's, holds.
    fn is_completed(self, ending: &'a Ending, beginning: Option<i64>, is_chosen: bool, owner: Owner) -> bool {
        match &ending.completion {
            None => true,
            Some(Completion::Choice) => is_chosen,
            Some(Completion::Limit(limit)) => self.has_passed(beginning, *limit),
            Some(Completion::Property(property, None)) => self.value(*property, owner).is_some(),
            Some(Completion::Property(property, Some(value))) => self.value(*property, owner) == Some(value.seen()),
            Some(Completion::All(all)) => all.iter().all(|done| self.is_done(*done, owner)),
            Some(Completion::Members(role, test)) => self.holds_for_members(*role, test),
        }
    }

    fn is_target_done(self, target: Target, owner: Owner) -> bool {
        match target {
            Target::Activity(number) => self.is_done(self.unit.activities[number].done, owner),
            Target::Structure(number) => self.is_done(self.unit.structures[number].done, owner),
            Target::Environment(_) => true,
        }
    }

    fn is_part_done(self, number: usize) -> bool {
        let part = &self.unit.parts[number];
        self.run.act_opened[part.act].is_some()
            && self.is_so_for_members(part.role, |person| self.is_target_done(part.target, Some(person)))
    }

    /// What the test of a site says whose mark does not say yes, or of a condition.
    pub fn says(self, rule: Rule, owner: Owner) -> bool {
        let (unit, run) = (self.unit, self.run);
        match (rule, owner) {
            (Rule::Activity(number), Some(person)) => {
                let activity = &unit.activities[number];
                let (opened, is_chosen) = (run.opened[number][person], run.chosen[number][person]);
                activity.roles & run.persons[person].member != 0
                    && self.is_completed(&activity.ending, opened, is_chosen, owner)
            }
            (Rule::Structure(number), _) => {
                let structure = &unit.structures[number];
                let mut children = structure.children.iter();
                match structure.least {
                    None => children.all(|child| self.is_target_done(*child, owner)),
                    Some(least) => children.filter(|child| self.is_target_done(**child, owner)).count() >= least,
                }
            }
            (Rule::Condition(number), _) => self.holds(&unit.conditions[number].test, owner),
            (Rule::Opening(number), _) => unit.acts[number].before.is_none_or(|before| self.is_done(before, None)),
            (Rule::Part(number), _) => self.is_part_done(number),
            (Rule::Act(number), _) => {
                let opened = run.act_opened[number];
                opened.is_some() && self.is_completed(&unit.acts[number].ending, opened, false, None)
            }
            (Rule::Play(number), _) => self.is_completed(&unit.plays[number].ending, run.started, false, None),
            (Rule::Unit, _) => self.is_completed(&unit.ending, run.started, false, None),
            (Rule::Activity(_), None) => false,
        }
    }
}

/// The sums over the settlings of a command.
#[derive(Default)]
pub struct Work {
    pub turns: u64,
    pub fired: u64,
    pub rejected: u64,
    pub sent: u64,
}

/// A run at work.
pub struct Course<'a> {
    pub unit: &'a Unit,
    pub run: &'a mut Run,
    pub store: &'a mut Store,
    pub work: Work,
}

impl<'a> Course<'a> {
    pub fn view(&self) -> View<'_> {
        View { unit: self.unit, run: self.run, store: self.store, now: self.run.now }
    }

    /// Sweeps until nothing fires; whether that is within the budget.
    pub fn settle(&mut self) -> bool {
        for _ in 0..=self.unit.turns {
            let fired = self.work.fired;
            self.sweep();
            if self.work.fired == fired {
                return true;
            }
            self.work.turns += 1;
        }
        false
    }

    fn sweep(&mut self) {
        for (number, rule) in self.unit.rules.iter().enumerate() {
            if rule.is_personal() {
                for person in 0..self.run.persons.len() {
                    self.visit(number, *rule, Some(person));
                }
            } else {
                self.visit(number, *rule, None);
            }
        }
    }

    fn visit(&mut self, number: usize, rule: Rule, owner: Owner) {
        let mark = self.run.marks[number][owner.unwrap_or(0)];
        if mark == Some(true) && !matches!(rule, Rule::Condition(_)) {
            return;
        }
        let says = self.view().says(rule, owner);
        if mark != Some(says) {
            self.work.fired += 1;
            self.run.mark(number, owner.unwrap_or(0), says);
            self.follow(rule, owner, says);
        }
    }

    fn follow(&mut self, rule: Rule, owner: Owner, says: bool) {
        let unit = self.unit;
        match rule {
            Rule::Structure(_) | Rule::Part(_) => {}
            Rule::Opening(act) => self.run.open_act(act),
            Rule::Activity(number) => self.finish(&unit.activities[number].ending, owner),
            Rule::Act(number) => self.finish(&unit.acts[number].ending, owner),
            Rule::Play(number) => self.finish(&unit.plays[number].ending, owner),
            Rule::Unit => self.finish(&unit.ending, owner),
            Rule::Condition(number) => {
                let condition = &unit.conditions[number];
                for action in if says { &condition.then } else { &condition.otherwise } {
                    self.act(action, owner);
                }
            }
        }
    }

    fn finish(&mut self, ending: &Ending, owner: Owner) {
        for change in &ending.changes {
            self.change(change, owner);
        }
        for notice in &ending.notices {
            self.notify(*notice);
        }
    }

    fn act(&mut self, action: &Action, owner: Owner) {
        match action {
            Action::See(things, is_visible) => {
                for (person, thing) in owner.into_iter().flat_map(|person| things.iter().map(move |it| (person, it))) {
                    self.run.see(person, *thing, *is_visible);
                }
            }
            Action::Change(change) => self.change(change, owner),
            Action::Notify(notice) => self.notify(*notice),
        }
    }

    fn notify(&mut self, notice: usize) {
        self.run.send(notice, self.unit.notices[notice].roles);
        self.work.sent += 1;
    }

    /// Changes the property of the run, the person's, or that of each person where a site with the run does.
    fn change(&mut self, change: &Change, owner: Owner) {
        if owner.is_none() && self.unit.is_of_person(change.property) {
            for person in 0..self.run.persons.len() {
                self.change_one(change, Some(person));
            }
        } else {
            self.change_one(change, owner);
        }
    }

    fn change_one(&mut self, change: &Change, owner: Owner) {
        let property = &self.unit.properties[change.property];
        let value = self.view().term(&change.term, owner).filter(|value| property.accepts(*value)).map(Seen::kept);
        match value {
            Some(_) => self.run.set(self.unit, self.store, change.property, owner, value),
            None => self.work.rejected += 1,
        }
    }
}
