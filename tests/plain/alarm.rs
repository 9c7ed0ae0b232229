//! The next alarm of a run: the first later moment at which the test of a site differs from its mark.
use crate::rules::View;
use crate::run::Owner;
use crate::unit::{Completion, Ending, Rule, Term, Test};
use crate::value::{LAST_MOMENT, Value};

/// The first moment after the run's last one at which a site is due, if time alone goes on.
pub fn next_alarm(view: View<'_>) -> Option<i64> {
    let mut found = None;
    for (number, rule) in view.unit.rules.iter().enumerate() {
        if rule.is_personal() {
            for person in 0..view.run.persons.len() {
                look_at(view, number, *rule, Some(person), &mut found);
            }
        } else {
            look_at(view, number, *rule, None, &mut found);
        }
    }
    found
}

/// Asks a site at the moments at which time may switch it, as far as they are before what was found.
fn look_at(view: View<'_>, number: usize, rule: Rule, owner: Owner, found: &mut Option<i64>) {
    let mark = view.run.marks[number][owner.unwrap_or(0)];
    if mark == Some(true) && !matches!(rule, Rule::Condition(_)) {
        return;
    }
    let mut moments = Vec::new();
    add_switches(view, rule, owner, &mut moments);
    moments.retain(|moment| (view.now + 1..=found.unwrap_or(LAST_MOMENT)).contains(moment));
    moments.sort_unstable();
    let is_due = |moment: &i64| mark != Some(View { now: *moment, ..view }.says(rule, owner));
    if let Some(moment) = moments.into_iter().find(is_due) {
        *found = Some(moment);
    }
}

/// The moments at which time alone may switch the test of a site.
fn add_switches(view: View<'_>, rule: Rule, owner: Owner, moments: &mut Vec<i64>) {
    let (unit, run) = (view.unit, view.run);
    match rule {
        Rule::Condition(number) => add_of_test(view, &unit.conditions[number].test, owner, moments),
        Rule::Activity(number) => {
            let opened = owner.and_then(|person| run.opened[number][person]);
            add_of_ending(view, &unit.activities[number].ending, opened, moments);
        }
        Rule::Act(number) => add_of_ending(view, &unit.acts[number].ending, run.act_opened[number], moments),
        Rule::Play(number) => add_of_ending(view, &unit.plays[number].ending, run.started, moments),
        Rule::Unit => add_of_ending(view, &unit.ending, run.started, moments),
        Rule::Structure(_) | Rule::Opening(_) | Rule::Part(_) => {}
    }
}

fn add_of_ending(view: View<'_>, ending: &Ending, beginning: Option<i64>, moments: &mut Vec<i64>) {
    match &ending.completion {
        Some(Completion::Limit(limit)) => moments.extend(beginning.map(|beginning| beginning + limit)),
        Some(Completion::Members(role, test)) => add_of_members(view, *role, test, moments),
        _ => {}
    }
}

fn add_of_members(view: View<'_>, role: usize, test: &Test, moments: &mut Vec<i64>) {
    for person in view.run.members(1 << role) {
        add_of_test(view, test, Some(person), moments);
    }
}

fn add_of_test(view: View<'_>, test: &Test, owner: Owner, moments: &mut Vec<i64>) {
    match test {
        Test::Compare(_, Term::Now, other) | Test::Compare(_, other, Term::Now) => {
            if let Some(Value::Moment(moment)) = view.term(other, owner) {
                moments.extend([moment, moment + 1]);
            }
        }
        Test::And(tests) | Test::Or(tests) => tests.iter().for_each(|test| add_of_test(view, test, owner, moments)),
        Test::Not(test) => add_of_test(view, test, owner, moments),
        Test::Users(role, test) => add_of_members(view, *role, test, moments),
        _ => {}
    }
}
