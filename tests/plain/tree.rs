//! A person's activity tree: its lines, and which activities are open in it.
use crate::json;
use crate::rules::View;
use crate::unit::{Done, Head, Item, Target};

pub struct Tree<'a> {
    pub view: View<'a>,
    pub person: usize,
    /// The lines so far and their number.
    pub text: String,
    pub count: u64,
}

fn state_of(is_done: bool) -> &'static str {
    if is_done { "done" } else { "open" }
}

impl<'a> Tree<'a> {
    fn is_visible(&self, head: &Head) -> bool {
        self.view.run.persons[self.person].visible[head.thing]
    }

    fn is_done(&self, done: Done) -> bool {
        self.view.is_done(done, Some(self.person))
    }

    fn line(&mut self, depth: usize, word: &str, head: &Head, state: &str) {
        self.count += 1;
        for _ in 0..depth {
            self.text.push_str("  ");
        }
        self.text.push_str(word);
        self.text.push(' ');
        self.text.push_str(&head.identifier);
        if !state.is_empty() {
            self.text.push(' ');
            self.text.push_str(state);
        }
        if let Some(title) = &head.title {
            self.text.push(' ');
            json::push_text(title, &mut self.text);
        }
        self.text.push('\n');
    }

    fn items(&mut self, depth: usize, items: &[Item]) {
        for item in items {
            if self.is_visible(&item.head) {
                self.line(depth, "item", &item.head, &item.href);
            }
        }
    }

    /// The act that is open now: the first of the play's that is not done, if nothing above is done and it is opened.
    fn open_act(&self, play: usize) -> Option<usize> {
        let unit = self.view.unit;
        let play = &unit.plays[play];
        if self.is_done(unit.done) || self.is_done(play.done) {
            return None;
        }
        let act = play.acts.iter().copied().find(|act| !self.is_done(unit.acts[*act].done))?;
        self.view.run.act_opened[act].map(|_| act)
    }

    fn is_member(&self, role: usize) -> bool {
        self.view.run.persons[self.person].member >> role & 1 == 1
    }

    pub fn write(&mut self) {
        let unit = self.view.unit;
        let is_done = self.is_done(unit.done);
        self.line(0, "unit", &unit.head, state_of(is_done));
        if is_done {
            self.items(1, &unit.ending.feedback);
        }
        for number in 0..unit.plays.len() {
            if self.is_visible(&unit.plays[number].head) {
                self.play(number);
            }
        }
    }

    fn play(&mut self, number: usize) {
        let unit = self.view.unit;
        let play = &unit.plays[number];
        let is_done = self.is_done(play.done);
        self.line(1, "play", &play.head, state_of(is_done));
        if is_done {
            self.items(2, &play.ending.feedback);
        }
        for act in &play.acts {
            let act = &unit.acts[*act];
            if self.is_done(act.done) {
                self.line(2, "act", &act.head, "done");
                self.items(3, &act.ending.feedback);
            }
        }
        if let Some(act) = self.open_act(number) {
            self.line(2, "act", &unit.acts[act].head, "open");
            for part in &unit.acts[act].parts {
                let part = &unit.parts[*part];
                if self.is_member(part.role) {
                    self.line(3, "part", &part.head, state_of(self.is_done(part.done)));
                    self.target(4, part.target, true);
                }
            }
        }
    }

    fn target(&mut self, depth: usize, target: Target, is_open: bool) {
        match target {
            Target::Activity(number) => self.activity(depth, number, is_open),
            Target::Structure(number) => self.structure(depth, number, is_open),
            Target::Environment(number) => self.environment(depth, number),
        }
    }

    fn activity(&mut self, depth: usize, number: usize, is_open: bool) {
        let activity = &self.view.unit.activities[number];
        if !self.is_visible(&activity.head) {
            return;
        }
        let is_done = self.is_done(activity.done);
        let word = if activity.is_support { "support" } else { "activity" };
        if !is_done && !is_open {
            return self.line(depth, word, &activity.head, "closed");
        }
        self.line(depth, word, &activity.head, state_of(is_done));
        self.environments(depth + 1, &activity.environments);
        self.items(depth + 1, &activity.items);
        if is_done {
            self.items(depth + 1, &activity.ending.feedback);
        }
    }

    fn structure(&mut self, depth: usize, number: usize, is_open: bool) {
        let structure = &self.view.unit.structures[number];
        if !self.is_visible(&structure.head) {
            return;
        }
        let is_done = self.is_done(structure.done);
        if !is_done && !is_open {
            return self.line(depth, "structure", &structure.head, "closed");
        }
        self.line(depth, "structure", &structure.head, state_of(is_done));
        self.environments(depth + 1, &structure.environments);
        let mut is_open = is_open;
        for child in &structure.children {
            self.target(depth + 1, *child, is_open);
            is_open = is_open && !(structure.is_sequence && self.is_ahead(*child));
        }
    }

    /// Whether a child of a sequence is still to be done before the next one.
    fn is_ahead(&self, child: Target) -> bool {
        let unit = self.view.unit;
        let (head, done) = match child {
            Target::Activity(number) => (&unit.activities[number].head, unit.activities[number].done),
            Target::Structure(number) => (&unit.structures[number].head, unit.structures[number].done),
            Target::Environment(_) => return false,
        };
        self.is_visible(head) && !self.is_done(done)
    }

    fn environments(&mut self, depth: usize, numbers: &[usize]) {
        for number in numbers {
            self.environment(depth, *number);
        }
    }

    fn environment(&mut self, depth: usize, number: usize) {
        let environment = &self.view.unit.environments[number];
        if !self.is_visible(&environment.head) {
            return;
        }
        self.line(depth, "environment", &environment.head, "");
        for (head, items) in &environment.objects {
            if self.is_visible(head) {
                self.line(depth + 1, "object", head, "");
                self.items(depth + 2, items);
            }
        }
        for (head, kind) in &environment.services {
            if self.is_visible(head) {
                self.line(depth + 1, "service", head, kind);
            }
        }
        self.environments(depth + 1, &environment.environments);
    }

    /// Whether a line of the tree shows the activity as open.
    pub fn has_open(&self, activity: usize) -> bool {
        let unit = self.view.unit;
        let one = &unit.activities[activity];
        if !self.is_visible(&one.head) || self.is_done(one.done) {
            return false;
        }
        let plays = (0..unit.plays.len()).filter(|play| self.is_visible(&unit.plays[*play].head));
        let mut parts = plays.filter_map(|play| self.open_act(play)).flat_map(|act| &unit.acts[act].parts);
        parts.any(|part| {
            let part = &unit.parts[*part];
            self.is_member(part.role) && self.leads_to(part.target, activity)
        })
    }

    /// Whether the activity is shown as open within a target that is open.
    fn leads_to(&self, target: Target, activity: usize) -> bool {
        match target {
            Target::Activity(number) => number == activity,
            Target::Environment(_) => false,
            Target::Structure(number) => {
                let structure = &self.view.unit.structures[number];
                if !self.is_visible(&structure.head) {
                    return false;
                }
                for child in &structure.children {
                    if self.leads_to(*child, activity) {
                        return true;
                    }
                    if structure.is_sequence && self.is_ahead(*child) {
                        return false;
                    }
                }
                false
            }
        }
    }
}
