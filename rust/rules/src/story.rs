//! The alternatives of a run, as they fork: where each was made, what it was worked on, and what became of it.

use mespindro::{Rule, Standing};

use crate::follow::Step;
use crate::notation::Names;
use crate::redex::part_at;
use crate::run::RuleSet;
use crate::term::{Program, Term};
use crate::trace::what;

/// Values in sentences are no longer than this.
const WIDTH: usize = 60;

/// An alternative from where it was made to where it forks or ends.
pub struct Branch {
    /// What it has that its siblings have not.
    pub own: Term,
    /// The step that made it; 0 for the rule set's own.
    pub born: u32,
    /// The steps in which it was worked, with their rules.
    pub steps: Vec<(u32, Rule)>,
    /// What became of it.
    pub fate: Fate,
}

/// What became of a branch.
pub enum Fate {
    /// A rule with several alternatives was applied in it: what happened, and the branches, by their numbers.
    Forked(String, Vec<usize>),
    /// It was dropped: at which goal, if there was one, and why.
    Died(Option<Term>, String),
    /// It is a thread of the program as it stands.
    Stands,
}

/// A run as it has forked so far.
pub struct Story {
    /// Every branch; those that a fork made stand behind it.
    pub branches: Vec<Branch>,
    /// The rule set's own alternatives.
    pub roots: Vec<usize>,
    /// The branch of each thread, in order.
    pub threads: Vec<usize>,
}

impl Story {
    /// Before the first step.
    pub fn new(rule_set: &RuleSet) -> Story {
        let mut story = Story {
            branches: Vec::new(),
            roots: Vec::new(),
            threads: Vec::new(),
        };
        story.roots = story.make(rule_set.program.clone(), 0);
        story.threads = story.roots.clone();
        story
    }

    fn make(&mut self, own: Program, born: u32) -> Vec<usize> {
        let first = self.branches.len();
        self.branches.extend(own.into_iter().map(|own| Branch {
            own,
            born,
            steps: Vec::new(),
            fate: Fate::Stands,
        }));
        (first..self.branches.len()).collect()
    }

    /// One step more.
    pub fn step(&mut self, step: &Step, names: &Names) {
        let branch = self.threads[step.thread];
        self.branches[branch].steps.push((step.number, step.rule));
        if step.after.len() == 1 {
            return;
        }
        let told = what(step, names, WIDTH);
        let own = step.after.iter().map(|t| part_at(t, &step.way).clone());
        let made = self.make(own.collect(), step.number);
        self.threads
            .splice(step.thread..=step.thread, made.iter().copied());
        self.branches[branch].fate = match (made.is_empty(), step.rule) {
            (false, _) => Fate::Forked(told, made),
            (true, Rule::Fail) => Fate::Died(Some(step.place().clone()), told),
            (true, _) => Fate::Died(None, told),
        };
    }
}

/// How many threads of an end stand so.
pub(crate) fn how_many(threads: &[(Standing, Term)], standing: Standing) -> usize {
    threads.iter().filter(|(s, _)| *s == standing).count()
}
