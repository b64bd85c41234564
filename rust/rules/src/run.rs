//! Running a rule set by the library, and telling its end.

use mespindro::{small, Reason, Refusal, Standing, Stop, NODES};

use crate::follow::{Follow, Step};
use crate::memory::Memory;
use crate::notation::{self, rule, unknown, Error, Names};
use crate::term::{closure_names, each_term, free_variables, of_nodes, Program, Term};

/// As many steps as the program on standard input makes.
pub const STEPS: u32 = 10_000;

/// A rule set: its program with the names of its variables, and the names for its constructors.
pub struct RuleSet {
    /// Its alternatives.
    pub program: Program,
    /// Those that the file declares, and `ok`.
    pub names: Names,
}

impl RuleSet {
    /// Takes a file's content: a canonical text if it begins like one, a readable form otherwise.
    pub fn of(content: &[u8]) -> Result<RuleSet, Error> {
        if is_canonical(content) {
            return RuleSet::of_text(content);
        }
        let (names, program) = notation::read(notation::utf8(content)?)?;
        let names = names.with_ok(&program);
        Ok(RuleSet { program, names })
    }

    /// Takes a canonical text.
    pub fn of_text(text: &[u8]) -> Result<RuleSet, Error> {
        let program = notation::program(text)?;
        let names = Names::default().with_ok(&program);
        Ok(RuleSet { program, names })
    }

    /// The nodes that it is run in: as many as the small calls have, or, where those do not take it, as many as the library has.
    pub fn room(&self) -> usize {
        let mut leaf = Memory::zeros(small::NODES);
        match small::read(&self.text(), leaf.table_mut()) {
            Ok(_) => small::NODES,
            Err(_) => NODES,
        }
    }

    /// Its canonical text, which the library reads.
    pub fn text(&self) -> Vec<u8> {
        notation::text(&self.program)
    }
}

/// Whether a file's content is a canonical text, right or wrong: brackets and then a digit. No readable form begins so.
pub fn is_canonical(content: &[u8]) -> bool {
    let brackets = content.iter().take_while(|byte| **byte == b'(').count();
    content.get(brackets).is_some_and(u8::is_ascii_digit)
}

/// How a run stopped, and each thread of its end with its standing.
pub struct End {
    /// The nodes that it was run in.
    pub room: usize,
    /// What the library answered.
    pub stop: Stop,
    /// In order.
    pub threads: Vec<(Standing, Term)>,
}

/// Reads and runs a rule set.
pub fn run(rule_set: &RuleSet, steps: u32) -> Result<End, Refusal> {
    run_seen(rule_set, steps, &mut |_| {})
}

/// Reads and runs a rule set; `see` is shown each step.
///
/// The end is that of the library's run. The same steps are then made one by one, for those who watch and for the names of variables.
pub fn run_seen(
    rule_set: &RuleSet,
    steps: u32,
    see: &mut dyn FnMut(&Step),
) -> Result<End, Refusal> {
    let room = rule_set.room();
    let (mut memory, mut work) = (Memory::zeros(room), Memory::zeros(room));
    let count = mespindro::read(&rule_set.text(), memory.table_mut())?;
    let stop = mespindro::run(memory.table_mut(), count, work.table_mut(), steps)?;
    let program = of_nodes(&memory.numbers[..2 * stop.nodes]);
    let standings = (0..program.len()).map(|k| mespindro::standing(memory.table(), stop.nodes, k));
    let standings = standings.collect::<Result<Vec<_>, Refusal>>()?;
    let mut follow = Follow::new(rule_set)?;
    for _ in 0..stop.steps {
        match follow.step() {
            Ok(step) => see(&step),
            Err(_) => break,
        }
    }
    let threads = follow.named(program);
    Ok(End {
        room,
        stop,
        threads: standings.into_iter().zip(threads).collect(),
    })
}

/// The end in words: reason, steps and nodes, what the steps were, then each thread with its standing and what is missing in it.
pub fn describe(end: &End, names: &Names) -> String {
    let Stop {
        reason,
        steps,
        nodes,
        counts,
    } = end.stop;
    let mut out = format!("{reason}, {steps} steps, {nodes} nodes\n  {counts}\n");
    if end.threads.is_empty() {
        out += nothing_left(end);
        out.push('\n');
    }
    for k in 0..end.threads.len() {
        let (standing, term) = &end.threads[k];
        let missing = match missing(end, k) {
            Some(missing) => format!(", {missing}"),
            None => String::new(),
        };
        out += &format!("thread {k}: {standing}{missing}\n");
        out += &notation::show(term, names, 2);
        out.push('\n');
    }
    out
}

/// An end without threads, in words.
pub(crate) fn nothing_left(end: &End) -> &'static str {
    match end.stop.steps {
        0 => "the rule set has no alternative",
        _ => "no thread is left: every alternative was dropped",
    }
}

/// What a thread of an end lacks to be an answer, for people; none where it is one.
pub fn missing(end: &End, k: usize) -> Option<String> {
    let (standing, term) = &end.threads[k];
    match standing {
        Standing::Answer => None,
        Standing::Partial => Some(undecided(term)),
        Standing::Stuck => Some(applied_unknowns(term)),
        Standing::Open => Some(unfinished(end, k)),
    }
}

/// The unknowns that a value holds, and the rules that stand in it for plain values.
fn undecided(term: &Term) -> String {
    let variables = free_variables(term);
    let unknowns = variables
        .iter()
        .map(|(number, name)| unknown(*number, name));
    let unknowns = listed(unknowns.collect(), "is not decided", "are not decided");
    let rules = closure_names(term);
    let rules = rules.iter().map(|(location, name)| rule(*location, name));
    let rules = listed(rules.collect(), "is not applied", "are not applied");
    let both: Vec<String> = unknowns.into_iter().chain(rules).collect();
    both.join(", ")
}

/// The unknowns that a stuck thread gives something to.
fn applied_unknowns(term: &Term) -> String {
    let mut unknowns: Vec<String> = Vec::new();
    let mut see = |part: &Term| {
        if let Term::Application(function, _) = part {
            if let Term::Free(number, name) = &**function {
                let unknown = unknown(*number, name);
                if !unknowns.contains(&unknown) {
                    unknowns.push(unknown);
                }
            }
        }
    };
    each_worked_term(term, &mut see);
    let one = "is not decided, but is used as a rule";
    listed(unknowns, one, "are not decided, but are used as rules").unwrap_or_default()
}

/// Each part that is worked: not below a binder.
fn each_worked_term<'t>(term: &'t Term, see: &mut impl FnMut(&'t Term)) {
    each_term(term, 0, &mut |part, binders| {
        if binders == 0 {
            see(part);
        }
    });
}

/// Why an open thread was not worked to its end.
fn unfinished(end: &End, k: usize) -> String {
    let open = |(standing, _): &(Standing, Term)| *standing == Standing::Open;
    let first = end.threads.iter().position(open);
    match (first, end.stop.reason) {
        (Some(first), _) if first < k => format!("it waits behind thread {first}"),
        (_, Reason::Room) => format!("its next step would need more than {} nodes", end.room),
        (_, _) => format!("the {} steps are used", end.stop.steps),
    }
}

fn listed(names: Vec<String>, one: &str, several: &str) -> Option<String> {
    match names.as_slice() {
        [] => None,
        [name] => Some(format!("{name} {one}")),
        [first @ .., last] => Some(format!("{} and {last} {several}", first.join(", "))),
    }
}
