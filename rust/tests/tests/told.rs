//! What the command `rules` tells of a run: the names of variables, why a goal failed, lines that fit a screen, and the alternatives as they fork;
//! each against the library's steps and the independent evaluator, on random programs.

use std::collections::BTreeSet;

use mespindro::{Rule, Standing};
use mespindro_tests::evaluator;
use mespindro_tests::evaluator::step::{step, Step as Made};
use mespindro_tests::evaluator::text::write_text;
use mespindro_tests::evaluator::tree::Program;
use mespindro_tests::evaluator::{Lengths, Size};
use mespindro_tests::generate;
use mespindro_tests::on_big_stack;
use mespindro_tests::random::Random;
use mespindro_tests::short::without_names;
use rules::follow::{Follow, Step};
use rules::notation::{self, line, show, Names};
use rules::page::page;
use rules::run::{run, run_seen, RuleSet};
use rules::story::{Fate, Story};
use rules::term::{each_term, Term};
use rules::trace;
use rules::why::{goal, Goal};

/// How many random programs are followed, and for how many steps each.
const PROGRAMS: usize = 1000;
const STEPS: u32 = 60;

/// A program with a name for every binder.
fn with_names(program: &Program) -> RuleSet {
    let mut program = notation::program(&write_text(program)).unwrap();
    program.iter_mut().for_each(name);
    RuleSet {
        program,
        names: Names::default(),
    }
}

fn name(term: &mut Term) {
    match term {
        Term::Bound(_) | Term::Free(..) | Term::Constructor(_) => {}
        Term::Abstraction(given, body) | Term::Allocated(_, given, body) => {
            *given = Some("rule".into());
            body.iter_mut().for_each(name);
        }
        Term::Fresh(given, part) => {
            *given = Some("it".into());
            name(part);
        }
        Term::Application(l, r) | Term::Guard(l, r) | Term::Unification(l, r) => {
            name(l);
            name(r);
        }
    }
}

fn is_named(program: &[Term]) -> bool {
    let mut all = true;
    for thread in program {
        each_term(thread, 0, &mut |part, _| match part {
            Term::Abstraction(name, _) | Term::Allocated(_, name, _) | Term::Fresh(name, _) => {
                all &= name.is_some()
            }
            _ => {}
        });
    }
    all
}

/// Shows each step of random programs, with the program before it.
fn each_step(seed: u64, see: &mut dyn FnMut(&RuleSet, &[Term], &Step)) -> usize {
    let mut random = Random::new(seed);
    let mut steps = 0;
    for _ in 0..PROGRAMS {
        let rule_set = with_names(&generate::sound_program(Size::SMALL, &mut random));
        let mut follow = Follow::new(&rule_set).unwrap();
        for _ in 0..STEPS {
            let before = follow.program().to_vec();
            let Ok(step) = follow.step() else { break };
            see(&rule_set, &before, &step);
            steps += 1;
        }
    }
    steps
}

/// Every step is the evaluator's, and no name is lost on the way.
#[test]
fn steps_and_names() {
    let mut compared = 0;
    let steps = on_big_stack(|| {
        each_step(11, &mut |_, before, told| {
            assert!(is_named(before) && is_named(&told.after));
            let before = without_names(before);
            let Made::To(rule, thread, result) = step(&before) else {
                return;
            };
            assert_eq!((told.rule, told.thread), (rule, thread));
            let behind = thread + told.after.len();
            assert_eq!(without_names(&told.after), result[thread..behind]);
            assert_eq!(result.len(), before.len() - 1 + told.after.len());
            compared += 1;
        })
    });
    println!("{steps} steps with all their names, {compared} compared");
    assert!(steps > 5000 && compared > 9 * steps / 10);
}

/// Two unknowns of one thread have one name only where they are one.
#[test]
fn names_of_unknowns() {
    let mut unknowns = 0;
    on_big_stack(|| {
        each_step(12, &mut |_, _, told| {
            for thread in &told.after {
                let all = rules::term::free_variables(thread);
                let named: Vec<_> = all.values().flatten().collect();
                let different: BTreeSet<_> = named.iter().collect();
                assert_eq!(named.len(), different.len());
                unknowns += named.len();
            }
        })
    });
    println!("{unknowns} names of unknowns");
    assert!(unknowns > 1000);
}

/// A clash is found exactly where the library fails, and what unknowns are found to be makes the two values equal elsewhere.
#[test]
fn what_a_goal_finds() {
    let (mut failed, mut met, mut found) = (0, 0, 0);
    on_big_stack(|| {
        each_step(13, &mut |_, _, told| {
            let Term::Unification(left, right) = told.place() else {
                return;
            };
            match goal(left, right) {
                Goal::Met(values) => {
                    assert_eq!(told.rule, Rule::Unif);
                    let sides = [left, right].map(|side| put_into(side, &values));
                    assert!(sides[0].same(&sides[1]), "{sides:?}");
                    met += 1;
                    found += values.len();
                }
                Goal::Differ(..) | Goal::Inside(..) => {
                    assert_eq!(told.rule, Rule::Fail);
                    failed += 1;
                }
                Goal::Unknown => panic!("too many pairs: {left:?} {right:?}"),
            }
        })
    });
    println!("{failed} goals failed, {met} were met, with {found} unknowns found");
    assert!(failed > 500 && met > 500 && found > 500);
}

/// A value with what its unknowns were found to be; bodies are left as they are, equal where their locations are.
fn put_into(value: &Term, found: &[(&Term, &Term)]) -> Term {
    match value {
        Term::Free(x, _) => {
            let known = found
                .iter()
                .find(|(unknown, _)| matches!(unknown, Term::Free(y, _) if x == y));
            known.map_or_else(|| value.clone(), |(_, value)| put_into(value, found))
        }
        Term::Application(l, r) => value.with_parts(put_into(l, found), put_into(r, found)),
        other => other.clone(),
    }
}

/// The sentences on goals, word for word.
#[test]
fn goals_in_words() {
    let cases = [
        ("((n port (u port c5)))", "?port is c5"),
        ("((u c5 c5))", "c5 is c5"),
        ("((u c5 c6))", "c5 is not c6"),
        ("((u (a c1 c2) c6))", "(a c1 c2) is not c6"),
        ("((u (L 0 it (it)) c6))", "the rule L0 on it is not c6"),
        (
            "((u (L 0 (c1)) (L 1 (c1))))",
            "the rule L0 is not the rule L1",
        ),
        (
            "((n p (n port (g (u (a c1 p c5) (a c1 c2 port)) port))))",
            "?p is c2, ?port is c5",
        ),
        (
            "((n port (n vlan (u (a c1 port vlan) (a c1 (a c2 vlan) (a c2 port))))))",
            "?vlan would stand inside itself, in (a c2 (a c2 ?vlan))",
        ),
    ];
    for (readable, said) in cases {
        let rule_set = RuleSet::of(readable.as_bytes()).unwrap();
        let mut follow = Follow::new(&rule_set).unwrap();
        let steps = std::iter::from_fn(|| follow.step().ok());
        let mut goals = steps.filter(|step| matches!(step.rule, Rule::Unif | Rule::Fail));
        let told = goals
            .next()
            .map(|step| trace::what(&step, &rule_set.names, 60));
        assert_eq!(told.as_deref(), Some(said), "{readable}");
    }
}

/// Two towers in which each floor stands twice on the one below: 2 to the 40 pairs, if each were asked for.
#[test]
fn a_goal_of_shared_parts() {
    let tower = |letter: char| {
        let floors =
            (1..=20).map(|k| format!("(u {letter}{k} (a c1 {letter}{0} {letter}{0}))", k - 1));
        floors.collect::<Vec<String>>().join(" ")
    };
    let all: Vec<String> = (0..=20)
        .flat_map(|k| [format!("p{k}"), format!("q{k}")])
        .collect();
    let binders: String = all.iter().map(|name| format!("(n {name} ")).collect();
    let goal = format!(
        "(g {} {} (u p0 c1) (u q0 c2) (u p20 q20) c9)",
        tower('p'),
        tower('q')
    );
    let readable = format!("({binders}{goal}{})", ")".repeat(all.len()));
    let rule_set = RuleSet::of(readable.as_bytes()).unwrap();
    let mut follow = Follow::new(&rule_set).unwrap();
    while let Ok(step) = follow.step() {
        let told = trace::step(&step, &rule_set.names, 80);
        assert!(told.lines().all(|line| line.chars().count() <= 80));
    }
}

/// Lines are no wider than asked for, show the place, and leave nothing out where all of it fits.
#[test]
fn lines_fit() {
    let (mut whole, mut cut) = (0, 0);
    on_big_stack(|| {
        each_step(14, &mut |rule_set, _, told| {
            for width in [20, 40, 68, 120] {
                let shown = line(&told.before, &rule_set.names, Some(&told.way), width);
                assert!(shown.chars().count() <= width, "{shown}");
                assert!(shown.contains('['), "{shown}");
                let plain = line(&told.before, &rule_set.names, None, width);
                assert!(plain.chars().count() <= width, "{plain}");
                let flat = show(&told.before, &rule_set.names, 0);
                if !flat.contains('\n') && flat.chars().count() <= width {
                    assert_eq!(plain, flat);
                    whole += 1;
                } else {
                    cut += 1;
                }
                let traced = trace::step(told, &rule_set.names, width.max(40));
                let widest = traced.lines().map(|line| line.chars().count()).max();
                assert!(widest <= Some(width.max(40)), "{traced}");
            }
        })
    });
    println!("{whole} lines with all of it, {cut} without");
    assert!(whole > 1000 && cut > 1000);
}

/// Each step is told in one branch, each dropped thread died in one, and each thread of the end stands in one.
#[test]
fn every_branch() {
    let mut random = Random::new(15);
    let mut branches = 0;
    on_big_stack(|| {
        for _ in 0..PROGRAMS {
            let rule_set = with_names(&generate::sound_program(Size::SMALL, &mut random));
            let mut story = Story::new(&rule_set);
            let mut dropped = 0;
            let end = run_seen(&rule_set, STEPS, &mut |step| {
                story.step(step, &rule_set.names);
                dropped += usize::from(step.after.is_empty());
            });
            let end = end.unwrap();
            let told: usize = story.branches.iter().map(|b| b.steps.len()).sum();
            assert_eq!(told, end.stop.steps as usize);
            let died = story
                .branches
                .iter()
                .filter(|b| matches!(b.fate, Fate::Died(..)));
            assert_eq!(died.count(), dropped);
            assert_eq!(story.threads.len(), end.threads.len());
            let page = page("a <b> & \"c\"", &story, &end, &rule_set.names);
            well_formed(&page);
            assert!(page.contains("<h1>a &lt;b&gt; &amp; &quot;c&quot;</h1>"));
            branches += story.branches.len();
        }
    });
    println!("{branches} branches");
    assert!(branches > 2500);
}

/// Every element that is opened is closed, but for those of a table and those without an end.
fn well_formed(page: &str) {
    let mut open: Vec<&str> = Vec::new();
    for tag in page.split('<').skip(1) {
        let (tag, _) = tag.split_once('>').expect("a tag ends");
        let name = tag
            .trim_start_matches('/')
            .split([' ', '/'])
            .next()
            .unwrap();
        match name {
            "!doctype" | "!--" | "html" | "meta" | "tr" | "td" | "th" => {}
            _ if tag.ends_with('/') => {}
            _ if tag.starts_with('/') => assert_eq!(open.pop(), Some(name), "{page}"),
            _ => open.push(name),
        }
    }
    assert!(open.is_empty(), "{open:?}");
}

/// What is said to be missing, for each kind of end.
#[test]
fn what_is_missing() {
    let cases = [
        ("(c1)", "thread 0: answer\n"),
        ("(x7)", "thread 0: partial, x7 is not decided\n"),
        ("((n port port))", "thread 0: partial, ?port is not decided\n"),
        (
            "((n port (n vlan (a c3 port vlan))))",
            "thread 0: partial, ?port and ?vlan are not decided\n",
        ),
        (
            "((n it (n it2 (a c3 it x9 it2))))",
            "thread 0: partial, ?it, ?it2 and x9 are not decided\n",
        ),
        ("((l (c1)))", "thread 0: partial, the rule L0 is not applied\n"),
        (
            "((n port (a c3 port (l it (it)) (l at (c1)))))",
            "thread 0: partial, ?port is not decided, the rule L0 on it and the rule L1 on at are not applied\n",
        ),
        (
            "((n policy (a c1 (a policy c2))))",
            "thread 0: stuck, ?policy is not decided, but is used as a rule\n",
        ),
        (
            "((n p (n q (n r (a c1 (a p r) (a q p) (a p q))))))",
            "thread 0: stuck, ?p and ?q are not decided, but are used as rules\n",
        ),
        ("((u c1 c2))", "no thread is left: every alternative was dropped\n"),
        (
            "((a (l it ((a it it))) (l it ((a it it)))) (n it it))",
            "thread 0: open, the 100 steps are used\n",
        ),
        (
            "((a (l it ((a it it))) (l it ((a it it)))) (n it it))",
            "thread 1: open, it waits behind thread 0\n",
        ),
    ];
    for (readable, said) in cases {
        let rule_set = RuleSet::of(readable.as_bytes()).unwrap();
        let end = run(&rule_set, 100).unwrap();
        let told = rules::run::describe(&end, &rule_set.names);
        assert!(told.contains(said), "{told}");
    }
}

/// A rule that calls itself makes unknowns of one name: each has a number of its own from the second on.
#[test]
fn unknowns_of_one_name() {
    let readable = "((a (l make ((a c3 (a make c0) (a make c0)))) (l any ((n it it)))))";
    let rule_set = RuleSet::of(readable.as_bytes()).unwrap();
    let end = run(&rule_set, 100).unwrap();
    assert_eq!(end.threads[0].0, Standing::Partial);
    let shown = show(&end.threads[0].1, &rule_set.names, 0);
    assert_eq!(shown, "(a c3 ?it ?it.2)");
}

/// An unknown without a name is called as the one that it stands for.
#[test]
fn a_name_outlives_its_unknown() {
    for readable in [
        "((n (n port (g (u b1 port) (a c3 port)))))",
        "((n (n port (g (u port b1) (a c3 b1)))))",
        "((n port (g (u x0 port) (a c3 x0))))",
    ] {
        let rule_set = RuleSet::of(readable.as_bytes()).unwrap();
        let end = run(&rule_set, 100).unwrap();
        let shown = show(&end.threads[0].1, &rule_set.names, 0);
        assert_eq!(shown, "(a c3 ?port)", "{readable}");
    }
}

/// Constructor 0 is called ok where nothing else is.
#[test]
fn ok_says_one_thing() {
    for (readable, shown) in [
        ("(c0)", "ok"),
        ("((1:c1:0))", "ok"),
        ("= yes c0 (c0)", "yes"),
        ("= ok c5 (c0)", "c0"),
        ("((a (l ok (c0)) c1))", "c0"),
    ] {
        let rule_set = RuleSet::of(readable.as_bytes()).unwrap();
        let end = run(&rule_set, 100).unwrap();
        let told = show(&end.threads[0].1, &rule_set.names, 0);
        assert_eq!(told, shown, "{readable}");
    }
}

/// The program that a run leaves has no more than the library's numbers: with the names taken off it is the evaluator's.
#[test]
fn ends() {
    let mut random = Random::new(16);
    let mut compared = 0;
    on_big_stack(|| {
        for _ in 0..1000 {
            let program = generate::sound_program(Size::SMALL, &mut random);
            let end = run(&with_names(&program), STEPS).unwrap();
            let Some(other) = evaluator::run_program(program, Size::SMALL.nodes, STEPS) else {
                continue;
            };
            let threads: Vec<Term> = end.threads.into_iter().map(|(_, term)| term).collect();
            assert!(is_named(&threads));
            assert_eq!(without_names(&threads), other.end);
            assert_eq!(end.stop, other.stop());
            compared += 1;
        }
    });
    println!("{compared} ends compared");
    assert!(compared > 900);
}

/// Of large rule sets too, after some steps: one that a small leaf does not take has the room of 16,384.
#[test]
fn ends_of_large_rule_sets() {
    let mut random = Random::new(17);
    let mut large = 0;
    on_big_stack(|| {
        for _ in 0..40 {
            let program = generate::large_program(Size::LARGE, &mut random);
            let rule_set = with_names(&program);
            let taken = evaluator::read(Size::SMALL, &write_text(&program), Lengths::ANY);
            let size = match taken {
                Ok(_) => Size::SMALL,
                Err(_) => Size::LARGE,
            };
            assert_eq!(rule_set.room(), size.nodes);
            let end = run(&rule_set, 20).unwrap();
            let other = evaluator::run_program(program, size.nodes, 20);
            let other = other.expect("small enough to copy");
            let threads: Vec<Term> = end.threads.into_iter().map(|(_, term)| term).collect();
            assert_eq!(without_names(&threads), other.end);
            assert_eq!(end.stop, other.stop());
            large += usize::from(size == Size::LARGE);
        }
    });
    assert!(large >= 10, "only {large} large rule sets");
}
