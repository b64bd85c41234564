//! Which rule a step used, in which thread, and the six counts of a run: each in its own field, on every way to the library; what is true of them
//! on random programs; and statements about them that look true and are not. The request's cases are in cases/which-rule.txt.

mod in_c;
use mespindro::{Counts, Move, Reason, Refusal, Rule, Standing, Stop, NODES};
use mespindro_tests::evaluator::table::{read_table, write_table, OwnTable};
use mespindro_tests::evaluator::text::write_text;
use mespindro_tests::evaluator::tree::{fresh, program_size, Program, Term};
use mespindro_tests::evaluator::{counts, Lengths, Size};
use mespindro_tests::generate;
use mespindro_tests::on_big_stack;
use mespindro_tests::random::Random;
use mespindro_tests::short;

/// The first step of the program, and the program after it.
fn step(program: &Program) -> Result<(Move, Program), Refusal> {
    let (table, mut out) = (OwnTable::of(program), OwnTable::empty(Lengths::FULL));
    let made = mespindro::step(table.lent(), table.nodes(), out.lent_mut())?;
    let after = read_table(Size::LARGE, out.lent(), made.nodes).expect("a step makes a program");
    Ok((made, after))
}

/// Runs the program in tables of `room` nodes each, and answers its end too.
fn run(program: &Program, room: usize, most: u32) -> (Stop, Program) {
    let lengths = Lengths::for_nodes(room);
    let mut table = OwnTable::within(program, lengths);
    let mut work = OwnTable::empty(lengths);
    let count = program_size(program);
    let stop = mespindro::run(table.lent_mut(), count, work.lent_mut(), most).expect("a run");
    let end = read_table(Size::LARGE, table.lent(), stop.nodes).expect("the end is a program");
    (stop, end)
}

fn standing(program: &Program, k: usize) -> Standing {
    let table = OwnTable::of(program);
    mespindro::standing(table.lent(), table.nodes(), k).expect("a thread")
}

/// A program that uses each rule as often as its code says, behind two finished threads: 77 nodes.
fn six() -> Program {
    let mut threads = vec!["c9", "x0"];
    threads.extend(["(u c1 c2)"; 6]);
    threads.extend(["(u c1 c1)"; 5]);
    threads.push("(g c1 (g c1 (g c1 (g c1 c1))))");
    threads.push("(n (n (n c1)))");
    threads.extend(["(a (L 0 ()) c1)"; 2]);
    threads.push("(l ())");
    short::program(&format!("({})", threads.join(" ")))
}

#[test]
fn each_count_in_its_own_field() {
    let (stop, _) = run(&six(), NODES, 1000);
    assert_eq!((stop.reason, stop.nodes), (Reason::Ended, 22));
    assert_eq!(stop.steps, 21);
    assert_eq!(stop.counts.alloc, 1);
    assert_eq!(stop.counts.beta, 2);
    assert_eq!(stop.counts.fresh, 3);
    assert_eq!(stop.counts.guard, 4);
    assert_eq!(stop.counts.unif, 5);
    assert_eq!(stop.counts.fail, 6);
    for rule in Rule::ALL {
        assert_eq!(stop.counts.of(rule), u32::from(rule.code()), "{rule:?}");
    }
    let (made, _) = step(&six()).expect("a step");
    assert_eq!((made.nodes, made.rule), (73, Rule::Fail));
    assert_eq!(made.thread, 2);
}

/// What c/which_rule.c prints for the program: a step and a run, both of its end, both refused with 1.
const PRINTED: &str = "\
step: nodes 73, thread 2, rule 6, refusal 0
run: nodes 22, steps 21, alloc 1, beta 2, fresh 3, guard 4, unif 5, fail 6, reason 1, refusal 0
step: nodes 0, thread 0, rule 0, refusal 11
run: nodes 22, steps 0, alloc 0, beta 0, fresh 0, guard 0, unif 0, fail 0, reason 1, refusal 0
step: nodes 0, thread 0, rule 0, refusal 1
run: nodes 0, steps 0, alloc 0, beta 0, fresh 0, guard 0, unif 0, fail 0, reason 0, refusal 1
";

fn prints(mut program: std::process::Command) {
    // a file of this test's own: the tests run at one time
    let name = format!("six-{:?}.csexp", std::thread::current().id());
    let file = in_c::folder().join(name);
    std::fs::write(&file, write_text(&six())).unwrap();
    let output = program.arg(&file).output().unwrap();
    std::fs::remove_file(&file).unwrap();
    assert!(output.status.success());
    assert_eq!(String::from_utf8_lossy(&output.stdout), PRINTED);
}

/// The source, for the plain calls and for the small ones.
const SOURCE: &str = "rust/tests/c/which_rule.c";
const SIZES: [&[&str]; 2] = [&["-std=c11"], &["-std=c11", "-DSMALL"]];

#[test]
fn in_c() {
    for flags in SIZES {
        prints(in_c::for_this_machine(SOURCE, flags)());
    }
}

#[test]
fn in_c_for_the_switch() {
    for flags in SIZES {
        if let Some(program) = in_c::for_the_switch(SOURCE, flags) {
            prints(program());
        }
    }
}

#[test]
fn a_thread_far_behind() {
    let mut program: Program = (0..1021).map(Term::Constructor).collect();
    program.push(fresh(Term::Bound(0)));
    let (made, after) = step(&program).expect("a step");
    assert_eq!((made.rule, made.thread), (Rule::Fresh, 1021));
    assert_eq!((made.nodes, after.len()), (2045, 1022));
}

/// The most single steps that are made one after another of a random program.
const STEPS: u32 = 40;

/// How many random programs each of the tests below takes.
const PROGRAMS: usize = 4_000;

/// Calls `check` with random programs; it answers how many steps it has looked at, which are enough.
fn on_random_programs(seed: u64, check: fn(&Program, &mut Random) -> u32) {
    let steps = on_big_stack(|| {
        let mut random = Random::new(seed);
        let programs = (0..PROGRAMS).map(|_| {
            let program = generate::sound_program(Size::LARGE, &mut random);
            check(&program, &mut random)
        });
        programs.sum::<u32>()
    });
    assert!(steps >= 10_000, "only {steps} steps");
    println!("{PROGRAMS} programs, {steps} steps");
}

/// Single steps one by one tell the rules of the run, in threads that never fall. Each is the first open one; those before it and behind it stay.
#[test]
fn single_steps_tell_the_run() {
    on_random_programs(21, |program, _| {
        let mut rules = Vec::new();
        let (mut now, mut last) = (program.clone(), 0);
        while rules.len() < STEPS as usize {
            let Ok((made, after)) = step(&now) else {
                break;
            };
            assert!(made.thread >= last, "{program:?}");
            worked_on(&now, made.thread, &after);
            rules.push(made.rule);
            (now, last) = (after, made.thread);
        }
        let (stop, end) = run(program, NODES, rules.len() as u32);
        assert_eq!((stop.counts, end), (counts(&rules), now), "{program:?}");
        stop.steps
    });
}

fn worked_on(before: &Program, thread: usize, after: &Program) {
    assert!((0..thread).all(|k| standing(before, k) != Standing::Open));
    assert_eq!(standing(before, thread), Standing::Open);
    let behind = &before[thread + 1..];
    assert!(after.len() >= thread + behind.len());
    assert_eq!(after[..thread], before[..thread]);
    assert_eq!(&after[after.len() - behind.len()..], behind);
}

/// The counts sum up to the steps; and a run that is cut in two somewhere and goes on in the same room has the counts of the whole.
#[test]
fn counts_add_up() {
    on_random_programs(22, |program, random| {
        let least = program_size(program);
        let room = random.pick(&[least, (least + 8).min(NODES), NODES]);
        let most = random.below(STEPS as usize) as u32;
        let first = random.below(most as usize + 1) as u32;
        let (whole, end) = run(program, room, most);
        assert_eq!(whole.counts.sum(), u64::from(whole.steps));
        let (one, between) = run(program, room, first);
        if one.reason != Reason::Steps {
            assert_eq!((one, between), (whole, end), "{program:?}");
            return 0;
        }
        let (other, end_again) = run(&between, room, most - first);
        assert_eq!(one.steps + other.steps, whole.steps, "{program:?}");
        for rule in Rule::ALL {
            let sum = one.counts.of(rule) + other.counts.of(rule);
            assert_eq!(sum, whole.counts.of(rule), "{rule:?} in {program:?}");
        }
        assert_eq!((other.reason, end_again), (whole.reason, end));
        whole.steps
    });
}

/// No count falls with further alternatives behind, more steps, and room for what they add.
#[test]
fn no_count_falls() {
    on_random_programs(23, |program, random| {
        let behind = generate::sound_program(Size::LARGE, random);
        let added = program_size(&behind) - 1;
        let room = program_size(program) + random.pick(&[0, 2, 8, 200]);
        let larger = room + added + random.pick(&[0, 0, 1, 50]);
        if larger > NODES {
            return 0;
        }
        let most = random.below(STEPS as usize) as u32;
        let more = most + random.pick(&[0, 0, 1, 10]);
        let longer = [&program[..], &behind].concat();
        let (alone, with) = (run(program, room, most).0, run(&longer, larger, more).0);
        for rule in Rule::ALL {
            let (fewer, count) = (alone.counts.of(rule), with.counts.of(rule));
            assert!(count >= fewer, "{rule:?} in {longer:?}");
        }
        alone.steps
    });
}

/// In the same room a count can fall: what stands behind takes the room of a step.
#[test]
fn a_count_falls_in_the_same_room() {
    let thread = "(u (a (L 2 (b0)) (a (L 0 (b0 c1)) x1)) x2)";
    let (alone, _) = run(&short::program(&format!("({thread})")), 19, 1000);
    assert_eq!((alone.reason, alone.counts.beta), (Reason::Ended, 3));
    let (with, _) = run(&short::program(&format!("({thread} c7)")), 19, 1000);
    assert_eq!((with.reason, with.steps), (Reason::Room, 0));
    assert_eq!(with.counts, Counts::default());
}

/// The end and the six counts of a program of the short notation.
fn end_and_counts(program: &str) -> (Program, [u32; 6]) {
    let (stop, end) = run(&short::program(program), NODES, 1000);
    assert_eq!(stop.reason, Reason::Ended, "{program}");
    (end, Rule::ALL.map(|rule| stop.counts.of(rule)))
}

/// How many nodes of the program have a kind.
fn of_kind(program: &str, kind: u16) -> usize {
    let table = write_table(&short::program(program));
    table.iter().step_by(2).filter(|k| **k == kind).count()
}

/// Not true: the count of fail is the number of threads dropped. Beta drops one too.
#[test]
fn fail_does_not_count_the_threads_dropped() {
    let (end, counts) = end_and_counts("((a (l ()) c1))");
    assert!(end.is_empty());
    assert_eq!(counts, [1, 1, 0, 0, 0, 0]);
}

/// Not true: the count of alloc is at most the abstractions of the program. Each copy is allocated by itself.
#[test]
fn alloc_can_pass_the_abstractions() {
    let program = "((a (a c9 (a (l (b0 b0)) c0)) (l ())))";
    assert_eq!(of_kind(program, 5), 2);
    assert_eq!(end_and_counts(program).1, [3, 1, 0, 0, 0, 0]);
}

/// Not true: the thread told is the first that is no answer. A stuck one is passed.
#[test]
fn a_stuck_thread_is_passed() {
    let program = short::program("((a x0 c1) (l ()))");
    assert_eq!(standing(&program, 0), Standing::Stuck);
    assert_eq!(step(&program).expect("a step").0.thread, 1);
}

/// Not true: thread t of the result comes of thread t. One that becomes several moves those behind it.
#[test]
fn threads_behind_move() {
    let (made, after) = step(&short::program("((a (L 0 (b0 c2)) c1) c7)")).expect("a step");
    assert_eq!((made.rule, made.thread), (Rule::Beta, 0));
    assert_eq!(after, short::program("(c1 c2 c7)"));
}

/// Not true: the counts determine the end.
#[test]
fn equal_counts_of_different_ends() {
    let (one, other) = (end_and_counts("(c1)"), end_and_counts("(c2)"));
    assert_eq!((one.1, other.1), ([0; 6], [0; 6]));
    assert_ne!(one.0, other.0);
}

/// Not true: unif and fail together are the goals of the program. One below a binder is not worked on.
#[test]
fn a_goal_that_no_step_meets() {
    let program = "((L 0 ((u c1 c2))))";
    assert_eq!(of_kind(program, 10), 1);
    assert_eq!(end_and_counts(program).1, [0; 6]);
}
