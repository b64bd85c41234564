//! The readable form and the canonical text: round trips both ways, what is refused and where, and agreement with the library's reader.

use std::path::Path;

use mespindro_tests::evaluator::table::OwnTable;
use mespindro_tests::evaluator::text::write_text;
use mespindro_tests::evaluator::tree::{application, fresh, guard, Program, Term};
use mespindro_tests::evaluator::{Lengths, Size};
use mespindro_tests::generate;
use mespindro_tests::on_big_stack;
use mespindro_tests::random::Random;
use mespindro_tests::short::without_names;
use rules::notation::{from_text, from_text_named, program, read, text, to_text, Names};

fn random_programs(count: usize) -> impl Iterator<Item = Program> {
    let mut random = Random::new(2);
    (0..count).map(move |_| generate::sound_program(Size::LARGE, &mut random))
}

/// Canonical to readable to canonical: the same bytes; and readable, once printed, prints the same again.
fn check_round_trip(canonical: &[u8], names: &Names) {
    let readable = from_text_named(canonical, names).unwrap_or_else(|error| panic!("{error}"));
    let back = to_text(&readable).unwrap_or_else(|error| panic!("{error}\n{readable}"));
    assert_eq!(
        String::from_utf8_lossy(&back),
        String::from_utf8_lossy(canonical)
    );
    assert_eq!(from_text_named(&back, names).unwrap(), readable);
}

#[test]
fn rule_files() {
    let folder = Path::new(env!("CARGO_MANIFEST_DIR")).join("../../rules");
    let mut count = 0;
    for entry in std::fs::read_dir(folder).unwrap() {
        let path = entry.unwrap().path();
        if path
            .extension()
            .map_or(true, |extension| extension != "rules")
        {
            continue;
        }
        let readable = std::fs::read_to_string(&path).unwrap();
        let canonical = to_text(&readable).unwrap();
        check_round_trip(&canonical, &Names::default());
        check_round_trip(&canonical, &read(&readable).unwrap().0);
        count += 1;
    }
    assert!(count >= 5);
    println!("{count} rule files, with and without names");
}

#[test]
fn random_round_trips() {
    let (names, _) = read("= ok c0 = red c1 = blue c2 = vlan-10 c10 = last c65535 ()").unwrap();
    let mut bytes = 0;
    let count = 4000;
    for made in random_programs(count) {
        let canonical = write_text(&made);
        let got = program(&canonical).unwrap();
        assert_eq!(without_names(&got), made);
        assert_eq!(text(&got), canonical);
        check_round_trip(&canonical, &Names::default());
        check_round_trip(&canonical, &names);
        bytes += canonical.len();
    }
    println!("{count} random programs, {bytes} bytes of text");
}

#[test]
fn deep_programs() {
    let chains: [fn(Term) -> Term; 4] = [
        fresh,
        |inner| application(inner, Term::Constructor(1)),
        |inner| guard(Term::Constructor(1), inner),
        |inner| Term::Abstraction(vec![inner]),
    ];
    on_big_stack(|| {
        for (chain, levels) in chains.into_iter().zip([16_381, 8190, 8190, 5460]) {
            let made = |levels| (0..levels).fold(Term::Constructor(0), |inner, _| chain(inner));
            check_round_trip(&write_text(&[made(levels)]), &Names::default());
            let error = program(&write_text(&[made(levels + 1)])).unwrap_err();
            assert!(error.message.contains("more than 16384 nodes"), "{error}");
        }
    });
    println!("4 chains at the node limit, 4 beyond it");
}

/// A text is read here exactly where the library reads it.
#[test]
fn agreement_with_the_library() {
    let (accepted, refused) = on_big_stack(compare_with_the_library);
    println!("{accepted} texts read, {refused} refused, by both");
    assert!(accepted > 1000 && refused > 1000);
}

fn compare_with_the_library() -> (usize, usize) {
    let mut random = Random::new(3);
    let mut table = OwnTable::empty(Lengths::FULL);
    let (mut accepted, mut refused) = (0, 0);
    for _ in 0..20_000 {
        let given = generate::text(Size::LARGE, &mut random);
        let library = mespindro::read(&given, table.lent_mut()).is_ok();
        assert_eq!(
            from_text(&given).is_ok(),
            library,
            "{}",
            String::from_utf8_lossy(&given)
        );
        *(if library { &mut accepted } else { &mut refused }) += 1;
    }
    (accepted, refused)
}

/// What is put into a readable form to change it.
const PUT: [&str; 13] = [
    "(", ")", " ", "0", "b1", "c", "x", "; ", "\n", "é", "=", "n", "g",
];

/// Whatever is accepted of a readable form is a text that the library reads; the rest is an error, at a place inside the input.
#[test]
fn changed_readable_forms() {
    let mut random = Random::new(4);
    let mut table = OwnTable::empty(Lengths::FULL);
    let (mut accepted, mut refused) = (0, 0);
    for made in random_programs(2000) {
        let readable = from_text(&write_text(&made)).unwrap();
        for _ in 0..5 {
            let place = random.below(readable.len());
            let put = random.pick(&PUT);
            let changed = format!("{}{put}{}", &readable[..place], &readable[place + 1..]);
            match to_text(&changed) {
                Ok(canonical) => {
                    accepted += 1;
                    let read = mespindro::read(&canonical, table.lent_mut());
                    assert!(read.is_ok(), "{changed}");
                }
                Err(error) => {
                    refused += 1;
                    let line = changed
                        .split('\n')
                        .nth(error.line - 1)
                        .expect("a line of the input");
                    assert!(error.column <= line.chars().count() + 1, "{error}");
                }
            }
        }
    }
    println!("{accepted} changed readable forms read, {refused} refused");
    assert!(accepted > 1000 && refused > 1000);
}

#[test]
fn short_forms() {
    let cases = [
        ("()", "()"),
        (" ( ; a comment ( (\n ) ; another", "()"),
        ("(c1)", "((1:c1:1))"),
        ("(x0 c65535)", "((1:x1:0)(1:c5:65535))"),
        ("((l(b0)))", "((1:l((1:v1:0))))"),
        ("((l it (it)))", "((1:l((1:v1:0))))"),
        ("((L 12 (b0)))", "((1:L2:12((1:v1:0))))"),
        ("((L 12 it (it it)))", "((1:L2:12((1:v1:0)(1:v1:0))))"),
        ("((n b0))", "((1:n(1:v1:0)))"),
        ("((n it it))", "((1:n(1:v1:0)))"),
        ("((n p (n q (u p q))))", "((1:n(1:n(1:u(1:v1:1)(1:v1:0)))))"),
        ("((n it c1) (n it c2))", "((1:n(1:c1:1))(1:n(1:c1:2)))"),
        ("((a c1 c2 c3))", "((1:a(1:a(1:c1:1)(1:c1:2))(1:c1:3)))"),
        ("((a (a c1 c2) c3))", "((1:a(1:a(1:c1:1)(1:c1:2))(1:c1:3)))"),
        ("((g c1 c2 c3))", "((1:g(1:c1:1)(1:g(1:c1:2)(1:c1:3))))"),
        ("= red c5 = c9z c6\n(red c9z)", "((1:c1:5)(1:c1:6))"),
    ];
    for (readable, canonical) in cases {
        let got = to_text(readable).unwrap_or_else(|error| panic!("{readable}: {error}"));
        assert_eq!(String::from_utf8_lossy(&got), canonical, "{readable}");
    }
    println!("{} short forms", cases.len());
}

const NO_NAME_C1: &str = "c1 cannot be a name: a letter and then letters, digits and '-', no tag (l, L, n, u, a, g), no xN, bN or cN";
const NO_NAME_A: &str = "a cannot be a name: a letter and then letters, digits and '-', no tag (l, L, n, u, a, g), no xN, bN or cN";
const NO_NAME_PORT_1: &str = "port_1 cannot be a name: a letter and then letters, digits and '-', no tag (l, L, n, u, a, g), no xN, bN or cN";
const NO_TERM_G: &str =
    "g is a tag and stands behind a bracket of its own; a list of alternatives has brackets too";

#[test]
fn errors_of_the_readable_form() {
    let cases = [
        (
            "",
            1,
            1,
            "a program's '(' must stand here, and the input ends",
        ),
        (
            "(c1\n",
            2,
            1,
            "a term or ')' must stand here, and the input ends",
        ),
        ("(c1))", 1, 5, "nothing may stand behind the program"),
        (
            "(c1) ; fine\n c2",
            2,
            2,
            "nothing may stand behind the program",
        ),
        ("(\n  red)", 2, 3, "red is not declared"),
        ("((b0))", 1, 3, "a tag (l, L, n, u, a or g) must stand here"),
        ("(b0)", 1, 2, "b0 has no binder"),
        ("((n (l (b2))))", 1, 9, "b2 has no binder"),
        (
            "(c65536)",
            1,
            2,
            "cN goes from 0 to 65535, without leading zeros",
        ),
        (
            "(x16384)",
            1,
            2,
            "xN goes from 0 to 16383, without leading zeros",
        ),
        (
            "(c01)",
            1,
            2,
            "cN goes from 0 to 65535, without leading zeros",
        ),
        ("(c)", 1, 2, "c is not declared"),
        ("((l c1))", 1, 5, NO_NAME_C1),
        ("= port_1 c5001 (c1)", 1, 3, NO_NAME_PORT_1),
        ("((l a (a)))", 1, 5, NO_NAME_A),
        ("((l it (g (u it c1) c2)))", 1, 9, NO_TERM_G),
        ("((l it c1))", 1, 8, "a program's '(' must stand here"),
        (
            "((L 16384 ()))",
            1,
            5,
            "a location from 0 to 16383 must stand here",
        ),
        (
            "((L ()))",
            1,
            5,
            "a location from 0 to 16383 must stand here",
        ),
        ("((u c1))", 1, 7, "a term must stand here"),
        ("((u c1 c2 c3))", 1, 11, "')' must stand here"),
        ("((a c1))", 1, 7, "a term must stand here"),
        ("((n it (n it it)))", 1, 11, "it is already a name here"),
        ("= red c1 = red c2 ()", 1, 12, "red is already a name here"),
        ("= red c1 = rot c1 ()", 1, 16, "c1 is already called red"),
        ("= red x1 ()", 1, 7, "a constructor cN must stand here"),
        ("= a c1 ()", 1, 3, NO_NAME_A),
        ("= (c1)", 1, 3, "a name must stand here"),
        (
            "= red c1 ((n red red))",
            1,
            14,
            "red is already a name here",
        ),
        (
            "((L 0 (c1)) (a (L 0 (c1))\n (L 0 (c2))))",
            2,
            3,
            "location 0 has two different bodies in one thread",
        ),
        (
            "((n it (L 7 (it))))",
            1,
            9,
            "(L 7 …) uses a variable that is bound outside it",
        ),
        ("(é)", 1, 2, "a term must stand here"),
        ("((u é z))", 1, 5, "a term must stand here"),
    ];
    for (readable, line, column, message) in cases {
        let error = to_text(readable).expect_err(readable);
        let got = (error.line, error.column, error.message.as_str());
        assert_eq!(got, (line, column, message), "{readable}");
    }
    println!("{} errors of the readable form", cases.len());
}

#[test]
fn errors_of_the_canonical_text() {
    let cases = [
        ("", 1, "'(' must stand here, and the text ends"),
        (
            "((1:c1:1)",
            10,
            "'(' or ')' must stand here, and the text ends",
        ),
        ("()\n", 3, "the text goes on behind the program"),
        ("(1:c)", 2, "'(' or ')' must stand here"),
        ("((1:z))", 3, "unknown tag"),
        ("((01:c1:1))", 3, "an atom's length must stand here"),
        (
            "((1:c2:01))",
            6,
            "a plain decimal from 0 to 65535 must stand here",
        ),
        ("((1:c9:1))", 6, "an atom must stand here"),
        ("((1:v1:0))", 6, "bound variable 0 has no binder"),
        ("((1:c1:01:0))", 9, "')' must stand here"),
        (
            "((1:a(1:L1:0())(1:L1:0((1:c1:1)))))",
            17,
            "location 0 has two different bodies in one thread",
        ),
    ];
    for (canonical, column, message) in cases {
        let error = from_text(canonical.as_bytes()).expect_err(canonical);
        let got = (error.line, error.column, error.message.as_str());
        assert_eq!(got, (1, column, message), "{canonical}");
    }
    println!("{} errors of the canonical text", cases.len());
}
