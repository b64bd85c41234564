//! The words and the numbers of this crate are those of docs/USING.md and of include/mespindro.h.

use std::collections::BTreeMap;
use std::error::Error;
use std::path::Path;

use mespindro::{kind, small, Reason, Refusal, Rule, Standing, TableMut};
use mespindro::{COLUMN, NODES, TABLE, TEXT};

fn file(name: &str) -> String {
    let path = Path::new(env!("CARGO_MANIFEST_DIR"))
        .join("../..")
        .join(name);
    std::fs::read_to_string(&path).unwrap_or_else(|error| panic!("{}: {error}", path.display()))
}

/// The cells of the table rows of a page that begin with a number, without the marks for code and for stress.
fn rows(page: &str, heading: &str) -> Vec<Vec<String>> {
    let (_, section) = page.split_once(heading).expect("the heading");
    let section = section.split("\n## ").next().unwrap();
    let rows = section.lines().filter_map(|line| line.strip_prefix("| "));
    let cells = rows.map(|row| -> Vec<String> {
        let cells = row.trim_end_matches(" |").split(" | ");
        cells.map(|cell| cell.replace(['`', '*'], "")).collect()
    });
    cells
        .filter(|cells| cells[0].parse::<u16>().is_ok())
        .collect()
}

#[test]
fn refusals() {
    let page = file("docs/USING.md");
    let rows = rows(&page, "## What each refusal means to an operator");
    // the last one is the program's own, and no call gives it
    let (last, rows) = rows.split_last().expect("rows");
    assert_eq!(last[0], "15");
    assert_eq!(rows.len(), Refusal::ALL.len());
    for (row, refusal) in rows.iter().zip(Refusal::ALL) {
        let [number, name, advice] = row.as_slice() else {
            panic!("{row:?}");
        };
        assert_eq!(refusal.number().to_string(), *number);
        assert_eq!(Refusal::of_number(refusal.number()), Some(refusal));
        let said = refusal.to_string();
        assert_eq!(said, format!("{name} ({number}): {advice}"));
    }
    assert_eq!(Refusal::of_number(0), None);
    assert_eq!(Refusal::of_number(12), None);
    assert_eq!(Refusal::of_number(13), None);
    assert_eq!(Refusal::of_number(15), None);
}

#[test]
fn standings_and_rules() {
    let page = file("docs/USING.md");
    let standings = rows(&page, "## What an answer means");
    let rules = rows(&page, "## What a run spends its steps on");
    for standing in Standing::ALL {
        let code = standing.code().to_string();
        let row = standings.iter().find(|row| row[0] == code).unwrap();
        assert_eq!(row[1], standing.to_string());
        assert_eq!(Standing::of_code(standing.code()), Some(standing));
    }
    assert_eq!(rules.len(), Rule::ALL.len());
    for (row, rule) in rules.iter().zip(Rule::ALL) {
        assert_eq!(
            (&row[0], &row[1]),
            (&rule.code().to_string(), &rule.to_string())
        );
        assert_eq!(Rule::of_code(rule.code()), Some(rule));
    }
    for reason in Reason::ALL {
        assert_eq!(Reason::of_code(reason.code()), Some(reason));
    }
}

/// A refusal travels as an error: in a box, and by `?`.
#[test]
fn an_error() {
    fn reads(text: &[u8]) -> Result<usize, Box<dyn Error>> {
        let (mut numbers, mut column) = ([0; TABLE], [0; COLUMN]);
        Ok(mespindro::read(
            text,
            TableMut::new(&mut numbers, &mut column),
        )?)
    }
    assert_eq!(reads(b"()").unwrap(), 1);
    let error = reads(b"()\n").unwrap_err();
    assert_eq!(error.downcast_ref(), Some(&Refusal::NotCanonical));
    assert!(error.source().is_none());
}

/// The numbers of the header's names.
fn numbers() -> BTreeMap<String, usize> {
    let header = file("include/mespindro.h");
    let words: Vec<&str> = header.split_whitespace().collect();
    let named = words.windows(3).filter_map(|three| match three {
        ["#define", name, number] => Some((*name, *number)),
        [name, "=", number] => Some((*name, number.trim_end_matches(','))),
        _ => None,
    });
    let named = named.filter_map(|(name, number)| {
        let name = name.strip_prefix("MESPINDRO_")?;
        Some((name.to_string(), number.parse().ok()?))
    });
    named.collect()
}

/// A name as the header writes it.
fn constant(name: &str) -> String {
    name.to_uppercase().replace(' ', "_")
}

#[test]
fn the_header() {
    let mut expected = BTreeMap::from([
        ("NODES".to_string(), NODES),
        ("TEXT".to_string(), TEXT),
        ("TABLE".to_string(), TABLE),
        ("COLUMN".to_string(), COLUMN),
        ("SMALL_NODES".to_string(), small::NODES),
        ("SMALL_TEXT".to_string(), small::TEXT),
        ("SMALL_TABLE".to_string(), small::TABLE),
        ("SMALL_COLUMN".to_string(), small::COLUMN),
        ("ACCEPTED".to_string(), 0),
    ]);
    let kinds = [
        ("EMPTY", kind::EMPTY),
        ("ALTERNATIVE", kind::ALTERNATIVE),
        ("BOUND", kind::BOUND),
        ("FREE", kind::FREE),
        ("CONSTRUCTOR", kind::CONSTRUCTOR),
        ("ABSTRACTION", kind::ABSTRACTION),
        ("ALLOCATED", kind::ALLOCATED),
        ("APPLICATION", kind::APPLICATION),
        ("FRESH", kind::FRESH),
        ("GUARD", kind::GUARD),
        ("UNIFICATION", kind::UNIFICATION),
    ];
    expected.extend(kinds.map(|(name, number)| (name.to_string(), usize::from(number))));
    let refusals = Refusal::ALL.map(|r| (constant(r.name()), usize::from(r.number())));
    expected.extend(refusals);
    let rules = Rule::ALL.map(|r| {
        (
            format!("RULE_{}", constant(r.name())),
            usize::from(r.code()),
        )
    });
    expected.extend(rules);
    expected.extend(Reason::ALL.map(|r| (constant(r.name()), usize::from(r.code()))));
    expected.extend(Standing::ALL.map(|s| (constant(s.name()), usize::from(s.code()))));
    assert_eq!(numbers(), expected);
}
