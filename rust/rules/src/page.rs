//! A run as one page of HTML: what came of it, what its steps were, and its alternatives as they fork. It needs nothing from outside and no
//! script, and a text browser shows all of it but the lines of the picture.

mod picture;

use std::fmt::Write;

use mespindro::{Reason, Rule, Standing};

use crate::notation::{line, show, Names};
use crate::run::{missing, nothing_left, End};
use crate::story::{how_many, Branch, Fate, Story};
use crate::term::Term;

/// What every page begins with, and nothing else does.
pub const BEGIN: &str = "<!doctype html>\n<!-- a run, told by rules -->\n";

/// The page of a run; `title` is the rule set's.
///
/// It calls itself once for each fork inside a fork, some thousand times for a run of 10,000 steps: the command gives it a stack of its own.
pub fn page(title: &str, story: &Story, end: &End, names: &Names) -> String {
    let title = escaped(title);
    let mut out = format!(
        "{BEGIN}<html lang=\"en\">\n<meta charset=\"utf-8\">\n<meta name=\"viewport\" content=\"width=device-width\">\n\
         <title>{title}</title>\n<style>\n{}</style>\n<h1>{title}</h1>\n",
        include_str!("page/style.css")
    );
    out += &verdict(story, end);
    out += &threads(end, names);
    out += &rules(end);
    out += &picture::picture(story, end, names);
    out + &terms(names)
}

/// For those who read the page and have not written the rule set.
fn terms(names: &Names) -> String {
    let ok = escaped(names.name(0).unwrap_or("c0"));
    let lines = [
        ("port-7", "a plain name, equal to itself alone"),
        ("?port", "an unknown: what it is has not been found out yet"),
        (
            "(u A B)",
            "a goal: A and B are to be equal; where they cannot be, the alternative dies",
        ),
        ("(g A B T)", "T, once the conditions A and B are met"),
        (ok.as_str(), "what is left of a goal that was met"),
        (
            "(a F X Y)",
            "F with X and Y: a rule is given them, a plain name like placement keeps them",
        ),
        (
            "(l x (…))",
            "a rule that asks for x; in the inner brackets are its alternatives",
        ),
        ("(L 0 x (…))", "the same, made ready"),
        ("(n x T)", "T with a new unknown x"),
        ("…", "something that was left out because the line was full"),
    ];
    let mut out = "<h2>How the terms are to be read</h2>\n<table>\n".to_string();
    for (term, meaning) in lines {
        let _ = writeln!(out, "<tr><td><code>{term}</code><td>{meaning}");
    }
    out + "</table>\n"
}

/// Text as HTML shows it.
fn escaped(text: &str) -> String {
    let text = text.replace('&', "&amp;").replace('<', "&lt;");
    text.replace('>', "&gt;").replace('"', "&quot;")
}

/// A number and a word, which gets an s where the number is not 1.
fn counted(number: usize, word: &str) -> String {
    match number {
        1 => format!("1 {word}"),
        _ => format!("{number} {word}s"),
    }
}

/// Why the run stopped, and how many alternatives came to what.
fn verdict(story: &Story, end: &End) -> String {
    let steps = counted(end.stop.steps as usize, "step");
    let reason = match end.stop.reason {
        Reason::Ended => format!("The run ended after {steps}: every alternative is finished."),
        Reason::Steps => format!("The run was stopped after {steps}: there is more to do, and nothing may be placed."),
        Reason::Room => format!("The run stopped after {steps} for want of room: its next step needs more than {} nodes. There is more to do, and nothing may be placed.", end.room),
    };
    let died = |branch: &&Branch| matches!(branch.fate, Fate::Died(..));
    let died = story.branches.iter().filter(died).count();
    let standing = |standing| how_many(&end.threads, standing);
    let tally = [
        ("answer", counted(standing(Standing::Answer), "answer")),
        (
            "partial",
            format!("{} partial", standing(Standing::Partial)),
        ),
        ("stuck", format!("{} stuck", standing(Standing::Stuck))),
        ("open", format!("{} open", standing(Standing::Open))),
        ("died", format!("{died} died")),
    ];
    let shown = tally
        .iter()
        .filter(|(class, text)| *class == "answer" || !text.starts_with("0 "));
    let shown: Vec<String> = shown
        .map(|(class, text)| format!("<b class=\"{class}\">{text}</b>"))
        .collect();
    format!(
        "<p>{reason}</p>\n<p class=\"tally\">{}</p>\n",
        shown.join(" ")
    )
}

/// Each thread of the end, whole.
fn threads(end: &End, names: &Names) -> String {
    let mut out = "<h2>What came of it</h2>\n".to_string();
    if end.threads.is_empty() {
        return out + &format!("<p>{}: the request cannot be met.</p>\n", nothing_left(end));
    }
    if end.stop.reason == Reason::Ended {
        out += "<p>Only an answer may be placed. Of any other it is said what is missing.</p>\n";
    }
    out += "<table>\n<tr><th>thread<th>it is<th>the alternative\n";
    for (k, (standing, term)) in end.threads.iter().enumerate() {
        let missing = missing(end, k).map_or(String::new(), |m| format!(", {}", escaped(&m)));
        let term = whole(term, names);
        let _ = writeln!(
            out,
            "<tr class=\"{standing}\"><td class=\"number\">{k}<td><b>{standing}</b>{missing}<td>{term}"
        );
    }
    out + "</table>\n"
}

/// A term on its lines; a long one folded.
fn whole(term: &Term, names: &Names) -> String {
    let lines = show(term, names, 0);
    let pre = format!("<pre>{}</pre>", escaped(&lines));
    match lines.lines().count() {
        0..=12 => pre,
        _ => {
            let short = escaped(&line(term, names, None, 80));
            format!("<details><summary><code>{short}</code> <b>whole</b></summary>{pre}</details>")
        }
    }
}

/// How many steps each rule made, as bars.
fn rules(end: &End) -> String {
    let counts = &end.stop.counts;
    let most = Rule::ALL.map(|rule| counts.of(rule)).into_iter().max();
    let most = most.unwrap_or(0).max(1);
    let mut out =
        "<h2>What the steps were</h2>\n<table>\n<tr><th>rule<th>steps<th><th>what it does\n"
            .to_string();
    for rule in Rule::ALL {
        let count = counts.of(rule);
        // something for one step, nothing for none
        let width = (f64::from(count) * 260.0 / f64::from(most)).ceil();
        let _ = writeln!(
            out,
            "<tr><td><code>{rule}</code><td class=\"number\">{count}<td><span class=\"bar {rule}\" style=\"width:{width:.0}px\"></span><td>{}",
            deed(rule)
        );
    }
    let _ = writeln!(
        out,
        "<tr><td>all<td class=\"number\">{}<td><td>\n</table>",
        end.stop.steps
    );
    out
}

/// What a rule does, for people.
fn deed(rule: Rule) -> &'static str {
    match rule {
        Rule::Alloc => "a rule was made ready",
        Rule::Beta => "a rule was given what it asks for; with several alternatives, the run forks",
        Rule::Fresh => "an unknown was made",
        Rule::Guard => "a condition was met and went away",
        Rule::Unif => "two things were made equal",
        Rule::Fail => "two things could not be made equal: the alternative died",
    }
}
