//! Smaller calls that still differ.

use crate::compare::{compare, Call};
use crate::evaluator::column::column;
use crate::evaluator::table::{decode, OwnTable};
use crate::evaluator::text::{parse, put_expression, Expression};
use crate::evaluator::{Lengths, Size};

/// The smallest call found that still differs: parts are dropped as long as it does.
pub fn shrink(size: Size, call: Call) -> Call {
    let differs = |call: &Call| compare(size, call).is_err();
    // lengths and limits that were chosen for the larger program would hold it as it is
    let mut call = Some(roomy(size, &call)).filter(differs).unwrap_or(call);
    while let Some(smaller) = candidates(size, &call).into_iter().find(differs) {
        call = smaller;
    }
    call
}

/// The call with a large output or work table and a limit of some steps.
fn roomy(size: Size, call: &Call) -> Call {
    let mut call = call.clone();
    let large = Lengths::for_nodes(size.nodes);
    match &mut call {
        Call::Read { out, .. } | Call::Step { out, .. } => *out = large,
        Call::Write { out, .. } => *out = size.text(),
        Call::Run { work, most, .. } => (*work, *most) = (large, 60),
        Call::Standing { .. } | Call::Thread { .. } => {}
    }
    call
}

/// Calls that are a little smaller, the much smaller ones first.
fn candidates(size: Size, call: &Call) -> Vec<Call> {
    let mut calls = with_smaller_input(size, call);
    calls.extend(with_smaller_numbers(call));
    calls
}

fn with_smaller_input(size: Size, call: &Call) -> Vec<Call> {
    match call {
        Call::Read { text, out } => {
            let mut texts = without_parts(text, 1);
            texts.extend(without_members(text));
            texts.extend(without_brackets(text));
            let texts = texts.into_iter();
            texts.map(|text| Call::Read { text, out: *out }).collect()
        }
        Call::Write { table, count, .. }
        | Call::Step { table, count, .. }
        | Call::Run { table, count, .. }
        | Call::Standing { table, count, .. }
        | Call::Thread { table, count, .. } => smaller_tables(size, table, *count)
            .into_iter()
            .map(|(table, count)| with_table(call, table, count))
            .collect(),
    }
}

fn with_table(call: &Call, new: OwnTable, nodes: usize) -> Call {
    let mut call = call.clone();
    match &mut call {
        Call::Read { .. } => {}
        Call::Write { table, count, .. }
        | Call::Step { table, count, .. }
        | Call::Run { table, count, .. }
        | Call::Standing { table, count, .. }
        | Call::Thread { table, count, .. } => (*table, *count) = (new, nodes),
    }
    call
}

/// The call with a smaller length, limit or thread number.
fn with_smaller_numbers(call: &Call) -> Vec<Call> {
    let mut calls = Vec::new();
    let mut add = |change: &dyn Fn(&mut Call)| {
        let mut call = call.clone();
        change(&mut call);
        calls.push(call);
    };
    match call {
        Call::Read { out, .. } | Call::Step { out, .. } | Call::Run { work: out, .. } => {
            for smaller in smaller_lengths(*out) {
                add(&|call| match call {
                    Call::Read { out, .. }
                    | Call::Step { out, .. }
                    | Call::Run { work: out, .. } => *out = smaller,
                    _ => {}
                });
            }
        }
        Call::Write { out: number, .. }
        | Call::Standing { k: number, .. }
        | Call::Thread { k: number, .. } => {
            for smaller in smaller_numbers(*number) {
                add(&|call| match call {
                    Call::Write { out: number, .. }
                    | Call::Standing { k: number, .. }
                    | Call::Thread { k: number, .. } => *number = smaller,
                    _ => {}
                });
            }
        }
    }
    if let Call::Run { most, .. } = call {
        for smaller in smaller_numbers(*most as usize) {
            add(&|call| {
                if let Call::Run { most, .. } = call {
                    *most = smaller as u32;
                }
            });
        }
    }
    calls
}

fn smaller_lengths(lengths: Lengths) -> Vec<Lengths> {
    let numbers = smaller_numbers(lengths.numbers).map(|numbers| Lengths { numbers, ..lengths });
    let columns = smaller_numbers(lengths.column).map(|column| Lengths { column, ..lengths });
    numbers.chain(columns).collect()
}

/// The tables with fewer nodes, with a subtree made a constructor, with a shorter tail, with fewer faults in the column.
fn smaller_tables(size: Size, table: &OwnTable, count: usize) -> Vec<(OwnTable, usize)> {
    let nodes = count.min(table.numbers.len() / 2);
    let (program, tail) = table.numbers.split_at(2 * nodes);
    let right = right_column(size, &table.numbers, count);
    let mut tables = Vec::new();
    let mut shorter = without_parts(program, 2);
    shorter.extend(without_subtrees(program));
    for program in shorter {
        let fewer = count - (nodes - program.len() / 2);
        let numbers = [&program, tail].concat();
        let column = match (&right, right_column(size, &numbers, fewer)) {
            (Some(old), Some(new)) => with_same_faults(&table.column, old, new),
            _ => table.column.clone(),
        };
        tables.push((OwnTable { numbers, column }, fewer));
    }
    for length in smaller_numbers(tail.len()) {
        let numbers = table.numbers[..2 * nodes + length].to_vec();
        let column = table.column.clone();
        tables.push((OwnTable { numbers, column }, count));
    }
    for column in smaller_columns(&table.column, right.as_deref().unwrap_or(&[])) {
        let numbers = table.numbers.clone();
        tables.push((OwnTable { numbers, column }, count));
    }
    tables
}

/// The column of the program that a table holds, if it holds one.
fn right_column(size: Size, numbers: &[u16], count: usize) -> Option<Vec<u16>> {
    decode(size, numbers, count).map(|program| column(&program))
}

/// A right column with the faults that another has against its own right one: wrong entries, missing ones, numbers behind.
fn with_same_faults(given: &[u16], right: &[u16], mut new: Vec<u16>) -> Vec<u16> {
    for (place, entry) in new.iter_mut().enumerate() {
        if let (Some(wrong), Some(right)) = (given.get(place), right.get(place)) {
            if wrong != right {
                *entry = *wrong;
            }
        }
    }
    let missing = right.len().saturating_sub(given.len());
    new.truncate(new.len().saturating_sub(missing));
    new.extend(given.iter().skip(right.len()));
    new
}

/// The column with a shorter tail, or with one wrong entry made right.
fn smaller_columns(given: &[u16], right: &[u16]) -> Vec<Vec<u16>> {
    let (front, tail) = given.split_at(right.len().min(given.len()));
    let lengths = smaller_numbers(tail.len());
    let mut columns: Vec<Vec<u16>> = lengths
        .map(|length| given[..front.len() + length].to_vec())
        .collect();
    for place in (0..front.len()).filter(|i| front[*i] != right[*i]) {
        let mut column = given.to_vec();
        column[place] = right[place];
        columns.push(column);
    }
    columns
}

/// The items without one part, in halves, quarters and so on down to `unit` items.
fn without_parts<T: Copy>(items: &[T], unit: usize) -> Vec<Vec<T>> {
    let mut smaller = Vec::new();
    let mut size = items.len() / unit;
    while size > 0 {
        // small parts are tried at every place
        let stride = if size <= 4 { unit } else { size * unit };
        for start in (0..items.len()).step_by(stride) {
            let end = (start + size * unit).min(items.len());
            smaller.push([&items[..start], &items[end..]].concat());
        }
        size /= 2;
    }
    smaller
}

/// The text of its expression without one member of a list, or with a list's member in the list's place.
fn without_members(text: &[u8]) -> Vec<Vec<u8>> {
    let smaller = parse(text).map_or(Vec::new(), |whole| smaller_expressions(&whole));
    let text_of = |expression: &Expression| {
        let mut text = Vec::new();
        put_expression(expression, &mut text);
        text
    };
    smaller.iter().map(text_of).collect()
}

fn smaller_expressions(expression: &Expression) -> Vec<Expression> {
    let Expression::List(members) = expression else {
        return Vec::new();
    };
    let mut smaller = members.clone();
    for (place, member) in members.iter().enumerate() {
        let with = |new: &[Expression]| {
            Expression::List([&members[..place], new, &members[place + 1..]].concat())
        };
        smaller.push(with(&[]));
        smaller.extend(smaller_expressions(member).into_iter().map(|m| with(&[m])));
    }
    smaller
}

/// The text without an opening and a closing bracket behind it.
fn without_brackets(text: &[u8]) -> Vec<Vec<u8>> {
    let places = |bracket| (0..text.len()).filter(move |i| text[*i] == bracket);
    let mut smaller = Vec::new();
    for open in places(b'(') {
        for close in places(b')').filter(|close| *close > open).take(20) {
            let between = &text[open + 1..close];
            smaller.push([&text[..open], between, &text[close + 1..]].concat());
        }
    }
    smaller
}

/// The program with one subtree of more than one node made constructor 0, or replaced by a term inside it.
fn without_subtrees(program: &[u16]) -> Vec<Vec<u16>> {
    let mut smaller = Vec::new();
    for start in (0..program.len()).step_by(2) {
        let is_term = |place: usize| (2..=10).contains(&program[place]);
        let Some(end) = subtree_end(program, start).filter(|_| is_term(start)) else {
            continue;
        };
        let with = |part: &[u16]| [&program[..start], part, &program[end..]].concat();
        if end > start + 2 {
            smaller.push(with(&[4, 0]));
        }
        // a long program has lost most of its nodes before this is worth its time
        let inner = (start + 2..end).step_by(2).filter(|_| program.len() < 300);
        for first in inner.filter(|first| is_term(*first)) {
            smaller.extend(subtree_end(program, first).map(|last| with(&program[first..last])));
        }
    }
    smaller
}

/// Where the tree that starts at a number ends.
fn subtree_end(program: &[u16], start: usize) -> Option<usize> {
    let mut missing = 1;
    let mut place = start;
    while missing > 0 {
        missing = missing - 1
            + match program.get(place)? {
                1 | 7 | 9 | 10 => 2,
                5 | 6 | 8 => 1,
                _ => 0,
            };
        place += 2;
    }
    Some(place)
}

/// The number without all of it, without a half, a quarter and so on.
fn smaller_numbers(number: usize) -> impl Iterator<Item = usize> {
    let parts = std::iter::successors(Some(number), |part| Some(part / 2));
    let parts = parts.take_while(|part| *part > 0);
    parts.map(move |part| number - part)
}
