//! The files of tests/cases that have one case a line.

use crate::evaluator::Size;

/// The cases of a file: what stands before the blank and `;`.
pub fn lines(file: &str) -> impl Iterator<Item = &str> {
    let lines = file.lines().filter(|line| !line.starts_with(';'));
    lines.map(|line| line.rsplit_once(" ;").expect("a reason").0)
}

/// What a word says of a size: where the sizes differ it is two, at 2,048 nodes and at 16,384, with a `/` between them.
pub fn at_size(word: &str, size: Size) -> &str {
    let (small, large) = word.split_once('/').unwrap_or((word, word));
    match size {
        Size::SMALL => small,
        _ => large,
    }
}

/// A text with its repeated pieces written out: `{3 ab}` is `ababab`. `\n` is a newline.
pub fn written_out(text: &str) -> Vec<u8> {
    let (mut out, mut rest) = (String::new(), text);
    while let Some((before, behind)) = rest.split_once('{') {
        let (inside, after) = behind.split_once('}').expect("a closing brace");
        let (times, piece) = inside.split_once(' ').expect("a number and a piece");
        out += before;
        out += &piece.repeat(times.parse().expect("a number"));
        rest = after;
    }
    (out + rest).replace("\\n", "\n").into_bytes()
}
