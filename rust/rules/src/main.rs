//! The command for rule sets.

mod page_file;

use std::ffi::OsString;
use std::fmt::Display;
use std::fs;
use std::io::{self, ErrorKind, Write};
use std::path::{Path, PathBuf};
use std::process::ExitCode;

use mespindro::NODES;
use page_file::PageFile;
use rules::memory::Memory;
use rules::notation::{self, Error, Names};
use rules::run::{describe, is_canonical, run_seen, RuleSet, STEPS};
use rules::story::Story;
use rules::trace;

const USAGE: &str = "\
rules text FILE                          the readable form in FILE as canonical text, without a newline at its end
rules show FILE [NAMES]                  the canonical text in FILE as readable form, with the names that the file NAMES declares
rules run [--trace] [--html PAGE] FILE   runs either form for at most 10,000 steps and tells how it ends
    --trace        tells each step, on lines of at most COLUMNS characters (80 if that is not set, and never less than 40)
    --html PAGE    writes the run as a picture: one page that needs nothing else
    a rule set that the small calls take is run in 2,048 nodes, as there, and any other in 16,384
";

/// Nested programs are worked by functions that call themselves.
const STACK: usize = 256 << 20;

/// What went wrong, and the status that the command ends with.
struct Failure {
    message: String,
    status: u8,
}

/// A message on one input or output.
fn failure(message: impl Into<String>) -> Failure {
    Failure {
        message: message.into(),
        status: 1,
    }
}

fn usage() -> Failure {
    Failure {
        message: USAGE.to_string(),
        status: 2,
    }
}

fn main() -> ExitCode {
    let words: Vec<OsString> = std::env::args_os().skip(1).collect();
    let worker = std::thread::Builder::new().stack_size(STACK);
    let worker = worker.spawn(move || command(&words));
    let done = worker.map(|worker| worker.join());
    match done {
        Ok(Ok(Ok(()))) => ExitCode::SUCCESS,
        Ok(Ok(Err(Failure { message, status }))) => {
            // where this cannot be written either, the status still tells
            let _ = io::stderr().write_all(message.as_bytes());
            ExitCode::from(status)
        }
        _ => ExitCode::FAILURE,
    }
}

fn command(words: &[OsString]) -> Result<(), Failure> {
    let Some((verb, rest)) = words.split_first() else {
        return Err(usage());
    };
    match (verb.to_str().unwrap_or(""), rest) {
        ("help" | "--help" | "-h", _) => print(USAGE.as_bytes()),
        ("text" | "show" | "run", [word]) if word == "--help" || word == "-h" => {
            print(USAGE.as_bytes())
        }
        ("--version", []) => print(concat!("rules ", env!("CARGO_PKG_VERSION"), "\n").as_bytes()),
        ("text", [file]) => print(&text(Path::new(file))?),
        ("show", [file]) => print(&show(Path::new(file), &Names::default())?),
        ("show", [file, names]) => {
            let names = declared(Path::new(names))?;
            print(&show(Path::new(file), &names)?)
        }
        ("run", rest) => Asked::of(rest)?.run(),
        _ => Err(usage()),
    }
}

fn print(bytes: &[u8]) -> Result<(), Failure> {
    let mut out = io::stdout().lock();
    written(out.write_all(bytes).and_then(|()| out.flush()))
}

/// A reader that goes away, as `head` does, is nothing to tell.
fn written(done: io::Result<()>) -> Result<(), Failure> {
    done.map_err(|error| match error.kind() {
        ErrorKind::BrokenPipe => failure(""),
        _ => failure(format!("standard output: {error}\n")),
    })
}

// ---- Files.

/// What is wrong with a file, and where.
fn at(file: &Path, error: &Error) -> Failure {
    failure(format!("{}:{error}\n", file.display()))
}

/// What is wrong with a file as a whole, from its first character on.
fn wrong(file: &Path, message: impl Display) -> Failure {
    failure(format!("{}:1:1: {message}\n", file.display()))
}

fn content(file: &Path) -> Result<Vec<u8>, Failure> {
    fs::read(file).map_err(|error| wrong(file, format!("cannot be read: {error}")))
}

/// What a readable file has, taken by `read`.
fn readable<T>(file: &Path, read: fn(&str) -> Result<T, Error>) -> Result<T, Failure> {
    let content = content(file)?;
    if is_canonical(&content) {
        return Err(wrong(file, "this is a canonical text, not a readable form"));
    }
    let read = notation::utf8(&content).and_then(read);
    read.map_err(|error| at(file, &error))
}

fn text(file: &Path) -> Result<Vec<u8>, Failure> {
    readable(file, notation::to_text)
}

fn declared(file: &Path) -> Result<Names, Failure> {
    readable(file, notation::names)
}

fn show(file: &Path, names: &Names) -> Result<Vec<u8>, Failure> {
    let content = content(file)?;
    let form = notation::from_text_named(&content, names);
    let form = form.map_err(|error| no_text(file, &content, &error))?;
    Ok(form.into_bytes())
}

/// Either form: a canonical text by the file's name, or where it begins like one.
fn rule_set(file: &Path) -> Result<RuleSet, Failure> {
    let content = content(file)?;
    let by_name = file.extension().is_some_and(|end| end == "csexp");
    if by_name || is_canonical(&content) {
        return RuleSet::of_text(&content).map_err(|error| no_text(file, &content, &error));
    }
    RuleSet::of(&content).map_err(|error| at(file, &error))
}

/// Where a canonical text is wrong, and the library's own word, which a switch tells by its number.
fn no_text(file: &Path, content: &[u8], error: &Error) -> Failure {
    if is_readable(content) {
        return wrong(file, "this is a readable form, not a canonical text");
    }
    let mut failure = at(file, error);
    if let Err(refusal) = mespindro::read(content, Memory::zeros(NODES).table_mut()) {
        failure.message += &format!("  a switch refuses it: {refusal}\n");
    }
    failure
}

/// Whether a content is a readable form, and not just a text with a fault that such a form may have: `()` and a newline.
fn is_readable(content: &[u8]) -> bool {
    let read = notation::utf8(content).and_then(notation::read);
    !is_canonical(content) && !content.starts_with(b"()") && read.is_ok()
}

// ---- Running.

/// What `rules run` is asked for.
struct Asked {
    file: PathBuf,
    page: Option<PathBuf>,
    trace: bool,
}

impl Asked {
    fn of(words: &[OsString]) -> Result<Asked, Failure> {
        let mut words = words.iter();
        let (mut file, mut page, mut trace) = (None, None, false);
        let mut options = true;
        while let Some(word) = words.next() {
            let option = word.to_str().filter(|w| options && w.starts_with("--"));
            match option {
                Some("--") => options = false,
                Some("--trace") => trace = true,
                Some("--html") if page.is_none() => {
                    let next = words.next().filter(|word| is_file_name(word));
                    page = Some(PathBuf::from(next.ok_or_else(usage)?));
                }
                None if file.is_none() && !word.is_empty() => file = Some(PathBuf::from(word)),
                _ => return Err(usage()),
            }
        }
        let file = file.ok_or_else(usage)?;
        Ok(Asked { file, page, trace })
    }

    fn run(&self) -> Result<(), Failure> {
        let rule_set = rule_set(&self.file)?;
        match &self.page {
            None => self.tell(&rule_set),
            Some(page) => self.tell_with_page(&rule_set, page),
        }
    }

    /// Tells each step, if that is asked for, as it is made, and the end.
    fn tell(&self, rule_set: &RuleSet) -> Result<(), Failure> {
        let mut out = io::BufWriter::new(io::stdout().lock());
        let mut done = Ok(());
        let width = width();
        let end = run_seen(rule_set, STEPS, &mut |step| {
            if self.trace && done.is_ok() {
                let told = trace::step(step, &rule_set.names, width);
                done = out.write_all(told.as_bytes());
            }
        });
        let end = end.map_err(|refusal| wrong(&self.file, refusal))?;
        let told = describe(&end, &rule_set.names);
        let done = done.and_then(|()| out.write_all(told.as_bytes()));
        written(done.and_then(|()| out.flush()))
    }

    /// Writes the page, and tells the rest when that is done: where the page cannot be written nothing is printed.
    fn tell_with_page(&self, rule_set: &RuleSet, page: &Path) -> Result<(), Failure> {
        let cannot = |error: io::Error| failure(format!("{}: {error}\n", page.display()));
        let file = PageFile::begin(page, &self.file).map_err(cannot)?;
        let mut told = String::new();
        let mut story = Story::new(rule_set);
        let width = width();
        let end = run_seen(rule_set, STEPS, &mut |step| {
            story.step(step, &rule_set.names);
            if self.trace {
                told += &trace::step(step, &rule_set.names, width);
            }
        });
        let end = end.map_err(|refusal| wrong(&self.file, refusal))?;
        let title = self.file.display().to_string();
        let page = rules::page::page(&title, &story, &end, &rule_set.names);
        file.end(&page).map_err(cannot)?;
        told += &describe(&end, &rule_set.names);
        print(told.as_bytes())
    }
}

fn is_file_name(word: &OsString) -> bool {
    !word.is_empty() && !word.to_string_lossy().starts_with("--")
}

/// A screen's width, where it was told, but for one on which nothing could be read.
fn width() -> usize {
    let columns = std::env::var("COLUMNS").ok();
    let columns = columns.and_then(|columns| columns.parse::<usize>().ok());
    columns.unwrap_or(80).max(40)
}
