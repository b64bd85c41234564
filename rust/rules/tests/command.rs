//! The command `rules`: what it prints for the rule sets in rules/, what it says of bad input, and that it then writes nothing.

use std::fs;
use std::path::{Path, PathBuf};
use std::process::{Command, Output};

/// The rule sets of the repository.
fn folder() -> PathBuf {
    Path::new(env!("CARGO_MANIFEST_DIR")).join("../../rules")
}

/// A folder of one test's own.
fn own(test: &str) -> PathBuf {
    let folder = Path::new(env!("CARGO_TARGET_TMPDIR")).join(test);
    let _ = fs::remove_dir_all(&folder);
    fs::create_dir_all(&folder).unwrap();
    folder
}

fn file(name: &str) -> String {
    fs::read_to_string(folder().join(name)).unwrap_or_else(|error| panic!("{name}: {error}"))
}

fn rule_sets() -> Vec<String> {
    let entries = fs::read_dir(folder()).unwrap();
    let names = entries.map(|entry| entry.unwrap().file_name().into_string().unwrap());
    names
        .filter_map(|name| name.strip_suffix(".rules").map(String::from))
        .collect()
}

fn rules(folder: &Path, arguments: &[&str]) -> Output {
    let mut command = Command::new(env!("CARGO_BIN_EXE_rules"));
    let command = command.args(arguments).current_dir(folder);
    command.env_remove("COLUMNS").output().unwrap()
}

fn printed(arguments: &[&str]) -> String {
    let output = rules(&folder(), arguments);
    let errors = String::from_utf8_lossy(&output.stderr);
    assert!(output.status.success(), "{arguments:?}: {errors}");
    assert_eq!(errors, "", "{arguments:?}");
    String::from_utf8(output.stdout).unwrap()
}

/// What it says on standard error, after it has ended with this status and printed nothing else.
fn complaint(folder: &Path, arguments: &[&str], status: i32) -> String {
    let output = rules(folder, arguments);
    assert_eq!(output.status.code(), Some(status), "{arguments:?}");
    assert_eq!(output.stdout, b"", "{arguments:?}");
    String::from_utf8(output.stderr).unwrap()
}

#[test]
fn text_show_and_run() {
    for name in rule_sets() {
        let [readable, canonical] = ["rules", "csexp"].map(|e| format!("{name}.{e}"));
        assert_eq!(printed(&["text", &readable]), file(&canonical));
        assert_eq!(printed(&["run", &readable]), file(&format!("{name}.end")));
        let shown = own("show").join("shown.rules");
        fs::write(&shown, printed(&["show", &canonical, &readable])).unwrap();
        let again = printed(&["text", shown.to_str().unwrap()]);
        assert_eq!(again, file(&canonical), "{name}");
    }
}

/// A trace ends as the run does, has a step for each, and no line that is wider than a screen.
#[test]
fn trace() {
    for name in rule_sets() {
        let readable = format!("{name}.rules");
        let (traced, end) = (
            printed(&["run", "--trace", &readable]),
            file(&format!("{name}.end")),
        );
        let steps = traced.strip_suffix(&end).expect("the run's own end");
        let told = steps
            .lines()
            .filter(|line| line.starts_with("step "))
            .count();
        let word = end.split(' ').nth(1).unwrap();
        assert_eq!(told.to_string(), word, "{name}");
        let widest = steps.lines().map(|line| line.chars().count()).max();
        assert!(
            widest.is_some_and(|widest| widest <= 80),
            "{name}: {widest:?}"
        );
    }
}

/// What the two pages show of a trace is a part of it.
#[test]
fn trace_of_the_accident() {
    let page = file("README.md");
    let (_, told) = page.split_once("```trace\n").expect("a trace");
    let (told, _) = told.split_once("```").expect("its end");
    let traced = printed(&["run", "accident.rules", "--trace"]);
    assert!(traced.contains(told), "{traced}");
    let indented: String = told.lines().map(|line| format!("    {line}\n")).collect();
    assert!(file("../docs/USING.md").contains(&indented));
}

/// The commands that docs/USING.md shows, with what they print.
#[test]
fn commands_of_the_page() {
    let folder = own("using");
    let link = std::os::unix::fs::symlink(self::folder(), folder.join("rules"));
    link.unwrap();
    fs::write(folder.join("torn.csexp"), FILES[1].1).unwrap();
    let page = file("../docs/USING.md");
    let shown: Vec<&str> = page.split("\n    $ rules ").skip(1).collect();
    for shown in &shown {
        let block = shown.split("\n\n").next().unwrap();
        let (words, expected) = block.split_once('\n').expect("what it prints");
        let words: Vec<&str> = words.split(' ').collect();
        let output = rules(&folder, &words);
        let printed = [output.stdout, output.stderr].concat();
        let printed = String::from_utf8(printed).unwrap();
        let indented: Vec<String> = printed.lines().map(|line| format!("    {line}")).collect();
        assert_eq!(indented.join("\n"), expected, "{words:?}");
    }
    assert_eq!(shown.len(), 2);
}

/// The page has every thread of the end, and nothing from outside.
#[test]
fn page() {
    let folder = own("page");
    for name in rule_sets() {
        let page = folder.join(format!("{name}.html"));
        let arguments = [
            "run",
            "--html",
            page.to_str().unwrap(),
            &format!("{name}.rules"),
        ];
        assert_eq!(printed(&arguments), file(&format!("{name}.end")));
        let page = fs::read_to_string(page).unwrap();
        for outside in ["<script", "src=", "href=", "http", "@import", "url("] {
            assert!(!page.contains(outside), "{name}: {outside}");
        }
        for line in file(&format!("{name}.end"))
            .lines()
            .filter(|l| l.starts_with("  (a "))
        {
            assert!(page.contains(line.trim()), "{name}: {line}");
        }
    }
}

const FILES: [(&str, &[u8]); 8] = [
    ("undeclared.rules", b"= red c1\n(red\n  blue)"),
    ("torn.csexp", b"((1:c1:1)"),
    ("newline.csexp", b"((1:c1:1))\n"),
    ("two-faults.csexp", b"((1:c2:01)(1:z))"),
    ("incoherent.csexp", b"((1:a(1:L1:0())(1:L1:0((1:c1:1)))))"),
    ("incoherent.rules", b"((a (L 0 ())\n    (L 0 (c1))))"),
    ("latin-1.rules", b"; caf\xe9\n()"),
    ("readable.csexp", b"(c1)"),
];

#[test]
fn bad_input() {
    let folder = own("bad");
    for (name, content) in FILES {
        fs::write(folder.join(name), content).unwrap();
    }
    let cases = [
        ("no-such-file", "no-such-file:1:1: cannot be read: "),
        (".", ".:1:1: cannot be read: "),
        ("undeclared.rules", "undeclared.rules:3:3: blue is not declared\n"),
        (
            "torn.csexp",
            "torn.csexp:1:10: '(' or ')' must stand here, and the text ends\n  a switch refuses it: not canonical (3): ",
        ),
        (
            "newline.csexp",
            "newline.csexp:1:11: the text goes on behind the program\n  a switch refuses it: not canonical (3): ",
        ),
        (
            "two-faults.csexp",
            "two-faults.csexp:1:6: a plain decimal from 0 to 65535 must stand here\n  a switch refuses it: out of place (4): ",
        ),
        (
            "incoherent.csexp",
            "incoherent.csexp:1:17: location 0 has two different bodies in one thread\n  a switch refuses it: incoherent (8): ",
        ),
        (
            "incoherent.rules",
            "incoherent.rules:2:6: location 0 has two different bodies in one thread\n",
        ),
        ("latin-1.rules", "latin-1.rules:1:6: a character of UTF-8 must stand here\n"),
    ];
    for (name, message) in cases {
        let arguments = ["run", "--trace", "--html", "page.html", name];
        let said = complaint(&folder, &arguments, 1);
        assert!(said.starts_with(message), "{said}");
        assert!(!folder.join("page.html").exists(), "{name}");
    }
    for (name, content) in FILES {
        assert_eq!(fs::read(folder.join(name)).unwrap(), content, "{name}");
    }
}

#[test]
fn bad_input_of_text_and_show() {
    let cases: [(&[&str], &str); 5] = [
        (
            &["text", "two-tenants.csexp"],
            "two-tenants.csexp:1:1: this is a canonical text, not a readable form\n",
        ),
        (
            &["text", "no-such-file"],
            "no-such-file:1:1: cannot be read: ",
        ),
        (
            &["show", "two-tenants.rules"],
            "two-tenants.rules:1:1: this is a readable form, not a canonical text\n",
        ),
        (
            &["show", "two-tenants.csexp", "no-such-file"],
            "no-such-file:1:1: cannot be read: ",
        ),
        (
            &["show", "two-tenants.csexp", "leaf-48.csexp"],
            "leaf-48.csexp:1:1: this is a canonical text, not a readable form\n",
        ),
    ];
    for (arguments, message) in cases {
        let said = complaint(&folder(), arguments, 1);
        assert!(said.starts_with(message), "{said}");
    }
}

/// A file's name says that it is a canonical text, where its content could be either.
#[test]
fn the_empty_program() {
    let folder = own("empty");
    let ended = "ended, 0 steps, 1 nodes";
    for (name, content, accepted) in [
        ("empty.csexp", "()", true),
        ("newline.csexp", "()\n", false),
        ("nothing.csexp", "", false),
        ("newline.rules", "\u{feff}()\r\n", true),
    ] {
        fs::write(folder.join(name), content).unwrap();
        if accepted {
            let output = rules(&folder, &["run", name]);
            let printed = String::from_utf8(output.stdout).unwrap();
            assert!(printed.starts_with(ended), "{name}: {printed}");
            assert!(printed.ends_with("the rule set has no alternative\n"));
        } else {
            let said = complaint(&folder, &["run", name], 1);
            assert!(said.contains("not canonical (3)"), "{said}");
        }
    }
}

/// Declarations alone are names too.
#[test]
fn names_alone() {
    let folder = own("names");
    fs::write(folder.join("set.csexp"), "((1:c1:5))").unwrap();
    fs::write(folder.join("names"), "= red c5 ; the first tenant\n").unwrap();
    let shown = rules(&folder, &["show", "set.csexp", "names"]);
    assert_eq!(String::from_utf8_lossy(&shown.stdout), "= red c5\n(red)\n");
}

/// A page that cannot be written is told before anything is printed, and no page takes the place of anything but a page.
#[test]
fn bad_page() {
    let folder = own("bad-page");
    let set = file("two-tenants.rules");
    for name in ["set.rules", "other.rules"] {
        fs::write(folder.join(name), &set).unwrap();
    }
    fs::write(
        folder.join("home.html"),
        "<!doctype html>\n<title>Home</title>\n",
    )
    .unwrap();
    fs::hard_link(folder.join("set.rules"), folder.join("link")).unwrap();
    std::os::unix::fs::symlink("set.rules", folder.join("soft-link")).unwrap();
    std::os::unix::fs::symlink("nothing", folder.join("dangling")).unwrap();
    fs::create_dir(folder.join("folder")).unwrap();
    let there = fs::read_dir(&folder).unwrap().count();
    let cases = [
        ("none/page.html", ""),
        ("dangling", ""),
        ("folder", "is a folder\n"),
        ("/dev/full", ""),
        ("./set.rules", "is the rule set itself\n"),
        ("link", "is the rule set itself\n"),
        ("soft-link", "is the rule set itself\n"),
        ("other.rules", "is there and is no page\n"),
        ("home.html", "is there and is no page\n"),
    ];
    for (page, message) in cases {
        let arguments = ["run", "--trace", "--html", page, "set.rules"];
        let said = complaint(&folder, &arguments, 1);
        assert!(said.starts_with(page) && said.ends_with(message), "{said}");
    }
    for name in ["set.rules", "other.rules"] {
        assert_eq!(fs::read_to_string(folder.join(name)).unwrap(), set);
    }
    assert_eq!(fs::read_dir(&folder).unwrap().count(), there);
}

/// A page is written over a longer one, through a link, over an empty file and into a device; what stands beside it stays.
#[test]
fn pages_again() {
    let folder = own("again");
    for name in ["leaf-48", "two-tenants"] {
        fs::copy(
            self::folder().join(format!("{name}.rules")),
            folder.join(name),
        )
        .unwrap();
    }
    std::os::unix::fs::symlink("page.html", folder.join("link.html")).unwrap();
    fs::write(folder.join("empty.html"), "").unwrap();
    fs::write(folder.join("page.html.new"), "mine").unwrap();
    let written = |page: &str, name: &str| {
        let output = rules(&folder, &["run", "--html", page, name]);
        assert!(output.status.success(), "{page}: {output:?}");
    };
    written("page.html", "two-tenants");
    let short = fs::read(folder.join("page.html")).unwrap();
    for page in ["page.html", "link.html"] {
        written("page.html", "leaf-48");
        assert!(fs::read(folder.join("page.html")).unwrap().len() > short.len());
        written(page, "two-tenants");
        assert_eq!(fs::read(folder.join("page.html")).unwrap(), short);
    }
    written("empty.html", "two-tenants");
    written("/dev/null", "two-tenants");
    assert!(fs::symlink_metadata(folder.join("link.html"))
        .unwrap()
        .is_symlink());
    assert_eq!(fs::read(folder.join("page.html.new")).unwrap(), b"mine");
    assert_eq!(fs::read_dir(&folder).unwrap().count(), 6);
}

/// A file that is standard output already is not written twice.
#[test]
fn page_on_standard_output() {
    let folder = own("output");
    let out = fs::File::create(folder.join("out")).unwrap();
    let mut command = Command::new(env!("CARGO_BIN_EXE_rules"));
    let command = command.args(["run", "--html", "/dev/stdout", "two-tenants.rules"]);
    let command = command.current_dir(self::folder()).stdout(out);
    assert_eq!(command.status().unwrap().code(), Some(1));
    assert_eq!(fs::read(folder.join("out")).unwrap(), b"");
}

/// A screen's width: as it is told, but at least 40.
#[test]
fn columns() {
    for (told, width) in [
        ("120", 120),
        ("60", 60),
        ("40", 40),
        ("7", 40),
        ("wide", 80),
    ] {
        let mut command = Command::new(env!("CARGO_BIN_EXE_rules"));
        let command = command.args(["run", "--trace", "leaf-48.rules"]);
        let output = command.current_dir(folder()).env("COLUMNS", told).output();
        let printed = String::from_utf8(output.unwrap().stdout).unwrap();
        let steps = printed.strip_suffix(&file("leaf-48.end")).unwrap();
        let widest = steps.lines().map(|line| line.chars().count()).max();
        assert!(
            widest <= Some(width) && widest > Some(width - 8),
            "{told}: {widest:?}"
        );
    }
}

/// A name that is no text is a name all the same.
#[test]
fn a_name_of_bytes() {
    use std::os::unix::ffi::OsStrExt;
    let name = std::ffi::OsStr::from_bytes(b"\xff.rules");
    let folder = own("bytes");
    let mut command = Command::new(env!("CARGO_BIN_EXE_rules"));
    let command = command.arg("run").arg(name).current_dir(&folder);
    assert_eq!(command.output().unwrap().status.code(), Some(1));
    fs::write(folder.join(name), "()").unwrap();
    assert!(command.output().unwrap().status.success());
}

#[test]
fn bad_words() {
    let cases: [&[&str]; 13] = [
        &["walk", "-h"],
        &["run", ""],
        &["run", "--html", "", "two-tenants.rules"],
        &["run", "--html", "--trace", "two-tenants.rules"],
        &["run", "--", "--trace", "two-tenants.rules"],
        &[],
        &["walk"],
        &["text"],
        &["run"],
        &["run", "--html"],
        &["run", "--trance", "two-tenants.rules"],
        &["run", "two-tenants.rules", "leaf-48.rules"],
        &["show", "a", "b", "c"],
    ];
    for arguments in cases {
        let said = complaint(&folder(), arguments, 2);
        assert!(said.starts_with("rules text FILE"), "{said}");
    }
    for help in [
        &["--help"][..],
        &["-h"],
        &["help"],
        &["run", "--help"],
        &["text", "-h"],
    ] {
        assert!(printed(help).starts_with("rules text FILE"));
    }
    printed(&["run", "--", "two-tenants.rules"]);
    let said = complaint(&folder(), &["run", "--", "--help"], 1);
    assert!(said.starts_with("--help:1:1: cannot be read"), "{said}");
    assert!(printed(&["--version"]).starts_with("rules "));
}

/// A value that doubles at every second step, and so many alternatives behind it.
fn doubling(alternatives: usize) -> String {
    let doubled = (0..14).fold("c2".to_string(), |value, _| {
        format!("(a (l ((a c1 b0 b0))) {value})")
    });
    format!("({doubled}{})", " c3".repeat(alternatives))
}

/// A rule set has the room of a small leaf, or, where that does not take it, for its nodes or for a number, the library's; the end and the page
/// tell which.
#[test]
fn room_by_the_rule_set() {
    let folder = own("room");
    let number = doubling(900).replacen("c3", "x2048", 1);
    for (rule_set, room) in [
        (doubling(900), 2048),
        (doubling(1100), 16_384),
        (number, 16_384),
    ] {
        fs::write(folder.join("doubling.rules"), rule_set).unwrap();
        let output = rules(&folder, &["run", "--html", "page.html", "doubling.rules"]);
        let told = String::from_utf8(output.stdout).unwrap();
        let why = format!("thread 0: open, its next step would need more than {room} nodes\n");
        assert!(told.starts_with("room, ") && told.contains(&why));
        let page = fs::read_to_string(folder.join("page.html")).unwrap();
        assert!(page.contains(&format!("its next step needs more than {room} nodes")));
    }
}

/// As many levels as there may be, of each kind: the text is read, shown and read again, and run where that takes few steps.
#[test]
fn deep_rule_sets() {
    let folder = own("deep");
    let closures: String = (0..5460)
        .map(|location: u16| {
            let digits = location.to_string();
            format!("(1:L{}:{digits}(", digits.len())
        })
        .collect();
    let around = |open: &str, close: &str, levels: usize| {
        format!("({}(1:c1:0){})", open.repeat(levels), close.repeat(levels))
    };
    let texts = [
        (around("(1:a", "(1:c1:2))", 8190), Some("ended, 0 steps")),
        (around("(1:l(", "))", 5460), Some("ended, 1 steps")),
        (
            around(&closures, &"))".repeat(5460), 1),
            Some("ended, 0 steps"),
        ),
        (around("(1:g(1:c1:1)", ")", 8190), None),
        (around("(1:n", ")", 16_381), None),
    ];
    for (text, end) in texts {
        fs::write(folder.join("deep.csexp"), &text).unwrap();
        let shown = rules(&folder, &["show", "deep.csexp"]).stdout;
        fs::write(folder.join("deep.rules"), shown).unwrap();
        let again = rules(&folder, &["text", "deep.rules"]).stdout;
        assert!(again == text.as_bytes(), "{}", &text[..40]);
        if let Some(end) = end {
            let told = rules(&folder, &["run", "--trace", "deep.csexp"]).stdout;
            let told = String::from_utf8(told).unwrap();
            assert!(told.contains(end), "{}", &text[..40]);
        }
    }
}
