//! tools/install and tools/archive: a program in C is built with what they write and pkg-config; a bad call writes nothing; the archives are made
//! again exactly where something has changed. Nothing is proved here: a stand-in for rt tells that it was called.

use std::fs;
use std::path::{Path, PathBuf};
use std::process::{Command, Output};

fn root() -> PathBuf {
    Path::new(env!("CARGO_MANIFEST_DIR")).join("../..")
}

/// A folder of a test's own, removed at its end.
struct Folder(PathBuf);

impl Folder {
    fn new(name: &str) -> Folder {
        let own = format!("mespindro-{name}-{}", std::process::id());
        let folder = std::env::temp_dir().join(own);
        fs::create_dir(&folder).unwrap();
        Folder(folder)
    }

    fn is_empty(&self) -> bool {
        fs::read_dir(&self.0).unwrap().next().is_none()
    }
}

impl Drop for Folder {
    fn drop(&mut self) {
        let _ = fs::remove_dir_all(&self.0);
    }
}

fn errors(output: &Output) -> String {
    String::from_utf8_lossy(&output.stderr).into_owned()
}

fn printed(command: &mut Command) -> String {
    let output = command.output().unwrap();
    assert!(output.status.success(), "{command:?}: {}", errors(&output));
    String::from_utf8(output.stdout).unwrap()
}

/// tools/install with these words, called in the folder.
fn install(folder: &Folder, words: &[&str]) -> Output {
    let mut tool = Command::new(root().join("tools/install"));
    tool.current_dir(&folder.0).args(words).output().unwrap()
}

/// One of the archives that tools/archive makes.
fn archive(place: &str) -> PathBuf {
    root().join("target").join(place).join("libmespindro.a")
}

fn assert_same(one: &Path, other: &Path) {
    let same = fs::read(one).unwrap() == fs::read(other).unwrap();
    assert!(same, "{} is not {}", one.display(), other.display());
}

/// pkg-config, which looks into the folder first; none where it is not installed.
fn pkg_config(prefix: &Path, words: &[&str]) -> Option<String> {
    if Command::new("pkg-config")
        .arg("--version")
        .output()
        .is_err()
    {
        println!("skipped: no pkg-config here");
        return None;
    }
    let mut command = Command::new("pkg-config");
    command.env("PKG_CONFIG_PATH", prefix.join("lib/pkgconfig"));
    Some(printed(command.args(words).arg("mespindro")))
}

#[test]
fn place_with_pkg_config_alone() {
    let folder = Folder::new("place");
    let output = install(&folder, &["prefix"]);
    assert!(output.status.success(), "{}", errors(&output));
    // what was installed may be moved
    let prefix = folder.0.join("moved");
    fs::rename(folder.0.join("prefix"), &prefix).unwrap();

    let Some(version) = pkg_config(&prefix, &["--modversion"]) else {
        return;
    };
    assert_eq!(version.trim(), env!("CARGO_PKG_VERSION"));
    let flags = pkg_config(&prefix, &["--cflags", "--libs"]).unwrap();
    fs::copy(root().join("examples/place.c"), folder.0.join("place.c")).unwrap();
    let mut compiler = Command::new("cc");
    compiler.current_dir(&folder.0).arg("place.c");
    printed(
        compiler
            .args(flags.split_whitespace())
            .args(["-o", "place"]),
    );
    let rules = root().join("rules/two-tenants.csexp");
    assert_eq!(
        printed(Command::new(folder.0.join("place")).arg(rules)),
        "tenant 1 -> port 11, VLAN 101\ntenant 2 -> port 12, VLAN 102\n"
    );
}

#[test]
fn for_each_machine() {
    let folder = Folder::new("machine");
    for (machine, place) in [("x86_64", "staticlib"), ("aarch64", "aarch64")] {
        let output = install(&folder, &[machine, machine]);
        assert!(output.status.success(), "{}", errors(&output));
        let installed = folder.0.join(machine).join("lib/libmespindro.a");
        assert_same(&installed, &archive(place));
    }
    let header = folder.0.join("x86_64/include/mespindro.h");
    assert_same(&header, &root().join("include/mespindro.h"));
}

#[test]
fn a_bad_call_writes_nothing() {
    let folder = Folder::new("bad");
    let calls: [&[&str]; 6] = [
        &[],
        &[""],
        &["--help"],
        &["prefix", "riscv64"],
        &["prefix", ""],
        &["prefix", "x86_64", "more"],
    ];
    for words in calls {
        let output = install(&folder, words);
        assert_eq!(output.status.code(), Some(2), "{words:?}");
        assert!(output.stdout.is_empty(), "{words:?}");
        let usage = errors(&output);
        assert!(usage.starts_with("tools/install PREFIX [MACHINE]"));
        assert_eq!(usage.lines().count(), 1, "{usage}");
        assert!(folder.is_empty(), "{words:?}");
    }
}

#[test]
fn a_prefix_that_cannot_be_written() {
    let folder = Folder::new("file");
    fs::write(folder.0.join("file"), "as it was").unwrap();
    fs::create_dir(folder.0.join("folder")).unwrap();
    fs::write(folder.0.join("folder/lib"), "as it was").unwrap();
    for prefix in ["file", "file/below/it", "folder"] {
        let output = install(&folder, &[prefix]);
        assert_eq!(output.status.code(), Some(1), "{prefix}");
        assert!(errors(&output).contains("cannot be written"), "{prefix}");
        for file in ["file", "folder/lib"] {
            let file = fs::read_to_string(folder.0.join(file)).unwrap();
            assert_eq!(file, "as it was", "{prefix}");
        }
    }
    assert!(!folder.0.join("folder/include").exists());
}

/// The machines that an archive is made for, and the places of the archives.
const MACHINES: [&str; 2] = ["x86_64", "aarch64"];
const PLACES: [&str; 3] = ["native", "staticlib", "aarch64"];

/// tools/archive of the repository, for each machine.
fn tools_archive() -> Output {
    let mut tool = Command::new(root().join("tools/archive"));
    tool.args(MACHINES).output().unwrap()
}

/// Nothing was made, and nothing said.
fn assert_kept(output: &Output, after: &str) {
    let said = errors(output);
    assert!(output.status.success(), "{after}: {said}");
    assert_eq!(said, "", "{after}");
}

#[test]
fn archives_that_are_there_stay() {
    assert!(tools_archive().status.success());
    let times = || {
        PLACES.map(|place| {
            let file = fs::metadata(archive(place)).unwrap();
            file.modified().unwrap()
        })
    };
    let before = times();
    assert_kept(&tools_archive(), "a second call");
    assert_eq!(times(), before);
}

/// A stand-in for rt: of the same version, but it proves nothing. Where kit/object is there it makes an archive of that, after a while, but for
/// the crate that kit/unproved names.
const RT: &str = r#"#!/bin/sh
kit=$(dirname "$0")/..
[ "$1" != version ] || exec cat "$kit/KIT-ID"
crate=$(basename "$PWD")
echo "rt was called in $crate: $*" | tee -a "$kit/calls"
[ "$(cat "$kit/unproved" 2> /dev/null)" != "$crate" ] || exit 1
[ -f "$kit/object" ] && sleep 1 && mkdir -p out && cp "$kit/object" "out/$crate.o" && rm -f "out/lib$crate.a" && ar rc "out/lib$crate.a" "out/$crate.o"
"#;

/// What the stand-in for rt says where a crate's archive is to be made for a machine.
fn called(size: &str, machine: &str) -> String {
    let processor = if machine == "x86_64" {
        " --cpu x86-64"
    } else {
        ""
    };
    format!("rt was called in {size}: lib --target {machine}-unknown-linux-gnu{processor}\n")
}

/// A copy of all that tools/archive and tools/install read, with the archives; in kit/ is the stand-in, beside the toolchain's own programs.
struct Copy {
    folder: Folder,
}

impl Copy {
    fn new(name: &str) -> Copy {
        assert!(tools_archive().status.success());
        let folder = Folder::new(name);
        let copy = Copy { folder };
        // (what the toolchain writes into crates/*/out is long)
        let mut tar = Command::new("sh");
        tar.current_dir(root()).arg("-c").arg(
            r#"tar -c --exclude='crates/*/out' crates crates.txt include rust/Cargo.toml tools target/native target/staticlib target/aarch64 |
                tar -x -C "$0""#,
        );
        printed(tar.arg(&copy.folder.0));
        fs::create_dir_all(copy.file("kit/bin")).unwrap();
        copy.program("kit/bin/rt", RT);
        let version = printed(Command::new("rt").arg("version"));
        fs::write(copy.file("kit/KIT-ID"), version).unwrap();
        let mut toolchain = Command::new("bash");
        toolchain
            .current_dir(root())
            .args(["-c", ". tools/prove.sh && toolchain"]);
        let programs = Path::new(printed(&mut toolchain).trim()).join("toolchain");
        std::os::unix::fs::symlink(programs, copy.file("kit/toolchain")).unwrap();
        copy
    }

    fn file(&self, name: &str) -> PathBuf {
        self.folder.0.join(name)
    }

    fn program(&self, name: &str, script: &str) {
        fs::write(self.file(name), script).unwrap();
        printed(Command::new("chmod").arg("+x").arg(self.file(name)));
    }

    fn stamp(&self, machine: &str) -> PathBuf {
        let place = if machine == "x86_64" {
            "native"
        } else {
            machine
        };
        self.file("target").join(place).join("stamp")
    }

    /// One of its tools, with the stand-in for rt.
    fn tool(&self, name: &str) -> Command {
        let rest = std::env::var("PATH").unwrap();
        let path = format!("{}:{rest}", self.file("kit/bin").display());
        // by the shell's name: a file that was just written may be busy for a start by its own
        let mut tool = Command::new("bash");
        tool.arg(self.file(name));
        tool.env("PATH", path);
        tool
    }

    /// tools/archive of the copy, for each machine.
    fn archive(&self) -> Output {
        self.tool("tools/archive").args(MACHINES).output().unwrap()
    }

    /// It sets out to make the archive for the machine, says so first, and fails as the stand-in does.
    fn assert_made(&self, machine: &str, after: &str) {
        let output = self.archive();
        let said = errors(&output);
        assert_eq!(output.status.code(), Some(1), "{after}: {said}");
        let first = format!("tools/archive: proving and compiling the library for {machine}");
        assert!(said.starts_with(&first), "{after}: {said}");
        let called = called("exports", machine);
        assert!(said.contains(&called), "{after}: {said}");
        assert!(!self.stamp(machine).exists(), "{after}");
    }
}

#[test]
fn archives_stay_where_others_have_changed() {
    let copy = Copy::new("stay");
    assert_kept(&copy.archive(), "the copy");
    for other in [
        "crates/table/must-fail/new.edit",
        "crates/table/more-edits/new.edit",
        "crates/leaf/src/main.rt",
        "crates/table/out/new.rt",
    ] {
        fs::create_dir_all(copy.file(other).parent().unwrap()).unwrap();
        fs::write(copy.file(other), "new").unwrap();
        assert_kept(&copy.archive(), other);
    }
}

#[test]
fn archives_are_made_again_where_something_has_changed() {
    let copy = Copy::new("changed");
    for (machine, part) in [
        ("x86_64", "crates/mespindro/src/lib.rt"),
        ("x86_64", "crates/small_exports/src/lib.rt"),
        ("x86_64", "crates/table/specs/Lib.antt"),
        ("x86_64", "crates/calculus/proofs/Lib.antt"),
        ("x86_64", "crates.txt"),
        ("x86_64", "include/mespindro.h"),
        ("x86_64", "tools/archive"),
        ("x86_64", "tools/prove.sh"),
        ("x86_64", "kit/KIT-ID"),
        ("x86_64", "target/native/libmespindro.a"),
        ("x86_64", "target/staticlib/libmespindro.a"),
        ("aarch64", "target/aarch64/libmespindro.a"),
    ] {
        let stamp = fs::read(copy.stamp(machine)).unwrap();
        let before = fs::read(copy.file(part)).unwrap();
        fs::write(copy.file(part), [&before[..], b"\n"].concat()).unwrap();
        copy.assert_made(machine, part);
        // what stood there when it failed is not taken for what it was to make
        fs::write(copy.file(part), before).unwrap();
        copy.assert_made(machine, part);
        fs::write(copy.stamp(machine), &stamp).unwrap();
        assert_kept(&copy.archive(), part);
    }
    fs::remove_file(copy.file("target/native/libmespindro.a")).unwrap();
    copy.assert_made("x86_64", "an archive that is gone");
}

#[test]
fn two_at_once_make_the_archives_once() {
    let copy = Copy::new("twice");
    for machine in MACHINES {
        fs::remove_file(copy.stamp(machine)).unwrap();
    }
    fs::write(copy.file("kit/object"), "new\n").unwrap();
    std::thread::scope(|scope| {
        for call in [(); 2].map(|()| scope.spawn(|| copy.archive())) {
            let output = call.join().unwrap();
            assert!(output.status.success(), "{}", errors(&output));
        }
    });
    let calls = fs::read_to_string(copy.file("kit/calls")).unwrap();
    let once = MACHINES.map(|machine| {
        ["exports", "small_exports"]
            .map(|size| called(size, machine))
            .concat()
    });
    assert_eq!(calls, once.concat());
    for archive in PLACES {
        let file = copy.file("target").join(archive).join("libmespindro.a");
        let objects = printed(Command::new("ar").arg("p").arg(file));
        assert_eq!(objects, "new\n".repeat(2));
    }
    assert_kept(&copy.archive(), "a third call");
}

#[test]
fn one_size_that_is_not_proved_leaves_the_archives() {
    let copy = Copy::new("one");
    fs::remove_file(copy.stamp("x86_64")).unwrap();
    fs::write(copy.file("kit/object"), "new\n").unwrap();
    fs::write(copy.file("kit/unproved"), "small_exports").unwrap();
    let archives = || {
        PLACES
            .map(|place| fs::read(copy.file("target").join(place).join("libmespindro.a")).unwrap())
    };
    let before = archives();
    let output = copy.archive();
    assert_eq!(output.status.code(), Some(1), "{}", errors(&output));
    let calls = fs::read_to_string(copy.file("kit/calls")).unwrap();
    assert!(
        calls.ends_with(&called("small_exports", "x86_64")),
        "{calls}"
    );
    assert!(archives() == before && !copy.stamp("x86_64").exists());
}

#[test]
fn nothing_is_installed_without_an_archive() {
    let copy = Copy::new("without");
    let prefix = copy.file("prefix");
    fs::remove_file(copy.stamp(std::env::consts::ARCH)).unwrap();
    let mut install = copy.tool("tools/install");
    let output = install.arg(&prefix).output().unwrap();
    assert_eq!(output.status.code(), Some(1), "{}", errors(&output));
    assert!(!prefix.exists());
}
