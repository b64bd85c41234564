//! Programs in C that link the library: built for this machine, and also for a switch with an Arm core, to run under an emulator, where a compiler
//! for Arm and the emulator are installed.

use std::path::{Path, PathBuf};
use std::process::Command;

pub fn root() -> PathBuf {
    Path::new(env!("CARGO_MANIFEST_DIR")).join("../..")
}

/// Where programs and their inputs go.
pub fn folder() -> PathBuf {
    PathBuf::from(env!("CARGO_TARGET_TMPDIR"))
}

/// The archive that tools/archive makes for a machine, of the crates as they stand.
fn archive(machine: &str, place: &str) -> PathBuf {
    build(root().join("tools/archive"), &[machine.to_string()]);
    root().join("target").join(place).join("libmespindro.a")
}

/// The folder of the header.
fn include() -> String {
    format!("-I{}", root().join("include").display())
}

fn build(program: impl AsRef<Path>, arguments: &[String]) {
    let program = program.as_ref();
    let output = Command::new(program).args(arguments).output();
    let output = output.unwrap_or_else(|error| panic!("{}: {error}", program.display()));
    let errors = String::from_utf8_lossy(&output.stderr);
    assert!(output.status.success(), "{}: {errors}", program.display());
}

fn words(paths: &[&Path]) -> Vec<String> {
    paths.iter().map(|p| p.display().to_string()).collect()
}

/// Where the program of a source that is built with these flags goes.
fn program_of(source: &Path, flags: &[&str], end: &str) -> PathBuf {
    let name = source.file_stem().unwrap().to_str().unwrap();
    folder().join(format!("{name}{}{end}", flags.concat()))
}

fn compile(compiler: &str, source: &Path, flags: &[&str], archive: &Path, program: &Path) {
    let mut arguments: Vec<String> = ["-Wall", "-Wextra", "-Werror", "-pedantic", "-O2"]
        .map(String::from)
        .to_vec();
    arguments.extend(flags.iter().map(|flag| flag.to_string()));
    arguments.extend([include(), "-o".to_string()]);
    arguments.extend(words(&[program, source, archive]));
    build(compiler, &arguments);
}

/// Builds a source for this machine; what is answered starts the program. `-DSMALL` among the flags is for the small calls: c/size.h.
pub fn for_this_machine(source: &str, flags: &[&str]) -> impl Fn() -> Command {
    let source = root().join(source);
    let program = program_of(&source, flags, "");
    let archive = archive(std::env::consts::ARCH, "native");
    compile("cc", &source, flags, &archive, &program);
    move || Command::new(&program)
}

/// What builds and runs a program for Arm.
const ARM: [&str; 2] = ["aarch64-linux-gnu-gcc", "qemu-aarch64"];

/// Builds a source for a switch with an Arm core; what is answered starts the program. None where that cannot be built or run here.
pub fn for_the_switch(source: &str, flags: &[&str]) -> Option<impl Fn() -> Command> {
    let lacking = |tool: &&str| Command::new(tool).arg("--version").output().is_err();
    if let Some(tool) = ARM.iter().find(|tool| lacking(tool)) {
        println!("skipped: no {tool} here");
        return None;
    }
    let [compiler, emulator] = ARM;
    let source = root().join(source);
    let program = program_of(&source, flags, "-aarch64");
    let archive = archive("aarch64", "aarch64");
    // a program that needs no libraries of another machine
    let flags = [flags, &["-static"]].concat();
    compile(compiler, &source, &flags, &archive, &program);
    Some(move || {
        let mut command = Command::new(emulator);
        command.arg(&program);
        command
    })
}
