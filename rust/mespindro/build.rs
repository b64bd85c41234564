//! Links the archive of the proved library: the one in the folder MESPINDRO_LIB_DIR, or the repository's own, which tools/archive makes where
//! that has not been done.

use std::fs::{self, File, OpenOptions};
use std::os::unix::process::parent_id;
use std::path::{Path, PathBuf};
use std::process::{exit, Command, Stdio};
use std::{env, io};

const LIB_DIR: &str = "MESPINDRO_LIB_DIR";
const ARCHIVE: &str = "libmespindro.a";

/// The repository, from this package's folder, in which cargo starts a build script.
const ROOT: &str = "../..";

/// What the repository's archive is made of. The paths are relative so that they are this clone's own where cargo's output was copied.
const SOURCES: [&str; 4] = [
    "crates.txt",
    "include/mespindro.h",
    "tools/archive",
    "tools/prove.sh",
];

/// What of each crate it is made of: not of out/, which the toolchain writes.
const PARTS: [&str; 3] = ["src", "specs", "proofs"];

fn main() {
    core_error();
    if let Err(message) = link() {
        eprintln!("mespindro: {message}");
        exit(1);
    }
}

/// From 1.81 on the trait for errors is in core.
fn core_error() {
    let minor = compiler_minor().unwrap_or(0);
    // an older cargo does not know the first
    if minor >= 80 {
        println!("cargo:rustc-check-cfg=cfg(mespindro_core_error)");
    }
    if minor >= 81 {
        println!("cargo:rustc-cfg=mespindro_core_error");
    }
}

/// The 95 of "rustc 1.95.0 (..)".
fn compiler_minor() -> Option<u32> {
    let compiler = env::var_os("RUSTC")?;
    let output = Command::new(compiler).arg("--version").output().ok()?;
    let version = String::from_utf8(output.stdout).ok()?;
    version.split('.').nth(1)?.parse().ok()
}

fn variable(name: &str) -> Result<String, String> {
    env::var(name).map_err(|error| format!("{name}: {error}"))
}

fn at(path: &Path) -> impl Fn(io::Error) -> String + '_ {
    move |error| format!("{}: {error}", path.display())
}

/// Links a copy in cargo's own folder: where that is moved cargo looks for it at its new place.
fn link() -> Result<(), String> {
    println!("cargo:rerun-if-env-changed={LIB_DIR}");
    let (archive, include) = match env::var_os(LIB_DIR) {
        Some(folder) => lent(Path::new(&folder))?,
        None => own()?,
    };
    let out = PathBuf::from(variable("OUT_DIR")?);
    let bytes = fs::read(&archive).map_err(at(&archive))?;
    fs::write(out.join(ARCHIVE), bytes).map_err(at(&out))?;
    println!("cargo:rustc-link-search=native={}", out.display());
    println!("cargo:rustc-link-lib=static=mespindro");
    // for the build scripts of packages that use this one: DEP_MESPINDRO_LIB and DEP_MESPINDRO_INCLUDE
    println!("cargo:lib={}", out.display());
    if let Ok(include) = include.canonicalize() {
        println!("cargo:include={}", include.display());
    }
    Ok(())
}

/// The archive in a folder of the caller's, and where tools/install puts the header that goes with it.
fn lent(folder: &Path) -> Result<(PathBuf, PathBuf), String> {
    // a build script is started in its package's folder, not in the caller's
    if !folder.is_absolute() {
        return Err(format!("{LIB_DIR} is no absolute path: {folder:?}"));
    }
    let archive = folder.join(ARCHIVE);
    if !archive.is_file() {
        return Err(format!(
            "{LIB_DIR} names a folder without {ARCHIVE}: {folder:?}"
        ));
    }
    println!("cargo:rerun-if-changed={}", archive.display());
    Ok((archive, folder.join("../include")))
}

/// The repository's archive for the machine that is compiled for, and the folder of its header.
fn own() -> Result<(PathBuf, PathBuf), String> {
    let root = Path::new(ROOT);
    if !root.join("tools/archive").is_file() {
        return Err(format!(
            "this package stands outside its repository, which makes the archive: run `tools/install PREFIX` there, and set {LIB_DIR} to PREFIX/lib here"
        ));
    }
    let machine = variable("CARGO_CFG_TARGET_ARCH")?;
    let archive = root.join(place(&machine)?).join(ARCHIVE);
    for source in SOURCES {
        println!("cargo:rerun-if-changed={ROOT}/{source}");
    }
    for part in parts(&root.join("crates"))? {
        println!("cargo:rerun-if-changed={}", part.display());
    }
    // .cargo/config.toml tells what for
    println!("cargo:rerun-if-env-changed=MESPINDRO_REPOSITORY");
    if let Some(version) = toolchain_version() {
        println!("cargo:rerun-if-changed={}", version.display());
    }
    make(root, &machine)?;
    Ok((archive, root.join("include")))
}

fn parts(crates: &Path) -> Result<Vec<PathBuf>, String> {
    let folders = fs::read_dir(crates).map_err(at(crates))?;
    let parts = folders
        .flatten()
        .flat_map(|folder| PARTS.map(|part| folder.path().join(part)))
        .filter(|part| part.is_dir());
    Ok(parts.collect())
}

/// The file with the toolchain's version, by which tools/archive goes too; none where it has another shape than today's.
fn toolchain_version() -> Option<PathBuf> {
    let path = env::var_os("PATH")?;
    let rt = env::split_paths(&path).map(|folder| folder.join("rt"));
    let rt = rt
        .into_iter()
        .find(|rt| rt.is_file())?
        .canonicalize()
        .ok()?;
    let version = rt.parent()?.parent()?.join("KIT-ID");
    version.is_file().then_some(version)
}

/// Where tools/archive puts the archive for the machine that is compiled for.
fn place(machine: &str) -> Result<&'static str, String> {
    let system = variable("CARGO_CFG_TARGET_OS")?;
    match (machine, system.as_str()) {
        ("x86_64", "linux") => Ok("target/staticlib"),
        ("aarch64", "linux") => Ok("target/aarch64"),
        _ => Err(format!(
            "tools/archive makes no archive for {machine}-{system}: if you have one, set {LIB_DIR} to its folder"
        )),
    }
}

fn make(root: &Path, machine: &str) -> Result<(), String> {
    let tool = root.join("tools/archive");
    let seen = errors_of_cargo().map_or_else(Stdio::inherit, Stdio::from);
    let mut command = Command::new(&tool);
    let status = command
        .arg(machine)
        .stdin(Stdio::null())
        .stdout(Stdio::null())
        .stderr(seen)
        .status();
    match status.map_err(at(&tool))? {
        status if status.success() => Ok(()),
        status => Err(format!(
            "tools/archive failed ({status}); an archive from elsewhere is taken where {LIB_DIR} names its folder"
        )),
    }
}

/// Cargo's own standard error, where a word before minutes of work is seen: cargo keeps to itself what a build script says.
fn errors_of_cargo() -> Option<File> {
    let errors = format!("/proc/{}/fd/2", parent_id());
    let plain = fs::metadata(&errors).ok()?.is_file();
    // cargo would write over what stands in a plain file behind its back, unless it always writes at the end
    if plain && !appends(parent_id())? {
        return None;
    }
    OpenOptions::new().append(true).open(errors).ok()
}

/// Is the standard error of the process opened to write at the end?
fn appends(process: u32) -> Option<bool> {
    const O_APPEND: u32 = 0o2000;
    let told = fs::read_to_string(format!("/proc/{process}/fdinfo/2")).ok()?;
    let flags = told.lines().find_map(|line| line.strip_prefix("flags:"))?;
    Some(u32::from_str_radix(flags.trim(), 8).ok()? & O_APPEND != 0)
}
