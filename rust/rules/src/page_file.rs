//! The file of a page: written beside its place and put there when it is whole, and never over anything but a page.

use std::fs::{self, File, OpenOptions};
use std::io::{self, Read, Write};
use std::os::unix::fs::MetadataExt;
use std::path::{Path, PathBuf};

use rules::page::BEGIN;

/// A page that is being written.
pub struct PageFile {
    place: PathBuf,
    /// Where it is written until it is whole; none for a device, which is written as it is.
    beside: Option<PathBuf>,
    file: File,
}

impl PageFile {
    /// Opens a file for the page of a rule set.
    pub fn begin(place: &Path, rule_set: &Path) -> io::Result<PageFile> {
        let place = behind_links(place)?;
        let found = fs::metadata(&place).ok();
        if found
            .as_ref()
            .is_some_and(|found| !found.is_file() && !found.is_dir())
        {
            let file = OpenOptions::new().write(true).open(&place)?;
            let beside = None;
            return Ok(PageFile {
                place,
                beside,
                file,
            });
        }
        if let Some(found) = found {
            may_be_replaced(&place, &found, rule_set)?;
        }
        let beside = beside(&place);
        let file = OpenOptions::new()
            .write(true)
            .create_new(true)
            .open(&beside)?;
        let beside = Some(beside);
        Ok(PageFile {
            place,
            beside,
            file,
        })
    }

    /// Writes the page and puts it in its place.
    pub fn end(mut self, page: &str) -> io::Result<()> {
        self.file.write_all(page.as_bytes())?;
        self.file.flush()?;
        if let Some(beside) = &self.beside {
            fs::rename(beside, &self.place)?;
            self.beside = None;
        }
        Ok(())
    }
}

/// What was not finished is not left behind.
impl Drop for PageFile {
    fn drop(&mut self) {
        if let Some(beside) = &self.beside {
            let _ = fs::remove_file(beside);
        }
    }
}

/// A link stays a link: the page is put where it leads.
fn behind_links(place: &Path) -> io::Result<PathBuf> {
    match fs::symlink_metadata(place) {
        Ok(found) if found.is_symlink() => fs::canonicalize(place),
        _ => Ok(place.to_path_buf()),
    }
}

/// A name that no other run has, in the same folder, so that it can be put in its place in one go.
fn beside(place: &Path) -> PathBuf {
    let name = place.file_name().unwrap_or_default().to_string_lossy();
    place.with_file_name(format!(".{name}.{}.new", std::process::id()))
}

/// A page takes the place of a page, or of an empty file; never that of the rule set or of other work.
fn may_be_replaced(place: &Path, found: &fs::Metadata, rule_set: &Path) -> io::Result<()> {
    let refused = |message| Err(io::Error::new(io::ErrorKind::AlreadyExists, message));
    let is = |other: &Path| {
        fs::metadata(other).is_ok_and(|o| (o.dev(), o.ino()) == (found.dev(), found.ino()))
    };
    if found.is_dir() {
        return refused("is a folder");
    }
    if is(rule_set) {
        return refused("is the rule set itself");
    }
    if is(Path::new("/proc/self/fd/1")) {
        return refused("is standard output, where the end is told");
    }
    if found.len() == 0 {
        return Ok(());
    }
    let mut begin = vec![0; BEGIN.len()];
    let read = File::open(place)?.read_exact(&mut begin);
    match read.is_ok() && begin == BEGIN.as_bytes() {
        true => Ok(()),
        false => refused("is there and is no page"),
    }
}
