//! Where `convert` writes to: a file, whole or not at all, or a stream.
use super::names::shown;
use super::recording::Input;
use super::{signals, standard, Failure};
use std::ffi::OsStr;
use std::fs::{self, File, Metadata};
use std::io::{self, ErrorKind, IsTerminal, Write};
use std::os::unix::fs::{fchown, FileTypeExt, MetadataExt};
use std::path::{Path, PathBuf};
use std::process;

pub struct Out {
    /// What messages call it.
    name: String,
    place: Place,
    /// Whether a file that is there may be replaced.
    force: bool,
}

enum Place {
    Standard,
    /// A pipe, a terminal or another device, or what a descriptor of the command leads to: it is never replaced.
    Stream(PathBuf),
    File(PathBuf),
}

impl Out {
    /// Looks whether it can be written to, before anything is read.
    pub fn new(path: &OsStr, input: &Input, force: bool) -> Result<Out, Failure> {
        if STANDARD.iter().any(|standard| path == *standard) {
            return match force || !io::stdout().is_terminal() {
                true => Ok(Out { name: "to standard output".to_string(), place: Place::Standard, force }),
                false => Err(Failure::Declined("words are binary and would garble the terminal; name a file, or add --force".to_string())),
            };
        }
        let (name, path) = (shown(path), Path::new(path));
        if fs::metadata(path).is_ok_and(|old| input.is(&old)) {
            return Err(Failure::Declined(format!("{name} is the recording itself, which is never changed; name another file")));
        }
        let place = place(path).map_err(|error| unwritable(&name, &error))?;
        let out = Out { name, place, force };
        if let Place::File(path) = &out.place {
            out.permitted(path)?;
        }
        Ok(out)
    }

    /// The file that is to be replaced, where there is one.
    fn permitted(&self, path: &Path) -> Result<Option<Metadata>, Failure> {
        let old = match fs::symlink_metadata(path) {
            Err(error) if error.kind() == ErrorKind::NotFound => return Ok(None),
            old => old.map_err(|error| self.failed(&error))?,
        };
        match self.force {
            true => replaceable(path, &old).map(|()| Some(old)).map_err(|error| self.failed(&error)),
            false => {
                Err(Failure::Declined(format!("{} already exists and is left as it is; name another file, or add --force to replace it", self.name)))
            }
        }
    }

    /// Whether what is told may go to standard output.
    pub fn leaves_standard_output(&self) -> bool {
        matches!(self.place, Place::File(_))
    }

    pub fn name(&self) -> &str {
        &self.name
    }

    /// Writes all bytes; to a file whole or not at all, so that where that fails a file that was there is unchanged.
    pub fn write(&self, bytes: &[u8]) -> Result<(), Failure> {
        match &self.place {
            Place::Standard => standard::output().and_then(|mut file| file.write_all(bytes)).map_err(|error| self.failed(&error)),
            // what a descriptor leads to is not overwritten
            Place::Stream(path) => {
                File::options().append(true).open(path).and_then(|mut file| file.write_all(bytes)).map_err(|error| self.failed(&error))
            }
            Place::File(path) => self.write_file(path, bytes),
        }
    }

    /// Writes beside the file, and gives it its name at the end.
    fn write_file(&self, path: &Path, bytes: &[u8]) -> Result<(), Failure> {
        let part = part_of(path);
        let made = signals::remove_at_end(&part).and_then(|()| File::create_new(&part)).map_err(|error| self.failed(&error));
        let written = made.and_then(|file| self.write_part(file, &part, path, bytes).inspect_err(|_| drop(fs::remove_file(&part))));
        signals::leave();
        written
    }

    fn write_part(&self, mut file: File, part: &Path, path: &Path, bytes: &[u8]) -> Result<(), Failure> {
        self.like_old(&file, path)?;
        file.write_all(bytes).map_err(|error| self.failed(&error))?;
        // one may have come meanwhile
        self.like_old(&file, path)?;
        // on the disk first, so that no name is given to a file whose bytes may be lost
        file.sync_all().and_then(|()| fs::rename(part, path)).map_err(|error| self.failed(&error))
    }

    /// Gives a new file the owner and the mode of the one that it is to replace.
    fn like_old(&self, file: &File, path: &Path) -> Result<(), Failure> {
        match self.permitted(path)? {
            Some(old) => keep_owner_and_mode(file, &old).map_err(|error| self.failed(&error)),
            None => Ok(()),
        }
    }

    fn failed(&self, error: &io::Error) -> Failure {
        unwritable(&self.name, error)
    }
}

/// The names of standard output.
const STANDARD: [&str; 4] = ["-", "/dev/stdout", "/dev/fd/1", "/proc/self/fd/1"];

/// What a path leads to.
fn place(path: &Path) -> io::Result<Place> {
    let kind = match fs::metadata(path) {
        Ok(metadata) => metadata.file_type(),
        Err(error) if error.kind() != ErrorKind::NotFound => return Err(error),
        Err(_) if fs::symlink_metadata(path).is_ok() => return Err(other("it is a link that leads nowhere")),
        Err(_) => return new_file(path),
    };
    if kind.is_dir() {
        return Err(other("it is a folder; name a file in it"));
    }
    if kind.is_block_device() {
        return Err(other("it is a disk, which is never written to; name a file"));
    }
    match kind.is_file() && !is_descriptor(path) {
        // the file itself where the path is a link to it
        true => fs::canonicalize(path).map(Place::File),
        false => Ok(Place::Stream(path.to_path_buf())),
    }
}

/// A file that is not there, in a folder that is.
fn new_file(path: &Path) -> io::Result<Place> {
    let folder = match path.parent() {
        Some(folder) if folder != Path::new("") => folder,
        _ => Path::new("."),
    };
    match (path.file_name(), fs::metadata(folder)?.is_dir()) {
        (Some(_), true) => Ok(Place::File(path.to_path_buf())),
        _ => Err(other("the path names no file")),
    }
}

/// Whether a path leads through the descriptors of a process, as /dev/fd/3 does: what is behind it was opened by somebody.
fn is_descriptor(path: &Path) -> bool {
    let mut path = path.to_path_buf();
    // links that lead in a circle do not get here
    loop {
        let folder = path.parent().and_then(|folder| fs::canonicalize(folder).ok()).unwrap_or_default();
        if folder.starts_with("/proc") {
            return true;
        }
        match fs::read_link(&path) {
            Ok(link) => path = folder.join(link),
            Err(_) => return false,
        }
    }
}

/// Fails where a file may not be written to, though it could be replaced.
fn replaceable(path: &Path, old: &Metadata) -> io::Result<()> {
    match old.permissions().readonly() {
        // also for a user who may do everything
        true => Err(other("it is write-protected; name another file")),
        false => File::options().write(true).open(path).map(drop),
    }
}

fn keep_owner_and_mode(file: &File, old: &Metadata) -> io::Result<()> {
    let new = file.metadata()?;
    if (new.uid(), new.gid()) != (old.uid(), old.gid()) {
        fchown(file, Some(old.uid()), Some(old.gid())).map_err(|error| other(&format!("its owner could not be kept: {error}")))?;
    }
    file.set_permissions(old.permissions())
}

/// A path in the same folder, which no other process takes.
fn part_of(file: &Path) -> PathBuf {
    let mut name = file.as_os_str().to_os_string();
    name.push(format!(".{}.part", process::id()));
    name.into()
}

fn unwritable(name: &str, error: &io::Error) -> Failure {
    Failure::Failed(format!("cannot write {name}: {error}"))
}

fn other(text: &str) -> io::Error {
    io::Error::other(text)
}
