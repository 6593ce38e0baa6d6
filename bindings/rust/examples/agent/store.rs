//! Where the agent keeps its clock across a loss of power: a file that is replaced whole, and which one process has at a time. Its
//! octets are an image and a seal, by which damage is found.

use std::ffi::{c_int, OsString};
use std::fs::{self, File, OpenOptions};
use std::io::{self, ErrorKind, Write};
use std::os::fd::AsRawFd;
use std::path::{Path, PathBuf};

// Of Linux.
const LOCK_EX: c_int = 2;
const LOCK_NB: c_int = 4;

extern "C" {
    fn flock(file: c_int, operation: c_int) -> c_int;
}

/// The file of a clock's image.
pub struct Store {
    path: PathBuf,
    folder: File,
    /// How often it was saved.
    saves: u64,
    /// Locked as long as it is open.
    _lock: File,
}

/// The path of a file beside this one, with more at the end of its name.
fn beside(path: &Path, more: &str) -> PathBuf {
    let mut name = OsString::from(path);
    name.push(more);
    name.into()
}

/// Has an error name the file that it is of.
fn of(path: &Path) -> impl Fn(io::Error) -> io::Error + '_ {
    move |error| io::Error::new(error.kind(), format!("{}: {error}", path.display()))
}

fn locked(path: &Path) -> io::Result<File> {
    let lock = OpenOptions::new().create(true).truncate(false).write(true).open(beside(path, ".lock"))?;
    // SAFETY: the file is open.
    if unsafe { flock(lock.as_raw_fd(), LOCK_EX | LOCK_NB) } != 0 {
        return Err(io::Error::last_os_error());
    }
    Ok(lock)
}

impl Store {
    /// The file at a path, which no other process may have until this one ends. It need not be there yet.
    pub fn open(path: &Path) -> io::Result<Self> {
        let lock = locked(path).map_err(of(path))?;
        let folder = match path.parent() {
            Some(folder) if !folder.as_os_str().is_empty() => File::open(folder).map_err(of(folder))?,
            _ => File::open(".")?,
        };
        Ok(Self { path: path.into(), folder, saves: 0, _lock: lock })
    }

    /// The image that was saved last, or none if there never was one.
    pub fn load(&mut self) -> io::Result<Option<Vec<u8>>> {
        let mut octets = match fs::read(&self.path) {
            Ok(octets) => octets,
            Err(error) if error.kind() == ErrorKind::NotFound => return Ok(None),
            Err(error) => return Err(of(&self.path)(error)),
        };
        let sealed =
            ptpm::unseal(&octets).map_err(|error| of(&self.path)(io::Error::new(ErrorKind::InvalidData, error.to_string())))?;
        let size = sealed.image.len();
        self.saves = sealed.count;
        octets.truncate(size);
        Ok(Some(octets))
    }

    /// Saves an image. Once this has returned its file has it, whatever happens to the power; before, it has this one or the one
    /// before. After an error it may have either.
    pub fn save(&mut self, image: &[u8]) -> io::Result<()> {
        self.saves += 1;
        let mut octets = [image, &[0; ptpm::SEAL_OCTETS]].concat();
        ptpm::seal(&mut octets, image.len(), self.saves).map_err(io::Error::other)?;
        replace(&self.path, &self.folder, &octets).map_err(of(&self.path))
    }
}

/// Has the file at a path, in this folder, have these octets.
fn replace(path: &Path, folder: &File, octets: &[u8]) -> io::Result<()> {
    let new = beside(path, ".new");
    let mut file = File::create(&new)?;
    file.write_all(octets)?;
    file.sync_all()?;
    fs::rename(&new, path)?;
    folder.sync_all()
}
