//! Set files that are kept by requests.

use crate::error::Error;
use crate::frame::Request;
use crate::keeper::{Keeper, Reply};
use crate::library;
use std::ffi::OsString;
use std::fmt;
use std::fs::{self, File, OpenOptions};
use std::io::{self, Write};
use std::os::unix::fs::{MetadataExt, OpenOptionsExt};
use std::path::{Path, PathBuf};

/// A set file that is kept by numbered requests.
///
/// As long as it is open it has a lock on the file's folder, and one on the file, for which [`open`](SetFile::open) waits:
/// another program that keeps files there, and `bootkeep run` over this one, wait until it is dropped. A reply is given once the variables after it are stored, BootKeepState
/// among them: so whoever has it knows that its request is stored, also if power fails. The file is replaced as a whole,
/// with the rights and the owner that it had.
#[derive(Debug)]
pub struct SetFile {
    path: PathBuf,
    folder: File,
    file: File,
    stored: Vec<u8>,
    keeper: Keeper,
}

/// Why a set file isn't opened, or an event has no reply.
#[derive(Debug)]
#[non_exhaustive]
pub enum FileError {
    /// The path leads to no regular file, as a link.
    NoFile,
    /// The system refuses a call.
    Io(io::Error),
    /// The library refuses what the file has, or a request; or memory was refused.
    Library(Error),
}

impl SetFile {
    /// Opens the file of this path, which is there.
    ///
    /// # Errors
    ///
    /// [`FileError::NoFile`], [`FileError::Io`], and those of [`Keeper::open`].
    pub fn open(path: impl AsRef<Path>) -> Result<SetFile, FileError> {
        let path = path.as_ref().to_owned();
        let folder = match path.parent() {
            Some(folder) if folder != Path::new("") => File::open(folder)?,
            _ => File::open(".")?,
        };
        library::lock(&folder)?;
        let file = lock(&path)?;
        let stored = fs::read(&path)?;
        let keeper = Keeper::open(&stored)?;
        Ok(SetFile { path, folder, file, stored, keeper })
    }

    /// The variables that are stored: the bytes of the file.
    pub fn variables(&self) -> &[u8] {
        &self.stored
    }

    /// These bytes are delivered, which may be a frame, and what comes of them is stored.
    ///
    /// # Errors
    ///
    /// [`FileError::Io`] if that can't be stored, and [`Error::NoMemory`]. What is kept from there on is what was stored
    /// before: the request has to be delivered again, and what waited too.
    pub fn deliver(&mut self, frame: &[u8]) -> Result<Reply, FileError> {
        let reply = self.keeper.deliver(frame);
        self.store(reply)
    }

    /// The request is applied, with the next number, and what comes of it is stored.
    ///
    /// # Errors
    ///
    /// Those of [`deliver`](SetFile::deliver) and of [`Keeper::request`].
    pub fn request(&mut self, request: Request<'_>) -> Result<Reply, FileError> {
        let reply = self.keeper.request(request);
        self.store(reply)
    }

    /// Stores the keeper's variables, and gives the reply. If they can't be, those that are stored are kept from here on.
    fn store(&mut self, reply: Result<Reply, Error>) -> Result<Reply, FileError> {
        let reply = reply?;
        let stored = self.keeper.set().map_err(FileError::from).and_then(|variables| {
            if variables != self.stored {
                self.file = self.replace(&variables)?;
            }
            Ok(variables)
        });
        match stored {
            Ok(variables) => {
                self.stored = variables;
                Ok(reply)
            }
            Err(error) => {
                self.keeper = Keeper::open(&self.stored)?;
                Err(error)
            }
        }
    }

    /// Replaces the file by one of these bytes, which is there as a whole or not at all, also if power fails. What a program
    /// that was killed left under the name of the new one goes. No link is followed: what it leads to isn't touched. The new
    /// file is locked before it is there.
    fn replace(&self, variables: &[u8]) -> io::Result<File> {
        let old = fs::symlink_metadata(&self.path)?;
        let mut other = OsString::from(&self.path);
        other.push(".new");
        match fs::remove_file(&other) {
            Err(error) if error.kind() != io::ErrorKind::NotFound => return Err(error),
            _ => {}
        }
        let mut file = OpenOptions::new().write(true).create_new(true).mode(0o600).open(&other)?;
        library::lock(&file)?;
        library::give(&file, old.uid(), old.gid())?;
        file.set_permissions(old.permissions())?;
        file.write_all(variables)?;
        file.sync_all()?;
        fs::rename(&other, &self.path)?;
        self.folder.sync_all()?;
        Ok(file)
    }
}

/// Opens a file, and locks it as `bootkeep run` does, for which it waits.
fn lock(path: &Path) -> Result<File, FileError> {
    loop {
        if !fs::symlink_metadata(path)?.file_type().is_file() {
            return Err(FileError::NoFile);
        }
        let file = File::open(path)?;
        library::lock(&file)?;
        let (locked, found) = (file.metadata()?, fs::symlink_metadata(path)?);
        // Who had it may have replaced the file meanwhile.
        if (locked.dev(), locked.ino()) == (found.dev(), found.ino()) {
            return Ok(file);
        }
    }
}

impl From<io::Error> for FileError {
    fn from(error: io::Error) -> FileError {
        FileError::Io(error)
    }
}

impl From<Error> for FileError {
    fn from(error: Error) -> FileError {
        FileError::Library(error)
    }
}

impl fmt::Display for FileError {
    fn fmt(&self, formatter: &mut fmt::Formatter<'_>) -> fmt::Result {
        match self {
            FileError::NoFile => formatter.write_str("this is no file"),
            FileError::Io(error) => error.fmt(formatter),
            FileError::Library(error) => error.fmt(formatter),
        }
    }
}

impl std::error::Error for FileError {}
