//! Image files. A writer holds the image by a lock from before it reads it until the new one is in its place, and the new one takes the place of
//! the old by a rename: whoever opens the name finds the old image or the new one, whole, also after a loss of power or a kill.

use crate::either::LONGEST;
use std::ffi::{OsStr, OsString};
use std::fs::{self, File, Metadata, OpenOptions, Permissions, TryLockError};
use std::io::{self, Error, ErrorKind, Read, Seek, Write};
use std::os::unix::ffi::{OsStrExt, OsStringExt};
use std::os::unix::fs::{fchown, MetadataExt, OpenOptionsExt, PermissionsExt};
use std::path::{Path, PathBuf};
use std::time::{Duration, Instant};

/// How long a writer waits for another.
const PATIENCE: Duration = Duration::from_secs(2);

/// Opening something that turns out to be a pipe must not wait for its other end.
const O_NONBLOCK: i32 = 0o4000;

/// What stands for standard input or output.
pub const STANDARD: &str = "-";

fn error<T>(kind: ErrorKind, text: &str) -> io::Result<T> {
    Err(Error::new(kind, text.to_owned()))
}

fn regular(metadata: &Metadata) -> io::Result<()> {
    if metadata.is_file() {
        return Ok(());
    }
    error(ErrorKind::InvalidInput, "not a regular file")
}

/// Opens a regular file; nothing else is opened, for a device may do something when it is.
fn open(path: &Path, for_writing: bool) -> io::Result<File> {
    regular(&fs::metadata(path)?)?;
    let file = OpenOptions::new().read(true).write(for_writing).custom_flags(O_NONBLOCK).open(path)?;
    regular(&file.metadata()?)?;
    Ok(file)
}

/// At most a byte more than the longest image has, so that what is too long is seen to be.
fn read_whole(from: impl Read) -> io::Result<Vec<u8>> {
    let mut bytes = Vec::new();
    from.take(LONGEST as u64 + 1).read_to_end(&mut bytes)?;
    Ok(bytes)
}

/// The image, for a command that only looks; `-` is standard input.
pub fn read(name: &OsStr) -> io::Result<Vec<u8>> {
    if name == STANDARD {
        return read_whole(io::stdin());
    }
    read_whole(open(Path::new(name), false)?)
}

/// Content that is to go into an image: any file, or `-` for standard input.
pub fn read_content(name: &OsStr) -> io::Result<Vec<u8>> {
    if name == STANDARD {
        return read_whole(io::stdin());
    }
    read_whole(File::open(name)?)
}

fn sync_directory_of(path: &Path) -> io::Result<()> {
    File::open(directory_of(path))?.sync_all()
}

fn directory_of(path: &Path) -> &Path {
    match path.parent() {
        Some(parent) if !parent.as_os_str().is_empty() => parent,
        _ => Path::new("."),
    }
}

/// Writes a file that was not there before, whole or not at all as far as an error is told; a kill may leave a part of it.
pub fn write_new(path: &Path, bytes: &[u8]) -> io::Result<()> {
    let mut file = OpenOptions::new().write(true).create_new(true).open(path)?;
    let written = file.write_all(bytes).and_then(|()| file.sync_all()).and_then(|()| sync_directory_of(path));
    if written.is_err() {
        let _ = fs::remove_file(path);
    }
    written
}

/// Writes a file in the place of one that may be there.
pub fn write_over(path: &Path, bytes: &[u8]) -> io::Result<()> {
    match fs::metadata(path) {
        Err(missing) if missing.kind() == ErrorKind::NotFound => write_new(path, bytes),
        Err(other) => Err(other),
        Ok(_) => Held::hold(path)?.replace(bytes),
    }
}

/// Makes a new image file; a name that is there is refused. The name is taken first, by an empty file: a kill leaves that or the whole image.
pub fn create(path: &Path, bytes: &[u8]) -> io::Result<()> {
    OpenOptions::new().write(true).create_new(true).open(path)?;
    let made = Held::hold(path).and_then(|held| held.replace(bytes));
    if made.is_err() && fs::metadata(path).is_ok_and(|metadata| metadata.len() == 0) {
        let _ = fs::remove_file(path);
    }
    made
}

/// How the name of a file begins that is written beside an image: a name has at most 255 bytes.
fn hidden(name: &OsStr) -> OsString {
    let name = &name.as_bytes()[..name.len().min(200)];
    OsString::from_vec([b".", name, b"."].concat())
}

/// What writers that were stopped have left beside an image.
pub fn leftovers(name: &OsStr) -> Vec<PathBuf> {
    // they are beside the file and not beside a link to it
    let path = fs::canonicalize(name).unwrap_or_default();
    let (Some(file_name), Ok(directory)) = (path.file_name(), fs::read_dir(directory_of(&path))) else {
        return Vec::new();
    };
    let start = hidden(file_name);
    let is_left = |path: &PathBuf| {
        let name = path.file_name().unwrap_or_default();
        // that of a writer at work is locked
        name.as_bytes().starts_with(start.as_bytes())
            && name.as_bytes().ends_with(b".tmp")
            && open(path, false).is_ok_and(|file| file.try_lock_shared().is_ok())
    };
    let mut left: Vec<PathBuf> = directory.flatten().map(|entry| entry.path()).filter(is_left).collect();
    left.sort();
    left
}

/// An image file that this program alone may change.
pub struct Held {
    /// Where the file is, with no symbolic link in it.
    path: PathBuf,
    /// The file, which is locked as long as this lives.
    file: File,
    metadata: Metadata,
    /// What it holds.
    pub bytes: Vec<u8>,
}

/// A lock that another program has is waited for, but not for ever.
fn lock(file: &File, until: Instant) -> io::Result<()> {
    loop {
        match file.try_lock() {
            Ok(()) => return Ok(()),
            Err(TryLockError::WouldBlock) if Instant::now() < until => std::thread::sleep(Duration::from_millis(10)),
            Err(TryLockError::WouldBlock) => return error(ErrorKind::WouldBlock, "held by another program; try again when it has ended"),
            Err(TryLockError::Error(error)) => return Err(error),
        }
    }
}

fn is_same(one: &Metadata, other: &Metadata) -> bool {
    (one.dev(), one.ino()) == (other.dev(), other.ino())
}

fn is_unchanged(one: &Metadata, other: &Metadata) -> bool {
    let seen = |metadata: &Metadata| (metadata.len(), metadata.mtime(), metadata.mtime_nsec());
    is_same(one, other) && seen(one) == seen(other)
}

impl Held {
    pub fn hold(name: &Path) -> io::Result<Self> {
        let path = fs::canonicalize(name)?;
        let until = Instant::now() + PATIENCE;
        loop {
            let mut file = open(&path, true)?;
            if file.metadata()?.mode() & 0o222 == 0 {
                return error(ErrorKind::PermissionDenied, "write-protected (no one may write it)");
            }
            lock(&file, until)?;
            // another writer may have put a new file in its place since it was opened: then this lock is on the old one
            let metadata = file.metadata()?;
            if is_same(&metadata, &fs::metadata(&path)?) {
                let bytes = read_whole(&mut file)?;
                return Ok(Self { path, file, metadata, bytes });
            }
            if Instant::now() >= until {
                return error(ErrorKind::WouldBlock, "replaced by others again and again; try again when they have ended");
            }
        }
    }

    /// Puts a new image in the place of the old one. An error leaves the old one, unless it says otherwise.
    pub fn replace(&self, bytes: &[u8]) -> io::Result<()> {
        let (temporary, file) = self.temporary()?;
        // the new file is locked before it gets the name, so that no other writer comes between
        let written = self.write_beside(&file, bytes).and_then(|()| self.same_as_read()).and_then(|()| fs::rename(&temporary, &self.path));
        if let Err(error) = written {
            let _ = fs::remove_file(&temporary);
            return Err(error);
        }
        sync_directory_of(&self.path).map_err(|error| {
            Error::new(error.kind(), format!("the new image is in its place, but may not outlast a loss of power: {error}"))
        })
    }

    /// A new file beside the image.
    fn temporary(&self) -> io::Result<(PathBuf, File)> {
        for number in 0.. {
            let mut name = hidden(self.path.file_name().unwrap_or_default());
            name.push(format!("{}-{number}.tmp", std::process::id()));
            let path = self.path.with_file_name(name);
            match OpenOptions::new().read(true).write(true).create_new(true).mode(0o600).open(&path) {
                Err(there) if there.kind() == ErrorKind::AlreadyExists => {}
                opened => return Ok((path, opened?)),
            }
        }
        unreachable!("some number is free")
    }

    /// Locks the new file, writes it and reads it back, and gives it the old one's owner and mode.
    fn write_beside(&self, mut file: &File, bytes: &[u8]) -> io::Result<()> {
        lock(file, Instant::now())?;
        file.write_all(bytes)?;
        self.take_after(file)?;
        file.sync_all()?;
        // a disk that says it has written and has not
        file.rewind()?;
        if read_whole(file)? != bytes {
            return error(ErrorKind::InvalidData, "what was written does not read back");
        }
        Ok(())
    }

    /// Gives a new file the image's mode, and its owner where that is allowed.
    fn take_after(&self, file: &File) -> io::Result<()> {
        let (owner, group) = (self.metadata.uid(), self.metadata.gid());
        let new = file.metadata()?;
        if (new.uid(), new.gid()) != (owner, group) {
            let _ = fchown(file, Some(owner), Some(group)).or_else(|_| fchown(file, None, Some(group)));
        }
        file.set_permissions(Permissions::from_mode(self.metadata.mode() & 0o7777))
    }

    /// A program that knows of no locks may have written the image, or put another in its place.
    fn same_as_read(&self) -> io::Result<()> {
        let is_same = is_unchanged(&self.metadata, &self.file.metadata()?) && is_unchanged(&self.metadata, &fs::metadata(&self.path)?);
        if is_same {
            return Ok(());
        }
        error(ErrorKind::Other, "changed by another program meanwhile; nothing was done")
    }

    /// Keeps the image as it was read beside it, under its name with a `~`; where that is taken, with `~2`, `~3` and so on. Answers what
    /// was put behind the name. Of what is longer than any image only the beginning was read, and it cannot be kept.
    pub fn keep(&self) -> io::Result<String> {
        if self.bytes.len() > LONGEST {
            return error(ErrorKind::InvalidInput, "the file is longer than any cartridge, so that it is no image; nothing was done");
        }
        for number in 1.. {
            let mark = if number == 1 { "~".to_owned() } else { format!("~{number}") };
            let mut name = self.path.file_name().unwrap_or_default().to_owned();
            name.push(&mark);
            let path = self.path.with_file_name(name);
            match OpenOptions::new().read(true).write(true).create_new(true).mode(0o600).open(&path) {
                Err(there) if there.kind() == ErrorKind::AlreadyExists => {
                    if open(&path, false).and_then(read_whole).is_ok_and(|kept| kept == self.bytes) {
                        return Ok(mark);
                    }
                }
                Err(other) => return Err(other),
                Ok(file) => return self.write_kept(&path, &file).map(|()| mark),
            }
        }
        unreachable!("some number is free")
    }

    fn write_kept(&self, path: &Path, file: &File) -> io::Result<()> {
        let written = self.write_beside(file, &self.bytes).and_then(|()| sync_directory_of(path));
        if written.is_err() {
            let _ = fs::remove_file(path);
        }
        written
    }
}
