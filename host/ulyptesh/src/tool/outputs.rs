//! Output files: all are written beside their places first, and put there once the answer is out.
use super::failure::{Failure, refused_about};
use std::fs::{self, File, Metadata, OpenOptions, Permissions};
use std::io::{self, ErrorKind, Write, stderr, stdin, stdout};
use std::os::fd::{AsFd, BorrowedFd};
use std::os::unix::fs::MetadataExt;
use std::path::{Path, PathBuf};
use std::sync::atomic::{AtomicUsize, Ordering};

/// A chain of links is followed so far.
const MOST_LINKS: usize = 40;

/// Tells the partial files of this process apart.
static PARTIALS: AtomicUsize = AtomicUsize::new(0);

/// Where a link leads, also one to nothing.
fn followed(name: &Path) -> PathBuf {
    let mut place = name.to_path_buf();
    for _ in 0..MOST_LINKS {
        let Ok(target) = fs::read_link(&place) else { break };
        place.set_file_name(target);
    }
    place
}

/// One name for all names of a file, whether it is there or not.
pub fn place_of(name: &Path) -> PathBuf {
    let new = || {
        let place = followed(name);
        let folder = place.parent().filter(|folder| *folder != "").unwrap_or(Path::new("."));
        Some(fs::canonicalize(folder).ok()?.join(place.file_name()?))
    };
    fs::canonicalize(name).ok().or_else(new).unwrap_or(name.into())
}

/// Whether a file is one that is read from or printed to.
fn is_stream(about: &Metadata) -> bool {
    let same = |stream: BorrowedFd<'_>| {
        let stream = stream.try_clone_to_owned().and_then(|owned| File::from(owned).metadata());
        stream.is_ok_and(|stream| (stream.dev(), stream.ino()) == (about.dev(), about.ino()))
    };
    same(stdin().as_fd()) || same(stdout().as_fd()) || same(stderr().as_fd())
}

/// The permissions of a file that may be replaced; none where there is no file.
fn replaceable(place: &Path) -> io::Result<Option<Permissions>> {
    let about = match fs::metadata(place) {
        Err(why) if why.kind() == ErrorKind::NotFound => return Ok(None),
        about => about?,
    };
    if is_stream(&about) {
        return Err(io::Error::other("is a file that is read from or printed to"));
    }
    OpenOptions::new().append(true).open(place)?;
    Ok(Some(about.permissions()))
}

/// A new file beside a place, and its name.
fn new_beside(place: &Path) -> io::Result<(PathBuf, File)> {
    let (process, nth) = (std::process::id(), PARTIALS.fetch_add(1, Ordering::Relaxed));
    let partial = place.with_file_name(format!(".ulyptesh-{process}-{nth}.partial"));
    let file = OpenOptions::new().write(true).create_new(true).open(&partial)?;
    Ok((partial, file))
}

/// A file that stands beside its place.
struct Waiting {
    partial: PathBuf,
    place: PathBuf,
    /// The name that was given for the place.
    name: PathBuf,
}

/// Files that stand beside their places, and are taken away again unless they are put there.
#[derive(Default)]
pub struct Prepared {
    waiting: Vec<Waiting>,
}

impl Prepared {
    /// Writes one file beside its place. A device or a pipe can't wait: it is written to at once.
    pub fn add(&mut self, name: &Path, content: &[u8]) -> Result<(), Failure> {
        let written = match fs::metadata(name) {
            Ok(about) if about.is_dir() => Err(io::Error::other("is a folder")),
            Ok(about) if !about.is_file() => fs::write(name, content),
            Err(why) if why.kind() != ErrorKind::NotFound => Err(why),
            _ => self.prepare(name, content),
        };
        written.map_err(|why| refused_about(name.as_os_str(), why))
    }

    fn prepare(&mut self, name: &Path, content: &[u8]) -> io::Result<()> {
        let place = place_of(name);
        if self.waiting.iter().any(|other| other.place == place) {
            return Err(io::Error::other("would be written twice"));
        }
        let replaced = replaceable(&place)?;
        let (partial, mut file) = new_beside(&place)?;
        self.waiting.push(Waiting { partial, place, name: name.into() });
        file.write_all(content)?;
        replaced.map_or(Ok(()), |permissions| file.set_permissions(permissions))
    }

    /// Puts all into their places.
    pub fn put(mut self) -> Result<(), Failure> {
        while let Some(Waiting { partial, place, name }) = self.waiting.last() {
            fs::rename(partial, place).map_err(|why| refused_about(name.as_os_str(), why))?;
            self.waiting.pop();
        }
        Ok(())
    }
}

impl Drop for Prepared {
    fn drop(&mut self) {
        self.waiting.iter().for_each(|waiting| drop(fs::remove_file(&waiting.partial)));
    }
}
