//! What the command writes. A file comes into being whole: it is written beside its place and then takes it.

use crate::stop::Stop;
use std::fs::{self, File, OpenOptions};
use std::io::{self, ErrorKind, Seek, SeekFrom, Write};
use std::path::{Path, PathBuf};
use std::sync::atomic::{AtomicBool, Ordering};

/// Lines for people or programs. A reader that has gone away has seen enough.
pub fn say(text: &str) -> Result<(), Stop> {
    let mut out = io::stdout().lock();
    match writeln!(out, "{text}").and_then(|()| out.flush()) {
        Ok(()) => Ok(()),
        Err(error) if error.kind() == ErrorKind::BrokenPipe => Err(Stop::Enough),
        Err(error) => Err(Stop::system("standard output", &error)),
    }
}

/// A path as a person reads it.
pub fn name_of(path: &Path) -> String {
    path.display().to_string()
}

// ---- Interruption

static INTERRUPTED: AtomicBool = AtomicBool::new(false);

extern "C" {
    fn signal(number: i32, handler: extern "C" fn(i32)) -> usize;
}

extern "C" fn note_interruption(_: i32) {
    INTERRUPTED.store(true, Ordering::Relaxed);
}

/// From here on an interruption (a hang-up, Ctrl-C, a polite kill) is noted, so that no half file is left behind.
fn heed_interruptions() {
    for number in [1, 2, 15] {
        // SAFETY: the handler does nothing but store to an atomic.
        unsafe { signal(number, note_interruption) };
    }
}

/// Ends what goes on where it was interrupted.
pub fn go_on() -> Result<(), Stop> {
    match INTERRUPTED.load(Ordering::Relaxed) {
        false => Ok(()),
        true => Err(Stop::Refused("interrupted".to_string())),
    }
}

// ---- Places

/// Where bytes go.
pub enum Place {
    /// Standard output.
    Stream,
    /// A device or a named pipe, written as it is.
    Device(PathBuf),
    /// A file, whether it may take the place of another, and what it was called.
    File(PathBuf, bool, String),
}

impl Place {
    /// Looks at a place before anything is made for it.
    pub fn at(path: &Path, force: bool) -> Result<Place, Stop> {
        if path == Path::new("-") {
            return Ok(Place::Stream);
        }
        let name = name_of(path);
        match fs::metadata(path) {
            Err(error) if error.kind() == ErrorKind::NotFound => Place::new_file(path),
            Err(error) => Err(Stop::system(&name, &error)),
            Ok(there) if there.is_dir() => Err(Stop::of(&name, "this is a folder")),
            Ok(there) if !there.is_file() => Ok(Place::Device(path.to_path_buf())),
            Ok(_) if !force => Err(Stop::of(&name, "this file is there already (--force writes it anew)")),
            Ok(_) => match fs::canonicalize(path) {
                Ok(path) => Ok(Place::File(path, true, name)),
                Err(error) => Err(Stop::system(&name, &error)),
            },
        }
    }

    fn new_file(path: &Path) -> Result<Place, Stop> {
        if path.file_name().is_none() {
            return Err(Stop::of(&name_of(path), "this is no name for a file"));
        }
        match folder_of(path).is_dir() {
            true => Ok(Place::File(path.to_path_buf(), false, name_of(path))),
            false => Err(Stop::of(&name_of(path), "there is no folder for it")),
        }
    }

    /// Whether it can be gone back in, to put a heading in front.
    pub fn is_file(&self) -> bool {
        matches!(self, Place::File(..))
    }

    pub fn name(&self) -> String {
        match self {
            Place::Stream => "standard output".to_string(),
            Place::Device(path) => name_of(path),
            Place::File(_, _, name) => name.clone(),
        }
    }

    /// Has `fill` write to the place. Where that fails, or is interrupted, no file is left.
    pub fn write(&self, fill: impl FnOnce(&mut Sink) -> Result<(), Stop>) -> Result<(), Stop> {
        heed_interruptions();
        match self {
            Place::Stream => fill(&mut Sink { name: self.name(), to: Box::new(io::stdout().lock()) }),
            Place::Device(path) => {
                let file = OpenOptions::new().write(true).open(path).map_err(|e| Stop::system(&self.name(), &e))?;
                fill(&mut Sink { name: self.name(), to: Box::new(NoSeek(file)) })
            }
            Place::File(path, force, name) => write_beside(path, *force, name, fill),
        }
    }

    /// Writes bytes that are there already.
    pub fn write_all(&self, bytes: &[u8]) -> Result<(), Stop> {
        self.write(|sink| sink.put(bytes))
    }
}

fn folder_of(path: &Path) -> PathBuf {
    match path.parent() {
        Some(folder) if folder != Path::new("") => folder.to_path_buf(),
        _ => PathBuf::from("."),
    }
}

/// A file is written under another name in the same folder, and gets its own name when it is whole.
fn write_beside(
    path: &Path,
    force: bool,
    name: &str,
    fill: impl FnOnce(&mut Sink) -> Result<(), Stop>,
) -> Result<(), Stop> {
    let last = path.file_name().unwrap_or_default().to_string_lossy();
    let part = folder_of(path).join(format!(".{last}.part.{}", std::process::id()));
    let system = |error: io::Error| Stop::system(name, &error);
    let file = OpenOptions::new().write(true).create_new(true).open(&part).map_err(system)?;
    let written = file
        .try_clone()
        .map_err(system)
        .and_then(|handle| fill(&mut Sink { name: name.to_string(), to: Box::new(handle) }))
        .and_then(|()| file.sync_all().map_err(system))
        .and_then(|()| go_on())
        .and_then(|()| take_place(&part, path, force).map_err(system));
    if written.is_err() {
        let _ = fs::remove_file(&part); // there is nothing more to be said than what went wrong before
    }
    written
}

/// A link, unlike a new name, is refused where a file has appeared meanwhile. Not every disk has links.
fn take_place(part: &Path, path: &Path, force: bool) -> io::Result<()> {
    if force {
        return fs::rename(part, path);
    }
    match fs::hard_link(part, path) {
        Ok(()) => fs::remove_file(part),
        Err(error) if error.kind() == ErrorKind::AlreadyExists => Err(error),
        Err(_) => fs::rename(part, path),
    }
}

/// Where the bytes of one place go.
pub struct Sink {
    name: String,
    to: Box<dyn Target>,
}

/// Something to write to, and to go back in where it can be.
trait Target: Write {
    fn back_to_front(&mut self) -> io::Result<()>;
}

impl Target for File {
    fn back_to_front(&mut self) -> io::Result<()> {
        self.seek(SeekFrom::Start(0)).map(|_| ())
    }
}

impl Target for io::StdoutLock<'_> {
    fn back_to_front(&mut self) -> io::Result<()> {
        Err(ErrorKind::NotSeekable.into())
    }
}

struct NoSeek(File);

impl Write for NoSeek {
    fn write(&mut self, bytes: &[u8]) -> io::Result<usize> {
        self.0.write(bytes)
    }

    fn flush(&mut self) -> io::Result<()> {
        self.0.flush()
    }
}

impl Target for NoSeek {
    fn back_to_front(&mut self) -> io::Result<()> {
        Err(ErrorKind::NotSeekable.into())
    }
}

impl Sink {
    pub fn put(&mut self, bytes: &[u8]) -> Result<(), Stop> {
        self.to.write_all(bytes).and_then(|()| self.to.flush()).map_err(|error| match error.kind() {
            ErrorKind::BrokenPipe => Stop::of(&self.name, "it was closed before the end"),
            _ => Stop::system(&self.name, &error),
        })
    }

    /// Puts bytes at the front, over those that stand there.
    pub fn put_in_front(&mut self, bytes: &[u8]) -> Result<(), Stop> {
        self.to.back_to_front().map_err(|error| Stop::system(&self.name, &error))?;
        self.put(bytes)
    }
}

// ---- Input

/// A file's bytes, at most so many and one more. `glance` sees its first 65,536 bytes before the rest is read.
pub fn read(path: &Path, most: u64, glance: impl Fn(&[u8]) -> Result<(), Stop>) -> Result<Vec<u8>, Stop> {
    use std::io::Read;
    let name = name_of(path);
    let system = |error: io::Error| Stop::system(&name, &error);
    let file = File::open(path).map_err(system)?;
    let there = file.metadata().map_err(system)?;
    if there.is_dir() {
        return Err(Stop::of(&name, "this is a folder"));
    }
    let mut bytes = Vec::new();
    let mut limited = file.take(most + 1);
    limited.by_ref().take(65_536).read_to_end(&mut bytes).map_err(system)?;
    glance(&bytes)?;
    let rest = there.len().min(most + 1).saturating_sub(bytes.len() as u64);
    bytes.try_reserve_exact(rest as usize).map_err(|_| system(ErrorKind::OutOfMemory.into()))?;
    limited.read_to_end(&mut bytes).map_err(system)?;
    Ok(bytes)
}
