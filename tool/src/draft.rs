//! A file that appears only when it is complete.

use std::ffi::OsStr;
use std::fs::{self, File};
use std::io::{self, BufWriter, IsTerminal, Seek, Write};
use std::path::{Path, PathBuf};

use crate::error::Error;
use crate::output::say_raw;
use crate::scratch::Scratch;

/// The draft's name in its folder.
const DRAFT: &str = "draft";

/// A file that is nowhere seen until it is finished. What stood in its place stays until then, and a draft that is dropped is gone.
pub struct Draft {
    file: BufWriter<File>,
    target: Target,
    /// The target's name, for messages.
    name: String,
    /// Whether it is a serial line.
    serial: bool,
}

/// Where the bytes go in the end.
enum Target {
    /// The standard output, which gets a copy.
    Stdout,
    /// A device or a pipe, which gets a copy.
    Stream(PathBuf),
    /// A file, which is replaced by the draft in a folder beside it.
    File(PathBuf, Scratch),
}

impl Draft {
    /// Begins a draft of the file of that name, or of the standard output where the name is `-`.
    pub fn new(name: &OsStr) -> Result<Draft, Error> {
        let (target, name) = match name == "-" {
            true => (Target::Stdout, "standard output".to_string()),
            false => (Target::named(name)?, name.to_string_lossy().into_owned()),
        };
        let file = match &target {
            Target::File(_, folder) => folder.create(DRAFT),
            Target::Stream(_) | Target::Stdout => tempfile::tempfile(),
        };
        Ok(Draft {
            file: BufWriter::new(file.map_err(|error| Error::file(&name, &error))?),
            target,
            name,
            serial: false,
        })
    }

    /// A draft of a serial line: a terminal that gets it is said to have to be raw.
    pub fn serial(name: &OsStr) -> Result<Draft, Error> {
        let mut draft = Draft::new(name)?;
        draft.serial = true;
        Ok(draft)
    }

    /// The name of what is written, for messages.
    pub fn name(&self) -> String {
        self.name.clone()
    }

    /// Writes over the first bytes, puts the file in its place and answers its length.
    pub fn finish(mut self, first: &[u8]) -> Result<u64, Error> {
        let failed = |error: io::Error| Error::file(&self.name, &error);
        let length = write_over(&mut self.file, first).map_err(failed)?;
        match &self.target {
            Target::File(path, folder) => {
                fs::rename(folder.path(DRAFT), path).map_err(failed)?;
            }
            Target::Stream(path) => File::options()
                .write(true)
                .open(path)
                .and_then(|stream| self.copy_to(stream))
                .map_err(failed)?,
            Target::Stdout => self
                .copy_to(io::stdout().lock())
                .map_err(|error| Error::stdout(&error))?,
        }
        Ok(length)
    }

    /// Copies the bytes to a device, a pipe or the standard output.
    fn copy_to(&self, mut stream: impl Write + IsTerminal) -> io::Result<()> {
        if self.serial && stream.is_terminal() {
            say_raw(&self.name);
        }
        let mut file = self.file.get_ref();
        file.rewind()?;
        io::copy(&mut file, &mut stream)?;
        stream.flush()
    }
}

/// Writes over a file's first bytes and answers its length.
fn write_over(file: &mut BufWriter<File>, first: &[u8]) -> io::Result<u64> {
    let length = file.stream_position()?;
    file.rewind()?;
    file.write_all(first)?;
    file.flush()?;
    Ok(length)
}

impl Target {
    /// What the name of a file stands for. A link stands for the file that it leads to.
    fn named(name: &OsStr) -> Result<Target, Error> {
        let path = PathBuf::from(name);
        let expected = |what: &str| Error::Data(format!("{}: expected {what}", path.display()));
        match fs::metadata(&path) {
            Ok(found) if found.is_dir() => Err(expected("a file, not a folder")),
            Ok(found) if !found.is_file() => Ok(Target::Stream(path)),
            _ if path.file_name().is_none() => Err(expected("a file's name")),
            _ => {
                let place = fs::canonicalize(&path).unwrap_or_else(|_| path.clone());
                let folder = Scratch::new(folder_of(&place));
                let folder = folder.map_err(|error| Error::file(path.display(), &error))?;
                Ok(Target::File(place, folder))
            }
        }
    }
}

/// The folder that a file is in.
fn folder_of(path: &Path) -> &Path {
    match path.parent() {
        Some(folder) if folder != Path::new("") => folder,
        _ => Path::new("."),
    }
}

impl Write for Draft {
    fn write(&mut self, bytes: &[u8]) -> io::Result<usize> {
        self.file.write(bytes)
    }

    fn flush(&mut self) -> io::Result<()> {
        self.file.flush()
    }
}
