//! A folder for the messages handed over, one file each.

use std::ffi::OsStr;
use std::fs;
use std::io::{self, Write};
use std::path::{Path, PathBuf};

use aes18::Circuit;
use tempfile::TempPath;

use crate::error::Error;
use crate::scratch::Scratch;

/// The folder, a folder in it for the file that is being written, and how many messages are there.
pub struct Folder {
    path: PathBuf,
    scratch: Scratch,
    messages: u64,
}

impl Folder {
    /// Opens the folder, or makes it where it is missing. It must not hold a file with a name such as this tool gives.
    pub fn open(path: &OsStr) -> Result<Folder, Error> {
        let path = PathBuf::from(path);
        if path.exists() {
            for entry in fs::read_dir(&path).map_err(failed(&path))? {
                let name = entry.map_err(failed(&path))?.file_name();
                if is_message(&name.to_string_lossy()) {
                    return Err(Error::Data(format!(
                        "{}: expected a folder without messages; {} is there",
                        path.display(),
                        name.to_string_lossy()
                    )));
                }
            }
        } else {
            fs::create_dir_all(&path).map_err(failed(&path))?;
        }
        Ok(Folder {
            scratch: Scratch::new(&path).map_err(failed(&path))?,
            path,
            messages: 0,
        })
    }

    /// Writes the next message and answers the file's name: its number from 1, the address and the extension.
    pub fn write(&mut self, circuit: Circuit, message: &[u8]) -> Result<String, Error> {
        self.messages += 1;
        let circuit = circuit.to_string().replace(':', "-");
        let name = format!("{:06}-{circuit}.bin", self.messages);
        let path = self.path.join(&name);
        let mut file = self.scratch.create(&name).map_err(failed(&path))?;
        file.write_all(message).map_err(failed(&path))?;
        put(TempPath::from_path(self.scratch.path(&name)), &path).map_err(failed(&path))?;
        Ok(name)
    }
}

/// Puts a complete file in its place, where none may stand.
fn put(file: TempPath, path: &Path) -> io::Result<()> {
    let Err(failed) = file.persist_noclobber(path) else {
        return Ok(());
    };
    match failed.error.kind() != io::ErrorKind::AlreadyExists && !path.exists() {
        // A file system without hard links.
        true => failed.path.persist(path).map_err(|failed| failed.error),
        false => Err(failed.error),
    }
}

/// The error of a file.
fn failed(path: &Path) -> impl Fn(io::Error) -> Error + '_ {
    |error| Error::file(path.display(), &error)
}

/// Whether a file's name is one that a message could get.
fn is_message(name: &str) -> bool {
    let Some(name) = name.strip_suffix(".bin") else {
        return false;
    };
    let mut parts = name.split('-');
    let number = parts.next().unwrap_or("");
    let circuit: Vec<&str> = parts.collect();
    let is_hex = |part: &&str| part.len() == 2 && part.bytes().all(|c| c.is_ascii_hexdigit());
    number.len() >= 6
        && number.bytes().all(|c| c.is_ascii_digit())
        && (1..=2).contains(&circuit.len())
        && circuit.iter().all(is_hex)
}

#[cfg(test)]
mod tests {
    use super::is_message;

    #[test]
    fn names_of_messages() {
        for name in ["000001-01.bin", "000012-02-07.bin", "1234567-7E.bin"] {
            assert!(is_message(name), "{name}");
        }
        for name in [
            "notes.txt",
            "000001-01",
            "0001-01.bin",
            "000001.bin",
            "000001-0x.bin",
            "000001-01-02-03.bin",
        ] {
            assert!(!is_message(name), "{name}");
        }
    }
}
