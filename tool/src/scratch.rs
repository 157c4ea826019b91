//! Folders for files that are not complete yet. They are gone when the tool ends, also where a signal ends it.

use std::fs::{self, File};
use std::io;
use std::path::{Path, PathBuf};
use std::sync::{Mutex, MutexGuard, PoisonError};

use tempfile::{Builder, TempDir};

use crate::signals;

/// The folders that there are. Who holds the lock makes or removes one, or ends the tool.
static FOLDERS: Mutex<Vec<PathBuf>> = Mutex::new(Vec::new());

/// A folder beside the files that are made in it: these get the mode of any new file, and are then renamed into their places.
pub struct Scratch {
    /// The folder, until it is removed.
    folder: Option<TempDir>,
    path: PathBuf,
}

impl Scratch {
    /// A new folder in a folder.
    pub fn new(parent: &Path) -> io::Result<Scratch> {
        signals::watch()?;
        let mut folders = lock();
        let folder = Builder::new().prefix(".aes18-").tempdir_in(parent);
        let folder = folder.map_err(without_path)?;
        let path = folder.path().to_path_buf();
        folders.push(path.clone());
        Ok(Scratch {
            folder: Some(folder),
            path,
        })
    }

    /// The path of a file here.
    pub fn path(&self, name: &str) -> PathBuf {
        self.path.join(name)
    }

    /// A new file here, to write and to read.
    pub fn create(&self, name: &str) -> io::Result<File> {
        File::options()
            .read(true)
            .write(true)
            .create_new(true)
            .open(self.path(name))
    }
}

/// The folder is removed with what is in it.
impl Drop for Scratch {
    fn drop(&mut self) {
        let mut folders = lock();
        if let Some(folder) = self.folder.take() {
            let _ = folder.close();
        }
        folders.retain(|path| *path != self.path);
    }
}

/// Removes all folders, and makes no more: the lock is kept until the tool has ended.
pub fn remove_all() -> impl Sized {
    let folders = lock();
    for path in folders.iter() {
        let _ = fs::remove_dir_all(path);
    }
    folders
}

fn lock() -> MutexGuard<'static, Vec<PathBuf>> {
    FOLDERS.lock().unwrap_or_else(PoisonError::into_inner)
}

/// The error without the temporary path behind it, of which nobody knows.
fn without_path(error: io::Error) -> io::Error {
    let text = error.to_string();
    match text.split_once(" at path ") {
        Some((text, _)) => io::Error::new(error.kind(), text),
        None => error,
    }
}
