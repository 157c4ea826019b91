//! What is told, counted and written.

use std::io::{self, Write};

use aes18::{Circuit, Notice};

use super::folder::Folder;
use super::form::{Form, Rest, Sum, Told};
use crate::account::{Account, Heard, Unfinished, Unit};
use crate::error::Error;
use crate::gaps::Gap;
use crate::output;
use crate::scan::Listening;

/// Bytes of what is told that are kept before they are written.
const KEPT: usize = 1 << 16;

/// The account, and where and in what form it is told.
pub struct Teller {
    circuits: Vec<Circuit>,
    account: Account,
    /// Units read.
    pub read: u64,
    /// Whether the length of a block is known.
    block: bool,
    folder: Option<Folder>,
    form: &'static dyn Form,
    /// What is told and not yet written.
    told: Vec<u8>,
    stdout: Box<dyn Write>,
}

impl Teller {
    /// Nothing told yet. Where messages are written to a folder, or all is judged, a standard output that is closed does not end the reading.
    pub fn new(
        unit: Unit,
        circuits: Vec<Circuit>,
        block: bool,
        folder: Option<Folder>,
        strict: bool,
        form: &'static dyn Form,
    ) -> Teller {
        Teller {
            account: Account::new(unit, &circuits),
            circuits,
            read: 0,
            block,
            stdout: output::stdout(true, strict || folder.is_some()),
            folder,
            form,
            told: Vec::new(),
        }
    }

    /// Tells which circuits are listened to.
    pub fn listening(&mut self, listening: &Listening) -> Result<(), Error> {
        written(self.form.listening(&mut self.told, listening))
    }

    /// Counts a notice, files its message and tells it. The bytes are the message at Whole, the information at System.
    pub fn tell(&mut self, heard: &Heard, bytes: Option<&[u8]>) -> Result<(), Error> {
        self.account.notice(heard);
        let file = match (heard.notice, bytes, &mut self.folder) {
            (Notice::Circuit { number, .. }, Some(message), Some(folder)) => {
                Some(folder.write(self.circuits[number], message)?)
            }
            _ => None,
        };
        let told = Told {
            unit: self.account.unit,
            place: self.read,
            heard,
            circuits: &self.circuits,
            bytes,
            file: file.as_deref(),
        };
        written(self.form.notice(&mut self.told, &told))?;
        match self.told.len() < KEPT {
            true => Ok(()),
            false => self.send(),
        }
    }

    /// Counts and tells stretches in no frame.
    pub fn tell_gaps(&mut self, gaps: &[Gap]) -> Result<(), Error> {
        gaps.iter().try_for_each(|gap| {
            self.account.gap(gap);
            written(self.form.gap(&mut self.told, self.account.unit, gap))
        })
    }

    /// Writes what is told.
    pub fn send(&mut self) -> Result<(), Error> {
        let sent = self.stdout.write_all(&self.told);
        self.told.clear();
        written(sent.and_then(|()| self.stdout.flush()))
    }

    /// Tells the counts, with the messages that are open; answers what was at fault, in words.
    pub fn finish(
        mut self,
        unfinished: Vec<Unfinished>,
        rest: Option<Rest>,
    ) -> Result<Option<String>, Error> {
        self.account.unfinished = unfinished;
        let sum = Sum {
            account: &self.account,
            read: self.read,
            rest,
            block: self.block,
        };
        written(self.form.sum(&mut self.told, &sum))?;
        self.send()?;
        Ok(self.account.faults())
    }
}

/// The error of writing the standard output.
fn written(result: io::Result<()>) -> Result<(), Error> {
    result.map_err(|error| Error::stdout(&error))
}
