//! What a command reads, writes and leaves: the standard streams on the command line, and buffers in
//! tests.

use std::io::{Read, Write};

/// What the command leaves to be printed.
#[derive(Debug, PartialEq, Eq)]
pub struct Outcome {
    pub code: u8,
    pub out: String,
    pub err: String,
}

/// Why a command stops: its exit code and what is said.
#[derive(Debug, PartialEq, Eq)]
pub struct Stop(pub u8, pub String);

/// A text, file or assignment is at fault.
pub fn faulty<T>(words: String) -> Result<T, Stop> {
    Err(Stop(1, words))
}

/// The command is at fault, or a file cannot be read or written.
pub fn unable<T>(words: String) -> Result<T, Stop> {
    Err(Stop(2, words))
}

/// What is to be printed, and whether nothing was found at fault.
pub type Done = Result<(String, bool), Stop>;

/// The streams of a command.
pub struct Console<'a> {
    pub input: &'a mut dyn Read,
    pub out: &'a mut dyn Write,
    pub err: &'a mut dyn Write,
}

impl Console<'_> {
    /// Says something at once. A closed output is no fault of the plan; there is nobody left to tell.
    pub fn say(&mut self, words: &str) {
        let _ = self.out.write_all(words.as_bytes());
        let _ = self.out.flush();
    }

    /// Says something beside the output, at once.
    pub fn note(&mut self, words: &str) {
        let _ = self.err.write_all(words.as_bytes());
        let _ = self.err.flush();
    }

    /// All that is to be read.
    pub fn read(&mut self) -> Result<String, Stop> {
        let mut bytes = Vec::new();
        match self.input.read_to_end(&mut bytes) {
            Ok(_) => Ok(String::from_utf8_lossy(&bytes).into_owned()),
            Err(error) => unable(format!("cannot read the standard input: {error}")),
        }
    }
}
