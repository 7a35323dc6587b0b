//! A line on a terminal that tells how far the work is.
use super::failure::shown;
use std::ffi::OsStr;
use std::io::{IsTerminal, Write, stderr};

/// To the front of the line, and all behind it cleared.
const CLEARED: &str = "\r\x1b[K";

/// So much of a name fits on the line, its end.
const LONGEST: usize = 50;

pub struct Progress {
    is_shown: bool,
    files: usize,
}

impl Progress {
    /// Nothing is shown where standard error is no terminal.
    pub fn new(files: usize) -> Self {
        Self { is_shown: stderr().is_terminal(), files }
    }

    /// So many files are done, and this one is begun.
    pub fn show(&self, done: usize, file: &OsStr) {
        if self.is_shown {
            let name: Vec<char> = shown(file).chars().collect();
            let end: String = name[name.len().saturating_sub(LONGEST)..].iter().collect();
            drop(write!(stderr(), "{CLEARED}{done} of {} done: {end}", self.files));
        }
    }

    pub fn clear(&self) {
        if self.is_shown {
            drop(write!(stderr(), "{CLEARED}"));
        }
    }
}
