//! What went wrong, with the exit status that says so.
use std::ffi::OsStr;
use std::io::{Write, stderr};

/// A message for a person, and the exit status.
pub struct Failure {
    pub message: String,
    pub status: u8,
}

/// The command was not called as it has to be.
pub fn bad_usage(what: impl ToString) -> Failure {
    Failure { message: format!("{}\n'ulyptesh --help' tells how it is called", what.to_string()), status: 2 }
}

/// The command was called well, and failed.
pub fn refused(why: impl ToString) -> Failure {
    Failure { message: why.to_string(), status: 1 }
}

/// The same, with what it is about.
pub fn refused_about(what: &OsStr, why: impl ToString) -> Failure {
    refused(format!("{}: {}", shown(what), why.to_string()))
}

/// Tells a person; where standard error can't be written, nobody can be told.
pub fn tell(message: &str) {
    drop(writeln!(stderr(), "ulyptesh: {message}"));
}

/// A name as it is safe to show, in quotes where it is empty.
pub fn shown(name: &OsStr) -> String {
    if name.is_empty() { quoted(name) } else { escaped(name) }
}

/// A word in quotes, as it is safe to show.
pub fn quoted(word: &OsStr) -> String {
    format!("'{}'", escaped(word))
}

/// A name in which no control character reaches the terminal, and no two names look alike for it.
fn escaped(name: &OsStr) -> String {
    let escaped = |c: char| match c {
        '\\' => "\\\\".into(),
        c if c.is_control() => c.escape_default().to_string(),
        c => c.to_string(),
    };
    name.to_string_lossy().chars().map(escaped).collect()
}
