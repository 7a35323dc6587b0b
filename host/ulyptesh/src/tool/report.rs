//! What is told while tracks are analysed, by any number of threads, or cards are read or added up: answers, failures,
//! and how far the work is.
use super::asked::Form;
use super::failure::{Failure, refused, shown, tell};
use super::print;
use super::progress::Progress;
use std::ffi::OsStr;
use std::sync::{Mutex, MutexGuard};

/// How far the work is.
struct State {
    /// Tracks that are answered or failed.
    ended: usize,
    answered: usize,
    /// The names of those that failed.
    failed: Vec<String>,
    /// Why the work stops, or why its only track failed.
    failure: Option<Failure>,
    stopped: bool,
    progress: Progress,
}

impl State {
    fn stop(&mut self, failure: Failure) {
        self.failure = Some(failure);
        self.stopped = true;
    }
}

pub struct Report {
    files: usize,
    form: Form,
    state: Mutex<State>,
}

impl Report {
    pub fn new(files: usize, form: Form) -> Self {
        let progress = Progress::new(files);
        let state = State { ended: 0, answered: 0, failed: vec![], failure: None, stopped: false, progress };
        Self { files, form, state: Mutex::new(state) }
    }

    fn state(&self) -> MutexGuard<'_, State> {
        self.state.lock().expect("no thread fails while it tells something")
    }

    /// Whether work can go on: it can't where nothing can be printed.
    pub fn goes_on(&self) -> bool {
        !self.state().stopped
    }

    pub fn begin(&self, file: &OsStr) {
        let state = self.state();
        state.progress.show(state.ended, file);
    }

    /// Prints the answer about a track; whether it was printed whole.
    pub fn answer(&self, answer: &[u8]) -> bool {
        let mut state = self.state();
        state.ended += 1;
        let before = match (self.form, state.answered) {
            (Form::Json, 0) => "[",
            (Form::Json, _) => ",\n ",
            _ => "",
        };
        state.answered += 1;
        let behind = self.closing(&state);
        self.print(&mut state, &[before.as_bytes(), answer, behind.as_bytes()].concat())
    }

    /// A card that goes into an answer about many.
    pub fn take(&self) {
        self.state().ended += 1;
    }

    /// A track that is not answered.
    pub fn fail(&self, file: &OsStr, failure: Failure) {
        let mut state = self.state();
        state.ended += 1;
        let closing = self.closing(&state);
        self.print(&mut state, closing.as_bytes());
        self.note(&mut state, file, failure);
    }

    /// A track that is answered, and whose files could not be put into their places; a card that is shown as refused.
    pub fn fail_late(&self, file: &OsStr, failure: Failure) {
        self.note(&mut self.state(), file, failure);
    }

    /// Work that can't go on, for this reason.
    pub fn stop(&self, failure: Failure) {
        self.state().stop(failure);
    }

    /// What ends the answers, behind the last.
    fn closing(&self, state: &State) -> &'static str {
        if self.form == Form::Json && state.ended == self.files && state.answered > 0 { "]\n" } else { "" }
    }

    fn print(&self, state: &mut State, bytes: &[u8]) -> bool {
        state.progress.clear();
        let printed = if state.stopped { Ok(()) } else { print(bytes) };
        if let Err(failure) = printed {
            state.stop(failure);
        }
        !state.stopped
    }

    /// The failure of an only track is told at the end, others at once.
    fn note(&self, state: &mut State, file: &OsStr, failure: Failure) {
        state.failed.push(shown(file));
        if self.files > 1 {
            state.progress.clear();
            tell(&failure.message);
        } else if !state.stopped {
            state.failure = Some(failure);
        }
    }

    /// The end of all work: what has failed.
    pub fn close(self) -> Result<(), Failure> {
        let State { failed, failure, progress, .. } = self.state.into_inner().expect("no thread failed");
        progress.clear();
        match failure {
            Some(failure) => Err(failure),
            None if failed.is_empty() => Ok(()),
            None => Err(refused(format!("{} of {} failed: {}", failed.len(), self.files, failed.join(", ")))),
        }
    }
}
