//! The commands that analyse tracks.
use super::asked::{self, Asked};
use super::desk::Desk;
use super::failure::{Failure, bad_usage, quoted, refused, shown};
use super::print;
use super::report::Report;
use super::settings;
use super::text::named;
use super::words::{Words, value};
use std::ffi::{OsStr, OsString};
use std::sync::atomic::{AtomicUsize, Ordering};
use std::thread;

/// One track: its files beside their places, then the answer, then the files put there.
fn analyse_one(desk: &mut Desk, asked: &Asked, file: &OsStr, report: &Report) -> Result<(), Failure> {
    let told = desk.analyse(file)?;
    let prepared = desk.prepared(asked, file, &told)?;
    if report.answer(&desk.printed(asked, file, &told)?)
        && let Err(failure) = prepared.put()
    {
        report.fail_late(file, failure);
    }
    Ok(())
}

/// Takes one track after the other, as long as there are any.
fn work(mut desk: Desk, asked: &Asked, next: &AtomicUsize, report: &Report) {
    while report.goes_on() {
        let Some(file) = asked.files.get(next.fetch_add(1, Ordering::Relaxed)) else { return };
        report.begin(file);
        if let Err(failure) = analyse_one(&mut desk, asked, file, report) {
            report.fail(file, failure);
        }
    }
}

pub fn analyse(words: Words) -> Result<(), Failure> {
    let asked = Asked::read(&words)?;
    let (desk, report, next) =
        (Desk::new(asked.settings)?, Report::new(asked.files.len(), asked.form), AtomicUsize::new(0));
    thread::scope(|scope| {
        for _ in 1..asked.jobs.min(asked.files.len()) {
            let (another, thread) = (desk.another(), thread::Builder::new());
            // where no further thread can be had, those that are there do its work
            drop(thread.spawn_scoped(scope, || work(another, &asked, &next, &report)));
        }
        work(desk, &asked, &next, &report);
    });
    report.close()
}

/// A time in seconds.
fn time(word: &OsString) -> Result<f64, Failure> {
    let what = "a time in seconds";
    let time: f64 = value(word, what)?;
    if time.is_finite() { Ok(time) } else { Err(bad_usage(format!("{} is not {what}", quoted(word)))) }
}

pub fn key_at(words: Words) -> Result<(), Failure> {
    let Some((file, times)) = words.plain.split_first().filter(|(_, times)| !times.is_empty()) else {
        return Err(bad_usage("key-at needs a file and a time in seconds"));
    };
    let times = times.iter().map(time).collect::<Result<Vec<f64>, Failure>>()?;
    let (settings, notation) = (settings::read(&words)?, asked::notation(&words)?);
    let told = Desk::new(settings)?.analyse(file)?;
    let (mut lines, mut missing) = (String::new(), vec![]);
    for time in &times {
        let before = if times.len() > 1 { format!("{time} s: ") } else { String::new() };
        match told.key_at(*time) {
            Some(key) => lines += &format!("{before}{}\n", named(key, notation)),
            None => missing.push(format!("{time} s")),
        }
    }
    print(lines.as_bytes())?;
    if missing.is_empty() {
        return Ok(());
    }
    Err(refused(format!("{}: no key at {} of {:.2} s", shown(file), missing.join(", "), told.duration)))
}
