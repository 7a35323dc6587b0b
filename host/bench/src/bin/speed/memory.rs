//! The most memory that the tool takes for a track of ten minutes, beside the oracle's `analyze` on the same samples.
//! Each side is a program of its own that reads the same file in the same way.
use crate::tracks::chords;
use bench::oracle::key_lime::{KeyConfig, analyze};
use std::ffi::OsStr;
use std::fs::{self, File};
use std::hint::black_box;
use std::io::{self, BufReader, BufWriter, Read, Write};
use std::path::Path;
use std::process::{Child, Command, Stdio, id};
use std::thread::sleep;
use std::time::Duration;

const RATE: u32 = 44_100;
const SECONDS: usize = 600;

/// Stream of the seed.
const STREAM: u64 = 6;

/// So many bytes are read at once.
const BLOCK: usize = 1 << 16;

/// How often a program is looked at while it runs.
const PAUSE: Duration = Duration::from_millis(20);

const MEBIBYTE: f64 = 1024.0;

/// Ten minutes of chords over noise, as raw samples.
fn write_track(file: &Path) -> io::Result<()> {
    let track = chords(STREAM, RATE, SECONDS);
    let mut out = BufWriter::new(File::create(file)?);
    track.iter().try_for_each(|x| out.write_all(&x.to_le_bytes()))?;
    out.flush()
}

/// Reads the track in blocks, as the tool does.
fn read_track(file: &OsStr) -> io::Result<Vec<f32>> {
    let mut from = BufReader::with_capacity(BLOCK, File::open(file)?);
    let (mut bytes, mut track) = ([0; size_of::<f32>()], vec![0.0; SECONDS * RATE as usize]);
    for sample in &mut track {
        from.read_exact(&mut bytes)?;
        *sample = f32::from_le_bytes(bytes);
    }
    Ok(track)
}

/// The highest mark of a process's memory so far, in kibibytes; none once it has ended.
fn high_mark(process: u32) -> Option<u64> {
    let status = fs::read_to_string(format!("/proc/{process}/status")).ok()?;
    let line = status.lines().find_map(|line| line.strip_prefix("VmHWM:"))?;
    line.trim().strip_suffix(" kB")?.parse().ok()
}

/// The last mark that was seen before the program ended.
fn peak(mut running: Child) -> u64 {
    let mut most = 0;
    loop {
        most = high_mark(running.id()).unwrap_or(most);
        if let Some(status) = running.try_wait().expect("a program that was started") {
            assert!(status.success(), "the program failed");
            return most;
        }
        sleep(PAUSE);
    }
}

fn started(program: &Path, words: &[&OsStr]) -> Child {
    Command::new(program).args(words).stdout(Stdio::null()).spawn().expect("a program beside this one")
}

/// The oracle's side, as a program.
pub fn analyse_theirs(file: &OsStr) {
    let track = read_track(file).expect("the track is there");
    black_box(analyze(&track, RATE, KeyConfig::default()));
}

pub fn print_row() {
    let this = std::env::current_exe().expect("this program's own path");
    let file = this.with_file_name(format!("ten-minutes-{}.f32", id()));
    write_track(&file).expect("a file beside this program");
    let rate = RATE.to_string();
    let words = ["analyse".as_ref(), file.as_os_str(), "--rate".as_ref(), rate.as_ref()];
    let ours = peak(started(&this.with_file_name("ulyptesh"), &words));
    let theirs = peak(started(&this, &["--memory".as_ref(), file.as_os_str()]));
    let samples = (SECONDS * RATE as usize * size_of::<f32>()) as f64 / MEBIBYTE / MEBIBYTE;
    fs::remove_file(&file).expect("the file is there");
    println!("{:30} {:>10} {:>10} {:>10}", "MiB at most for a track", "ours", "oracle", "samples");
    let [ours, theirs] = [ours, theirs].map(|kibibytes| kibibytes as f64 / MEBIBYTE);
    println!("{:30} {ours:10.1} {theirs:10.1} {samples:10.1}", format!("ten minutes, {RATE} Hz"));
}
