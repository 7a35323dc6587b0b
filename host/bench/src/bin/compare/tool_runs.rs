//! Runs of the tool's program, in a folder of their own, and of programs on any input.
use std::collections::BTreeMap;
use std::ffi::OsStr;
use std::fs::{self, File, Permissions};
use std::io::Write;
use std::os::unix::fs::{MetadataExt, PermissionsExt, symlink};
use std::path::PathBuf;
use std::process::{Child, ChildStdin, Command, Output, Stdio, id};
use std::sync::atomic::{AtomicUsize, Ordering};
use std::thread::{self, sleep};
use std::time::{Duration, Instant};

/// Between the pieces of an input, and between looks at a program that runs.
const PAUSE: Duration = Duration::from_millis(2);

/// A program that takes longer does not end.
const PATIENCE: Duration = Duration::from_secs(10);

/// So many bytes of an endless input are written, many more than a card has.
const ENOUGH: usize = 1 << 22;

/// Tells the folders of one run apart.
static FOLDERS: AtomicUsize = AtomicUsize::new(0);

/// A folder beside the programs that is there as long as this.
pub struct Folder(PathBuf);

/// The programs' own folder.
pub fn programs() -> PathBuf {
    let this = std::env::current_exe().expect("the comparison's own path");
    this.parent().expect("a program lies in a folder").to_path_buf()
}

impl Folder {
    pub fn new(name: &str) -> Self {
        let nth = FOLDERS.fetch_add(1, Ordering::Relaxed);
        let folder = programs().join(format!("{name}-{}-{nth}", id()));
        fs::create_dir_all(&folder).expect("a new folder");
        Self(folder)
    }

    /// Writes samples as the tool reads them.
    pub fn put_samples(&self, name: &str, samples: &[f32]) {
        self.put(name, &bytes(samples));
    }

    pub fn put(&self, name: &str, content: &[u8]) {
        fs::write(self.0.join(name), content).expect("a file is written");
    }

    /// So many zeros, which take no room on the disk.
    pub fn put_zeros(&self, name: &str, length: u64) {
        self.create(name).set_len(length).expect("a file with a gap");
    }

    pub fn read(&self, name: &str) -> Option<Vec<u8>> {
        fs::read(self.0.join(name)).ok()
    }

    /// A file to read from.
    pub fn open(&self, name: &str) -> File {
        File::open(self.0.join(name)).expect("the file is there")
    }

    /// A new file to write to.
    pub fn create(&self, name: &str) -> File {
        File::create(self.0.join(name)).expect("a new file")
    }

    pub fn put_link(&self, name: &str, target: &str) {
        symlink(target, self.0.join(name)).expect("a link is made");
    }

    pub fn is_link(&self, name: &str) -> bool {
        self.0.join(name).is_symlink()
    }

    /// What may be done with a file, as bits.
    pub fn permissions(&self, name: &str) -> u32 {
        fs::metadata(self.0.join(name)).expect("the file is there").mode() & 0o777
    }

    pub fn permit(&self, name: &str, bits: u32) {
        fs::set_permissions(self.0.join(name), Permissions::from_mode(bits)).expect("the file is there");
    }

    pub fn make_folder(&self, name: &str) {
        fs::create_dir(self.0.join(name)).expect("a folder is made");
    }

    /// What lies in the folder and in those below it: names and content.
    pub fn content(&self) -> BTreeMap<PathBuf, Vec<u8>> {
        let (mut found, mut folders) = (BTreeMap::new(), vec![self.0.clone()]);
        while let Some(folder) = folders.pop() {
            for entry in fs::read_dir(folder).expect("the folder is there") {
                let path = entry.expect("an entry").path();
                if path.is_dir() {
                    folders.push(path.clone());
                }
                found.insert(path.clone(), fs::read(path).unwrap_or_default());
            }
        }
        found
    }

    /// The tool with these words, not yet run.
    pub fn command(&self, words: &[impl AsRef<OsStr>]) -> Command {
        let mut command = Command::new(programs().join("ulyptesh"));
        command.current_dir(&self.0).args(words);
        command
    }

    /// The same, with so many kibibytes of memory.
    pub fn command_within(&self, kibibytes: u32, words: &[impl AsRef<OsStr>]) -> Command {
        let mut command = Command::new("sh");
        command.args(["-c", "ulimit -v \"$0\" && exec \"$@\"", &kibibytes.to_string()]);
        command.current_dir(&self.0).arg(programs().join("ulyptesh")).args(words);
        command
    }

    /// The tool with these words, in this folder.
    pub fn run(&self, words: &[impl AsRef<OsStr>]) -> Output {
        self.command(words).stdin(Stdio::null()).output().expect("the tool runs")
    }

    /// The same, with samples on standard input.
    pub fn run_on(&self, samples: &[f32], words: &[impl AsRef<OsStr>]) -> Output {
        output_on(self.command(words), [&bytes(samples)[..]])
    }
}

fn started(mut command: Command) -> (Child, ChildStdin) {
    command.stdin(Stdio::piped()).stdout(Stdio::piped()).stderr(Stdio::piped());
    let mut running = command.spawn().expect("the program runs");
    let input = running.stdin.take().expect("a pipe");
    (running, input)
}

/// What a program answers to an input that comes in pieces, a little after each other.
pub fn output_on<'a>(command: Command, pieces: impl IntoIterator<Item = &'a [u8]>) -> Output {
    let (running, mut input) = started(command);
    for (nth, piece) in pieces.into_iter().enumerate() {
        if nth > 0 {
            sleep(PAUSE);
        }
        // a program that ends early closes the pipe, which its answer tells
        drop(input.write_all(piece));
    }
    drop(input);
    running.wait_with_output().expect("the program ends")
}

/// Whether a program ends by itself.
fn ends(running: &mut Child) -> bool {
    let begun = Instant::now();
    while running.try_wait().expect("a program that was started").is_none() {
        if begun.elapsed() > PATIENCE {
            return false;
        }
        sleep(PAUSE);
    }
    true
}

/// What a program answers to an input that never ends, zeros behind its front and then nothing more by an open pipe;
/// none where it does not end by itself.
pub fn output_on_endless(command: Command, front: &[u8]) -> Option<Output> {
    let (mut running, mut input) = started(command);
    let ended = thread::scope(|scope| {
        let writing = scope.spawn(move || {
            // a program that ends closes the pipe, which its answer tells
            drop(input.write_all(front).and_then(|()| input.write_all(&vec![0; ENOUGH])));
            input
        });
        let ended = ends(&mut running);
        if !ended {
            running.kill().expect("a program that was started");
        }
        drop(writing.join().expect("no thread failed"));
        ended
    });
    let output = running.wait_with_output().expect("the program ends");
    ended.then_some(output)
}

fn bytes(samples: &[f32]) -> Vec<u8> {
    samples.iter().flat_map(|x| x.to_le_bytes()).collect()
}

impl Drop for Folder {
    fn drop(&mut self) {
        drop(fs::remove_dir_all(&self.0));
    }
}

pub fn text(bytes: &[u8]) -> String {
    String::from_utf8_lossy(bytes).into_owned()
}

/// So many windows as the tool tells them.
pub fn windows_told(windows: u32) -> String {
    if windows == 1 { "1 window".into() } else { format!("{windows} windows") }
}
