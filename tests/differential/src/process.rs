//! The book program as a process of its own, with the script on its standard input.

use crate::pieces::{Cut, Pieces};
use crate::program::LineProgram;
use std::fs::{self, File};
use std::io::{self, Read, Write};
use std::path::{Path, PathBuf};
use std::process::{self, Child, ChildStdin, Command, Stdio};
use std::sync::atomic::{AtomicUsize, Ordering};
use std::sync::mpsc;
use std::thread;
use std::time::{Duration, Instant};

/// No output is this long: a program that goes on for ever is stopped here.
const MOST_OUTPUT: u64 = 1 << 28;

pub struct Process {
    pub path: PathBuf,
    pub arguments: Vec<String>,
    /// A program that takes longer than this for one script is ended.
    pub limit: Duration,
}

impl Process {
    pub fn new(path: PathBuf) -> Process {
        Process { path, arguments: Vec::new(), limit: Duration::from_secs(60) }
    }

    /// The program that VEKHTUROP_BOOK names, or the one that the repository builds; or why there is none.
    pub fn of_environment() -> Result<Process, String> {
        let path = match std::env::var_os("VEKHTUROP_BOOK") {
            Some(path) => PathBuf::from(path),
            None => Path::new(env!("CARGO_MANIFEST_DIR")).join("../../target/bin/book"),
        };
        if path.is_file() {
            Ok(Process::new(path))
        } else {
            Err(format!("{} is missing: build the book program or set VEKHTUROP_BOOK", path.display()))
        }
    }

    /// Waits until the process has ended, and ends it where it does not.
    fn wait(&self, child: &mut Child, deadline: Instant) -> Result<(), String> {
        let mut nap = Duration::from_micros(50);
        loop {
            match child.try_wait().map_err(|error| format!("the program cannot be awaited: {error}"))? {
                Some(status) if status.success() => return Ok(()),
                Some(status) => return Err(format!("the program ends with {status}")),
                None if Instant::now() > deadline => {
                    // It may end by itself in this moment; then there is nothing left to end.
                    let _ = child.kill();
                    let _ = child.wait();
                    return Err(format!("the program does not end within {:?}", self.limit));
                }
                None => thread::sleep(nap),
            }
            nap = (nap * 2).min(Duration::from_millis(10));
        }
    }
}

/// Writes the pieces one by one; the pipe keeps nothing back. A program that has ended early is no error here: its
/// output tells.
fn write(mut to: ChildStdin, pieces: &Pieces, script: &[u8]) {
    for (i, piece) in pieces.of(script).into_iter().enumerate() {
        if to.write_all(piece).is_err() {
            return;
        }
        if let Some(pause) = pieces.pause(i) {
            thread::sleep(pause);
        }
    }
}

/// The script as a file to read from. It has no name any more, so nothing is left of it.
fn file(script: &[u8]) -> io::Result<File> {
    static FILES: AtomicUsize = AtomicUsize::new(0);
    let number = FILES.fetch_add(1, Ordering::Relaxed);
    let path = std::env::temp_dir().join(format!("vekhturop-{}-{number}.input", process::id()));
    fs::write(&path, script)?;
    let file = File::open(&path)?;
    fs::remove_file(&path)?;
    Ok(file)
}

impl LineProgram for Process {
    /// One thread writes and one reads, so that neither pipe can fill up and stop the other.
    fn run(&self, script: &[u8], pieces: &Pieces) -> Result<Vec<u8>, String> {
        let input = match pieces.cut {
            Cut::File => file(script).map_err(|error| format!("no file for the script: {error}"))?.into(),
            _ => Stdio::piped(),
        };
        let mut child = Command::new(&self.path)
            .args(&self.arguments)
            .stdin(input)
            .stdout(Stdio::piped())
            .spawn()
            .map_err(|error| format!("{} cannot be started: {error}", self.path.display()))?;
        let input = child.stdin.take();
        let output = child.stdout.take().expect("it is piped");
        let deadline = Instant::now() + self.limit;
        thread::scope(|scope| {
            scope.spawn(move || input.map(|input| write(input, pieces, script)));
            let (done, read) = mpsc::channel();
            scope.spawn(move || {
                let mut all = Vec::new();
                let result = output.take(MOST_OUTPUT).read_to_end(&mut all);
                // The other side waits for this as long as it lives.
                let _ = done.send(result.map(|_| all));
            });
            let output = read.recv_timeout(self.limit);
            // Where nothing came in time, the deadline has passed, and this ends the process and so both threads.
            self.wait(&mut child, deadline)?;
            match output {
                Ok(Ok(all)) => Ok(all),
                Ok(Err(error)) => Err(format!("the output cannot be read: {error}")),
                Err(_) => Err(format!("the program does not end within {:?}", self.limit)),
            }
        })
    }
}
