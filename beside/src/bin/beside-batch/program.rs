//! The corpus program, run on a batch in a folder of its own.

use crate::batch::Batch;
use beside::books::data;
use std::fs::{self, File};
use std::io;
use std::path::{Path, PathBuf};
use std::process::{Child, Command, ExitStatus, Stdio};
use std::time::{Duration, Instant};

const RUNNER: &str = "tools/run-program";
const PROGRAM: &str = "crates/corpus/out/corpus";

/// The runner's exit status where a program cannot be run.
const CANNOT_RUN: i32 = 2;

/// "Each public call ends": all calls about one batch together take far less.
const LONGEST: Duration = Duration::from_secs(120);

pub struct Program {
    runner: PathBuf,
    program: PathBuf,
}

pub struct Running {
    folder: Folder,
    child: Child,
    begun: Instant,
}

pub struct Ended {
    pub printed: Vec<u8>,
    /// None: it did not end, and was stopped.
    pub status: Option<ExitStatus>,
}

impl Ended {
    pub fn well(&self) -> bool {
        self.status.is_some_and(|status| status.success())
    }

    pub fn in_words(&self) -> String {
        match self.status {
            Some(status) => status.to_string(),
            None => format!("none in {} seconds", LONGEST.as_secs()),
        }
    }
}

impl Program {
    pub fn new() -> io::Result<Program> {
        Ok(Program {
            runner: found(RUNNER, "run it at the repository root")?,
            program: found(PROGRAM, "`tools/prove corpus` makes it")?,
        })
    }

    pub fn start(&self, batch: &Batch) -> io::Result<Running> {
        let folder = Folder::new(batch.number)?;
        let books = batch.books.iter().map(|made| made.book.as_slice());
        fs::write(folder.0.join("books"), data(books))?;
        let child = Command::new(&self.runner)
            .arg(&self.program)
            .current_dir(&folder.0)
            .stdin(Stdio::null())
            .stdout(File::create(folder.0.join("printed"))?)
            .spawn()?;
        Ok(Running {
            folder,
            child,
            begun: Instant::now(),
        })
    }
}

fn found(path: &str, words: &str) -> io::Result<PathBuf> {
    Path::new(path)
        .canonicalize()
        .map_err(|error| io::Error::new(error.kind(), format!("no {path} ({words}): {error}")))
}

impl Running {
    pub fn end(mut self) -> io::Result<Ended> {
        let status = self.wait()?;
        // A proved program ends with 0, or with 1 where a read or a write fails.
        if status.and_then(|status| status.code()) == Some(CANNOT_RUN) {
            return Err(io::Error::other(format!("{RUNNER} cannot run {PROGRAM}")));
        }
        let printed = fs::read(self.folder.0.join("printed"))?;
        Ok(Ended { printed, status })
    }

    fn wait(&mut self) -> io::Result<Option<ExitStatus>> {
        while self.begun.elapsed() < LONGEST {
            if let Some(status) = self.child.try_wait()? {
                return Ok(Some(status));
            }
            std::thread::sleep(Duration::from_millis(2));
        }
        Ok(None)
    }
}

/// What is still at work where the comparison stops early is stopped too.
impl Drop for Running {
    fn drop(&mut self) {
        // Both fail only where it has ended already.
        let _ = self.child.kill();
        let _ = self.child.wait();
    }
}

struct Folder(PathBuf);

impl Folder {
    fn new(number: u64) -> io::Result<Folder> {
        let name = format!("beside-batch-{}-{number}", std::process::id());
        let folder = std::env::temp_dir().join(name);
        fs::create_dir(&folder)?;
        Ok(Folder(folder))
    }
}

impl Drop for Folder {
    fn drop(&mut self) {
        // A folder that stays behind is no fault of what is compared.
        let _ = fs::remove_dir_all(&self.0);
    }
}
