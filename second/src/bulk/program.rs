//! Starts the proved programs and waits for them. They read from files and write to files, so
//! neither side has to wait for the other to read its output.

use std::fs::{self, File};
use std::io::ErrorKind;
use std::path::{self, Path, PathBuf};
use std::process::{Child, Command, ExitStatus, Stdio};
use std::thread;
use std::time::Duration;

/// How long to wait before looking again whether the program has ended.
const PATIENCE: Duration = Duration::from_millis(20);

/// The names in the room: a file that ends the run if it exists, the directory of the captures, and
/// what a program reads and writes.
const STOP: &str = "stop";
const CAPTURES: &str = "captures";
const ASKED: &str = "asked";
const ANSWERS: &str = "answers";

/// How the programs are started.
pub struct Programs {
    run: PathBuf,
    room: PathBuf,
}

/// What a program has written, and how it ended.
pub struct Answered {
    pub output: Vec<u8>,
    pub status: ExitStatus,
}

impl Programs {
    /// `run NAME` starts the program of that name. The room is a directory that exists.
    pub fn new(run: &Path, room: &Path) -> Result<Self, String> {
        let programs = Programs {
            run: path::absolute(run).map_err(complaint(run))?,
            room: path::absolute(room).map_err(complaint(room))?,
        };
        let captures = programs.room.join(CAPTURES);
        match fs::create_dir(&captures) {
            Err(error) if error.kind() != ErrorKind::AlreadyExists => {
                Err(complaint(&captures)(error))
            }
            _ => Ok(programs),
        }
    }

    /// True if the run is to end.
    fn are_to_stop(&self) -> bool {
        self.room.join(STOP).exists()
    }

    /// Starts the program of this name. It reads `input` as its standard input.
    pub fn start_reading(&self, name: &str, input: &str) -> Result<Running<'_>, String> {
        let path = self.room.join(ASKED);
        fs::write(&path, input).map_err(complaint(&path))?;
        let asked = File::open(&path).map_err(complaint(&path))?;
        let mut command = Command::new(&self.run);
        command.arg(name).stdin(asked);
        self.start(command)
    }

    /// Starts the program of this name to list these captures. It reads them as files.
    pub fn start_listing(&self, name: &str, captures: &[Vec<u8>]) -> Result<Running<'_>, String> {
        let directory = self.room.join(CAPTURES);
        let mut command = Command::new(&self.run);
        command.arg(name).stdin(Stdio::null());
        for (number, capture) in captures.iter().enumerate() {
            let file = number.to_string();
            let path = directory.join(&file);
            fs::write(&path, capture).map_err(complaint(&path))?;
            command.arg(file);
        }
        command.current_dir(directory);
        self.start(command)
    }

    fn start(&self, mut command: Command) -> Result<Running<'_>, String> {
        let path = self.room.join(ANSWERS);
        let answers = File::create(&path).map_err(complaint(&path))?;
        let child = command.stdout(answers).spawn();
        Ok(Running {
            child: child.map_err(complaint(&self.run))?,
            programs: self,
        })
    }
}

/// The complaint when something cannot be done with this file.
fn complaint(path: &Path) -> impl Fn(std::io::Error) -> String + '_ {
    move |error| format!("{}: {error}", path.display())
}

/// A program at work.
pub struct Running<'a> {
    child: Child,
    programs: &'a Programs,
}

impl Running<'_> {
    /// Waits until the program has ended and returns what it has written. Returns nothing if the
    /// run is to stop.
    pub fn finish(mut self) -> Result<Option<Answered>, String> {
        let run = &self.programs.run;
        loop {
            if self.programs.are_to_stop() {
                self.end();
                return Ok(None);
            }
            if let Some(status) = self.child.try_wait().map_err(complaint(run))? {
                let path = self.programs.room.join(ANSWERS);
                let output = fs::read(&path).map_err(complaint(&path))?;
                return Ok(Some(Answered { output, status }));
            }
            thread::sleep(PATIENCE);
        }
    }

    /// Ends this one program. Its answers are no longer needed.
    fn end(&mut self) {
        // The program may have ended already.
        let _ = self.child.kill();
        let _ = self.child.wait();
    }
}
