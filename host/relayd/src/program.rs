//! The proved program `calls` as a process: started from a descriptor that is held open, with its list of denied prefixes in another, asked
//! over a pair of stream sockets, with a deadline for each answer.

use crate::sys::memory;
use crate::sys::options::{has_input, is_hung_up, keep_over_exec, send_now, wait_for_either};
use crate::sys::signals::Watch;
use std::fs::File;
use std::io::{self, ErrorKind, Read};
use std::net::Shutdown;
use std::os::fd::{AsRawFd, OwnedFd};
use std::os::unix::net::UnixStream;
use std::os::unix::process::CommandExt;
use std::path::Path;
use std::process::{Child, Command, Stdio};
use std::time::{Duration, Instant};

/// How long an answer may take. It takes microseconds; past this the program hangs.
const PATIENCE: Duration = Duration::from_secs(3);
/// How long a read waits before signals are looked at.
const MOMENT: Duration = Duration::from_millis(200);
const AT_ONCE: usize = 1 << 16;

/// The program's file, held open: what is put in its place changes nothing before relayd itself starts again.
pub struct Executable {
    file: File,
    /// What it is started with, if there is a list; every start reads it from its beginning.
    list: Option<File>,
    /// Its path, for messages.
    pub name: String,
}

impl Executable {
    /// Opens it.
    pub fn open(path: &Path) -> Result<Self, String> {
        let name = path.display().to_string();
        let open = || {
            let file = File::open(path)?;
            if !file.metadata()?.is_file() {
                return Err(io::Error::other("it is not a file"));
            }
            // The program is started by the descriptor's name, which a script in its place would still have to open.
            keep_over_exec(&file)?;
            Ok(file)
        };
        match open() {
            Ok(file) => Ok(Executable { file, list: None, name }),
            Err(error) => Err(format!("cannot open {name}: {error}")),
        }
    }

    /// It is started with this list of denied prefixes.
    pub fn with_list(mut self, lines: &[u8]) -> Result<Self, String> {
        let list = memory::file(c"denied", lines).map_err(|error| format!("cannot keep the denied prefixes in memory: {error}"))?;
        self.list = Some(list);
        Ok(self)
    }

    /// Whether it is started with a list.
    pub fn has_list(&self) -> bool {
        self.list.is_some()
    }
}

/// The name by which a program that is started finds a descriptor that was left open for it.
fn name_of(file: &File) -> String {
    format!("/proc/self/fd/{}", file.as_raw_fd())
}

/// Why there is no answer.
#[derive(Debug, PartialEq, Eq)]
pub enum Trouble {
    /// The program has ended, or hangs, or answers otherwise than `calls` does.
    Program(String),
    /// relayd was asked to end while it waited.
    Ending,
}

/// A running `calls`. Ends with its value.
pub struct Program {
    child: Child,
    stream: UnixStream,
    room: Box<[u8]>,
}

impl Program {
    /// Starts it, in a group of its own: a terminal's Ctrl-C is for relayd, which then ends the program.
    pub fn start(executable: &Executable) -> io::Result<Self> {
        let (ours, theirs) = UnixStream::pair()?;
        ours.set_read_timeout(Some(MOMENT))?;
        let input = OwnedFd::from(theirs.try_clone()?);
        let child = Command::new(name_of(&executable.file))
            .arg0("calls")
            .args(executable.list.as_ref().map(name_of))
            .stdin(Stdio::from(input))
            .stdout(Stdio::from(OwnedFd::from(theirs)))
            .process_group(0)
            .spawn()?;
        Ok(Program {
            child,
            stream: ours,
            room: vec![0; AT_ONCE].into(),
        })
    }

    /// What tells when the program ends.
    pub fn stream(&self) -> &UnixStream {
        &self.stream
    }

    /// How it has ended, if it has.
    pub fn end(&mut self) -> Option<Trouble> {
        is_hung_up(&self.stream).then(|| self.ended(&ErrorKind::UnexpectedEof.into()))
    }

    /// Puts whole lines, and the answers behind `answers` until `count` have come. Where it fails, what came is there.
    pub fn ask(&mut self, lines: &[u8], count: usize, answers: &mut Vec<u8>, watch: Watch) -> Result<(), Trouble> {
        let (mut rest, mut missing) = (lines, count);
        let mut deadline = Instant::now() + PATIENCE;
        while missing > 0 {
            if !rest.is_empty() {
                rest = &rest[self.write(rest)?..];
            }
            let came = self.read(!rest.is_empty(), answers)?;
            if came > 0 {
                missing = missing.saturating_sub(came);
                deadline = Instant::now() + PATIENCE;
            } else if watch.is_ending() {
                return Err(Trouble::Ending);
            } else if Instant::now() > deadline {
                return Err(Trouble::Program("does not answer".to_string()));
            }
        }
        Ok(())
    }

    /// Writes what fits. To a program that has ended all is written: what it said before its end is still there to be read.
    fn write(&mut self, lines: &[u8]) -> Result<usize, Trouble> {
        match send_now(&self.stream, lines) {
            Ok(sent) => Ok(sent),
            Err(error) if matches!(error.kind(), ErrorKind::WouldBlock | ErrorKind::Interrupted) => Ok(0),
            Err(error) if matches!(error.kind(), ErrorKind::BrokenPipe | ErrorKind::ConnectionReset) => Ok(lines.len()),
            Err(error) => Err(self.ended(&error)),
        }
    }

    /// Reads what is there, or waits a moment for it, and gives the number of lines that came. While there is more to write, a stream that
    /// can be written ends the wait too.
    fn read(&mut self, more_to_write: bool, answers: &mut Vec<u8>) -> Result<usize, Trouble> {
        if more_to_write {
            wait_for_either(&self.stream, 200);
            if !has_input(self.stream.as_raw_fd()) {
                return Ok(0);
            }
        }
        match self.stream.read(&mut self.room) {
            Ok(0) => Err(self.ended(&ErrorKind::UnexpectedEof.into())),
            Ok(length) => {
                let came = &self.room[..length];
                answers.extend_from_slice(came);
                Ok(count_lines(came))
            }
            Err(error) if matches!(error.kind(), ErrorKind::WouldBlock | ErrorKind::Interrupted) => Ok(0),
            Err(error) => Err(self.ended(&error)),
        }
    }

    fn ended(&mut self, error: &io::Error) -> Trouble {
        // Its output may end a moment before the process does.
        let give_up = Instant::now() + 4 * MOMENT;
        loop {
            match self.child.try_wait() {
                Ok(Some(status)) => return Trouble::Program(format!("has ended ({status})")),
                _ if Instant::now() > give_up => return Trouble::Program(format!("has ended its output ({error})")),
                _ => std::thread::sleep(Duration::from_millis(1)),
            }
        }
    }

    /// The process, for tests.
    #[cfg(test)]
    pub fn id(&self) -> u32 {
        self.child.id()
    }
}

/// How many lines end in this text. In parts short enough to be counted in bytes, many of which the compiler adds at once.
fn count_lines(text: &[u8]) -> usize {
    let ends = |part: &[u8]| part.iter().map(|&byte| u8::from(byte == b'\n')).sum::<u8>();
    text.chunks(255).map(|part| usize::from(ends(part))).sum()
}

impl Drop for Program {
    /// Its table is gone with it either way, so a program that hangs is not waited for.
    fn drop(&mut self) {
        let _ = self.stream.shutdown(Shutdown::Both);
        let _ = self.child.kill();
        let _ = self.child.wait();
    }
}

#[cfg(test)]
pub mod tests {
    use super::*;
    use std::fs;
    use std::os::unix::fs::PermissionsExt;
    use std::path::PathBuf;

    /// A program in place of `calls`: a shell script that answers each line. Removed with its value.
    pub struct Script(PathBuf);

    impl Script {
        pub fn new(name: &str, body: &str) -> Self {
            let path = std::env::temp_dir().join(format!("relayd-test-{}-{name}", std::process::id()));
            fs::write(&path, format!("#!/bin/sh\n{body}\n")).expect("a script is written");
            fs::set_permissions(&path, fs::Permissions::from_mode(0o700)).expect("and can be run");
            Script(path)
        }

        pub fn open(&self) -> Executable {
            Executable::open(&self.0).expect("it is there")
        }

        /// Puts another script in its place.
        pub fn replace(&self, body: &str) {
            fs::remove_file(&self.0).expect("it is removed");
            fs::write(&self.0, format!("#!/bin/sh\n{body}\n")).expect("another one is written");
        }
    }

    impl Drop for Script {
        fn drop(&mut self) {
            let _ = fs::remove_file(&self.0);
        }
    }

    /// Starts a program. Another test's child may still hold the file that was just written.
    fn start(executable: &Executable) -> Program {
        loop {
            match Program::start(executable) {
                Err(error) if error.kind() == ErrorKind::ExecutableFileBusy => std::thread::sleep(Duration::from_millis(5)),
                started => return started.expect("it starts"),
            }
        }
    }

    #[test]
    fn a_batch_that_fits_no_buffer_is_answered() {
        let script = Script::new("echo", "exec cat");
        let mut program = start(&script.open());
        // Either end's buffer holds some 200 KB; the program writes while it is still being written to.
        let lines = format!("{}\n", "x".repeat(999)).repeat(3000);
        let mut answers = Vec::new();
        program.ask(lines.as_bytes(), 3000, &mut answers, Watch::never()).expect("all come");
        assert_eq!(answers, lines.as_bytes());
    }

    #[test]
    fn lines_are_counted() {
        assert_eq!(count_lines(b""), 0);
        assert_eq!(count_lines(b"D\nE\nS"), 2);
        assert_eq!(count_lines(&[b'\n'; 1000]), 1000);
    }

    #[test]
    fn a_program_that_ends_is_told_with_its_status() {
        let script = Script::new("ends", "read line; echo D; read line; exit 3");
        let mut program = start(&script.open());
        let mut answers = Vec::new();
        assert_eq!(program.end(), None);
        let trouble = program.ask(b"one\ntwo\n", 2, &mut answers, Watch::never());
        assert_eq!(trouble, Err(Trouble::Program("has ended (exit status: 3)".to_string())));
        assert_eq!(program.end(), trouble.err());
        assert_eq!(answers, b"D\n");
    }

    #[test]
    fn what_a_program_said_before_its_end_is_read() {
        let script = Script::new("brief", "echo E");
        let mut program = start(&script.open());
        program.child.wait().expect("it ends");
        let mut answers = Vec::new();
        program.ask(b"one\n", 1, &mut answers, Watch::never()).expect("its answer");
        assert_eq!(answers, b"E\n");
        assert!(program.ask(b"two\n", 1, &mut answers, Watch::never()).is_err());
    }

    #[test]
    fn every_start_has_the_whole_list() {
        let script = Script::new("list", "echo $#; cat $1");
        let executable = script.open().with_list(b"0a000000\t8\n").expect("a list");
        for _ in 0..2 {
            let mut answers = Vec::new();
            start(&executable).ask(b"", 2, &mut answers, Watch::never()).expect("it answers");
            assert_eq!(answers, b"1\n0a000000\t8\n");
        }
        let (executable, mut answers) = (Script::new("no-list", "echo $#").open(), Vec::new());
        start(&executable).ask(b"", 1, &mut answers, Watch::never()).expect("it answers");
        assert_eq!(answers, b"0\n");
    }

    #[test]
    fn what_is_put_in_its_place_is_not_started() {
        let script = Script::new("held", "echo old");
        let executable = script.open();
        script.replace("echo new");
        let mut answers = Vec::new();
        start(&executable).ask(b"", 1, &mut answers, Watch::never()).expect("it answers");
        assert_eq!(answers, b"old\n");
    }
}
