//! Text that goes out without ever making the relay wait. What a reader does not take is held back up to a bound; past it lines are lost,
//! counted, and told when there is room again.

use crate::sys::options::takes_output;
use std::fs::File;
use std::io::{self, ErrorKind, Write};
use std::os::fd::{AsFd, OwnedFd};
use std::os::unix::fs::OpenOptionsExt;
use std::path::Path;
use std::sync::{Mutex, PoisonError};

/// How much is held back.
const HELD: usize = 1 << 18;
/// A pipe that is ready takes so much without waiting.
const AT_ONCE: usize = 4096;
/// `O_NONBLOCK`.
const NEVER_WAIT: i32 = 0o4000;

/// A file, a pipe or a terminal, and what is still to be written to it.
pub struct Output {
    target: File,
    held: Vec<u8>,
    lost: u64,
}

impl Output {
    /// To something open.
    pub fn to(target: File) -> Self {
        Output {
            target,
            held: Vec::new(),
            lost: 0,
        }
    }

    /// To the end of a file. A named pipe that nobody reads is an error and no wait.
    pub fn append(path: &Path) -> io::Result<Self> {
        let mut options = File::options();
        options.create(true).append(true).custom_flags(NEVER_WAIT);
        options.open(path).map(Output::to)
    }

    /// To standard output or standard error.
    pub fn standard(stream: &impl AsFd) -> io::Result<Self> {
        let copy: OwnedFd = stream.as_fd().try_clone_to_owned()?;
        Ok(Output::to(copy.into()))
    }

    /// Adds whole lines, or counts them as lost.
    pub fn put(&mut self, text: &str) {
        // Once lines are lost, half of what is held has to be read before there are new ones: few gaps, and each told with its length.
        let room = if self.lost > 0 { HELD / 2 } else { HELD };
        if self.held.len() + text.len() > room {
            self.lost += count_lines(text.as_bytes());
            return;
        }
        if self.lost > 0 {
            self.held.extend(format!("{} lines lost\n", self.lost).bytes());
            self.lost = 0;
        }
        self.held.extend_from_slice(text.as_bytes());
    }

    /// Writes what can be written at once.
    pub fn flush(&mut self) {
        let mut written = 0;
        while written < self.held.len() && takes_output(&self.target) {
            let end = self.held.len().min(written + AT_ONCE);
            match self.target.write(&self.held[written..end]) {
                Ok(count) => written += count,
                Err(error) if matches!(error.kind(), ErrorKind::WouldBlock | ErrorKind::Interrupted) => break,
                Err(_) => {
                    self.lost += count_lines(&self.held[written..]);
                    written = self.held.len();
                }
            }
        }
        self.held.drain(..written);
    }
}

fn count_lines(text: &[u8]) -> u64 {
    text.iter().map(|&byte| u64::from(byte == b'\n')).sum()
}

/// Standard error, which the log may share.
static STANDARD_ERROR: Mutex<Option<Output>> = Mutex::new(None);

/// Adds whole lines to standard error and writes what can be written. A closed standard error is no reason to end.
pub fn to_standard_error(text: &str) {
    let mut held = STANDARD_ERROR.lock().unwrap_or_else(PoisonError::into_inner);
    if held.is_none() {
        *held = Output::standard(&io::stderr()).ok();
    }
    if let Some(output) = &mut *held {
        output.put(text);
        output.flush();
    }
}

#[cfg(test)]
mod tests {
    use super::*;
    use std::io::Read;
    use std::os::unix::net::UnixStream;

    /// What an output writes to, and what reads it.
    fn pipe() -> (Output, UnixStream) {
        let (reader, writer) = UnixStream::pair().expect("a pair");
        (Output::to(OwnedFd::from(writer).into()), reader)
    }

    #[test]
    fn an_unread_pipe_loses_lines_and_tells_how_many() {
        let (mut output, mut reader) = pipe();
        let line = format!("{}\n", "x".repeat(999));
        // The stream holds some and the output 256 KiB: of 2,000 lines some are lost, and nothing waits.
        for _ in 0..2000 {
            output.put(&line);
            output.flush();
        }
        let lost = output.lost;
        let kept = usize::try_from(2000 - lost).expect("a small number");
        assert!((262..2000).contains(&kept), "{kept}");
        let mut text = String::new();
        let mut room = [0; 4096];
        while text.len() < 1000 * kept {
            let count = reader.read(&mut room).expect("it is read");
            text.push_str(std::str::from_utf8(&room[..count]).expect("text"));
            output.flush();
        }
        assert_eq!(text, line.repeat(kept));
        output.put("the next\n");
        output.flush();
        let count = reader.read(&mut room).expect("it is read");
        assert_eq!(&room[..count], format!("{lost} lines lost\nthe next\n").as_bytes());
    }

    #[test]
    fn a_closed_pipe_is_no_trouble() {
        let (mut output, reader) = pipe();
        drop(reader);
        output.put("one\ntwo\n");
        output.flush();
        assert_eq!((output.lost, output.held.len()), (2, 0));
    }
}
