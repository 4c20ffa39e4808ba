//! Signals as input that can be waited for. They are blocked and read from descriptors, so the kernel's own mask of pending signals keeps
//! each until it is read, no handler runs in between, and no other signal can push SIGTERM out.

use super::checked;
use std::ffi::c_int;
use std::fs::File;
use std::io::{self, Read};
use std::os::fd::{AsRawFd, FromRawFd, RawFd};

/// Read the users' file again and open the log again.
pub const SIGHUP: c_int = 1;
const SIGINT: c_int = 2;
/// Write the status.
pub const SIGUSR1: c_int = 10;
/// Put the clock forward, for tests.
pub const SIGUSR2: c_int = 12;
const SIGTERM: c_int = 15;

const BLOCK: c_int = 0;
const NEVER_WAIT: c_int = 0o4000;
const CLOSE_ON_EXEC: c_int = 0o2_000_000;
/// The length of `struct signalfd_siginfo`, whose first four bytes are the number.
const RECORD: usize = 128;

/// `sigset_t`.
#[repr(C)]
struct Set([u64; 16]);

unsafe extern "C" {
    fn sigemptyset(set: *mut Set) -> c_int;
    fn sigaddset(set: *mut Set, number: c_int) -> c_int;
    fn pthread_sigmask(how: c_int, set: *const Set, old: *mut Set) -> c_int;
    fn signalfd(fd: c_int, set: *const Set, flags: c_int) -> c_int;
}

/// A descriptor from which these signals are read.
fn open(numbers: &[c_int]) -> io::Result<File> {
    let mut set = Set([0; 16]);
    // SAFETY: the set outlives the calls and is as large as `sigset_t`; the descriptor that `signalfd` gives is nobody else's.
    unsafe {
        checked(sigemptyset(&raw mut set))?;
        for &number in numbers {
            checked(sigaddset(&raw mut set, number))?;
        }
        if pthread_sigmask(BLOCK, &raw const set, std::ptr::null_mut()) != 0 {
            return Err(io::Error::other("the signals can't be blocked"));
        }
        Ok(File::from_raw_fd(checked(signalfd(
            -1,
            &raw const set,
            NEVER_WAIT | CLOSE_ON_EXEC,
        ))?))
    }
}

/// The signals that relayd listens to. A child process starts without the block: std clears it.
pub struct Signals {
    ending: File,
    others: File,
}

impl Signals {
    /// Takes them over.
    pub fn take() -> io::Result<Self> {
        Ok(Signals {
            ending: open(&[SIGINT, SIGTERM])?,
            others: open(&[SIGHUP, SIGUSR1, SIGUSR2])?,
        })
    }

    /// What has SIGTERM and SIGINT.
    pub fn ending(&self) -> &impl AsRawFd {
        &self.ending
    }

    /// What has the others.
    pub fn others(&self) -> &impl AsRawFd {
        &self.others
    }

    /// Says whether relayd is asked to end; may be asked while it waits for something else.
    pub fn watch(&self) -> Watch {
        Watch(self.ending.as_raw_fd())
    }

    /// The next of the others, if one has come.
    pub fn next(&mut self) -> Option<c_int> {
        let mut record = [0; RECORD];
        self.others.read_exact(&mut record).ok()?;
        c_int::try_from(u32::from_ne_bytes([record[0], record[1], record[2], record[3]])).ok()
    }
}

/// Whether SIGTERM or SIGINT has come. `Signals` lives as long as the program.
#[derive(Clone, Copy)]
pub struct Watch(RawFd);

impl Watch {
    /// Asks, and takes nothing away.
    pub fn is_ending(self) -> bool {
        super::options::has_input(self.0)
    }

    /// For tests: never ends.
    #[cfg(test)]
    pub fn never() -> Self {
        Watch(-1)
    }
}

#[cfg(test)]
mod tests {
    use super::*;

    unsafe extern "C" {
        fn pthread_self() -> usize;
        fn pthread_kill(thread: usize, number: c_int) -> c_int;
    }

    fn raise(number: c_int) {
        // SAFETY: a signal to the thread that runs this, which has blocked it.
        assert_eq!(unsafe { pthread_kill(pthread_self(), number) }, 0);
    }

    #[test]
    fn sigterm_is_not_lost_behind_a_thousand_others() {
        let mut signals = Signals::take().expect("they are taken");
        for _ in 0..1000 {
            raise(SIGUSR1);
            raise(SIGHUP);
        }
        assert!(!signals.watch().is_ending());
        raise(SIGTERM);
        raise(SIGUSR2);
        assert!(signals.watch().is_ending() && signals.watch().is_ending());
        let mut seen = Vec::new();
        while let Some(number) = signals.next() {
            seen.push(number);
        }
        seen.sort_unstable();
        assert_eq!(seen, [SIGHUP, SIGUSR1, SIGUSR2]);
    }
}
