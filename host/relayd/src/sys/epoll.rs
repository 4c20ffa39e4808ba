//! Waiting for many descriptors at a cost that does not grow with their number.

use super::checked;
use std::ffi::c_int;
use std::io;
use std::os::fd::{AsRawFd, FromRawFd, OwnedFd};
use std::time::Duration;

const CLOSE_ON_EXEC: c_int = 0o2_000_000;
const ADD: c_int = 1;
const INPUT: u32 = 1;
/// How many ready descriptors one wait tells; the others are told by the next one.
const AT_ONCE: c_int = 64;

/// `struct epoll_event`, which is packed on x86-64 alone.
#[repr(C)]
#[cfg_attr(target_arch = "x86_64", repr(packed))]
#[derive(Clone, Copy)]
struct Event {
    events: u32,
    token: u64,
}

unsafe extern "C" {
    fn epoll_create1(flags: c_int) -> c_int;
    fn epoll_ctl(epoll: c_int, operation: c_int, fd: c_int, event: *mut Event) -> c_int;
    fn epoll_wait(epoll: c_int, events: *mut Event, count: c_int, timeout: c_int) -> c_int;
}

/// A set of descriptors, each with a token.
pub struct Epoll {
    epoll: OwnedFd,
    events: [Event; AT_ONCE as usize],
}

impl Epoll {
    /// An empty set.
    pub fn new() -> io::Result<Self> {
        // SAFETY: the call takes a number alone, and the descriptor that it gives is nobody else's.
        let epoll = unsafe { OwnedFd::from_raw_fd(checked(epoll_create1(CLOSE_ON_EXEC))?) };
        let events = [Event { events: 0, token: 0 }; AT_ONCE as usize];
        Ok(Epoll { epoll, events })
    }

    /// Tells `token` as long as this descriptor has input, or has ended.
    pub fn add(&self, fd: &impl AsRawFd, token: u64) -> io::Result<()> {
        self.add_for(INPUT, fd, token)
    }

    /// Tells `token` when the other end of this stream is gone, and nothing of what it sends.
    pub fn add_end(&self, fd: &impl AsRawFd, token: u64) -> io::Result<()> {
        self.add_for(0, fd, token)
    }

    fn add_for(&self, events: u32, fd: &impl AsRawFd, token: u64) -> io::Result<()> {
        let mut event = Event { events, token };
        // SAFETY: the event outlives the call.
        checked(unsafe { epoll_ctl(self.epoll.as_raw_fd(), ADD, fd.as_raw_fd(), &raw mut event) }).map(drop)
    }

    /// Waits no longer than `patience`, and puts the tokens of what is ready into `ready`.
    pub fn wait(&mut self, patience: Duration, ready: &mut Vec<u64>) -> io::Result<()> {
        ready.clear();
        let milliseconds = c_int::try_from(patience.as_micros().div_ceil(1000)).unwrap_or(c_int::MAX);
        // SAFETY: the pointer and the count are those of one live array of `struct epoll_event`.
        let told = unsafe { epoll_wait(self.epoll.as_raw_fd(), self.events.as_mut_ptr(), AT_ONCE, milliseconds) };
        match checked(told) {
            Ok(count) => ready.extend(
                self.events
                    .iter()
                    .take(usize::try_from(count).unwrap_or(0))
                    .map(|event| event.token),
            ),
            Err(error) if error.kind() == io::ErrorKind::Interrupted => {}
            Err(error) => return Err(error),
        }
        Ok(())
    }
}

#[cfg(test)]
mod tests {
    use super::*;
    use std::io::Write;
    use std::os::unix::net::UnixStream;

    #[test]
    fn says_which_is_ready() {
        let (a, to_a) = UnixStream::pair().expect("a pair");
        let (b, mut to_b) = UnixStream::pair().expect("a pair");
        let (c, mut to_c) = UnixStream::pair().expect("a pair");
        let mut epoll = Epoll::new().expect("a set");
        epoll.add(&a, 5).expect("it is added");
        epoll.add(&b, 6).expect("it is added");
        epoll.add_end(&c, 7).expect("it is added");
        to_b.write_all(b"x").expect("a byte is written");
        to_c.write_all(b"x").expect("a byte is written");
        let mut ready = vec![9];
        epoll.wait(Duration::from_secs(10), &mut ready).expect("the wait ends");
        assert_eq!(ready, [6]);
        drop((b, to_a, to_c));
        epoll.wait(Duration::from_secs(10), &mut ready).expect("the wait ends");
        ready.sort_unstable();
        assert_eq!(ready, [5, 7]);
    }
}
