//! A file in memory that has no name: it needs no folder that can be written, no other user can open it, and it is gone with the process.

use super::checked;
use std::ffi::{CStr, c_char, c_int, c_uint};
use std::fs::File;
use std::io::{self, Write};
use std::os::fd::FromRawFd;

/// Some kernels make no such file unless it can never be executed; older ones do not know the flag.
const NEVER_EXECUTED: c_uint = 8;

unsafe extern "C" {
    fn memfd_create(name: *const c_char, flags: c_uint) -> c_int;
}

/// Such a file with this text. It stays open in programs that are started, and `name` is what the kernel shows of it.
pub fn file(name: &CStr, text: &[u8]) -> io::Result<File> {
    let mut file = create(name, NEVER_EXECUTED).or_else(|_| create(name, 0))?;
    file.write_all(text)?;
    Ok(file)
}

fn create(name: &CStr, flags: c_uint) -> io::Result<File> {
    // SAFETY: the name ends in a zero and outlives the call; the descriptor that the call gives is nobody else's.
    unsafe { Ok(File::from_raw_fd(checked(memfd_create(name.as_ptr(), flags))?)) }
}

#[cfg(test)]
mod tests {
    use super::*;
    use std::os::fd::AsRawFd;

    #[test]
    fn every_reader_begins_at_its_beginning() {
        let made = file(c"test", b"some text").expect("it is made");
        for _ in 0..2 {
            let read = std::fs::read(format!("/proc/self/fd/{}", made.as_raw_fd())).expect("it is read");
            assert_eq!(read, b"some text");
        }
    }
}
