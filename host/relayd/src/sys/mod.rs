//! The system calls that std does not have in a form that relayd can use. All unsafe code is in this folder.
#![allow(unsafe_code)]

pub mod datagrams;
pub mod epoll;
pub mod memory;
pub mod options;
pub mod signals;

use std::ffi::c_int;
use std::io;

/// What a system call gave, or why it failed.
fn checked(result: c_int) -> io::Result<c_int> {
    if result < 0 { Err(io::Error::last_os_error()) } else { Ok(result) }
}
