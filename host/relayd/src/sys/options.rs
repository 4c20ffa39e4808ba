//! Options of sockets and descriptors.

use super::checked;
use std::ffi::{c_int, c_short, c_ulong, c_void};
use std::io;
use std::net::Ipv4Addr;
use std::os::fd::{AsRawFd, RawFd};

const SOCKET: c_int = 1;
const SEND_BUFFER: c_int = 7;
const RECEIVE_BUFFER: c_int = 8;
const ATTACH_FILTER: c_int = 26;
const DETACH_FILTER: c_int = 27;
const SEND_BUFFER_BY_FORCE: c_int = 32;
const RECEIVE_BUFFER_BY_FORCE: c_int = 33;
const MEMORY: c_int = 55;
/// Where `SO_MEMINFO`'s numbers have the datagrams that were dropped.
const DROPS: usize = 8;
const NEVER_WAIT: c_int = 0x40;
const NO_SIGNAL: c_int = 0x4000;
const INPUT: c_short = 1;
const OUTPUT: c_short = 4;
const HUNG_UP: c_short = 0x10;
const SET_DESCRIPTOR_FLAGS: c_int = 2;

/// `struct pollfd`.
#[repr(C)]
struct PollEntry {
    fd: c_int,
    events: c_short,
    told: c_short,
}

/// `struct sock_filter`: an instruction of the kernel's packet filter.
#[repr(C)]
struct Instruction {
    code: u16,
    if_true: u8,
    if_false: u8,
    value: u32,
}

/// `struct sock_fprog`.
#[repr(C)]
struct Filter {
    length: u16,
    instructions: *const Instruction,
}

unsafe extern "C" {
    fn getsockopt(fd: c_int, level: c_int, name: c_int, value: *mut c_void, length: *mut u32) -> c_int;
    fn setsockopt(fd: c_int, level: c_int, name: c_int, value: *const c_void, length: u32) -> c_int;
    fn poll(entries: *mut PollEntry, count: c_ulong, timeout: c_int) -> c_int;
    fn send(fd: c_int, from: *const c_void, length: usize, flags: c_int) -> isize;
    fn fcntl(fd: c_int, command: c_int, value: c_int) -> c_int;
}

fn set<T>(fd: &impl AsRawFd, name: c_int, value: &T) -> io::Result<()> {
    let length = u32::try_from(size_of::<T>()).unwrap_or(0);
    // SAFETY: the pointer and the length are those of one live value.
    checked(unsafe { setsockopt(fd.as_raw_fd(), SOCKET, name, std::ptr::from_ref(value).cast(), length) }).map(drop)
}

fn get<const N: usize>(fd: &impl AsRawFd, name: c_int) -> io::Result<[u32; N]> {
    let mut value = [0u32; N];
    let mut length = u32::try_from(4 * N).unwrap_or(0);
    // SAFETY: the pointer and the length are those of one live array; the kernel writes no more than that.
    checked(unsafe { getsockopt(fd.as_raw_fd(), SOCKET, name, value.as_mut_ptr().cast(), &raw mut length) })?;
    Ok(value)
}

/// Asks for receive and send buffers of this many bytes, by force where that is allowed, and gives what was granted for receiving.
pub fn ask_for_buffers(socket: &impl AsRawFd, bytes: u32) -> io::Result<u32> {
    for (by_force, by_asking) in [(RECEIVE_BUFFER_BY_FORCE, RECEIVE_BUFFER), (SEND_BUFFER_BY_FORCE, SEND_BUFFER)] {
        set(socket, by_force, &bytes).or_else(|_| set(socket, by_asking, &bytes))?;
    }
    // The kernel keeps and tells twice the number, for its own records beside the data.
    let [granted] = get(socket, RECEIVE_BUFFER)?;
    Ok(granted / 2)
}

/// How many datagrams the kernel has dropped at this socket: by its filter, or for want of room.
pub fn dropped(socket: &impl AsRawFd) -> io::Result<u32> {
    get::<9>(socket, MEMORY).map(|numbers| numbers[DROPS])
}

/// Lets the kernel drop what comes to this IPv4 socket from any source but these, before it wakes anybody.
pub fn let_in_only(socket: &impl AsRawFd, sources: &[Ipv4Addr]) -> io::Result<()> {
    const LOAD_WORD: u16 = 0x20;
    const SOURCE_ADDRESS: u32 = 0xfff0_0000 + 12;
    const JUMP_IF_EQUAL: u16 = 0x15;
    const RETURN: u16 = 0x06;
    let instruction = |code, if_true, value| Instruction {
        code,
        if_true,
        if_false: 0,
        value,
    };
    let count = sources.len();
    let mut program = vec![instruction(LOAD_WORD, 0, SOURCE_ADDRESS)];
    for (place, source) in sources.iter().enumerate() {
        let to_the_end = u8::try_from(count - place).map_err(io::Error::other)?;
        program.push(instruction(JUMP_IF_EQUAL, to_the_end, source.to_bits()));
    }
    program.push(instruction(RETURN, 0, 0));
    program.push(instruction(RETURN, 0, u32::MAX));
    let filter = Filter {
        length: u16::try_from(program.len()).map_err(io::Error::other)?,
        instructions: program.as_ptr(),
    };
    set(socket, ATTACH_FILTER, &filter)
}

/// Takes the filter away.
pub fn let_in_all(socket: &impl AsRawFd) -> io::Result<()> {
    set(socket, DETACH_FILTER, &0)
}

/// Sends what fits at once on a stream, and never waits.
pub fn send_now(stream: &impl AsRawFd, bytes: &[u8]) -> io::Result<usize> {
    // SAFETY: the pointer and the length are those of one live slice.
    let sent = unsafe { send(stream.as_raw_fd(), bytes.as_ptr().cast(), bytes.len(), NEVER_WAIT | NO_SIGNAL) };
    usize::try_from(sent).map_err(|_| io::Error::last_os_error())
}

fn waited_for(fd: RawFd, events: c_short, milliseconds: c_int) -> c_short {
    let mut entry = PollEntry { fd, events, told: 0 };
    // SAFETY: the pointer is that of one live entry.
    match unsafe { poll(&raw mut entry, 1, milliseconds) } {
        1 => entry.told,
        _ => 0,
    }
}

/// Whether this descriptor has input now.
pub fn has_input(fd: RawFd) -> bool {
    waited_for(fd, INPUT, 0) & INPUT != 0
}

/// Whether the other end of this stream is gone.
pub fn is_hung_up(stream: &impl AsRawFd) -> bool {
    waited_for(stream.as_raw_fd(), 0, 0) & HUNG_UP != 0
}

/// Whether a write of up to 4,096 bytes to this descriptor would not wait. An error counts: the write tells it.
pub fn takes_output(fd: &impl AsRawFd) -> bool {
    waited_for(fd.as_raw_fd(), OUTPUT, 0) != 0
}

/// Waits until this stream can be read or written, or for so long.
pub fn wait_for_either(stream: &impl AsRawFd, milliseconds: u16) {
    waited_for(stream.as_raw_fd(), INPUT | OUTPUT, milliseconds.into());
}

/// Leaves this descriptor open in programs that are started from it.
pub fn keep_over_exec(fd: &impl AsRawFd) -> io::Result<()> {
    // SAFETY: the call takes numbers alone.
    checked(unsafe { fcntl(fd.as_raw_fd(), SET_DESCRIPTOR_FLAGS, 0) }).map(drop)
}

#[cfg(test)]
mod tests {
    use super::*;
    use std::net::UdpSocket;

    fn pair() -> (UdpSocket, UdpSocket) {
        let bind = |address: &str| UdpSocket::bind(address).expect("a socket");
        let (from, to) = (bind("127.0.0.2:0"), bind("127.0.0.1:0"));
        from.connect(to.local_addr().expect("its address")).expect("it connects");
        to.set_nonblocking(true).expect("it never waits");
        (from, to)
    }

    #[test]
    fn the_filter_lets_in_what_is_named_and_counts_the_rest() {
        let (from, to) = pair();
        let mut room = [0; 4];
        for (sources, comes) in [(&["127.0.0.9", "127.0.0.2"][..], true), (&["127.0.0.9"], false), (&[], false)] {
            let sources: Vec<Ipv4Addr> = sources.iter().map(|word| word.parse().expect("an address")).collect();
            let_in_only(&to, &sources).expect("a filter");
            let before = dropped(&to).expect("a count");
            from.send(b"x").expect("it is sent");
            // On loopback a datagram is there, or dropped, when the send is over.
            assert_eq!(to.recv(&mut room).is_ok(), comes, "{sources:?}");
            assert_eq!(dropped(&to).expect("a count") - before, u32::from(!comes));
        }
        let_in_all(&to).expect("no filter");
        from.send(b"x").expect("it is sent");
        assert!(to.recv(&mut room).is_ok());
    }

    #[test]
    fn buffers_grow() {
        let (_, to) = pair();
        // So much is granted to everybody where the limit is Linux's own.
        assert_eq!(ask_for_buffers(&to, 100_000).expect("an answer"), 100_000);
    }
}
