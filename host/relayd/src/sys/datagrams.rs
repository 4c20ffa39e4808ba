//! Many datagrams with one system call: `recvmmsg` and `sendmmsg`.

use super::checked;
use std::ffi::{c_int, c_uint, c_void};
use std::io;
use std::net::{Ipv4Addr, Ipv6Addr, SocketAddr, SocketAddrV4, SocketAddrV6};
use std::ops::Range;
use std::os::fd::AsRawFd;
use std::ptr;

/// How many datagrams are taken or sent at once.
pub const BATCH: usize = 64;
/// Room for a datagram: document 01 takes up to 1,500 bytes. Of a longer one the beginning is kept, and its length is told.
const ROOM: usize = 1536;

const NEVER_WAIT: c_int = 0x40;
const TELL_WHOLE_LENGTH: c_int = 0x20;
const FAMILY_IPV4: u16 = 2;
const FAMILY_IPV6: u16 = 10;

/// `struct sockaddr_in` or `struct sockaddr_in6`, which is 28 bytes long.
#[repr(C, align(4))]
#[derive(Clone, Copy, Default)]
struct Name([u8; 28]);

/// `struct iovec`.
#[repr(C)]
struct Part {
    base: *mut c_void,
    length: usize,
}

/// `struct msghdr`.
#[repr(C)]
struct Envelope {
    name: *mut c_void,
    name_length: c_uint,
    parts: *mut Part,
    part_count: usize,
    control: *mut c_void,
    control_length: usize,
    flags: c_int,
}

/// `struct mmsghdr`.
#[repr(C)]
struct Header {
    envelope: Envelope,
    length: c_uint,
}

unsafe extern "C" {
    fn recvmmsg(fd: c_int, headers: *mut Header, count: c_uint, flags: c_int, timeout: *mut c_void) -> c_int;
    fn sendmmsg(fd: c_int, headers: *mut Header, count: c_uint, flags: c_int) -> c_int;
}

impl Name {
    fn of(address: SocketAddr) -> (Self, c_uint) {
        let mut name = Name::default();
        name.0[2..4].copy_from_slice(&address.port().to_be_bytes());
        match address {
            SocketAddr::V4(address) => {
                name.0[..2].copy_from_slice(&FAMILY_IPV4.to_ne_bytes());
                name.0[4..8].copy_from_slice(&address.ip().octets());
                (name, 16)
            }
            SocketAddr::V6(address) => {
                name.0[..2].copy_from_slice(&FAMILY_IPV6.to_ne_bytes());
                name.0[8..24].copy_from_slice(&address.ip().octets());
                name.0[24..].copy_from_slice(&address.scope_id().to_ne_bytes());
                (name, 28)
            }
        }
    }

    /// The address, if it is of one of the two families.
    fn address(&self) -> Option<SocketAddr> {
        let (head, rest) = self.0.split_at(4);
        let port = u16::from_be_bytes([head[2], head[3]]);
        match u16::from_ne_bytes([head[0], head[1]]) {
            FAMILY_IPV4 => {
                let octets: [u8; 4] = rest[..4].try_into().ok()?;
                Some(SocketAddrV4::new(Ipv4Addr::from(octets), port).into())
            }
            FAMILY_IPV6 => {
                let octets: [u8; 16] = rest[4..20].try_into().ok()?;
                let scope = u32::from_ne_bytes(rest[20..].try_into().ok()?);
                Some(SocketAddrV6::new(Ipv6Addr::from(octets), port, 0, scope).into())
            }
            _ => None,
        }
    }
}

fn header(name: &mut Name, name_length: c_uint, part: &mut Part) -> Header {
    let envelope = Envelope {
        name: ptr::from_mut(name).cast(),
        name_length,
        parts: ptr::from_mut(part),
        part_count: 1,
        control: ptr::null_mut(),
        control_length: 0,
        flags: 0,
    };
    Header { envelope, length: 0 }
}

/// A datagram that has come.
pub struct Received {
    /// The socket that it came by, as the caller names it.
    pub door: usize,
    /// Who sent it.
    pub from: SocketAddr,
    /// Its whole length.
    pub length: usize,
    place: usize,
}

/// Datagrams that have come, by one or more sockets, up to a batch.
pub struct Inbox {
    room: Vec<[u8; ROOM]>,
    names: Vec<Name>,
    taken: usize,
    received: Vec<Received>,
    /// How many are asked for at once: where one came, it is not worth while to make ready for a whole batch.
    expected: usize,
}

impl Inbox {
    /// An empty one.
    pub fn new() -> Self {
        Inbox {
            room: vec![[0; ROOM]; BATCH],
            names: vec![Name::default(); BATCH],
            taken: 0,
            received: Vec::with_capacity(BATCH),
            expected: BATCH,
        }
    }

    /// Whether there is no room left.
    pub fn is_full(&self) -> bool {
        self.taken == BATCH
    }

    /// Forgets all.
    pub fn clear(&mut self) {
        self.taken = 0;
        self.received.clear();
    }

    /// What has come, in order.
    pub fn received(&self) -> &[Received] {
        &self.received
    }

    /// The bytes of a datagram, or its beginning if it is over 1,536 bytes.
    pub fn bytes(&self, received: &Received) -> &[u8] {
        &self.room[received.place][..received.length.min(ROOM)]
    }

    /// Takes what is at the socket, as far as there is room.
    pub fn receive(&mut self, socket: &impl AsRawFd, door: usize) -> io::Result<()> {
        let begin = self.taken;
        let end = BATCH.min(begin + self.expected);
        let mut parts: Vec<Part> = (self.room[begin..end].iter_mut())
            .map(|room| Part {
                base: room.as_mut_ptr().cast(),
                length: ROOM,
            })
            .collect();
        let mut headers: Vec<Header> = (self.names[begin..end].iter_mut().zip(&mut parts))
            .map(|(name, part)| header(name, 28, part))
            .collect();
        let count = c_uint::try_from(headers.len()).unwrap_or(0);
        let flags = NEVER_WAIT | TELL_WHOLE_LENGTH;
        // SAFETY: each header points at one live name and part, each part at its own live room, and the count is that of the headers.
        let taken = checked(unsafe { recvmmsg(socket.as_raw_fd(), headers.as_mut_ptr(), count, flags, ptr::null_mut()) });
        let taken = match taken {
            Err(error) if error.kind() == io::ErrorKind::WouldBlock => return Ok(()),
            taken => usize::try_from(taken?).unwrap_or(0),
        };
        let lengths: Vec<u32> = headers[..taken].iter().map(|header| header.length).collect();
        self.taken += taken;
        self.expected = (2 * taken).clamp(4, BATCH);
        for (place, length) in (begin..).zip(lengths) {
            if let Some(from) = self.names[place].address() {
                let length = usize::try_from(length).unwrap_or(ROOM);
                self.received.push(Received { door, from, length, place });
            }
        }
        Ok(())
    }
}

/// Sends these, in order, from one socket, and gives for each that failed its place and why. Never waits.
pub fn send(socket: &impl AsRawFd, bytes: &[u8], messages: &[(SocketAddr, Range<usize>)], mut failed: impl FnMut(usize, io::Error)) {
    let mut names: Vec<(Name, c_uint)> = messages.iter().map(|(to, _)| Name::of(*to)).collect();
    let mut parts: Vec<Part> = (messages.iter())
        .map(|(_, range)| Part {
            // The kernel only reads what is sent.
            base: bytes[range.clone()].as_ptr().cast_mut().cast(),
            length: range.len(),
        })
        .collect();
    let mut headers: Vec<Header> = (names.iter_mut().zip(&mut parts))
        .map(|((name, length), part)| header(name, *length, part))
        .collect();
    let mut begin = 0;
    while begin < headers.len() {
        let rest = &mut headers[begin..];
        let count = c_uint::try_from(rest.len()).unwrap_or(0);
        // SAFETY: each header points at one live name and part, each part at live bytes, and the count is that of the headers.
        match checked(unsafe { sendmmsg(socket.as_raw_fd(), rest.as_mut_ptr(), count, NEVER_WAIT) }) {
            Ok(sent) => begin += usize::try_from(sent).unwrap_or(0).max(1),
            Err(error) if error.kind() == io::ErrorKind::Interrupted => {}
            Err(error) => {
                failed(begin, error);
                begin += 1;
            }
        }
    }
}

#[cfg(test)]
mod tests {
    use super::*;
    use std::net::UdpSocket;

    #[test]
    fn a_batch_goes_out_and_comes_in() {
        let bind = |address: &str| UdpSocket::bind(address).expect("a socket");
        // Some machines have no IPv6.
        let has_ipv6 = UdpSocket::bind("[::1]:0").is_ok();
        for one in ["127.0.0.1:0", "[::1]:0"].into_iter().take(1 + usize::from(has_ipv6)) {
            let (from, to) = (bind(one), bind(one));
            let address = to.local_addr().expect("its address");
            let bytes = [b'x'; 2000];
            let messages = [
                (address, 0..3),
                (SocketAddr::from(([0, 0, 0, 0], 0)), 0..1),
                (address, 0..0),
                (address, 0..2000),
            ];
            let mut failures = Vec::new();
            send(&from, &bytes, &messages, |place, _| failures.push(place));
            assert_eq!(failures, [1], "{one}");
            let mut inbox = Inbox::new();
            inbox.receive(&to, 7).expect("they come");
            inbox.receive(&to, 8).expect("no more comes");
            let lengths: Vec<usize> = inbox.received().iter().map(|received| received.length).collect();
            assert_eq!(lengths, [3, 0, 2000]);
            let first = &inbox.received()[0];
            assert_eq!((first.door, first.from), (7, from.local_addr().expect("its address")));
            assert_eq!(inbox.bytes(first), b"xxx");
            assert_eq!(inbox.bytes(&inbox.received()[2]).len(), ROOM);
        }
    }

    #[test]
    fn no_more_than_a_batch_is_taken() {
        let to = UdpSocket::bind("127.0.0.1:0").expect("a socket");
        let from = UdpSocket::bind("127.0.0.1:0").expect("a socket");
        for _ in 0..=BATCH {
            from.send_to(b"x", to.local_addr().expect("its address")).expect("it is sent");
        }
        let mut inbox = Inbox::new();
        inbox.receive(&to, 0).expect("they come");
        assert!(inbox.is_full() && inbox.received().len() == BATCH);
        inbox.clear();
        inbox.receive(&to, 0).expect("the last comes");
        assert_eq!(inbox.received().len(), 1);
    }

    #[test]
    fn no_datagram_is_left_where_more_come_than_last_time() {
        let to = UdpSocket::bind("127.0.0.1:0").expect("a socket");
        let from = UdpSocket::bind("127.0.0.1:0").expect("a socket");
        let mut inbox = Inbox::new();
        for burst in [1u8, 30] {
            for place in 0..burst {
                from.send_to(&[place], to.local_addr().expect("its address")).expect("it is sent");
            }
            inbox.clear();
            while inbox.received().len() < usize::from(burst) {
                let before = inbox.received().len();
                inbox.receive(&to, 0).expect("some come");
                assert!(inbox.received().len() > before);
            }
            let places: Vec<u8> = inbox.received().iter().map(|received| inbox.bytes(received)[0]).collect();
            assert_eq!(places, (0..burst).collect::<Vec<_>>());
        }
    }
}
