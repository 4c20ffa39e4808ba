//! The sockets: the server's one or two, and one for each relay port.

use crate::filter::LetIn;
use crate::ledger::{FIRST_PORT, PORTS, place};
use crate::sys::options::{ask_for_buffers, dropped, let_in_all, let_in_only};
use std::io;
use std::net::{Ipv4Addr, SocketAddr, SocketAddrV6, UdpSocket};

/// What each socket is asked to hold of a burst.
const BUFFER: u32 = 4 << 20;

/// All sockets, none of which ever waits.
pub struct Sockets {
    /// The server's, one for each family.
    servers: Vec<UdpSocket>,
    /// The relay ports', in order.
    ports: Vec<UdpSocket>,
    /// What each of them lets in.
    let_in: Vec<LetIn>,
    listen: Vec<SocketAddr>,
    /// The receive buffer that the least favoured socket has.
    pub buffer: u32,
}

/// The socket that a datagram came in by.
#[derive(Clone, Copy, Debug, PartialEq, Eq)]
pub enum Door {
    /// A server's.
    Server,
    /// That of a relay port.
    Port(u16),
}

impl Sockets {
    /// Binds all of them, or says which one failed. The relay ports let nothing in yet.
    pub fn bind(listen: &[SocketAddr], relay: Ipv4Addr) -> Result<Self, String> {
        let mut buffer = BUFFER;
        let mut bind = |what: &str, address: SocketAddr| {
            let bound = UdpSocket::bind(address).and_then(|socket| {
                socket.set_nonblocking(true)?;
                buffer = buffer.min(ask_for_buffers(&socket, BUFFER)?);
                Ok(socket)
            });
            bound.map_err(|error| format!("cannot bind {what} {address}: {error}"))
        };
        let servers = (listen.iter())
            .map(|&address| bind("server address", address))
            .collect::<Result<_, _>>()?;
        let places = (FIRST_PORT..FIRST_PORT + PORTS).map(|port| SocketAddr::from((relay, port)));
        let ports: Vec<UdpSocket> = places.map(|address| bind("relay port", address)).collect::<Result<_, _>>()?;
        let mut sockets = Sockets {
            servers,
            let_in: vec![LetIn::All; ports.len()],
            ports,
            listen: listen.to_vec(),
            buffer,
        };
        for port in FIRST_PORT..FIRST_PORT + PORTS {
            sockets.let_in(port, LetIn::Only(Vec::new()));
        }
        Ok(sockets)
    }

    /// All of them, each with the number that `at` and `door` know it by.
    pub fn numbered(&self) -> impl Iterator<Item = (usize, &UdpSocket)> {
        self.servers.iter().chain(&self.ports).enumerate()
    }

    /// The socket of a number.
    pub fn at(&self, number: usize) -> Option<&UdpSocket> {
        match number.checked_sub(self.servers.len()) {
            None => self.servers.get(number),
            Some(place) => self.ports.get(place),
        }
    }

    /// What stands behind a number.
    pub fn door(&self, number: usize) -> Door {
        match number.checked_sub(self.servers.len()) {
            None => Door::Server,
            Some(place) => Door::Port(FIRST_PORT.saturating_add(u16::try_from(place).unwrap_or(0))),
        }
    }

    /// The number of the server's socket that reaches this client, and the address to use: a link's own addresses need the server's scope.
    pub fn to_client(&self, client: SocketAddr) -> Option<(usize, SocketAddr)> {
        route(&self.listen, client)
    }

    /// The number of a relay port's socket.
    pub fn to_peer(&self, relay_port: u16) -> Option<usize> {
        let place = place(relay_port);
        (place < self.ports.len()).then_some(self.servers.len() + place)
    }

    /// Lets these in at a relay port. Where the kernel does not take the filter, all are let in and the relay drops.
    pub fn let_in(&mut self, relay_port: u16, whom: LetIn) {
        let place = place(relay_port);
        let (Some(socket), Some(now)) = (self.ports.get(place), self.let_in.get_mut(place)) else {
            return;
        };
        if *now == whom {
            return;
        }
        let filtered = match &whom {
            LetIn::All => false,
            LetIn::Only(peers) => let_in_only(socket, peers).is_ok(),
        };
        if !filtered {
            let _ = let_in_all(socket);
        }
        *now = whom;
    }

    /// How many datagrams the kernel has dropped: for want of room at the server's sockets, and at the relay ports, where they were not let
    /// in or there was no room.
    pub fn dropped_by_kernel(&self) -> (u64, u64) {
        let sum = |sockets: &[UdpSocket]| sockets.iter().map(|socket| u64::from(dropped(socket).unwrap_or(0))).sum();
        (sum(&self.servers), sum(&self.ports))
    }
}

fn route(listen: &[SocketAddr], to: SocketAddr) -> Option<(usize, SocketAddr)> {
    let place = listen.iter().position(|address| address.is_ipv4() == to.is_ipv4())?;
    match (listen[place], to) {
        (SocketAddr::V6(server), SocketAddr::V6(client)) => {
            let scoped = SocketAddrV6::new(*client.ip(), client.port(), 0, server.scope_id());
            Some((place, scoped.into()))
        }
        _ => Some((place, to)),
    }
}

/// Datagrams that are to be sent, kept until the batch is over.
#[derive(Default)]
pub struct Outbox {
    bytes: Vec<u8>,
    /// The socket's number, and the message.
    waiting: Vec<(usize, (SocketAddr, std::ops::Range<usize>))>,
}

impl Outbox {
    /// Adds one.
    pub fn put(&mut self, number: usize, to: SocketAddr, bytes: &[u8]) {
        let begin = self.bytes.len();
        self.bytes.extend_from_slice(bytes);
        self.waiting.push((number, (to, begin..self.bytes.len())));
    }

    /// Sends all, those of one socket in order and at once, and tells each that failed. What is not sent (a full buffer, an unreachable
    /// host) is gone, as on any UDP path.
    pub fn send(&mut self, sockets: &Sockets, mut failed: impl FnMut(SocketAddr, &io::Error)) {
        self.waiting.sort_by_key(|(number, _)| *number);
        for group in self.waiting.chunk_by(|(one, _), (other, _)| one == other) {
            let messages: Vec<_> = group.iter().map(|(_, message)| message.clone()).collect();
            if let Some(socket) = sockets.at(group[0].0) {
                crate::sys::datagrams::send(socket, &self.bytes, &messages, |place, error| failed(messages[place].0, &error));
            }
        }
        self.bytes.clear();
        self.waiting.clear();
    }
}

#[cfg(test)]
mod tests {
    use super::*;

    fn at(text: &str) -> SocketAddr {
        text.parse().expect("an address")
    }

    #[test]
    fn a_client_is_reached_by_the_socket_of_its_family() {
        let listen = [at("127.0.0.1:3478"), at("[fe80::1%3]:3478")];
        assert_eq!(route(&listen, at("192.0.2.1:5")), Some((0, at("192.0.2.1:5"))));
        assert_eq!(route(&listen, at("[fe80::9]:5")), Some((1, at("[fe80::9%3]:5"))));
        assert_eq!(route(&listen[..1], at("[::1]:5")), None);
    }
}
