//! A bare UDP forwarder: what relaying costs on these sockets before anything is decided.
//!
//!     forwarder SERVER PEER COUNT
//!
//! A datagram of one byte gives a new client the next of COUNT relay sockets (ports 52000 and up), and answers with its port (two bytes).
//! A client's other datagrams go to PEER from that socket, and what comes to that socket goes to it from SERVER, unchanged. One thread,
//! epoll, up to 32 datagrams of a socket at a time. Only for the bench: it trusts everybody.

#[allow(dead_code)]
#[path = "../host/relayd/src/sys/mod.rs"]
mod sys;

use std::collections::HashMap;
use std::env;
use std::io;
use std::net::{SocketAddr, UdpSocket};
use std::time::Duration;

struct Forwarder {
    server: UdpSocket,
    relays: Vec<UdpSocket>,
    peer: SocketAddr,
    places: HashMap<SocketAddr, usize>,
    clients: Vec<SocketAddr>,
}

impl Forwarder {
    fn new(server: &str, peer: &str, count: u16) -> io::Result<Self> {
        let bind = |address: SocketAddr| UdpSocket::bind(address).and_then(|socket| socket.set_nonblocking(true).map(|()| socket));
        let server: SocketAddr = server.parse().map_err(io::Error::other)?;
        let relays = (0..count)
            .map(|place| bind(SocketAddr::new(server.ip(), 52000 + place)))
            .collect::<io::Result<_>>()?;
        let peer = peer.parse().map_err(io::Error::other)?;
        Ok(Forwarder {
            server: bind(server)?,
            relays,
            peer,
            places: HashMap::new(),
            clients: Vec::new(),
        })
    }

    fn from_client(&mut self, from: SocketAddr, datagram: &[u8]) -> io::Result<()> {
        let known = self.places.get(&from).copied();
        if let (Some(place), true) = (known, datagram.len() != 1) {
            let _ = self.relays[place].send_to(datagram, self.peer);
            return Ok(());
        }
        let place = known.unwrap_or(self.clients.len());
        if let Some(relay) = self.relays.get(place) {
            if known.is_none() {
                self.places.insert(from, place);
                self.clients.push(from);
            }
            self.server.send_to(&relay.local_addr()?.port().to_be_bytes(), from)?;
        }
        Ok(())
    }

    fn drain(&mut self, place: usize, buffer: &mut [u8]) -> io::Result<()> {
        for _ in 0..32 {
            if place == 0 {
                let Ok((length, from)) = self.server.recv_from(buffer) else { break };
                self.from_client(from, &buffer[..length])?;
            } else {
                let Ok((length, _)) = self.relays[place - 1].recv_from(buffer) else {
                    break;
                };
                if let Some(client) = self.clients.get(place - 1) {
                    let _ = self.server.send_to(&buffer[..length], client);
                }
            }
        }
        Ok(())
    }

    fn run(mut self) -> io::Result<()> {
        let mut waiting = sys::epoll::Epoll::new()?;
        for (place, socket) in std::iter::once(&self.server).chain(&self.relays).enumerate() {
            waiting.add(socket, place as u64)?;
        }
        let (mut buffer, mut ready) = (vec![0; 1 << 16], Vec::new());
        loop {
            waiting.wait(Duration::from_secs(1), &mut ready)?;
            for &place in &ready {
                self.drain(place as usize, &mut buffer)?;
            }
        }
    }
}

fn main() -> io::Result<()> {
    let words: Vec<String> = env::args().collect();
    let [_, server, peer, count] = &words[..] else {
        return Err(io::Error::other("forwarder SERVER PEER COUNT"));
    };
    Forwarder::new(server, peer, count.parse().map_err(io::Error::other)?)?.run()
}
