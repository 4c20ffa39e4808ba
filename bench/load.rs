//! Load for one relay, and what it cost: CPU time of the relay's processes for each packet that it passed on, and how long one took.
//!
//!     load turn|bare SERVER PEER COUNT SIZE up|down|PORT MILLISECONDS PACE PID...
//!
//! Makes COUNT clients (on PEER's address) with a channel each to one peer, and then sends packets of SIZE bytes of
//! data through all of them in turn: up is from the clients to the peer, down the other way. PACE is packets a second; 0 is as fast as one
//! thread can. Prints: packets sent, packets passed on, the median and the 99th percentile of the nanoseconds that one took from its
//! sender to its receiver (0 without a pace), nanoseconds of CPU of each PID over all its threads. A packet that the relay sent and that
//! its receiver had no room for counts as passed on (/proc/net/udp tells how many those are). With a PORT in place of a direction, a
//! stranger (127.0.0.9) sends to the 128 ports from it on, at that pace, and nothing is passed on.

#[allow(dead_code)]
#[path = "../host/relayd/src/sys/mod.rs"]
mod sys;

use std::env;
use std::fs;
use std::io;
use std::net::{SocketAddr, UdpSocket};
use std::sync::atomic::{AtomicBool, AtomicU64, Ordering::Relaxed};
use std::thread;
use std::time::{Duration, Instant};

const COOKIE: [u8; 4] = [0x21, 0x12, 0xa4, 0x42];
const CHANNEL: [u8; 2] = [0x40, 0x00];

type Result<T> = std::result::Result<T, Box<dyn std::error::Error>>;

fn message(kind: u16, attributes: &[u8]) -> Vec<u8> {
    static COUNT: AtomicU64 = AtomicU64::new(0);
    let transaction = [&[7; 4][..], &COUNT.fetch_add(1, Relaxed).to_be_bytes()].concat();
    let length = (attributes.len() as u16).to_be_bytes();
    [&kind.to_be_bytes()[..], &length, &COOKIE, &transaction, attributes].concat()
}

/// The value of the first attribute of this type.
fn attribute(reply: &[u8], wanted: u16) -> Option<&[u8]> {
    let mut rest = reply.get(20..)?;
    while rest.len() >= 4 {
        let kind = u16::from_be_bytes([rest[0], rest[1]]);
        let length = usize::from(u16::from_be_bytes([rest[2], rest[3]]));
        if kind == wanted {
            return rest.get(4..4 + length);
        }
        rest = rest.get(4 + length.next_multiple_of(4)..)?;
    }
    None
}

/// Asks again if nothing comes: what is asked here may be lost like any datagram. Late data is passed over.
fn ask(socket: &UdpSocket, request: &[u8]) -> Result<Vec<u8>> {
    let mut reply = [0; 2048];
    for _ in 0..5 {
        socket.send(request)?;
        while let Ok(length) = socket.recv(&mut reply) {
            if request.len() < 20 || (length >= 20 && reply[8..20] == request[8..20]) {
                return Ok(reply[..length].to_vec());
            }
        }
    }
    Err("the relay does not answer".into())
}

fn succeeded(reply: &[u8], kind: u16) -> Result<()> {
    if reply.starts_with(&(kind | 0x0100).to_be_bytes()) {
        Ok(())
    } else {
        Err(format!("{kind:#x} was answered {reply:02x?}").into())
    }
}

/// An allocation with a channel to the peer; gives the relayed port.
fn allocate(client: &UdpSocket, peer: SocketAddr) -> Result<u16> {
    let SocketAddr::V4(peer) = peer else {
        return Err("an IPv4 peer is needed".into());
    };
    let reply = ask(client, &message(0x0003, &[0, 0x19, 0, 4, 17, 0, 0, 0]))?;
    succeeded(&reply, 0x0003)?;
    let relayed = attribute(&reply, 0x0016).ok_or("no relayed address")?;
    let port = u16::from_be_bytes([relayed[2], relayed[3]]) ^ 0x2112;
    let mut bind = vec![0, 0x0c, 0, 4, CHANNEL[0], CHANNEL[1], 0, 0, 0, 0x12, 0, 8, 0, 1];
    bind.extend((peer.port() ^ 0x2112).to_be_bytes());
    bind.extend(peer.ip().octets().iter().zip(COOKIE).map(|(byte, key)| byte ^ key));
    succeeded(&ask(client, &message(0x0009, &bind))?, 0x0009)?;
    Ok(port)
}

fn register(client: &UdpSocket) -> Result<u16> {
    let reply = ask(client, &[0])?;
    Ok(u16::from_be_bytes(reply[..].try_into()?))
}

/// CPU nanoseconds of a process, over all its threads.
fn cpu(pid: &str) -> Result<u64> {
    let mut sum = 0;
    for task in fs::read_dir(format!("/proc/{pid}/task"))? {
        let text = fs::read_to_string(task?.path().join("schedstat"))?;
        sum += text.split(' ').next().unwrap_or("").parse::<u64>()?;
    }
    Ok(sum)
}

/// Datagrams that found no room at these sockets.
fn overflow(sockets: &[&UdpSocket]) -> Result<u64> {
    let ports = sockets
        .iter()
        .map(|socket| Ok(socket.local_addr()?.port()))
        .collect::<io::Result<Vec<u16>>>()?;
    let mut sum = 0;
    for line in fs::read_to_string("/proc/net/udp")?.lines().skip(1) {
        let words: Vec<&str> = line.split_whitespace().collect();
        let port = words[1].rsplit(':').next().and_then(|hex| u16::from_str_radix(hex, 16).ok());
        if port.is_some_and(|port| ports.contains(&port)) {
            sum += words.last().unwrap_or(&"0").parse::<u64>()?;
        }
    }
    Ok(sum)
}

/// Reads all sockets dry again and again, half a millisecond apart, so that no packet of the relay's wakes anybody.
fn receive(sockets: &[&UdpSocket], count: &AtomicU64, done: &AtomicBool) {
    let mut buffer = [0; 2048];
    while !done.load(Relaxed) {
        for socket in sockets {
            while socket.recv(&mut buffer).is_ok() {
                count.fetch_add(1, Relaxed);
            }
        }
        thread::sleep(Duration::from_micros(500));
    }
}

struct Run {
    clients: Vec<UdpSocket>,
    peer: UdpSocket,
    relayed: Vec<SocketAddr>,
    turn: bool,
}

impl Run {
    fn new(turn: bool, server: SocketAddr, peer: SocketAddr, count: u16) -> Result<Self> {
        let mut run = Run {
            clients: Vec::new(),
            peer: UdpSocket::bind(peer)?,
            relayed: Vec::new(),
            turn,
        };
        // A 5-tuple that was given back a moment ago loses packets in coturn. The forwarder has room for one set of clients.
        let first = if turn { 20000 + 64 * (std::process::id() % 400) as u16 } else { 20000 };
        for place in 0..count {
            let client = UdpSocket::bind((peer.ip(), first + place))?;
            client.connect(server)?;
            client.set_read_timeout(Some(Duration::from_secs(1)))?;
            let port = if turn { allocate(&client, peer)? } else { register(&client)? };
            run.relayed.push(SocketAddr::new(server.ip(), port));
            run.clients.push(client);
        }
        Ok(run)
    }

    /// A packet as its sender sends it.
    fn packet(&self, load: &Load) -> Vec<u8> {
        let packet = vec![b'x'; load.size];
        if load.up && self.turn {
            [&CHANNEL[..], &(load.size as u16).to_be_bytes(), &packet].concat()
        } else {
            packet
        }
    }

    /// Sends a packet through the allocation at this place, over and over.
    fn send_one(&self, up: bool, place: usize, packet: &[u8]) -> u64 {
        let place = place % self.clients.len();
        let result = if up {
            self.clients[place].send(packet)
        } else {
            self.peer.send_to(packet, self.relayed[place])
        };
        u64::from(result.is_ok())
    }

    fn receivers(&self, up: bool) -> Vec<&UdpSocket> {
        if up { vec![&self.peer] } else { self.clients.iter().collect() }
    }

    /// Sends as fast as it goes, and gives the number sent and received.
    fn saturate(&self, load: &Load) -> (u64, u64) {
        let packet = self.packet(load);
        let (receivers, count, done) = (self.receivers(load.up), AtomicU64::new(0), AtomicBool::new(false));
        thread::scope(|scope| {
            scope.spawn(|| receive(&receivers, &count, &done));
            let (mut sent, end) = (0, Instant::now() + load.time);
            while Instant::now() < end {
                sent += (0..64).map(|place| self.send_one(load.up, place, &packet)).sum::<u64>();
            }
            settle(&count);
            done.store(true, Relaxed);
            (sent, count.load(Relaxed))
        })
    }

    /// Sends one packet after the other at the pace, looking for what comes in between without a sleep, and gives the number sent and the
    /// nanoseconds that each one took which came.
    fn pace(&self, load: &Load) -> Result<(u64, Vec<u64>)> {
        let mut packet = self.packet(load);
        let stamp = packet.len() - load.size;
        let (receivers, begin) = (self.receivers(load.up), Instant::now());
        // Behind the head of ChannelData, which what comes down to a TURN client has too.
        let stamp_in = if !load.up && self.turn { 4 } else { 0 };
        let (mut waiting, mut ready, mut took, mut buffer) = (sys::epoll::Epoll::new()?, Vec::new(), Vec::new(), [0; 2048]);
        for (place, socket) in receivers.iter().enumerate() {
            waiting.add(*socket, place as u64)?;
        }
        let mut look = || -> Result<()> {
            waiting.wait(Duration::ZERO, &mut ready)?;
            for &place in &ready {
                while let Ok(length) = receivers[place as usize].recv(&mut buffer) {
                    let sent = u64::from_be_bytes(buffer[..length].get(stamp_in..stamp_in + 8).ok_or("too short")?.try_into()?);
                    took.push(nanoseconds(begin).saturating_sub(sent));
                }
            }
            Ok(())
        };
        let (mut sent, interval) = (0, 1_000_000_000 / load.pace);
        let planned = load.time.as_nanos() as u64 / interval;
        for place in 0..planned {
            while nanoseconds(begin) < place * interval {
                look()?;
            }
            packet[stamp..stamp + 8].copy_from_slice(&nanoseconds(begin).to_be_bytes());
            sent += self.send_one(load.up, place as usize, &packet);
        }
        let end = Instant::now() + Duration::from_millis(100);
        while Instant::now() < end {
            look()?;
        }
        Ok((sent, took))
    }

    /// Sends to 128 ports in turn, at the pace, as one who has no permission.
    fn flood(&self, load: &Load, first: u16) -> Result<u64> {
        let (stranger, packet) = (UdpSocket::bind("127.0.0.9:0")?, vec![b'x'; load.size]);
        let (mut sent, begin, interval) = (0, Instant::now(), 1_000_000_000 / load.pace);
        for place in 0..load.time.as_nanos() as u64 / interval {
            while nanoseconds(begin) < place * interval {
                std::hint::spin_loop();
            }
            // A port that nobody has answers with an error, which the next send would give.
            let _ = stranger.take_error();
            let to = SocketAddr::new(self.relayed[0].ip(), first + (place % 128) as u16);
            sent += u64::from(stranger.send_to(&packet, to).is_ok());
        }
        Ok(sent)
    }

    fn measure(&self, load: &Load, pids: &[String]) -> Result<String> {
        let receivers = self.receivers(load.up);
        for socket in &receivers {
            socket.set_nonblocking(true)?;
        }
        if let Some(first) = load.flood {
            // relayd takes the first few of each minute, to say why they are dropped. The flood that comes after them is measured.
            self.flood(load, first)?;
            thread::sleep(Duration::from_millis(60));
        }
        let cpu_now = || pids.iter().map(|pid| cpu(pid)).collect::<Result<Vec<u64>>>();
        let (before, lost_before) = (cpu_now()?, overflow(&receivers)?);
        let (sent, came, mut took) = if let Some(first) = load.flood {
            (self.flood(load, first)?, 0, vec![0])
        } else if load.pace == 0 {
            let (sent, came) = self.saturate(load);
            (sent, came, vec![0])
        } else {
            let (sent, took) = self.pace(load)?;
            (sent, took.len() as u64, took)
        };
        let passed = came + overflow(&receivers)? - lost_before;
        let spent = cpu_now()?.iter().zip(before).map(|(after, before)| (after - before).to_string()).collect::<Vec<_>>();
        took.sort_unstable();
        let at = |percent: usize| took.get((took.len() * percent / 100).min(took.len().saturating_sub(1))).copied().unwrap_or(0);
        Ok(format!("{sent} {passed} {} {} {}", at(50), at(99), spent.join(" ")))
    }

    /// Gives the allocations back. An error says that an earlier try has, whose reply was lost.
    fn end(&self) -> Result<()> {
        for client in self.clients.iter().filter(|_| self.turn) {
            client.set_nonblocking(false)?;
            ask(client, &message(0x0004, &[0, 0x0d, 0, 4, 0, 0, 0, 0]))?;
        }
        Ok(())
    }
}

/// What is sent, which way, for how long and at what pace.
struct Load {
    flood: Option<u16>,
    up: bool,
    size: usize,
    time: Duration,
    pace: u64,
}

fn nanoseconds(since: Instant) -> u64 {
    since.elapsed().as_nanos() as u64
}

/// Waits until nothing more comes.
fn settle(count: &AtomicU64) {
    loop {
        let before = count.load(Relaxed);
        thread::sleep(Duration::from_millis(60));
        if count.load(Relaxed) == before {
            return;
        }
    }
}

fn main() -> Result<()> {
    let words: Vec<String> = env::args().collect();
    let [_, kind, server, peer, count, size, direction, time, pace, pids @ ..] = &words[..] else {
        return Err("load turn|bare SERVER PEER COUNT SIZE up|down MILLISECONDS PACE PID...".into());
    };
    let run = Run::new(kind == "turn", server.parse()?, peer.parse()?, count.parse()?)?;
    let load = Load {
        flood: direction.parse().ok(),
        up: direction == "up",
        size: size.parse()?,
        time: Duration::from_millis(time.parse()?),
        pace: pace.parse()?,
    };
    let told = run.measure(&load, pids)?;
    run.end()?;
    println!("{told}");
    Ok(())
}
