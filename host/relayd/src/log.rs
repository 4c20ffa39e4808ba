//! The log: events with the time of day; with `--log-packets`, each datagram too.

use crate::clock::Clock;
use crate::counters::Cause;
use crate::output::{Output, to_standard_error};
use crate::relay::{Outcome, Reason};
use crate::stun;
use std::net::SocketAddr;
use std::path::{Path, PathBuf};

/// Tells whoever started relayd.
pub fn say(message: &str) {
    to_standard_error(&format!("relayd: {message}\n"));
}

enum Target {
    None,
    StandardError,
    File(PathBuf, Output),
}

/// The log, if there is one.
pub struct Log {
    target: Target,
    packets: bool,
}

/// Where a datagram came in.
#[derive(Clone, Copy)]
pub enum Arrival {
    /// From a client, at the server's address.
    Client(SocketAddr),
    /// From a peer, at this relay port.
    Peer(SocketAddr, u16),
}

impl Log {
    /// Adds to a file, or writes to standard error for `-`.
    pub fn open(path: Option<&Path>, packets: bool) -> Result<Self, String> {
        let target = match path {
            None => Target::None,
            Some(path) if path == Path::new("-") => Target::StandardError,
            Some(path) => Target::File(path.to_path_buf(), append(path)?),
        };
        Ok(Log { target, packets })
    }

    /// Opens a file anew, after somebody has moved it away. Where that fails, the old one goes on.
    pub fn reopen(&mut self) -> Result<(), String> {
        if let Target::File(path, output) = &mut self.target {
            output.flush();
            *output = append(path)?;
        }
        Ok(())
    }

    /// An event.
    pub fn event(&mut self, clock: &Clock, what: &str) {
        if let Target::None = self.target {
            return;
        }
        let line = format!("{} {what}\n", clock.stamp());
        match &mut self.target {
            Target::None => {}
            Target::StandardError => to_standard_error(&line),
            Target::File(_, output) => output.put(&line),
        }
    }

    /// An event that somebody has to know of: without a log it goes to standard error.
    pub fn alert(&mut self, clock: &Clock, what: &str) {
        match self.target {
            Target::None => say(what),
            _ => self.event(clock, what),
        }
    }

    /// Whether it goes where `say` does.
    pub fn is_standard_error(&self) -> bool {
        matches!(self.target, Target::StandardError)
    }

    /// Whether each datagram is to be told.
    pub fn has_packets(&self) -> bool {
        self.packets && !matches!(self.target, Target::None)
    }

    /// A datagram, and what became of it.
    pub fn packet(&mut self, clock: &Clock, arrival: Arrival, length: usize, fate: &str) {
        let from = match arrival {
            Arrival::Client(from) => format!("client {from}"),
            Arrival::Peer(from, port) => format!("peer {from} at {port}"),
        };
        self.event(clock, &format!("{from} {length} bytes: {fate}"));
    }

    /// Writes out what is held back; called before each wait.
    pub fn flush(&mut self) {
        match &mut self.target {
            Target::None => {}
            Target::StandardError => to_standard_error(""),
            Target::File(_, output) => output.flush(),
        }
    }
}

fn append(path: &Path) -> Result<Output, String> {
    Output::append(path).map_err(|error| format!("cannot write the log {}: {error}", path.display()))
}

/// What became of a datagram that the relay saw.
pub fn fate(outcome: &Outcome) -> String {
    match outcome {
        Outcome::Refused(number) => format!("refused {number}, {}", refusal(*number)),
        Outcome::Dropped(Reason::Lapsed) => "dropped, its permission lapsed".to_string(),
        Outcome::Dropped(Reason::Never) => "dropped, it never had a permission".to_string(),
        Outcome::Dropped(Reason::Other) => "dropped".to_string(),
        Outcome::Lost => "lost with the relay's program".to_string(),
        Outcome::ToClient { to, bytes } => format!("to client {to} {} bytes, {}", bytes.len(), message(bytes)),
        Outcome::ToPeer { relay_port, to, bytes } => format!("to peer {to} from {relay_port} {} bytes", bytes.len()),
    }
}

/// What became of a datagram that the relay did not see.
pub fn fate_before(cause: Cause) -> String {
    format!("dropped before the relay, {}", cause.text())
}

/// Document 01's refusals.
fn refusal(number: u8) -> &'static str {
    match number {
        1 => "time before the clock",
        2 => "time over 2^40",
        3 => "reply buffer under 1,536 bytes",
        4 => "datagram over 1,500 bytes",
        5 => "user over 32",
        6 => "not 64 slots",
        7 => "protocol not 17",
        _ => "no number of document 01",
    }
}

/// What a reply is.
pub fn message(bytes: &[u8]) -> String {
    if let [first @ 0x40..=0x4f, second, ..] = bytes {
        return format!("channel {:#06x}", u16::from_be_bytes([*first, *second]));
    }
    match stun::response(bytes) {
        Some((method, true)) => format!("{} success", stun::method_name(method)),
        Some((method, false)) => {
            let code = stun::error_code(bytes).unwrap_or(0);
            format!("{} error {code} {}", stun::method_name(method), stun::phrase(code))
        }
        None if stun::is_data(bytes) => "Data".to_string(),
        None => "unknown".to_string(),
    }
}

#[cfg(test)]
mod tests {
    use super::*;

    #[test]
    fn outcomes_are_told_with_why() {
        let to = SocketAddr::from(([192, 0, 2, 1], 5));
        assert_eq!(fate(&Outcome::Refused(4)), "refused 4, datagram over 1,500 bytes");
        assert_eq!(fate(&Outcome::Dropped(Reason::Lapsed)), "dropped, its permission lapsed");
        assert_eq!(fate(&Outcome::Dropped(Reason::Never)), "dropped, it never had a permission");
        assert_eq!(fate(&Outcome::Dropped(Reason::Other)), "dropped");
        let reply = stun::error_response(&stun::request(stun::ALLOCATE, &[]), 486);
        let error = fate(&Outcome::ToClient { to, bytes: &reply });
        assert_eq!(error, "to client 192.0.2.1:5 28 bytes, Allocate error 486 Allocation Quota Reached");
        let bytes: &[u8] = &[0x40, 0x01, 0, 0];
        let channel = fate(&Outcome::ToClient { to, bytes });
        assert_eq!(channel, "to client 192.0.2.1:5 4 bytes, channel 0x4001");
        assert_eq!(message(&stun::request(0x0109, &[])), "ChannelBind success");
        assert_eq!(message(&stun::request(0x0017, &[])), "Data");
        assert_eq!(message(&[]), "unknown");
        let relay_port = 49152;
        let to_peer = fate(&Outcome::ToPeer { relay_port, to, bytes });
        assert_eq!(to_peer, "to peer 192.0.2.1:5 from 49152 4 bytes");
    }

    #[test]
    fn the_file_is_opened_anew() {
        let path = std::env::temp_dir().join(format!("relayd-test-{}-log", std::process::id()));
        let moved = path.with_extension("1");
        let clock = Clock::new(false);
        let mut log = Log::open(Some(&path), false).expect("it opens");
        log.event(&clock, "before");
        std::fs::rename(&path, &moved).expect("it is moved");
        log.reopen().expect("it opens again");
        log.event(&clock, "after");
        log.flush();
        for (path, word) in [(moved, "Z before\n"), (path, "Z after\n")] {
            let text = std::fs::read_to_string(&path).expect("it is read");
            assert!(text.ends_with(word) && text.lines().count() == 1, "{text}");
            std::fs::remove_file(&path).expect("it is removed");
        }
    }
}
