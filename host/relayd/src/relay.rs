//! What a call gives back, as the daemon sees it. Nothing above `pipe.rs` knows of lines, of the program, or of its built-in address, so a
//! linked relay could take its place.

use std::net::SocketAddr;

/// Why the relay dropped a datagram.
#[derive(Clone, Copy, Debug, PartialEq, Eq)]
pub enum Reason {
    /// For want of a permission alone, and the peer had one that has lapsed.
    Lapsed,
    /// For want of a permission alone, and the relay's table has none that has lapsed.
    Never,
    /// Anything else.
    Other,
}

/// Document 01's four outcomes, and one more.
#[derive(Clone, Copy, Debug, PartialEq, Eq)]
pub enum Outcome<'a> {
    /// Refused, with document 01's number.
    Refused(u8),
    /// Nothing to send.
    Dropped(Reason),
    /// The program failed at this call twice, and was started again without it.
    Lost,
    /// These bytes go to this client, from the server's socket.
    ToClient { to: SocketAddr, bytes: &'a [u8] },
    /// These bytes go to this peer, from the relay port's socket.
    ToPeer { relay_port: u16, to: SocketAddr, bytes: &'a [u8] },
}

/// Why relayd stops relaying.
#[derive(Debug, PartialEq, Eq)]
pub enum Stop {
    /// A signal has asked it to end.
    Asked,
    /// Something that it cannot go on without has failed.
    Failed(String),
}
