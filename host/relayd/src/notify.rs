//! Word to systemd, where it has started relayd: ready, alive, stopping.

use std::env;
use std::os::linux::net::SocketAddrExt;
use std::os::unix::net::{SocketAddr, UnixDatagram};

/// The service manager's socket, if there is one.
pub struct Notify(Option<UnixDatagram>);

impl Notify {
    /// From the environment.
    pub fn new() -> Self {
        Notify(env::var("NOTIFY_SOCKET").ok().and_then(|name| connect(&name)))
    }

    /// The sockets are bound and the relay answers.
    pub fn ready(&self) {
        self.tell("READY=1");
    }

    /// The loop goes round.
    pub fn alive(&self) {
        self.tell("WATCHDOG=1");
    }

    /// The end has begun.
    pub fn stopping(&self) {
        self.tell("STOPPING=1");
    }

    /// A manager that does not listen is no reason to wait.
    fn tell(&self, word: &str) {
        if let Some(socket) = &self.0 {
            let _ = socket.send(word.as_bytes());
        }
    }
}

/// A name that begins with @ is that of an abstract socket.
fn connect(name: &str) -> Option<UnixDatagram> {
    let socket = UnixDatagram::unbound().ok()?;
    socket.set_nonblocking(true).ok()?;
    let address = match name.strip_prefix('@') {
        Some(name) => SocketAddr::from_abstract_name(name).ok()?,
        None => SocketAddr::from_pathname(name).ok()?,
    };
    socket.connect_addr(&address).ok()?;
    Some(socket)
}

#[cfg(test)]
mod tests {
    use super::*;

    #[test]
    fn words_reach_the_manager() {
        let name = format!("relayd-test-{}", std::process::id());
        let address = SocketAddr::from_abstract_name(&name).expect("a name");
        let manager = UnixDatagram::bind_addr(&address).expect("a socket");
        let notify = Notify(connect(&format!("@{name}")));
        notify.ready();
        notify.alive();
        let mut room = [0; 64];
        for word in ["READY=1", "WATCHDOG=1"] {
            let count = manager.recv(&mut room).expect("a word");
            assert_eq!(&room[..count], word.as_bytes());
        }
        assert!(connect("/no/such/socket").is_none());
        Notify(None).stopping();
    }
}
