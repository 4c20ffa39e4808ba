//! Drops for want of a permission, as people are told of them: whose permission, and when it has lapsed.

use crate::admission::Gate;
use crate::clock::ago;
use crate::ledger::Ledger;
use crate::log::Arrival;
use crate::recent::Event;
use crate::relay::Reason;
use crate::stun;
use std::net::{Ipv4Addr, SocketAddr};

/// What was dropped.
#[derive(Clone, Copy, Debug, PartialEq, Eq)]
enum What {
    /// A peer's datagram, at this relay port.
    AtPort(u16),
    /// A Send of this client, and its user.
    Send(SocketAddr, u32),
}

/// What the peer has in place of a live permission.
#[derive(Clone, Copy, Debug, PartialEq, Eq)]
enum Had {
    /// One that has lapsed, in this second where it is known.
    Lapsed(Option<u64>),
    Never,
}

/// A datagram that was dropped for want of a permission. One after the permission has lapsed once more is another.
#[derive(Clone, Copy, Debug, PartialEq, Eq)]
pub struct Dropped {
    what: What,
    peer: Ipv4Addr,
    had: Had,
}

impl Dropped {
    /// Of what the relay dropped; None if it was not for want of a permission. The ledger remembers what the relay may have forgotten, since
    /// its program was started again or another permission has taken the entry.
    pub fn of(ledger: &Ledger, arrival: Arrival, datagram: &[u8], reason: Reason) -> Option<Self> {
        let (what, allocation, peer) = match arrival {
            Arrival::Client(client) => {
                let own = ledger.of(client)?;
                (What::Send(client, own.user), own, *stun::peers(datagram).next()?.ip())
            }
            Arrival::Peer(SocketAddr::V4(from), relay_port) => (What::AtPort(relay_port), ledger.at(relay_port)?, *from.ip()),
            Arrival::Peer(SocketAddr::V6(_), _) => return None,
        };
        let had = match (reason, allocation.lapsed_at(peer)) {
            (Reason::Other, _) => return None,
            (Reason::Never, None) => Had::Never,
            (Reason::Lapsed | Reason::Never, second) => Had::Lapsed(second),
        };
        Some(Dropped { what, peer, had })
    }

    /// Why, by the relay and the ledger together.
    pub fn reason(&self) -> Reason {
        match self.had {
            Had::Lapsed(_) => Reason::Lapsed,
            Had::Never => Reason::Never,
        }
    }

    /// For people, at this second: '198.51.100.7 dropped at 49157: its permission lapsed 12 s ago'.
    pub fn text(&self, now: u64, gate: &Gate) -> String {
        let peer = self.peer;
        let why = match self.had {
            Had::Lapsed(Some(second)) => format!("its permission lapsed {}", ago(now.saturating_sub(second))),
            Had::Lapsed(None) => "its permission lapsed".to_string(),
            Had::Never => "it never had a permission".to_string(),
        };
        match self.what {
            What::AtPort(relay_port) => format!("{peer} dropped at {relay_port}: {why}"),
            What::Send(client, user) => format!("Send of {client}, {}, to {peer} dropped: {why}", gate.who(user, client)),
        }
    }
}

impl Event for Dropped {
    fn repeats(&self, earlier: &Self) -> bool {
        self == earlier
    }
}

#[cfg(test)]
mod tests {
    use super::*;
    use crate::ledger::tests::{allocate, bind, client, peer};
    use crate::stun::{XOR_PEER_ADDRESS, ipv4_value, request};
    use crate::users::Users;

    /// A client with an allocation at 49157, and a permission for 192.0.2.1 that lapsed in second 300.
    fn ledger() -> Ledger {
        let mut ledger = Ledger::new();
        allocate(&mut ledger, 0, client(40000), 49157, 3600);
        bind(&mut ledger, 0, client(40000), 0x4000, "192.0.2.1:5000");
        ledger.lapse(300);
        ledger
    }

    fn gate() -> Gate {
        Gate {
            users: Users::All(3),
            front: None,
        }
    }

    fn from_peer(ledger: &Ledger, from: &str, reason: Reason) -> Option<Dropped> {
        Dropped::of(ledger, Arrival::Peer(peer(from).into(), 49157), b"hi", reason)
    }

    fn send(ledger: &Ledger, to: &str, reason: Reason) -> Option<Dropped> {
        let datagram = request(0x0016, &[(XOR_PEER_ADDRESS, &ipv4_value(peer(to)))]);
        Dropped::of(ledger, Arrival::Client(client(40000)), &datagram, reason)
    }

    fn told(dropped: Option<Dropped>, now: u64) -> String {
        dropped.expect("it is told").text(now, &gate())
    }

    #[test]
    fn a_peer_is_told_with_when_its_permission_lapsed() {
        let ledger = ledger();
        let lapsed = from_peer(&ledger, "192.0.2.1:5000", Reason::Lapsed);
        assert_eq!(told(lapsed, 312), "192.0.2.1 dropped at 49157: its permission lapsed 12 s ago");
        assert_eq!(told(lapsed, 400), "192.0.2.1 dropped at 49157: its permission lapsed 1:40 ago");
        // The relay has forgotten it, the ledger has not; and the other way round.
        let forgotten = from_peer(&ledger, "192.0.2.1:5001", Reason::Never).expect("it is told");
        assert_eq!((Some(forgotten), forgotten.reason()), (lapsed, Reason::Lapsed));
        let unknown = from_peer(&ledger, "192.0.2.2:5000", Reason::Lapsed);
        assert_eq!(told(unknown, 312), "192.0.2.2 dropped at 49157: its permission lapsed");
        let never = from_peer(&ledger, "192.0.2.2:5000", Reason::Never);
        assert_eq!(told(never, 312), "192.0.2.2 dropped at 49157: it never had a permission");
        assert_eq!(never.map(|dropped| dropped.reason()), Some(Reason::Never));
    }

    #[test]
    fn a_send_is_told_with_its_client_and_user() {
        let ledger = ledger();
        let who = "Send of 198.51.100.7:40000, user 3, to";
        let lapsed = send(&ledger, "192.0.2.1:9", Reason::Lapsed);
        assert_eq!(
            told(lapsed, 312),
            format!("{who} 192.0.2.1 dropped: its permission lapsed 12 s ago")
        );
        let never = send(&ledger, "192.0.2.2:9", Reason::Never);
        assert_eq!(told(never, 312), format!("{who} 192.0.2.2 dropped: it never had a permission"));
    }

    #[test]
    fn other_drops_are_not_told() {
        let ledger = ledger();
        assert_eq!(from_peer(&ledger, "192.0.2.1:5000", Reason::Other), None);
        assert_eq!(send(&ledger, "192.0.2.1:5000", Reason::Other), None);
    }

    #[test]
    fn a_permission_that_lapses_once_more_is_another_event() {
        let mut ledger = ledger();
        let first = from_peer(&ledger, "192.0.2.1:1", Reason::Lapsed).expect("it is told");
        assert!(
            from_peer(&ledger, "192.0.2.1:2", Reason::Lapsed)
                .expect("it is told")
                .repeats(&first)
        );
        bind(&mut ledger, 400, client(40000), 0x4000, "192.0.2.1:5000");
        ledger.lapse(700);
        let second = from_peer(&ledger, "192.0.2.1:1", Reason::Lapsed).expect("it is told");
        assert!(!second.repeats(&first));
        assert_eq!(
            second.text(705, &gate()),
            "192.0.2.1 dropped at 49157: its permission lapsed 5 s ago"
        );
    }
}
