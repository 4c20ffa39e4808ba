//! What becomes of a datagram before the relay sees it: what no call can use is dropped, and a client gets its user number by its password
//! or its address.

use crate::counters::Cause;
use crate::front::{self, Front, Known, Moment, Signer, Verdict};
use crate::stun;
use crate::users::{self, Users};
use std::net::{IpAddr, SocketAddr};

/// Document 01's longest datagram.
const LONGEST: usize = 1500;

/// What becomes of a client's datagram.
#[derive(Debug, PartialEq, Eq)]
pub enum Admission {
    /// It goes to the relay as this sender's.
    Pass(Sender),
    /// The front end turns it away with these bytes.
    TurnAway(front::Cause, Vec<u8>),
    /// It goes nowhere.
    Drop(Cause),
    /// It goes nowhere, and somebody should know why.
    Alarm(Cause, front::Cause),
}

/// Who has sent a datagram.
#[derive(Debug, Default, PartialEq, Eq)]
pub struct Sender {
    /// The relay's number for the user; 0 is nobody.
    pub user: u32,
    /// The name of the credentials, where they are checked.
    pub name: Option<String>,
    /// What signs the response, where credentials are checked.
    pub signer: Option<Signer>,
}

impl From<Known> for Sender {
    fn from(known: Known) -> Self {
        Sender {
            user: known.user,
            name: Some(known.name),
            signer: Some(known.signer),
        }
    }
}

/// Whether no call can use a client's datagram: the relay would drop or refuse it, whoever sends it and whatever its table holds.
pub fn garbage(datagram: &[u8], length: usize) -> Option<Cause> {
    if length > LONGEST {
        Some(Cause::TooLong)
    } else if !stun::has_a_known_first_byte(datagram) {
        Some(Cause::Senseless)
    } else {
        None
    }
}

/// The same for a peer's: any bytes are data.
pub fn garbage_from_peer(length: usize) -> Option<Cause> {
    (length > LONGEST).then_some(Cause::TooLong)
}

/// Whether a client's address is of Teredo or 6to4: RFC 8656 section 21.4 lets none allocate.
fn is_tunnelled(client: SocketAddr) -> bool {
    match client.ip() {
        IpAddr::V4(_) => false,
        IpAddr::V6(ip) => matches!(ip.segments(), [0x2001, 0, ..] | [0x2002, ..]),
    }
}

/// Who may send what.
pub struct Gate {
    pub users: Users,
    /// Checks passwords. Without it a client's address says who it is.
    pub front: Option<Front>,
}

impl Gate {
    /// What becomes of a client's datagram of this length, of which `datagram` is at least the beginning.
    pub fn admit(&mut self, moment: Moment, from: SocketAddr, datagram: &[u8], length: usize) -> Admission {
        if let Some(cause) = garbage(datagram, length) {
            return Admission::Drop(cause);
        }
        if is_tunnelled(from) {
            return Admission::Drop(Cause::Tunnelled);
        }
        match self.front.as_mut().map(|front| front.admit(moment, from, datagram)) {
            None => Admission::Pass(Sender {
                user: self.users.of(from),
                ..Sender::default()
            }),
            Some(Verdict::Pass(known)) => Admission::Pass(known.map(Sender::from).unwrap_or_default()),
            Some(Verdict::Reply { response, cause }) => Admission::TurnAway(cause, response),
            Some(Verdict::Silence { cause, first: true }) => Admission::Alarm(Cause::Slowed, cause),
            Some(Verdict::Silence { .. }) => Admission::Drop(Cause::Slowed),
        }
    }

    /// Reads the file of credentials or users again, and says what was done. A file with an error changes nothing.
    pub fn reload(&mut self) -> Result<String, String> {
        match &mut self.front {
            Some(front) => front.reload().map(|what| format!("the credentials were read again: {what}")),
            None => self.users.reload(),
        }
    }

    /// The name of a user, if there is one.
    pub fn name(&self, user: u32, client: SocketAddr) -> Option<&str> {
        match &self.front {
            Some(front) => front.name_of(user),
            None => self.users.name(client),
        }
    }

    /// A user for people: 'user 3 (mechanic)'.
    pub fn who(&self, user: u32, client: SocketAddr) -> String {
        users::who(user, self.name(user, client))
    }
}

#[cfg(test)]
mod tests {
    use super::*;
    use crate::ledger::tests::client;

    const MOMENT: Moment = Moment { now: 0, unix: 0 };

    fn gate(user: u32) -> Gate {
        Gate {
            users: Users::All(user),
            front: None,
        }
    }

    fn pass(user: u32) -> Admission {
        Admission::Pass(Sender { user, ..Sender::default() })
    }

    #[test]
    fn garbage_is_dropped() {
        let admit = |datagram: &[u8], length| gate(1).admit(MOMENT, client(1), datagram, length);
        assert_eq!(admit(b"", 0), Admission::Drop(Cause::Senseless));
        assert_eq!(admit(b"\x80ab", 3), Admission::Drop(Cause::Senseless));
        assert_eq!(admit(&[64; 1500], 1500), pass(1));
        assert_eq!(admit(&[64; 1501], 1501), Admission::Drop(Cause::TooLong));
        assert_eq!(garbage_from_peer(1500), None);
        assert_eq!(garbage_from_peer(1501), Some(Cause::TooLong));
    }

    #[test]
    fn tunnels_are_dropped() {
        let admit = |from: &str| gate(1).admit(MOMENT, from.parse().expect("an address"), &[64; 4], 4);
        for from in ["[2001:0:1::1]:5", "[2002:c000:204::1]:5"] {
            assert_eq!(admit(from), Admission::Drop(Cause::Tunnelled), "{from}");
        }
        for from in ["[2001:db8::1]:5", "[2003::1]:5", "32.1.0.0:5"] {
            assert_eq!(admit(from), pass(1), "{from}");
        }
    }
}
