//! What relayd counts beside the allocations' own packets.

use crate::ledger::Flow;
use crate::relay::Reason;
use std::collections::BTreeMap;

/// Why a datagram that came in went nowhere, or a reply did not go out.
#[derive(Clone, Copy, Debug, PartialEq, Eq)]
pub enum Cause {
    /// Its first byte is that of neither STUN nor `ChannelData`.
    Senseless,
    /// It has over 1,500 bytes.
    TooLong,
    /// Its source is an address of Teredo or 6to4.
    Tunnelled,
    /// Its source has had its answers of this second, and no right credentials.
    Slowed,
    /// The relay dropped what a client sent, by its reason.
    ClientLapsed,
    ClientNever,
    ClientOther,
    /// The relay dropped what a peer sent, by its reason.
    PeerLapsed,
    PeerNever,
    PeerOther,
    /// The relay refused the call.
    Refused,
    /// The program failed at it.
    Lost,
    /// It could not be sent on.
    NotSent,
    /// A socket gave an error in its place.
    NotReceived,
}

impl Cause {
    /// Each, in the order of the status.
    pub const ALL: [Cause; 14] = [
        Cause::Senseless,
        Cause::TooLong,
        Cause::Tunnelled,
        Cause::Slowed,
        Cause::ClientLapsed,
        Cause::ClientNever,
        Cause::ClientOther,
        Cause::PeerLapsed,
        Cause::PeerNever,
        Cause::PeerOther,
        Cause::Refused,
        Cause::Lost,
        Cause::NotSent,
        Cause::NotReceived,
    ];

    /// Of what the relay dropped of a client's.
    pub fn of_client(reason: Reason) -> Self {
        match reason {
            Reason::Lapsed => Cause::ClientLapsed,
            Reason::Never => Cause::ClientNever,
            Reason::Other => Cause::ClientOther,
        }
    }

    /// Of what the relay dropped of a peer's.
    pub fn of_peer(reason: Reason) -> Self {
        match reason {
            Reason::Lapsed => Cause::PeerLapsed,
            Reason::Never => Cause::PeerNever,
            Reason::Other => Cause::PeerOther,
        }
    }

    /// For people.
    pub fn text(self) -> &'static str {
        match self {
            Cause::Senseless => "neither STUN nor ChannelData",
            Cause::TooLong => "over 1,500 bytes",
            Cause::Tunnelled => "sent from Teredo or 6to4 addresses",
            Cause::Slowed => "without right credentials, too many a second from one address",
            Cause::ClientLapsed => "from clients: Send to a peer whose permission lapsed",
            Cause::ClientNever => "from clients: Send to a peer that never had a permission",
            Cause::ClientOther => "from clients: malformed, or no allocation or channel",
            Cause::PeerLapsed => "from peers: their permission lapsed",
            Cause::PeerNever => "from peers: they never had a permission",
            Cause::PeerOther => "from peers: no allocation has the port",
            Cause::Refused => "refused by the relay",
            Cause::Lost => "lost with the relay's program",
            Cause::NotSent => "could not be sent",
            Cause::NotReceived => "socket errors",
        }
    }

    /// For Prometheus.
    pub fn label(self) -> &'static str {
        match self {
            Cause::Senseless => "senseless",
            Cause::TooLong => "too_long",
            Cause::Tunnelled => "tunnelled",
            Cause::Slowed => "slowed",
            Cause::ClientLapsed => "client_lapsed",
            Cause::ClientNever => "client_never",
            Cause::ClientOther => "client_other",
            Cause::PeerLapsed => "peer_lapsed",
            Cause::PeerNever => "peer_never",
            Cause::PeerOther => "peer_other",
            Cause::Refused => "refused",
            Cause::Lost => "lost",
            Cause::NotSent => "not_sent",
            Cause::NotReceived => "not_received",
        }
    }
}

/// All counts since the start.
#[derive(Default)]
pub struct Counters {
    drops: [u64; Cause::ALL.len()],
    /// Data of clients that went to peers.
    pub to_peers: Flow,
    /// Data of peers that went to clients.
    pub to_clients: Flow,
    /// Requests that were accepted.
    pub accepted: u64,
    /// Error responses, by method and code.
    pub refusals: BTreeMap<(u16, u16), u64>,
}

impl Counters {
    /// One more of this cause.
    pub fn drop(&mut self, cause: Cause) {
        self.drops[cause as usize] += 1;
    }

    /// How many error responses had this code.
    pub fn refused_with(&self, wanted: u16) -> u64 {
        self.refusals
            .iter()
            .filter(|((_, code), _)| *code == wanted)
            .map(|(_, count)| count)
            .sum()
    }

    /// How many of this cause.
    pub fn dropped(&self, cause: Cause) -> u64 {
        self.drops[cause as usize]
    }
}

#[cfg(test)]
mod tests {
    use super::*;

    #[test]
    fn each_cause_has_its_own_count() {
        let mut counters = Counters::default();
        for (times, cause) in Cause::ALL.iter().enumerate() {
            for _ in 0..times {
                counters.drop(*cause);
            }
        }
        let counts: Vec<u64> = Cause::ALL.iter().map(|cause| counters.dropped(*cause)).collect();
        assert_eq!(counts, (0..14).collect::<Vec<u64>>());
    }

    #[test]
    fn drops_of_the_relay_have_their_reason() {
        let reasons = [Reason::Lapsed, Reason::Never, Reason::Other];
        let labels: Vec<&str> = (reasons.map(Cause::of_client).iter().chain(&reasons.map(Cause::of_peer)))
            .map(|cause| cause.label())
            .collect();
        assert_eq!(
            labels,
            [
                "client_lapsed",
                "client_never",
                "client_other",
                "peer_lapsed",
                "peer_never",
                "peer_other"
            ]
        );
    }

    #[test]
    fn refusals_are_counted_by_code() {
        let counters = Counters {
            refusals: BTreeMap::from([((8, 403), 2), ((9, 403), 3), ((8, 508), 7)]),
            ..Counters::default()
        };
        assert_eq!((counters.refused_with(403), counters.refused_with(437)), (5, 0));
    }
}
