//! The live allocations, as the accepted requests and their replies tell them.
//!
//! The relay's own table is inside the proved program. An accepted request and its reply say all that it changes there (document 01's words
//! of demand 3), so relayd keeps the same table beside it: to show it, to let the kernel drop what has no permission, to say why something
//! was dropped, and to make a new program's table if the old one ends. A test holds it against the program's own listing.

use crate::filter::Strangers;
use crate::stun::{self, TransactionId};
use std::collections::BTreeMap;
use std::net::{Ipv4Addr, SocketAddr, SocketAddrV4};

/// The first relay port of document 01.
pub const FIRST_PORT: u16 = 49152;
/// How many there are.
pub const PORTS: u16 = 128;
/// How many allocations there can be.
pub const SLOTS: usize = 64;
/// Document 01's times of life, in seconds.
pub const PERMISSION: u64 = 300;
pub const CHANNEL: u64 = 600;
/// How many permissions that have lapsed are remembered for an allocation: twice as many as it can have.
const REMEMBERED: usize = 16;

/// Packets and bytes of data that went one way.
#[derive(Clone, Copy, Default, Debug, PartialEq, Eq)]
pub struct Flow {
    pub packets: u64,
    pub bytes: u64,
}

impl Flow {
    /// One more packet.
    pub fn add(&mut self, bytes: usize) {
        self.packets += 1;
        self.bytes += bytes as u64;
    }
}

/// One allocation. Times are the relay's seconds.
#[derive(Clone, Debug, PartialEq, Eq)]
pub struct Allocation {
    pub user: u32,
    pub client: SocketAddr,
    /// Of the Allocate that made it.
    pub transaction: TransactionId,
    pub relay_port: u16,
    pub expiry: u64,
    /// When each ends.
    pub permissions: BTreeMap<Ipv4Addr, u64>,
    /// Those that have lapsed last and were not made again, and when each has; oldest first.
    lapsed: Vec<(Ipv4Addr, u64)>,
    /// Its peer, and when it ends.
    pub channels: BTreeMap<u16, (SocketAddrV4, u64)>,
    pub to_peers: Flow,
    pub to_client: Flow,
    /// What came at its port from those who are not known there.
    pub strangers: Strangers,
}

/// What an accepted request has changed.
#[derive(Debug, PartialEq, Eq)]
pub enum Change {
    /// An allocation, for so many seconds.
    Made(u64),
    /// None: the client asked again, and was told how many seconds it has left.
    ToldAgain(u64),
    /// It now ends so many seconds from now.
    Refreshed(u64),
    /// It is over.
    GivenBack(Box<Allocation>),
    /// These are permitted that were not before.
    Permitted(Vec<Ipv4Addr>),
    /// A channel, and whether it was not there before.
    Bound {
        number: u16,
        peer: SocketAddrV4,
        new: bool,
        permitted: bool,
    },
}

/// All of them, by relay port.
pub struct Ledger(Vec<Option<Allocation>>);

impl Ledger {
    /// Of a fresh relay.
    pub fn new() -> Self {
        Ledger((0..PORTS).map(|_| None).collect())
    }

    /// Those that have not been ended, in the order of their ports.
    pub fn allocations(&self) -> impl Iterator<Item = &Allocation> {
        self.0.iter().flatten()
    }

    /// The allocation of a relay port.
    pub fn at(&self, relay_port: u16) -> Option<&Allocation> {
        self.0.get(place(relay_port))?.as_ref()
    }

    /// The allocation of a relay port, to count what it carries.
    pub fn at_mut(&mut self, relay_port: u16) -> Option<&mut Allocation> {
        self.0.get_mut(place(relay_port))?.as_mut()
    }

    /// The allocation of a client.
    pub fn of(&self, client: SocketAddr) -> Option<&Allocation> {
        self.allocations().find(|allocation| allocation.client == client)
    }

    /// How many a user has.
    pub fn held_by(&self, user: u32) -> usize {
        self.allocations().filter(|allocation| allocation.user == user).count()
    }

    /// Takes in an accepted request and its success response: the relay port, and what has changed.
    pub fn record(&mut self, now: u64, user: u32, client: SocketAddr, request: &[u8], reply: &[u8]) -> Option<(u16, Change)> {
        if stun::kind(request) == stun::ALLOCATE {
            return self.allocated(now, user, client, request, reply);
        }
        let relay_port = self.of(client)?.relay_port;
        let allocation = self.at_mut(relay_port)?;
        let change = match stun::kind(request) {
            stun::REFRESH => match stun::lifetime(reply)? {
                0 => Change::GivenBack(Box::new(self.0[place(relay_port)].take()?)),
                seconds => {
                    allocation.expiry = now + seconds;
                    Change::Refreshed(seconds)
                }
            },
            stun::CREATE_PERMISSION => Change::Permitted(allocation.permit(now, stun::peers(request))),
            stun::CHANNEL_BIND => allocation.bind(now, stun::channel_number(request)?, stun::peers(request).next()?),
            _ => return None,
        };
        Some((relay_port, change))
    }

    /// A success response to a client that has an allocation is the answer to a repeat, and changes nothing.
    fn allocated(&mut self, now: u64, user: u32, client: SocketAddr, request: &[u8], reply: &[u8]) -> Option<(u16, Change)> {
        let (relay_port, seconds) = (stun::relayed_address(reply)?.port(), stun::lifetime(reply)?);
        if self.of(client).is_some() {
            return Some((relay_port, Change::ToldAgain(seconds)));
        }
        *self.0.get_mut(place(relay_port))? = Some(Allocation {
            user,
            client,
            transaction: stun::transaction_id(request),
            relay_port,
            expiry: now + seconds,
            permissions: BTreeMap::new(),
            lapsed: Vec::new(),
            channels: BTreeMap::new(),
            to_peers: Flow::default(),
            to_client: Flow::default(),
            strangers: Strangers::default(),
        });
        Some((relay_port, Change::Made(seconds)))
    }

    /// Takes out what is over at this time, and gives the allocations.
    pub fn lapse(&mut self, now: u64) -> Vec<Allocation> {
        let mut over = Vec::new();
        for slot in &mut self.0 {
            let Some(allocation) = slot else { continue };
            allocation.lapse(now);
            if allocation.expiry <= now {
                over.extend(slot.take());
            }
        }
        over
    }
}

impl Allocation {
    /// When a host's permission has lapsed, if that is remembered.
    pub fn lapsed_at(&self, host: Ipv4Addr) -> Option<u64> {
        self.lapsed.iter().find(|(other, _)| *other == host).map(|(_, second)| *second)
    }

    /// Those that have a permission, and those whose permission has lapsed.
    pub fn known(&self) -> impl Iterator<Item = Ipv4Addr> {
        self.permissions.keys().copied().chain(self.lapsed.iter().map(|(host, _)| *host))
    }

    /// Those that were not permitted before.
    fn permit(&mut self, now: u64, peers: impl Iterator<Item = SocketAddrV4>) -> Vec<Ipv4Addr> {
        let hosts = peers.map(|peer| *peer.ip());
        let new: Vec<Ipv4Addr> = hosts
            .filter(|host| self.permissions.insert(*host, now + PERMISSION).is_none())
            .collect();
        self.lapsed.retain(|(host, _)| !new.contains(host));
        new
    }

    /// Takes out the permissions and channels that are over, and remembers the permissions that were the last.
    fn lapse(&mut self, now: u64) {
        let over = self.permissions.iter().filter(|(_, expiry)| **expiry <= now);
        self.lapsed.extend(over.map(|(host, expiry)| (*host, *expiry)));
        self.lapsed.sort_by_key(|(_, second)| *second);
        self.lapsed.drain(..self.lapsed.len().saturating_sub(REMEMBERED));
        self.permissions.retain(|_, expiry| now < *expiry);
        self.channels.retain(|_, (_, expiry)| now < *expiry);
    }

    fn bind(&mut self, now: u64, number: u16, peer: SocketAddrV4) -> Change {
        let permitted = !self.permit(now, std::iter::once(peer)).is_empty();
        let new = self.channels.insert(number, (peer, now + CHANNEL)).is_none();
        Change::Bound {
            number,
            peer,
            new,
            permitted,
        }
    }
}

/// Where a relay port stands among the relay ports; past their end for any other.
pub fn place(relay_port: u16) -> usize {
    usize::from(relay_port.wrapping_sub(FIRST_PORT))
}

#[cfg(test)]
pub mod tests {
    use super::*;
    use crate::stun::{LIFETIME, XOR_PEER_ADDRESS, XOR_RELAYED_ADDRESS, ipv4_value, request};

    pub fn peer(text: &str) -> SocketAddrV4 {
        text.parse().expect("an address")
    }

    pub fn client(port: u16) -> SocketAddr {
        SocketAddr::from(([198, 51, 100, 7], port))
    }

    /// Lets a client have an allocation at this port until this time.
    pub fn allocate(ledger: &mut Ledger, now: u64, from: SocketAddr, relay_port: u16, seconds: u32) {
        let relayed = ipv4_value(SocketAddrV4::new(Ipv4Addr::LOCALHOST, relay_port));
        let reply = request(0x0103, &[(XOR_RELAYED_ADDRESS, &relayed), (LIFETIME, &seconds.to_be_bytes())]);
        let change = ledger.record(now, 3, from, &request(stun::ALLOCATE, &[]), &reply);
        assert_eq!(change, Some((relay_port, Change::Made(seconds.into()))));
    }

    /// Binds a channel.
    pub fn bind(ledger: &mut Ledger, now: u64, from: SocketAddr, number: u16, to: &str) -> Option<(u16, Change)> {
        let [high, low] = number.to_be_bytes();
        let attributes: [(u16, &[u8]); 2] = [
            (stun::CHANNEL_NUMBER, &[high, low, 0, 0]),
            (XOR_PEER_ADDRESS, &ipv4_value(peer(to))),
        ];
        ledger.record(now, 3, from, &request(stun::CHANNEL_BIND, &attributes), &[])
    }

    #[test]
    fn an_allocation_from_its_making_to_its_end() {
        let mut ledger = Ledger::new();
        allocate(&mut ledger, 10, client(1), 49157, 600);
        let bound = bind(&mut ledger, 20, client(1), 0x4000, "192.0.2.150:5000");
        let (number, to) = (0x4000, peer("192.0.2.150:5000"));
        let new = |new| Change::Bound {
            number,
            peer: to,
            new,
            permitted: new,
        };
        assert_eq!(bound, Some((49157, new(true))));
        assert_eq!(
            bind(&mut ledger, 30, client(1), 0x4000, "192.0.2.150:5000"),
            Some((49157, new(false)))
        );
        let refresh = request(stun::REFRESH, &[]);
        let refreshed = ledger.record(40, 3, client(1), &refresh, &request(0x0104, &[(LIFETIME, &700u32.to_be_bytes())]));
        assert_eq!(refreshed, Some((49157, Change::Refreshed(700))));
        assert_eq!(ledger.of(client(1)).expect("it is there").expiry, 740);
        let over = ledger.record(50, 3, client(1), &refresh, &request(0x0104, &[(LIFETIME, &[0; 4])]));
        assert!(matches!(over, Some((49157, Change::GivenBack(_)))));
        assert_eq!(ledger.allocations().count(), 0);
    }

    #[test]
    fn a_repeat_changes_nothing() {
        let mut ledger = Ledger::new();
        allocate(&mut ledger, 10, client(1), 49157, 600);
        bind(&mut ledger, 20, client(1), 0x4000, "192.0.2.150:5000");
        ledger.at_mut(49157).expect("it is there").to_peers.add(4);
        let before = ledger.of(client(1)).cloned();
        let relayed = ipv4_value(SocketAddrV4::new(Ipv4Addr::LOCALHOST, 49157));
        let reply = request(0x0103, &[(XOR_RELAYED_ADDRESS, &relayed), (LIFETIME, &580u32.to_be_bytes())]);
        let again = ledger.record(30, 3, client(1), &request(stun::ALLOCATE, &[]), &reply);
        assert_eq!(again, Some((49157, Change::ToldAgain(580))));
        assert_eq!(ledger.of(client(1)).cloned(), before);
    }

    #[test]
    fn what_is_over_is_taken_out_at_its_second() {
        let mut ledger = Ledger::new();
        allocate(&mut ledger, 0, client(1), 49152, 600);
        allocate(&mut ledger, 0, client(2), 49279, 3600);
        bind(&mut ledger, 0, client(2), 0x4000, "192.0.2.150:5000");
        let permitted = |ledger: &Ledger| ledger.at(49279).map(|allocation| allocation.permissions.len());
        assert_eq!((ledger.lapse(299), permitted(&ledger)), (vec![], Some(1)));
        assert_eq!((ledger.lapse(300), permitted(&ledger)), (vec![], Some(0)));
        let over = ledger.lapse(600);
        assert_eq!(over.iter().map(|gone| gone.relay_port).collect::<Vec<_>>(), [49152]);
        assert!(ledger.at(49279).expect("it is there").channels.is_empty());
    }

    /// Makes a permission for 192.0.2.HOST.
    fn permit(ledger: &mut Ledger, now: u64, host: u8) {
        let value = ipv4_value(SocketAddrV4::new([192, 0, 2, host].into(), 0));
        let made = ledger.record(
            now,
            3,
            client(1),
            &request(stun::CREATE_PERMISSION, &[(XOR_PEER_ADDRESS, &value)]),
            &[],
        );
        assert!(matches!(made, Some((49157, Change::Permitted(_)))));
    }

    /// When the permission for 192.0.2.HOST has lapsed, and whether that host is known.
    fn lapsed(ledger: &Ledger, host: u8) -> (Option<u64>, bool) {
        let (own, host) = (ledger.at(49157).expect("it is there"), [192, 0, 2, host].into());
        (own.lapsed_at(host), own.known().any(|known| known == host))
    }

    #[test]
    fn a_lapsed_permission_is_remembered_until_it_is_made_again() {
        let mut ledger = Ledger::new();
        allocate(&mut ledger, 0, client(1), 49157, 3600);
        permit(&mut ledger, 10, 1);
        ledger.lapse(309);
        assert_eq!(lapsed(&ledger, 1), (None, true));
        ledger.lapse(312);
        assert_eq!(lapsed(&ledger, 1), (Some(310), true));
        assert_eq!(lapsed(&ledger, 2), (None, false));
        permit(&mut ledger, 320, 1);
        assert_eq!(lapsed(&ledger, 1), (None, true));
        ledger.lapse(1000);
        assert_eq!(lapsed(&ledger, 1), (Some(620), true));
        // It goes with its allocation: the next one at the port begins anew.
        ledger.lapse(3600);
        allocate(&mut ledger, 3600, client(1), 49157, 600);
        assert_eq!(lapsed(&ledger, 1), (None, false));
    }

    #[test]
    fn the_last_that_lapsed_are_remembered() {
        let mut ledger = Ledger::new();
        allocate(&mut ledger, 0, client(1), 49157, 3600);
        // Made in an order that is not that of their addresses.
        for step in 0..20 {
            permit(&mut ledger, u64::from(step), 40 - step);
        }
        ledger.lapse(1000);
        for step in 0..20 {
            let second = (step >= 4).then_some(300 + u64::from(step));
            assert_eq!(lapsed(&ledger, 40 - step), (second, step >= 4), "{step}");
        }
    }

    #[test]
    fn what_has_no_allocation_changes_nothing() {
        let mut ledger = Ledger::new();
        assert_eq!(bind(&mut ledger, 0, client(1), 0x4000, "192.0.2.150:5000"), None);
        assert!(ledger.at(49151).is_none() && ledger.at_mut(49280).is_none());
    }
}
