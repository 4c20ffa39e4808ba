//! Why a request was refused, in words: the relay says a code, and the request and the ledger have the attribute or the limit behind it.

use crate::denied::Denied;
use crate::ledger::{Allocation, Ledger, SLOTS};
use crate::stun;
use std::fmt::Write;
use std::net::{SocketAddr, SocketAddrV4};

/// The attribute, number or limit behind an error response.
pub fn reason(ledger: &Ledger, denied: &Denied, user: u32, from: SocketAddr, request: &[u8], reply: &[u8]) -> String {
    let (method, own) = (stun::kind(request), ledger.of(from));
    match stun::error_code(reply).unwrap_or(0) {
        400 => malformed(own, request),
        401 => "no user has this address".to_string(),
        403 => denied_peer(denied, request),
        420 => unknown_attributes(reply),
        437 => own.map_or_else(
            || "it has no allocation".to_string(),
            |own| format!("it has relay port {}", own.relay_port),
        ),
        440 => numbered("REQUESTED-ADDRESS-FAMILY", request, stun::REQUESTED_ADDRESS_FAMILY, "only 1, IPv4"),
        441 => own.map_or_else(String::new, |own| format!("the allocation is user {}'s", own.user)),
        442 => numbered("REQUESTED-TRANSPORT", request, stun::REQUESTED_TRANSPORT, "only 17, UDP"),
        443 if method == stun::REFRESH => numbered("REQUESTED-ADDRESS-FAMILY", request, stun::REQUESTED_ADDRESS_FAMILY, "only 1, IPv4"),
        443 => "the peer is IPv6".to_string(),
        486 => format!("user {user} has {}", ledger.held_by(user)),
        508 => no_room(ledger, own, method),
        _ => String::new(),
    }
}

/// The first peer of a request that is denied, and which prefix denies it.
fn denied_peer(denied: &Denied, request: &[u8]) -> String {
    let told = |peer: SocketAddrV4| Some(format!("peer {} is {}", peer.ip(), denied.why(*peer.ip())?));
    stun::peers(request).find_map(told).unwrap_or_default()
}

/// The name of an attribute, for the ones that real clients send and the relay does not know or takes no other value of.
fn attribute_name(kind: u16) -> &'static str {
    match kind {
        0x0018 => " EVEN-PORT",
        0x001a => " DONT-FRAGMENT",
        0x0022 => " RESERVATION-TOKEN",
        0x0024 => " PRIORITY",
        0x0025 => " USE-CANDIDATE",
        0x002a => " CONNECTION-ID",
        _ => "",
    }
}

fn unknown_attributes(reply: &[u8]) -> String {
    let kinds = stun::first(reply, stun::UNKNOWN_ATTRIBUTES).unwrap_or(&[]);
    let mut text = String::new();
    for pair in kinds.chunks_exact(2) {
        let kind = u16::from_be_bytes([pair[0], pair[1]]);
        let comma = if text.is_empty() { "" } else { ", " };
        // Writing to a string never fails.
        let _ = write!(text, "{comma}{kind:#06x}{}", attribute_name(kind));
    }
    text
}

fn numbered(name: &str, request: &[u8], kind: u16, taken: &str) -> String {
    let number = stun::first(request, kind).and_then(|value| value.first().copied()).unwrap_or(0);
    format!("{name} {number}, {taken}")
}

/// Which attribute a 400 is about: the first that is missing or has a wrong length, or the channel that is taken.
fn malformed(own: Option<&Allocation>, request: &[u8]) -> String {
    let wrong = |name: &str, kind: u16, needed: bool| match stun::first(request, kind) {
        None => needed.then(|| format!("{name} is missing")),
        Some(value) if value.len() != 4 => Some(format!("{name} has {} bytes", value.len())),
        Some(_) => None,
    };
    let found = match stun::kind(request) {
        stun::ALLOCATE => wrong("REQUESTED-TRANSPORT", stun::REQUESTED_TRANSPORT, true),
        stun::CHANNEL_BIND => wrong("CHANNEL-NUMBER", stun::CHANNEL_NUMBER, true),
        _ => None,
    };
    let found = found.or_else(|| wrong("REQUESTED-ADDRESS-FAMILY", stun::REQUESTED_ADDRESS_FAMILY, false));
    let found = found.or_else(|| wrong("LIFETIME", stun::LIFETIME, false));
    let found = found.or_else(|| channel(own?, request));
    found.unwrap_or_else(|| "XOR-PEER-ADDRESS is missing or malformed".to_string())
}

fn channel(own: &Allocation, request: &[u8]) -> Option<String> {
    let (number, peer) = (stun::channel_number(request)?, stun::peers(request).next()?);
    if !(0x4000..=0x4fff).contains(&number) {
        return Some(format!("channel {number:#06x} is not from 0x4000 to 0x4fff"));
    }
    if let Some((other, _)) = own.channels.get(&number) {
        return Some(format!("channel {number:#06x} is {other}'s"));
    }
    let other = own.channels.iter().find(|(_, (bound, _))| *bound == peer)?.0;
    Some(format!("{peer} has channel {other:#06x}"))
}

fn no_room(ledger: &Ledger, own: Option<&Allocation>, method: u16) -> String {
    match (method, own) {
        (stun::ALLOCATE, _) => format!("{} of {SLOTS} allocations are taken", ledger.allocations().count()),
        (_, Some(own)) => format!("it has {} permissions and {} channels", own.permissions.len(), own.channels.len()),
        _ => String::new(),
    }
}

#[cfg(test)]
mod tests {
    use super::*;
    use crate::ledger::tests::{allocate, bind, client};
    use crate::stun::request;

    /// The reason for this code, of a client with an allocation and a channel.
    fn why(code: u16, method: u16, attributes: &[(u16, &[u8])]) -> String {
        let mut ledger = Ledger::new();
        allocate(&mut ledger, 0, client(1), 49157, 600);
        bind(&mut ledger, 0, client(1), 0x4000, "192.0.2.150:5000").expect("it is bound");
        let asked = request(method, attributes);
        let denied = Denied::open(true, None).expect("the defaults");
        reason(&ledger, &denied, 3, client(1), &asked, &stun::error_response(&asked, code))
    }

    /// The value of XOR-PEER-ADDRESS.
    fn to(text: &str) -> [u8; 8] {
        stun::ipv4_value(text.parse().expect("an address"))
    }

    #[test]
    fn limits_and_owners() {
        assert_eq!(why(486, stun::ALLOCATE, &[]), "user 3 has 1");
        assert_eq!(why(508, stun::ALLOCATE, &[]), "1 of 64 allocations are taken");
        assert_eq!(why(508, stun::CREATE_PERMISSION, &[]), "it has 1 permissions and 1 channels");
        assert_eq!(why(441, stun::REFRESH, &[]), "the allocation is user 3's");
        assert_eq!(why(437, stun::ALLOCATE, &[]), "it has relay port 49157");
        assert_eq!(
            why(442, stun::ALLOCATE, &[(stun::REQUESTED_TRANSPORT, &[6, 0, 0, 0])]),
            "REQUESTED-TRANSPORT 6, only 17, UDP"
        );
        let asked = request(4, &[]);
        let reply = stun::error_response(&asked, 437);
        let none = reason(&Ledger::new(), &Denied::default(), 0, client(9), &asked, &reply);
        assert_eq!(none, "it has no allocation");
    }

    #[test]
    fn denied_peers_are_named() {
        let (good, bad) = (to("192.0.2.1:1"), to("127.0.0.9:1"));
        for method in [stun::CREATE_PERMISSION, stun::CHANNEL_BIND] {
            assert_eq!(
                why(403, method, &[(stun::XOR_PEER_ADDRESS, &good), (stun::XOR_PEER_ADDRESS, &bad)]),
                "peer 127.0.0.9 is denied by 127.0.0.0/8, a default of relayd"
            );
        }
    }

    #[test]
    fn unknown_attributes_are_named() {
        let reply = request(
            0x0113,
            &[
                (stun::ERROR_CODE, &[0, 0, 4, 20]),
                (stun::UNKNOWN_ATTRIBUTES, &[0, 0x18, 0x7f, 0xff]),
            ],
        );
        let text = reason(&Ledger::new(), &Denied::default(), 3, client(1), &request(3, &[]), &reply);
        assert_eq!(text, "0x0018 EVEN-PORT, 0x7fff");
    }

    #[test]
    fn bad_requests_name_their_attribute() {
        assert_eq!(why(400, stun::ALLOCATE, &[]), "REQUESTED-TRANSPORT is missing");
        assert_eq!(why(400, stun::REFRESH, &[(stun::LIFETIME, &[0; 8])]), "LIFETIME has 8 bytes");
        assert_eq!(why(400, stun::CREATE_PERMISSION, &[]), "XOR-PEER-ADDRESS is missing or malformed");
        let bound = |number: [u8; 2], peer: &str| {
            let value = [number[0], number[1], 0, 0];
            why(
                400,
                stun::CHANNEL_BIND,
                &[(stun::CHANNEL_NUMBER, &value), (stun::XOR_PEER_ADDRESS, &to(peer))],
            )
        };
        assert_eq!(bound([0x50, 0], "192.0.2.1:1"), "channel 0x5000 is not from 0x4000 to 0x4fff");
        assert_eq!(bound([0x40, 0], "192.0.2.1:1"), "channel 0x4000 is 192.0.2.150:5000's");
        assert_eq!(bound([0x40, 1], "192.0.2.150:5000"), "192.0.2.150:5000 has channel 0x4000");
    }
}
