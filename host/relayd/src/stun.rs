//! What relayd itself reads of STUN messages: of the requests that the relay has accepted, and of its replies. And how the few messages
//! that relayd writes are put together. Deciding about a message is the relay's.

use std::net::{Ipv4Addr, SocketAddrV4};

/// The methods.
pub const ALLOCATE: u16 = 0x0003;
pub const REFRESH: u16 = 0x0004;
pub const CREATE_PERMISSION: u16 = 0x0008;
pub const CHANNEL_BIND: u16 = 0x0009;
const DATA: u16 = 0x0017;

/// The attributes.
pub const ERROR_CODE: u16 = 0x0009;
pub const UNKNOWN_ATTRIBUTES: u16 = 0x000a;
pub const CHANNEL_NUMBER: u16 = 0x000c;
pub const LIFETIME: u16 = 0x000d;
pub const XOR_PEER_ADDRESS: u16 = 0x0012;
pub const XOR_RELAYED_ADDRESS: u16 = 0x0016;
pub const REQUESTED_ADDRESS_FAMILY: u16 = 0x0017;
pub const REQUESTED_TRANSPORT: u16 = 0x0019;
pub const MESSAGE_INTEGRITY: u16 = 0x0008;
pub const MESSAGE_INTEGRITY_SHA256: u16 = 0x001c;

const SUCCESS: u16 = 0x0100;
const ERROR: u16 = 0x0110;
pub const COOKIE: u32 = 0x2112_a442;
/// How long a message's header is.
pub const HEADER: usize = 20;

/// The 96 bits that tie a response to its request.
pub type TransactionId = [u8; 12];
/// Nobody's.
pub const NO_TRANSACTION: TransactionId = [0; 12];

fn word(bytes: &[u8]) -> u16 {
    match bytes {
        [high, low, ..] => u16::from_be_bytes([*high, *low]),
        _ => 0,
    }
}

/// The message type; of an accepted request or an indication, its method.
pub fn kind(message: &[u8]) -> u16 {
    word(message)
}

/// What a response is to: its method, and whether it is a success.
pub fn response(message: &[u8]) -> Option<(u16, bool)> {
    match kind(message) {
        kind if message.len() < HEADER || kind & !0x011f != 0 => None,
        kind if kind & ERROR == ERROR => Some((kind & !ERROR, false)),
        kind if kind & ERROR == SUCCESS => Some((kind & !SUCCESS, true)),
        _ => None,
    }
}

/// An attribute, and where in its message it starts.
pub struct Attribute<'a> {
    pub start: usize,
    pub kind: u16,
    pub value: &'a [u8],
}

impl Attribute<'_> {
    /// Where the next one starts.
    pub fn end(&self) -> usize {
        self.start + 4 + self.value.len().next_multiple_of(4)
    }
}

/// Every attribute, up to the first that does not fit whole.
pub fn all_attributes(message: &[u8]) -> impl Iterator<Item = Attribute<'_>> {
    let mut start = HEADER;
    std::iter::from_fn(move || {
        let (head, behind) = message.get(start..)?.split_at_checked(4)?;
        let length = usize::from(word(&head[2..]));
        let value = behind.get(..length.next_multiple_of(4))?.get(..length)?;
        let kind = word(head);
        let found = Attribute { start, kind, value };
        start = found.end();
        Some(found)
    })
}

/// The attributes up to MESSAGE-INTEGRITY, each with its type: what the relay reads of a message that it has taken.
pub fn attributes(message: &[u8]) -> impl Iterator<Item = (u16, &[u8])> {
    all_attributes(message)
        .take_while(|attribute| !matches!(attribute.kind, MESSAGE_INTEGRITY | MESSAGE_INTEGRITY_SHA256))
        .map(|attribute| (attribute.kind, attribute.value))
}

/// The value of the first attribute of a type.
pub fn first(message: &[u8], wanted: u16) -> Option<&[u8]> {
    attributes(message).find(|(kind, _)| *kind == wanted).map(|(_, value)| value)
}

/// LIFETIME's seconds.
pub fn lifetime(message: &[u8]) -> Option<u64> {
    let value: [u8; 4] = first(message, LIFETIME)?.try_into().ok()?;
    Some(u32::from_be_bytes(value).into())
}

/// CHANNEL-NUMBER's number.
pub fn channel_number(message: &[u8]) -> Option<u16> {
    first(message, CHANNEL_NUMBER).map(word)
}

/// The peers of a request: every XOR-PEER-ADDRESS that is IPv4.
pub fn peers(message: &[u8]) -> impl Iterator<Item = SocketAddrV4> {
    attributes(message)
        .filter(|(kind, _)| *kind == XOR_PEER_ADDRESS)
        .filter_map(|(_, value)| ipv4(value))
}

/// XOR-RELAYED-ADDRESS.
pub fn relayed_address(message: &[u8]) -> Option<SocketAddrV4> {
    ipv4(first(message, XOR_RELAYED_ADDRESS)?)
}

/// An IPv4 address and port from the value of an attribute that has them under the cookie.
fn ipv4(value: &[u8]) -> Option<SocketAddrV4> {
    let [_, 1, high, low, a, b, c, d] = *value else { return None };
    let port = u16::from_be_bytes([high, low]) ^ 0x2112;
    Some(SocketAddrV4::new(Ipv4Addr::from(u32::from_be_bytes([a, b, c, d]) ^ COOKIE), port))
}

/// The value of such an attribute.
pub fn ipv4_value(address: SocketAddrV4) -> [u8; 8] {
    let [high, low] = (address.port() ^ 0x2112).to_be_bytes();
    let [a, b, c, d] = (address.ip().to_bits() ^ COOKIE).to_be_bytes();
    [0, 1, high, low, a, b, c, d]
}

/// An error response's code.
pub fn error_code(message: &[u8]) -> Option<u16> {
    match first(message, ERROR_CODE)? {
        [_, _, hundreds, rest, ..] => Some(u16::from(*hundreds) * 100 + u16::from(*rest)),
        _ => None,
    }
}

/// A message's transaction id; zeros where it has none.
pub fn transaction_id(message: &[u8]) -> TransactionId {
    message.get(8..HEADER).and_then(|id| id.try_into().ok()).unwrap_or(NO_TRANSACTION)
}

/// A request without a transaction of anybody's.
#[cfg(test)]
pub fn request(method: u16, attributes: &[(u16, &[u8])]) -> Vec<u8> {
    request_of(NO_TRANSACTION, method, attributes)
}

/// A request of this transaction, from a method and attributes.
pub fn request_of(transaction: TransactionId, method: u16, attributes: &[(u16, &[u8])]) -> Vec<u8> {
    message(method, &transaction, attributes)
}

/// The error response to a request, as the relay would write it.
#[cfg(any(test, feature = "front"))]
pub fn error_response(request: &[u8], code: u16) -> Vec<u8> {
    let [hundreds, rest] = [code / 100, code % 100].map(|part| u8::try_from(part).unwrap_or(0));
    message(
        kind(request) | ERROR,
        &transaction_id(request),
        &[(ERROR_CODE, &[0, 0, hundreds, rest])],
    )
}

fn message(kind: u16, transaction: &TransactionId, attributes: &[(u16, &[u8])]) -> Vec<u8> {
    let mut message = [&kind.to_be_bytes()[..], &[0, 0], &COOKIE.to_be_bytes(), transaction].concat();
    for (kind, value) in attributes {
        append(&mut message, *kind, value);
    }
    message
}

/// Adds an attribute to a message, padded with zeros, and its length to the header.
pub fn append(message: &mut Vec<u8>, kind: u16, value: &[u8]) {
    message.extend(kind.to_be_bytes());
    message.extend(length_field(value.len()));
    message.extend(value);
    message.resize(message.len().next_multiple_of(4), 0);
    let length = length_field(message.len() - HEADER);
    message[2..4].copy_from_slice(&length);
}

/// A length as a message has it. Nothing that relayd reads or writes comes near 65,535 bytes.
pub fn length_field(length: usize) -> [u8; 2] {
    u16::try_from(length).unwrap_or(u16::MAX).to_be_bytes()
}

/// Whether a datagram is one that a client can send: STUN or `ChannelData`, by its first byte.
pub fn has_a_known_first_byte(datagram: &[u8]) -> bool {
    matches!(datagram.first(), Some(0..=3 | 64..=79))
}

/// Whether a reply is a Data indication.
pub fn is_data(message: &[u8]) -> bool {
    message.len() >= HEADER && kind(message) == DATA
}

/// The name of a method.
pub fn method_name(method: u16) -> &'static str {
    match method {
        ALLOCATE => "Allocate",
        REFRESH => "Refresh",
        CREATE_PERMISSION => "CreatePermission",
        CHANNEL_BIND => "ChannelBind",
        _ => "unknown method",
    }
}

/// RFC 8656's and RFC 8489's phrase for a code.
pub fn phrase(code: u16) -> &'static str {
    match code {
        400 => "Bad Request",
        401 => "Unauthorized",
        403 => "Forbidden",
        420 => "Unknown Attribute",
        437 => "Allocation Mismatch",
        438 => "Stale Nonce",
        440 => "Address Family not Supported",
        441 => "Wrong Credentials",
        442 => "Unsupported Transport Protocol",
        443 => "Peer Address Family Mismatch",
        486 => "Allocation Quota Reached",
        508 => "Insufficient Capacity",
        _ => "unknown code",
    }
}

#[cfg(test)]
mod tests {
    use super::*;

    fn bytes(hex: &str) -> Vec<u8> {
        let mut bytes = Vec::new();
        crate::line::read_hex(hex.as_bytes(), &mut bytes).expect("hex");
        bytes
    }

    #[test]
    fn document_01s_sample_is_read() {
        let reply = bytes("010300202112a442000102030405060708090a0b001600080001e117ea12d547000d000400000258002000080001bd52e721c045");
        assert_eq!(response(&reply), Some((ALLOCATE, true)));
        assert_eq!(relayed_address(&reply), "203.0.113.5:49157".parse().ok());
        assert_eq!(lifetime(&reply), Some(600));
        let request = bytes("0008000c2112a442101112131415161718191a1b0012000800012112e112a6d4");
        assert_eq!(kind(&request), CREATE_PERMISSION);
        assert_eq!(peers(&request).collect::<Vec<_>>(), ["192.0.2.150:0".parse().expect("an address")]);
        assert_eq!(response(&request), None);
    }

    #[test]
    fn what_is_written_is_read_back() {
        let peer = "192.0.2.150:5000".parse().expect("an address");
        let made = request(
            CHANNEL_BIND,
            &[(CHANNEL_NUMBER, &[0x4f, 0xff, 0, 0]), (XOR_PEER_ADDRESS, &ipv4_value(peer))],
        );
        assert_eq!(channel_number(&made), Some(0x4fff));
        assert_eq!(peers(&made).collect::<Vec<_>>(), [peer]);
        let error = error_response(&made, 403);
        assert_eq!(response(&error), Some((CHANNEL_BIND, false)));
        assert_eq!(error_code(&error), Some(403));
    }

    #[test]
    fn what_follows_the_integrity_is_not_read() {
        let mut made = request(CREATE_PERMISSION, &[(MESSAGE_INTEGRITY, &[0; 20]), (LIFETIME, &[0; 4])]);
        assert_eq!(attributes(&made).count(), 0);
        made.truncate(30);
        assert_eq!(attributes(&made).count(), 0);
        assert_eq!(attributes(b"").count(), 0);
    }

    #[test]
    fn first_bytes() {
        let known = (0..=255u8).filter(|byte| has_a_known_first_byte(&[*byte])).count();
        assert_eq!(known, 20);
        assert!(!has_a_known_first_byte(b""));
    }
}
