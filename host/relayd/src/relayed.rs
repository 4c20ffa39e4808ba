//! The relayed address in an Allocate's success response.
//!
//! The program `calls` has its relay address built in: 203.0.113.5. On a host whose relay address is another, clients must be told that
//! one. This is the only place at which relayd changes a byte of what the relay says, it is outside the proof, and it goes when the
//! relay is linked and takes its address with each call.

use std::net::Ipv4Addr;

/// The address that `calls` writes.
pub const BUILT_IN: Ipv4Addr = Ipv4Addr::new(203, 0, 113, 5);

/// An Allocate's success response, and where XOR-RELAYED-ADDRESS stands in it: document 01 puts it first.
const ALLOCATE_SUCCESS: [u8; 2] = [0x01, 0x03];
const HEAD: [u8; 6] = [0x00, 0x16, 0x00, 0x08, 0x00, 0x01];
const COOKIE: [u8; 4] = [0x21, 0x12, 0xa4, 0x42];

/// Writes `relay` in place of the built-in address, in an Allocate's success response; leaves all other replies alone.
pub fn translate(reply: &mut [u8], relay: Ipv4Addr) {
    if relay == BUILT_IN || reply.len() < 32 || reply[..2] != ALLOCATE_SUCCESS || reply[20..26] != HEAD {
        return;
    }
    for (place, (byte, key)) in relay.octets().iter().zip(COOKIE).enumerate() {
        reply[28 + place] = byte ^ key;
    }
}

#[cfg(test)]
mod tests {
    use super::*;

    /// The first reply of document 01's sample.
    const SAMPLE: &[u8] = b"010300202112a442000102030405060708090a0b001600080001e117ea12d547000d000400000258002000080001bd52e721c045";

    fn sample() -> Vec<u8> {
        let mut bytes = Vec::new();
        crate::line::read_hex(SAMPLE, &mut bytes).expect("hex");
        bytes
    }

    #[test]
    fn only_the_four_bytes_change() {
        let mut reply = sample();
        translate(&mut reply, Ipv4Addr::LOCALHOST);
        let mut expected = sample();
        expected[28..32].copy_from_slice(&[127 ^ 0x21, 0x12, 0xa4, 1 ^ 0x42]);
        assert_eq!(reply, expected);
    }

    #[test]
    fn the_built_in_address_is_left_alone() {
        let mut reply = sample();
        translate(&mut reply, BUILT_IN);
        assert_eq!(reply, sample());
    }

    #[test]
    fn other_replies_are_left_alone() {
        let refresh: Vec<u8> = [&[0x01, 0x04], &sample()[2..]].concat();
        let channel_data: Vec<u8> = [&[0x40, 0x00], &sample()[2..]].concat();
        for before in [refresh, channel_data, sample()[..31].to_vec(), Vec::new()] {
            let mut after = before.clone();
            translate(&mut after, Ipv4Addr::LOCALHOST);
            assert_eq!(after, before);
        }
    }
}
