//! Nonces that carry their own expiry and are for one client address, under a key made at the start: nothing is kept for strangers.

use crate::line::{put_hex, read_hex};
use hmac::{Hmac, Mac};
use sha2::Sha256;
use std::net::{IpAddr, SocketAddr};

/// RFC 8489's nonce cookie, and the security features as base64: password algorithms (bit 0) and user names as hashes (bit 1).
const COOKIE: &[u8] = b"obMatJos2wAAA";
/// In seconds; RFC 8656 section 5 asks for a new one every hour at least.
const LIFETIME: u64 = 3600;
/// The bytes of the expiry: the relay's time is below 2^40.
const EXPIRY: usize = 5;
/// The bytes of the code, which nobody guesses in an hour.
const CODE: usize = 12;

/// Makes nonces, and knows its own.
pub struct Nonces {
    key: [u8; 32],
}

impl Nonces {
    /// With this key, which nobody else may know.
    pub fn new(key: [u8; 32]) -> Self {
        Nonces { key }
    }

    /// A nonce for this client, good for an hour.
    pub fn make(&self, now: u64, client: SocketAddr) -> Vec<u8> {
        let expiry = &now.saturating_add(LIFETIME).to_be_bytes()[8 - EXPIRY..];
        let code = self.code(expiry, client).finalize().into_bytes();
        let mut nonce = COOKIE.to_vec();
        put_hex(&mut nonce, expiry);
        put_hex(&mut nonce, &code[..CODE]);
        nonce
    }

    /// Whether a nonce is one of ours for this client, and not over.
    pub fn is_good(&self, now: u64, client: SocketAddr, nonce: &[u8]) -> bool {
        let mut bytes = Vec::new();
        let Some(digits) = nonce.strip_prefix(COOKIE) else { return false };
        if digits.len() != 2 * (EXPIRY + CODE) || read_hex(digits, &mut bytes).is_none() {
            return false;
        }
        let (expiry, code) = bytes.split_at(EXPIRY);
        let ours = self.code(expiry, client).verify_truncated_left(code).is_ok();
        ours && now < expiry.iter().fold(0, |number, &byte| number << 8 | u64::from(byte))
    }

    fn code(&self, expiry: &[u8], client: SocketAddr) -> Hmac<Sha256> {
        let address = match client.ip() {
            IpAddr::V4(ip) => ip.to_ipv6_mapped(),
            IpAddr::V6(ip) => ip,
        };
        let mut code = Hmac::new_from_slice(&self.key).expect("a key of any length");
        code.update(expiry);
        code.update(&address.octets());
        code.update(&client.port().to_be_bytes());
        code
    }
}

#[cfg(test)]
mod tests {
    use super::*;

    fn at(text: &str) -> SocketAddr {
        text.parse().expect("an address")
    }

    #[test]
    fn good_for_an_hour() {
        let nonces = Nonces::new([1; 32]);
        for client in [at("192.0.2.7:4000"), at("[fd00::7]:4000")] {
            let nonce = nonces.make(1000, client);
            assert!(nonces.is_good(1000, client, &nonce));
            assert!(nonces.is_good(4599, client, &nonce));
            assert!(!nonces.is_good(4600, client, &nonce));
        }
    }

    #[test]
    fn for_one_address_and_port_and_one_start() {
        let nonces = Nonces::new([1; 32]);
        let nonce = nonces.make(1000, at("192.0.2.7:4000"));
        for other in ["192.0.2.7:4001", "192.0.2.8:4000", "[fd00::7]:4000"] {
            assert!(!nonces.is_good(1000, at(other), &nonce), "{other}");
        }
        assert!(!Nonces::new([2; 32]).is_good(1000, at("192.0.2.7:4000"), &nonce));
    }

    #[test]
    fn every_other_text_is_no_nonce() {
        let nonces = Nonces::new([1; 32]);
        let client = at("192.0.2.7:4000");
        let nonce = nonces.make(1000, client);
        assert_eq!(nonce.len(), 47);
        assert!(nonce.iter().all(u8::is_ascii_alphanumeric), "a quoted string takes it");
        for place in 0..nonce.len() {
            let mut changed = nonce.clone();
            changed[place] = if changed[place] == b'0' { b'1' } else { b'0' };
            assert!(!nonces.is_good(1000, client, &changed), "byte {place}");
            assert!(!nonces.is_good(1000, client, &nonce[..place]), "cut to {place}");
        }
        assert!(!nonces.is_good(1000, client, &[&nonce[..], b"00"].concat()));
    }

    /// RFC 8489 section 9.2: 24 bits from the most significant on, as four characters of base64.
    #[test]
    fn the_cookie_tells_the_two_features() {
        assert_eq!(super::super::keys::base64(&[0b1100_0000, 0, 0]).as_bytes(), &COOKIE[9..]);
    }
}
