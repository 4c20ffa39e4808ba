//! Requests as the front end reads them: what stands before the signature, and the signature.

use super::signature::{Algorithm, Signature};
use crate::stun::{self, MESSAGE_INTEGRITY, MESSAGE_INTEGRITY_SHA256};

/// USERNAME.
pub const USERNAME: u16 = 0x0006;
/// REALM.
pub const REALM: u16 = 0x0014;
/// NONCE.
pub const NONCE: u16 = 0x0015;
/// PASSWORD-ALGORITHM, the one that a client has chosen.
pub const PASSWORD_ALGORITHM: u16 = 0x001d;
/// USERHASH.
pub const USERHASH: u16 = 0x001e;
/// PASSWORD-ALGORITHMS, those that the server offers.
pub const PASSWORD_ALGORITHMS: u16 = 0x8002;

/// One of the four requests that the relay answers, well formed.
pub struct Request<'a>(&'a [u8]);

impl<'a> Request<'a> {
    /// Reads a datagram; None for all that is no Allocate, Refresh, `CreatePermission` or `ChannelBind` request, or not well formed. Those
    /// are the relay's to drop or to relay, without a user.
    pub fn read(datagram: &'a [u8]) -> Option<Self> {
        let kind = stun::kind(datagram);
        let known = matches!(kind, stun::ALLOCATE | stun::REFRESH | stun::CREATE_PERMISSION | stun::CHANNEL_BIND);
        if !known || !is_framed(datagram) {
            return None;
        }
        let end = stun::all_attributes(datagram)
            .last()
            .map_or(stun::HEADER, |attribute| attribute.end());
        (end == datagram.len()).then_some(Request(datagram))
    }

    /// The first attribute of this type that stands before the signature.
    pub fn first(&self, kind: u16) -> Option<&'a [u8]> {
        stun::first(self.0, kind)
    }

    /// The signature that counts: the first by SHA-256, which may follow one by SHA-1, else the first by SHA-1. All that the relay reads
    /// stands before either.
    pub fn signature(&self) -> Option<Signature<'a>> {
        self.signature_by(MESSAGE_INTEGRITY_SHA256, Algorithm::Sha256)
            .or_else(|| self.signature_by(MESSAGE_INTEGRITY, Algorithm::Sha1))
    }

    fn signature_by(&self, kind: u16, algorithm: Algorithm) -> Option<Signature<'a>> {
        let found = stun::all_attributes(self.0).find(|attribute| attribute.kind == kind)?;
        Some(Signature {
            algorithm,
            value: found.value,
            covered: &self.0[..found.start],
        })
    }

    /// An error response to this request, with these attributes after its code.
    pub fn error(&self, code: u16, attributes: &[(u16, &[u8])]) -> Vec<u8> {
        let mut response = stun::error_response(self.0, code);
        for &(kind, value) in attributes {
            stun::append(&mut response, kind, value);
        }
        response
    }
}

/// Whether a message has the cookie, and its length field its length.
fn is_framed(message: &[u8]) -> bool {
    let cookie = message.get(4..8) == Some(&stun::COOKIE.to_be_bytes());
    let length = message.len().checked_sub(stun::HEADER).filter(|length| length % 4 == 0);
    cookie && length.is_some_and(|length| message[2..4] == stun::length_field(length))
}

#[cfg(test)]
mod tests {
    use super::*;
    use crate::stun::request;

    #[test]
    fn only_the_four_requests_are_read() {
        for kind in [3, 4, 8, 9] {
            assert!(Request::read(&request(kind, &[])).is_some(), "{kind}");
        }
        for kind in [0, 1, 2, 5, 0x16, 0x17] {
            assert!(Request::read(&request(kind, &[])).is_none(), "{kind}");
        }
        assert!(Request::read(&[0x40, 0, 0, 0]).is_none());
        assert!(Request::read(&[]).is_none());
    }

    #[test]
    fn a_request_that_does_not_fit_is_none() {
        let good = request(3, &[(USERNAME, b"alice"), (REALM, b"example.org")]);
        assert!(Request::read(&good).is_some());
        for length in 0..good.len() {
            assert!(Request::read(&good[..length]).is_none(), "cut to {length}");
        }
        for (place, value) in [(3, 33), (4, 0x20), (23, 40), (23, 200)] {
            let mut bad = good.clone();
            bad[place] = value;
            assert!(Request::read(&bad).is_none(), "byte {place}");
        }
    }

    #[test]
    fn what_follows_the_signature_is_not_read() {
        let raw = request(
            3,
            &[
                (USERNAME, b"alice"),
                (USERNAME, b"bob"),
                (MESSAGE_INTEGRITY, &[7; 20]),
                (MESSAGE_INTEGRITY, &[8; 20]),
                (NONCE, b"late"),
            ],
        );
        let request = Request::read(&raw).expect("a request");
        assert_eq!(request.first(USERNAME), Some(&b"alice"[..]));
        assert_eq!(request.first(NONCE), None);
        let signature = request.signature().expect("a signature");
        assert_eq!((signature.value, signature.covered.len()), (&[7; 20][..], 20 + 12 + 8));
    }

    #[test]
    fn sha256_counts_where_both_are_there() {
        let raw = request(3, &[(MESSAGE_INTEGRITY, &[7; 20]), (MESSAGE_INTEGRITY_SHA256, &[9; 32])]);
        let signature = Request::read(&raw).and_then(|request| request.signature()).expect("a signature");
        assert_eq!((signature.algorithm, signature.covered.len()), (Algorithm::Sha256, 20 + 24));
        assert!(Request::read(&request(3, &[])).is_some_and(|request| request.signature().is_none()));
    }

    #[test]
    fn an_error_has_the_transaction_and_its_attributes() {
        let raw = request(9, &[]);
        let request = Request::read(&raw).expect("a request");
        let error = request.error(438, &[(REALM, b"x.org")]);
        assert_eq!(error[..4], [0x01, 0x19, 0, 20]);
        assert_eq!(error[4..20], raw[4..20]);
        assert_eq!(error[20..], *b"\0\x09\0\x04\0\0\x04\x26\0\x14\0\x05x.org\0\0\0");
    }
}
