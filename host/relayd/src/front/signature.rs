//! MESSAGE-INTEGRITY and MESSAGE-INTEGRITY-SHA256: checked in requests, added to responses (RFC 8489, sections 14.5 and 14.6).

use crate::stun::{self, HEADER, append, length_field};
use hmac::{Hmac, Mac};
use sha1::Sha1;
use sha2::Sha256;
use std::fmt;

/// The hash behind a signature.
#[derive(Clone, Copy, Debug, PartialEq, Eq)]
pub enum Algorithm {
    /// MESSAGE-INTEGRITY.
    Sha1,
    /// MESSAGE-INTEGRITY-SHA256.
    Sha256,
}

impl Algorithm {
    /// How many bytes a signature has. A shorter one by SHA-256 needs a leave that TURN does not give.
    pub fn size(self) -> usize {
        match self {
            Algorithm::Sha1 => 20,
            Algorithm::Sha256 => 32,
        }
    }

    fn attribute(self) -> u16 {
        match self {
            Algorithm::Sha1 => stun::MESSAGE_INTEGRITY,
            Algorithm::Sha256 => stun::MESSAGE_INTEGRITY_SHA256,
        }
    }
}

/// A request's signature, and the message before it.
pub struct Signature<'a> {
    /// By which hash.
    pub algorithm: Algorithm,
    /// The attribute's value, of any length.
    pub value: &'a [u8],
    /// The message up to the attribute.
    pub covered: &'a [u8],
}

impl Signature<'_> {
    /// Whether this key made it; the comparison takes the same time wherever the two differ.
    pub fn is_by(&self, key: &[u8]) -> bool {
        let verified = match self.algorithm {
            Algorithm::Sha1 => over::<Hmac<Sha1>>(key, self.covered, self.algorithm.size()).verify_slice(self.value),
            Algorithm::Sha256 => over::<Hmac<Sha256>>(key, self.covered, self.algorithm.size()).verify_slice(self.value),
        };
        verified.is_ok()
    }
}

/// Signs the responses to one request: with the algorithm and the key of that request.
#[derive(PartialEq, Eq)]
pub struct Signer {
    /// The hash.
    pub algorithm: Algorithm,
    /// The user's key.
    pub key: Vec<u8>,
}

impl Signer {
    /// The response, and the signature after it. What is no response is left as it is: indications and `ChannelData` have none.
    pub fn sign(&self, response: &[u8]) -> Vec<u8> {
        let mut signed = response.to_vec();
        if stun::response(response).is_some() {
            let size = self.algorithm.size();
            let value = match self.algorithm {
                Algorithm::Sha1 => over::<Hmac<Sha1>>(&self.key, response, size).finalize().into_bytes().to_vec(),
                Algorithm::Sha256 => over::<Hmac<Sha256>>(&self.key, response, size).finalize().into_bytes().to_vec(),
            };
            append(&mut signed, self.algorithm.attribute(), &value);
        }
        signed
    }
}

/// The key is never shown.
impl fmt::Debug for Signer {
    fn fmt(&self, out: &mut fmt::Formatter<'_>) -> fmt::Result {
        write!(out, "Signer by {:?}", self.algorithm)
    }
}

/// The code over a message, as if its length field ended with the signature of this size.
fn over<M: Mac + hmac::digest::KeyInit>(key: &[u8], covered: &[u8], size: usize) -> M {
    // An HMAC takes a key of any length.
    let mut code = <M as hmac::digest::KeyInit>::new_from_slice(key).expect("a key of any length");
    code.update(&covered[..2]);
    code.update(&length_field(covered.len() - HEADER + 4 + size));
    code.update(&covered[4..]);
    code
}

#[cfg(test)]
pub mod tests {
    use super::super::keys::Keys;
    use super::*;
    use crate::line::read_hex;
    use crate::stun::request;

    fn bytes(hex: &str) -> Vec<u8> {
        let mut bytes = Vec::new();
        read_hex(hex.as_bytes(), &mut bytes).expect("hex");
        bytes
    }

    /// Both vectors are Binding requests, which the front end does not read; their signatures are checked as they stand.
    fn last_attribute(message: &[u8], algorithm: Algorithm) -> Signature<'_> {
        let (covered, attribute) = message.split_at(message.len() - 4 - algorithm.size());
        Signature {
            algorithm,
            value: &attribute[4..],
            covered,
        }
    }

    /// The code over a message whose length field stands as it is: another way than `over` to the same bytes.
    pub fn code(algorithm: Algorithm, key: &[u8], message: &[u8]) -> Vec<u8> {
        fn of<M: Mac + hmac::digest::KeyInit>(key: &[u8], message: &[u8]) -> Vec<u8> {
            let mut code = <M as hmac::digest::KeyInit>::new_from_slice(key).expect("a key of any length");
            code.update(message);
            code.finalize().into_bytes().to_vec()
        }
        match algorithm {
            Algorithm::Sha1 => of::<Hmac<Sha1>>(key, message),
            Algorithm::Sha256 => of::<Hmac<Sha256>>(key, message),
        }
    }

    const NAME: &str = "\u{30de}\u{30c8}\u{30ea}\u{30c3}\u{30af}\u{30b9}";

    #[test]
    fn rfc_5769_section_2_4() {
        let message = bytes(concat!(
            "000100602112a44278ad3433c6ad72c029da412e",
            "00060012e3839ee38388e383aae38383e382afe382b90000",
            "0015001c662f2f3439396b39353464364f4c33346f4c39465354767936347341",
            "0014000b6578616d706c652e6f726700",
            "00080014f67024656dd64a3e02b8e0712e85c9a28ca89666"
        ));
        let keys = Keys::derive(NAME.as_bytes(), b"example.org", b"TheMatrIX");
        assert!(last_attribute(&message, Algorithm::Sha1).is_by(&keys.md5));
        assert!(!last_attribute(&message, Algorithm::Sha1).is_by(&keys.sha256));
    }

    /// The RFC prints the length 0x009c and e4686c8f..5a01, which is the code over the message without its PASSWORD-ALGORITHM; with the
    /// erratum's length and value it verifies.
    #[test]
    fn rfc_8489_appendix_b_1_with_its_erratum() {
        let message = bytes(concat!(
            "000100902112a44278ad3433c6ad72c029da412e",
            "001e00204a3cf38fef6992bda952c6780417da0f24819415569e60b205c46e41407f1704",
            "001500296f624d61744a6f733241414143662f2f3439396b39353464364f4c33346f4c39465354767936347341000000",
            "0014000b6578616d706c652e6f726700",
            "001d000400020000",
            "001c0020b5c7bf005b6c52a21c51c5e892f81924136296cb927c43149309278cc6518e65"
        ));
        let keys = Keys::derive(NAME.as_bytes(), b"example.org", b"TheMatrIX");
        assert!(last_attribute(&message, Algorithm::Sha256).is_by(&keys.sha256));
        assert!(!last_attribute(&message, Algorithm::Sha256).is_by(&keys.md5));
    }

    #[test]
    fn a_signed_response_is_the_relays_bytes_and_then_the_signature() {
        let mut response = request(3, &[(0x000d, &[0, 0, 2, 88])]);
        response[0] = 1;
        for algorithm in [Algorithm::Sha1, Algorithm::Sha256] {
            let key = b"key".to_vec();
            let signed = Signer { algorithm, key }.sign(&response);
            assert_eq!(signed.len(), response.len() + 4 + algorithm.size());
            assert_eq!((&signed[..2], &signed[4..response.len()]), (&response[..2], &response[4..]));
            assert_eq!(signed[2..4], length_field(signed.len() - HEADER));
            assert!(last_attribute(&signed, algorithm).is_by(b"key"));
            assert!(!last_attribute(&signed, algorithm).is_by(b"other"));
        }
    }

    #[test]
    fn data_is_not_signed() {
        let signer = Signer {
            algorithm: Algorithm::Sha1,
            key: Vec::new(),
        };
        for data in [&[0x40, 0, 0, 0][..], &request(0x17, &[]), &[]] {
            assert_eq!(signer.sign(data), data);
        }
    }

    #[test]
    fn every_changed_byte_and_every_other_length_is_seen() {
        let mut response = request(3, &[(0x0019, &[17, 0, 0, 0])]);
        response[0] = 1;
        for algorithm in [Algorithm::Sha1, Algorithm::Sha256] {
            let key = b"key".to_vec();
            let signed = Signer { algorithm, key }.sign(&response);
            // The length field is the signature's own, and the attribute's type and length are read before it is checked.
            let own = response.len()..response.len() + 4;
            for place in (0..signed.len()).filter(|place| !(2..4).contains(place) && !own.contains(place)) {
                let mut changed = signed.clone();
                changed[place] ^= 0x10;
                assert!(!last_attribute(&changed, algorithm).is_by(b"key"), "byte {place}");
            }
            let whole = last_attribute(&signed, algorithm);
            for length in 0..algorithm.size() {
                let value = &whole.value[..length];
                assert!(!Signature { value, ..whole }.is_by(b"key"), "cut to {length}");
            }
        }
    }
}
