//! Keys from names and passwords: RFC 8489's long-term keys, the hash that hides a name, and the password of a time-limited name.

use hmac::{Hmac, Mac};
use md5::{Digest, Md5};
use sha1::Sha1;
use sha2::Sha256;

/// Both keys of one user: each stands for the password, so neither is ever shown.
#[derive(Clone, PartialEq, Eq)]
pub struct Keys {
    /// For clients that know only RFC 5389, as today's browsers.
    pub md5: [u8; 16],
    /// For clients that choose SHA-256.
    pub sha256: [u8; 32],
}

impl Keys {
    /// The keys of a name, a realm and a password, all of them prepared already.
    pub fn derive(name: &[u8], realm: &[u8], password: &[u8]) -> Self {
        let text = [name, b":", realm, b":", password].concat();
        Keys {
            md5: Md5::digest(&text).into(),
            sha256: Sha256::digest(&text).into(),
        }
    }
}

/// USERHASH's value for a name.
pub fn userhash(name: &[u8], realm: &[u8]) -> [u8; 32] {
    Sha256::digest([name, b":", realm].concat()).into()
}

/// The password that an application with the shared secret hands out for a time-limited name.
pub fn timed_password(secret: &[u8], name: &[u8]) -> String {
    let mut code = Hmac::<Sha1>::new_from_slice(secret).expect("a key of any length");
    code.update(name);
    base64(&code.finalize().into_bytes())
}

/// Base64 with its padding (RFC 4648, section 4).
pub fn base64(bytes: &[u8]) -> String {
    const DIGITS: &[u8; 64] = b"ABCDEFGHIJKLMNOPQRSTUVWXYZabcdefghijklmnopqrstuvwxyz0123456789+/";
    let mut text = String::new();
    for chunk in bytes.chunks(3) {
        let word = chunk
            .iter()
            .chain(&[0, 0])
            .take(3)
            .fold(0, |word, &byte| word << 8 | usize::from(byte));
        for place in 0..4 {
            let digit = char::from(DIGITS[word >> (18 - 6 * place) & 63]);
            text.push(if place <= chunk.len() { digit } else { '=' });
        }
    }
    text
}

#[cfg(test)]
mod tests {
    use super::*;
    use crate::line::put_hex;

    fn hex(bytes: &[u8]) -> String {
        let mut text = Vec::new();
        put_hex(&mut text, bytes);
        String::from_utf8_lossy(&text).into_owned()
    }

    /// RFC 8489's example of a key by MD5, and the name's hash in its appendix B.1.
    #[test]
    fn the_rfcs_examples() {
        let keys = Keys::derive(b"user", b"realm", b"pass");
        assert_eq!(hex(&keys.md5), "8493fbc53ba582fb4c044c456bdc40eb");
        let name = "\u{30de}\u{30c8}\u{30ea}\u{30c3}\u{30af}\u{30b9}".as_bytes();
        let expected = "4a3cf38fef6992bda952c6780417da0f24819415569e60b205c46e41407f1704";
        assert_eq!(hex(&userhash(name, b"example.org")), expected);
    }

    #[test]
    fn rfc_4648s_base64() {
        for (plain, text) in [
            ("", ""),
            ("f", "Zg=="),
            ("fo", "Zm8="),
            ("foo", "Zm9v"),
            ("foob", "Zm9vYg=="),
            ("foobar", "Zm9vYmFy"),
        ] {
            assert_eq!(base64(plain.as_bytes()), text);
        }
        assert_eq!(base64(&[0xfb, 0xff, 0xbf]), "+/+/");
    }

    /// Computed with another program: openssl dgst -sha1 -hmac 'north' -binary | base64.
    #[test]
    fn a_time_limited_password() {
        assert_eq!(timed_password(b"north", b"1700000000:alice"), "Cd/49soE35ICqcJF/bCTn8Z4OyE=");
    }
}
