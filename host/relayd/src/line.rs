//! The lines of the proved program `calls`: written for a call, read for an answer.

use crate::relay::Reason;
use std::net::{IpAddr, SocketAddr};

/// An answer as it stands: `bytes` of it are in the buffer that `read` filled.
#[derive(Debug, PartialEq, Eq)]
pub enum Answer {
    /// `R`: refused, with its number.
    Refused(u8),
    /// `D`: dropped, with why.
    Dropped(Reason),
    /// `E`: the line is not of the program's forms.
    NotTaken,
    /// `S`: to this client.
    ToClient(SocketAddr),
    /// `F`: from this relay port to this peer.
    ToPeer(u16, SocketAddr),
}

/// The two digits of two halves of a byte, each in its half of a word. Without a branch or a table, so that the compiler can make many
/// words at once: every relayed byte goes through here.
fn digits(halves: u16) -> u16 {
    // 1 for each half that is over 9: the letters stand 39 places behind where digits would.
    let letters = (halves + 0x0606) >> 4 & 0x0101;
    halves + 0x3030 + letters * 39
}

/// Appends bytes as lower case hex digits.
pub fn put_hex(line: &mut Vec<u8>, bytes: &[u8]) {
    let begin = line.len();
    line.resize(begin + 2 * bytes.len(), 0);
    for (pair, byte) in line[begin..].chunks_exact_mut(2).zip(bytes) {
        let halves = u16::from(byte >> 4) | u16::from(byte & 15) << 8;
        pair.copy_from_slice(&digits(halves).to_le_bytes());
    }
}

/// Appends a number and a tab.
fn put_number(line: &mut Vec<u8>, mut number: u64) {
    let mut digits = [b'\t'; 21];
    let mut begin = 20;
    loop {
        begin -= 1;
        digits[begin] = b'0' + (number % 10) as u8;
        number /= 10;
        if number == 0 {
            return line.extend_from_slice(&digits[begin..]);
        }
    }
}

/// Appends an address and a port, with their tabs.
fn put_place(line: &mut Vec<u8>, place: SocketAddr) {
    match place.ip() {
        IpAddr::V4(ip) => put_hex(line, &ip.octets()),
        IpAddr::V6(ip) => put_hex(line, &ip.octets()),
    }
    line.push(b'\t');
    put_number(line, place.port().into());
}

/// Appends the line of a client's datagram.
pub fn client(lines: &mut Vec<u8>, now: u64, user: u32, start: u32, from: SocketAddr, datagram: &[u8]) {
    lines.extend_from_slice(b"Q\t");
    put_number(lines, now);
    put_number(lines, user.into());
    put_number(lines, start.into());
    put_place(lines, from);
    put_hex(lines, datagram);
    lines.push(b'\n');
}

/// Appends the line of a peer's datagram.
pub fn peer(lines: &mut Vec<u8>, now: u64, from: SocketAddr, relay_port: u16, datagram: &[u8]) {
    lines.extend_from_slice(b"P\t");
    put_number(lines, now);
    put_place(lines, from);
    put_number(lines, relay_port.into());
    put_hex(lines, datagram);
    lines.push(b'\n');
}

/// Reads an answer without its newline, and puts its bytes behind `bytes`. None where it is of no form.
pub fn read(line: &[u8], bytes: &mut Vec<u8>) -> Option<Answer> {
    let (kind, mut rest) = match line {
        b"E" => return Some(Answer::NotTaken),
        [kind, b'\t', rest @ ..] => (*kind, rest),
        _ => return None,
    };
    // The last field is all that is left: a tab in it is no digit.
    let mut field = || {
        let end = rest.iter().position(|&byte| byte == b'\t')?;
        let field = &rest[..end];
        rest = &rest[end + 1..];
        Some(field)
    };
    let answer = match kind {
        b'R' => return decimal(rest).map(Answer::Refused),
        b'D' => return reason(rest).map(Answer::Dropped),
        b'S' => Answer::ToClient(place(field()?, field()?)?),
        b'F' => Answer::ToPeer(decimal(field()?)?, place(field()?, field()?)?),
        _ => return None,
    };
    read_hex(rest, bytes)?;
    Some(answer)
}

/// The word behind a `D`.
fn reason(word: &[u8]) -> Option<Reason> {
    match word {
        b"lapsed" => Some(Reason::Lapsed),
        b"never" => Some(Reason::Never),
        b"other" => Some(Reason::Other),
        _ => None,
    }
}

/// A decimal number that fits its type.
fn decimal<T: std::str::FromStr>(text: &[u8]) -> Option<T> {
    std::str::from_utf8(text).ok()?.parse().ok()
}

/// An address and a port.
fn place(address: &[u8], port: &[u8]) -> Option<SocketAddr> {
    let mut bytes = Vec::with_capacity(16);
    read_hex(address, &mut bytes)?;
    let ip = match <[u8; 4]>::try_from(&bytes[..]) {
        Ok(four) => IpAddr::from(four),
        Err(_) => IpAddr::from(<[u8; 16]>::try_from(&bytes[..]).ok()?),
    };
    Some(SocketAddr::new(ip, decimal(port)?))
}

/// Reads hex digits, two a byte, behind `bytes`.
pub fn read_hex(text: &[u8], bytes: &mut Vec<u8>) -> Option<()> {
    let begin = bytes.len();
    bytes.resize(begin + text.len() / 2, 0);
    let mut wrong = 0;
    for (byte, pair) in bytes[begin..].iter_mut().zip(text.chunks_exact(2)) {
        let word = u16::from_le_bytes([pair[0], pair[1]]);
        let halves = (word & 0x0f0f) + (word >> 6 & 0x0101) * 9;
        // A character is a digit if it is the one that its value is written with.
        wrong |= halves & 0xf0f0 | (digits(halves) ^ word);
        let [low, _] = (halves << 4 | halves >> 8).to_le_bytes();
        *byte = low;
    }
    (wrong == 0 && text.len() % 2 == 0).then_some(())
}

#[cfg(test)]
mod tests {
    use super::*;

    fn at(text: &str) -> SocketAddr {
        text.parse().expect("an address")
    }

    #[test]
    fn document_01s_lines() {
        let mut line = Vec::new();
        client(&mut line, 1000, 3, 5, at("198.51.100.7:40000"), &[0, 3, 0xff]);
        assert_eq!(line, b"Q\t1000\t3\t5\tc6336407\t40000\t0003ff\n");
        line.clear();
        peer(&mut line, 1309, at("192.0.2.150:5000"), 49157, b"hi");
        assert_eq!(line, b"P\t1309\tc0000296\t5000\t49157\t6869\n");
        line.clear();
        client(&mut line, 0, 0, u32::MAX, at("[fd00::1]:1"), b"");
        assert_eq!(line, b"Q\t0\t0\t4294967295\tfd000000000000000000000000000001\t1\t\n");
    }

    #[test]
    fn answers() {
        let mut bytes = vec![9];
        assert_eq!(read(b"D\tlapsed", &mut bytes), Some(Answer::Dropped(Reason::Lapsed)));
        assert_eq!(read(b"D\tnever", &mut bytes), Some(Answer::Dropped(Reason::Never)));
        assert_eq!(read(b"D\tother", &mut bytes), Some(Answer::Dropped(Reason::Other)));
        assert_eq!(read(b"E", &mut bytes), Some(Answer::NotTaken));
        assert_eq!(read(b"R\t4", &mut bytes), Some(Answer::Refused(4)));
        let to_client = read(b"S\tfd000000000000000000000000000001\t40000\t01fe", &mut bytes);
        assert_eq!(to_client, Some(Answer::ToClient(at("[fd00::1]:40000"))));
        assert_eq!(bytes, [9, 1, 0xfe]);
        let to_peer = read(b"F\t49157\tc0000296\t5000\t", &mut bytes);
        assert_eq!(to_peer, Some(Answer::ToPeer(49157, at("192.0.2.150:5000"))));
        assert_eq!(bytes.len(), 3);
    }

    #[test]
    fn every_byte_is_written_and_read() {
        let bytes: Vec<u8> = (0..=255).collect();
        let mut text = Vec::new();
        put_hex(&mut text, &bytes);
        for (byte, pair) in bytes.iter().zip(text.chunks(2)) {
            assert_eq!(pair, format!("{byte:02x}").as_bytes());
        }
        let mut back = Vec::new();
        read_hex(&text, &mut back).expect("hex");
        assert_eq!(back, bytes);
    }

    #[test]
    fn no_other_character_is_a_digit() {
        for character in 0..=255u8 {
            let is_digit = matches!(character, b'0'..=b'9' | b'a'..=b'f');
            for pair in [[character, b'0'], [b'f', character]] {
                assert_eq!(read_hex(&pair, &mut Vec::new()).is_some(), is_digit, "{character}");
            }
        }
    }

    #[test]
    fn what_is_no_answer() {
        let mut bytes = Vec::new();
        for line in [
            &b""[..],
            b"X",
            b"D",
            b"D\t",
            b"D\tlate",
            b"D\tother\t",
            b"Dother",
            b"R\t256",
            b"R\t1\t",
            b"S\tc0000296\t1\t00\t00",
            b"S\tc0000296\t1",
            b"F\t49157\tc0000296\t5000",
            b"S\tc00002\t1\t00",
            b"S\tc0000296\t65536\t00",
            b"S\tc0000296\t1\t0",
            b"S\tc0000296\t1\t0G",
        ] {
            assert_eq!(read(line, &mut bytes), None, "{}", String::from_utf8_lossy(line));
        }
    }
}
