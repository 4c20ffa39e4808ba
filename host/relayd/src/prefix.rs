//! Addresses and prefixes as people write them, 192.0.2.7 or 192.0.2.0/24, and the files that have one in each line.

use std::fs;
use std::net::{IpAddr, Ipv4Addr, Ipv6Addr};

/// The first bits of an address, the others 0; None where it has not so many.
pub fn network(address: IpAddr, length: u8) -> Option<IpAddr> {
    match address {
        IpAddr::V4(ip) => ipv4_network(ip, length).map(IpAddr::V4),
        IpAddr::V6(ip) => {
            let mask = u128::MAX.checked_shl(128u32.checked_sub(length.into())?).unwrap_or(0);
            Some(Ipv6Addr::from(ip.to_bits() & mask).into())
        }
    }
}

/// The same of an IPv4 address.
pub fn ipv4_network(ip: Ipv4Addr, length: u8) -> Option<Ipv4Addr> {
    let mask = u32::MAX.checked_shl(32u32.checked_sub(length.into())?).unwrap_or(0);
    Some(Ipv4Addr::from(ip.to_bits() & mask))
}

/// Reads a prefix: its address and its length, which is the whole address where none is written.
pub fn read(word: &str) -> Result<(IpAddr, u8), String> {
    let (address, length) = word
        .split_once('/')
        .map_or((word, None), |(address, length)| (address, Some(length)));
    let ip: IpAddr = address
        .parse()
        .map_err(|_| format!("'{address}' is not an IP address: write one as 192.0.2.7, or a prefix as 192.0.2.0/24"))?;
    if let IpAddr::V6(ip) = ip {
        if let Some(ipv4) = ip.to_ipv4_mapped() {
            return Err(format!("'{address}' is IPv4 in the form of IPv6: write {ipv4}"));
        }
    }
    let whole = if ip.is_ipv4() { 32 } else { 128 };
    let length = match length {
        None => whole,
        Some(text) => match text.parse() {
            Ok(length) if length <= whole && text.bytes().all(|byte| byte.is_ascii_digit()) => length,
            _ => return Err(format!("'/{text}' is not a length from /0 to /{whole}")),
        },
    };
    match network(ip, length) {
        Some(first) if first == ip => Ok((ip, length)),
        first => Err(format!(
            "{word} has bits behind its prefix: write {}/{length}, or {ip} for that address alone",
            first.unwrap_or(ip)
        )),
    }
}

/// Gives the words of each line to `take`, with the line's number; blank lines and what follows a `#` are skipped. An error names its line.
pub fn each_line(text: &str, mut take: impl FnMut(usize, &[&str]) -> Result<(), String>) -> Result<(), (usize, String)> {
    for (number, line) in (1..).zip(text.lines()) {
        let words: Vec<&str> = line.split('#').next().unwrap_or("").split_whitespace().collect();
        if !words.is_empty() {
            take(number, &words).map_err(|why| (number, why))?;
        }
    }
    Ok(())
}

/// Reads a file; what its text is read by names the line of an error.
pub fn read_file<T>(path: &str, what: &str, parse: impl FnOnce(&str) -> Result<T, (usize, String)>) -> Result<T, String> {
    let text = fs::read_to_string(path).map_err(|error| format!("cannot read {what} from {path}: {error}"))?;
    parse(&text).map_err(|(line, why)| format!("{path}, line {line}: {why}"))
}

#[cfg(test)]
mod tests {
    use super::*;

    #[test]
    fn prefixes_are_read() {
        let good = |word: &str, address: &str, length| assert_eq!(read(word), Ok((address.parse().expect("an address"), length)), "{word}");
        good("192.0.2.7", "192.0.2.7", 32);
        good("10.0.0.0/8", "10.0.0.0", 8);
        good("0.0.0.0/0", "0.0.0.0", 0);
        good("255.255.255.255/32", "255.255.255.255", 32);
        good("fd00::/16", "fd00::", 16);
        good("fd00::1", "fd00::1", 128);
    }

    #[test]
    fn what_would_be_right_is_told() {
        let wrong = |word: &str, told: &str| assert!(read(word).expect_err(word).contains(told), "{word}");
        for word in ["host", "10.0.0", "10", "010.0.0.1", "10.0.0.0-10.0.0.9", "", "/8"] {
            wrong(word, "write one as 192.0.2.7, or a prefix as 192.0.2.0/24");
        }
        for length in ["33", "+8", "", "x", "256", "255.0.0.0", "8/8"] {
            wrong(&format!("10.0.0.0/{length}"), "from /0 to /32");
        }
        wrong("fd00::/129", "from /0 to /128");
        wrong("192.0.2.7/24", "write 192.0.2.0/24, or 192.0.2.7 for that address alone");
        wrong("0.0.0.1/0", "write 0.0.0.0/0");
        wrong("::ffff:192.0.2.7", "write 192.0.2.7");
    }

    #[test]
    fn lines_have_their_numbers() {
        let mut found = Vec::new();
        let done = each_line("# head\n\n  one two\t# note\r\nthree#\n", |number, words| {
            found.push((number, words.join("+")));
            Ok(())
        });
        assert_eq!(done, Ok(()));
        assert_eq!(found, [(3, "one+two".to_string()), (4, "three".to_string())]);
        assert_eq!(each_line("\nx", |_, _| Err("no".to_string())), Err((2, "no".to_string())));
        let missing = read_file("/no/such/file", "prefixes", |_| Ok(()));
        assert!(missing.expect_err("no file").contains("cannot read prefixes from /no/such/file"));
    }
}
