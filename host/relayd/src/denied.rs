//! The denied prefixes: a peer under one of them gets no permission and no channel. relayd's defaults and the lines of `--denied`'s file are
//! one list, which the relay's program reads when it starts. The 403 is the relay's; here is the list, and which of its prefixes is behind it.

use crate::line::put_hex;
use crate::prefix::{self, ipv4_network};
use std::collections::HashSet;
use std::fmt;
use std::net::{IpAddr, Ipv4Addr};

/// The most nodes that the relay's tree of prefixes has: one for each different beginning of a prefix, the empty one too.
const NODES: usize = 512;

/// Denied unless peers on the relay's own host are allowed: that host, which Linux takes 0.0.0.0/8 for too, and its links.
const DEFAULTS: [Prefix; 3] = [
    Prefix::new([127, 0, 0, 0], 8),
    Prefix::new([0, 0, 0, 0], 8),
    Prefix::new([169, 254, 0, 0], 16),
];

/// An IPv4 prefix: its first address, and how many bits count.
#[derive(Clone, Copy, Debug, PartialEq, Eq, Hash)]
struct Prefix {
    first: Ipv4Addr,
    length: u8,
}

impl Prefix {
    const fn new([a, b, c, d]: [u8; 4], length: u8) -> Self {
        let first = Ipv4Addr::new(a, b, c, d);
        Prefix { first, length }
    }

    /// From the words of a line.
    fn read(words: &[&str]) -> Result<Self, String> {
        let [word] = words else {
            let line = words.join(" ");
            return Err(format!("'{line}' is more than a prefix: put a # before what is said about it"));
        };
        match prefix::read(word)? {
            (IpAddr::V4(first), length) => Ok(Prefix { first, length }),
            (IpAddr::V6(_), _) => Err(format!("{word} is IPv6: peers are IPv4, so only IPv4 prefixes are denied")),
        }
    }

    fn covers(self, host: Ipv4Addr) -> bool {
        ipv4_network(host, self.length) == Some(self.first)
    }

    /// All that it begins with, from nothing to itself.
    fn beginnings(self) -> impl Iterator<Item = Prefix> {
        (0..=self.length).filter_map(move |length| ipv4_network(self.first, length).map(|first| Prefix { first, length }))
    }
}

impl fmt::Display for Prefix {
    /// As people write it: an address alone has no length.
    fn fmt(&self, text: &mut fmt::Formatter) -> fmt::Result {
        match self.length {
            32 => write!(text, "{}", self.first),
            length => write!(text, "{}/{length}", self.first),
        }
    }
}

/// A prefix of the list, and the line of the file that has it; a default has none.
#[derive(Debug)]
struct Entry {
    prefix: Prefix,
    line: Option<usize>,
}

/// The whole list.
#[derive(Debug, Default)]
pub struct Denied {
    /// Each prefix once, where it stands first.
    entries: Vec<Entry>,
    nodes: usize,
    path: Option<String>,
}

/// Whether a host is under one of the defaults.
pub fn is_local(host: Ipv4Addr) -> bool {
    DEFAULTS.iter().any(|prefix| prefix.covers(host))
}

impl Denied {
    /// The defaults, where they are wanted, and the lines of a file, where there is one.
    pub fn open(defaults: bool, path: Option<&str>) -> Result<Self, String> {
        let Some(path) = path else {
            return Denied::parse(defaults, "").map_err(|(_, why)| why);
        };
        let mut denied = prefix::read_file(path, "denied prefixes", |text| Denied::parse(defaults, text))?;
        denied.path = Some(path.to_string());
        Ok(denied)
    }

    /// From the text of a file; an error names its line.
    pub fn parse(defaults: bool, text: &str) -> Result<Self, (usize, String)> {
        let mut entries = Vec::new();
        if defaults {
            entries.extend(DEFAULTS.map(|prefix| Entry { prefix, line: None }));
        }
        let mut known: HashSet<Prefix> = entries.iter().map(|entry| entry.prefix).collect();
        prefix::each_line(text, |number, words| {
            let prefix = Prefix::read(words)?;
            if known.insert(prefix) {
                let line = Some(number);
                entries.push(Entry { prefix, line });
            }
            Ok(())
        })?;
        let nodes = count_nodes(&entries)?;
        Ok(Denied {
            entries,
            nodes,
            path: None,
        })
    }

    /// The list in the form that the relay's program reads, a prefix in each line; None where nothing is denied.
    pub fn lines(&self) -> Option<Vec<u8>> {
        let mut lines = Vec::new();
        for Entry { prefix, .. } in &self.entries {
            put_hex(&mut lines, &prefix.first.octets());
            lines.extend(format!("\t{}\n", prefix.length).into_bytes());
        }
        (!lines.is_empty()).then_some(lines)
    }

    /// An address that is denied, if there is one.
    pub fn first(&self) -> Option<Ipv4Addr> {
        self.entries.first().map(|entry| entry.prefix.first)
    }

    /// Why a host is denied, if it is: 'denied by 10.0.0.0/8, line 3 of /etc/mudsluice/denied'.
    pub fn why(&self, host: Ipv4Addr) -> Option<String> {
        let Entry { prefix, line } = self.entries.iter().find(|entry| entry.prefix.covers(host))?;
        let origin = match line {
            None => "a default of relayd".to_string(),
            Some(line) => format!("line {line} of {}", self.name()),
        };
        Some(format!("denied by {prefix}, {origin}"))
    }

    /// How many prefixes there are, from where, and how many nodes they take.
    pub fn told(&self) -> String {
        let (all, defaults) = (self.entries.len(), self.entries.iter().filter(|entry| entry.line.is_none()).count());
        if all == 0 {
            return "denied prefixes: none".to_string();
        }
        let nodes = self.nodes;
        let mut origins = Vec::new();
        if defaults > 0 {
            origins.push(format!("{defaults} by default"));
        }
        if self.path.is_some() {
            origins.push(format!("{} of {}", all - defaults, self.name()));
        }
        format!("denied prefixes: {all} ({}), {nodes} of {NODES} nodes", origins.join(", "))
    }

    /// What is to be told when files are read again: the list stays, since the relay's program reads it only when it starts.
    pub fn stays(&self) -> Option<String> {
        let path = self.path.as_deref()?;
        let defaults = self.entries.iter().any(|entry| entry.line.is_none());
        let why = match Denied::open(defaults, Some(path)) {
            Ok(now) if now.lines() == self.lines() => return None,
            Ok(_) => format!("{path} has changed"),
            Err(why) => why,
        };
        Some(format!("the denied prefixes stay as they were, until relayd is restarted: {why}"))
    }

    fn name(&self) -> &str {
        self.path.as_deref().unwrap_or("no file")
    }
}

/// How many nodes the list takes. Where they are too many, the line is that of the first prefix that does not fit.
fn count_nodes(entries: &[Entry]) -> Result<usize, (usize, String)> {
    let mut nodes = HashSet::from([Prefix::new([0; 4], 0)]);
    let mut first_over = None;
    for entry in entries {
        nodes.extend(entry.prefix.beginnings());
        if nodes.len() > NODES {
            first_over.get_or_insert(entry);
        }
    }
    let Some(Entry { prefix, line }) = first_over else {
        return Ok(nodes.len());
    };
    let why = format!(
        "{prefix} does not fit: the list may take {NODES} nodes, one for each different beginning of a prefix, \
         and the whole list would take {}; list fewer or shorter prefixes",
        nodes.len()
    );
    Err((line.unwrap_or(0), why))
}

#[cfg(test)]
mod tests {
    use super::*;
    use std::fmt::Write;
    use std::fs;

    fn host(text: &str) -> Ipv4Addr {
        text.parse().expect("an address")
    }

    fn parse(defaults: bool, text: &str) -> Denied {
        Denied::parse(defaults, text).expect("a good list")
    }

    fn lines(denied: &Denied) -> String {
        String::from_utf8(denied.lines().expect("a list")).expect("text")
    }

    /// All prefixes of 8 bits, 511 nodes, and so many of the 512 of 9 bits, each a node more.
    fn with_nodes(nodes: usize) -> String {
        let mut text = String::new();
        for first in 0..256 {
            writeln!(text, "{first}.0.0.0/8").expect("a line");
        }
        for more in 0..nodes - 511 {
            writeln!(text, "{}.{}.0.0/9", more / 2, more % 2 * 128).expect("a line");
        }
        text
    }

    #[test]
    fn a_file_for_people() {
        let denied = parse(false, "# the works\n\n  10.0.0.0/8\t# machines\r\n192.0.2.7\n0.0.0.0/0");
        assert_eq!(lines(&denied), "0a000000\t8\nc0000207\t32\n00000000\t0\n");
        assert_eq!(denied.first(), Some(host("10.0.0.0")));
    }

    #[test]
    fn an_empty_list_is_none() {
        for text in ["", "\n", "# nothing\n \t\n"] {
            let denied = parse(false, text);
            assert!(denied.lines().is_none() && denied.first().is_none(), "{text}");
            assert_eq!(denied.told(), "denied prefixes: none");
        }
    }

    #[test]
    fn a_prefix_counts_once() {
        let denied = parse(true, "10.0.0.0/8\n127.0.0.0/8\n10.0.0.0/8\n");
        assert_eq!(lines(&denied), "7f000000\t8\n00000000\t8\na9fe0000\t16\n0a000000\t8\n");
        assert_eq!(
            denied.why(host("127.0.0.1")),
            Some("denied by 127.0.0.0/8, a default of relayd".to_string())
        );
    }

    #[test]
    fn a_bad_line_says_what_would_be_right() {
        let wrong = |line: &str, told: &str| {
            let (number, why) = Denied::parse(false, &format!("192.0.2.0/24\n\n{line}\nand more\n")).expect_err(line);
            assert!(number == 3 && why.contains(told), "{line}: {number} {why}");
        };
        wrong("10.1.2.3/8", "write 10.0.0.0/8, or 10.1.2.3 for that address alone");
        wrong("10.0.0.0/33", "'/33' is not a length from /0 to /32");
        wrong("10.0.0.0/", "'/' is not a length from /0 to /32");
        wrong("the-press", "'the-press' is not an IP address: write one as 192.0.2.7");
        wrong("0a000000/8", "'0a000000' is not an IP address");
        wrong("fd00::/8", "fd00::/8 is IPv6: peers are IPv4");
        wrong("::ffff:10.0.0.1", "write 10.0.0.1");
        wrong("10.0.0.0/8 works", "'10.0.0.0/8 works' is more than a prefix: put a #");
    }

    #[test]
    fn room_for_512_nodes() {
        for nodes in [511, 512] {
            assert_eq!(parse(false, &with_nodes(nodes)).nodes, nodes);
        }
        let (line, why) = Denied::parse(false, &with_nodes(513)).expect_err("a node too many");
        assert!(
            line == 258 && why.starts_with("0.128.0.0/9 does not fit: the list may take 512 nodes"),
            "{line} {why}"
        );
        let (line, why) = Denied::parse(false, &with_nodes(600)).expect_err("many too many");
        assert!(line == 258 && why.contains("the whole list would take 600;"), "{line} {why}");
        // What stands under a shorter prefix takes its nodes too, and a bad line is told first, wherever it stands.
        let (line, _) = Denied::parse(false, &format!("0.0.0.0/0\n{}", with_nodes(513))).expect_err("a node too many");
        assert_eq!(line, 259);
        let (line, why) = Denied::parse(false, &format!("{}x\n", with_nodes(513))).expect_err("a bad line");
        assert!(line == 259 && why.contains("'x'"), "{line} {why}");
    }

    #[test]
    fn the_defaults_are_the_host_and_its_links() {
        let denied = parse(true, "");
        assert_eq!(denied.told(), "denied prefixes: 3 (3 by default), 32 of 512 nodes");
        for denied_host in ["127.0.0.1", "127.9.9.9", "0.0.0.0", "169.254.169.254"] {
            assert!(
                is_local(host(denied_host)) && denied.why(host(denied_host)).is_some(),
                "{denied_host}"
            );
        }
        for other in [
            "126.255.255.255",
            "128.0.0.0",
            "1.0.0.0",
            "169.253.255.255",
            "169.255.0.0",
            "203.0.113.5",
        ] {
            assert!(!is_local(host(other)) && denied.why(host(other)).is_none(), "{other}");
        }
        assert_eq!(parse(false, "").why(host("127.0.0.1")), None);
    }

    #[test]
    fn what_denies_is_told_with_its_origin() {
        let path = std::env::temp_dir().join(format!("relayd-test-{}-denied", std::process::id()));
        let name = path.to_str().expect("text");
        fs::write(&path, "# works\n10.0.0.0/8\n10.1.2.3\n192.0.2.7\n").expect("it is written");
        let denied = Denied::open(true, Some(name)).expect("a good file");
        assert_eq!(
            denied.told(),
            format!("denied prefixes: 6 (3 by default, 3 of {name}), 91 of 512 nodes")
        );
        assert_eq!(
            denied.why(host("10.1.2.3")),
            Some(format!("denied by 10.0.0.0/8, line 2 of {name}"))
        );
        assert_eq!(
            denied.why(host("192.0.2.7")),
            Some(format!("denied by 192.0.2.7, line 4 of {name}"))
        );
        assert_eq!(denied.why(host("192.0.2.8")), None);
        assert_eq!(denied.stays(), None);
        for (text, told) in [
            ("10.0.0.0/8\n", "has changed"),
            ("10.0.0.0/8\n10.0.0.1/8\n", "line 2: 10.0.0.1/8 has bits"),
        ] {
            fs::write(&path, text).expect("it is written");
            let stays = denied.stays().expect("it is told");
            assert!(stays.contains("stay as they were") && stays.contains(told), "{stays}");
        }
        fs::remove_file(&path).expect("it is removed");
        assert!(denied.stays().expect("it is told").contains("cannot read"));
        assert!(Denied::open(true, Some(name)).expect_err("no file").contains(name));
        assert!(Denied::open(true, None).expect("the defaults").stays().is_none());
    }
}
