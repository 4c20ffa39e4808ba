//! Who a client is, by its address: the number that the relay knows it by, and the name that people do.

use crate::prefix;
use std::collections::HashMap;
use std::net::{IpAddr, SocketAddr};

/// The highest user number that document 01 takes.
const LAST: u32 = 32;

/// How a client's address gives its user number.
#[derive(Debug, PartialEq, Eq)]
pub enum Users {
    /// The same for all; 0 is nobody, who gets 401.
    All(u32),
    /// 1 + port modulo 32: for tests.
    ByPort,
    /// By address, from a file; others are nobody.
    Site { path: String, site: Site },
}

/// The lines of a users' file, by the length of their prefixes, longest first.
#[derive(Debug, Default, PartialEq, Eq)]
pub struct Site(Vec<(u8, HashMap<IpAddr, User>)>);

/// What a line says of an address.
#[derive(Clone, Debug, PartialEq, Eq)]
struct User {
    number: u32,
    name: String,
}

impl Users {
    /// From `--user`'s word: a number, `by-port`, or the path of a file.
    pub fn from_word(word: &str) -> Result<Self, String> {
        if word == "by-port" {
            return Ok(Users::ByPort);
        }
        if !word.is_empty() && word.bytes().all(|byte| byte.is_ascii_digit()) {
            return number(word).map(Users::All);
        }
        let (path, site) = (word.to_string(), read(word)?);
        Ok(Users::Site { path, site })
    }

    /// Reads the file again, if there is one, and says what was done. A file with an error changes nothing.
    pub fn reload(&mut self) -> Result<String, String> {
        let Users::Site { path, site } = self else {
            return Ok("there is no users' file to read again".to_string());
        };
        *site = read(path)?;
        Ok(format!("{path} was read again"))
    }

    /// The user number of this client.
    pub fn of(&self, client: SocketAddr) -> u32 {
        match self {
            Users::All(user) => *user,
            Users::ByPort => 1 + u32::from(client.port()) % LAST,
            Users::Site { site, .. } => site.find(client.ip()).map_or(0, |user| user.number),
        }
    }

    /// The name of this client's user, if the file has one.
    pub fn name(&self, client: SocketAddr) -> Option<&str> {
        let Users::Site { site, .. } = self else { return None };
        site.find(client.ip())
            .map(|user| user.name.as_str())
            .filter(|name| !name.is_empty())
    }
}

/// A user for people: 'user 3 (mechanic)'.
pub fn who(user: u32, name: Option<&str>) -> String {
    match (user, name) {
        (0, _) => "nobody".to_string(),
        (user, Some(name)) => format!("user {user} ({name})"),
        (user, None) => format!("user {user}"),
    }
}

impl Site {
    /// The line with the longest prefix of this address.
    fn find(&self, address: IpAddr) -> Option<&User> {
        self.0
            .iter()
            .find_map(|(length, users)| users.get(&prefix::network(address, *length)?))
    }

    /// Adds a line, if its prefix is new.
    fn add(&mut self, prefix: IpAddr, length: u8, user: User) -> bool {
        let place = match self.0.binary_search_by(|(other, _)| length.cmp(other)) {
            Ok(place) => place,
            Err(place) => {
                self.0.insert(place, (length, HashMap::new()));
                place
            }
        };
        self.0[place].1.insert(prefix, user).is_none()
    }
}

fn number(word: &str) -> Result<u32, String> {
    let digits = word.bytes().all(|byte| byte.is_ascii_digit());
    match word.parse() {
        Ok(user) if digits && user <= LAST => Ok(user),
        _ => Err(format!("user '{word}' is not a number from 0 to {LAST}")),
    }
}

fn read(path: &str) -> Result<Site, String> {
    prefix::read_file(path, "users", site)
}

/// Lines of an address or a prefix, a user number and a name, which may be left out. An error names its line.
fn site(text: &str) -> Result<Site, (usize, String)> {
    let mut site = Site::default();
    prefix::each_line(text, |_, words| match words {
        [prefix, user, name @ ..] => add_line(&mut site, prefix, user, &name.join(" ")),
        _ => Err("not an address, a user number and a name".to_string()),
    })?;
    Ok(site)
}

fn add_line(site: &mut Site, word: &str, user: &str, name: &str) -> Result<(), String> {
    let (prefix, length) = prefix::read(word)?;
    let user = User {
        number: number(user)?,
        name: name.to_string(),
    };
    if site.add(prefix, length, user) {
        Ok(())
    } else {
        Err(format!("{word} is there twice"))
    }
}

#[cfg(test)]
mod tests {
    use super::*;
    use std::fs;

    fn at(text: &str) -> SocketAddr {
        text.parse().expect("an address")
    }

    fn users(text: &str) -> Users {
        let (path, site) = (String::new(), site(text).expect("a good file"));
        Users::Site { path, site }
    }

    #[test]
    fn a_number_for_all() {
        let users = Users::from_word("32").expect("in range");
        assert_eq!(users.of(at("[::1]:9")), 32);
        assert_eq!(who(32, users.name(at("[::1]:9"))), "user 32");
        assert!(Users::from_word("33").is_err());
        assert!(Users::from_word("99999999999").is_err());
        assert!(Users::from_word("+3").expect_err("a file of that name").contains("+3"));
    }

    #[test]
    fn by_port_stays_in_range_and_uses_all() {
        let mut seen: Vec<u32> = (0..64)
            .map(|port| Users::ByPort.of(SocketAddr::new([1, 2, 3, 4].into(), port)))
            .collect();
        seen.sort_unstable();
        seen.dedup();
        assert_eq!(seen, (1..=32).collect::<Vec<_>>());
    }

    #[test]
    fn a_site_file() {
        let users = users("# camera\n192.0.2.7 3\n\nfd00::1\t4 the mechanic # on call\n");
        assert_eq!(users.of(at("192.0.2.7:5")), 3);
        assert_eq!(users.of(at("[fd00::1]:5")), 4);
        assert_eq!(who(4, users.name(at("[fd00::1]:5"))), "user 4 (the mechanic)");
        assert_eq!(who(3, users.name(at("192.0.2.7:5"))), "user 3");
        assert_eq!(users.of(at("192.0.2.8:5")), 0);
        assert_eq!(who(0, users.name(at("192.0.2.8:5"))), "nobody");
    }

    #[test]
    fn the_longest_prefix_counts() {
        let users = users("10.0.0.0/8 1 works\n10.1.0.0/16 2 hall\n10.1.2.3 3 press\n0.0.0.0/0 4\nfd00::/16 5\n");
        let found: Vec<u32> = ["10.9.9.9:1", "10.1.9.9:1", "10.1.2.3:1", "11.0.0.1:1", "[fd00::9]:1", "[fe80::1]:1"]
            .map(|client| users.of(at(client)))
            .to_vec();
        assert_eq!(found, [1, 2, 3, 4, 5, 0]);
        assert_eq!(users.name(at("10.1.9.9:1")), Some("hall"));
    }

    #[test]
    fn a_bad_site_file_names_its_line() {
        let wrong = |text: &str| site(text).expect_err(text);
        assert_eq!(wrong("192.0.2.7 3\n192.0.2.8\n").0, 2);
        assert_eq!(wrong("\nhost 3\n").0, 2);
        assert_eq!(wrong("192.0.2.7 33\n").0, 1);
        assert_eq!(wrong("192.0.2.7 1\n192.0.2.7/32 2\n").0, 2);
        assert!(wrong("192.0.2.7 +3").1.contains("'+3' is not a number"));
        assert!(wrong("192.0.2.7/24 3").1.contains("write 192.0.2.0/24"));
        assert!(Users::from_word("/no/such/file").expect_err("no file").contains("/no/such/file"));
    }

    #[test]
    fn a_reload_that_fails_changes_nothing() {
        let path = std::env::temp_dir().join(format!("relayd-test-{}-users", std::process::id()));
        fs::write(&path, "192.0.2.7 3\n").expect("it is written");
        let mut users = Users::from_word(path.to_str().expect("text")).expect("a good file");
        fs::write(&path, "192.0.2.7 4\n192.0.2.8 x\n").expect("it is written");
        assert!(users.reload().expect_err("it is bad").contains("line 2"));
        assert_eq!(users.of(at("192.0.2.7:5")), 3);
        fs::write(&path, "192.0.2.7 4\n").expect("it is written");
        users.reload().expect("a good file");
        assert_eq!(users.of(at("192.0.2.7:5")), 4);
        fs::remove_file(&path).expect("it is removed");
    }
}
