//! The credentials' file: the realm, who has which number and keys, and the secrets behind time-limited names.

use super::keys::{Keys, timed_password, userhash};
use crate::line::{put_hex, read_hex};
use std::collections::{BTreeMap, HashMap};
use std::fs::File;
use std::io::Read;
use std::os::unix::fs::MetadataExt;
use std::path::Path;

/// The highest user number that document 01 takes.
const LAST: u32 = 32;
/// The longest realm or name, so that every challenge stays short.
const LONGEST: usize = 64;
/// The longest secret.
const LONGEST_SECRET: usize = 512;

/// What the file says.
pub struct Credentials {
    /// The realm of every key in the file.
    pub realm: String,
    users: HashMap<Vec<u8>, User>,
    /// The names behind their hashes.
    hashed: HashMap<[u8; 32], Vec<u8>>,
    /// The names of each number, for people.
    of_numbers: BTreeMap<u32, String>,
    secrets: Vec<String>,
    others: Option<u32>,
}

/// A name of the file. One without keys has only time-limited credentials.
struct User {
    number: u32,
    keys: Option<Keys>,
}

/// Whom a request says it is from.
#[derive(Clone, Copy)]
pub enum Claimed<'a> {
    /// By USERNAME.
    Name(&'a [u8]),
    /// By USERHASH.
    Hash(&'a [u8]),
}

/// Who may be behind a claim: one name and number, and the keys of which one must have signed.
pub struct Candidate<'a> {
    /// The name, as the file or the client has it.
    pub name: &'a [u8],
    /// The user number.
    pub number: u32,
    /// One set of keys, or one for each secret.
    pub keys: Vec<Keys>,
}

/// Why there is nobody behind a claim.
#[derive(Clone, Copy, Debug, PartialEq, Eq)]
pub enum Nobody {
    /// No such name.
    Unknown,
    /// A time-limited name whose time is over.
    Expired,
}

impl Credentials {
    /// Reads the file, which nobody else may read and only its owner may write.
    pub fn load(path: &Path) -> Result<Self, String> {
        let told = |why: String| format!("credentials {}: {why}", path.display());
        let mut file = File::open(path).map_err(|error| told(format!("cannot read them: {error}")))?;
        let mode = file.metadata().map_err(|error| told(error.to_string()))?.mode();
        private(mode).map_err(told)?;
        let mut text = String::new();
        file.read_to_string(&mut text)
            .map_err(|error| told(format!("cannot read them: {error}")))?;
        Credentials::parse(&text).map_err(|(line, why)| told(format!("line {line}: {why}")))
    }

    /// Reads the file's text; an error names its line.
    pub fn parse(text: &str) -> Result<Self, (usize, String)> {
        let mut read = Reading::default();
        for (place, line) in text.lines().enumerate() {
            read.line(line).map_err(|why| (place + 1, why))?;
        }
        let realm = read.realm.ok_or((1, "no line 'realm REALM'".to_string()))?;
        let hashed = |name: &Vec<u8>| (userhash(name, realm.as_bytes()), name.clone());
        Ok(Credentials {
            hashed: read.users.keys().map(hashed).collect(),
            of_numbers: by_number(&read.users),
            realm,
            users: read.users,
            secrets: read.secrets,
            others: read.others,
        })
    }

    /// Who may be behind a claim, at this time in Unix seconds.
    pub fn find<'a>(&'a self, claimed: Claimed<'a>, unix: u64) -> Result<Candidate<'a>, Nobody> {
        let name = match claimed {
            Claimed::Name(name) => name,
            Claimed::Hash(hash) => self.hashed.get(hash).ok_or(Nobody::Unknown)?,
        };
        match self.users.get(name) {
            Some(User { number, keys: Some(keys) }) => Ok(Candidate {
                name,
                number: *number,
                keys: vec![keys.clone()],
            }),
            Some(User { keys: None, .. }) => Err(Nobody::Unknown),
            None => self.find_timed(name, unix),
        }
    }

    /// A name of the form EXPIRY or EXPIRY:NAME, as applications with a shared secret hand them out.
    fn find_timed<'a>(&self, name: &'a [u8], unix: u64) -> Result<Candidate<'a>, Nobody> {
        let end = name.iter().position(|&byte| byte == b':').unwrap_or(name.len());
        let (digits, rest) = name.split_at(end);
        let expiry = expiry(digits).filter(|_| !self.secrets.is_empty()).ok_or(Nobody::Unknown)?;
        let listed = self.users.get(rest.get(1..).unwrap_or_default()).map(|user| user.number);
        let number = listed.or(self.others).ok_or(Nobody::Unknown)?;
        if unix >= expiry {
            return Err(Nobody::Expired);
        }
        let derive = |secret: &String| {
            let password = timed_password(secret.as_bytes(), name);
            Keys::derive(name, self.realm.as_bytes(), password.as_bytes())
        };
        let keys = self.secrets.iter().map(derive).collect();
        Ok(Candidate { name, number, keys })
    }

    /// The names that have this number, for people.
    pub fn name_of(&self, number: u32) -> Option<&str> {
        self.of_numbers.get(&number).map(String::as_str)
    }

    /// How many users and secrets there are, for people.
    pub fn told(&self) -> String {
        format!("realm {}, {} users, {} secrets", self.realm, self.users.len(), self.secrets.len())
    }

    /// The number of a name, and all numbers that names have.
    pub fn number_of(&self, name: &str) -> Option<u32> {
        self.users.get(name.as_bytes()).map(|user| user.number)
    }

    /// The lowest number that no name has.
    pub fn free_number(&self) -> Option<u32> {
        (1..=LAST).find(|number| !self.users.values().any(|user| user.number == *number) && self.others != Some(*number))
    }
}

/// The names of each number, in their order.
fn by_number(users: &HashMap<Vec<u8>, User>) -> BTreeMap<u32, String> {
    let mut sorted: Vec<(&Vec<u8>, &User)> = users.iter().collect();
    sorted.sort_by_key(|(name, _)| *name);
    let mut names = BTreeMap::<u32, String>::new();
    for (name, user) in sorted {
        let told = names.entry(user.number).or_default();
        let comma = if told.is_empty() { "" } else { ", " };
        *told = format!("{told}{comma}{}", String::from_utf8_lossy(name));
    }
    names
}

/// A line of the file for a name with a password.
pub fn user_line(name: &str, number: u32, keys: &Keys) -> String {
    let mut line = format!("user {name} {number} ").into_bytes();
    put_hex(&mut line, &keys.md5);
    line.push(b' ');
    put_hex(&mut line, &keys.sha256);
    String::from_utf8_lossy(&line).into_owned()
}

/// Whether a file of this mode is kept from others. A group may read it: the daemon's, where root owns the file.
pub fn private(mode: u32) -> Result<(), String> {
    match mode & 0o027 {
        0 => Ok(()),
        _ => Err(format!("mode {:o} lets others read or write them; chmod 600 or 640", mode & 0o777)),
    }
}

/// A user number from 1 to 32.
pub fn number(word: &str) -> Result<u32, String> {
    let digits = word.bytes().all(|byte| byte.is_ascii_digit());
    match word.parse() {
        Ok(number) if digits && (1..=LAST).contains(&number) => Ok(number),
        _ => Err(format!("'{word}' is not a user number from 1 to {LAST}")),
    }
}

/// A realm or name: characters that need no preparation, and none that parts the words of a file or of a key.
pub fn word(what: &str, word: &str) -> Result<String, String> {
    if word.is_empty() || word.len() > LONGEST {
        return Err(format!("a {what} has 1 to {LONGEST} characters"));
    }
    match word
        .chars()
        .find(|&character| !character.is_ascii_graphic() || character == ':' || character == '#' || character == '"')
    {
        None => Ok(word.to_string()),
        Some(bad) => Err(format!(
            "a {what} has no {bad:?}: only ASCII letters, digits and signs without : # and \""
        )),
    }
}

/// Unix seconds, in digits alone.
fn expiry(digits: &[u8]) -> Option<u64> {
    let digits = std::str::from_utf8(digits).ok()?;
    digits.bytes().all(|byte| byte.is_ascii_digit()).then(|| digits.parse().ok())?
}

/// The file as far as it is read.
#[derive(Default)]
struct Reading {
    realm: Option<String>,
    users: HashMap<Vec<u8>, User>,
    secrets: Vec<String>,
    others: Option<u32>,
}

impl Reading {
    fn line(&mut self, line: &str) -> Result<(), String> {
        let words: Vec<&str> = line.split('#').next().unwrap_or("").split_whitespace().collect();
        match words[..] {
            [] => Ok(()),
            ["realm", realm] => once("realm", self.realm.replace(word("realm", realm)?).is_some()),
            ["others", user] => once("others", self.others.replace(number(user)?).is_some()),
            ["secret", secret] if secret.len() <= LONGEST_SECRET => {
                self.secrets.push(secret.to_string());
                Ok(())
            }
            ["user", name, user] => self.user(name, user, None),
            ["user", name, user, md5, sha256] => {
                let keys = Keys {
                    md5: key(md5)?,
                    sha256: key(sha256)?,
                };
                self.user(name, user, Some(keys))
            }
            _ => Err("not 'realm REALM', 'user NAME NUMBER [KEYS]', 'secret SECRET' or 'others NUMBER'".to_string()),
        }
    }

    fn user(&mut self, name: &str, user: &str, keys: Option<Keys>) -> Result<(), String> {
        let number = number(user)?;
        let name = word("name", name)?;
        once(
            &format!("user {name}"),
            self.users.insert(name.into_bytes(), User { number, keys }).is_some(),
        )
    }
}

fn once(what: &str, again: bool) -> Result<(), String> {
    if again { Err(format!("'{what}' is there twice")) } else { Ok(()) }
}

/// A key in hex; the word itself is never told.
fn key<const SIZE: usize>(word: &str) -> Result<[u8; SIZE], String> {
    let mut bytes = Vec::new();
    let read = read_hex(word.as_bytes(), &mut bytes).and_then(|()| bytes.try_into().ok());
    read.ok_or_else(|| format!("a key is not {} lower hex digits", 2 * SIZE))
}

#[cfg(test)]
mod tests {
    use super::*;

    fn keys(name: &str, password: &str) -> Keys {
        Keys::derive(name.as_bytes(), b"example.org", password.as_bytes())
    }

    fn sample() -> Credentials {
        let line = user_line("alice", 3, &keys("alice", "opensesame"));
        let text = format!("# the workshop\nrealm example.org\n\n{line} # camera\nuser guest 5\nsecret north\nsecret south\nothers 32\n");
        Credentials::parse(&text).expect("a good file")
    }

    #[test]
    fn a_user_is_found_by_name_and_by_hash() {
        let credentials = sample();
        let hash = userhash(b"alice", b"example.org");
        for claimed in [Claimed::Name(b"alice"), Claimed::Hash(&hash)] {
            let found = credentials.find(claimed, 0).expect("alice is there");
            assert!(found.number == 3 && found.keys == [keys("alice", "opensesame")]);
        }
        for claimed in [
            Claimed::Name(b"Alice"),
            Claimed::Name(b""),
            Claimed::Name(b"guest"),
            Claimed::Hash(&hash[..31]),
        ] {
            assert_eq!(credentials.find(claimed, 0).err(), Some(Nobody::Unknown));
        }
    }

    #[test]
    fn a_time_limited_name_has_a_number_and_a_key_for_each_secret() {
        let credentials = sample();
        for (name, number) in [
            ("2000:guest", 5),
            ("2000:alice", 3),
            ("2000:room:7", 32),
            ("2000:", 32),
            ("2000", 32),
        ] {
            let found = credentials.find(Claimed::Name(name.as_bytes()), 1999).expect(name);
            let expected = ["north", "south"].map(|secret| keys(name, &timed_password(secret.as_bytes(), name.as_bytes())));
            assert!(found.number == number && found.keys == expected, "{name}");
        }
    }

    #[test]
    fn a_time_limited_name_is_over_at_its_second() {
        let credentials = sample();
        assert_eq!(credentials.find(Claimed::Name(b"2000:guest"), 2000).err(), Some(Nobody::Expired));
        for name in ["x2000:guest", ":guest", "+2000:guest", "99999999999999999999:guest", "-1"] {
            assert_eq!(
                credentials.find(Claimed::Name(name.as_bytes()), 0).err(),
                Some(Nobody::Unknown),
                "{name}"
            );
        }
    }

    #[test]
    fn without_secrets_or_others_a_strange_name_is_unknown() {
        let bare = Credentials::parse("realm example.org\nuser guest 5\n").expect("a good file");
        assert_eq!(bare.find(Claimed::Name(b"2000:guest"), 0).err(), Some(Nobody::Unknown));
        let listed = Credentials::parse("realm example.org\nuser guest 5\nsecret north\n").expect("a good file");
        assert!(listed.find(Claimed::Name(b"2000:guest"), 0).is_ok());
        assert_eq!(listed.find(Claimed::Name(b"2000:other"), 0).err(), Some(Nobody::Unknown));
    }

    #[test]
    fn a_bad_file_names_its_line() {
        let cases = [
            ("", 1, "realm"),
            ("realm a\nrealm b\n", 2, "twice"),
            ("realm a\nuser bob 33\n", 2, "1 to 32"),
            ("realm a\nuser bob 0\n", 2, "1 to 32"),
            ("realm a\nuser bob +3\n", 2, "1 to 32"),
            ("realm a\nuser bob 3\nuser bob 4\n", 3, "user bob"),
            ("realm a\nuser b:b 3\n", 2, "':'"),
            ("realm a\nuser bob 3 00 00\n", 2, "32 lower hex"),
            ("realm a\npassword bob\n", 2, "not 'realm"),
            ("realm a\u{e9}\n", 1, "ASCII"),
        ];
        for (text, line, why) in cases {
            let (at, told) = Credentials::parse(text).err().expect(text);
            assert!(at == line && told.contains(why), "{text:?}: line {at}: {told}");
        }
        let secret = Credentials::parse("realm a\nuser bob 3 0011223344556677 00\n")
            .err()
            .expect("a short key");
        assert!(!secret.1.contains("0011"), "a key is not shown: {}", secret.1);
    }

    #[test]
    fn the_mode_keeps_others_out() {
        for mode in [0o600, 0o640, 0o400, 0o100_600] {
            assert!(private(mode).is_ok(), "{mode:o}");
        }
        for mode in [0o644, 0o660, 0o604, 0o620, 0o602] {
            assert!(private(mode).expect_err("too open").contains("chmod"), "{mode:o}");
        }
    }

    #[test]
    fn names_that_share_a_number_are_told_together() {
        let shared = Credentials::parse("realm a\nuser carol 3\nuser bob 3\nuser dave 4\n").expect("a good file");
        assert_eq!(shared.name_of(3), Some("bob, carol"));
        assert_eq!((shared.name_of(4), shared.name_of(5)), (Some("dave"), None));
    }

    #[test]
    fn the_lowest_free_number() {
        assert_eq!(sample().free_number(), Some(1));
        assert_eq!((sample().number_of("guest"), sample().number_of("nobody")), (Some(5), None));
    }
}
