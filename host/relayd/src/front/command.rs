//! `relayd user`: adds and removes names in the credentials' file. The password is asked for, and only keys are written.

use super::credentials::{Credentials, number, user_line, word};
use super::keys::Keys;
use std::fs::{self, File};
use std::io::{self, BufRead, IsTerminal, Write};
use std::os::unix::fs::{MetadataExt, OpenOptionsExt, PermissionsExt, chown};
use std::path::{Path, PathBuf};
use std::process::{Command, Stdio};

const USAGE: &str = "\
relayd user add NAME [--number NUMBER] [--realm REALM] [--credentials FILE]     asks for a password; again for a new one
relayd user remove NAME [--credentials FILE]
relayd user list [--credentials FILE]
The number is from 1 to 32, the lowest free one if not given; names may share it. The realm is for a new file, mudsluice
if not given. The file is /etc/mudsluice/credentials if not given.
";
/// Where the file is if nobody says.
const FILE: &str = "/etc/mudsluice/credentials";
const REALM: &str = "mudsluice";
const SHORT: &str = "The password is short: whoever hears a call can try such ones at his own speed; 12 characters and more are better\n";
const NEW: &str = "The file is new, and its owner's alone: for a service of another user, chgrp it to that user's group and chmod 640\n";

/// The words after `user`.
struct Asked<'a> {
    action: &'a str,
    name: Option<&'a str>,
    number: Option<&'a str>,
    realm: Option<&'a str>,
    file: PathBuf,
}

/// Does what the words ask, and gives what to print.
pub fn command(words: &[String]) -> Result<String, String> {
    run(words, ask_password)
}

fn run(words: &[String], ask: impl FnOnce(&str) -> Result<String, String>) -> Result<String, String> {
    let asked = Asked::read(words)?;
    match (asked.action, asked.name) {
        ("add", Some(name)) => add(&asked, name, ask),
        ("remove", Some(name)) => remove(&asked.file, name),
        ("list", None) => list(&asked.file),
        _ => Err(USAGE.to_string()),
    }
}

impl<'a> Asked<'a> {
    fn read(words: &'a [String]) -> Result<Self, String> {
        let (action, mut rest) = words.split_first().ok_or(USAGE)?;
        let (mut name, mut number, mut realm, mut file) = (None, None, None, None);
        while let Some((first, others)) = rest.split_first() {
            let place = match first.as_str() {
                "--number" => &mut number,
                "--realm" => &mut realm,
                "--credentials" => &mut file,
                option if option.starts_with('-') => return Err(format!("unknown argument '{option}'\n{USAGE}")),
                _ => &mut name,
            };
            let option = first.starts_with('-');
            let value = if option { others.first() } else { Some(first) };
            let value = value.ok_or_else(|| format!("{first} needs a value"))?;
            if place.replace(value.as_str()).is_some() {
                return Err(format!("'{value}' is one too many\n{USAGE}"));
            }
            rest = &others[usize::from(option)..];
        }
        let file = PathBuf::from(file.unwrap_or(FILE));
        Ok(Asked {
            action,
            name,
            number,
            realm,
            file,
        })
    }
}

fn add(asked: &Asked, name: &str, ask: impl FnOnce(&str) -> Result<String, String>) -> Result<String, String> {
    word("name", name)?;
    let is_new = !asked.file.exists();
    let (text, credentials) = existing(&asked.file, asked.realm)?;
    let chosen = asked.number.map(number).transpose()?;
    let known = credentials.number_of(name);
    let number = chosen.or(known).or_else(|| credentials.free_number());
    let number = number.ok_or("every number from 1 to 32 is taken; share one by --number")?;
    let password = ask(name)?;
    checked(&password)?;
    let keys = Keys::derive(name.as_bytes(), credentials.realm.as_bytes(), password.as_bytes());
    replace(&asked.file, &(without(&text, name) + &user_line(name, number, &keys) + "\n"))?;
    let what = if known.is_some() { "has a new password" } else { "is added" };
    let new = if is_new { NEW } else { "" };
    let short = if password.len() < 12 { SHORT } else { "" };
    Ok(format!(
        "{name} {what}, with number {number}, in realm {}; SIGHUP makes a running relayd read it\n{short}{new}",
        credentials.realm
    ))
}

fn remove(file: &Path, name: &str) -> Result<String, String> {
    let (text, credentials) = existing(file, None)?;
    if credentials.number_of(name).is_none() {
        return Err(format!("no user {name} in {}", file.display()));
    }
    replace(file, &without(&text, name))?;
    Ok(format!("{name} is removed; SIGHUP makes a running relayd read it\n"))
}

/// Names and numbers, and never a key.
fn list(file: &Path) -> Result<String, String> {
    let (text, credentials) = existing(file, None)?;
    let users = text.lines().filter_map(named).map(|name| (name, credentials.number_of(name)));
    let lines: Vec<String> = users.map(|(name, number)| format!("{name} {}\n", number.unwrap_or(0))).collect();
    Ok(lines.concat())
}

/// The name of a line that has one.
fn named(line: &str) -> Option<&str> {
    let mut words = line.split('#').next()?.split_whitespace();
    (words.next() == Some("user")).then(|| words.next())?
}

/// The text without this name's line; all else stays as it is, and the last line is ended.
fn without(text: &str, name: &str) -> String {
    let kept = text.lines().filter(|line| named(line) != Some(name));
    kept.flat_map(|line| [line, "\n"]).collect()
}

/// The file's text and what it says, or a new one with this realm. An existing file keeps its realm: its keys are made with it.
fn existing(file: &Path, realm: Option<&str>) -> Result<(String, Credentials), String> {
    let text = match fs::read_to_string(file) {
        Ok(text) => text,
        Err(error) if error.kind() == io::ErrorKind::NotFound => {
            format!(
                "# relayd's credentials. A key is as good as its password: keep this file secret.\nrealm {}\n",
                realm.unwrap_or(REALM)
            )
        }
        Err(error) => return Err(format!("cannot read {}: {error}", file.display())),
    };
    let credentials = Credentials::parse(&text).map_err(|(line, why)| format!("{}, line {line}: {why}", file.display()))?;
    match realm {
        Some(other) if other != credentials.realm => {
            let own = &credentials.realm;
            Err(format!(
                "{} is for realm {own}: a key holds for one realm, so {other} needs a file of its own",
                file.display()
            ))
        }
        _ => Ok((text, credentials)),
    }
}

/// Replaces the file whole, with the owner, group and mode that it has; a new one is its owner's alone.
fn replace(file: &Path, text: &str) -> Result<(), String> {
    let mut new = file.as_os_str().to_os_string();
    new.push(".new");
    let written = || -> io::Result<()> {
        let _ = fs::remove_file(&new);
        let mut out = File::options().create_new(true).write(true).mode(0o600).open(&new)?;
        if let Ok(old) = fs::metadata(file) {
            chown(&new, Some(old.uid()), Some(old.gid()))?;
            out.set_permissions(fs::Permissions::from_mode(old.mode() & 0o640))?;
        }
        out.write_all(text.as_bytes())?;
        out.sync_all()?;
        fs::rename(&new, file)
    };
    written().map_err(|error| {
        let _ = fs::remove_file(&new);
        format!("cannot write {}: {error}", file.display())
    })
}

/// A password of characters that need no preparation.
fn checked(password: &str) -> Result<(), String> {
    let plain = password.bytes().all(|byte| byte == b' ' || byte.is_ascii_graphic());
    match (password.is_empty(), plain) {
        (true, _) => Err("an empty password is none".to_string()),
        (_, false) => {
            Err("a password has ASCII letters, digits, signs and spaces only: others need a preparation that relayd lacks".to_string())
        }
        _ => Ok(()),
    }
}

/// From the terminal, twice and unseen; else the first line of standard input.
fn ask_password(name: &str) -> Result<String, String> {
    if !io::stdin().is_terminal() {
        return line();
    }
    stty(&["-echo", "-isig"])?;
    let asked = prompt(&format!("password of {name}: ")).and_then(|first| Ok((first, prompt("once more: ")?)));
    stty(&["echo", "isig"])?;
    let (first, second) = asked?;
    if first == second {
        Ok(first)
    } else {
        Err("the two are not the same".to_string())
    }
}

fn prompt(text: &str) -> Result<String, String> {
    let _ = write!(io::stderr(), "{text}");
    let read = line();
    let _ = writeln!(io::stderr());
    read
}

fn line() -> Result<String, String> {
    let mut line = String::new();
    io::stdin()
        .lock()
        .read_line(&mut line)
        .map_err(|error| format!("cannot read a password: {error}"))?;
    Ok(line.trim_end_matches(['\n', '\r']).to_string())
}

/// Sets how the terminal behaves: whether it shows what is typed, and whether Ctrl-C ends relayd, which would leave it dark.
fn stty(settings: &[&str]) -> Result<(), String> {
    match Command::new("stty").args(settings).stdin(Stdio::inherit()).status() {
        Ok(status) if status.success() => Ok(()),
        _ => Err("cannot hide what is typed: stty failed".to_string()),
    }
}

#[cfg(test)]
mod tests {
    use super::*;

    /// A folder of this test's own, removed at its end.
    struct Folder(PathBuf);

    impl Folder {
        fn new(name: &str) -> Self {
            let path = std::env::temp_dir().join(format!("relayd-test-{}-{name}", std::process::id()));
            fs::create_dir(&path).expect("a folder");
            Folder(path)
        }

        fn user(&self, line: &str, password: &str) -> Result<String, String> {
            let file = self.0.join("credentials");
            let words: Vec<String> = line.split_whitespace().map(String::from).collect();
            let words = [words, vec!["--credentials".to_string(), file.display().to_string()]].concat();
            run(&words, |_| Ok(password.to_string()))
        }

        fn text(&self) -> String {
            fs::read_to_string(self.0.join("credentials")).expect("the file is there")
        }
    }

    impl Drop for Folder {
        fn drop(&mut self) {
            let _ = fs::remove_dir_all(&self.0);
        }
    }

    #[test]
    fn names_are_added_changed_listed_and_removed() {
        let folder = Folder::new("names");
        folder.user("add alice --realm example.org", "opensesame").expect("a new file");
        folder.user("add bob --number 1", "other").expect("a shared number");
        folder.user("add carol", "third").expect("the next number");
        assert_eq!(folder.user("list", ""), Ok("alice 1\nbob 1\ncarol 2\n".to_string()));
        let before = folder.text();
        assert!(folder.user("add alice", "changed").expect("again").contains("new password"));
        assert!(folder.text() != before && folder.text().lines().count() == before.lines().count());
        folder.user("remove bob", "").expect("bob is there");
        assert_eq!(folder.user("list", ""), Ok("carol 2\nalice 1\n".to_string()));
        assert!(folder.user("remove bob", "").expect_err("bob is gone").contains("no user bob"));
    }

    #[test]
    fn the_file_has_keys_and_no_password_and_is_its_owners_alone() {
        let folder = Folder::new("keys");
        folder.user("add alice --realm example.org", "opensesame").expect("a new file");
        let keys = Keys::derive(b"alice", b"example.org", b"opensesame");
        assert!(folder.text().contains(&user_line("alice", 1, &keys)) && !folder.text().contains("opensesame"));
        let path = folder.0.join("credentials");
        assert_eq!(fs::metadata(&path).expect("it is there").mode() & 0o777, 0o600);
        fs::set_permissions(&path, fs::Permissions::from_mode(0o640)).expect("a group may read it");
        let told = folder.user("add bob", "horse battery staple").expect("a second user");
        assert!(!told.contains("chmod 640") && !told.contains("short"), "{told}");
        assert_eq!(fs::metadata(&path).expect("it is there").mode() & 0o777, 0o640);
        assert!(Credentials::load(&path).is_ok());
        fs::set_permissions(&path, fs::Permissions::from_mode(0o644)).expect("all may read it");
        assert!(Credentials::load(&path).err().is_some_and(|why| why.contains("mode 644")));
        folder.user("add carol", "third").expect("a third user");
        assert_eq!(
            fs::metadata(&path).expect("it is there").mode() & 0o777,
            0o640,
            "others are shut out again"
        );
    }

    #[test]
    fn comments_secrets_and_other_lines_stay() {
        let folder = Folder::new("lines");
        let text = "# workshop\nrealm example.org # ours\nsecret north\nothers 32\nuser guest 5";
        fs::write(folder.0.join("credentials"), text).expect("a file");
        folder.user("add alice", "opensesame").expect("a user more");
        assert!(folder.text().starts_with(&format!("{text}\nuser alice 1 ")));
    }

    #[test]
    fn bad_words_are_told() {
        let folder = Folder::new("bad");
        let cases = [
            ("add", "pw", "relayd user add NAME"),
            ("add a:b", "pw", "':'"),
            ("add alice --number 33", "pw", "33"),
            ("add alice bob", "pw", "one too many"),
            ("add alice --frob 3", "pw", "--frob"),
            ("add alice", "", "empty"),
            ("add alice", "p\u{e4}ss", "ASCII"),
            ("forget alice", "", "relayd user"),
        ];
        for (line, password, why) in cases {
            let told = folder.user(line, password).expect_err(line);
            assert!(told.contains(why), "{line}: {told}");
        }
        assert!(!folder.0.join("credentials").exists(), "nothing was written");
        folder.user("add alice", "pw").expect("a file in the first realm");
        let told = folder.user("add bob --realm elsewhere", "pw").expect_err("another realm");
        assert!(told.contains("realm mudsluice"), "{told}");
    }
}
