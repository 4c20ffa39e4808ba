//! The command line.

use std::net::{IpAddr, Ipv4Addr, SocketAddr};
use std::path::{Path, PathBuf};

/// What `--help` prints.
pub const HELP: &str = "\
relayd: the proved TURN relay on UDP sockets

    relayd [OPTION]...                an option's value may stand behind it or behind a =
    relayd user add|remove|list ...   who may use it, by password; relayd user says how

  --listen ADDRESS:PORT   the server's address, 127.0.0.1:3478 if not given; may be given twice, for IPv4 and IPv6
  --relay ADDRESS         the IPv4 address of the 128 relay ports 49152 to 49279; the IPv4 server's if not given
  --credentials FILE      clients sign their requests: names, numbers and keys, made by relayd user; not with --user
  --user WHO              without passwords: a number from 0 to 32 for all clients (0: nobody, who gets 401); or by-port, for tests;
                          or a file with lines of address or prefix, number and name (others are nobody).
                          1 if not given and all listens are on loopback, else it must be given
  --denied FILE           peers that the relay denies, with 403: lines of an IPv4 address or prefix, 192.0.2.7 or 10.0.0.0/8, and
                          # comments. It is read only at the start. 127.0.0.0/8, 0.0.0.0/8 and 169.254.0.0/16 are denied
                          by default, unless the relay's own address is in one of them
  --allow-local-peers     denies none of these three by default
  --log FILE              allocations, permissions and channels, refusals with why, and peers without a permission that were
                          dropped; - is standard error
  --log-packets           each datagram that the kernel lets in, and what became of it, too
  --status FILE           what is live, for people: written every 5 seconds and on SIGUSR1; without it, SIGUSR1
                          writes to standard output
  --metrics FILE          the same for Prometheus
  --calls PATH            the proved program; calls beside relayd if not given
  --clock-offset SECONDS  for tests: each SIGUSR2 puts the clock this far forward
  --check                 looks at the options, the users and the denied prefixes, and ends
  --version               the version
  --help                  this text

SIGHUP reads the credentials or the users' file again and opens the log's file anew; the denied prefixes stay until relayd is
restarted. SIGUSR1 writes the status. SIGTERM and SIGINT end relayd with status 0. It ends with status 2 on bad arguments or
files that can't be read or written, and with 1 if a socket can't be bound or the relay fails.
";

/// What the command line asks for.
#[derive(Debug, PartialEq, Eq)]
pub enum Action {
    /// Print the help.
    Help,
    /// Print the version.
    Version,
    /// Work on the credentials, by the words after `user`.
    User(Vec<String>),
    /// Look at the options, the users and the denied prefixes.
    Check(Config),
    /// Run with these.
    Run(Config),
}

/// What relayd runs with.
#[derive(Debug, PartialEq, Eq)]
pub struct Config {
    /// One server address for each family, one or two.
    pub listen: Vec<SocketAddr>,
    /// The address of the relay ports.
    pub relay: Ipv4Addr,
    /// `--user`'s word; 0 where there are credentials.
    pub user: String,
    /// Who may use it, by password.
    pub credentials: Option<PathBuf>,
    /// The file of peers that are denied.
    pub denied: Option<String>,
    /// Whether peers on this host and its links are allowed.
    pub allow_local_peers: bool,
    /// Where the log goes.
    pub log: Option<PathBuf>,
    /// Whether it has every datagram.
    pub log_packets: bool,
    /// Where the status goes.
    pub status: Option<PathBuf>,
    /// Where the metrics go.
    pub metrics: Option<PathBuf>,
    /// The proved program, if named.
    pub calls: Option<PathBuf>,
    /// What SIGUSR2 adds to the clock, if it may.
    pub clock_offset: Option<u64>,
}

/// The options as they stand on the line.
#[derive(Default)]
struct Given {
    listen: Vec<SocketAddr>,
    relay: Option<Ipv4Addr>,
    user: Option<String>,
    credentials: Option<PathBuf>,
    denied: Option<String>,
    log: Option<PathBuf>,
    status: Option<PathBuf>,
    metrics: Option<PathBuf>,
    calls: Option<PathBuf>,
    clock_offset: Option<u64>,
    flags: Vec<&'static str>,
}

/// Reads the arguments after the program's name.
pub fn parse(arguments: impl IntoIterator<Item = String>) -> Result<Action, String> {
    let mut given = Given::default();
    let mut arguments = arguments.into_iter().peekable();
    if arguments.next_if(|first| first == "user").is_some() {
        return Ok(Action::User(arguments.collect()));
    }
    while let Some(argument) = arguments.next() {
        let (name, value) = match argument.split_once('=') {
            Some((name, value)) => (name.to_string(), Some(value.to_string())),
            None => (argument, None),
        };
        match name.as_str() {
            "--help" | "-h" => return Ok(Action::Help),
            "--version" => return Ok(Action::Version),
            _ => {}
        }
        if let Some(flag) = FLAGS.into_iter().find(|flag| *flag == name) {
            given.flag(flag, value.as_deref())?;
            continue;
        }
        if !WITH_VALUE.contains(&name.as_str()) {
            return Err(format!("unknown argument '{name}'"));
        }
        let value = value.or_else(|| arguments.next());
        given.take(&name, value.ok_or_else(|| format!("{name} needs a value"))?)?;
    }
    let check = given.has("--check");
    let config = given.complete()?;
    Ok(if check { Action::Check(config) } else { Action::Run(config) })
}

const FLAGS: [&str; 3] = ["--allow-local-peers", "--log-packets", "--check"];
const WITH_VALUE: [&str; 10] = [
    "--listen",
    "--relay",
    "--user",
    "--credentials",
    "--denied",
    "--log",
    "--status",
    "--metrics",
    "--calls",
    "--clock-offset",
];

impl Given {
    fn flag(&mut self, flag: &'static str, value: Option<&str>) -> Result<(), String> {
        if value.is_some() {
            return Err(format!("{flag} takes no value"));
        }
        self.flags.push(flag);
        Ok(())
    }

    fn has(&self, flag: &str) -> bool {
        self.flags.contains(&flag)
    }

    fn take(&mut self, name: &str, value: String) -> Result<(), String> {
        match name {
            "--listen" => {
                let address = server_address(&value)?;
                if self.listen.iter().any(|other| other.is_ipv4() == address.is_ipv4()) {
                    return Err("--listen takes one IPv4 and one IPv6 address: the relay knows one server".to_string());
                }
                self.listen.push(address);
                Ok(())
            }
            "--relay" => once(name, &mut self.relay, relay_address(&value)?),
            "--user" => once(name, &mut self.user, value),
            "--credentials" => once(name, &mut self.credentials, value.into()),
            "--denied" => once(name, &mut self.denied, value),
            "--log" => once(name, &mut self.log, value.into()),
            "--status" => once(name, &mut self.status, value.into()),
            "--metrics" => once(name, &mut self.metrics, value.into()),
            "--calls" => once(name, &mut self.calls, value.into()),
            _ => once(name, &mut self.clock_offset, seconds(name, &value)?),
        }
    }

    fn complete(mut self) -> Result<Config, String> {
        if self.listen.is_empty() {
            self.listen.push(SocketAddr::new(Ipv4Addr::LOCALHOST.into(), 3478));
        }
        let first_ipv4 = self.listen.iter().find_map(|address| match address.ip() {
            IpAddr::V4(ip) => Some(ip),
            IpAddr::V6(_) => None,
        });
        let relay = self.relay.or(first_ipv4).ok_or("--relay is needed where no --listen is IPv4")?;
        let loopback = self.listen.iter().all(|address| address.ip().is_loopback());
        if self.credentials.is_some() && self.user.is_some() {
            return Err("--credentials and --user are two ways to know a user: give one".to_string());
        }
        let default = match self.credentials {
            Some(_) => Some("0".to_string()),
            None => loopback.then(|| "1".to_string()),
        };
        let open = "--credentials or --user is needed where --listen isn't on loopback: who may use the relay?";
        let (allow_local_peers, log_packets) = (self.has("--allow-local-peers"), self.has("--log-packets"));
        if log_packets && self.log.is_none() {
            return Err("--log-packets needs --log".to_string());
        }
        Ok(Config {
            listen: self.listen,
            relay,
            user: self.user.or(default).ok_or(open)?,
            credentials: self.credentials,
            denied: self.denied,
            allow_local_peers,
            log: self.log,
            log_packets,
            status: self.status,
            metrics: self.metrics,
            calls: self.calls,
            clock_offset: self.clock_offset,
        })
    }
}

fn seconds(name: &str, value: &str) -> Result<u64, String> {
    let digits = value.bytes().all(|byte| byte.is_ascii_digit());
    let number = value.parse().ok().filter(|_| digits);
    number.ok_or_else(|| format!("{name} '{value}' is not a number of seconds"))
}

fn once<T>(name: &str, place: &mut Option<T>, value: T) -> Result<(), String> {
    match place.replace(value) {
        None => Ok(()),
        Some(_) => Err(format!("{name} is there twice")),
    }
}

fn server_address(value: &str) -> Result<SocketAddr, String> {
    let address: SocketAddr = value
        .parse()
        .map_err(|_| format!("--listen '{value}' is not ADDRESS:PORT (IPv6 as [ADDRESS]:PORT)"))?;
    let mapped = matches!(address.ip(), IpAddr::V6(ip) if ip.to_ipv4_mapped().is_some());
    if address.ip().is_unspecified() || address.ip().is_multicast() || mapped || address.port() == 0 {
        return Err(format!("--listen '{value}' must be one address of this host and a port"));
    }
    Ok(address)
}

fn relay_address(value: &str) -> Result<Ipv4Addr, String> {
    match value.parse::<Ipv4Addr>() {
        Ok(ip) if !ip.is_unspecified() && !ip.is_multicast() && !ip.is_broadcast() => Ok(ip),
        _ => Err(format!("--relay '{value}' is not one IPv4 address of this host")),
    }
}

/// The proved program: the one named, else the one beside relayd.
pub fn find_calls(named: Option<&Path>, relayd: Option<&Path>) -> Result<PathBuf, String> {
    if let Some(path) = named {
        return Ok(path.to_path_buf());
    }
    let beside = relayd.and_then(Path::parent).map(|folder| folder.join("calls"));
    beside
        .filter(|path| path.is_file())
        .ok_or_else(|| "there is no calls beside relayd; name it with --calls".to_string())
}

#[cfg(test)]
mod tests {
    use super::*;

    fn run(line: &str) -> Result<Config, String> {
        match parse(line.split_whitespace().map(String::from))? {
            Action::Run(config) => Ok(config),
            other => Err(format!("{other:?}")),
        }
    }

    fn refused(line: &str, word: &str) {
        let message = run(line).expect_err(line);
        assert!(message.contains(word), "{line}: {message}");
    }

    #[test]
    fn defaults_are_on_loopback() {
        let config = run("").expect("no arguments are fine");
        assert_eq!(config.listen, ["127.0.0.1:3478".parse().expect("an address")]);
        assert_eq!(config.relay, Ipv4Addr::LOCALHOST);
        assert_eq!(config.user, "1");
        assert_eq!((config.log, config.status, config.calls, config.denied), (None, None, None, None));
        assert_eq!((config.metrics, config.clock_offset), (None, None));
        assert!(!config.allow_local_peers && !config.log_packets);
    }

    #[test]
    fn the_relay_address_is_the_ipv4_servers() {
        let config = run("--listen [::1]:3478 --listen 192.0.2.1:3478 --user by-port").expect("both families");
        assert_eq!(config.relay, Ipv4Addr::new(192, 0, 2, 1));
        let config = run("--listen 192.0.2.1:3478 --relay 203.0.113.5 --user 3").expect("both given");
        assert_eq!(config.relay, Ipv4Addr::new(203, 0, 113, 5));
    }

    #[test]
    fn help_wins() {
        assert_eq!(parse(["--help".to_string(), "--nonsense".to_string()]), Ok(Action::Help));
        for name in WITH_VALUE.iter().chain(&FLAGS) {
            assert!(HELP.contains(name), "{name}");
        }
        assert_eq!(parse(["--version".to_string()]), Ok(Action::Version));
    }

    #[test]
    fn a_value_may_stand_behind_an_equals_sign() {
        let config = run("--listen=192.0.2.1:3478 --user=by-port --log=a=b").expect("good options");
        assert_eq!(config.listen, ["192.0.2.1:3478".parse().expect("an address")]);
        assert_eq!(config.log, Some("a=b".into()));
        refused("--listen= --user 1", "ADDRESS:PORT");
        refused("--log-packets=yes", "takes no value");
    }

    #[test]
    fn check_has_all_that_a_run_has() {
        let words = ["--check", "--listen=192.0.2.1:3478"].map(String::from);
        assert!(parse(words).expect_err("no --user").contains("--user"));
        assert!(matches!(parse(["--check".to_string()]), Ok(Action::Check(_))));
    }

    #[test]
    fn bad_arguments_are_named() {
        refused("--port 3478", "--port");
        refused("--listen", "needs a value");
        refused("--listen 127.0.0.1", "ADDRESS:PORT");
        refused("--listen 0.0.0.0:3478 --user 1", "one address of this host");
        refused("--listen [::ffff:127.0.0.1]:3478", "one address of this host");
        refused("--listen 127.0.0.1:0", "a port");
        refused("--listen 127.0.0.1:1 --listen 127.0.0.2:1", "one IPv4 and one IPv6");
        refused("--listen [::1]:3478", "--relay is needed");
        refused("--listen 192.0.2.1:3478", "--user is needed");
        refused("--relay ::1", "IPv4");
        refused("--relay 0.0.0.0", "one IPv4 address");
        refused("--user 1 --user 2", "twice");
        refused("--denied x --denied y", "twice");
        refused("--user 1 --credentials x", "give one");
        refused("--clock-offset -5", "seconds");
        refused("--clock-offset +5", "seconds");
        refused("--log-packets", "needs --log");
    }

    #[test]
    fn credentials_stand_in_the_place_of_a_user() {
        let config = run("--listen 192.0.2.1:3478 --credentials x").expect("no --user");
        assert_eq!((config.user.as_str(), config.credentials), ("0", Some("x".into())));
        let words = ["user", "add", "--help"].map(String::from);
        assert_eq!(parse(words.clone()), Ok(Action::User(words[1..].to_vec())));
    }

    #[test]
    fn calls_is_found_or_named() {
        let named = find_calls(Some(Path::new("/x/calls")), None);
        assert_eq!(named, Ok(PathBuf::from("/x/calls")));
        let error = find_calls(None, Some(Path::new("/no/such/relayd"))).expect_err("none there");
        assert!(error.contains("--calls"));
        // Never in the current directory, wherever that is.
        assert!(find_calls(None, None).is_err());
    }
}
