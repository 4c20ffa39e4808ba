//! relayd: real clients over UDP, on the proved relay. Sockets, clock and random numbers are here; every decision is the relay's.

mod admission;
#[cfg(test)]
mod against_calls;
mod args;
mod clock;
mod counters;
mod denied;
mod desk;
mod drops;
mod explain;
mod filter;
mod front;
mod ledger;
mod line;
mod log;
mod metrics;
mod notify;
mod output;
mod pipe;
mod prefix;
mod program;
mod random;
mod rebuild;
mod recent;
mod refusals;
mod relay;
mod relayed;
mod reports;
mod server;
mod sockets;
mod status;
mod stun;
mod sys;
mod users;

use admission::Gate;
use args::{Action, Config};
use denied::Denied;
use desk::Desk;
use log::say;
use relay::Stop;
use server::{Parts, Server};
use std::env;
use std::io::{self, Write};
use std::net::Ipv4Addr;
use std::process::ExitCode;
use users::Users;

/// Why relayd ends otherwise than by a signal.
enum Trouble {
    /// Bad arguments, or files that can't be read or written: status 2.
    Setup(String),
    /// A socket that can't be bound, or a relay that fails: status 1.
    Running(String),
}

fn main() -> ExitCode {
    let result = arguments().and_then(args::parse).map_err(Trouble::Setup);
    let done = result.and_then(|action| match action {
        Action::Help => {
            print(args::HELP);
            Ok(())
        }
        Action::Version => {
            print(&format!("{VERSION}, {}\n", front::ABOUT));
            Ok(())
        }
        Action::User(words) => front::command(&words).map(|told| print(&told)).map_err(Trouble::Setup),
        Action::Check(config) => check(&config),
        Action::Run(config) => run(config),
    });
    match done {
        Ok(()) => ExitCode::SUCCESS,
        Err(Trouble::Setup(message)) => {
            say(&format!("{message}\nrelayd --help shows the options."));
            ExitCode::from(2)
        }
        Err(Trouble::Running(message)) => {
            say(&message);
            ExitCode::from(1)
        }
    }
}

const VERSION: &str = concat!("relayd ", env!("CARGO_PKG_VERSION"));

/// A reader that has gone is no trouble.
fn print(text: &str) {
    let _ = io::stdout().write_all(text.as_bytes());
}

fn arguments() -> Result<Vec<String>, String> {
    let text = |argument: std::ffi::OsString| {
        argument
            .into_string()
            .map_err(|raw| format!("not UTF-8: {}", raw.to_string_lossy()))
    };
    env::args_os().skip(1).map(text).collect()
}

fn check(config: &Config) -> Result<(), Trouble> {
    gate(config, [0; 32])?;
    let denied = denied(config)?;
    print(&format!("relayd: the options and the users are good\nrelayd: {}\n", denied.told()));
    if let Some(note) = own_address_denied(&denied, config.relay) {
        print(&format!("relayd: {note}\n"));
    }
    Ok(())
}

/// Who may use it, by password or by address; the key is for nonces.
fn gate(config: &Config, key: [u8; 32]) -> Result<Gate, Trouble> {
    let front = config.credentials.as_ref().map(|path| front::Front::open(path.clone(), key));
    Ok(Gate {
        users: Users::from_word(&config.user).map_err(Trouble::Setup)?,
        front: front.transpose().map_err(Trouble::Setup)?,
    })
}

/// The peers that the relay denies.
fn denied(config: &Config) -> Result<Denied, Trouble> {
    let defaults = !config.allow_local_peers && !denied::is_local(config.relay);
    Denied::open(defaults, config.denied.as_deref()).map_err(Trouble::Setup)
}

/// What somebody should know who has denied the relay's own address.
fn own_address_denied(denied: &Denied, relay: Ipv4Addr) -> Option<String> {
    let why = denied.why(relay)?;
    Some(format!(
        "two clients of this relay can't be each other's peers: its own address {relay} is {why}"
    ))
}

/// Opens all that relayd needs, and runs it.
fn run(config: Config) -> Result<(), Trouble> {
    let mut random = random::Random::open().map_err(|error| Trouble::Running(format!("no random source: {error}")))?;
    let key = random.key().map_err(Trouble::Running)?;
    let desk = desk(&config, key)?;
    let signals = sys::signals::Signals::take().map_err(|error| Trouble::Running(format!("cannot take signals: {error}")))?;
    let path = args::find_calls(config.calls.as_deref(), env::current_exe().ok().as_deref()).map_err(Trouble::Setup)?;
    let executable = program::Executable::open(&path).map_err(Trouble::Setup)?;
    let relay = pipe::Pipe::start(executable, &desk.denied, config.relay, signals.watch()).map_err(Trouble::Setup)?;
    let listen: Vec<String> = config.listen.iter().map(ToString::to_string).collect();
    let about = format!("{VERSION}, listening on {}, relaying on {}", listen.join(" and "), config.relay);
    let mut reports = reports::Reports::new(config.status, config.metrics, about.clone())
        .map_err(|error| Trouble::Running(format!("no standard output: {error}")))?;
    reports.write(&desk, 0, false).map_err(Trouble::Setup)?;
    let mut parts = Parts {
        relay,
        desk,
        signals,
        random,
        reports,
        notify: notify::Notify::new(),
        clock_offset: config.clock_offset,
    };
    announce(&mut parts.desk, &about, config.relay);
    let ended = Server::new(parts).and_then(Server::run);
    ended.map_err(|stop| match stop {
        Stop::Failed(why) => Trouble::Running(why),
        Stop::Asked => Trouble::Running("asked to end at the start".to_string()),
    })
}

/// Tells whoever started relayd, and the log, what it runs with.
fn announce(desk: &mut Desk, about: &str, relay: Ipv4Addr) {
    let buffers = format!("{about}, with receive buffers of {} bytes", desk.sockets.buffer);
    say(buffers.trim_start_matches("relayd "));
    if !desk.log.is_standard_error() {
        desk.event(&buffers);
    }
    if let Some(credentials) = desk.gate.front.as_ref().map(front::Front::told) {
        desk.event(&format!("clients need credentials: {credentials}"));
    }
    desk.event(&desk.denied.told());
    if let Some(note) = own_address_denied(&desk.denied, relay) {
        desk.event(&note);
    }
}

/// All that outcomes touch: users, denied prefixes, log and sockets.
fn desk(config: &Config, key: [u8; 32]) -> Result<Desk, Trouble> {
    let (gate, denied) = (gate(config, key)?, denied(config)?);
    let log = log::Log::open(config.log.as_deref(), config.log_packets).map_err(Trouble::Setup)?;
    let sockets = sockets::Sockets::bind(&config.listen, config.relay).map_err(Trouble::Running)?;
    Ok(Desk {
        sockets,
        outbox: sockets::Outbox::default(),
        gate,
        denied,
        ledger: ledger::Ledger::new(),
        log,
        clock: clock::Clock::new(config.clock_offset.is_some()),
        counters: counters::Counters::default(),
        refusals: recent::Recent::new(),
        drops: recent::Recent::new(),
    })
}
