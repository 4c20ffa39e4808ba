//! The loop: what is ready is taken in batches, the relay is asked about a batch at once, and what it says is sent. One thread, which owns
//! the relay and waits nowhere but here and for the relay's answers.

use crate::admission::{Admission, Sender, garbage_from_peer};
use crate::counters::Cause;
use crate::desk::{Call, Desk};
use crate::front::Moment;
use crate::log::Arrival;
use crate::notify::Notify;
use crate::pipe::Pipe;
use crate::program::Trouble;
use crate::random::Random;
use crate::rebuild;
use crate::relay::Stop;
use crate::reports::Reports;
use crate::sockets::Door;
use crate::sys::datagrams::{Inbox, Received};
use crate::sys::epoll::Epoll;
use crate::sys::signals::{SIGHUP, SIGUSR1, SIGUSR2, Signals};
use std::io;
use std::net::SocketAddr;
use std::time::{Duration, Instant};

/// Tokens of what is no socket; the sockets' are their numbers.
const ENDING: u64 = u64::MAX;
const SIGNALS: u64 = u64::MAX - 1;
const PROGRAM: u64 = u64::MAX - 2;

/// How often what lapses is looked for, and the watchdog is told.
const TICK: Duration = Duration::from_secs(1);
/// How many ticks pass between two reports.
const REPORT: u64 = 5;

/// What the loop starts with.
pub struct Parts {
    pub relay: Pipe,
    pub desk: Desk,
    pub signals: Signals,
    pub random: Random,
    pub reports: Reports,
    pub notify: Notify,
    /// What SIGUSR2 adds to the clock, if it may.
    pub clock_offset: Option<u64>,
}

/// The loop's own state beside its parts.
pub struct Server {
    parts: Parts,
    waiting: Epoll,
    inbox: Inbox,
    /// The places in the inbox of what the relay is asked, each with its sender.
    asked: Vec<(usize, Sender)>,
    /// The second at which the ledger was last looked through.
    looked: u64,
    next_tick: Instant,
    ticks: u64,
}

fn cannot_wait(error: &io::Error) -> Stop {
    Stop::Failed(format!("cannot wait for datagrams: {error}"))
}

impl Server {
    /// Makes it ready to run.
    pub fn new(parts: Parts) -> Result<Self, Stop> {
        let waiting = Epoll::new().map_err(|error| cannot_wait(&error))?;
        waiting.add(parts.signals.ending(), ENDING).map_err(|error| cannot_wait(&error))?;
        waiting.add(parts.signals.others(), SIGNALS).map_err(|error| cannot_wait(&error))?;
        waiting
            .add_end(parts.relay.stream(), PROGRAM)
            .map_err(|error| cannot_wait(&error))?;
        for (number, socket) in parts.desk.sockets.numbered() {
            waiting.add(socket, number as u64).map_err(|error| cannot_wait(&error))?;
        }
        Ok(Server {
            parts,
            waiting,
            inbox: Inbox::new(),
            asked: Vec::new(),
            looked: 0,
            next_tick: Instant::now() + TICK,
            ticks: 0,
        })
    }

    /// Runs until a signal ends it, or the relay fails.
    pub fn run(mut self) -> Result<(), Stop> {
        self.parts.notify.ready();
        let mut ready = Vec::new();
        let stop = loop {
            if let Err(stop) = self.turn(&mut ready) {
                break stop;
            }
        };
        self.parts.notify.stopping();
        self.parts.desk.event("relayd ends");
        self.parts.desk.log.flush();
        match stop {
            Stop::Asked => Ok(()),
            failed @ Stop::Failed(_) => Err(failed),
        }
    }

    /// One wait, and all that it brings.
    fn turn(&mut self, ready: &mut Vec<u64>) -> Result<(), Stop> {
        self.parts.desk.log.flush();
        self.parts.reports.flush();
        let patience = self.next_tick.saturating_duration_since(Instant::now());
        self.waiting.wait(patience, ready).map_err(|error| cannot_wait(&error))?;
        let mut asked = false;
        for &token in &*ready {
            match token {
                ENDING => return Err(Stop::Asked),
                SIGNALS => asked = true,
                PROGRAM => self.look_at_program()?,
                number => self.take(usize::try_from(number).unwrap_or(usize::MAX))?,
            }
        }
        self.work()?;
        // What came before a signal is done before it, so that a status has it.
        if asked {
            self.obey();
        }
        if Instant::now() >= self.next_tick {
            self.tick();
        }
        Ok(())
    }

    /// Takes what has come in by one socket, up to a batch. What remains there is told by the next wait, which then does not wait.
    fn take(&mut self, number: usize) -> Result<(), Stop> {
        if self.inbox.is_full() {
            self.work()?;
        }
        let Some(socket) = self.parts.desk.sockets.at(number) else {
            return Ok(());
        };
        if let Err(error) = self.inbox.receive(socket, number) {
            self.parts.desk.counters.drop(Cause::NotReceived);
            if self.parts.desk.log.has_packets() {
                self.parts.desk.event(&format!("cannot receive: {error}"));
            }
        }
        Ok(())
    }

    /// Works on what is in the inbox.
    fn work(&mut self) -> Result<(), Stop> {
        if self.inbox.received().is_empty() {
            self.inbox.clear();
            return Ok(());
        }
        let now = self.parts.desk.clock.now();
        self.lapse(now);
        self.put(now)?;
        let asked = self.ask(now);
        self.parts.desk.send();
        self.inbox.clear();
        asked
    }

    /// Puts the inbox into the relay's next batch, as far as it goes to the relay.
    fn put(&mut self, now: u64) -> Result<(), Stop> {
        self.parts.relay.clear();
        self.asked.clear();
        let unix = self.parts.desk.clock.unix();
        let moment = Moment { now, unix };
        for (place, received) in self.inbox.received().iter().enumerate() {
            let datagram = self.inbox.bytes(received);
            let sender = match self.parts.desk.sockets.door(received.door) {
                Door::Server => self.parts.put_client(moment, received, datagram)?,
                Door::Port(relay_port) => self.parts.put_peer(now, received, relay_port, datagram),
            };
            self.asked.extend(sender.map(|sender| (place, sender)));
        }
        Ok(())
    }

    /// Asks the relay about the batch and does what it says. If the program fails, the rest is asked of a new one.
    fn ask(&mut self, now: u64) -> Result<(), Stop> {
        let mut settled = 0;
        loop {
            let done = self.parts.relay.ask();
            while settled < self.parts.relay.answered() {
                let (place, sender) = &self.asked[settled];
                let received = &self.inbox.received()[*place];
                let call = Call {
                    now,
                    arrival: arrival(self.parts.desk.sockets.door(received.door), received.from),
                    sender,
                    datagram: self.inbox.bytes(received),
                };
                self.parts.desk.settle(&call, &self.parts.relay.outcome(settled));
                settled += 1;
            }
            match done {
                Ok(()) => return Ok(()),
                Err(Trouble::Ending) => return Err(Stop::Asked),
                Err(Trouble::Program(why)) => self.restart(&why, now)?,
            }
        }
    }

    /// Starts the program again if it has ended. It may have been noticed, and started, since the wait.
    fn look_at_program(&mut self) -> Result<(), Stop> {
        match self.parts.relay.end() {
            Some(Trouble::Program(why)) => self.restart(&why, self.parts.desk.clock.now()),
            Some(Trouble::Ending) | None => Ok(()),
        }
    }

    /// Starts the program again with the ledger's table.
    fn restart(&mut self, why: &str, now: u64) -> Result<(), Stop> {
        let Parts { relay, desk, .. } = &mut self.parts;
        let (table, count) = rebuild::lines(&desk.ledger, now);
        relay.restart(why, &table, count, |what| desk.log.alert(&desk.clock, what))?;
        let allocations = desk.ledger.allocations().count();
        desk.alert(&format!("it runs again, with {allocations} allocations"));
        self.waiting.add_end(relay.stream(), PROGRAM).map_err(|error| cannot_wait(&error))
    }

    fn lapse(&mut self, now: u64) {
        if now != self.looked {
            self.looked = now;
            self.parts.desk.lapse(now);
        }
    }

    /// What is done once a second.
    fn tick(&mut self) {
        self.next_tick = Instant::now() + TICK;
        self.ticks += 1;
        self.lapse(self.parts.desk.clock.now());
        self.parts.notify.alive();
        if self.ticks % REPORT == 0 {
            self.parts.report(false);
        }
    }

    /// Does what the signals ask, all but the end.
    fn obey(&mut self) {
        while let Some(number) = self.parts.signals.next() {
            match number {
                SIGHUP => self.parts.reload(),
                SIGUSR1 => {
                    self.lapse(self.parts.desk.clock.now());
                    // What the status has, the log has.
                    self.parts.desk.log.flush();
                    self.parts.report(true);
                }
                SIGUSR2 => self.parts.forward(),
                _ => {}
            }
        }
    }
}

fn arrival(door: Door, from: SocketAddr) -> Arrival {
    match door {
        Door::Server => Arrival::Client(from),
        Door::Port(relay_port) => Arrival::Peer(from, relay_port),
    }
}

impl Parts {
    /// A client's datagram on its way to the relay: here it gets its user number, the front end's answer, or is dropped.
    fn put_client(&mut self, moment: Moment, received: &Received, datagram: &[u8]) -> Result<Option<Sender>, Stop> {
        let (from, now, arrival) = (received.from, moment.now, Arrival::Client(received.from));
        let sender = &Sender::default();
        let call = Call {
            now,
            arrival,
            sender,
            datagram,
        };
        match self.desk.gate.admit(moment, from, datagram, received.length) {
            Admission::Pass(sender) => {
                let start = self
                    .random
                    .next()
                    .map_err(|error| Stop::Failed(format!("no random number: {error}")))?;
                self.relay.client(now, sender.user, start, from, datagram);
                return Ok(Some(sender));
            }
            Admission::TurnAway(cause, response) => self.desk.turn_away(&call, from, &cause, &response),
            Admission::Drop(cause) => self.desk.drop(arrival, received.length, cause),
            Admission::Alarm(cause, why) => {
                self.desk.drop(arrival, received.length, cause);
                self.desk
                    .event(&format!("{} gets no more answers in this second: {why}", from.ip()));
            }
        }
        Ok(None)
    }

    /// A peer's datagram on its way to the relay. Peers have no user number.
    fn put_peer(&mut self, now: u64, received: &Received, relay_port: u16, datagram: &[u8]) -> Option<Sender> {
        // The relay ports are IPv4 sockets, and so are their peers.
        let SocketAddr::V4(peer) = received.from else { return None };
        if let Some(cause) = garbage_from_peer(received.length) {
            self.desk.drop(Arrival::Peer(received.from, relay_port), received.length, cause);
            return None;
        }
        self.relay.peer(now, peer, relay_port, datagram);
        Some(Sender::default())
    }

    /// Writes the status and the metrics; what goes wrong is told once.
    fn report(&mut self, asked: bool) {
        if let Err(why) = self.reports.write(&self.desk, self.relay.restarted, asked) {
            self.desk.alert(&why);
        }
    }

    /// SIGHUP: the credentials or the users' file again, and the log's file. The denied prefixes stay.
    fn reload(&mut self) {
        let users = self.desk.gate.reload();
        let log = self.desk.log.reopen();
        match users {
            Ok(what) => self.desk.event(&what),
            Err(why) => self.desk.alert(&format!("the users stay as they were: {why}")),
        }
        if let Some(what) = self.desk.denied.stays() {
            self.desk.alert(&what);
        }
        if let Err(why) = log {
            self.desk.alert(&why);
        }
    }

    /// SIGUSR2.
    fn forward(&mut self) {
        match self.clock_offset {
            Some(seconds) => {
                self.desk.clock.forward(seconds);
                self.desk.event("the clock was put forward");
            }
            None => self.desk.alert("SIGUSR2 is refused: there is no --clock-offset"),
        }
    }
}
