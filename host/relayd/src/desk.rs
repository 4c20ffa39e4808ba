//! What becomes of the relay's outcomes: sent on, counted, kept in the ledger, told in the log.

use crate::admission::{Gate, Sender};
use crate::clock::{Clock, minutes};
use crate::counters::{Cause, Counters};
use crate::denied::Denied;
use crate::drops::Dropped;
use crate::explain;
use crate::filter::LetIn;
use crate::front;
use crate::ledger::{Allocation, Change, Ledger};
use crate::log::{self, Arrival, Log};
use crate::recent::Recent;
use crate::refusals::Refusal;
use crate::relay::{Outcome, Reason};
use crate::sockets::{Outbox, Sockets};
use crate::stun;
use crate::users;
use std::net::SocketAddr;

/// A call that the relay was asked about, or that the front end has answered.
#[derive(Clone, Copy)]
pub struct Call<'a> {
    pub now: u64,
    pub arrival: Arrival,
    pub sender: &'a Sender,
    pub datagram: &'a [u8],
}

/// All that an outcome touches.
pub struct Desk {
    pub sockets: Sockets,
    pub outbox: Outbox,
    pub gate: Gate,
    pub denied: Denied,
    pub ledger: Ledger,
    pub log: Log,
    pub clock: Clock,
    pub counters: Counters,
    pub refusals: Recent<Refusal>,
    pub drops: Recent<Dropped>,
}

impl Desk {
    /// Does what an outcome says.
    pub fn settle(&mut self, call: &Call, outcome: &Outcome) {
        let mut told = *outcome;
        match (call.arrival, outcome) {
            (_, Outcome::Refused(_)) => self.counters.drop(Cause::Refused),
            (_, Outcome::Lost) => self.counters.drop(Cause::Lost),
            (_, Outcome::Dropped(reason)) => told = Outcome::Dropped(self.dropped(call, *reason)),
            (Arrival::Client(_), Outcome::ToClient { to, bytes }) => self.respond(call, *to, bytes),
            (Arrival::Peer(_, relay_port), Outcome::ToClient { to, bytes }) => {
                self.counters.to_clients.add(call.datagram.len());
                if let Some(allocation) = self.ledger.at_mut(relay_port) {
                    allocation.to_client.add(call.datagram.len());
                }
                self.send_to_client(*to, bytes);
            }
            (_, Outcome::ToPeer { relay_port, to, bytes }) => self.send_to_peer(*relay_port, *to, bytes),
        }
        if self.log.has_packets() {
            self.log.packet(&self.clock, call.arrival, call.datagram.len(), &log::fate(&told));
        }
    }

    /// The relay has dropped a datagram. Gives why, as people are told.
    fn dropped(&mut self, call: &Call, reason: Reason) -> Reason {
        let dropped = Dropped::of(&self.ledger, call.arrival, call.datagram, reason);
        let reason = dropped.map_or(reason, |dropped| dropped.reason());
        self.counters.drop(match call.arrival {
            Arrival::Client(_) => Cause::of_client(reason),
            Arrival::Peer(..) => Cause::of_peer(reason),
        });
        self.count_stranger(call.now, call.arrival);
        if let Some(dropped) = dropped {
            if self.drops.add(call.now, self.clock.stamp(), dropped) {
                self.event(&dropped.text(call.now, &self.gate));
            }
        }
        reason
    }

    /// Counts a peer's datagram that goes nowhere, if the relay port does not know the peer: it takes only so many of these.
    fn count_stranger(&mut self, now: u64, arrival: Arrival) {
        let Arrival::Peer(SocketAddr::V4(from), relay_port) = arrival else {
            return;
        };
        let Some(allocation) = self.ledger.at_mut(relay_port) else { return };
        if allocation.known().all(|known| known != *from.ip()) {
            allocation.strangers.add(now);
            self.let_in(now, relay_port);
        }
    }

    /// A datagram that goes nowhere, and that the relay did not see.
    pub fn drop(&mut self, arrival: Arrival, length: usize, cause: Cause) {
        self.counters.drop(cause);
        self.count_stranger(self.clock.now(), arrival);
        if self.log.has_packets() {
            self.log.packet(&self.clock, arrival, length, &log::fate_before(cause));
        }
    }

    /// A client's request gets its response.
    fn respond(&mut self, call: &Call, to: SocketAddr, response: &[u8]) {
        match stun::response(response) {
            Some((_, true)) => self.accepted(call, to, response),
            Some((method, false)) => {
                let reason = explain::reason(&self.ledger, &self.denied, call.sender.user, to, call.datagram, response);
                self.refused(call, to, method, response, reason);
            }
            None => {}
        }
        match &call.sender.signer {
            Some(signer) => self.send_to_client(to, &signer.sign(response)),
            None => self.send_to_client(to, response),
        }
    }

    /// A client's request gets the front end's answer. A first request without credentials is every client's, so it is not told.
    pub fn turn_away(&mut self, call: &Call, to: SocketAddr, cause: &front::Cause, response: &[u8]) {
        match stun::response(response) {
            Some((method, false)) if !cause.is_routine() => self.refused(call, to, method, response, cause.to_string()),
            _ => {}
        }
        if self.log.has_packets() {
            let fate = format!("answered before the relay, {}: {cause}", log::message(response));
            self.log.packet(&self.clock, call.arrival, call.datagram.len(), &fate);
        }
        self.send_to_client(to, response);
    }

    /// The one place from which bytes go to a client.
    fn send_to_client(&mut self, to: SocketAddr, bytes: &[u8]) {
        match self.sockets.to_client(to) {
            Some((number, to)) => self.outbox.put(number, to, bytes),
            None => self.counters.drop(Cause::NotSent),
        }
    }

    fn send_to_peer(&mut self, relay_port: u16, to: SocketAddr, bytes: &[u8]) {
        self.counters.to_peers.add(bytes.len());
        if let Some(allocation) = self.ledger.at_mut(relay_port) {
            allocation.to_peers.add(bytes.len());
        }
        match self.sockets.to_peer(relay_port) {
            Some(number) => self.outbox.put(number, to, bytes),
            None => self.counters.drop(Cause::NotSent),
        }
    }

    fn accepted(&mut self, call: &Call, client: SocketAddr, response: &[u8]) {
        self.counters.accepted += 1;
        let recorded = self.ledger.record(call.now, call.sender.user, client, call.datagram, response);
        let Some((relay_port, change)) = recorded else { return };
        self.let_in(call.now, relay_port);
        let (user, name) = (call.sender.user, call.sender.name.as_deref());
        let whose = users::who(user, name.or_else(|| self.gate.name(user, client)));
        let who = format!("{whose}, client {client}, relay port {relay_port}");
        match &change {
            Change::Made(seconds) => self.event(&format!("allocation made: {who}, for {}", minutes(*seconds))),
            Change::ToldAgain(seconds) => self.event(&format!("allocation told again: {who}, {} left", minutes(*seconds))),
            Change::Refreshed(seconds) => self.event(&format!("allocation refreshed: {who}, for {}", minutes(*seconds))),
            Change::GivenBack(gone) => self.event(&ended("given back", &who, gone)),
            Change::Permitted(hosts) => {
                for host in hosts {
                    self.event(&format!("permission made: {who}, peer {host}"));
                }
            }
            Change::Bound {
                number, peer, new: true, ..
            } => {
                self.event(&format!("channel made: {who}, channel {number:#06x}, peer {peer}"));
            }
            Change::Bound { .. } => {}
        }
    }

    fn refused(&mut self, call: &Call, from: SocketAddr, method: u16, response: &[u8], reason: String) {
        let code = stun::error_code(response).unwrap_or(0);
        *self.counters.refusals.entry((method, code)).or_default() += 1;
        let refusal = Refusal {
            method,
            code,
            from,
            user: call.sender.user,
            reason,
        };
        let text = refusal.text(&self.gate.who(call.sender.user, from));
        if self.refusals.add(call.now, self.clock.stamp(), refusal) {
            self.event(&text);
        }
    }

    /// Tells the kernel whose datagrams a relay port takes.
    fn let_in(&mut self, now: u64, relay_port: u16) {
        self.sockets.let_in(relay_port, LetIn::of(self.ledger.at(relay_port), now));
    }

    /// Takes out of the ledger what is over, and tells what is due in the log.
    pub fn lapse(&mut self, now: u64) {
        let over = self.ledger.lapse(now);
        let ports: Vec<u16> = (over.iter().chain(self.ledger.allocations()))
            .map(|allocation| allocation.relay_port)
            .collect();
        for relay_port in ports {
            self.let_in(now, relay_port);
        }
        for gone in over {
            let whose = self.gate.who(gone.user, gone.client);
            let who = format!("{whose}, client {}, relay port {}", gone.client, gone.relay_port);
            self.event(&ended("lapsed", &who, &gone));
        }
        self.tell_counts(now);
    }

    /// Tells how often refusals and drops came again.
    fn tell_counts(&mut self, now: u64) {
        let (refusals, hushed_refusals) = self.refusals.due(now);
        let (drops, hushed_drops) = self.drops.due(now);
        for (refusal, count) in refusals {
            let text = refusal.text(&self.gate.who(refusal.user, refusal.from));
            self.event(&format!("{text}; {count} times more"));
        }
        for (dropped, count) in drops {
            let text = dropped.text(now, &self.gate);
            self.event(&format!("{text}; {count} times more"));
        }
        for (hushed, what) in [
            (hushed_refusals, "refusals from other sources"),
            (hushed_drops, "drops of other peers"),
        ] {
            if hushed > 0 {
                self.event(&format!("{hushed} more {what}"));
            }
        }
    }

    /// Sends what waits.
    pub fn send(&mut self) {
        let (counters, log, clock) = (&mut self.counters, &mut self.log, &self.clock);
        self.outbox.send(&self.sockets, |to, error| {
            counters.drop(Cause::NotSent);
            if log.has_packets() {
                log.event(clock, &format!("not sent to {to}: {error}"));
            }
        });
    }

    /// An event in the log.
    pub fn event(&mut self, what: &str) {
        self.log.event(&self.clock, what);
    }

    /// An event that somebody has to know of.
    pub fn alert(&mut self, what: &str) {
        self.log.alert(&self.clock, what);
    }
}

fn ended(how: &str, who: &str, gone: &Allocation) -> String {
    format!(
        "allocation ended, {how}: {who}, {} packets to peers, {} to the client",
        gone.to_peers.packets, gone.to_client.packets
    )
}
