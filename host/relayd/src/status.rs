//! The status: what is live, in words for a help desk or a front panel.

use crate::clock::{days, minutes};
use crate::counters::Cause;
use crate::desk::Desk;
use crate::filter::STRANGERS;
use crate::front::Front;
use crate::ledger::{Allocation, Flow, SLOTS};
use crate::recent::{Event, Kept, Recent};
use std::fmt::Write;

/// The whole text. Writing to a string never fails.
pub fn text(desk: &Desk, restarted: u64, about: &str) -> String {
    let now = desk.clock.now();
    let mut text = format!("{about}\n{}, up {}\n", desk.clock.stamp(), days(now));
    let _ = writeln!(text, "{} of {SLOTS} allocations", desk.ledger.allocations().count());
    let _ = writeln!(text, "{}", desk.denied.told());
    for allocation in desk.ledger.allocations() {
        put_allocation(&mut text, desk, allocation, now);
    }
    put_counts(&mut text, desk, restarted);
    put_last(&mut text, "drops", &desk.drops, |kept| kept.event.text(kept.last, &desk.gate));
    put_last(&mut text, "refusals", &desk.refusals, |kept| {
        kept.event.text(&desk.gate.who(kept.event.user, kept.event.from))
    });
    text
}

fn left(expiry: u64, now: u64) -> String {
    format!("{} left", minutes(expiry.saturating_sub(now)))
}

fn flow(flow: Flow) -> String {
    format!("{} packets, {} bytes", flow.packets, flow.bytes)
}

fn put_allocation(text: &mut String, desk: &Desk, allocation: &Allocation, now: u64) {
    let who = desk.gate.who(allocation.user, allocation.client);
    let (client, relay_port) = (allocation.client, allocation.relay_port);
    let _ = writeln!(
        text,
        "\n{who}, client {client}, relay port {relay_port}, {}",
        left(allocation.expiry, now)
    );
    let _ = writeln!(text, "  to peers: {}", flow(allocation.to_peers));
    let _ = writeln!(text, "  to the client: {}", flow(allocation.to_client));
    for (host, expiry) in &allocation.permissions {
        let _ = writeln!(text, "  permission for {host}, {}", left(*expiry, now));
    }
    for (number, (peer, expiry)) in &allocation.channels {
        let _ = writeln!(text, "  channel {number:#06x} to {peer}, {}", left(*expiry, now));
    }
}

fn put_counts(text: &mut String, desk: &Desk, restarted: u64) {
    let counters = &desk.counters;
    let _ = writeln!(text, "\nSince the start:");
    let _ = writeln!(text, "  to peers: {}", flow(counters.to_peers));
    let _ = writeln!(text, "  to clients: {}", flow(counters.to_clients));
    let (refused, denied): (u64, u64) = (counters.refusals.values().sum(), counters.refused_with(403));
    let _ = writeln!(
        text,
        "  requests: {} accepted, {refused} refused, {denied} of them for a denied peer",
        counters.accepted
    );
    let counts = desk.gate.front.as_ref().map(Front::counts).unwrap_or_default();
    if !counts.is_empty() {
        let counts: Vec<String> = counts.iter().map(|(what, times)| format!("{times} {what}")).collect();
        let _ = writeln!(text, "  credentials: {}", counts.join(", "));
    }
    let _ = writeln!(text, "  starts of the relay's program after the first: {restarted}");
    let (server, ports) = desk.sockets.dropped_by_kernel();
    let _ = writeln!(text, "\nDropped:");
    let _ = writeln!(text, "  {server} at the server's address, for want of room");
    let _ = writeln!(
        text,
        "  {ports} at the relay ports: no allocation, over {STRANGERS} a minute without a permission, or no room"
    );
    for cause in Cause::ALL {
        let _ = writeln!(text, "  {} {}", counters.dropped(cause), cause.text());
    }
}

/// The last of one kind, each as it came last, and how often it came.
fn put_last<T: Event>(text: &mut String, what: &str, recent: &Recent<T>, told: impl Fn(&Kept<T>) -> String) {
    let _ = writeln!(text, "\nLast {what}:");
    for kept in recent.last() {
        let times = if kept.count == 1 {
            String::new()
        } else {
            format!(" ({} times)", kept.count)
        };
        let _ = writeln!(text, "  {} {}{times}", kept.stamp, told(kept));
    }
}
