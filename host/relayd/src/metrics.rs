//! The status in Prometheus' text format.

use crate::counters::Cause;
use crate::desk::Desk;
use crate::ledger::{Allocation, Flow, SLOTS};
use crate::stun;
use std::fmt::Write;

/// The whole text.
pub fn text(desk: &Desk, restarted: u64) -> String {
    let mut text = String::new();
    let put = &mut text;
    head(put, "allocations", "gauge", "Live allocations.");
    line(put, "allocations", "", desk.ledger.allocations().count() as u64);
    head(put, "allocations_limit", "gauge", "The most allocations that there can be.");
    line(put, "allocations_limit", "", SLOTS as u64);
    flows(put, "relayed", &both_ways("", desk.counters.to_peers, desk.counters.to_clients));
    head(put, "requests_accepted_total", "counter", "Requests answered with success.");
    line(put, "requests_accepted_total", "", desk.counters.accepted);
    head(
        put,
        "requests_refused_total",
        "counter",
        "Requests answered with an error, by method and code; 403 is a denied peer.",
    );
    for ((method, code), count) in &desk.counters.refusals {
        let labels = format!("{{method=\"{}\",code=\"{code}\"}}", stun::method_name(*method));
        line(put, "requests_refused_total", &labels, *count);
    }
    credentials(put, desk);
    drops(put, desk);
    head(
        put,
        "program_restarts_total",
        "counter",
        "Starts of the relay's program after the first.",
    );
    line(put, "program_restarts_total", "", restarted);
    allocations(put, desk);
    text
}

/// A metric's name, kind and meaning. Writing to a string never fails.
fn head(text: &mut String, name: &str, kind: &str, help: &str) {
    let _ = writeln!(text, "# HELP relayd_{name} {help}\n# TYPE relayd_{name} {kind}");
}

fn line(text: &mut String, name: &str, labels: &str, value: u64) {
    let _ = writeln!(text, "relayd_{name}{labels} {value}");
}

/// The labels and the flow of either direction.
fn both_ways(labels: &str, to_peers: Flow, to_client: Flow) -> [(String, Flow); 2] {
    let with = |direction: &str| format!("{{{labels}direction=\"{direction}\"}}");
    [(with("to_peer"), to_peers), (with("to_client"), to_client)]
}

/// A number of a flow, and of an allocation at a time.
type Part = fn(&Flow) -> u64;
type Own = fn(&Allocation, u64) -> u64;

fn flows(text: &mut String, name: &str, rows: &[(String, Flow)]) {
    let parts: [(&str, Part); 2] = [("packets", |flow| flow.packets), ("bytes", |flow| flow.bytes)];
    for (what, part) in parts {
        let name = format!("{name}_{what}_total");
        head(text, &name, "counter", &format!("Data relayed, in {what}."));
        for (labels, flow) in rows {
            line(text, &name, labels, part(flow));
        }
    }
}

/// What the front end said of requests, where there is one.
fn credentials(text: &mut String, desk: &Desk) {
    let Some(front) = &desk.gate.front else { return };
    head(
        text,
        "credentials_total",
        "counter",
        "Requests at the front end, by what it said of them.",
    );
    for (what, times) in front.counts() {
        let labels = format!("{{verdict=\"{}\"}}", what.replace(' ', "_"));
        line(text, "credentials_total", &labels, times);
    }
}

fn drops(text: &mut String, desk: &Desk) {
    head(text, "dropped_total", "counter", "Datagrams that went nowhere, by cause.");
    let (server, ports) = desk.sockets.dropped_by_kernel();
    line(text, "dropped_total", "{cause=\"server_no_room\"}", server);
    line(text, "dropped_total", "{cause=\"relay_port_no_permission_or_room\"}", ports);
    for cause in Cause::ALL {
        let labels = format!("{{cause=\"{}\"}}", cause.label());
        line(text, "dropped_total", &labels, desk.counters.dropped(cause));
    }
}

/// Quotes, backslashes and line ends stand behind a backslash in a label's value.
fn quoted(value: &str) -> String {
    value.replace('\\', "\\\\").replace('"', "\\\"").replace('\n', "\\n")
}

fn labels(desk: &Desk, allocation: &Allocation) -> String {
    let name = quoted(desk.gate.name(allocation.user, allocation.client).unwrap_or(""));
    let (user, client, relay_port) = (allocation.user, allocation.client, allocation.relay_port);
    format!("user=\"{user}\",name=\"{name}\",client=\"{client}\",relay_port=\"{relay_port}\"")
}

fn allocations(text: &mut String, desk: &Desk) {
    let now = desk.clock.now();
    let own: [(&str, &str, Own); 3] = [
        ("allocation_seconds_left", "Time until the allocation lapses.", |allocation, now| {
            allocation.expiry.saturating_sub(now)
        }),
        ("allocation_permissions", "Live permissions.", |allocation, _| {
            allocation.permissions.len() as u64
        }),
        ("allocation_channels", "Live channels.", |allocation, _| {
            allocation.channels.len() as u64
        }),
    ];
    for (name, help, value) in own {
        head(text, name, "gauge", help);
        for allocation in desk.ledger.allocations() {
            line(text, name, &format!("{{{}}}", labels(desk, allocation)), value(allocation, now));
        }
    }
    let rows: Vec<(String, Flow)> = (desk.ledger.allocations())
        .flat_map(|allocation| both_ways(&format!("{},", labels(desk, allocation)), allocation.to_peers, allocation.to_client))
        .collect();
    flows(text, "allocation", &rows);
}
