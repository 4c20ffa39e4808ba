//! The requests that make the ledger's table in a fresh relay.
//!
//! Each permission and channel is made when it was last made, each allocation before all of them, and then refreshed so that it ends when
//! it ends. All of it was live together at those times, so none is refused for want of room. Every expiry, port, user and transaction id is
//! kept, so that an Allocate that is sent again gets its answer from the new table too.

use crate::ledger::{Allocation, CHANNEL, FIRST_PORT, Ledger, PERMISSION};
use crate::line;
use crate::stun::{self, CHANNEL_NUMBER, LIFETIME, REQUESTED_TRANSPORT, XOR_PEER_ADDRESS, ipv4_value};
use std::net::SocketAddrV4;

/// Document 01's shortest and longest time of life of an allocation.
const SHORTEST: u64 = 600;
const LONGEST: u64 = 3600;

/// The lines of these requests, in the order of their times, and how many there are.
pub fn lines(ledger: &Ledger, now: u64) -> (Vec<u8>, usize) {
    let live = ledger.allocations().filter(|allocation| now < allocation.expiry);
    let mut requests: Vec<(u64, Vec<u8>)> = live.flat_map(|allocation| requests(allocation, now)).collect();
    requests.sort_by_key(|(time, _)| *time);
    let count = requests.len();
    (requests.into_iter().flat_map(|(_, line)| line).collect(), count)
}

fn requests(allocation: &Allocation, now: u64) -> Vec<(u64, Vec<u8>)> {
    let mut made = Vec::new();
    let mut add = |time: u64, method, attributes: &[(u16, &[u8])]| {
        let start = u32::from(allocation.relay_port.wrapping_sub(FIRST_PORT));
        let mut line = Vec::new();
        let request = stun::request_of(allocation.transaction, method, attributes);
        line::client(&mut line, time, allocation.user, start, allocation.client, &request);
        made.push((time, line));
    };
    let begin = now.saturating_sub(CHANNEL);
    let longest = (LIFETIME, &seconds(LONGEST)[..]);
    add(begin, stun::ALLOCATE, &[(REQUESTED_TRANSPORT, &[17, 0, 0, 0]), longest]);
    let refreshed = allocation.expiry.saturating_sub(SHORTEST).min(now);
    add(refreshed, stun::REFRESH, &[(LIFETIME, &seconds(allocation.expiry - refreshed))]);
    for (host, expiry) in allocation.permissions.iter().filter(|(_, expiry)| now < **expiry) {
        let peer = ipv4_value(SocketAddrV4::new(*host, 0));
        add(
            expiry.saturating_sub(PERMISSION),
            stun::CREATE_PERMISSION,
            &[(XOR_PEER_ADDRESS, &peer)],
        );
    }
    for (number, (peer, expiry)) in allocation.channels.iter().filter(|(_, (_, expiry))| now < *expiry) {
        let [high, low] = number.to_be_bytes();
        let attributes: [(u16, &[u8]); 2] = [(CHANNEL_NUMBER, &[high, low, 0, 0]), (XOR_PEER_ADDRESS, &ipv4_value(*peer))];
        add(expiry.saturating_sub(CHANNEL), stun::CHANNEL_BIND, &attributes);
    }
    made
}

fn seconds(number: u64) -> [u8; 4] {
    u32::try_from(number).unwrap_or(u32::MAX).to_be_bytes()
}

#[cfg(test)]
mod tests {
    use super::*;
    use crate::ledger::tests::{allocate, bind, client};

    fn text(ledger: &Ledger, now: u64) -> Vec<String> {
        let (text, count) = lines(ledger, now);
        let found: Vec<String> = String::from_utf8(text).expect("text").lines().map(String::from).collect();
        assert_eq!(found.len(), count);
        found
    }

    #[test]
    fn an_allocation_is_made_and_refreshed_to_its_end() {
        let mut ledger = Ledger::new();
        allocate(&mut ledger, 1000, client(40000), 49157, 600);
        let head = "2112a442000000000000000000000000";
        let allocate = format!("Q\t650\t3\t5\tc6336407\t40000\t00030010{head}0019000411000000000d000400000e10");
        let refresh = format!("3\t5\tc6336407\t40000\t00040008{head}000d0004");
        // It ends 350 seconds from now: refreshed 250 seconds ago for the shortest time.
        assert_eq!(text(&ledger, 1250), [allocate, format!("Q\t1000\t{refresh}00000258")]);
        // It ends 1,590 seconds from now: refreshed now for that long.
        assert_eq!(text(&ledger, 10)[1], format!("Q\t10\t{refresh}00000636"));
        assert!(text(&ledger, 10)[0].starts_with("Q\t0\t3"));
        assert_eq!(text(&ledger, 1600), [""; 0]);
    }

    #[test]
    fn all_is_in_the_order_of_time() {
        let mut ledger = Ledger::new();
        allocate(&mut ledger, 1000, client(40000), 49157, 600);
        bind(&mut ledger, 990, client(40000), 0x4000, "192.0.2.150:5000");
        let lines = text(&ledger, 1280);
        let times: Vec<&str> = lines.iter().filter_map(|line| line.split('\t').nth(1)).collect();
        assert_eq!(times, ["680", "990", "990", "1000"]);
        assert!(lines[1].ends_with("0012000800012112e112a6d4"));
        assert!(lines[2].ends_with("000c000440000000001200080001329ae112a6d4"));
    }
}
