//! What a relay port lets in. The kernel drops all else before it wakes relayd.
//!
//! Peers whose permission has lapsed are let in, so that the relay says why it drops them. So are strangers, who never had one, but so few
//! that a flood of them costs nothing.

use crate::ledger::Allocation;
use std::net::Ipv4Addr;

/// How many datagrams of strangers a relay port takes in a minute.
pub const STRANGERS: u64 = 20;
/// In seconds.
const MINUTE: u64 = 60;

/// Whose datagrams come in.
#[derive(Clone, Debug, PartialEq, Eq)]
pub enum LetIn {
    All,
    Only(Vec<Ipv4Addr>),
}

impl LetIn {
    /// At the port of this allocation, or at a port that has none.
    pub fn of(allocation: Option<&Allocation>, now: u64) -> Self {
        match allocation {
            None => LetIn::Only(Vec::new()),
            Some(allocation) if allocation.strangers.are_let_in(now) => LetIn::All,
            Some(allocation) => LetIn::Only(allocation.known().collect()),
        }
    }
}

/// The datagrams of strangers that came at a relay port in a minute, which begins with the first of them.
#[derive(Clone, Copy, Default, Debug, PartialEq, Eq)]
pub struct Strangers {
    first: u64,
    count: u64,
}

impl Strangers {
    /// One more.
    pub fn add(&mut self, now: u64) {
        if self.is_over(now) || self.count == 0 {
            *self = Strangers { first: now, count: 0 };
        }
        self.count += 1;
    }

    fn are_let_in(self, now: u64) -> bool {
        self.count < STRANGERS || self.is_over(now)
    }

    fn is_over(self, now: u64) -> bool {
        now >= self.first + MINUTE
    }
}

#[cfg(test)]
mod tests {
    use super::*;
    use crate::ledger::Ledger;
    use crate::ledger::tests::{allocate, bind, client};

    fn host(last: u8) -> Ipv4Addr {
        Ipv4Addr::new(192, 0, 2, last)
    }

    #[test]
    fn strangers_are_let_in_so_many_a_minute() {
        let mut strangers = Strangers::default();
        for now in 100..119 {
            strangers.add(now);
            assert!(strangers.are_let_in(now), "{now}");
        }
        strangers.add(119);
        assert!(!strangers.are_let_in(119) && !strangers.are_let_in(159) && strangers.are_let_in(160));
        // What was queued changes nothing, and the next minute begins with the next one.
        strangers.add(159);
        assert!(strangers.are_let_in(160));
        for _ in 0..19 {
            strangers.add(170);
        }
        assert!(strangers.are_let_in(170));
        strangers.add(170);
        assert!(!strangers.are_let_in(229) && strangers.are_let_in(230));
    }

    #[test]
    fn a_port_lets_in_those_it_knows_and_few_others() {
        let mut ledger = Ledger::new();
        assert_eq!(LetIn::of(ledger.at(49157), 0), LetIn::Only(vec![]));
        allocate(&mut ledger, 0, client(1), 49157, 3600);
        bind(&mut ledger, 0, client(1), 0x4000, "192.0.2.1:5000");
        bind(&mut ledger, 100, client(1), 0x4001, "192.0.2.2:5000");
        assert_eq!(LetIn::of(ledger.at(49157), 100), LetIn::All);
        for _ in 0..STRANGERS {
            ledger.at_mut(49157).expect("it is there").strangers.add(290);
        }
        // The first permission lapses meanwhile: its peer is still let in.
        for now in [290, 310, 349] {
            ledger.lapse(now);
            let LetIn::Only(mut known) = LetIn::of(ledger.at(49157), now) else {
                panic!("all are let in at {now}")
            };
            known.sort();
            assert_eq!(known, [host(1), host(2)], "{now}");
        }
        assert_eq!(LetIn::of(ledger.at(49157), 350), LetIn::All);
        ledger.lapse(3600);
        assert_eq!(LetIn::of(ledger.at(49157), 3600), LetIn::Only(vec![]));
    }
}
