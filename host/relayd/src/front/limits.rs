//! How often one source gets an answer without credentials, or may fail: counted by the second, in a table that never grows.

use std::hash::{BuildHasher, RandomState};
use std::net::IpAddr;

/// Counters in the table. Sources that fall on one counter share its limit; which do, nobody can choose.
const PLACES: usize = 4096;

/// How often something has happened in one second.
#[derive(Clone, Copy, Default)]
pub struct Count {
    second: u64,
    times: u32,
}

impl Count {
    /// Counts one more, where so many a second are allowed.
    pub fn one_more(&mut self, now: u64, a_second: u32) -> Standing {
        if self.second != now {
            *self = Count { second: now, times: 0 };
        }
        self.times = self.times.saturating_add(1);
        match self.times.checked_sub(a_second) {
            None | Some(0) => Standing::Within,
            Some(1) => Standing::FirstOver,
            Some(_) => Standing::Over,
        }
    }
}

/// What becomes of one more.
#[derive(Clone, Copy, Debug, PartialEq, Eq)]
pub enum Standing {
    /// Within the limit.
    Within,
    /// The first over it in this second: worth a line in the log.
    FirstOver,
    /// Over it.
    Over,
}

/// A limit for each source.
pub struct Limits<H: BuildHasher = RandomState> {
    counts: Vec<Count>,
    hasher: H,
    a_second: u32,
}

impl Limits {
    /// So many a second for each source.
    pub fn new(a_second: u32) -> Self {
        Limits::with_hasher(a_second, RandomState::new())
    }
}

impl<H: BuildHasher> Limits<H> {
    fn with_hasher(a_second: u32, hasher: H) -> Self {
        let counts = vec![Count::default(); PLACES];
        Limits { counts, hasher, a_second }
    }

    /// Counts one more of this source.
    pub fn count(&mut self, now: u64, source: IpAddr) -> Standing {
        let place = self.place(source);
        self.counts[place].one_more(now, self.a_second)
    }

    /// Whether the next one of this source would be over the limit.
    pub fn is_reached(&self, now: u64, source: IpAddr) -> bool {
        let count = self.counts[self.place(source)];
        count.second == now && count.times >= self.a_second
    }

    /// An IPv6 source is its network of 64 bits, since a host has all of it.
    fn place(&self, source: IpAddr) -> usize {
        let network = match source {
            IpAddr::V4(ip) => ip.to_bits().into(),
            IpAddr::V6(ip) => ip.to_bits() >> 64,
        };
        let spread = self.hasher.hash_one((source.is_ipv4(), network)) % PLACES as u64;
        usize::try_from(spread).unwrap_or(0)
    }
}

#[cfg(test)]
mod tests {
    use super::*;
    use std::hash::{BuildHasherDefault, DefaultHasher};

    fn limits(a_second: u32) -> Limits<BuildHasherDefault<DefaultHasher>> {
        Limits::with_hasher(a_second, BuildHasherDefault::default())
    }

    fn ip(text: &str) -> IpAddr {
        text.parse().expect("an address")
    }

    #[test]
    fn so_many_a_second_and_again_in_the_next() {
        let mut limits = limits(3);
        let source = ip("192.0.2.7");
        for second in [0, 1, 9] {
            let seen: Vec<Standing> = (0..6).map(|_| limits.count(second, source)).collect();
            let (within, over) = (Standing::Within, Standing::Over);
            assert_eq!(seen, [within, within, within, Standing::FirstOver, over, over]);
            assert!(limits.is_reached(second, source) && !limits.is_reached(second + 1, source));
        }
    }

    #[test]
    fn another_source_is_not_slowed() {
        let mut limits = limits(1);
        for _ in 0..5 {
            limits.count(7, ip("192.0.2.7"));
        }
        assert_eq!(limits.count(7, ip("192.0.2.8")), Standing::Within);
        assert!(!limits.is_reached(7, ip("fd00::1")));
    }

    #[test]
    fn an_ipv6_network_is_one_source() {
        let mut limits = limits(1);
        limits.count(7, ip("fd00:1:2:3::1"));
        assert!(limits.is_reached(7, ip("fd00:1:2:3:4::9")));
        assert!(!limits.is_reached(7, ip("fd00:1:2:4::1")));
    }

    #[test]
    fn a_flood_from_everywhere_takes_no_more_room() {
        let mut limits = limits(1);
        for number in 0..100_000 {
            limits.count(7, IpAddr::V4(number.into()));
        }
        assert_eq!(limits.counts.len(), PLACES);
    }
}
