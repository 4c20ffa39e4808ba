//! Refusals, as people are told of them.

use crate::recent::Event;
use crate::stun;
use std::net::{IpAddr, SocketAddr};

/// A refusal.
#[derive(Clone, Debug, PartialEq, Eq)]
pub struct Refusal {
    pub method: u16,
    pub code: u16,
    pub from: SocketAddr,
    pub user: u32,
    pub reason: String,
}

impl Refusal {
    fn key(&self) -> (IpAddr, u16, u16, &str) {
        (self.from.ip(), self.method, self.code, &self.reason)
    }

    /// For people: 'Allocate from 198.51.100.7:40000, user 3, refused, 486 Allocation Quota Reached: user 3 has 8'.
    pub fn text(&self, who: &str) -> String {
        let (method, phrase) = (stun::method_name(self.method), stun::phrase(self.code));
        let colon = if self.reason.is_empty() { "" } else { ": " };
        format!(
            "{method} from {}, {who}, refused, {} {phrase}{colon}{}",
            self.from, self.code, self.reason
        )
    }
}

impl Event for Refusal {
    fn repeats(&self, earlier: &Self) -> bool {
        self.key() == earlier.key()
    }
}

#[cfg(test)]
mod tests {
    use super::*;

    fn refusal(host: u8, port: u16) -> Refusal {
        Refusal {
            method: stun::ALLOCATE,
            code: 486,
            from: SocketAddr::from(([198, 51, 100, host], port)),
            user: 3,
            reason: "user 3 has 8".to_string(),
        }
    }

    #[test]
    fn one_from_another_port_of_the_same_host_is_a_repeat() {
        assert!(refusal(7, 2).repeats(&refusal(7, 1)));
        assert!(!refusal(8, 1).repeats(&refusal(7, 1)));
        let other = |change: fn(&mut Refusal)| {
            let mut other = refusal(7, 1);
            change(&mut other);
            other.repeats(&refusal(7, 1))
        };
        assert!(!other(|refusal| refusal.method = stun::REFRESH));
        assert!(!other(|refusal| refusal.code = 437));
        assert!(!other(|refusal| refusal.reason = "user 3 has 7".to_string()));
    }

    #[test]
    fn it_is_told_with_its_reason() {
        assert_eq!(
            refusal(7, 40000).text("user 3"),
            "Allocate from 198.51.100.7:40000, user 3, refused, 486 Allocation Quota Reached: user 3 has 8"
        );
    }
}
