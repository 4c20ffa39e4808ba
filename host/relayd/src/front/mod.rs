//! The front end: checks who a client is before the relay hears its requests, and signs what the relay answers (RFC 8489, section 9.2).
//!
//! A client's datagram goes through `Front::admit`, and a response to an admitted request through its `Signer`. The hashes come from crates
//! that may be missing where relayd is built; then `absent` stands in, and credentials are refused at the start.

#[cfg_attr(not(feature = "front"), allow(dead_code))]
mod verdict;

#[cfg(not(feature = "front"))]
mod absent;
#[cfg(feature = "front")]
mod command;
#[cfg(feature = "front")]
mod credentials;
#[cfg(feature = "front")]
mod gate;
#[cfg(feature = "front")]
mod keys;
#[cfg(feature = "front")]
mod limits;
#[cfg(feature = "front")]
mod message;
#[cfg(feature = "front")]
mod nonce;
#[cfg(feature = "front")]
mod signature;

#[cfg(not(feature = "front"))]
pub use absent::{Front, Signer, command};
#[cfg(feature = "front")]
pub use command::command;
#[cfg(feature = "front")]
pub use gate::Front;
#[cfg(feature = "front")]
pub use signature::Signer;
pub use verdict::{Cause, Known, Moment, Verdict};

/// For `--version`.
pub const ABOUT: &str = if cfg!(feature = "front") {
    "with its front end"
} else {
    "without its front end"
};

#[cfg(test)]
mod tests {
    /// There are two manifests, with the front end's crates and without; all else in them is the same.
    #[test]
    fn the_manifests_agree() {
        let with_front = include_str!("../../with-front/Cargo.toml");
        let own = |line: &&str| line.starts_with('#') || line.starts_with("unexpected_cfgs");
        for line in include_str!("../../Cargo.toml").lines().filter(|line| !own(line)) {
            assert!(with_front.lines().any(|other| other == line), "{line}");
        }
    }
}
