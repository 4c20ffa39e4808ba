//! In the place of the front end where relayd is built without it: there is none, and it says so.

use super::verdict::{Moment, Verdict};
use std::net::SocketAddr;
use std::path::PathBuf;

const WHY: &str = "this relayd is built without the front end, so it checks no passwords: \
                   host/relayd/packages installs the crates for it, and make relayd builds it again";

/// There is none.
pub enum Front {}

/// There is none.
#[derive(Debug, PartialEq, Eq)]
pub enum Signer {}

/// `relayd user ..`: says why not.
pub fn command(_words: &[String]) -> Result<String, String> {
    Err(WHY.to_string())
}

impl Front {
    /// Says why not.
    pub fn open(_path: PathBuf, _key: [u8; 32]) -> Result<Self, String> {
        Err(WHY.to_string())
    }

    /// Never called.
    pub fn admit(&mut self, _moment: Moment, _from: SocketAddr, _datagram: &[u8]) -> Verdict {
        match *self {}
    }

    /// Never called.
    pub fn reload(&mut self) -> Result<String, String> {
        match *self {}
    }

    /// Never called.
    pub fn name_of(&self, _user: u32) -> Option<&str> {
        match *self {}
    }

    /// Never called.
    pub fn told(&self) -> String {
        match *self {}
    }

    /// Never called.
    pub fn counts(&self) -> Vec<(&'static str, u64)> {
        match *self {}
    }
}

impl Signer {
    /// Never called.
    pub fn sign(&self, _response: &[u8]) -> Vec<u8> {
        match *self {}
    }
}

#[cfg(test)]
mod tests {
    use super::super::verdict::Cause;
    use super::*;

    #[test]
    fn it_says_what_is_missing() {
        let told = Front::open(PathBuf::from("credentials"), [0; 32]).err().expect("there is none");
        assert!(told.contains("without the front end") && command(&[]) == Err(told));
        assert_eq!(Cause::Unsigned.code(), Some(401));
    }
}
