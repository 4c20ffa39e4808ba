//! What the front end says of a client's datagram, and why, in words for the log.

use super::Signer;
use std::fmt;

/// When a datagram came.
#[derive(Clone, Copy)]
pub struct Moment {
    /// In the relay's seconds.
    pub now: u64,
    /// In Unix seconds, for names with an expiry.
    pub unix: u64,
}

/// What becomes of a datagram.
pub enum Verdict {
    /// The front end answers with these bytes, and the relay never hears of it.
    Reply { response: Vec<u8>, cause: Cause },
    /// No answer: this source has had its share in this second. The first time in a second is told, of some sources.
    Silence { cause: Cause, first: bool },
    /// The relay's: a request of whom it says, or nobody's, which is no request.
    Pass(Option<Known>),
}

/// Whose request it is.
pub struct Known {
    /// The user number.
    pub user: u32,
    /// The name that it was signed with.
    pub name: String,
    /// Its response goes through this.
    pub signer: Signer,
}

/// Why a request was not passed on.
#[derive(Clone, Debug, PartialEq, Eq)]
pub enum Cause {
    /// It has no signature: a client's first request, as a rule.
    Unsigned,
    /// Its nonce is over, for another address, or of another start.
    StaleNonce,
    /// It has a signature, but not what belongs to it.
    Malformed(&'static str),
    /// Its realm is not ours.
    OtherRealm,
    /// Its name is in no line of the credentials.
    UnknownName(String),
    /// Its name had an expiry.
    ExpiredName(String),
    /// Its signature is not by that name's key.
    WrongPassword(String),
    /// Its source has failed so often that it was not looked at.
    TooManyFailures,
}

impl Cause {
    /// The error code of the answer; None where nothing was looked at.
    pub fn code(&self) -> Option<u16> {
        match self {
            Cause::Malformed(_) => Some(400),
            Cause::StaleNonce => Some(438),
            Cause::TooManyFailures => None,
            _ => Some(401),
        }
    }

    /// Whether someone had credentials, and they were wrong.
    pub fn is_failure(&self) -> bool {
        !self.is_routine() && !matches!(self, Cause::Malformed(_))
    }

    /// Whether it is no news: every client's first request, and any client's after an hour.
    pub fn is_routine(&self) -> bool {
        matches!(self, Cause::Unsigned | Cause::StaleNonce)
    }

    /// What it is counted under.
    pub fn label(&self) -> &'static str {
        match self {
            Cause::Unsigned => "challenged",
            Cause::StaleNonce => "stale nonce",
            Cause::Malformed(_) => "malformed",
            Cause::OtherRealm | Cause::UnknownName(_) => "unknown name",
            Cause::ExpiredName(_) => "expired name",
            Cause::WrongPassword(_) => "wrong password",
            Cause::TooManyFailures => "not looked at",
        }
    }
}

impl fmt::Display for Cause {
    fn fmt(&self, out: &mut fmt::Formatter<'_>) -> fmt::Result {
        match self {
            Cause::Unsigned => out.write_str("no credentials yet"),
            Cause::StaleNonce => out.write_str("its nonce is over, for another address, or from before the start"),
            Cause::Malformed(what) => out.write_str(what),
            Cause::OtherRealm => out.write_str("another realm"),
            Cause::UnknownName(name) => write!(out, "unknown user '{name}'"),
            Cause::ExpiredName(name) => write!(out, "the time of user '{name}' is over"),
            Cause::WrongPassword(name) => write!(out, "wrong password of user '{name}'"),
            Cause::TooManyFailures => out.write_str("too many wrong credentials"),
        }
    }
}

/// A name as somebody sent it, made fit for a line of the log.
pub fn plain(name: &[u8]) -> String {
    let text: String = String::from_utf8_lossy(name).chars().take(80).collect();
    text.escape_default().to_string()
}

#[cfg(test)]
mod tests {
    use super::*;

    #[test]
    fn a_strangers_name_cannot_break_the_log() {
        assert_eq!(plain(b"1700000000:al-ice@x"), "1700000000:al-ice@x");
        assert_eq!(plain(b"alice\n1000 user 3 \x1b[2J'\xff"), r"alice\n1000 user 3 \u{1b}[2J\'\u{fffd}");
        assert_eq!(plain(&[b'a'; 1000]).len(), 80);
    }
}
