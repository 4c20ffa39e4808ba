//! The gate: RFC 8489's checks of a request in their order, the challenges, and who is slowed.

use super::credentials::{Claimed, Credentials, Nobody};
use super::keys::Keys;
use super::limits::{Count, Limits, Standing};
use super::message::{NONCE, PASSWORD_ALGORITHM, PASSWORD_ALGORITHMS, REALM, Request, USERHASH, USERNAME};
use super::nonce::Nonces;
use super::signature::{Signature, Signer};
use super::verdict::{Cause, Known, Moment, Verdict, plain};
use std::collections::BTreeMap;
use std::net::SocketAddr;
use std::path::PathBuf;

/// PASSWORD-ALGORITHMS as it is offered: SHA-256 and then MD5, each without parameters.
const OFFERED: [u8; 8] = [0, 2, 0, 0, 0, 1, 0, 0];
/// PASSWORD-ALGORITHM for SHA-256.
const SHA256: [u8; 4] = [0, 2, 0, 0];
/// PASSWORD-ALGORITHM for MD5.
const MD5: [u8; 4] = [0, 1, 0, 0];
/// How many requests without credentials from one source are answered in a second.
pub const CHALLENGES: u32 = 50;
/// How many wrong credentials from one source are looked at in a second.
pub const FAILURES: u32 = 5;

/// How many sources that get no more answers are told in a second.
const ALARMS: u32 = 10;

/// The front end.
pub struct Front {
    path: PathBuf,
    credentials: Credentials,
    nonces: Nonces,
    /// Keys that nobody has: a name that is not there takes as long to refuse as a wrong password.
    nobody: Keys,
    challenges: Limits,
    failures: Limits,
    alarms: Count,
    counts: BTreeMap<&'static str, u64>,
}

/// What a signed request says of itself, besides its signature.
struct Claim<'a> {
    claimed: Claimed<'a>,
    realm: &'a [u8],
    nonce: &'a [u8],
}

/// Which of a user's keys a request is signed with.
#[derive(Clone, Copy)]
enum KeyKind {
    Md5,
    Sha256,
}

impl Front {
    /// With the credentials of this file, and a key for its nonces, fresh from the random source.
    pub fn open(path: PathBuf, key: [u8; 32]) -> Result<Self, String> {
        let credentials = Credentials::load(&path)?;
        Ok(Front::new(path, credentials, key))
    }

    fn new(path: PathBuf, credentials: Credentials, key: [u8; 32]) -> Self {
        Front {
            path,
            credentials,
            nobody: Keys::derive(b"", &key, b""),
            nonces: Nonces::new(key),
            challenges: Limits::new(CHALLENGES),
            failures: Limits::new(FAILURES),
            alarms: Count::default(),
            counts: BTreeMap::new(),
        }
    }

    /// Reads the credentials again, and says what they are; where they are bad, the old ones stay.
    pub fn reload(&mut self) -> Result<String, String> {
        self.credentials = Credentials::load(&self.path)?;
        Ok(self.told())
    }

    /// The names that have this number.
    pub fn name_of(&self, user: u32) -> Option<&str> {
        self.credentials.name_of(user)
    }

    /// The credentials in a few words, without a secret.
    pub fn told(&self) -> String {
        self.credentials.told()
    }

    /// How many requests were passed on, and how many were not, by cause.
    pub fn counts(&self) -> Vec<(&'static str, u64)> {
        self.counts.iter().map(|(&label, &times)| (label, times)).collect()
    }

    /// What becomes of a client's datagram. All but the four requests pass at once, as nobody's: the relay asks no user for them.
    pub fn admit(&mut self, moment: Moment, from: SocketAddr, datagram: &[u8]) -> Verdict {
        let Some(request) = Request::read(datagram) else {
            return Verdict::Pass(None);
        };
        match self.check(moment, from, &request) {
            Ok(known) => {
                self.count("passed");
                Verdict::Pass(Some(known))
            }
            Err(cause) => self.turn_away(moment.now, from, &request, cause),
        }
    }

    /// RFC 8489 section 9.2.4, in its order but for the nonce: it is looked at before the password, so that only who has been answered at
    /// an address can try one, and failures are counted where they belong.
    fn check(&self, moment: Moment, from: SocketAddr, request: &Request) -> Result<Known, Cause> {
        let signature = request.signature().ok_or(Cause::Unsigned)?;
        let claim = Claim::read(request)?;
        if signature.value.len() != signature.algorithm.size() {
            return Err(Cause::Malformed("its signature is cut short or too long"));
        }
        if !self.nonces.is_good(moment.now, from, claim.nonce) {
            return Err(Cause::StaleNonce);
        }
        let kind = KeyKind::of(request)?;
        if self.failures.is_reached(moment.now, from.ip()) {
            return Err(Cause::TooManyFailures);
        }
        if claim.realm != self.credentials.realm.as_bytes() {
            return Err(Cause::OtherRealm);
        }
        self.sign_in(moment.unix, &claim, kind, &signature)
    }

    /// Whose signature it is. One of a name that is not there is checked too, against keys that nobody has.
    fn sign_in(&self, unix: u64, claim: &Claim, kind: KeyKind, signature: &Signature) -> Result<Known, Cause> {
        let found = self.credentials.find(claim.claimed, unix);
        let candidates = found.as_ref().map_or(std::slice::from_ref(&self.nobody), |found| &found.keys);
        let signing = candidates.iter().map(|keys| kind.of_keys(keys)).find(|key| signature.is_by(key));
        match (&found, signing) {
            (Ok(found), Some(key)) => Ok(Known {
                user: found.number,
                name: plain(found.name),
                signer: Signer {
                    algorithm: signature.algorithm,
                    key: key.to_vec(),
                },
            }),
            (Ok(_), None) => Err(Cause::WrongPassword(claim.name())),
            (Err(Nobody::Expired), _) => Err(Cause::ExpiredName(claim.name())),
            (Err(Nobody::Unknown), _) => Err(Cause::UnknownName(claim.name())),
        }
    }

    /// Answers a request that is not passed on, if its source still has answers in this second.
    fn turn_away(&mut self, now: u64, from: SocketAddr, request: &Request, cause: Cause) -> Verdict {
        self.count(cause.label());
        let limit = if cause.is_failure() {
            &mut self.failures
        } else {
            &mut self.challenges
        };
        match (limit.count(now, from.ip()), cause.code()) {
            (Standing::Within, Some(code)) => {
                let response = self.answer(now, from, request, code);
                Verdict::Reply { response, cause }
            }
            (standing, _) => {
                self.count("not answered");
                let first = standing == Standing::FirstOver && self.alarms.one_more(now, ALARMS) == Standing::Within;
                Verdict::Silence { cause, first }
            }
        }
    }

    fn answer(&self, now: u64, from: SocketAddr, request: &Request, code: u16) -> Vec<u8> {
        if code == 400 {
            return request.error(code, &[]);
        }
        let nonce = self.nonces.make(now, from);
        let realm = self.credentials.realm.as_bytes();
        request.error(code, &[(REALM, realm), (NONCE, &nonce), (PASSWORD_ALGORITHMS, &OFFERED)])
    }

    fn count(&mut self, label: &'static str) {
        *self.counts.entry(label).or_default() += 1;
    }
}

impl<'a> Claim<'a> {
    fn read(request: &Request<'a>) -> Result<Self, Cause> {
        let claimed = match (request.first(USERNAME), request.first(USERHASH)) {
            (Some(name), None) => Claimed::Name(name),
            (None, Some(hash)) => Claimed::Hash(hash),
            (None, None) => return Err(Cause::Malformed("signed, but without USERNAME and USERHASH")),
            (Some(_), Some(_)) => return Err(Cause::Malformed("USERNAME and USERHASH at once")),
        };
        let realm = request.first(REALM).ok_or(Cause::Malformed("signed, but without REALM"))?;
        let nonce = request.first(NONCE).ok_or(Cause::Malformed("signed, but without NONCE"))?;
        Ok(Claim { claimed, realm, nonce })
    }

    /// The name, for the log.
    fn name(&self) -> String {
        match self.claimed {
            Claimed::Name(name) => plain(name),
            Claimed::Hash(_) => "by its hash".to_string(),
        }
    }
}

impl KeyKind {
    /// The key that a request asks for. Every nonce of ours says that we offer algorithms, so a client that names one has to repeat our
    /// offer: whoever took an algorithm out of it on the way is found out.
    fn of(request: &Request) -> Result<Self, Cause> {
        match (request.first(PASSWORD_ALGORITHMS), request.first(PASSWORD_ALGORITHM)) {
            (None, None) => Ok(KeyKind::Md5),
            (Some(offer), Some(choice)) if offer == OFFERED && choice == SHA256 => Ok(KeyKind::Sha256),
            (Some(offer), Some(choice)) if offer == OFFERED && choice == MD5 => Ok(KeyKind::Md5),
            _ => Err(Cause::Malformed("its password algorithms are not what was offered")),
        }
    }

    fn of_keys(self, keys: &Keys) -> &[u8] {
        match self {
            KeyKind::Md5 => &keys.md5,
            KeyKind::Sha256 => &keys.sha256,
        }
    }
}

#[cfg(test)]
#[path = "gate_tests.rs"]
mod tests;
