//! The gate against requests made here, by every way of RFC 8489 and beside it. Time and addresses are given, so each run is the same.

use super::super::credentials::user_line;
use super::super::keys::{timed_password, userhash};
use super::super::signature::Algorithm;
use super::*;
use crate::stun::{self, MESSAGE_INTEGRITY, MESSAGE_INTEGRITY_SHA256, append, length_field, request};

const NAME: &[u8] = b"alice";
const REALM_NAME: &[u8] = b"example.org";
const PASSWORD: &[u8] = b"opensesame";
const MOMENT: Moment = Moment {
    now: 1000,
    unix: 1_700_000_000,
};
/// REQUESTED-TRANSPORT, UDP.
const TRANSPORT: (u16, &[u8]) = (0x0019, &[17, 0, 0, 0]);

fn credentials(users: &[(&str, u32)]) -> Credentials {
    let line = |&(name, number): &(&str, u32)| user_line(name, number, &Keys::derive(name.as_bytes(), REALM_NAME, PASSWORD)) + "\n";
    let lines: String = users.iter().map(line).collect();
    Credentials::parse(&format!("realm example.org\nsecret north\nsecret south\nuser guest 5\n{lines}")).expect("a good file")
}

fn front() -> Front {
    Front::new(PathBuf::new(), credentials(&[("alice", 3), ("bob", 4)]), [7; 32])
}

fn client() -> SocketAddr {
    SocketAddr::from(([192, 0, 2, 7], 4000))
}

/// A request of a client, which a test changes where it wants it wrong.
struct Ask {
    kind: u16,
    identity: Vec<(u16, Vec<u8>)>,
    nonce: Vec<u8>,
    choice: Vec<(u16, Vec<u8>)>,
    key: Vec<u8>,
    algorithm: Algorithm,
}

impl Ask {
    /// As today's browsers do.
    fn old(front: &Front, name: &[u8], password: &[u8]) -> Self {
        Ask {
            kind: 3,
            identity: vec![(USERNAME, name.to_vec()), (REALM, REALM_NAME.to_vec())],
            nonce: front.nonces.make(MOMENT.now, client()),
            choice: Vec::new(),
            key: Keys::derive(name, REALM_NAME, password).md5.to_vec(),
            algorithm: Algorithm::Sha1,
        }
    }

    /// As a client of RFC 8489 does.
    fn new(front: &Front, name: &[u8], password: &[u8]) -> Self {
        Ask {
            choice: vec![(PASSWORD_ALGORITHMS, OFFERED.to_vec()), (PASSWORD_ALGORITHM, SHA256.to_vec())],
            key: Keys::derive(name, REALM_NAME, password).sha256.to_vec(),
            algorithm: Algorithm::Sha256,
            ..Ask::old(front, name, password)
        }
    }

    fn unsigned(&self) -> Vec<u8> {
        let mut message = request(self.kind, &[TRANSPORT]);
        for (kind, value) in self.identity.iter().chain(&[(NONCE, self.nonce.clone())]).chain(&self.choice) {
            append(&mut message, *kind, value);
        }
        message
    }

    fn bytes(&self) -> Vec<u8> {
        sign(&self.unsigned(), self.algorithm, &self.key)
    }
}

/// A request with its signature after it.
fn sign(message: &[u8], algorithm: Algorithm, key: &[u8]) -> Vec<u8> {
    let size = algorithm.size();
    let kind = if algorithm == Algorithm::Sha1 {
        MESSAGE_INTEGRITY
    } else {
        MESSAGE_INTEGRITY_SHA256
    };
    let mut longer = message.to_vec();
    longer[2..4].copy_from_slice(&length_field(message.len() - 20 + 4 + size));
    let value = super::super::signature::tests::code(algorithm, key, &longer);
    let mut signed = message.to_vec();
    append(&mut signed, kind, &value);
    signed
}

fn passed(front: &mut Front, datagram: &[u8]) -> (u32, Signer) {
    match front.admit(MOMENT, client(), datagram) {
        Verdict::Pass(Some(known)) => (known.user, known.signer),
        Verdict::Pass(None) => panic!("passed as nobody's"),
        Verdict::Reply { cause, .. } | Verdict::Silence { cause, .. } => panic!("turned away: {cause}"),
    }
}

fn refused_at(front: &mut Front, moment: Moment, from: SocketAddr, datagram: &[u8]) -> (Vec<u8>, Cause) {
    match front.admit(moment, from, datagram) {
        Verdict::Reply { response, cause } => (response, cause),
        Verdict::Silence { cause, .. } => panic!("no answer: {cause}"),
        Verdict::Pass(_) => panic!("passed"),
    }
}

fn refused(front: &mut Front, datagram: &[u8]) -> (Vec<u8>, Cause) {
    refused_at(front, MOMENT, client(), datagram)
}

fn code(response: &[u8]) -> u16 {
    assert_eq!(response[20..26], [0, 9, 0, 4, 0, 0], "ERROR-CODE comes first");
    u16::from(response[26]) * 100 + u16::from(response[27])
}

/// What a challenge holds behind its code: the realm, a nonce that is good, and the offer.
fn assert_challenge(front: &Front, response: &[u8]) {
    let mut expected = response[..28].to_vec();
    expected[2..4].copy_from_slice(&[0, 8]);
    append(&mut expected, REALM, REALM_NAME);
    append(&mut expected, NONCE, &front.nonces.make(MOMENT.now, client()));
    append(&mut expected, PASSWORD_ALGORITHMS, &OFFERED);
    assert_eq!(response, expected);
}

#[test]
fn a_request_without_a_signature_is_challenged() {
    let mut front = front();
    for kind in [3, 4, 8, 9] {
        let bare = request(kind, &[TRANSPORT]);
        let (response, cause) = refused(&mut front, &bare);
        assert_eq!(
            (stun::kind(&response), code(&response), cause),
            (kind | 0x0110, 401, Cause::Unsigned)
        );
        assert_eq!(response[4..20], bare[4..20]);
        assert_challenge(&front, &response);
    }
    let named = request(3, &[(USERNAME, NAME), (REALM, REALM_NAME)]);
    assert_eq!(refused(&mut front, &named).1, Cause::Unsigned);
}

#[test]
fn an_answer_brings_little_more_than_was_asked() {
    let mut front = front();
    let smallest = request(3, &[]);
    assert_eq!(refused(&mut front, &smallest).0.len(), 28 + 16 + 52 + 12);
    let unfinished = request(3, &[(MESSAGE_INTEGRITY, &[0; 20])]);
    assert_eq!(refused(&mut front, &unfinished).0.len(), 28);
}

#[test]
fn a_request_of_every_kind_passes_with_its_users_number() {
    let mut front = front();
    let old = Ask::old(&front, NAME, PASSWORD);
    let new = Ask::new(&front, b"bob", PASSWORD);
    for kind in [3, 4, 8, 9] {
        let old = Ask {
            kind,
            ..Ask::old(&front, NAME, PASSWORD)
        };
        let (user, signer) = passed(&mut front, &old.bytes());
        assert_eq!((user, signer.algorithm, signer.key), (3, Algorithm::Sha1, old.key));
    }
    let (user, signer) = passed(&mut front, &new.bytes());
    assert_eq!((user, signer.algorithm, &signer.key), (4, Algorithm::Sha256, &new.key));
    let chosen_md5 = Ask {
        choice: vec![(PASSWORD_ALGORITHM, MD5.to_vec()), (PASSWORD_ALGORITHMS, OFFERED.to_vec())],
        key: old.key.clone(),
        ..Ask::new(&front, NAME, PASSWORD)
    };
    assert_eq!(passed(&mut front, &chosen_md5.bytes()).0, 3);
    assert_eq!(front.counts(), [("passed", 6)]);
}

#[test]
fn a_name_may_come_as_its_hash() {
    let mut front = front();
    let hashed = |name: &[u8]| vec![(USERHASH, userhash(name, REALM_NAME).to_vec()), (REALM, REALM_NAME.to_vec())];
    let ask = Ask {
        identity: hashed(NAME),
        ..Ask::new(&front, NAME, PASSWORD)
    };
    assert_eq!(passed(&mut front, &ask.bytes()).0, 3);
    let unknown = Ask {
        identity: hashed(b"eve"),
        ..Ask::new(&front, b"eve", PASSWORD)
    };
    assert_eq!(
        refused(&mut front, &unknown.bytes()).1,
        Cause::UnknownName("by its hash".to_string())
    );
}

#[test]
fn a_time_limited_name_passes_until_its_second() {
    let mut front = front();
    for secret in ["north", "south"] {
        let name = b"1700000001:guest";
        let password = timed_password(secret.as_bytes(), name);
        for ask in [
            Ask::old(&front, name, password.as_bytes()),
            Ask::new(&front, name, password.as_bytes()),
        ] {
            assert_eq!(passed(&mut front, &ask.bytes()).0, 5);
            let later = Moment {
                unix: MOMENT.unix + 1,
                ..MOMENT
            };
            let (response, cause) = refused_at(&mut front, later, client(), &ask.bytes());
            assert_eq!((code(&response), cause), (401, Cause::ExpiredName("1700000001:guest".to_string())));
        }
    }
    let wrong = Ask::old(&front, b"1700000001:guest", timed_password(b"east", b"1700000001:guest").as_bytes());
    assert_eq!(refused(&mut front, &wrong.bytes()).1.code(), Some(401));
}

#[test]
fn wrong_credentials_get_the_same_challenge_whatever_is_wrong() {
    let cases: [(&[u8], &[u8]); 4] = [(NAME, b"opensesami"), (b"eve", PASSWORD), (b"", b""), (b"guest", b"")];
    for (name, password) in cases {
        let mut front = front();
        for ask in [Ask::old(&front, name, password), Ask::new(&front, name, password)] {
            let (response, cause) = refused(&mut front, &ask.bytes());
            assert!(code(&response) == 401 && cause.is_failure(), "{cause}");
            assert_challenge(&front, &response);
        }
    }
    let mut front = front();
    let elsewhere = Ask {
        identity: vec![(USERNAME, NAME.to_vec()), (REALM, b"example.com".to_vec())],
        ..Ask::old(&front, NAME, PASSWORD)
    };
    let (response, cause) = refused(&mut front, &elsewhere.bytes());
    assert_eq!(cause, Cause::OtherRealm);
    assert_challenge(&front, &response);
}

#[test]
fn an_old_nonce_and_one_of_another_address_are_stale() {
    let mut front = front();
    let ask = Ask::old(&front, NAME, PASSWORD).bytes();
    assert_eq!(passed(&mut front, &ask).0, 3);
    let later = Moment {
        now: MOMENT.now + 3600,
        ..MOMENT
    };
    let elsewhere = SocketAddr::from(([192, 0, 2, 8], 4000));
    for (moment, from) in [
        (later, client()),
        (MOMENT, elsewhere),
        (MOMENT, SocketAddr::from(([192, 0, 2, 7], 4001))),
    ] {
        let (response, cause) = refused_at(&mut front, moment, from, &ask);
        assert_eq!((code(&response), cause), (438, Cause::StaleNonce));
    }
    let foreign = Ask {
        nonce: b"obMatJos2wAAA".to_vec(),
        ..Ask::old(&front, NAME, b"guess")
    };
    let (response, cause) = refused(&mut front, &foreign.bytes());
    assert_eq!(cause, Cause::StaleNonce);
    assert_challenge(&front, &response);
    let restarted = &mut Front::new(PathBuf::new(), credentials(&[("alice", 3)]), [8; 32]);
    assert_eq!(code(&refused(restarted, &ask).0), 438);
}

#[test]
fn a_signature_without_what_belongs_to_it_is_a_bad_request() {
    let mut front = front();
    let good = Ask::old(&front, NAME, PASSWORD);
    let (name, realm) = (good.identity[0].clone(), good.identity[1].clone());
    let hash = (USERHASH, userhash(NAME, REALM_NAME).to_vec());
    for identity in [vec![name.clone()], vec![realm.clone()], vec![], vec![name, hash, realm]] {
        let ask = Ask {
            identity,
            ..Ask::old(&front, NAME, PASSWORD)
        };
        let (response, cause) = refused(&mut front, &ask.bytes());
        assert!(matches!(cause, Cause::Malformed(_)) && code(&response) == 400 && response.len() == 28);
    }
    let without_nonce = request(3, &[(USERNAME, NAME), (REALM, REALM_NAME)]);
    let (_, cause) = refused(&mut front, &sign(&without_nonce, Algorithm::Sha1, &good.key));
    assert_eq!(cause, Cause::Malformed("signed, but without NONCE"));
}

#[test]
fn an_offer_that_was_cut_on_the_way_is_a_bad_request() {
    let mut front = front();
    let offer = |bytes: &[u8]| (PASSWORD_ALGORITHMS, bytes.to_vec());
    let choice = |bytes: &[u8]| (PASSWORD_ALGORITHM, bytes.to_vec());
    let bad = [
        vec![offer(&OFFERED)],
        vec![choice(&SHA256)],
        vec![offer(&MD5), choice(&MD5)],
        vec![offer(&[0, 1, 0, 0, 0, 2, 0, 0]), choice(&SHA256)],
        vec![offer(&OFFERED), choice(&[0, 3, 0, 0])],
        vec![offer(&OFFERED), choice(&[0, 2, 0, 4, 0, 0, 0, 0])],
        vec![offer(&OFFERED), choice(&[])],
    ];
    for choice in bad {
        let ask = Ask {
            choice,
            ..Ask::new(&front, NAME, PASSWORD)
        };
        let (response, _) = refused(&mut front, &ask.bytes());
        assert_eq!(code(&response), 400, "{:?}", ask.choice);
    }
}

#[test]
fn a_cut_signature_is_a_bad_request_and_a_second_one_does_not_count() {
    let mut front = front();
    for ask in [Ask::old(&front, NAME, PASSWORD), Ask::new(&front, NAME, PASSWORD)] {
        let whole = ask.bytes();
        let (kind, value) = if ask.algorithm == Algorithm::Sha1 {
            (MESSAGE_INTEGRITY, 20)
        } else {
            (MESSAGE_INTEGRITY_SHA256, 32)
        };
        for kept in [0, 4, 16, value - 4] {
            let mut cut = ask.unsigned();
            append(&mut cut, kind, &whole[whole.len() - value..][..kept]);
            assert_eq!(code(&refused(&mut front, &cut).0), 400, "{kept} bytes");
        }
        let mut doubled = whole.clone();
        append(&mut doubled, kind, &vec![0; value]);
        passed(&mut front, &doubled);
        let mut wrong_first = ask.unsigned();
        append(&mut wrong_first, kind, &vec![0; value]);
        let resigned = sign(&wrong_first, ask.algorithm, &ask.key);
        assert!(refused(&mut front, &resigned).1.is_failure());
    }
}

#[test]
fn of_both_signatures_the_one_by_sha256_counts() {
    let mut front = front();
    let ask = Ask::old(&front, NAME, PASSWORD);
    let both = sign(&ask.bytes(), Algorithm::Sha256, &ask.key);
    assert_eq!(passed(&mut front, &both).1.algorithm, Algorithm::Sha256);
    let mut forged = ask.bytes();
    append(&mut forged, MESSAGE_INTEGRITY_SHA256, &[0; 32]);
    assert!(refused(&mut front, &forged).1.is_failure());
}

#[test]
fn attributes_after_the_signature_change_nothing() {
    let mut front = front();
    let mut longer = Ask::old(&front, NAME, PASSWORD).bytes();
    append(&mut longer, USERNAME, b"bob");
    append(&mut longer, 0x8028, &[1, 2, 3, 4]);
    assert_eq!(passed(&mut front, &longer).0, 3);
}

#[test]
fn every_changed_byte_of_a_good_request_is_turned_away() {
    let front_of_tests = front();
    for ask in [Ask::old(&front_of_tests, NAME, PASSWORD), Ask::new(&front_of_tests, NAME, PASSWORD)] {
        let good = ask.bytes();
        for place in 0..good.len() {
            let mut front = front();
            let mut changed = good.clone();
            changed[place] ^= 0x04;
            match front.admit(MOMENT, client(), &changed) {
                // No longer one of the four requests: the relay hears it as nobody's.
                Verdict::Pass(known) => assert!(known.is_none(), "byte {place}"),
                Verdict::Reply { .. } => (),
                Verdict::Silence { .. } => panic!("byte {place}"),
            }
        }
    }
}

#[test]
fn data_and_other_messages_pass_as_nobodys() {
    let mut front = front();
    let indication = request(0x16, &[(0x0013, b"hi")]);
    let binding = request(1, &[]);
    let cut = &Ask::old(&front, NAME, PASSWORD).bytes()[..60];
    for datagram in [&[0x40, 0, 0, 2, b'h', b'i'][..], &indication, &binding, cut, b"", b"GET / HTTP/1.1"] {
        assert!(matches!(front.admit(MOMENT, client(), datagram), Verdict::Pass(None)));
    }
    assert_eq!(front.counts(), []);
}

#[test]
fn nothing_made_up_passes_as_somebody() {
    let mut front = front();
    let good = Ask::new(&front, NAME, PASSWORD).bytes();
    let mut state = 1u64;
    let mut random = |below: usize| {
        state = state
            .wrapping_mul(6_364_136_223_846_793_005)
            .wrapping_add(1_442_695_040_888_963_407);
        usize::try_from(state >> 33).unwrap_or(0) % below
    };
    for round in 0..20_000 {
        let mut datagram = good.clone();
        for _ in 0..=random(4) {
            let place = random(datagram.len());
            datagram[place] = datagram[place].wrapping_add(u8::try_from(1 + random(255)).unwrap_or(1));
        }
        datagram.truncate(if round % 3 == 0 { random(good.len()) } else { good.len() });
        let moment = Moment {
            now: MOMENT.now + round / 8,
            ..MOMENT
        };
        if let Verdict::Pass(Some(_)) = front.admit(moment, client(), &datagram) {
            assert!(datagram == good, "round {round}");
        }
    }
}

/// What became of each of so many of the same datagram in one second: answered, silent and told, silent.
fn tally(front: &mut Front, from: SocketAddr, datagram: &[u8], times: u32) -> (u32, u32, u32) {
    let mut seen = (0, 0, 0);
    for _ in 0..times {
        match front.admit(MOMENT, from, datagram) {
            Verdict::Reply { .. } => seen.0 += 1,
            Verdict::Silence { first: true, .. } => seen.1 += 1,
            Verdict::Silence { .. } => seen.2 += 1,
            Verdict::Pass(_) => panic!("passed"),
        }
    }
    seen
}

#[test]
fn strangers_are_answered_so_often_and_the_rest_is_counted() {
    let mut front = front();
    let bare = request(3, &[TRANSPORT]);
    assert_eq!(tally(&mut front, client(), &bare, CHALLENGES + 10), (CHALLENGES, 1, 9));
    assert_eq!(front.counts(), [("challenged", u64::from(CHALLENGES) + 10), ("not answered", 10)]);
    let next = Moment {
        now: MOMENT.now + 1,
        ..MOMENT
    };
    assert_eq!(code(&refused_at(&mut front, next, client(), &bare).0), 401);
    let good = Ask::old(&front, NAME, PASSWORD).bytes();
    assert_eq!(passed(&mut front, &good).0, 3, "who has credentials is not slowed by strangers");
}

#[test]
fn a_guesser_is_slowed_and_even_a_right_guess_waits() {
    let mut front = front();
    let wrong = Ask::old(&front, NAME, b"guess").bytes();
    let right = Ask::old(&front, NAME, PASSWORD).bytes();
    assert_eq!(tally(&mut front, client(), &wrong, FAILURES + 3), (FAILURES, 1, 2));
    assert_eq!(tally(&mut front, client(), &right, 1), (0, 0, 1));
    let next = Moment {
        now: MOMENT.now + 1,
        ..MOMENT
    };
    assert!(matches!(front.admit(next, client(), &right), Verdict::Pass(Some(_))));
}

#[test]
fn a_flood_from_everywhere_does_not_fill_the_log() {
    let mut front = front();
    let bare = request(3, &[TRANSPORT]);
    let told = (0..100).map(|host| tally(&mut front, SocketAddr::from(([192, 0, 2, host], 9)), &bare, CHALLENGES + 1).1);
    assert_eq!(told.sum::<u32>(), ALARMS);
}

#[test]
fn who_forges_a_victims_address_does_not_slow_the_victim() {
    let mut front = front();
    let forged = Ask {
        nonce: b"no nonce of ours".to_vec(),
        ..Ask::old(&front, NAME, b"guess")
    }
    .bytes();
    tally(&mut front, client(), &forged, 1000);
    let right = Ask::old(&front, NAME, PASSWORD).bytes();
    assert_eq!(passed(&mut front, &right).0, 3);
}

#[test]
fn a_user_who_is_removed_is_turned_away() {
    let mut front = front();
    let refresh = Ask {
        kind: 4,
        ..Ask::old(&front, NAME, PASSWORD)
    }
    .bytes();
    assert_eq!(passed(&mut front, &refresh).0, 3);
    front.credentials = credentials(&[("bob", 4)]);
    let (response, cause) = refused(&mut front, &refresh);
    assert_eq!((code(&response), cause), (401, Cause::UnknownName("alice".to_string())));
    let permit = Ask {
        kind: 8,
        ..Ask::old(&front, NAME, PASSWORD)
    }
    .bytes();
    assert_eq!(code(&refused(&mut front, &permit).0), 401);
}

#[test]
fn bad_credentials_are_not_taken_over_good_ones() {
    let path = std::env::temp_dir().join(format!("relayd-test-{}-reload", std::process::id()));
    let mut front = Front::new(path.clone(), credentials(&[("alice", 3)]), [7; 32]);
    assert!(front.reload().expect_err("no file").contains("cannot read"));
    std::fs::write(&path, "realm example.org\nuser alice 99\n").expect("a file");
    let told = front.reload().expect_err("a bad file");
    std::fs::remove_file(&path).expect("it is removed");
    assert!(told.contains("line 2") || told.contains("mode"), "{told}");
    let good = Ask::old(&front, NAME, PASSWORD).bytes();
    assert_eq!(passed(&mut front, &good).0, 3);
}

/// Not a check: what the gate costs, for docs/PERFORMANCE.md (make bench-front). The least of some rounds, since others use the machine too.
#[test]
#[ignore = "a measurement"]
fn what_checking_costs() {
    let mut front = front();
    let mut response = request(9, &[]);
    response[0] = 1;
    let timed = b"1700000001:guest";
    let password = timed_password(b"south", timed);
    let cases = [
        ("ChannelData, 1,200 bytes", [&[0x40, 0, 4, 172][..], &[0; 1196]].concat()),
        ("a challenge", request(3, &[TRANSPORT])),
        ("checked and signed by SHA-1", Ask::old(&front, NAME, PASSWORD).bytes()),
        ("checked and signed by SHA-256", Ask::new(&front, NAME, PASSWORD).bytes()),
        (
            "the same, a time-limited name by the second of two secrets",
            Ask::new(&front, timed, password.as_bytes()).bytes(),
        ),
    ];
    for (what, datagram) in cases {
        let least = (0..20).map(|_| nanoseconds(&mut front, &datagram, &response)).min();
        println!("{:6} ns  {what}", least.unwrap_or(0));
    }
}

/// What one datagram takes, with the signature of its response if it gets one.
fn nanoseconds(front: &mut Front, datagram: &[u8], response: &[u8]) -> u128 {
    const TIMES: u32 = 2000;
    let begin = std::time::Instant::now();
    for round in 0..TIMES {
        let now = MOMENT.now + u64::from(round / CHALLENGES);
        if let Verdict::Pass(Some(known)) = front.admit(Moment { now, ..MOMENT }, client(), datagram) {
            std::hint::black_box(known.signer.sign(response));
        }
    }
    begin.elapsed().as_nanos() / u128::from(TIMES)
}
