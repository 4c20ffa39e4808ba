//! The daemon's own tables held against the proved program: tests that need it (CALLS=PATH cargo test -- --ignored).

use crate::admission::{garbage, garbage_from_peer};
use crate::denied::Denied;
use crate::ledger::{Change, Ledger, place};
use crate::line::{self, Answer};
use crate::pipe::is_accepted;
use crate::relay::Reason;
use crate::stun::{self, CHANNEL_NUMBER, LIFETIME, REQUESTED_TRANSPORT, XOR_PEER_ADDRESS, ipv4_value};
use crate::sys::memory;
use crate::{rebuild, relayed};
use std::fmt::Write as _;
use std::io::Write;
use std::net::{Ipv4Addr, SocketAddr, SocketAddrV4};
use std::os::fd::AsRawFd;
use std::process::{Command, Stdio};

/// The Send indication and its attribute, which relayd itself never writes.
const SEND: u16 = 0x0016;
const DATA: u16 = 0x0013;

/// What `calls` answers to these lines, and its listing.
fn ask(input: &[u8]) -> (Vec<String>, Vec<String>) {
    ask_denying(&Denied::default(), input)
}

/// The same with a list of denied prefixes.
fn ask_denying(denied: &Denied, input: &[u8]) -> (Vec<String>, Vec<String>) {
    let calls = std::env::var_os("CALLS").expect("CALLS names the proved program");
    let list = denied.lines().map(|lines| memory::file(c"denied", &lines).expect("a file"));
    let mut child = Command::new(calls)
        .args(list.as_ref().map(|file| format!("/proc/self/fd/{}", file.as_raw_fd())))
        .stdin(Stdio::piped())
        .stdout(Stdio::piped())
        .spawn()
        .expect("calls runs");
    let mut to = child.stdin.take().expect("its input");
    let text = std::thread::scope(|scope| {
        // A scope of its own: the program hears the end of its input when `to` is gone.
        scope.spawn(move || to.write_all(input).expect("the lines are written"));
        String::from_utf8(child.wait_with_output().expect("it ends").stdout).expect("text")
    });
    let count = input.split(|&byte| byte == b'\n').count() - 1;
    let mut lines = text.lines().map(String::from);
    (lines.by_ref().take(count).collect(), lines.collect())
}

/// A number below `end`, from a sequence that the seed fixes.
fn below(seed: &mut u64, end: u64) -> u64 {
    *seed ^= *seed << 13;
    *seed ^= *seed >> 7;
    *seed ^= *seed << 17;
    *seed % end
}

/// A small number, of any type.
fn small<T: TryFrom<u64>>(seed: &mut u64, end: u64) -> T {
    T::try_from(below(seed, end)).ok().expect("it fits")
}

/// A request of any kind by one of few clients, about few peers and channels, so that all limits are met; some are spoiled.
fn any_request(seed: &mut u64, clients: u64) -> (SocketAddr, u32, Vec<u8>) {
    let port: u16 = small(seed, clients);
    let client = if port % 5 == 4 {
        SocketAddr::from(([0xfd00, 0, 0, 0, 0, 0, 0, 1], port))
    } else {
        SocketAddr::from(([198, 51, 100, 7], port))
    };
    let mut peer = || ipv4_value(SocketAddrV4::new([192, 0, 2, small(seed, 10)].into(), small(seed, 2)));
    let (first, second) = (peer(), peer());
    let long = small::<u32>(seed, 5000).to_be_bytes();
    let short = (small::<u32>(seed, 2) * 600).to_be_bytes();
    let channel = [0x40, small(seed, 10), 0, 0];
    let (one, two) = ((XOR_PEER_ADDRESS, &first[..]), (XOR_PEER_ADDRESS, &second[..]));
    // Few ids, so that some Allocates are repeats.
    let transaction = [small(seed, 2); 12];
    let mut request = match below(seed, 10) {
        0 | 1 => stun::request_of(
            transaction,
            stun::ALLOCATE,
            &[(REQUESTED_TRANSPORT, &[17, 0, 0, 0]), (LIFETIME, &long)],
        ),
        2 => stun::request(stun::REFRESH, &[(LIFETIME, &long), (LIFETIME, &short)]),
        3 => stun::request(stun::REFRESH, &[(LIFETIME, &short)]),
        4..=6 => stun::request(
            stun::CREATE_PERMISSION,
            [&[one][..], &[one, (0x0008, &[0; 20]), two]][small::<usize>(seed, 2)],
        ),
        7 => stun::request(stun::CREATE_PERMISSION, &[one, two]),
        _ => stun::request(
            stun::CHANNEL_BIND,
            &[two, (CHANNEL_NUMBER, &channel), one, (CHANNEL_NUMBER, &[0x4f; 4])],
        ),
    };
    if below(seed, 20) == 0 {
        let at: usize = small(seed, request.len() as u64);
        request[at] ^= 1 << below(seed, 8);
    }
    (client, u32::from(port % 2) + 1, request)
}

/// The ledger as the rows of a listing, by owner in place of slot, in order.
fn rows_of(ledger: &Ledger) -> Vec<String> {
    let mut rows = Vec::new();
    for allocation in ledger.allocations() {
        let (client, port) = (hex_address(allocation.client), allocation.client.port());
        let owner = format!("{client} {port}");
        let (user, relay_port, expiry) = (allocation.user, allocation.relay_port, allocation.expiry);
        rows.push(format!("{owner} A {user} {client} {port} cb007105 3478 {relay_port} {expiry}"));
        for (host, expiry) in &allocation.permissions {
            rows.push(format!("{owner} P {} {expiry}", hex_address((*host, 0).into())));
        }
        for (number, (peer, expiry)) in &allocation.channels {
            rows.push(format!(
                "{owner} C {number} {} {} {expiry}",
                hex_address((*peer).into()),
                peer.port()
            ));
        }
    }
    rows.sort();
    rows
}

fn hex_address(address: SocketAddr) -> String {
    let mut text = Vec::new();
    match address {
        SocketAddr::V4(address) => line::put_hex(&mut text, &address.ip().octets()),
        SocketAddr::V6(address) => line::put_hex(&mut text, &address.ip().octets()),
    }
    String::from_utf8(text).expect("text")
}

/// A listing in the same form.
fn by_owner(listing: &[String]) -> Vec<String> {
    let mut owner = String::new();
    let mut rows = Vec::new();
    for row in listing {
        let fields: Vec<&str> = row.split('\t').collect();
        if fields[0] == "A" {
            owner = fields[3..5].join(" ");
        }
        rows.push(format!("{owner} {} {}", fields[0], fields[2..].join(" ")));
    }
    rows.sort();
    rows
}

/// A line that changes nothing but the time: a datagram to a port that is nobody's.
fn tick(now: u64) -> Vec<u8> {
    let mut line = Vec::new();
    line::peer(&mut line, now, SocketAddr::from(([0, 0, 0, 0], 0)), 0, b"");
    line
}

/// What one run of requests has met.
#[derive(Debug, Default)]
struct Met {
    quota: usize,
    no_room: usize,
    accepted: usize,
    told_again: usize,
    /// Datagrams to and from peers with a permission, with one that has lapsed, with one that has lapsed and is forgotten, and with none.
    live: usize,
    lapsed: usize,
    forgotten: usize,
    never: usize,
}

/// The Allocates of the live allocations, sent again.
fn repeats(ledger: &Ledger, now: u64) -> Vec<u8> {
    let mut lines = Vec::new();
    for allocation in ledger.allocations() {
        let request = stun::request_of(allocation.transaction, stun::ALLOCATE, &[]);
        line::client(&mut lines, now, allocation.user, 0, allocation.client, &request);
    }
    lines
}

/// What the ledger knows of each peer, and what becomes of a datagram of it and of a Send to it. The relay may have forgotten a permission
/// that has lapsed, where another has taken its entry.
fn hold_permissions(ledger: &Ledger, now: u64, whole: &[u8], met: &mut Met) {
    let (mut lines, mut asked) = (whole.to_vec(), Vec::new());
    for allocation in ledger.allocations() {
        for last in 0..10 {
            let peer = SocketAddrV4::new([192, 0, 2, last].into(), 9);
            line::peer(&mut lines, now, peer.into(), allocation.relay_port, b"");
            let send = stun::request(SEND, &[(XOR_PEER_ADDRESS, &ipv4_value(peer)), (DATA, b"")]);
            line::client(&mut lines, now, 0, 0, allocation.client, &send);
            asked.push((allocation, *peer.ip()));
        }
    }
    let (answers, _) = ask(&lines);
    let begin = answers.len() - 2 * asked.len();
    for ((allocation, host), answers) in asked.iter().zip(answers[begin..].chunks(2)) {
        let known = (allocation.permissions.contains_key(host), allocation.lapsed_at(*host).is_some());
        for answer in answers {
            let found = match (line::read(answer.as_bytes(), &mut Vec::new()), known) {
                (Some(Answer::ToClient(_) | Answer::ToPeer(..)), (true, false)) => &mut met.live,
                (Some(Answer::Dropped(Reason::Lapsed)), (false, true)) => &mut met.lapsed,
                (Some(Answer::Dropped(Reason::Never)), (false, true)) => &mut met.forgotten,
                (Some(Answer::Dropped(Reason::Never)), (false, false)) => &mut met.never,
                _ => panic!("{host} at {now}: {known:?}, {answer}"),
            };
            *found += 1;
        }
    }
}

/// A ledger beside a whole history, and the same as it is rebuilt again and again.
fn history(first: u64, met: &mut Met) {
    let (mut seed, clients) = (first, if first % 2 == 0 { 3 } else { 24 });
    let (mut now, mut whole, mut ledger) = (below(&mut seed, 900), Vec::new(), Ledger::new());
    for _ in 0..12 {
        let mut asked = Vec::new();
        let before = whole.len();
        for _ in 0..60 {
            now += [0, 0, 0, 1, 3, 10, 20][small::<usize>(&mut seed, 7)];
            let (client, user, request) = any_request(&mut seed, clients);
            line::client(&mut whole, now, user, small(&mut seed, 65536), client, &request);
            asked.push((now, client, user, request));
        }
        let skip = whole[..before].split(|&byte| byte == b'\n').count() - 1;
        let (answers, _) = ask(&whole);
        for ((time, client, user, request), answer) in asked.iter().zip(&answers[skip..]) {
            ledger.lapse(*time);
            if is_accepted(answer.as_bytes()) {
                let mut reply = Vec::new();
                line::read(answer.as_bytes(), &mut reply).expect("an answer");
                relayed::translate(&mut reply, std::net::Ipv4Addr::LOCALHOST);
                let (_, change) = ledger.record(*time, *user, *client, request, &reply).expect("it is taken in");
                met.accepted += 1;
                met.told_again += usize::from(matches!(change, Change::ToldAgain(_)));
            }
            met.quota += usize::from(answer.ends_with("0009000400000456"));
            met.no_room += usize::from(answer.ends_with("0009000400000508"));
        }
        ledger.lapse(now);
        whole.extend(tick(now));
        let (_, listing) = ask(&whole);
        assert_eq!(rows_of(&ledger), by_owner(&listing), "from {first}, at {now}");
        hold_permissions(&ledger, now, &whole, met);
        let (table, count) = rebuild::lines(&ledger, now);
        let repeats = repeats(&ledger, now);
        let (again, rebuilt) = ask(&[&table[..], &tick(now), &repeats].concat());
        let (kept, _) = ask(&[&whole[..], &repeats].concat());
        let accepted = again.iter().filter(|answer| is_accepted(answer.as_bytes())).count();
        let live = ledger.allocations().count();
        assert_eq!(accepted, count + live, "from {first}, at {now}");
        assert_eq!(again[again.len() - live..], kept[kept.len() - live..], "from {first}, at {now}");
        assert_eq!(by_owner(&rebuilt), by_owner(&listing), "from {first}, at {now}");
    }
}

#[test]
#[ignore = "needs the proved program: CALLS=PATH cargo test -- --ignored"]
fn the_ledger_has_what_calls_lists_and_makes_it_again() {
    let mut met = Met::default();
    for first in 1..=60 {
        history(first, &mut met);
    }
    assert!(
        met.quota > 100 && met.no_room > 100 && met.accepted > 10_000 && met.told_again > 100,
        "{met:?}"
    );
    assert!(
        met.live > 1000 && met.lapsed > 1000 && met.forgotten > 100 && met.never > 1000,
        "{met:?}"
    );
}

#[test]
#[ignore = "needs the proved program: CALLS=PATH cargo test -- --ignored"]
fn what_is_garbage_here_is_dropped_or_refused_there() {
    let client = SocketAddr::from(([198, 51, 100, 7], 40000));
    // The client has an allocation and a permission, so that what is not garbage can get through.
    let allocate = stun::request(stun::ALLOCATE, &[(REQUESTED_TRANSPORT, &[17, 0, 0, 0])]);
    let permit = stun::request(
        stun::CREATE_PERMISSION,
        &[(XOR_PEER_ADDRESS, &ipv4_value(SocketAddrV4::new([192, 0, 2, 150].into(), 0)))],
    );
    let mut lines = Vec::new();
    line::client(&mut lines, 0, 1, 0, client, &allocate);
    line::client(&mut lines, 0, 1, 0, client, &permit);
    let mut tried = 2;
    for length in [0, 1, 4, 20, 36, 1500, 1501, 1584, 1600, 9000] {
        for byte in 0..=255 {
            let mut datagram = allocate.clone();
            datagram.resize(length, 0);
            datagram.iter_mut().take(1).for_each(|first| *first = byte);
            if garbage(&datagram, length).is_some() {
                line::client(&mut lines, 0, 1, 0, client, &datagram);
                tried += 1;
            }
        }
    }
    let peer = SocketAddr::from(([192, 0, 2, 150], 5000));
    for length in [1501, 1600, 9000] {
        assert!(garbage_from_peer(length).is_some());
        line::peer(&mut lines, 0, peer, 49152, &vec![0; length]);
    }
    line::peer(&mut lines, 0, peer, 49152, &[0; 1500]);
    assert_eq!(place(49152), 0);
    let (answers, _) = ask(&lines);
    assert_eq!(answers.len(), tried + 4);
    assert!(tried > 2000 && is_accepted(answers[0].as_bytes()) && is_accepted(answers[1].as_bytes()));
    assert!(answers[tried + 3].starts_with("S\t"), "a peer's 1,500 bytes come through");
    for answer in &answers[2..tried + 3] {
        let read = line::read(answer.as_bytes(), &mut Vec::new()).expect("an answer");
        assert!(
            matches!(read, Answer::Dropped(_) | Answer::Refused(4) | Answer::NotTaken),
            "{answer}"
        );
    }
}

/// A list of any prefixes that fits, some under others, with each prefix' first and last address, and those beside them.
fn any_list(seed: &mut u64) -> (Denied, Vec<Ipv4Addr>) {
    let (mut text, mut hosts) = (String::new(), Vec::new());
    for _ in 0..=below(seed, 16) {
        let length: u32 = small(seed, 33);
        let place = [0, 0x0a00_0000, 0x0a01_0200, 0xffff_ff00][small::<usize>(seed, 4)] ^ small::<u32>(seed, 1 << 16);
        let behind = u32::MAX.checked_shr(length).unwrap_or(0);
        let first = place & !behind;
        writeln!(text, "{}/{length}", Ipv4Addr::from(first)).expect("a line");
        let last = first | behind;
        hosts.extend([first, last, first.wrapping_sub(1), last.wrapping_add(1), small(seed, 1 << 32)].map(Ipv4Addr::from));
    }
    (Denied::parse(below(seed, 2) == 0, &text).expect("it fits"), hosts)
}

#[test]
#[ignore = "needs the proved program: CALLS=PATH cargo test -- --ignored"]
fn what_is_denied_here_is_denied_there() {
    let (client, mut seed, mut met) = (SocketAddr::from(([198, 51, 100, 7], 40000)), 2, [0, 0]);
    for _ in 0..60 {
        let (denied, hosts) = any_list(&mut seed);
        let mut lines = Vec::new();
        let allocate = stun::request(stun::ALLOCATE, &[(REQUESTED_TRANSPORT, &[17, 0, 0, 0])]);
        line::client(&mut lines, 0, 1, 0, client, &allocate);
        for host in &hosts {
            let peer = ipv4_value(SocketAddrV4::new(*host, 9));
            let permit = stun::request(stun::CREATE_PERMISSION, &[(XOR_PEER_ADDRESS, &peer)]);
            let bind = stun::request(stun::CHANNEL_BIND, &[(XOR_PEER_ADDRESS, &peer), (CHANNEL_NUMBER, &[0x40, 0, 0, 0])]);
            line::client(&mut lines, 0, 1, 0, client, &permit);
            line::client(&mut lines, 0, 1, 0, client, &bind);
        }
        let (answers, _) = ask_denying(&denied, &lines);
        for (host, answers) in hosts.iter().zip(answers[1..].chunks(2)) {
            let expected = denied.why(*host);
            met[usize::from(expected.is_some())] += 1;
            for answer in answers {
                assert_eq!(
                    answer.ends_with("0009000400000403"),
                    expected.is_some(),
                    "{host}: {expected:?}, {answer}"
                );
            }
        }
    }
    assert!(met[0] > 100 && met[1] > 100, "{met:?}");
}
