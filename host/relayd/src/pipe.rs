//! The proved relay as the program `calls` behind a pipe: a batch of lines, an answer for each line, and a new program with the same table
//! if the old one ends, hangs or answers senselessly.

use crate::denied::Denied;
use crate::line::{self, Answer};
use crate::program::{Executable, Program, Trouble};
use crate::relay::{Outcome, Reason, Stop};
use crate::relayed;
use crate::stun::{self, REQUESTED_TRANSPORT, XOR_PEER_ADDRESS, ipv4_value};
use crate::sys::signals::Watch;
use std::io::BufRead;
use std::net::{Ipv4Addr, SocketAddr, SocketAddrV4};
use std::ops::Range;
use std::os::unix::net::UnixStream;
use std::time::{Duration, Instant};

/// So many starts in so much time are too many.
const STARTS: usize = 5;
const IN_TIME: Duration = Duration::from_secs(30);

/// Who sends the first lines, which are no datagrams.
const NOBODY: SocketAddrV4 = SocketAddrV4::new(Ipv4Addr::UNSPECIFIED, 0);

/// The relay behind the pipe.
pub struct Pipe {
    executable: Executable,
    program: Program,
    relay: Ipv4Addr,
    watch: Watch,
    batch: Batch,
    /// When the program was started again, the last few times.
    restarts: Vec<Instant>,
    /// How often it was started again.
    pub restarted: u64,
}

/// The lines of one batch, and what is known of their answers.
#[derive(Default)]
struct Batch {
    lines: Vec<u8>,
    /// Where each line ends.
    ends: Vec<usize>,
    /// The answers that came, with their bytes' places; None for a line that was given up.
    answers: Vec<Option<(Answer, Range<usize>)>>,
    bytes: Vec<u8>,
    /// The program has failed in this batch, so the rest goes line by line, to find the one at fault.
    one_by_one: bool,
    /// The last line that was put alone has failed.
    alone: bool,
}

impl Batch {
    fn clear(&mut self) {
        self.lines.clear();
        self.ends.clear();
        self.answers.clear();
        self.bytes.clear();
        self.one_by_one = false;
        self.alone = false;
    }

    /// Where the line at this place begins.
    fn begin(&self, place: usize) -> usize {
        place.checked_sub(1).map_or(0, |before| self.ends[before])
    }

    /// Takes in the answers of a text, as far as they are answers: the first that is none is given.
    fn take(&mut self, text: &[u8]) -> Result<(), String> {
        let mut rest = text;
        while !rest.is_empty() {
            let behind = rest;
            // Nothing can fail here; std finds the end of a line faster than a loop over its bytes does.
            let length = rest.skip_until(b'\n').unwrap_or(0);
            // What has no newline was cut short when the program ended.
            let Some(answer) = behind[..length].strip_suffix(b"\n") else {
                break;
            };
            let begin = self.bytes.len();
            let read = line::read(answer, &mut self.bytes);
            let read = read.ok_or_else(|| format!("answers '{}'", String::from_utf8_lossy(answer)))?;
            if self.answers.len() == self.ends.len() {
                return Err("answers what was not asked".to_string());
            }
            self.answers.push(Some((read, begin..self.bytes.len())));
        }
        Ok(())
    }
}

impl Pipe {
    /// Starts the program with its list of denied prefixes. A file which isn't `calls`, and a list that has no effect, are told at once.
    pub fn start(mut executable: Executable, denied: &Denied, relay: Ipv4Addr, watch: Watch) -> Result<Self, String> {
        if let Some(lines) = denied.lines() {
            executable = executable.with_list(&lines)?;
        }
        let tried = denied.first().map_or(Ok(()), |host| try_list(&executable, host, watch));
        let begun = tried.and_then(|()| begin(&executable, watch));
        let program = begun.map_err(|trouble| match trouble {
            Trouble::Program(why) => format!("{} {why}", executable.name),
            Trouble::Ending => "asked to end at the start".to_string(),
        })?;
        Ok(Pipe {
            executable,
            program,
            relay,
            watch,
            batch: Batch::default(),
            restarts: Vec::new(),
            restarted: 0,
        })
    }

    /// What tells when the program ends. It is another one after a restart.
    pub fn stream(&self) -> &UnixStream {
        self.program.stream()
    }

    /// How the program has ended, if it has.
    pub fn end(&mut self) -> Option<Trouble> {
        self.program.end()
    }

    /// Begins a new batch.
    pub fn clear(&mut self) {
        self.batch.clear();
    }

    /// Puts a client's datagram into the batch. `start` is the number at which the search for a free port begins.
    pub fn client(&mut self, now: u64, user: u32, start: u32, from: SocketAddr, datagram: &[u8]) {
        line::client(&mut self.batch.lines, now, user, start, from, datagram);
        self.batch.ends.push(self.batch.lines.len());
    }

    /// Puts a peer's datagram to one of the relay ports into the batch.
    pub fn peer(&mut self, now: u64, from: SocketAddrV4, relay_port: u16, datagram: &[u8]) {
        line::peer(&mut self.batch.lines, now, from.into(), relay_port, datagram);
        self.batch.ends.push(self.batch.lines.len());
    }

    /// How many of the batch have their outcome.
    pub fn answered(&self) -> usize {
        self.batch.answers.len()
    }

    /// Asks for all outcomes that are missing. Where it fails, some may have come.
    pub fn ask(&mut self) -> Result<(), Trouble> {
        while self.batch.answers.len() < self.batch.ends.len() {
            let (first, all) = (self.batch.answers.len(), self.batch.ends.len());
            let behind = if self.batch.one_by_one { first + 1 } else { all };
            let lines = &self.batch.lines[self.batch.begin(first)..self.batch.ends[behind - 1]];
            let mut text = Vec::new();
            let asked = self.program.ask(lines, behind - first, &mut text, self.watch);
            let taken = self.batch.take(&text).map_err(Trouble::Program);
            self.translate(first);
            let done = taken.and(asked);
            self.batch.alone = self.batch.one_by_one && self.batch.answers.len() == first && done != Err(Trouble::Ending);
            done?;
        }
        Ok(())
    }

    /// Writes the relayed address into the replies from this place on.
    fn translate(&mut self, first: usize) {
        for (answer, range) in self.batch.answers[first..].iter().flatten() {
            if matches!(answer, Answer::ToClient(_)) {
                relayed::translate(&mut self.batch.bytes[range.clone()], self.relay);
            }
        }
    }

    /// The outcome of the call at this place of the batch.
    pub fn outcome(&self, place: usize) -> Outcome<'_> {
        let Some(Some((answer, range))) = self.batch.answers.get(place) else {
            return Outcome::Lost;
        };
        let bytes = &self.batch.bytes[range.clone()];
        match *answer {
            Answer::Refused(number) => Outcome::Refused(number),
            Answer::Dropped(reason) => Outcome::Dropped(reason),
            // No datagram that comes this far makes such a line.
            Answer::NotTaken => Outcome::Lost,
            Answer::ToClient(to) => Outcome::ToClient { to, bytes },
            Answer::ToPeer(relay_port, to) => Outcome::ToPeer { relay_port, to, bytes },
        }
    }

    /// Starts a new program with this table: the lines of `count` requests, all of which it must accept. A line of the batch at which the
    /// program has failed alone is given up.
    pub fn restart(&mut self, why: &str, table: &[u8], count: usize, mut tell: impl FnMut(&str)) -> Result<(), Stop> {
        tell(&format!("{} {why}; starting it again with its table", self.executable.name));
        if self.batch.alone {
            self.batch.answers.push(None);
            self.batch.alone = false;
        }
        self.batch.one_by_one = true;
        let mut why = why.to_string();
        loop {
            self.may_start(&why)?;
            match self.start_with(table, count) {
                Ok(()) => return Ok(()),
                Err(Trouble::Ending) => return Err(Stop::Asked),
                Err(Trouble::Program(again)) => why = again,
            }
            tell(&format!("{} {why}", self.executable.name));
        }
    }

    fn may_start(&mut self, why: &str) -> Result<(), Stop> {
        let now = Instant::now();
        self.restarts.retain(|time| now.duration_since(*time) < IN_TIME);
        if self.restarts.len() == STARTS {
            let name = &self.executable.name;
            return Err(Stop::Failed(format!(
                "{name} {why}, and {STARTS} times before in {} seconds",
                IN_TIME.as_secs()
            )));
        }
        self.restarts.push(now);
        self.restarted += 1;
        Ok(())
    }

    fn start_with(&mut self, table: &[u8], count: usize) -> Result<(), Trouble> {
        self.program = begin(&self.executable, self.watch)?;
        let mut text = Vec::new();
        self.program.ask(table, count, &mut text, self.watch)?;
        let accepted = text.split(|&byte| byte == b'\n').filter(|answer| is_accepted(answer)).count();
        if accepted == count {
            Ok(())
        } else {
            Err(Trouble::Program(format!("took {accepted} of {count} requests again")))
        }
    }

    /// The program's process, for tests.
    #[cfg(test)]
    pub fn process(&self) -> u32 {
        self.program.id()
    }
}

/// Starts a program and puts a first line, which changes nothing: its answer tells what isn't `calls`, and a list that `calls` refuses.
fn begin(executable: &Executable, watch: Watch) -> Result<Program, Trouble> {
    let mut program = Program::start(executable).map_err(|error| Trouble::Program(format!("cannot be started: {error}")))?;
    let (mut lines, mut text) = (Vec::new(), Vec::new());
    line::peer(&mut lines, 0, NOBODY.into(), 0, b"");
    program.ask(&lines, 1, &mut text, watch)?;
    let answer = text.trim_ascii_end();
    let why = match line::read(answer, &mut Vec::new()) {
        Some(Answer::Dropped(Reason::Other)) => return Ok(program),
        Some(Answer::Refused(9)) if executable.has_list() => "refuses the list of denied prefixes: 9, a bad line",
        Some(Answer::Refused(10)) if executable.has_list() => "refuses the list of denied prefixes: 10, more nodes than 512",
        Some(Answer::NotTaken) if executable.has_list() => "cannot read the list of denied prefixes",
        None if answer == b"D" => "is too old: it does not say why it drops a datagram",
        _ => "does not answer as calls does",
    };
    Err(Trouble::Program(why.to_string()))
}

/// Asks for a permission to a denied host, of a program that is used for nothing else: an older `calls` does not look at its list.
fn try_list(executable: &Executable, host: Ipv4Addr, watch: Watch) -> Result<(), Trouble> {
    let mut program = begin(executable, watch)?;
    let (mut lines, mut text, mut reply) = (Vec::new(), Vec::new(), Vec::new());
    let peer = ipv4_value(SocketAddrV4::new(host, 0));
    let allocate = (stun::ALLOCATE, REQUESTED_TRANSPORT, &[17, 0, 0, 0][..]);
    for (method, kind, value) in [allocate, (stun::CREATE_PERMISSION, XOR_PEER_ADDRESS, &peer)] {
        let request = stun::request_of(stun::NO_TRANSACTION, method, &[(kind, value)]);
        line::client(&mut lines, 0, 1, 0, NOBODY.into(), &request);
    }
    program.ask(&lines, 2, &mut text, watch)?;
    let answer = text.split(|&byte| byte == b'\n').nth(1).unwrap_or_default();
    match line::read(answer, &mut reply).and_then(|_| stun::error_code(&reply)) {
        Some(403) => Ok(()),
        _ => Err(Trouble::Program(format!(
            "takes no list of denied prefixes: it does not deny {host}"
        ))),
    }
}

/// Whether an answer's line is a success response: an accepted request's.
pub fn is_accepted(answer: &[u8]) -> bool {
    let mut bytes = Vec::new();
    matches!(line::read(answer, &mut bytes), Some(Answer::ToClient(_))) && matches!(stun::response(&bytes), Some((_, true)))
}

#[cfg(test)]
mod tests {
    use super::*;
    use crate::program::tests::Script;
    use std::path::Path;

    fn start(script: &Script) -> Result<Pipe, String> {
        start_denying(&Denied::default(), script)
    }

    fn start_denying(denied: &Denied, script: &Script) -> Result<Pipe, String> {
        // Another test's child may still hold the file that was just written.
        loop {
            match Pipe::start(script.open(), denied, Ipv4Addr::LOCALHOST, Watch::never()) {
                Err(busy) if busy.contains("busy") => std::thread::sleep(Duration::from_millis(5)),
                started => return started,
            }
        }
    }

    /// Answers a line as `calls` does the first.
    const FIRST: &str = r"read line; printf 'D\tother\n'";

    /// Answers the first line as `calls` does, and then each with `answer`.
    fn always(answer: &str) -> String {
        format!("{FIRST}; while read line; do printf '{answer}\\n'; done")
    }

    fn from() -> SocketAddr {
        SocketAddr::from(([198, 51, 100, 7], 40000))
    }

    /// Asks about so many datagrams, each of one byte, its place.
    fn ask(pipe: &mut Pipe, count: u8) -> Result<(), Trouble> {
        pipe.clear();
        for place in 0..count {
            pipe.client(1, 2, 3, from(), &[place]);
        }
        pipe.ask()
    }

    #[test]
    fn answers_are_outcomes() {
        let script = Script::new("outcomes", &always(r"F\t49157\tc0000296\t5000\t6869"));
        let mut pipe = start(&script).expect("it starts");
        ask(&mut pipe, 64).expect("answers");
        let (relay_port, to) = (49157, SocketAddr::from(([192, 0, 2, 150], 5000)));
        for place in 0..64 {
            let bytes = b"hi";
            assert_eq!(pipe.outcome(place), Outcome::ToPeer { relay_port, to, bytes });
        }
        assert_eq!(pipe.outcome(64), Outcome::Lost);
    }

    #[test]
    fn a_program_that_ends_is_started_again_with_its_table() {
        // Ends at its fourth line, and answers the table's request with success.
        let body = r"n=0; while read line; do n=$((n+1)); case $line in *T*) printf 'S\tc6336407\t40000\t010800002112a442000000000000000000000000\n';; P*) printf 'D\tother\n';; *) [ $n = 4 ] && exit 1; echo 'R	1';; esac; done";
        let script = Script::new("again", body);
        let mut pipe = start(&script).expect("it starts");
        assert_eq!(ask(&mut pipe, 4), Err(Trouble::Program("has ended (exit status: 1)".to_string())));
        assert_eq!(pipe.answered(), 2);
        let before = pipe.process();
        let mut told = Vec::new();
        pipe.restart("has ended", b"T\n", 1, |what| told.push(what.to_string()))
            .expect("it starts again");
        assert!(pipe.process() != before && pipe.restarted == 1 && told.len() == 1, "{told:?}");
        // The third of the batch is the new one's third line, the fourth its fourth: that one fails alone and is given up.
        assert!(pipe.ask().is_err());
        assert_eq!(pipe.answered(), 3);
        pipe.restart("has ended", b"T\n", 1, |_| {}).expect("it starts again");
        pipe.ask().expect("all have their outcome");
        let outcomes: Vec<Outcome> = (0..4).map(|place| pipe.outcome(place)).collect();
        assert_eq!(
            outcomes,
            [Outcome::Refused(1), Outcome::Refused(1), Outcome::Refused(1), Outcome::Lost]
        );
    }

    #[test]
    fn a_program_that_fails_again_and_again_ends_relayd() {
        let script = Script::new("never", &format!("{FIRST}; read line; exit 1"));
        let mut pipe = start(&script).expect("it starts");
        let stop = pipe.restart("has ended", b"T\n", 1, |_| {});
        assert!(matches!(stop, Err(Stop::Failed(why)) if why.contains("5 times before")));
    }

    #[test]
    fn an_answer_without_sense_is_trouble() {
        let script = Script::new("senseless", &always("hello"));
        let mut pipe = start(&script).expect("it starts");
        assert_eq!(ask(&mut pipe, 1), Err(Trouble::Program("answers 'hello'".to_string())));
        let script = Script::new("talkative", &always(r"D\tother\nD\tother"));
        let mut pipe = start(&script).expect("it starts");
        assert_eq!(ask(&mut pipe, 1), Err(Trouble::Program("answers what was not asked".to_string())));
    }

    #[test]
    fn a_success_is_told_from_an_error() {
        let head = "2112a442000000000000000000000000";
        assert!(is_accepted(format!("S\tc6336407\t40000\t01080000{head}").as_bytes()));
        for answer in ["S\tc6336407\t40000\t01180000", "S\tc6336407\t40000\t00170000"] {
            assert!(!is_accepted(format!("{answer}{head}").as_bytes()), "{answer}");
        }
        for answer in ["S\tc6336407\t40000\t", "D\tother", "E", "R\t1", ""] {
            assert!(!is_accepted(answer.as_bytes()), "{answer}");
        }
    }

    #[test]
    fn a_list_that_has_no_effect_is_told() {
        let denied = Denied::open(true, None).expect("the defaults");
        let permits = always(r"S\tc6336407\t40000\t010800002112a442000000000000000000000000");
        for (name, body, told) in [
            (
                "refuses-9",
                r"printf 'R\t9\n'",
                "refuses the list of denied prefixes: 9, a bad line",
            ),
            (
                "refuses-10",
                r"printf 'R\t10\n'",
                "refuses the list of denied prefixes: 10, more nodes than 512",
            ),
            ("unread", "echo E", "cannot read the list of denied prefixes"),
            (
                "permits",
                permits.as_str(),
                "takes no list of denied prefixes: it does not deny 127.0.0.0",
            ),
        ] {
            let script = Script::new(name, body);
            let why = start_denying(&denied, &script).err().expect(told);
            assert!(why.contains(name) && why.ends_with(told), "{why}");
        }
        let why = start(&Script::new("no-list-9", r"printf 'R\t9\n'")).err().expect("no list");
        assert!(why.ends_with("does not answer as calls does"), "{why}");
    }

    #[test]
    fn a_list_that_is_not_read_again_ends_relayd() {
        // Reads its list at two starts, the trial's and the first, and then no more.
        let mark = std::env::temp_dir().join(format!("relayd-test-{}-starts", std::process::id()));
        let error_403 = r"printf 'S\tc6336407\t40000\t011800082112a4420000000000000000000000000009000400000403\n'";
        let body = format!(
            "echo >>{0}; [ $(wc -l <{0}) -gt 2 ] && echo E && exit; {FIRST}; while read line; do {error_403}; done",
            mark.display()
        );
        let denied = Denied::open(true, None).expect("the defaults");
        let mut pipe = start_denying(&denied, &Script::new("once", &body)).expect("it starts");
        let stop = pipe.restart("has ended", b"", 0, |_| {});
        assert!(matches!(stop, Err(Stop::Failed(why)) if why.contains("cannot read the list of denied prefixes, and 5 times before")));
        std::fs::remove_file(mark).expect("it is removed");
    }

    #[test]
    fn what_is_not_calls_does_not_start() {
        assert!(start(&Script::new("wrong", "echo hello")).is_err());
        for (name, answer) in [("lapsed", r"D\tlapsed"), ("worded", r"D\tlate")] {
            let why = start(&Script::new(name, &format!("printf '{answer}\\n'"))).err().expect(answer);
            assert!(why.ends_with("does not answer as calls does"), "{why}");
        }
        let why = start(&Script::new("older", "echo D")).err().expect("an older calls");
        assert!(why.ends_with("older is too old: it does not say why it drops a datagram"), "{why}");
        assert!(Executable::open(Path::new("/no/such/calls")).is_err());
        assert!(Executable::open(Path::new("/")).is_err());
    }
}
