"""Three hosts in network namespaces (client, relay, peer), the daemon between them, and a capture of what it says to clients."""
import contextlib
import ctypes
import os
import pathlib
import re
import shutil
import signal
import socket
import subprocess
import sys
import tempfile
import time
import traceback

import turn

ROOT = pathlib.Path(__file__).resolve().parents[2]
HERE = pathlib.Path(__file__).resolve().parent
RELAYD = ROOT / os.environ.get("RELAYD", "host/relayd/target/release/relayd")
CALLS = ROOT / os.environ.get("CALLS", "target/bin/calls")

SERVER, SERVER6, PORT = "203.0.113.5", "fd00:51::1", 3478
CLIENT, CLIENT6 = "198.51.100.7", "fd00:51::7"
INNER = "192.0.2.1"
PEER, STRANGER = "192.0.2.150", "192.0.2.151"
RELAY_PORTS = range(49152, 49280)
# How many datagrams of a peer that it does not know a relay port takes in a minute; and the lines of the status for such drops.
STRANGERS = 20
LAPSED, NEVER = "from peers: their permission lapsed", "from peers: they never had a permission"

_libc = ctypes.CDLL(None, use_errno=True)


def wait_for(test, what, seconds=10):
    end = time.monotonic() + seconds
    while time.monotonic() < end:
        found = test()
        if found:
            return found
        time.sleep(0.01)
    raise AssertionError(f"{what} did not happen in {seconds} seconds")


def make_ready(name):
    """What a run needs: the programs, and root. A signal ends it in order."""
    for path in (RELAYD, CALLS):
        if not os.access(path, os.X_OK):
            sys.exit(f"{name}: no program {path}")
    if os.geteuid() != 0:
        sys.exit(f"{name}: network namespaces need root")
    for number in (signal.SIGTERM, signal.SIGHUP):
        signal.signal(number, lambda *_: sys.exit(f"{name}: ended by a signal"))


def attempt(case, *about):
    """Runs a case, and says in a line how it went."""
    begin = time.monotonic()
    try:
        note = case(*about)
    except Exception:
        traceback.print_exc(file=sys.stdout)
        print(f"FAIL  {case.__doc__}", flush=True)
        return False
    print(f"ok    {case.__doc__}" + (f": {note}" if note else "") + f" ({time.monotonic() - begin:.1f} s)", flush=True)
    return True


def ip(*words):
    subprocess.run(["ip", *words], check=True, capture_output=True)


def seconds(minutes):
    """Of a time like 9:41."""
    minutes, rest = minutes.split(":")
    return 60 * int(minutes) + int(rest)


class Allocation:
    """An allocation of the status. Times are of the relay's clock, where the status has it."""

    def __init__(self, line, now):
        found = re.fullmatch(r"user (\d+)(?: \((.*)\))?, client (\S+):(\d+), relay port (\d+), (\S+) left", line)
        user, self.name, host, port, relay_port, left = found.groups()
        self.user, self.client, self.relay_port = int(user), (host.strip("[]"), int(port)), int(relay_port)
        self.expiry, self.now = now + seconds(left), now
        self.permissions, self.channels, self.carried = {}, {}, {}

    def add(self, line):
        """A line below the first."""
        if found := re.fullmatch(r"  permission for (\S+), (\S+) left", line):
            self.permissions[found[1]] = self.now + seconds(found[2])
        elif found := re.fullmatch(r"  channel (0x4[0-9a-f]{3}) to (\S+), (\S+) left", line):
            self.channels[int(found[1], 16)] = (found[2], self.now + seconds(found[3]))
        else:
            way, packets, sent = re.fullmatch(r"  to (.+): (\d+) packets, (\d+) bytes", line).groups()
            self.carried[way] = (int(packets), int(sent))


class Status:
    """What `--status` says."""

    def __init__(self, text):
        head, *parts, ends, drops, last_drops, refusals = text.split("\n\n")
        self.text, self.count = text, head.splitlines()[2]
        clock = re.search(r"\[(\d+)\]", head)
        now = int(clock[1]) if clock else 0
        self.allocations = []
        for part in parts:
            first, *rest = part.splitlines()
            self.allocations.append(Allocation(first, now))
            for line in rest:
                self.allocations[-1].add(line)
        self.totals = ends.splitlines()[1:]
        self.dropped = {what: int(count) for count, what in (line.split(maxsplit=1) for line in drops.splitlines()[1:])}
        self.last_drops, self.refusals = ([line.strip() for line in part.splitlines()[1:]] for part in (last_drops, refusals))

    def of(self, client):
        """The allocation of one client."""
        found = [one for one in self.allocations if one.client == client.sock.getsockname()[:2]]
        assert len(found) == 1, self.text
        return found[0]

    def drops(self, word):
        """The count of the one cause with this word."""
        found = [count for what, count in self.dropped.items() if word in what]
        assert len(found) == 1, self.dropped
        return found[0]


class Relayd:
    """A running relayd."""

    def __init__(self, lab, process, folder):
        self.lab, self.process, self.folder = lab, process, folder

    def written(self):
        """The log as it stands. A reply may be out before its line is."""
        return (self.folder / "log").read_text().splitlines()

    def log(self):
        """The log with the lines of all replies that have come: relayd writes them out before a status that is asked for."""
        self.status()
        return self.written()

    def events(self):
        """The log without the lines of single datagrams."""
        return [line for line in self.log() if not re.search(r"(client|peer) \S+ (at \d+ )?\d+ bytes:", line)]

    def status(self):
        status = self.folder / "status"
        status.unlink(missing_ok=True)
        self.process.send_signal(signal.SIGUSR1)
        wait_for(status.exists, "a status")
        return Status(status.read_text())

    def forward(self):
        """One SIGUSR2: the clock goes forward by --clock-offset."""
        before = sum("put forward" in line for line in self.written())
        self.process.send_signal(signal.SIGUSR2)
        wait_for(lambda: sum("put forward" in line for line in self.written()) > before, "the clock's step")

    def memory(self):
        """What relayd itself has in memory, in KiB."""
        lines = pathlib.Path(f"/proc/{self.process.pid}/status").read_text().splitlines()
        return next(int(line.split()[1]) for line in lines if line.startswith("VmRSS"))

    def child(self):
        children = pathlib.Path(f"/proc/{self.process.pid}/task/{self.process.pid}/children").read_text().split()
        assert len(children) == 1, children
        return int(children[0])


class Lab:
    def __init__(self):
        self.folder = pathlib.Path(tempfile.mkdtemp(prefix="mudsluice-"))
        self.names = {name: f"mudsluice-{os.getpid()}-{name}" for name in ("client", "relay", "peer")}
        self.started = 0

    def __enter__(self):
        self.tidy_after_the_dead()
        for name in self.names.values():
            ip("netns", "add", name)
            ip("-n", name, "link", "set", "lo", "up")
        client, relay, peer = self.names["client"], self.names["relay"], self.names["peer"]
        for near, far, end in (("to-client", client, "to-relay"), ("to-peer", peer, "to-relay")):
            ip("-n", relay, "link", "add", near, "type", "veth", "peer", "name", end, "netns", far)
            ip("-n", relay, "link", "set", near, "up")
            ip("-n", far, "link", "set", end, "up")
        addresses = [(relay, "lo", f"{SERVER}/32"), (relay, "to-client", "198.51.100.1/24"), (relay, "to-client", f"{SERVER6}/64"),
                     (relay, "to-peer", f"{INNER}/24"), (client, "to-relay", f"{CLIENT}/24"), (client, "to-relay", f"{CLIENT6}/64"),
                     (peer, "to-relay", f"{PEER}/24"), (peer, "to-relay", f"{STRANGER}/24")]
        for host, link, address in addresses:
            ip("-n", host, "addr", "add", address, "dev", link, *(["nodad"] if ":" in address else []))
        ip("-n", client, "route", "add", "default", "via", "198.51.100.1")
        ip("-n", peer, "route", "add", "default", "via", INNER)
        return self

    def __exit__(self, *_):
        for name in self.names.values():
            subprocess.run(["ip", "netns", "del", name], capture_output=True, check=False)
        shutil.rmtree(self.folder, ignore_errors=True)

    @staticmethod
    def tidy_after_the_dead():
        """Removes namespaces that a killed run has left."""
        listed = subprocess.run(["ip", "netns", "list"], capture_output=True, text=True, check=True).stdout
        for name in (line.split()[0] for line in listed.splitlines() if line.startswith("mudsluice-")):
            if not pathlib.Path(f"/proc/{name.split('-')[1]}").exists():
                ip("netns", "del", name)

    @contextlib.contextmanager
    def inside(self, host):
        """Sockets and processes made in here are on that host."""
        clone_newnet = 0x40000000
        here, there = os.open("/proc/self/ns/net", os.O_RDONLY), os.open(f"/run/netns/{self.names[host]}", os.O_RDONLY)
        try:
            assert _libc.setns(there, clone_newnet) == 0, os.strerror(ctypes.get_errno())
            yield
        finally:
            assert _libc.setns(here, clone_newnet) == 0
            os.close(here)
            os.close(there)

    def start(self, host, *command, **options):
        with self.inside(host):
            return subprocess.Popen([str(word) for word in command], **options)

    def run(self, host, *command, timeout=120, **options):
        with self.inside(host):
            return subprocess.run([str(word) for word in command], timeout=timeout, capture_output=True, text=True, check=False, **options)

    def udp(self, host, address, port=0):
        with self.inside(host):
            sock = socket.socket(socket.AF_INET, socket.SOCK_DGRAM)
        sock.bind((address, port))
        sock.settimeout(2)
        return sock

    def peer(self, address=PEER):
        return self.udp("peer", address)

    def client(self, server=SERVER, local=None):
        with self.inside("client"):
            return turn.Client((server, PORT), local)

    def relayd_command(self, *options, listen=(f"{SERVER}:{PORT}", f"[{SERVER6}]:{PORT}"), user="by-port", calls=("--calls", CALLS)):
        words = [RELAYD, *calls, *(["--user", user] if user else [])]
        for address in listen:
            words += ["--listen", address]
        return words + list(options)

    @contextlib.contextmanager
    def relayd(self, *options, status=0, status_file=None, **setup):
        """A fresh relayd on the relay host. It must end with this status, and if that is 0, without a word of trouble."""
        self.started += 1
        folder = self.folder / str(self.started)
        folder.mkdir()
        reports = ["--status", folder / "status"] if status_file is None else status_file
        command = self.relayd_command("--log", folder / "log", "--log-packets", *reports, *options, **setup)
        with open(folder / "errors", "w+", encoding="utf-8") as errors:
            process = self.start("relay", *command, stdout=subprocess.DEVNULL, stderr=errors)
            try:
                said = (folder / "errors").read_text
                wait_for(lambda: "\n" in said() or process.poll() is not None, "relayd's start")
                assert "listening" in said(), said()
                yield Relayd(self, process, folder)
            finally:
                if process.poll() is None:
                    process.terminate()
                ended = process.wait(10)
        assert ended == status, f"relayd ended with status {ended}: {said()}"
        assert status or said().count("\n") == 1, said()

    @contextlib.contextmanager
    def replies_lost(self):
        """What the relay sends to the client's host in here is lost on its way: a queue of no places takes it. The two have met before."""
        probe = self.client()
        probe.sock.settimeout(2)
        probe.sock.send(turn.message(turn.REFRESH, os.urandom(12), []))
        probe.sock.recv(1536)
        probe.close()
        queue = ("qdisc", "replace", "dev", "to-client", "root", "pfifo", "limit", 0)
        assert self.run("relay", "tc", *queue).returncode == 0
        try:
            yield
        finally:
            assert self.run("relay", "tc", "qdisc", "del", "dev", "to-client", "root").returncode == 0

    @contextlib.contextmanager
    def process(self, host, *command):
        """A helper process, ended at the end."""
        process = self.start(host, *command, stdout=subprocess.DEVNULL, stderr=subprocess.DEVNULL)
        try:
            yield process
        finally:
            process.terminate()
            process.wait(10)
