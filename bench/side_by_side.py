#!/usr/bin/env python3
"""CPU time for each relayed packet, and how long one takes: relayd, coturn and a bare UDP forwarder, interleaved in one run.

    bench/side_by_side.py [ROUNDS] [MILLISECONDS]     needs root, cargo's rustc, coturn, make relayd; CALLS=PATH names calls

Each round takes every case through the three relays in turn: 160 and 1,200 bytes, up and down, paced (5,000 and 20,000 packets a second
over 64 allocations) and saturated (as fast as one core sends, over 1 and 64 allocations). The relay runs on one core and the load on the
other. What is told is the CPU time that the kernel counts for the relay's threads (/proc/PID/task/*/schedstat), divided by the packets
that it passed on: other load on the machine takes the relay's time away, but is not counted as its own. Paced, the time from sender to
receiver is told too, which other load does lengthen. Prints tables for docs/PERFORMANCE.md, with medians over the rounds; a ratio is the
median of those of the same round.
"""
import collections
import os
import pathlib
import signal
import statistics
import subprocess
import sys
import tempfile
import time

ROOT = pathlib.Path(__file__).resolve().parents[1]
BUILT = ROOT / "bench/target"
CALLS = ROOT / os.environ.get("CALLS", "target/bin/calls")
HOST, PEER = "203.0.113.5", "203.0.113.5:7000"
RELAYS = ("bare", "coturn", "relayd")
Case = collections.namedtuple("Case", "pace direction size count")
PACED = [Case(pace, direction, size, 64) for pace in (5000, 20000) for direction in ("up", "down") for size in (160, 1200)]
SATURATED = [Case(0, direction, size, count) for direction in ("up", "down") for size in (160, 1200) for count in (1, 64)]
FLOOD = {"coturn": 50000, "relayd": 49152}
LOAD_CORE, RELAY_CORE = {0}, {max(os.sched_getaffinity(0))}


def alone():
    """Runs this script again in a network namespace of its own, which ends with it."""
    if os.environ.get("SIDE_BY_SIDE") != "alone":
        os.environ["SIDE_BY_SIDE"] = "alone"
        os.execvp("unshare", ["unshare", "--net", sys.executable, __file__, *sys.argv[1:]])
    for words in (["link", "set", "lo", "up"], ["addr", "add", f"{HOST}/32", "dev", "lo"]):
        subprocess.run(["ip", *words], check=True)


def build():
    BUILT.mkdir(exist_ok=True)
    for name in ("load", "forwarder"):
        subprocess.run(["rustc", "-O", "--edition", "2024", "-o", BUILT / name, ROOT / f"bench/{name}.rs"], check=True)


STARTED = []


def start(*command):
    pin = lambda: os.sched_setaffinity(0, RELAY_CORE)
    words = [str(word) for word in command]
    STARTED.append(subprocess.Popen(words, preexec_fn=pin, stdout=subprocess.DEVNULL, stderr=subprocess.DEVNULL))
    return STARTED[-1]


def end_all():
    for process in STARTED:
        process.terminate()
        process.wait(10)


def pids(process):
    children = pathlib.Path(f"/proc/{process.pid}/task/{process.pid}/children").read_text().split()
    return [str(process.pid), *children]


def start_all(folder):
    """Each relay's kind for the load, its server port and its process."""
    turnserver = ["turnserver", "-n", "--no-auth", "--no-cli", "--no-tls", "--no-dtls", "--no-tcp", "-L", HOST, "-E", HOST, "-p", 3479,
                  "-m", 1, "--min-port", 50000, "--max-port", 50999, "--log-file", folder / "log", "--simple-log",
                  "--pidfile", folder / "pid", "--db", folder / "db"]
    relayd = ROOT / "host/relayd/target/release/relayd"
    relays = {
        "bare": ("bare", 3480, start(BUILT / "forwarder", f"{HOST}:3480", PEER, 64)),
        "coturn": ("turn", 3479, start(*turnserver)),
        "relayd": ("turn", 3478, start(relayd, "--calls", CALLS, "--listen", f"{HOST}:3478", "--user", "by-port")),
    }
    time.sleep(2)
    for name, (_, _, process) in relays.items():
        if process.poll() is not None:
            sys.exit(f"side_by_side: {name} did not start")
    return relays


Sample = collections.namedtuple("Sample", "sent passed median late nanoseconds")


def measure(relay, case, milliseconds):
    kind, port, process = relay
    command = [BUILT / "load", kind, f"{HOST}:{port}", PEER, case.count, case.size, case.direction, milliseconds, case.pace, *pids(process)]
    pin = lambda: os.sched_setaffinity(0, LOAD_CORE)
    done = subprocess.run([str(word) for word in command], preexec_fn=pin, capture_output=True, text=True, check=False)
    if done.returncode != 0:
        sys.exit(f"side_by_side: {' '.join(map(str, command))}: {done.stderr}")
    sent, passed, median, late, *spent = map(int, done.stdout.split())
    return Sample(sent, passed, median, late, spent)


def flood(relay, first, milliseconds):
    """The share of a core that a flood of 20,000 packets a second costs at 128 relay ports, 64 of them with an allocation."""
    sample = measure(relay, Case(20000, first, 160, 64), milliseconds)
    return 100 * sum(sample.nanoseconds) / (milliseconds * 1e6)


def each(samples):
    return [sum(sample.nanoseconds) / sample.passed for sample in samples]


def microseconds(nanoseconds):
    return f"{nanoseconds / 1000:.1f}"


def row(case, found):
    cells = [{"up": "client to peer", "down": "peer to client"}[case.direction], f"{case.size:,}", f"{case.pace:,}" if case.pace else str(case.count)]
    costs = {name: each(samples) for name, samples in found.items()}
    cells += [microseconds(statistics.median(cost)) for cost in costs.values()]
    for other in ("bare", "coturn"):
        cells.append(f"{statistics.median(ours / theirs for ours, theirs in zip(costs['relayd'], costs[other])):.1f}")
    for samples in found.values():
        if case.pace:
            middle = [statistics.median(getattr(sample, field) for sample in samples) for field in ("median", "late")]
            cells.append(" / ".join(map(microseconds, middle)))
        sent, passed = sum(sample.sent for sample in samples), sum(sample.passed for sample in samples)
        cells.append(f"{100 * (sent - passed) / sent:.0f}%")
    return "| " + " | ".join(cells) + " |"


def table(results, cases, third, others):
    print(f"| direction | bytes | {third} | bare µs | coturn µs | relayd µs | relayd : bare | relayd : coturn | " + " | ".join(others) + " |")
    print("|---" * (8 + sum(other.count("|") + 1 for other in others)) + "|")
    for case in cases:
        print(row(case, results[case]))


def main(rounds=7, milliseconds=500):
    alone()
    build()
    results = {case: {name: [] for name in RELAYS} for case in PACED + SATURATED}
    floods = {name: [] for name in FLOOD}
    loads = [os.getloadavg()[0]]
    signal.signal(signal.SIGTERM, lambda *_: sys.exit("side_by_side: ended by a signal"))
    with tempfile.TemporaryDirectory() as folder:
        try:
            relays = start_all(pathlib.Path(folder))
            for place in range(rounds):
                for case in results:
                    for name, relay in relays.items():
                        results[case][name].append(measure(relay, case, milliseconds))
                for name, first in FLOOD.items():
                    floods[name].append(flood(relays[name], first, milliseconds))
                loads.append(os.getloadavg()[0])
                print(f"round {place + 1} of {rounds}", file=sys.stderr)
        finally:
            end_all()
    table(results, PACED, "packets/s", [f"{name} p50 / p99 µs | lost" for name in RELAYS])
    print()
    table(results, SATURATED, "allocations", [f"{name} lost" for name in RELAYS])
    costs = ", ".join(f"{name} {statistics.median(shares):.1f}%" for name, shares in floods.items())
    print(f"\nA flood of 20,000 packets a second at 128 relay ports, without permission, takes of one core: {costs}.")
    relayd = [sample for found in results.values() for sample in found["relayd"]]
    share = sum(sample.nanoseconds[0] for sample in relayd) / sum(sum(sample.nanoseconds) for sample in relayd)
    print(f"\n{rounds} rounds of {milliseconds} ms. Of relayd's time {100 * share:.0f}% is its own and {100 - 100 * share:.0f}% is calls'.")
    print(f"Load averages of the machine at the start and after each round: {', '.join(f'{load:.1f}' for load in loads)}.")


if __name__ == "__main__":
    main(*map(int, sys.argv[1:]))
