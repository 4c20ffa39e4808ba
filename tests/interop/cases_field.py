"""What a relay meets in the field: bursts, floods, outputs that nobody reads, a program that ends or hangs, signals, and people's questions."""
import os
import re
import shutil
import signal
import socket
import subprocess
import time

import turn
from cases_relay import gone, nothing, ready, refused
from lab import CALLS, CLIENT, INNER, NEVER, PEER, RELAY_PORTS, SERVER, STRANGER, STRANGERS, Status, wait_for

BURST = 500


def roomy(sock):
    """A receiver that holds a whole burst by itself."""
    receive_buffer_by_force = 33
    sock.setsockopt(socket.SOL_SOCKET, receive_buffer_by_force, 8 << 20)


def arrivals(sock, count):
    """How many of `count` datagrams come."""
    sock.settimeout(1)
    for place in range(count):
        try:
            sock.recv(65536)
        except socket.timeout:
            return place
    return count


def case_burst(lab):
    "bursts of 500 packets of 1,200 bytes, either way: none is lost, and the log has the buffers that were granted"
    with lab.relayd() as relayd:
        client, peer = ready(lab)
        client.bind(0x4000, peer.getsockname())
        roomy(peer)
        roomy(client.sock)
        for _ in range(BURST):
            client.channel(0x4000, b"x" * 1200)
        assert (came := arrivals(peer, BURST)) == BURST, came
        for _ in range(BURST):
            peer.sendto(b"x" * 1200, client.relayed)
        assert (came := arrivals(client.sock, BURST)) == BURST, came
        granted = re.search(r"receive buffers of (\d+) bytes", "\n".join(relayd.log()))
        assert int(granted[1]) == 4 << 20, granted[0]
        status = relayd.status()
        assert status.of(client).carried == {"peers": (BURST, BURST * 1200), "the client": (BURST, BURST * 1200)}, status.text


def case_flood(lab):
    "a flood at the 128 relay ports without permission is dropped by the kernel and counted, and calls go on beside it"
    with lab.relayd() as relayd:
        client, peer = ready(lab)
        stranger = lab.peer(STRANGER)

        def flood(sent):
            for _ in range(40):
                for port in RELAY_PORTS:
                    stranger.sendto(b"flood", (SERVER, port))
            client.send(peer.getsockname(), b"still there")
            assert peer.recv(65536) == b"still there"
            return gone(relayd, NEVER, sent)
        # Of what comes to the one port with an allocation, the relay sees the first and what was queued then; after that, nothing.
        at_relay, at_ports = flood(40 * 128)
        assert STRANGERS <= at_relay <= 40, (at_relay, at_ports)
        assert flood(80 * 128) == (at_relay, at_ports + 40 * 128), "the flood came as far as the relay"
        nothing(client, 0.05)


class Unread:
    """A relayd whose standard output and standard error nobody reads."""

    def __init__(self, lab, *options):
        self.process = lab.start("relay", *lab.relayd_command("--log", "-", *options), stdout=subprocess.PIPE, stderr=subprocess.PIPE)
        first = self.process.stderr.readline()
        assert b"listening" in first, first

    def __enter__(self):
        return self

    def __exit__(self, *_):
        if self.process.poll() is None:
            self.process.kill()
        self.process.wait(5)
        self.process.stdout.close()
        self.process.stderr.close()


def carries(client, peer):
    client.send(peer.getsockname(), b"through")
    assert peer.recv(65536) == b"through"


def case_unread_log(lab):
    "a --log - that nobody reads stops nothing: calls go on, the lines lost are told when somebody reads, SIGTERM ends it in a second"
    with Unread(lab, "--log-packets") as relayd:
        client, peer = ready(lab)
        for _ in range(8000):
            client.sock.send(b"\x40\x01\0\0")
        carries(client, peer)
        text = b""
        os.set_blocking(relayd.process.stderr.fileno(), False)

        def told():
            nonlocal text
            client.refresh(600)
            text += relayd.process.stderr.read() or b""
            return b" lines lost\n" in text
        wait_for(told, "the count of lost lines")
        assert int(re.search(rb"(\d+) lines lost", text)[1]) > 1000
    with Unread(lab, "--log-packets") as relayd:
        client, peer = ready(lab)
        for _ in range(4000):
            client.sock.send(b"\x40\x01\0\0")
        carries(client, peer)
        relayd.process.terminate()
        assert relayd.process.wait(1) == 0


def case_unread_output(lab):
    "a standard output that nobody reads stops nothing: 2,000 listings, then calls and SIGTERM as ever"
    with Unread(lab) as relayd:
        clients = [ready(lab) for _ in range(8)]
        for step in range(2000):
            relayd.process.send_signal(signal.SIGUSR1)
            if step % 50 == 0:
                carries(*clients[step % 8])
        carries(*clients[0])
        relayd.process.terminate()
        assert relayd.process.wait(1) == 0


def runs_again(relayd, times=1):
    wait_for(lambda: "\n".join(relayd.written()).count("it runs again") == times, "the restart")


def case_program_killed(lab):
    "a killed program is started again, idle or not: allocations, permissions, channels and data go on, the file replaced or not"
    own_calls = lab.folder / "calls"
    shutil.copy(CALLS, own_calls)
    with lab.relayd("--calls", own_calls, calls=()) as relayd:
        client, peer = lab.client(), lab.peer()
        client.allocate()
        first = client.request_sent
        client.bind(0x4000, peer.getsockname())
        port = client.relayed[1]
        # Another file in its place is not started before relayd is.
        own_calls.unlink()
        own_calls.write_text("#!/bin/sh\nexit 1\n")
        own_calls.chmod(0o755)
        for times in (1, 2, 3):
            os.kill(relayd.child(), signal.SIGKILL)
            if times == 1:
                runs_again(relayd)
            client.channel(0x4000, b"after it")
            assert peer.recvfrom(65536) == (b"after it", client.relayed)
            peer.sendto(b"and back", client.relayed)
            assert client.receive() == ("channel", 0x4000, b"and back")
        assert turn.read_address(client.ask(first)[turn.RELAYED], client.transaction) == client.relayed
        assert client.refresh(600) == 600 and client.relayed[1] == port
        refused(client.allocate, 437)
        assert relayd.status().totals[-1].endswith("after the first: 3"), relayd.status().text
        assert "\n".join(relayd.written()).count("calls has ended (signal: 9") == 3


def case_denied_after_a_restart(lab):
    "a program that is started again has the denied prefixes again, whatever became of their file, and what it had permitted"
    listed = lab.folder / "denied-again"
    listed.write_text(f"{STRANGER}\n")
    with lab.relayd("--denied", listed) as relayd:
        client, peer = ready(lab)
        listed.unlink()
        for times in (1, 2):
            os.kill(relayd.child(), signal.SIGKILL)
            runs_again(relayd, times)
            refused(lambda: client.permit(STRANGER), 403)
            refused(lambda: client.bind(0x4000, (STRANGER, 5000)), 403)
            refused(lambda: client.permit("127.0.0.1"), 403)
            carries(client, peer)
        assert set(relayd.status().of(client).permissions) == {PEER}


def case_program_killed_at_work(lab):
    "the program is killed amid data and requests, and amid a burst: every request is answered, and every packet comes once, in order"
    with lab.relayd() as relayd:
        client, peer = ready(lab)
        roomy(peer)
        sent = 0
        for step in range(300):
            if step % 100 == 50:
                os.kill(relayd.child(), signal.SIGKILL)
            client.send(peer.getsockname(), b"%d" % step)
            sent += 1
            client.permit(PEER)
        assert [int(peer.recv(100)) for _ in range(sent)] == list(range(sent))
        for step in range(BURST):
            if step == BURST // 2:
                os.kill(relayd.child(), signal.SIGKILL)
            client.send(peer.getsockname(), b"%d" % step)
        assert [int(peer.recv(100)) for _ in range(BURST)] == list(range(BURST))
        nothing(peer)


def case_program_fails_for_good(lab):
    "a program that ends at every start is given up with status 1, and relayd says why"
    script = lab.folder / "short-lived"
    script.write_text(f"#!/bin/sh\nread line; printf 'D\\tother\\n'; [ -e {lab.folder}/broken ] && exit 3; exec {CALLS} \"$@\"\n")
    script.chmod(0o755)
    (lab.folder / "broken").unlink(missing_ok=True)
    with lab.relayd("--calls", script, calls=(), status=1) as relayd:
        client, _ = ready(lab)
        (lab.folder / "broken").touch()
        os.kill(relayd.child(), signal.SIGKILL)
        assert relayd.process.wait(20) == 1
        assert "times before in 30 seconds" in (relayd.folder / "errors").read_text()
        client.close()


def case_program_hangs(lab):
    "a program that hangs is given up after 3 seconds, whatever signals come meanwhile, and calls go on with a new one"
    with lab.relayd() as relayd:
        client, peer = ready(lab)
        os.kill(relayd.child(), signal.SIGSTOP)
        client.send(peer.getsockname(), b"late")
        peer.settimeout(0.05)
        end, got = time.monotonic() + 9, None
        while got is None and time.monotonic() < end:
            relayd.process.send_signal(signal.SIGUSR1)
            try:
                got = peer.recv(100)
            except socket.timeout:
                pass
        assert got == b"late", "nothing in 9 seconds"
        assert "does not answer" in "\n".join(relayd.log())
        carries(client, peer)


def case_ends_while_it_hangs(lab):
    "SIGTERM ends relayd within a second with status 0, even while its program hangs and other signals come"
    with lab.relayd() as relayd:
        client, peer = ready(lab)
        child = relayd.child()
        os.kill(child, signal.SIGSTOP)
        client.send(peer.getsockname(), b"never")
        time.sleep(0.1)
        for number in (signal.SIGUSR1, signal.SIGHUP, signal.SIGUSR2) * 50:
            relayd.process.send_signal(number)
        relayd.process.terminate()
        assert relayd.process.wait(1) == 0
        assert not os.path.exists(f"/proc/{child}")


def case_signals(lab):
    "SIGTERM is never lost behind a thousand others; SIGUSR2 without --clock-offset is refused in the log"
    with lab.relayd() as relayd:
        relayd.process.send_signal(signal.SIGUSR2)
        wait_for(lambda: "SIGUSR2 is refused: there is no --clock-offset" in "\n".join(relayd.written()), "the refusal")
        for _ in range(500):
            relayd.process.send_signal(signal.SIGUSR1)
            relayd.process.send_signal(signal.SIGHUP)
        relayd.process.terminate()
        assert relayd.process.wait(1) == 0


def case_events(lab):
    "the log has events with the time of day, user, client and relay port; refusals have their reason, repeated ones a count"
    with lab.relayd("--clock-offset", "70", "--relay", INNER) as relayd:
        client = lab.client(local=(CLIENT, 20002))
        client.allocate()
        client.permit(PEER)
        client.bind(0x4000, (STRANGER, 5000))
        client.bind(0x4000, (STRANGER, 5000))
        client.refresh(900)
        for _ in range(5):
            refused(client.allocate, 437)
        even_port = turn.attribute(0x0018, b"\0\0\0\0")
        refused(lambda: lab.client().request(turn.ALLOCATE, even_port), 420)
        others = [lab.client(local=(CLIENT, 20002 + 32 * place)) for place in range(1, 9)]
        for other in others[:7]:
            other.allocate()
        refused(others[7].allocate, 486)
        relayd.forward()
        others[0].refresh(0)
        log = "\n".join(line for line in relayd.events())
        who = f"user 3, client {CLIENT}:20002, relay port {client.relayed[1]}"
        for word in (f"allocation made: {who}, for 10:00", f"permission made: {who}, peer {PEER}", f"channel made: {who}, channel 0x4000, peer {STRANGER}:5000",
                     f"allocation refreshed: {who}, for 15:00", f"437 Allocation Mismatch: it has relay port {client.relayed[1]}\n",
                     "420 Unknown Attribute: 0x0018 EVEN-PORT", "486 Allocation Quota Reached: user 3 has 8", "; 4 times more", "allocation ended, given back: user 3"):
            assert log.count(word) == 1, (word, log)
        assert all(re.match(r"\d{4}-\d\d-\d\dT\d\d:\d\d:\d\dZ ", line) for line in log.splitlines()), log
        for _ in range(9):
            relayd.forward()
        wait_for(lambda: "\n".join(relayd.written()).count("allocation ended, lapsed: user 3") == 6, "six ends")
        status = relayd.status()
        assert any("486" in line for line in status.refusals) and any("(5 times)" in line for line in status.refusals), status.text


def case_events_by_default(lab):
    "without --log-packets the log has no line for a datagram, and nothing for a senseless one"
    log = lab.folder / "events"
    command = lab.relayd_command("--log", log)
    process = lab.start("relay", *command, stderr=subprocess.DEVNULL)
    try:
        wait_for(lambda: log.exists() and "listening" in log.read_text(), "the start")
        client, peer = ready(lab)
        for _ in range(100):
            client.sock.send(b"\xff")
        carries(client, peer)
        refused(client.allocate, 437)
        # A reply may be out before its line is.
        wait_for(lambda: "refused" in log.read_text(), "the refusal's line")
        words = [line.split(" ", 1)[1] for line in log.read_text().splitlines()]
        assert [line.split(":")[0].split(",")[0] for line in words[1:4]] == ["denied prefixes", "allocation made", "permission made"], words
        assert len(words) == 5 and "refused, 437" in words[4], words
    finally:
        process.terminate()
        assert process.wait(2) == 0


def metrics(relayd):
    relayd.status()
    return dict(line.rsplit(" ", 1) for line in (relayd.folder / "metrics").read_text().splitlines() if not line.startswith("#"))


def case_reports(lab):
    "--status and --metrics are rewritten every few seconds without being asked, whole, and say the same"
    folder = lab.folder / "reports"
    folder.mkdir()
    with lab.relayd("--metrics", folder / "metrics", "--status", folder / "status", status_file=()) as relayd:
        relayd.folder = folder
        first = Status((folder / "status").read_text())
        assert first.count == "0 of 64 allocations"
        client, peer = ready(lab)
        carries(client, peer)
        carries(client, peer)
        client.sock.send(b"\xff")
        wait_for(lambda: "1 of 64 allocations" in (folder / "status").read_text(), "the next status", 8)
        status, found = relayd.status(), metrics(relayd)
        own = status.of(client)
        port = f'relay_port="{own.relay_port}"'
        of_own = lambda name, more="": next(int(value) for key, value in found.items() if key.startswith(name) and port in key and more in key)
        assert found["relayd_allocations"] == "1" and found["relayd_allocations_limit"] == "64"
        assert of_own("relayd_allocation_packets_total", "to_peer") == own.carried["peers"][0] == 2
        assert of_own("relayd_allocation_bytes_total", "to_peer") == own.carried["peers"][1] == 14
        assert 590 < of_own("relayd_allocation_seconds_left") <= 600 and of_own("relayd_allocation_permissions") == 1
        assert found['relayd_dropped_total{cause="senseless"}'] == "1" and status.drops("neither STUN") == 1
        names = [line.split()[2] for line in (folder / "metrics").read_text().splitlines() if line.startswith("# TYPE")]
        assert len(names) == len(set(names)) and all(any(key.split("{")[0] == name for name in names) for key in found)
        assert sorted(path.name for path in folder.iterdir()) == ["metrics", "status"], "a file was left over"


def case_local_peers(lab):
    "by default peers on the relay's loopback and links are denied, the relay's own address is not; none is with --allow-local-peers or --relay 127.0.0.1"
    hidden = lab.udp("relay", "127.0.0.1")
    with lab.relayd() as relayd:
        client = lab.client()
        client.allocate()
        for host in ("127.0.0.1", "127.8.8.8", "0.0.0.0", "169.254.169.254"):
            refused(lambda: client.permit(PEER, host), 403)
            refused(lambda: client.bind(0x4000, (host, 9)), 403)
        client.send(hidden.getsockname(), b"to the host itself")
        nothing(hidden)
        client.permit(SERVER)
        assert set(relayd.status().of(client).permissions) == {SERVER}
        assert "403 Forbidden: peer 169.254.169.254 is denied by 169.254.0.0/16, a default of relayd" in "\n".join(relayd.log())
        assert "denied prefixes: 3 (3 by default), 32 of 512 nodes" in relayd.status().text
    for options in (["--allow-local-peers"], ["--relay", "127.0.0.1"]):
        with lab.relayd(*options) as relayd:
            client = lab.client()
            client.allocate()
            client.permit("127.0.0.1", "169.254.169.254", "0.0.0.0")
            assert "denied prefixes: none" in relayd.status().text
            hidden.settimeout(2)
            client.send(hidden.getsockname(), b"in a test")
            assert hidden.recv(100) == b"in a test"


CASES = [case_burst, case_flood, case_unread_log, case_unread_output, case_program_killed, case_denied_after_a_restart, case_program_killed_at_work,
         case_program_fails_for_good, case_program_hangs, case_ends_while_it_hangs, case_signals, case_events, case_events_by_default, case_reports, case_local_peers]
