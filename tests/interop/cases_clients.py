"""Real clients, not written here: aioice's, and coturn's turnutils_uclient; with coturn's server as a control."""
import contextlib
import os
import re
import subprocess
import time

import lab as names
from lab import HERE, PEER, SERVER, SERVER6, wait_for

ECHO_PORT = 3480
CONTROL_PORT = 3479


@contextlib.contextmanager
def echo(lab):
    """turnutils_peer on the peer host: sends back all that comes."""
    with lab.process("peer", "turnutils_peer", "-L", PEER, "-p", ECHO_PORT):
        probe = lab.udp("peer", PEER)
        probe.settimeout(0.05)

        def answers():
            probe.sendto(b"there?", (PEER, ECHO_PORT))
            try:
                return probe.recv(100)
            except OSError:
                return None
        wait_for(answers, "turnutils_peer's start")
        yield


@contextlib.contextmanager
def coturn(lab):
    """coturn's own server on the relay host, on another port."""
    command = ["turnserver", "-n", "--no-auth", "--no-cli", "--no-tls", "--no-dtls", "--no-tcp", "-L", SERVER, "-L", SERVER6, "-E", SERVER,
               "-p", CONTROL_PORT, "--min-port", 50000, "--max-port", 50999, "--log-file", lab.folder / "coturn.log", "--simple-log",
               "--pidfile", lab.folder / "coturn.pid", "--db", lab.folder / "coturn.db"]
    with lab.process("relay", *command):
        bound = lambda: lab.run("relay", "ss", "-Hlun", f"sport = :{CONTROL_PORT}").stdout.count("\n") >= 2
        wait_for(bound, "coturn's start")
        time.sleep(0.5)
        yield


def aioice(lab, server, port, *credentials):
    done = lab.run("client", "/usr/bin/python3", HERE / "aioice_client.py", server, port, PEER, ECHO_PORT, *credentials)
    assert done.returncode == 0, done.stderr
    return done.stdout.split()


def fixed_random(lab):
    library = lab.folder / "fixed_random.so"
    if not library.exists():
        subprocess.run(["gcc", "-O2", "-shared", "-fPIC", "-o", library, HERE / "fixed_random.c"], check=True)
    return library


def uclient(lab, server, port, *flags):
    """4 clients, 50 messages each: all must come back."""
    command = ["turnutils_uclient", "-c", *flags, "-m", 4, "-n", 50, "-z", 5, "-l", 171, "-e", PEER, "-r", ECHO_PORT, "-p", port, server]
    done = lab.run("client", *command, env={**os.environ, "LD_PRELOAD": str(fixed_random(lab))})
    said = done.stdout + done.stderr
    assert done.returncode == 0, said[-2000:]
    assert "tot_send_msgs=200, tot_recv_msgs=200" in said, said[-2000:]
    assert re.search(r"Total lost packets 0 \(", said), said[-2000:]


def case_aioice(lab):
    "aioice: allocate, channel, data both ways, refresh to 0"
    with echo(lab), lab.relayd() as relayd:
        host, port = aioice(lab, SERVER, names.PORT)
        assert host == SERVER and int(port) in names.RELAY_PORTS, (host, port)
        assert relayd.status().allocations == [], "refresh to 0 left an allocation"
        log = "\n".join(relayd.log())
        for word in ("Allocate success", "ChannelBind success", "channel 0x4000", "to peer", "Refresh success"):
            assert word in log, word


def case_aioice_lost_reply(lab):
    "aioice, the first reply to its Allocate lost: it sends the same again and gets the allocation that it has"
    with echo(lab), lab.relayd() as relayd:
        with lab.replies_lost():
            command = ("/usr/bin/python3", HERE / "aioice_client.py", SERVER, names.PORT, PEER, ECHO_PORT)
            client = lab.start("client", *command, stdout=subprocess.PIPE, stderr=subprocess.PIPE, text=True)
            made = wait_for(lambda: re.search(r"allocation made: .* relay port (\d+), for 10:00", "\n".join(relayd.log())), "the allocation")
        said, trouble = client.communicate(timeout=30)
        assert client.returncode == 0, trouble
        assert said.split() == [SERVER, made[1]], (said, made[0])
        log = "\n".join(relayd.log())
        assert log.count("allocation made: ") == 1 and not re.search("Allocate.* 437", log), log
        again = re.findall(r"allocation told again: .* relay port (\d+), (\S+) left", log)
        assert again and all(port == made[1] and names.seconds(left) >= 590 for port, left in again), log
        assert relayd.status().allocations == [], "refresh to 0 left an allocation"


def case_aioice_ipv6(lab):
    "aioice from an IPv6 client"
    with echo(lab), lab.relayd() as relayd:
        assert aioice(lab, SERVER6, names.PORT)[0] == SERVER
        assert relayd.status().allocations == []


def case_aioice_another_address(lab):
    "aioice with --relay 192.0.2.1, whose address relayd writes into the reply"
    with echo(lab), lab.relayd("--relay", names.INNER):
        assert aioice(lab, SERVER, names.PORT)[0] == names.INNER


def uclient_case(server, what, *flags):
    def case(lab):
        with echo(lab), lab.relayd() as relayd:
            uclient(lab, server, names.PORT, *flags)
            log = "\n".join(relayd.log())
            assert (", Data" in log) == ("-s" in flags) and (", channel" in log) == ("-s" not in flags)
            assert " error " not in log and "refused" not in log and "not sent" not in log, log[:2000]
            assert relayd.status().drops("could not be sent") == 0
    case.__doc__ = f"turnutils_uclient, {what}: no packet lost"
    return case


def control_case(server, what, *flags):
    def case(lab):
        with echo(lab), coturn(lab):
            uclient(lab, server, CONTROL_PORT, *flags)
    case.__doc__ = f"control: the same against coturn, {what}"
    return case


RUNS = [(SERVER, "channels, IPv4 client"), (SERVER, "Send and Data, IPv4 client", "-s"),
        (SERVER6, "channels, IPv6 client"), (SERVER6, "Send and Data, IPv6 client", "-s")]


def case_control_aioice(lab):
    "control: aioice against coturn"
    with echo(lab), coturn(lab):
        assert aioice(lab, SERVER, CONTROL_PORT)[0] == SERVER


CASES = [case_aioice, case_aioice_lost_reply, case_aioice_ipv6, case_aioice_another_address, *(uclient_case(*run) for run in RUNS), case_control_aioice,
         *(control_case(*run) for run in RUNS)]
