"""The daemon: status, signals, users, arguments, and what goes wrong."""
import os
import shutil
import signal

from cases_relay import ready, refused, second
from lab import CALLS, CLIENT, CLIENT6, HERE, PEER, PORT, RELAYD, SERVER, SERVER6, STRANGER, wait_for


def case_status(lab):
    "SIGUSR1: the status has what was accepted, what it carried, and its times follow the clock"
    with lab.relayd("--clock-offset", "200") as relayd:
        assert relayd.status().count == "0 of 64 allocations"
        client, peer = ready(lab)
        client.send(peer.getsockname(), b"12345")
        peer.recv(100)
        relayd.forward()
        client.bind(0x4001, (STRANGER, 5000))
        refused(lambda: client.bind(0x4001, peer.getsockname()), 400)
        status = relayd.status()
        own = status.of(client)
        assert status.count == "1 of 64 allocations" and own.user == 1 + client.sock.getsockname()[1] % 32
        assert own.relay_port == client.relayed[1] and own.carried == {"peers": (1, 5), "the client": (0, 0)}, status.text
        assert set(own.permissions) == {PEER, STRANGER} and own.channels[0x4001][0] == f"{STRANGER}:5000", status.text
        made, bound = own.expiry - 600, own.channels[0x4001][1] - 600
        assert 200 <= bound - made < 210 and own.permissions[PEER] - 300 - made < 10 and own.permissions[STRANGER] == bound + 300
        relayd.forward()
        own = relayd.status().of(client)
        assert set(own.permissions) == {STRANGER} and len(own.channels) == 1, "the first permission has lapsed"
        client.refresh(0)
        assert relayd.status().allocations == []


def last(relayd, client, word):
    """When the relay last accepted this of the client, by the log."""
    mark = f"client {CLIENT}:{client.sock.getsockname()[1]} "
    return second([line for line in relayd.log() if mark in line and f"{word} success" in line][-1])


def case_long_history(lab):
    "after 12,000 accepted requests, and again after the program was killed, the status has every time right, and so has the relay"
    with lab.relayd("--clock-offset", "100") as relayd:
        gone = lab.client()
        gone.allocate()
        few, (many, peer) = ready(lab)[0], ready(lab)
        gone.refresh(0)
        bound, once = [], None
        for step in range(4):
            many.bind(0x4000 + step, (PEER, 6000 + step))
            bound.append(last(relayd, many, "ChannelBind"))
            if step == 2:
                many.permit(STRANGER)
                once = last(relayd, many, "CreatePermission")
            for _ in range(3000):
                many.permit(PEER, "192.0.2.9")
            relayd.forward()
        made = last(relayd, many, "CreatePermission") + 300
        ends = [last(relayd, client, "Allocate") + 600 for client in (few, many)]
        for _ in range(2):
            status = relayd.status()
            assert [status.of(client).expiry for client in (few, many)] == ends, status.text
            assert status.of(many).permissions == {PEER: made, "192.0.2.9": made, STRANGER: once + 300}, status.text
            assert [until for _, until in status.of(many).channels.values()] == [time + 600 for time in bound], status.text
            os.kill(relayd.child(), signal.SIGKILL)
            wait_for(lambda: "it runs again, with 2 allocations" in "\n".join(relayd.written()), "the restart")
        # The new program's own table: a channel of old carries, and what has lapsed by now does not.
        peer6 = lab.udp("peer", PEER, 6003)
        many.channel(0x4003, b"by the channel of old")
        assert peer6.recvfrom(100) == (b"by the channel of old", many.relayed)
        for _ in range(2):
            relayd.forward()
        refused(lambda: few.refresh(600), 437)


def case_hello(lab):
    "the README's hello, on loopback"
    done = lab.run("relay", HERE / "hello")
    assert done.returncode == 0, done.stdout + done.stderr
    assert "turn it to the left" in done.stdout and "status 0" in done.stdout


def case_kill_signals(lab):
    "SIGTERM and SIGINT end it with status 0, its program with it, and free the ports; SIGHUP does not end it"
    for number in (signal.SIGTERM, signal.SIGINT):
        with lab.relayd() as relayd:
            child = relayd.child()
            relayd.process.send_signal(signal.SIGHUP)
            wait_for(lambda: "no users' file" in "\n".join(relayd.written()), "what SIGHUP does")
            relayd.process.send_signal(number)
            assert relayd.process.wait(1) == 0
            assert not os.path.exists(f"/proc/{child}")


def case_users(lab):
    "--user: a file of addresses, prefixes and names; those not in it get 401, and so does everybody with --user 0"
    site = lab.folder / "users"
    site.write_text(f"# the workshop\n198.51.100.0/24 3 hall\n{CLIENT} 7 the camera # on the mast\n")
    with lab.relayd(user=str(site)) as relayd:
        client = lab.client()
        client.allocate()
        refused(lab.client(SERVER6).allocate, 401)
        own = relayd.status().of(client)
        assert (own.user, own.name) == (7, "the camera")
        assert any("allocation made: user 7 (the camera), client" in line for line in relayd.log())
        assert any("nobody, refused, 401 Unauthorized: no user has this address" in line for line in relayd.log())
    with lab.relayd(user="0"):
        refused(lab.client().allocate, 401)


def case_reload(lab):
    "SIGHUP reads the users' file again, keeps the old one if the new one is bad, opens the log anew, and ends no allocation"
    site = lab.folder / "users"
    site.write_text(f"{CLIENT} 7\n")
    with lab.relayd(user=str(site)) as relayd:
        client = lab.client()
        client.allocate()
        moved = relayd.folder / "log.1"

        def hang_up(word):
            (relayd.folder / "log").rename(moved)
            relayd.process.send_signal(signal.SIGHUP)
            wait_for(lambda: (relayd.folder / "log").exists() and word in (relayd.folder / "log").read_text(), word)
        site.write_text(f"{CLIENT6} 8\n::ffff:{CLIENT} 7\n")
        hang_up("the users stay as they were")
        assert "line 2" in "\n".join(relayd.written()) and "allocation made" in moved.read_text()
        lab.client().allocate()
        site.write_text(f"{CLIENT6} 8\n")
        hang_up("was read again")
        refused(lab.client().allocate, 401)
        lab.client(SERVER6).allocate()
        assert len(relayd.status().allocations) == 3


def case_taken_port(lab):
    "a port that is taken is named, with status 1"
    for host, port in ((SERVER, 49200), (SERVER, PORT), (SERVER, 49279)):
        taken = lab.udp("relay", host, port)
        done = lab.run("relay", *lab.relayd_command(), timeout=10)
        assert done.returncode == 1 and f"{host}:{port}: Address already in use" in done.stderr, done
        taken.close()


def case_bad_arguments(lab):
    "bad arguments, and files that can't be read or written: a clear message and status 2"
    bad = lab.folder / "bad-users"
    bad.write_text("198.51.100.7\n")
    nowhere, pipe = "/no/such/folder/file", lab.folder / "pipe"
    os.mkfifo(pipe)
    for options, word in ((["--relay", "::1"], "--relay"), (["--frob"], "--frob"), (["--log", nowhere], nowhere), (["--listen"], "needs a value"),
                          (["--status", nowhere], nowhere), (["--metrics", nowhere], nowhere), (["--clock-offset=+5"], "+5"),
                          (["--status", "/dev/null"], "not a file"), (["--log", pipe], str(pipe))):
        done = lab.run("relay", *lab.relayd_command(*options), timeout=10)
        assert done.returncode == 2 and word in done.stderr, done
    for user, word in (("33", "33"), ("/no/such/users", "/no/such/users"), (str(bad), "line 1"), ("+3", "+3")):
        done = lab.run("relay", *lab.relayd_command(user=user), timeout=10)
        assert done.returncode == 2 and word in done.stderr, done
        done = lab.run("relay", *lab.relayd_command("--check", user=user), timeout=10)
        assert done.returncode == 2 and word in done.stderr, done
    for program in ("/no/such/calls", "/bin/cat", "/bin/true"):
        command = lab.relayd_command()
        command[2] = program
        done = lab.run("relay", *command, timeout=20)
        assert done.returncode == 2 and program in done.stderr, done


def case_check_and_version(lab):
    "--check looks at options, users and denied prefixes and binds nothing; --version; --listen=ADDRESS:PORT"
    with lab.relayd():
        done = lab.run("relay", RELAYD, "--check", f"--listen={SERVER}:{PORT}", "--user=3", timeout=10)
        assert done.returncode == 0 and "good" in done.stdout, done
    done = lab.run("relay", RELAYD, "--version", timeout=10)
    assert done.returncode == 0 and done.stdout.startswith("relayd 0."), done


def whole_tree():
    """Lines whose prefixes take 511 nodes."""
    return "".join(f"{first}.0.0.0/8\n" for first in range(256))


def case_denied_lists(lab):
    "--check says how many prefixes are denied and how many of 512 nodes they take; a bad list is told with its line, there and at the start"
    listed = lab.folder / "list"
    run = lambda *options: lab.run("relay", *lab.relayd_command("--denied", listed, *options), timeout=10)
    full = whole_tree() + "0.0.0.0/9\n"
    for text, options, word in (("# none\n", [], "denied prefixes: 3 (3 by default, 0 of"), ("10.0.0.0/8\n", [], f"4 (3 by default, 1 of {listed}), 36 of 512 nodes"),
                                (full, ["--allow-local-peers"], f"257 (257 of {listed}), 512 of 512 nodes"), ("", ["--allow-local-peers"], "denied prefixes: none"),
                                (f"{SERVER}\n", [], f"its own address {SERVER} is denied by {SERVER}, line 1 of {listed}")):
        listed.write_text(text)
        done = run("--check", *options)
        assert done.returncode == 0 and word in done.stdout, done
    for text, word in (("10.0.0.0/8\n\n10.1.2.3/8\n", "line 3: 10.1.2.3/8 has bits behind its prefix: write 10.0.0.0/8, or 10.1.2.3 for that address alone"),
                       ("10.0.0.0/33\n", "line 1: '/33' is not a length from /0 to /32"), ("# x\nthe-press\n", "line 2: 'the-press' is not an IP address: write one as"),
                       ("fd00::/8\n", "line 1: fd00::/8 is IPv6"), ("10.0.0.0/8 works\n", "line 1: '10.0.0.0/8 works' is more than a prefix"),
                       (full + "0.128.0.0/9\n0.64.0.0/10\n", "line 258: 0.128.0.0/9 does not fit: the list may take 512 nodes")):
        listed.write_text(text)
        for options in (["--allow-local-peers"], ["--allow-local-peers", "--check"]):
            done = run(*options)
            assert done.returncode == 2 and f"{listed}, {word}" in done.stderr, done
    assert "the whole list would take 514" in run("--allow-local-peers").stderr
    listed.unlink()
    done = run()
    assert done.returncode == 2 and f"cannot read denied prefixes from {listed}" in done.stderr, done


def case_denied_stays(lab):
    "SIGHUP leaves the denied prefixes as they were at the start, and says so where their file has changed or is bad"
    listed = lab.folder / "stays"
    listed.write_text(f"{STRANGER}\n")
    with lab.relayd("--denied", listed) as relayd:
        client = lab.client()
        client.allocate()
        stays = "the denied prefixes stay as they were, until relayd is restarted"
        for text, word in ((f"{STRANGER} # the same\n", "there is no users' file to read again"), (f"{PEER}\n", f"{stays}: {listed} has changed"),
                           ("x\n", f"{stays}: {listed}, line 1: 'x' is not an IP address")):
            listed.write_text(text)
            relayd.process.send_signal(signal.SIGHUP)
            wait_for(lambda: word in "\n".join(relayd.written()), word)
        assert "\n".join(relayd.log()).count(stays) == 2
        client.permit(PEER)
        refused(lambda: client.permit(STRANGER), 403)


def case_calls_and_its_list(lab):
    "calls is started with a list, or with none where nothing is denied; one that refuses it, takes none, or is too old is told, with status 2"
    script, count = lab.folder / "listed-calls", lab.folder / "arguments"

    def program(body):
        script.write_text(f"#!/bin/sh\n{body}\n")
        script.chmod(0o755)
        return ("--calls", script)
    for options, words in ((["--allow-local-peers"], "0\n"), ([], "1\n")):
        with lab.relayd(*options, calls=program(f'echo $# >{count}; exec {CALLS} "$@"')):
            assert count.read_text() == words
    for body, word in (("printf 'R\\t9\\n'", "refuses the list of denied prefixes: 9, a bad line"),
                       ("printf 'R\\t10\\n'", "refuses the list of denied prefixes: 10, more nodes than 512"), ("echo E", "cannot read the list of denied prefixes"),
                       (f"exec {CALLS}", "takes no list of denied prefixes: it does not deny 127.0.0.0"),
                       ("while read line; do echo D; done", "is too old: it does not say why it drops a datagram")):
        done = lab.run("relay", *lab.relayd_command(calls=program(body)), timeout=10)
        assert done.returncode == 2 and f"{script} {word}" in done.stderr, done


def case_where_calls_is(lab):
    "calls is looked for beside relayd, and never in the current directory"
    here, beside = lab.folder / "here", lab.folder / "beside"
    (here / "target/bin").mkdir(parents=True)
    shutil.copy(CALLS, here / "target/bin/calls")
    done = lab.run("relay", RELAYD, cwd=here, timeout=10)
    assert done.returncode == 2 and "no calls beside relayd" in done.stderr, done
    beside.mkdir()
    shutil.copy(RELAYD, beside / "relayd")
    shutil.copy(CALLS, beside / "calls")
    process = lab.start("relay", beside / "relayd", stderr=-1, text=True)
    try:
        assert "listening on 127.0.0.1:3478" in process.stderr.readline()
    finally:
        process.terminate()
        assert process.wait(5) == 0


CASES = [case_status, case_long_history, case_hello, case_kill_signals, case_users, case_reload, case_taken_port, case_bad_arguments,
         case_check_and_version, case_denied_lists, case_denied_stays, case_calls_and_its_list, case_where_calls_is]
