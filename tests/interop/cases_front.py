"""The front end: clients with credentials, and those that have wrong ones."""
import contextlib
import os
import pty
import random
import struct
import time

import credentials
import turn
from cases_clients import aioice, echo, uclient
from cases_relay import refused
from credentials import INTEGRITY, INTEGRITY_SHA256, USERS, Client, timed
from lab import PEER, PORT, RELAYD, SERVER, SERVER6

ALICE = ("alice", USERS["alice"][0])
BOB = ("bob", USERS["bob"][0])
UDP = turn.attribute(turn.TRANSPORT, bytes([17, 0, 0, 0]))


def client(lab, name, password, server=SERVER, **options):
    with lab.inside("client"):
        return Client(name, password, server=(server, PORT), **options)


def challenged(lab, *who, **options):
    """A client that has had its challenge, and has no allocation."""
    own = client(lab, *who, **options)
    refused(lambda: own.refresh(600), 437)
    return own


def answered(client, request):
    """The error code of the answer to these bytes; 0 for a success, None if none comes."""
    try:
        client.ask(request)
    except turn.TurnError as error:
        return error.code
    except TimeoutError:
        return None
    return 0


def users_of(relayd):
    """The user of each allocation."""
    return [allocation.user for allocation in relayd.status().allocations]


def case_passwords(lab):
    "a client with a password: challenged once, data both ways, every answer signed; by SHA-1 and SHA-256, by name and by its hash, on IPv4 and IPv6"
    with credentials.relayd(lab) as relayd:
        peer = lab.peer()
        for server in (SERVER, SERVER6):
            for options in ({}, {"sha256": True}, {"sha256": True, "hashed": True}):
                own = client(lab, *ALICE, server=server, **options)
                own.allocate()
                own.permit(PEER)
                own.bind(0x4000, peer.getsockname())
                own.send(peer.getsockname(), b"to the peer")
                assert peer.recvfrom(65536) == (b"to the peer", own.relayed)
                peer.sendto(b"back", own.relayed)
                assert own.receive() == ("channel", 0x4000, b"back")
                assert own.refresh(0) == 0
        assert not [line for line in relayd.log() if "opensesame" in line]


def case_dropped_send(lab):
    "a Send is not signed: where it is dropped, it is told with the user of its allocation"
    with credentials.relayd(lab) as relayd:
        own = client(lab, *ALICE)
        own.allocate()
        own.send((PEER, 5000), b"too early")
        own.refresh(600)
        who = "{}:{}, user 3 (alice)".format(*own.sock.getsockname())
        assert any(line.endswith(f" Send of {who}, to {PEER} dropped: it never had a permission") for line in relayd.events()), relayd.log()


def case_nobody(lab):
    "without credentials: each of the four requests gets 401 with realm and nonce, and nothing is made"
    with credentials.relayd(lab) as relayd:
        stranger = lab.client()
        for kind in (turn.ALLOCATE, turn.REFRESH, turn.PERMIT, turn.BIND):
            try:
                stranger.request(kind, UDP)
            except turn.TurnError as error:
                assert error.code == 401 and error.found[credentials.REALM_KIND] == b"example.org", error
                assert error.found[credentials.NONCE].startswith(b"obMatJos2")
            else:
                raise AssertionError("a stranger was let in")
        assert relayd.status().allocations == []


def case_wrong(lab):
    "a wrong password, an unknown user, a name whose time is over, another secret: 401, and the log says which, without a password"
    with credentials.relayd(lab) as relayd:
        over, wrong = timed("guest", -1), timed("guest", 60, "south")
        for name, password in (("alice", "opensesami"), ("eve", "opensesame"), over, wrong):
            refused(client(lab, name, password).allocate, 401)
        log = "\n".join(relayd.log())
        for word in ("wrong password of user 'alice'", "unknown user 'eve'", f"the time of user '{over[0]}' is over", f"wrong password of user '{wrong[0]}'"):
            assert word in log, (word, log)
        assert "opensesam" not in log


def case_errors_signed(lab):
    "the relay's own errors are signed too: 437, 442, 400, 420 with 16 unknown attributes"
    with credentials.relayd(lab):
        for options in ({}, {"sha256": True}):
            own = challenged(lab, *ALICE, **options)
            for attributes, code in (([turn.attribute(turn.TRANSPORT, bytes([6, 0, 0, 0]))], 442), ([], 400),
                                     ([UDP, *[turn.attribute(0x7000 + place, b"") for place in range(20)]], 420)):
                own.sock.send(own.make(turn.ALLOCATE, os.urandom(12), attributes))
                answer = own.sock.recv(65536)
                assert struct.unpack("!BB", answer[26:28]) == (code // 100, code % 100), answer.hex()
                own.check(answer)


def raw(client, request):
    """The answer to these bytes, as it came."""
    client.sock.send(request)
    client.sock.settimeout(5)
    return client.sock.recv(65536)


def case_against_unsigned(lab):
    "each signed answer is the relay's own bytes and then the signature: the same requests to a relayd that checks no passwords"
    peer = turn.attribute(turn.PEER, turn.xor_address(PEER, 5000))
    asked = [(turn.REFRESH, []), (turn.ALLOCATE, []), (turn.ALLOCATE, [UDP]), (turn.ALLOCATE, [UDP]), (turn.PERMIT, [peer]), (turn.PERMIT, []),
             (turn.BIND, [turn.attribute(turn.CHANNEL_NUMBER, bytes([0x40, 0, 0, 0])), peer]), (turn.REFRESH, [turn.attribute(0x7FFF, b"")]),
             (turn.REFRESH, [turn.attribute(turn.LIFETIME, bytes(4))])]
    for server in (SERVER, SERVER6):
        for options in ({}, {"sha256": True}):
            size = 36 if options else 24
            with credentials.relayd(lab):
                own = challenged(lab, *ALICE, server=server, **options)
                requests = [own.make(kind, os.urandom(12), attributes) for kind, attributes in asked]
                signed = [raw(own, request) for request in requests]
            with lab.relayd(user=str(USERS["alice"][1])):
                unsigned = [raw(own, request) for request in requests]
            for one, other in zip(signed, unsigned):
                own.check(one)
                # All but the length, and the relay port, which is taken at random.
                port = slice(26, 28) if one[:2] == bytes([1, 3]) else slice(26, 26)
                same = [bytes(found[:2] + found[4:port.start] + found[port.stop:]) for found in (one[:-size], other)]
                assert same[0] == same[1] and len(one) == len(other) + size <= 100, (one.hex(), other.hex())


def case_terminal(lab):
    "relayd user add on a terminal: the password is asked for twice and not shown"
    path = lab.folder / "typed"
    for typed, status in ((["opensesame", "opensesame"], 0), (["opensesame", "opensesami"], 2)):
        process, terminal = pty.fork()
        if process == 0:
            os.execv(RELAYD, [str(RELAYD), "user", "add", "alice", "--credentials", str(path)])
        shown = b""
        for answer in typed:
            while not shown.endswith(b": "):
                shown += os.read(terminal, 1000)
            os.write(terminal, answer.encode() + b"\n")
            shown += os.read(terminal, 1000)
        with contextlib.suppress(OSError):
            while more := os.read(terminal, 1000):
                shown += more
        assert os.waitstatus_to_exitcode(os.waitpid(process, 0)[1]) == status, shown
        assert b"password of alice" in shown and b"opensesam" not in shown, shown
    assert path.read_text().count("user alice 1 ") == 1 and "opensesam" not in path.read_text()


def case_another_user(lab):
    "another user on the same 5-tuple: 441, signed with that user's key; the first user's allocation stands"
    with credentials.relayd(lab) as relayd:
        own = client(lab, *ALICE)
        own.allocate()
        other = Client(*BOB, sock=own.sock, server=(SERVER, PORT))
        refused(lambda: other.refresh(0), 441)
        refused(lambda: other.permit(PEER), 441)
        assert users_of(relayd) == [USERS["alice"][1]]
        assert own.refresh(600) == 600


def case_stale(lab):
    "a nonce that is over gets 438 and a new one, with which the client goes on; so does one from before a restart"
    with credentials.relayd(lab, "--clock-offset", "3600") as relayd:
        own = client(lab, *ALICE)
        own.allocate()
        old = own.make(turn.ALLOCATE, os.urandom(12), [UDP])
        relayd.forward()
        assert answered(own, old) == 438
        own.allocate()
    with credentials.relayd(lab):
        assert answered(own, own.make(turn.ALLOCATE, os.urandom(12), [UDP])) == 438
        own.allocate()


def case_replay(lab):
    "a request taken down on the way and sent from another address or port gets 438, and makes nothing"
    with credentials.relayd(lab) as relayd:
        own = challenged(lab, *ALICE)
        taken = own.make(turn.ALLOCATE, os.urandom(12), [UDP])
        for thief in (lab.client(), lab.client(SERVER6)):
            assert answered(thief, taken) == 438
        assert relayd.status().allocations == []
        assert answered(own, taken) == 0


def case_signatures(lab):
    "truncated signatures get 400, doubled ones count once, attributes after the signature count for nothing"
    with credentials.relayd(lab) as relayd:
        for options, kind, size in (({}, INTEGRITY, 20), ({"sha256": True}, INTEGRITY_SHA256, 32)):
            own = challenged(lab, *ALICE, **options)

            def allocate(change):
                whole = own.make(turn.ALLOCATE, os.urandom(12), [UDP])
                body = change(whole[20:-4 - size], whole[-size:])
                return answered(own, whole[:2] + struct.pack("!H", len(body)) + whole[4:20] + body)

            for kept in (0, 4, 16, size - 4):
                assert allocate(lambda before, code: before + turn.attribute(kind, code[:kept])) == 400, kept
            assert allocate(lambda before, code: before + turn.attribute(kind, bytes(size)) + turn.attribute(kind, code)) == 401
            assert allocate(lambda before, code: turn.attribute(kind, code) + before) == 400
            assert relayd.status().allocations == []
            longer = turn.attribute(turn.LIFETIME, struct.pack("!I", 3600)) + turn.attribute(0x7FFF, b"unknown")
            assert allocate(lambda before, code: before + turn.attribute(kind, code) + turn.attribute(kind, bytes(size)) + longer) == 0
            assert own.refresh(0) == 0


def case_changed(lab):
    "a request with any one byte changed on its way makes nothing: 401, 400, 438, or no answer"
    with credentials.relayd(lab) as relayd:
        own = challenged(lab, *ALICE)
        whole = own.make(turn.ALLOCATE, os.urandom(12), [UDP])
        for place in range(len(whole)):
            own.sock.send(whole[:place] + bytes([whole[place] ^ 0x04]) + whole[place + 1:])
            time.sleep(0.002)
        assert relayd.status().allocations == []


def spoiled(numbers, request):
    """The request with some bytes changed, and now and then cut."""
    raw = bytearray(request)
    for _ in range(numbers.randrange(1, 6)):
        raw[numbers.randrange(len(raw))] = numbers.randrange(256)
    return bytes(raw[:numbers.randrange(len(raw))] if numbers.random() < 0.2 else raw)


def case_spoiled(lab):
    "10,000 spoiled signed requests, from the client's address and from others: nothing is made, memory stays, and who has a password is served"
    numbers = random.Random(16)
    with credentials.relayd(lab) as relayd:
        signers, others = [challenged(lab, *ALICE), challenged(lab, *ALICE, sha256=True)], [lab.client() for _ in range(20)]
        memory = relayd.memory()
        for count in range(10000):
            own = numbers.choice(signers)
            kind = numbers.choice((turn.ALLOCATE, turn.REFRESH, turn.PERMIT, turn.BIND))
            strange = turn.attribute(numbers.randrange(65536), bytes(numbers.randrange(60)))
            with contextlib.suppress(ConnectionRefusedError):
                numbers.choice((own, numbers.choice(others))).sock.send(spoiled(numbers, own.make(kind, os.urandom(12), [UDP, strange])))
            if count % 200 == 0:
                time.sleep(0.002)
        assert relayd.status().allocations == [] and relayd.memory() - memory < 1024, (memory, relayd.memory())
        client(lab, *BOB, server=SERVER6).allocate()


def case_algorithms(lab):
    "an offer of algorithms cut on the way gets 400"
    with credentials.relayd(lab):
        own = challenged(lab, *ALICE, sha256=True)
        own.challenge[credentials.PASSWORD_ALGORITHMS] = credentials.SHA256
        assert answered(own, own.make(turn.ALLOCATE, os.urandom(12), [UDP])) == 400


def case_slowed(lab):
    "wrong passwords are looked at five times a second and told once; a stranger's flood is answered fifty times a second; others go on"
    with credentials.relayd(lab) as relayd:
        own, flood = client(lab, "alice", "guess"), lab.client()
        refused(own.allocate, 401)
        guess = own.make(turn.ALLOCATE, os.urandom(12), [UDP])
        bare = turn.message(turn.ALLOCATE, os.urandom(12), [UDP])
        for sock, request, most in ((own.sock, guess, 5), (flood.sock, bare, 50)):
            for _ in range(300):
                sock.send(request)
            time.sleep(0.5)
            answers = drain(sock)
            # The first guess was answered above, and a second may begin meanwhile.
            assert most - 1 <= answers <= 2 * most, answers
        told = [line for line in relayd.log() if "gets no more answers in this second" in line]
        assert 2 <= len(told) <= 4 and relayd.status().drops("too many a second") > 400, told
        other = client(lab, *ALICE, server=SERVER6)
        other.allocate()


def drain(sock):
    sock.setblocking(False)
    count = 0
    while True:
        try:
            sock.recv(65536)
        except BlockingIOError:
            return count
        count += 1


def case_reload(lab):
    "SIGHUP reads the credentials again: a removed user's allocation is not refreshed and gets no permission, and ends at its expiry; a bad file changes nothing"
    with credentials.relayd(lab, "--clock-offset", "600") as relayd:
        own, path = client(lab, *ALICE), lab.folder / "credentials"
        own.allocate()
        credentials.remove_user(path, "alice")
        assert "realm example.org, 2 users, 1 secrets" in credentials.reload(relayd)
        for request in (lambda: own.refresh(600), lambda: own.permit(PEER), lambda: own.bind(0x4000, (PEER, 5000))):
            refused(request, 401)
        assert users_of(relayd) == [USERS["alice"][1]]
        path.write_text("realm example.org\nuser bob 99\n")
        assert "stay as they were" in credentials.reload(relayd)
        client(lab, *BOB).allocate()
        relayd.forward()
        assert users_of(relayd) == []


def case_local_peer(lab):
    "a peer on the relay's own loopback gets 403, signed; without credentials 401"
    with credentials.relayd(lab):
        own = client(lab, *ALICE)
        own.allocate()
        refused(lambda: own.permit("127.0.0.1"), 403)
        refused(lambda: lab.client().permit("127.0.0.1"), 401)


def case_told(lab):
    "log, status and metrics have names in the place of numbers, and how often credentials were right and wrong; never a key"
    metrics = lab.folder / "front-metrics"
    with credentials.relayd(lab, "--metrics", metrics) as relayd:
        name, password = timed("guest", 60)
        for who in (ALICE, (name, password)):
            client(lab, *who).allocate()
        refused(client(lab, "alice", "wrong").allocate, 401)
        status = relayd.status()
        assert sorted(allocation.name for allocation in status.allocations) == ["alice", "guest"], status.text
        assert "credentials: 3 challenged, 2 passed, 1 wrong password" in status.text, status.text
        assert 'relayd_credentials_total{verdict="wrong_password"} 1' in metrics.read_text()
        log = "\n".join(relayd.log())
        for word in ("realm example.org, 3 users, 1 secrets", "allocation made: user 3 (alice)", f"allocation made: user 5 ({name})"):
            assert word in log, (word, log)
        lines = (lab.folder / "credentials").read_text().splitlines()
        keys = [word for line in lines if line.startswith("user ") for word in line.split()[3:]]
        assert len(keys) == 4, lines
        for text in (log, status.text, metrics.read_text()):
            assert not any(secret in text for secret in [*keys, password, "opensesame"]), text


def case_mode(lab):
    "credentials that others may read, or that are none, are refused at the start with status 2; --check says so too"
    path = credentials.write_file(lab)
    for mode, text, word in ((0o644, None, "mode 644"), (0o600, "realm example.org\nuser bob\n", "line 2"), (0o600, "", "realm")):
        path.chmod(mode)
        if text is not None:
            path.write_text(text)
        for check in ([], ["--check"]):
            done = lab.run("relay", *lab.relayd_command("--credentials", path, *check, user=None), timeout=10)
            assert done.returncode == 2 and word in done.stderr, done


def case_aioice(lab):
    "aioice with a password, and with a time-limited name"
    with echo(lab), credentials.relayd(lab) as relayd:
        for name, password in (ALICE, timed("guest", 60)):
            assert aioice(lab, SERVER, PORT, name, password)[0] == SERVER
            assert relayd.status().allocations == []


def uclient_case(what, who, *flags):
    def case(lab):
        with echo(lab), credentials.relayd(lab) as relayd:
            uclient(lab, SERVER, PORT, *who(), *flags)
            refusals = [line for line in relayd.log() if " error " in line and "no credentials yet" not in line]
            assert not refusals and "allocation made: user" in "\n".join(relayd.written()), refusals
    case.__doc__ = f"turnutils_uclient, {what}: no packet lost"
    return case


def password_flags(name, password):
    return ["-u", name, "-w", password]


CASES = [case_passwords, case_nobody, case_wrong, case_errors_signed, case_against_unsigned, case_terminal, case_another_user, case_stale, case_replay, case_signatures, case_changed,
         case_spoiled, case_algorithms, case_slowed, case_reload, case_local_peer, case_told, case_dropped_send, case_mode, case_aioice,
         uclient_case("with a password, channels", lambda: password_flags(*ALICE)),
         uclient_case("with a password, Send and Data", lambda: password_flags(*ALICE), "-s"),
         uclient_case("with a time-limited name", lambda: password_flags(*timed("guest", 60))),
         uclient_case("which makes its own time-limited name from the secret", lambda: ["-u", "guest", "-W", credentials.SECRET])]
