"""The relay's edges on real sockets, by the small client in turn.py."""
import random
import re
import socket
import time

import turn
from lab import CLIENT, INNER, LAPSED, NEVER, PEER, RELAY_PORTS, SERVER, SERVER6, STRANGER, wait_for


def refused(action, code):
    try:
        action()
    except turn.TurnError as error:
        assert error.code == code, f"error {error.code} in place of {code}"
    else:
        raise AssertionError(f"no error {code}")


def nothing(sock_or_client, seconds=0.3):
    if isinstance(sock_or_client, turn.Client):
        got = sock_or_client.receive(seconds)
    else:
        sock_or_client.settimeout(seconds)
        try:
            got = sock_or_client.recvfrom(65536)
        except socket.timeout:
            got = None
    assert got is None, got


def second(line):
    """The relay's second of a line of the log, which has it where there is --clock-offset."""
    return int(re.search(r"\[(\d+)\]", line)[1])


def gone(relayd, cause, count):
    """How many datagrams of this cause the relay or relayd has dropped, and how many the kernel, when there are so many of both."""
    def drops():
        status = relayd.status()
        return status.drops(cause), status.drops("at the relay ports")
    return wait_for(lambda: (found := drops()) and sum(found) == count and found, f"{count} drops")


def ready(lab, server=SERVER):
    """A client with a permission for the peer, and the peer."""
    client, peer = lab.client(server), lab.peer()
    client.allocate()
    client.permit(PEER)
    return client, peer


def case_send_and_data(lab):
    "Send and Data, IPv4 and IPv6 clients, both ways, by an own client"
    with lab.relayd():
        for server in (SERVER, SERVER6):
            client, peer = ready(lab, server)
            assert client.lifetime == 600 and client.mapped == client.sock.getsockname()[:2]
            client.send(peer.getsockname(), b"to the peer")
            assert peer.recvfrom(65536) == (b"to the peer", client.relayed)
            peer.sendto(b"back", client.relayed)
            assert client.receive() == ("data", peer.getsockname(), b"back")


def case_two_clients(lab):
    "two clients, an IPv4 and an IPv6 one, each the other's peer through the relay, with its own address and with another"
    for relay in (SERVER, INNER):
        with lab.relayd("--relay", relay):
            one, two = lab.client(), lab.client(SERVER6)
            for client in (one, two):
                assert client.allocate()[0] == relay
            one.permit(relay)
            two.bind(0x4000, one.relayed)
            one.send(two.relayed, b"from one")
            assert two.receive() == ("channel", 0x4000, b"from one")
            two.channel(0x4000, b"from two")
            assert one.receive() == ("data", two.relayed, b"from two")


def case_zero_length(lab):
    "zero-length data, by Send and by channel, both ways"
    with lab.relayd():
        client, peer = ready(lab)
        client.send(peer.getsockname(), b"")
        assert peer.recvfrom(65536) == (b"", client.relayed)
        peer.sendto(b"", client.relayed)
        assert client.receive() == ("data", peer.getsockname(), b"")
        client.bind(0x4FFF, peer.getsockname())
        client.channel(0x4FFF, b"")
        assert peer.recvfrom(65536) == (b"", client.relayed)
        peer.sendto(b"", client.relayed)
        assert client.receive() == ("channel", 0x4FFF, b"")


def case_empty_datagram(lab):
    "empty and senseless datagrams are dropped, and relayd goes on"
    with lab.relayd() as relayd:
        client, peer = ready(lab)
        for junk in (b"", b"\0", b"\x40\0\0", bytes(20), b"\xff" * 1500, b"GET / HTTP/1.1\r\n\r\n"):
            client.sock.send(junk)
        nothing(client)
        client.send(peer.getsockname(), b"still there")
        assert peer.recv(65536) == b"still there"
        status = relayd.status()
        assert status.drops("neither STUN nor ChannelData") == 2 and status.drops("from clients: malformed") == 4, status.text


def spoiled(chance):
    """A request or Send with up to three bytes changed, cut or made longer; or bytes without any sense."""
    if chance.random() < 0.3:
        return chance.randbytes(chance.randrange(200))
    kind = chance.choice((turn.ALLOCATE, turn.REFRESH, turn.PERMIT, turn.BIND, turn.SEND))
    attributes = [turn.attribute(turn.TRANSPORT, bytes([17, 0, 0, 0])), turn.attribute(turn.PEER, turn.xor_address(PEER, 5000)),
                  turn.attribute(turn.CHANNEL_NUMBER, bytes([0x40, 0, 0, 0])), turn.attribute(turn.DATA_ATTR, b"x" * chance.randrange(40))]
    raw = bytearray(turn.message(kind, chance.randbytes(12), chance.sample(attributes, chance.randrange(5))))
    for _ in range(chance.randrange(4)):
        raw[chance.randrange(len(raw))] = chance.randrange(256)
    return bytes(raw)[:chance.choice((len(raw), len(raw), chance.randrange(len(raw))))] + b"y" * chance.choice((0, 0, 0, 1, 2))


def case_noise(lab):
    "3,000 spoiled datagrams at the server and the relay ports: relayd goes on, and every one is in the log or counted"
    chance = random.Random(8656)
    with lab.relayd() as relayd:
        client, peer = ready(lab)
        noisy = [lab.client(), lab.client(SERVER6)]
        for step in range(1500):
            noisy[step % 2].sock.send(spoiled(chance))
            peer.sendto(spoiled(chance), (SERVER, chance.choice(RELAY_PORTS)))
            if step % 25 == 0:
                client.refresh(600)
        client.send(peer.getsockname(), b"still there")
        assert peer.recv(65536) == b"still there"
        ports = [f":{noise.sock.getsockname()[1]} " for noise in noisy]
        log, at_ports = relayd.log(), relayd.status().drops("at the relay ports")
        # A port without an allocation drops all that comes; one with an allocation takes data of any form from those with a permission.
        fates = [found[1] for line in log if (found := re.search(r" peer \S+ at \d+ \d+ bytes: (.*)", line))]
        assert len(fates) + at_ports == 1500, (len(fates), at_ports)
        assert all(fate.startswith("to client ") or fate == "dropped, it never had a permission" for fate in fates), set(fates)
        assert any(fate.startswith("to client ") for fate in fates)
        from_noisy = [line for line in log if " client " in line and any(port in line.split(" bytes: ")[0] + " " for port in ports)]
        assert len(from_noisy) == 1500, len(from_noisy)
        for kind in ("dropped", "Allocate success", "error 400", "error 420", "error 437"):
            assert any(kind in line for line in from_noisy), kind


def case_1500_bytes(lab):
    "1,500-byte datagrams pass whole; 1,501 and up to 65,507 are dropped, never cut"
    with lab.relayd() as relayd:
        client, peer = ready(lab)
        client.send(peer.getsockname(), b"s" * (1500 - 36))
        assert peer.recv(65536) == b"s" * 1464
        peer.sendto(b"d" * 1500, client.relayed)
        assert client.receive() == ("data", peer.getsockname(), b"d" * 1500)
        client.bind(0x4000, peer.getsockname())
        client.channel(0x4000, b"c" * 1496)
        assert peer.recv(65536) == b"c" * 1496
        peer.sendto(b"p" * 1500, client.relayed)
        assert client.receive() == ("channel", 0x4000, b"p" * 1500)
        for size in (1501, 1585, 1600, 9000, 65507):
            drops = lambda: sum(f" {size} bytes: dropped before the relay, over 1,500 bytes" in line for line in relayd.written())
            client.sock.send(b"\x40\0" + (size - 4).to_bytes(2, "big") + bytes(size - 4))
            wait_for(lambda: drops() == 1, f"the drop of a client's {size} bytes")
            peer.sendto(bytes(size), client.relayed)
            wait_for(lambda: drops() == 2, f"the drop of a peer's {size} bytes")
        assert relayd.status().drops("over 1,500 bytes") == 10
        nothing(peer)
        nothing(client)


def case_vanished_client(lab):
    "a client that vanishes: its peer's data hurts nobody, and its port comes back when it lapses"
    with lab.relayd("--clock-offset", "600") as relayd:
        client, peer = ready(lab)
        other, other_peer = ready(lab)
        gone = client.relayed
        client.close()
        for _ in range(50):
            peer.sendto(b"anyone?", gone)
        other.send(other_peer.getsockname(), b"not me")
        assert other_peer.recv(65536) == b"not me"
        assert len(relayd.status().allocations) == 2
        other.refresh(3600)
        relayd.forward()
        status = relayd.status()
        assert [one.relay_port for one in status.allocations] == [other.relayed[1]], status.text
        dropped = status.drops("at the relay ports")
        peer.sendto(b"anyone?", gone)
        wait_for(lambda: relayd.status().drops("at the relay ports") == dropped + 1, "the drop")


def case_64_allocations(lab):
    "64 allocations at once, all carrying data; a ninth of one user gets 486, a 65th 508"
    with lab.relayd() as relayd:
        # by-port: user 1 + port % 32; 32 in a row are 32 users, so 64 are two each.
        clients = [lab.client(local=(CLIENT, 20000 + place)) for place in range(64)]
        same_user = [lab.client(local=(CLIENT, 30016 + 32 * place)) for place in range(9)]
        for client in same_user[:8]:
            client.allocate()
        refused(same_user[8].allocate, 486)
        for client in same_user[:8]:
            assert client.refresh(0) == 0
        peer = lab.peer()
        ports = [client.allocate()[1] for client in clients]
        assert len(set(ports)) == 64 and set(ports) <= set(RELAY_PORTS)
        refused(lab.client(local=(CLIENT, 21000)).allocate, 508)
        refused(clients[5].allocate, 437)
        for place, client in enumerate(clients):
            client.bind(0x4000 + place, peer.getsockname())
        for place, client in enumerate(clients):
            client.channel(0x4000 + place, b"from %d" % place)
        came = dict(reversed(peer.recvfrom(65536)) for _ in clients)
        assert came == {client.relayed: b"from %d" % place for place, client in enumerate(clients)}
        for place, client in enumerate(clients):
            peer.sendto(b"to %d" % place, client.relayed)
        for place, client in enumerate(clients):
            assert client.receive() == ("channel", 0x4000 + place, b"to %d" % place)
        status = relayd.status()
        assert status.count == "64 of 64 allocations" and len(status.allocations) == 64
        assert all(len(one.permissions) == len(one.channels) == 1 for one in status.allocations), status.text
        assert all(one.carried["peers"][0] == one.carried["the client"][0] == 1 for one in status.allocations), status.text


def case_ports_at_random(lab):
    "relay ports can't be guessed: those of two runs differ, and none follows the last"
    runs = []
    for _ in range(2):
        with lab.relayd():
            runs.append([lab.client().allocate()[1] for _ in range(12)])
    assert runs[0] != runs[1], runs
    assert sum(later - earlier == 1 for run in runs for earlier, later in zip(run, run[1:])) < 6, runs


def case_port_scan(lab):
    "a scan of all 128 ports by a peer without permission: nothing comes through"
    with lab.relayd() as relayd:
        clients = [lab.client() for _ in range(8)]
        peer, stranger = lab.peer(), lab.peer(STRANGER)
        for client in clients:
            client.allocate()
            client.permit(PEER)
        for port in RELAY_PORTS:
            stranger.sendto(b"scan", (SERVER, port))
        wait_for(lambda: relayd.status().drops("at the relay ports") == 120, "the scan's end")
        # Each port with an allocation has let one in, for the relay to say why it is dropped; no other port has.
        seen = [line.split(" at ")[1] for line in relayd.log() if f" peer {STRANGER}:" in line]
        assert sorted(seen) == sorted(f"{client.relayed[1]} 4 bytes: dropped, it never had a permission" for client in clients), seen
        assert relayd.status().drops(NEVER) == 8
        for client in clients:
            nothing(client, 0.05)
        # The same scan by the permitted peer does come through, so the silence means something.
        for port in RELAY_PORTS:
            peer.sendto(b"scan", (SERVER, port))
        for client in clients:
            assert client.receive() == ("data", peer.getsockname(), b"scan")


def case_permission_lapses(lab):
    "a permission carries for 300 seconds and not a second longer, by the relay's own clock"
    with lab.relayd("--clock-offset", "297") as relayd:
        client, peer = ready(lab)
        made = second(next(line for line in relayd.log() if "CreatePermission success" in line))
        relayd.forward()
        came = 0
        for _ in range(26):
            peer.sendto(b"tick", client.relayed)
            came += client.receive(0.05) is not None
            time.sleep(0.2)
        ages = [second(line) - made for line in relayd.log() if " peer " in line and " to client " in line]
        dropped = relayd.status().drops(LAPSED)
        assert came == len(ages) and came + dropped == 26, (came, ages, dropped)
        assert came > 1 and dropped > 1 and max(ages) < 300, (ages, dropped)
        assert relayd.status().of(client).permissions == {}


def case_allocation_lapses(lab):
    "an allocation lapses after 600 seconds, is kept by Refresh, and its client can allocate again"
    with lab.relayd("--clock-offset", "590") as relayd:
        kept, lapsed = lab.client(), lab.client()
        kept.allocate()
        lapsed.allocate()
        relayd.forward()
        assert kept.refresh(600) == 600
        refused(lapsed.allocate, 437)
        relayd.forward()
        assert kept.refresh(600) == 600
        refused(lambda: lapsed.refresh(600), 437)
        lapsed.allocate()
        assert len(relayd.status().allocations) == 2


def case_repeated_allocate(lab):
    "the same Allocate again gets the same port and the seconds left, and changes nothing: permissions go on; another Allocate gets 437"
    with lab.relayd("--clock-offset", "70") as relayd:
        client, peer = lab.client(), lab.peer()
        client.allocate()
        first = client.request_sent
        client.permit(PEER)

        def again(at_least, at_most):
            found = client.ask(first)
            assert turn.read_address(found[turn.RELAYED], client.transaction) == client.relayed
            assert at_least <= int.from_bytes(found[turn.LIFETIME], "big") <= at_most
            peer.sendto(b"still", client.relayed)
            assert client.receive() == ("data", peer.getsockname(), b"still")

        again(595, 600)
        relayd.forward()
        again(525, 530)
        refused(client.allocate, 437)
        assert "\n".join(relayd.events()).count("allocation told again: ") == 2


def case_denied_peers(lab):
    "--denied: a listed peer gets 403 by CreatePermission and by ChannelBind, alone or among others, and none is permitted; others work"
    listed, metrics = lab.folder / "denied", lab.folder / "denied-metrics"
    listed.write_text(f"# the works\n{STRANGER}   # the press\n10.0.0.0/8\n")
    with lab.relayd("--denied", listed, "--metrics", metrics) as relayd:
        client, peer, stranger = lab.client(), lab.peer(), lab.peer(STRANGER)
        client.allocate()
        for host in (STRANGER, "10.0.0.0", "10.255.255.255"):
            refused(lambda: client.permit(host), 403)
            refused(lambda: client.bind(0x4000, (host, 5000)), 403)
        refused(lambda: client.permit(PEER, STRANGER), 403)
        refused(lambda: client.permit(STRANGER, PEER), 403)
        own = relayd.status().of(client)
        assert (own.permissions, own.channels) == ({}, {}), "a refused request has permitted somebody"
        for other in (peer, stranger):
            client.send(other.getsockname(), b"not permitted")
            nothing(other)
        client.permit("9.255.255.255", "11.0.0.0", PEER)
        client.bind(0x4000, peer.getsockname())
        client.channel(0x4000, b"to the peer")
        assert peer.recvfrom(65536) == (b"to the peer", client.relayed)
        stranger.sendto(b"no", client.relayed)
        peer.sendto(b"back", client.relayed)
        assert client.receive() == ("channel", 0x4000, b"back")
        nothing(client)
        told = "\n".join([relayd.status().text, *relayd.log(), metrics.read_text()])
        for word in (f"denied prefixes: 5 (3 by default, 2 of {listed}), ", "8 refused, 8 of them for a denied peer",
                     'relayd_requests_refused_total{method="ChannelBind",code="403"} 3', f"403 Forbidden: peer {STRANGER} is denied by {STRANGER}, line 2 of {listed}",
                     f"403 Forbidden: peer 10.255.255.255 is denied by 10.0.0.0/8, line 3 of {listed}"):
            assert word in told, (word, told)


CASES = [case_send_and_data, case_two_clients, case_zero_length, case_empty_datagram, case_noise, case_1500_bytes, case_vanished_client, case_64_allocations,
         case_ports_at_random, case_port_scan, case_permission_lapses, case_allocation_lapses, case_repeated_allocate,
         case_denied_peers]
