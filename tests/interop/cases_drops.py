"""Why a datagram vanished: what the log, the status and the metrics say of what had no permission."""
import os
import re
import signal

import turn
from cases_daemon import last
from cases_field import runs_again
from cases_relay import gone, nothing, ready, second
from lab import CLIENT, LAPSED, NEVER, PEER, STRANGER, STRANGERS, wait_for


def told(relayd, words):
    """The events with these words."""
    return [line for line in relayd.events() if words in line]


def fates(relayd, sender):
    """What became of each datagram of a sender, by the log."""
    return [line.split(" bytes: ")[1] for line in relayd.log() if f" {sender}" in line.split(" bytes: ")[0] and " bytes: " in line]


def ago(seconds):
    """As the log has it."""
    return f"{seconds} s ago" if seconds < 60 else f"{seconds // 60}:{seconds % 60:02} ago"


def causes(relayd, metrics):
    """The drops by the relay that the metrics count, by cause."""
    relayd.status()
    found = re.findall(r'relayd_dropped_total{cause="((?:client|peer)_\w+)"} (\d+)', metrics.read_text())
    return {cause: int(count) for cause, count in found if count != "0"}


def lapsed(lab, relayd, local=None):
    """A client, its peer whose permission has lapsed, and the second in which it has. --clock-offset is over 300."""
    client, peer = lab.client(local=local), lab.peer()
    client.allocate()
    client.permit(PEER)
    client.refresh(3600)
    relayd.forward()
    return client, peer, last(relayd, client, "CreatePermission") + 300


def case_lapsed_peer(lab):
    "a peer whose permission has lapsed sends 40 datagrams: one event that says since when, then its count; a new permission ends it"
    metrics = lab.folder / "lapsed-metrics"
    with lab.relayd("--clock-offset", "312", "--metrics", metrics) as relayd:
        client, peer, end = lapsed(lab, relayd)
        for _ in range(40):
            peer.sendto(b"anyone?", client.relayed)
        words = f"{PEER} dropped at {client.relayed[1]}: its permission lapsed"
        wait_for(lambda: relayd.status().drops(LAPSED) == 40, "40 drops")
        event, = told(relayd, words)
        assert event.endswith(f" {words} {ago(second(event) - end)}") and second(event) - end >= 12, event
        status = relayd.status()
        line, = status.last_drops
        assert f" {words} " in line and line.endswith(" ago (40 times)"), status.text
        assert (status.drops(NEVER), status.drops("at the relay ports")) == (0, 0), status.text
        wait_for(lambda: causes(relayd, metrics) == {"peer_lapsed": 40}, "the metrics")
        assert fates(relayd, f"peer {PEER}") == ["dropped, its permission lapsed"] * 40
        nothing(client, 0.05)
        relayd.forward()
        _, count = wait_for(lambda: (found := told(relayd, words))[1:] and found, "the count")
        assert count.endswith(f" {words} {ago(second(count) - end)}; 39 times more"), count
        assert relayd.status().last_drops == [line], "the status has it as it came last"
        client.permit(PEER)
        peer.sendto(b"back", client.relayed)
        assert client.receive() == ("data", peer.getsockname(), b"back")
        assert len(told(relayd, words)) == 2
        # It lapses once more: another event, told at once.
        relayd.forward()
        peer.sendto(b"again", client.relayed)
        wait_for(lambda: relayd.status().drops(LAPSED) == 41, "the drop")
        end, (*_, event) = last(relayd, client, "CreatePermission") + 300, told(relayd, words)
        assert event.endswith(f" {words} {ago(second(event) - end)}"), event


def case_strangers(lab):
    "a peer that never had a permission is told; past 20 datagrams a minute the kernel drops strangers at that port, but no peer that lapsed"
    metrics = lab.folder / "strangers-metrics"
    with lab.relayd("--clock-offset", "301", "--metrics", metrics) as relayd:
        client, peer, _ = lapsed(lab, relayd)
        other, _ = ready(lab)
        stranger = lab.peer(STRANGER)

        def send(count, to):
            for _ in range(count):
                stranger.sendto(b"flood", to.relayed)
        words = f" {STRANGER} dropped at {client.relayed[1]}: it never had a permission"
        send(1, client)
        assert gone(relayd, NEVER, 1) == (1, 0)
        event, = told(relayd, words)
        assert event.endswith(words), event
        send(99, client)
        seen, by_kernel = gone(relayd, NEVER, 100)
        assert seen >= STRANGERS, seen
        send(100, client)
        assert gone(relayd, NEVER, 200) == (seen, by_kernel + 100), "strangers came as far as the relay"
        assert f"at the relay ports: no allocation, over {STRANGERS} a minute without a permission, or no room" in relayd.status().text
        send(1, other)
        assert gone(relayd, NEVER, 201) == (seen + 1, by_kernel + 100), "another port has a minute of its own"
        peer.sendto(b"late", client.relayed)
        wait_for(lambda: relayd.status().drops(LAPSED) == 1, "the drop of a peer that lapsed")
        assert told(relayd, f"{PEER} dropped at {client.relayed[1]}: its permission lapsed")
        # The minute is over.
        relayd.forward()
        wait_for(lambda: told(relayd, f"{words}; {seen - 1} times more"), "the count")
        send(1, client)
        assert gone(relayd, NEVER, 202) == (seen + 2, by_kernel + 100)
        wait_for(lambda: causes(relayd, metrics) == {"peer_lapsed": 1, "peer_never": seen + 2}, "the metrics")
        nothing(client, 0.05)


def case_long_strangers(lab):
    "of a stranger's datagrams of over 1,500 bytes the kernel lets in no more than of others"
    with lab.relayd() as relayd:
        client, _ = ready(lab)
        stranger = lab.peer(STRANGER)
        for _ in range(60):
            stranger.sendto(bytes(1501), client.relayed)
        seen, by_kernel = gone(relayd, "over 1,500 bytes", 60)
        for _ in range(60):
            stranger.sendto(bytes(1501), client.relayed)
        assert gone(relayd, "over 1,500 bytes", 120) == (seen, by_kernel + 60) and seen >= STRANGERS, seen


def case_dropped_sends(lab):
    "a Send to a peer whose permission lapsed, and to one that never had one, is told with its client and user; one without DATA is another drop"
    metrics = lab.folder / "sends-metrics"
    with lab.relayd("--clock-offset", "312", "--metrics", metrics) as relayd:
        client, peer, end = lapsed(lab, relayd, local=(CLIENT, 20002))
        stranger = lab.peer(STRANGER)
        for _ in range(3):
            client.send(peer.getsockname(), b"to one that lapsed")
        client.send(stranger.getsockname(), b"to a stranger")
        for to in (peer, stranger):
            client.sock.send(turn.message(turn.SEND, os.urandom(12), [turn.attribute(turn.PEER, turn.xor_address(*to.getsockname()))]))
        wait_for(lambda: causes(relayd, metrics) == {"client_lapsed": 3, "client_never": 1, "client_other": 2}, "six drops")
        nothing(peer, 0.05)
        nothing(stranger, 0.05)
        who = f"Send of {CLIENT}:20002, user 3, to"
        first, never = told(relayd, "Send of")
        assert first.endswith(f" {who} {PEER} dropped: its permission lapsed {ago(second(first) - end)}"), first
        assert never.endswith(f" {who} {STRANGER} dropped: it never had a permission"), never
        status = relayd.status()
        assert [status.drops(words) for words in ("whose permission lapsed", "Send to a peer that never", "from clients: malformed")] == [3, 1, 2], status.text
        assert status.last_drops[0].endswith(" ago (3 times)") and status.last_drops[1].endswith(never.split("] ")[1]), status.text
        found = [fate for fate in fates(relayd, f"client {CLIENT}:20002") if fate.startswith("dropped")]
        assert found == ["dropped, its permission lapsed"] * 3 + ["dropped, it never had a permission"] + ["dropped"] * 2, found


def case_lapsed_and_forgotten(lab):
    "a permission that lapsed is told with its time also after the program was killed, and where eight others have taken all its places"
    with lab.relayd("--clock-offset", "312") as relayd:
        client, peer, end = lapsed(lab, relayd)

        def drops(times):
            peer.sendto(b"anyone?", client.relayed)
            wait_for(lambda: relayd.status().drops(LAPSED) == times, "the drop")
        client.permit(*(f"192.0.2.{host}" for host in range(1, 9)))
        drops(1)
        os.kill(relayd.child(), signal.SIGKILL)
        runs_again(relayd)
        drops(2)
        words = f"{PEER} dropped at {client.relayed[1]}: its permission lapsed"
        event, = told(relayd, words)
        assert event.endswith(f" {words} {ago(second(event) - end)}"), event
        status = relayd.status()
        assert status.drops(NEVER) == 0 and status.last_drops[0].endswith("(2 times)"), status.text
        assert fates(relayd, f"peer {PEER}") == ["dropped, its permission lapsed"] * 2


CASES = [case_lapsed_peer, case_strangers, case_long_strangers, case_dropped_sends, case_lapsed_and_forgotten]
