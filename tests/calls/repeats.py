"""Scripts of repeated Allocates: what a client sends again where its reply was lost, and what only looks like it.

`script(seed, lines)` goes through all KINDS in an order of its own, again and again. Each round has a client of its own, so that what is met
does not depend on the rounds before it; other calls stand between an Allocate and its repeat.
"""
import random

from gen import stun
from relay import ALLOCATE, CREATE_PERMISSION, REFRESH, u16, xor_address

TRANSPORT = (0x0019, bytes([17, 0, 0, 0]))
PEER = (bytes([192, 0, 2, 150]), 5000)


def lifetime(seconds):
    return 0x000D, seconds.to_bytes(4, "big")


class Round:
    """The lines of one client's Allocate and what follows it."""

    def __init__(self, r, now):
        self.r, self.now, self.lines = r, now, []
        self.client, self.user = f"c63364{r.randrange(256):02x}\t{r.randrange(65536)}", r.randrange(1, 33)
        self.txid = bytes(r.randrange(256) for _ in range(12))
        self.start = r.randrange(128)
        self.asked = [TRANSPORT] + [lifetime(r.choice((0, 600, 700, 3600)))] * r.randrange(2)

    def later(self, seconds):
        self.now += seconds
        return self

    def send(self, kind, attrs, txid, user):
        self.lines.append(f"Q\t{self.now}\t{user}\t{self.start}\t{self.client}\t{stun(kind, attrs, txid).hex()}")
        return self

    def allocate(self, attrs=None, txid=None, user=None):
        return self.send(ALLOCATE, self.asked if attrs is None else attrs, txid or self.txid, self.user if user is None else user)

    def refresh(self, seconds):
        return self.send(REFRESH, [lifetime(seconds)], bytes(12), self.user)

    def permit(self):
        txid = bytes(12)
        return self.send(CREATE_PERMISSION, [(0x0012, xor_address(*PEER, txid))], txid, self.user)

    def from_peer(self):
        """The peer's datagrams to the ports from the start on, of which one is the client's unless they are held."""
        for port in range(self.start, self.start + 3):
            self.lines.append(f"P\t{self.now}\t{PEER[0].hex()}\t{PEER[1]}\t{49152 + port % 128}\t6869")
        return self

    def other_id(self):
        at = self.r.randrange(12)
        return self.txid[:at] + bytes([self.txid[at] ^ 1 << self.r.randrange(8)]) + self.txid[at + 1:]


def plain(x):
    x.asked = [TRANSPORT]
    return x.allocate()


KINDS = {
    "after 0 seconds": lambda x: plain(x).allocate(),
    "after 1 second": lambda x: plain(x).later(1).allocate(),
    "after 599 seconds": lambda x: plain(x).later(599).allocate(),
    "after 600 seconds": lambda x: plain(x).later(600).allocate(),
    "twice": lambda x: x.allocate().later(1).allocate().later(1).allocate(),
    "after a Refresh": lambda x: x.allocate().later(9).refresh(3600).later(1).allocate(),
    "after a Refresh, when the first lifetime is over": lambda x: plain(x).later(599).refresh(600).later(2).allocate(),
    "after Refresh 0": lambda x: x.allocate().later(9).refresh(0).allocate(),
    "of another user": lambda x: x.allocate().allocate(user=x.user % 32 + 1).allocate(),
    "of user 0": lambda x: x.allocate().allocate(user=0),
    "of another id": lambda x: x.allocate().allocate(txid=x.other_id()).allocate(),
    "without attributes": lambda x: x.allocate().allocate([]),
    "with another LIFETIME": lambda x: x.allocate().allocate([TRANSPORT, lifetime(x.r.choice((0, 1, 700, 3600, 3601)))]),
    "with a short LIFETIME": lambda x: x.allocate().allocate([TRANSPORT, (0x000D, bytes(2))]),
    "with another transport": lambda x: x.allocate().allocate([(0x0019, bytes([6, 0, 0, 0]))]),
    "of family 2": lambda x: x.allocate().allocate([TRANSPORT, (0x0017, bytes([2, 0, 0, 0]))]),
    "with an unknown attribute": lambda x: x.allocate().allocate(x.asked + [(0x7FFF, u16(0))]).allocate(),
    "after a permission": lambda x: plain(x).later(9).permit().later(290).allocate().from_peer().later(10).from_peer(),
}


def script(seed, lines):
    r, out, now = random.Random(f"repeats {seed}"), [], random.Random(seed).choice((0, 1000, 1_700_000_000))
    while len(out) < lines:
        for kind in r.sample(list(KINDS), len(KINDS)):
            x = KINDS[kind](Round(r, now))
            out += x.lines
            now = x.now + r.choice((0, 0, 1, 300, 3600))
    return "".join(line + "\n" for line in out[:lines]).encode()
