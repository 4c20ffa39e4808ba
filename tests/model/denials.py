"""What a request for permissions met at the denied prefixes (request 2), in words: for the table of fuzz.py and for tests/calls/compare."""
import calls
from prefixes import covers
from relay import A_CHANNEL_NUMBER, A_PEER, CHANNEL_BIND, FiveTuple, read_address, read_stun


def named_peers(m):
    """The IPv4 addresses that the request names, as numbers; None for each other one."""
    values = m.all(A_PEER)[:1] if m.kind == CHANNEL_BIND else m.all(A_PEER)
    peers = [read_address(v, m.txid) for v in values]
    return [int.from_bytes(p[0], 'big') if p and len(p[0]) == 4 else None for p in peers]


def covering(listed, addr):
    """The lengths of the prefixes that cover the address."""
    return [] if addr is None else [n for v, n in listed if covers((v, n), addr)]


def place(denied):
    """Where the denied one stands among several peers; nothing where there are more."""
    if len(denied) == 1 or denied.count(True) != 1:
        return []
    return ['denied: the %s of several' % ('first' if denied[0] else 'last' if denied[-1] else 'middle')]


def other_checks(slot, now, m):
    """What would have stopped the request too, had its peer not been denied."""
    if all(p.live(now) for p in slot.perms):
        yield 'denied: no room'
    if m.kind == CHANNEL_BIND and any(c.live(now) and c.number == int.from_bytes(m.first(A_CHANNEL_NUMBER)[:2], 'big') for c in slot.chans):
        yield 'denied: number live for another peer'


def met(r, line):
    """Asked after the call: a 403 leaves the slot as it was."""
    if not r.denied.prefixes or not r.cause.startswith(('S permission ', 'S bind ')):
        return
    _, now, _, _, addr, port, datagram = calls.read_line(line)
    m = read_stun(datagram, r.level)
    peers = named_peers(m)
    lengths = [covering(r.denied.prefixes, peer) for peer in peers]
    if any(lengths):
        yield 'denied peer: ' + r.cause
    if ' 403 ' in r.cause:
        yield 'denied by length %2d' % min(min(n) for n in lengths if n)
        yield from place([bool(n) for n in lengths])
        yield from other_checks(r.slots[r.find_tuple(now, FiveTuple(addr, port, calls.SERVER, 3478, 17))], now, m)
    if ' ok' in r.cause:
        # with the last bit of the prefix the other way
        yield from {'permitted beside length %2d' % n for v, n in r.denied.prefixes for peer in peers if covers((v, n), peer ^ 1 << 32 - n)}
        if len(addr) == 4 and r.denied.covers(addr):
            yield 'permitted for a denied client'
