"""What a Send or a peer's datagram met at the permissions (request 3), in finer words than its answer's: for the table of fuzz.py and for tests/calls/compare."""
import calls
from relay import A_DATA, A_PEER, CHANNEL_BIND, SEND, ZERO4, FiveTuple, lowest, read_address, read_stun

NO_DATA = 'Send without DATA'


class Named:
    """The peers that each slot's accepted requests named: ports by address. Other than the slot's entries they are never overwritten."""

    def __init__(self):
        self.slots = {}        # by the slot's identity, with the slot itself so that no other gets it

    def by(self, slot):
        return self.slots.setdefault(id(slot), (slot, {}))[1]

    def add(self, slot, m):
        values = m.all(A_PEER)[:1] if m.kind == CHANNEL_BIND else m.all(A_PEER)
        for addr, port in (read_address(v, m.txid) for v in values):
            self.by(slot).setdefault(addr, set()).add(port)


def live_or_over(slots, now, is_meant):
    """The lowest live slot that is meant, else the lowest that is over, else None."""
    i = lowest(slots, lambda s: s.live(now) and is_meant(s))
    i = lowest(slots, lambda s: s.expiry and is_meant(s)) if i is None else i
    return None if i is None else slots[i]


def slot_of(r, call):
    """The slot that a call is about."""
    if call[0] == b'P':
        return live_or_over(r.slots, call[1], lambda s: s.port == call[4])
    return live_or_over(r.slots, call[1], lambda s: s.tuple5 == FiveTuple(call[4], call[5], calls.SERVER, 3478, 17))


def message(r, call):
    """A client's STUN message, None for anything else."""
    m = read_stun(call[6], r.level) if call[0] == b'Q' and call[6][:1] < b'\x04' else None
    return None if isinstance(m, str) else m


def data_of(call, m):
    """Who sends data, and its peer; None where the call is neither a Send nor a peer's, or the peer is not of IPv4."""
    if call[0] == b'P':
        who, peer = 'peer', (call[2], call[3])
    elif m and m.kind == SEND and not m.unknown:
        who, peer = NO_DATA if m.first(A_DATA) is None else 'Send', read_address(m.first(A_PEER) or b'', m.txid)
    else:
        return None
    return (who, *peer) if peer and len(peer[0]) == 4 else None


def beside(slot, now, addr, port, named):
    """What could be taken for a cause, or hide it."""
    ends = [e.expiry for e in slot.perms if e.addr == addr and e.expiry]
    if len(ends) > 1:
        yield 'two entries'
    if ends and max(ends) in (now, now + 1):
        yield 'at the expiry' if max(ends) == now else 'in the last second'
    if not ends and addr in named:
        yield 'overwritten'
    if addr == ZERO4:
        yield '0.0.0.0, ' + ('fresh entries' if any(not e.expiry for e in slot.perms) else 'no fresh entry')
    if addr in named and port not in named[addr]:
        yield 'another port'
    if any(c.live(now) and (c.addr, c.port) == (addr, port) for c in slot.chans):
        yield 'a live channel'


def words(r, now, slot, named, who, addr, port):
    """Who sends, and what the permission lookup says of the slot as it is stored; then the same with each thing beside it."""
    state = r.permission_state(slot, now, addr)
    if not slot.live(now):
        yield 'cause: %s, a lapsed slot: %s' % (who, state)
        return
    yield 'cause: %s: %s' % (who, state)
    if who != NO_DATA:
        yield from ('cause: %s: %s, %s' % (who, state, what) for what in beside(slot, now, addr, port, named))


def met(r, line, named):
    """Asked after the call: what carries data leaves every slot as it was."""
    call = calls.read_line(line)
    if call is None or r.cause.startswith('R '):
        return
    slot, m = slot_of(r, call), message(r, call)
    if r.cause.startswith(('S permission ok', 'S bind ok')):
        named.add(slot, m)
    data = data_of(call, m)
    if slot is not None and data is not None:
        yield from words(r, call[1], slot, named.by(slot), *data)
