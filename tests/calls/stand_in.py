"""A stand-in for `calls`, made of the model, with at most one fault: what tests/calls/faults tries the tests on.

    python3 tests/calls/stand_in.py FAULT [FILE] <script
"""
import itertools
import os
import sys
import time

sys.dont_write_bytecode = True
import program
import calls as model
import causes
import prefixes
import relay

FAULT = sys.argv[1]
LONGEST = 3201 if FAULT == "takes 3,201 characters" else 3200
MOST = {"writes each answer by itself": 0, "gathers all answers": 1 << 30}.get(FAULT, 32768 - 4096)


def rule(cls, name, change):
    """Replaces a function of the model by one that is made of it."""
    setattr(cls, name, change(getattr(cls, name)))


def extends(send):
    def sent(self, now, tuple5, m):
        out = send(self, now, tuple5, m)
        for p in self.slots[self.find_tuple(now, tuple5)].perms:
            p.expiry = now + 300 if p.addr == out[2] else p.expiry
        return out
    return sent


def for_any_user(allocate):
    def allocated(self, now, user, start, relay_addr, tuple5, m, token):
        own = self.find_tuple(now, tuple5)
        return allocate(self, now, user if own is None else self.slots[own].user, start, relay_addr, tuple5, m, token)
    return allocated


def told_437(_):
    def repeated(self, now, relay_addr, tuple5, m, slot):
        raise relay.Error(437, "has allocation")
    return repeated


def extended(repeat):
    def repeated(self, now, relay_addr, tuple5, m, slot):
        out = repeat(self, now, relay_addr, tuple5, m, slot)
        slot.expiry = now + 600
        return out
    return repeated


# -- denied prefixes


def looked_up(covers):
    """A lookup by a test of the address and one prefix."""
    return lambda _: lambda self, addr: any(covers(int.from_bytes(addr, "big"), prefix) for prefix in self.prefixes)


def shortened(prefix):
    """Without its last bit."""
    return prefixes.cut(prefix[0], max(0, prefix[1] - 1))


def by_the_last_node(_):
    def covered(self, addr):
        bits = format(int.from_bytes(addr, "big"), "032b")
        return prefixes.cut(int(bits, 2), max(n for n in range(33) if bits[:n] in self.nodes)) in self.prefixes
    return covered


class FirstOnly:
    """Denies what the tree does, the first time that it is asked."""

    def __init__(self, denied):
        self.denied, self.is_first = denied, True

    def covers(self, addr):
        is_first, self.is_first = self.is_first, False
        return is_first and self.denied.covers(addr)


def nothing(_):
    return relay.Denied()


def with_denied(change):
    """A request that is answered as if what is denied were changed."""
    def changed(request):
        def answered(self, *call):
            kept, self.denied = self.denied, change(self.denied)
            try:
                return request(self, *call)
            finally:
                self.denied = kept
        return answered
    return changed


def denied_early(create_permission):
    def created(self, now, user, tuple5, m):
        self.owned(now, user, tuple5)
        peers = [relay.read_address(v, m.txid) for v in m.all(relay.A_PEER)]
        if None not in peers and any(len(a) == 4 and self.denied.covers(a) for a, _ in peers):
            raise relay.Error(403, "denied")
        return create_permission(self, now, user, tuple5, m)
    return created


def denied_late(request):
    """All other checks are made first, on a slot that is put back."""
    def answered(self, now, user, tuple5, m):
        try:
            return request(self, now, user, tuple5, m)
        except relay.Error as error:
            if error.code == 403:
                slot = self.slots[self.find_tuple(now, tuple5)]
                kept = list(slot.perms), list(slot.chans)
                with_denied(nothing)(request)(self, now, user, tuple5, m)
                slot.perms, slot.chans = kept
            raise
    return answered


def denied_clients(peer_datagram):
    def datagram(self, *call):
        out = peer_datagram(self, *call)
        if len(out[1].client_addr) == 4 and self.denied.covers(out[1].client_addr):
            raise relay.Drop("denied")
        return out
    return datagram


def up_to_a_bad_line(load):
    return lambda self, text: load(self, b"\n".join(itertools.takewhile(self.read_line, text.split(b"\n"))))


def bad_line_first(load):
    return lambda self, text: 9 if any(self.read_line(line) is None for line in model.split_lines(text)) else load(self, text)


def fewer_nodes(load):
    return lambda self, text: load(self, text) or (10 if len(self.nodes) > 511 else 0)


# A fault, and the function of the model that is changed for it.
DENIED_FAULTS = {
    "the last bit of a prefix is not compared": (relay.Denied, "covers", looked_up(lambda a, prefix: prefixes.covers(shortened(prefix), a))),
    "the lookup stops one bit early": (relay.Denied, "covers", looked_up(lambda a, prefix: prefix[1] < 32 and prefixes.covers(prefix, a))),
    "a prefix of length 0 is not seen": (relay.Denied, "covers", looked_up(lambda a, prefix: prefix[1] > 0 and prefixes.covers(prefix, a))),
    "the last node alone is asked": (relay.Denied, "covers", by_the_last_node),
    "a list ends at its bad line": (relay.Denied, "load", up_to_a_bad_line),
    "a bad line goes before the lack of room": (relay.Denied, "load", bad_line_first),
    "512 nodes are too many": (relay.Denied, "load", fewer_nodes),
    "403 before 443": (relay.Relay, "create_permission", denied_early),
    "403 after 508": (relay.Relay, "create_permission", denied_late),
    "only the first address is looked up": (relay.Relay, "create_permission", with_denied(FirstOnly)),
    "ChannelBind looks nothing up": (relay.Relay, "channel_bind", with_denied(nothing)),
    "ChannelBind looks its peer up last": (relay.Relay, "channel_bind", denied_late),
    "data for a client that is listed is dropped": (relay.Relay, "peer_datagram", denied_clients),
}


def spoil_denied():
    if FAULT in DENIED_FAULTS:
        rule(*DENIED_FAULTS[FAULT])
    elif FAULT == "takes a list of 65,537 bytes":
        model.LONGEST_TEXT = 65537
    elif FAULT == "reads a list once":
        model.open = lambda name, mode: open(name, mode, buffering=0)


# -- why a datagram is dropped

NAMED = causes.Named()


def fresh_as_lapsed(permission_state):
    def looked_up(self, slot, now, addr):
        state = permission_state(self, slot, now, addr)
        return "lapsed" if state == "never" and any(p.addr == addr for p in slot.perms) else state
    return looked_up


def a_second_early(permission_state):
    return lambda self, slot, now, addr: permission_state(self, slot, now + 1, addr)


def of_port(drop, now, slot, peer):
    """A permission counts as lapsed for the ports alone that were named with it."""
    return "never" if drop.reason == "lapsed" and peer[1] not in NAMED.by(slot)[peer[0]] else drop.reason


def of_overwritten(drop, now, slot, peer):
    return "lapsed" if drop.reason == "never" and peer[0] in NAMED.by(slot) else drop.reason


def of_channels(drop, now, slot, peer):
    is_bound = drop.reason != "other" and any(c.live(now) and (c.addr, c.port) == peer for c in slot.chans)
    return "other" if is_bound else drop.reason


def of_no_data(drop, now, slot, peer):
    is_missing = drop.why == "send-no-data" and not any(p.addr == peer[0] and p.expiry for p in slot.perms)
    return "never" if is_missing else drop.reason


def of_lapsed_slots(drop, now, slot, peer):
    is_over = drop.why in ("send-no-allocation", "peer-no-slot") and slot is not None
    return "lapsed" if is_over and peer and any(p.addr == peer[0] and p.expiry for p in slot.perms) else drop.reason


def of_ipv6(drop, now, slot, peer):
    return "never" if drop.why.endswith("-IPv6") else drop.reason


def retold(word):
    """Sends and peers' datagrams whose drops say what `word` makes of the drop, the time, the slot that is meant, live or not, and the peer."""
    def sending(send):
        def sent(self, now, tuple5, m):
            try:
                return send(self, now, tuple5, m)
            except relay.Drop as drop:
                slot = causes.live_or_over(self.slots, now, lambda s: s.tuple5 == tuple5)
                drop.reason = word(drop, now, slot, relay.read_address(m.first(relay.A_PEER) or b"", m.txid))
                raise
        return sent

    def receiving(peer_datagram):
        def received(self, now, addr, port, relay_port, *rest):
            try:
                return peer_datagram(self, now, addr, port, relay_port, *rest)
            except relay.Drop as drop:
                slot = causes.live_or_over(self.slots, now, lambda s: s.port == relay_port)
                drop.reason = word(drop, now, slot, (addr, port))
                raise
        return received
    rule(relay.Relay, "send", sending)
    rule(relay.Relay, "peer_datagram", receiving)


def naming(request):
    def answered(self, now, user, tuple5, m):
        out = request(self, now, user, tuple5, m)
        NAMED.add(self.slots[self.find_tuple(now, tuple5)], m)
        return out
    return answered


def channels_never(channel_data):
    def relayed(self, now, tuple5, d):
        try:
            return channel_data(self, now, tuple5, d)
        except relay.Drop as drop:
            drop.reason = "never"
            raise
    return relayed


# A fault, and how the permission lookup is changed for it, or what a drop says.
LOOKUP_FAULTS = {
    "a fresh entry counts as lapsed": fresh_as_lapsed,
    "a permission is lapsed in its last second": a_second_early,
}
CAUSE_FAULTS = {
    "an overwritten entry counts as lapsed": of_overwritten,
    "the port is compared": of_port,
    "a live channel says other": of_channels,
    "a Send without DATA says never": of_no_data,
    "a lapsed slot says lapsed": of_lapsed_slots,
    "an IPv6 peer says never": of_ipv6,
}


def spoil_causes():
    if FAULT in LOOKUP_FAULTS:
        rule(relay.Relay, "permission_state", LOOKUP_FAULTS[FAULT])
    elif FAULT in CAUSE_FAULTS:
        rule(relay.Relay, "create_permission", naming)
        rule(relay.Relay, "channel_bind", naming)
        retold(CAUSE_FAULTS[FAULT])
    elif FAULT == "ChannelData says never":
        rule(relay.Relay, "channel_data", channels_never)


def spoil_rules():
    if FAULT == "a permission lives at its expiry":
        relay.Permission.live = lambda self, t: t <= self.expiry
    elif FAULT == "a slot lives at its expiry":
        relay.Slot.live = lambda self, t: t <= self.expiry
    elif FAULT == "a Send extends its permission":
        rule(relay.Relay, "send", extends)
    elif FAULT == "channel 0x4FFF is never live":
        relay.Channel.live = lambda self, t: t < self.expiry and 0x4000 <= self.number <= 0x4FFE
    elif FAULT == "a lifetime of 3,601 seconds is granted":
        relay.granted_lifetime = lambda value, refresh: 600 if value is None else value if value == 3601 or refresh and value == 0 \
            else max(600, min(value, 3600))
    elif FAULT == "a repeat gets 437":
        rule(relay.Relay, "repeat", told_437)
    elif FAULT == "a repeat of another user is answered":
        rule(relay.Relay, "allocate", for_any_user)
    elif FAULT == "a repeat extends its allocation":
        rule(relay.Relay, "repeat", extended)
    elif FAULT == "padding is not zero":
        relay.attribute = lambda kind, value: relay.u16(kind) + relay.u16(len(value)) + value + b" " * (-len(value) % 4)
    elif FAULT == "the port search does not wrap":
        relay.PORTS = 127


def read(n):
    got = os.read(0, n)
    if FAULT == "loses a byte at each 65,536" and len(got) == 65536:
        return got[:-1]
    return got


def batches():
    """The whole lines of each read, and at the end a last one without a newline."""
    kept = b""
    while got := read(65536):
        if FAULT == "waits for the end" or FAULT == "waits for half a line" and not got.endswith(b"\n"):
            kept += got
            continue
        if FAULT == "takes a part for the line":
            yield [got.rstrip(b"\n")]
            continue
        *whole, kept = (kept + got).split(b"\n")
        yield whole
    parts = kept.split(b"\n")
    yield parts[:-1]
    if parts[-1] and FAULT != "forgets a line without a newline":
        yield parts[-1:]


def answer(state, line):
    if FAULT == "cuts a long line":
        line = line[:3200]
    if len(line) == LONGEST == 3201:
        line = line[:-2]
    if FAULT == "trims a carriage return":
        line = line.rstrip(b"\r")
    out = model.one_line(state, line).encode() + b"\n"
    if FAULT == "a drop gives no cause" and out.startswith(b"D"):
        return b"D\n"
    return out[:-2] + b"0\n" if FAULT == "one digit is wrong" and out.endswith(b"1\n") else out


def write(data):
    """Whether all of it was written."""
    try:
        while data:
            data = data[os.write(1, data):]
        return True
    except OSError as wrong:
        if FAULT == "complains about its reader":
            sys.stderr.write(f"calls: {wrong}\n")
        if FAULT == "hangs without a reader":
            time.sleep(1000)
        return FAULT == "goes on without a reader"


def answer_all(state, lines):
    """Answers the lines of a batch; whether every answer was written."""
    gathered = b""
    for line in lines:
        if len(gathered) > MOST:
            if not write(gathered):
                return False
            gathered = b""
        gathered += answer(state, line)
    return write(gathered)


def started(files):
    """An empty relay that denies what the file lists, or none where there is nothing more to answer."""
    try:
        text = model.denied_text(files[:1] if FAULT == "takes a second argument" else files)
    except (OSError, ValueError) as wrong:
        if FAULT != "gives no reason":
            sys.stderr.write(f"calls: {wrong}\n")
        write(b"E\n")
        return None
    state, refused = model.relay_denying(text)
    write(refused)
    return state if not refused or FAULT == "goes on after a refused list" else None


def main():
    spoil_rules()
    spoil_denied()
    spoil_causes()
    state = started(sys.argv[2:])
    if state is None:
        return
    for lines in batches():
        if not answer_all(state, lines):
            if FAULT == "lists after a lost answer":
                break
            return
    if FAULT != "has no listing":
        write(state.listing())


try:
    main()
except OSError:
    pass
