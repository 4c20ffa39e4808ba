"""A small TURN client on sockets, written from RFC 8656 and RFC 8489 and from none of the relay's code."""
import os
import socket
import struct

COOKIE = 0x2112A442
ALLOCATE, REFRESH, PERMIT, BIND, SEND, DATA = 0x0003, 0x0004, 0x0008, 0x0009, 0x0016, 0x0017
ERROR_CODE, CHANNEL_NUMBER, LIFETIME, PEER, DATA_ATTR, RELAYED = 0x0009, 0x000C, 0x000D, 0x0012, 0x0013, 0x0016
TRANSPORT, MAPPED = 0x0019, 0x0020


class TurnError(Exception):
    """An error response; its code is `code`, and `found` has its attributes."""

    def __init__(self, code, found):
        super().__init__(f"error {code}")
        self.code, self.found = code, found


def attribute(kind, value):
    return struct.pack("!HH", kind, len(value)) + value + bytes(-len(value) % 4)


def message(kind, transaction, attributes):
    body = b"".join(attributes)
    return struct.pack("!HHI", kind, len(body), COOKIE) + transaction + body


def xor_address(host, port):
    number = struct.unpack("!I", socket.inet_aton(host))[0] ^ COOKIE
    return struct.pack("!BBHI", 0, 1, port ^ (COOKIE >> 16), number)


def read_address(value, transaction):
    port = struct.unpack("!H", value[2:4])[0] ^ (COOKIE >> 16)
    key = struct.pack("!I", COOKIE) + transaction
    raw = bytes(a ^ b for a, b in zip(value[4:], key))
    return socket.inet_ntop(socket.AF_INET if value[1] == 1 else socket.AF_INET6, raw), port


def read_message(raw):
    """The type, transaction id and attributes of a STUN message; fails on any that is not well formed."""
    kind, length, cookie = struct.unpack("!HHI", raw[:8])
    assert cookie == COOKIE and length == len(raw) - 20 and length % 4 == 0, raw.hex()
    attributes, place = {}, 20
    while place < len(raw):
        name, size = struct.unpack("!HH", raw[place:place + 4])
        assert place + 4 + size <= len(raw), raw.hex()
        attributes.setdefault(name, raw[place + 4:place + 4 + size])
        place += 4 + size + -size % 4
    return kind, raw[8:20], attributes


class Client:
    """One 5-tuple: a socket and the server."""

    def __init__(self, server, local=None, sock=None):
        family = socket.AF_INET6 if ":" in server[0] else socket.AF_INET
        self.sock = sock or socket.socket(family, socket.SOCK_DGRAM)
        if local:
            self.sock.bind(local)
        self.sock.connect(server)
        self.waiting = []

    def make(self, kind, transaction, attributes):
        """A request as it is sent."""
        return message(kind, transaction, attributes)

    def request(self, kind, *attributes):
        """Sends a request and gives the attributes of its success; data that comes in between is kept."""
        self.request_sent = self.make(kind, os.urandom(12), attributes)
        return self.ask(self.request_sent)

    def ask(self, request):
        """Sends these bytes, which are a request, and gives the attributes of its success."""
        kind, transaction = struct.unpack("!H", request[:2])[0], request[8:20]
        self.sock.send(request)
        self.sock.settimeout(5)
        while True:
            raw = self.sock.recv(65536)
            if raw[0] < 4:
                answer, same, found = read_message(raw)
                if same == transaction:
                    break
            self.waiting.append(raw)
        self.transaction, self.answer = transaction, raw
        assert answer in (kind | 0x0100, kind | 0x0110), hex(answer)
        if answer == kind | 0x0110:
            code = found[ERROR_CODE]
            raise TurnError(code[2] * 100 + code[3], found)
        return found

    def allocate(self, lifetime=None):
        wanted = [attribute(TRANSPORT, bytes([17, 0, 0, 0]))]
        if lifetime is not None:
            wanted.append(attribute(LIFETIME, struct.pack("!I", lifetime)))
        found = self.request(ALLOCATE, *wanted)
        self.relayed = read_address(found[RELAYED], self.transaction)
        self.mapped = read_address(found[MAPPED], self.transaction)
        self.lifetime = struct.unpack("!I", found[LIFETIME])[0]
        return self.relayed

    def refresh(self, lifetime):
        found = self.request(REFRESH, attribute(LIFETIME, struct.pack("!I", lifetime)))
        return struct.unpack("!I", found[LIFETIME])[0]

    def permit(self, *hosts):
        self.request(PERMIT, *[attribute(PEER, xor_address(host, 0)) for host in hosts])

    def bind(self, number, peer):
        self.request(BIND, attribute(CHANNEL_NUMBER, struct.pack("!HH", number, 0)), attribute(PEER, xor_address(*peer)))

    def send(self, peer, data):
        self.sock.send(message(SEND, os.urandom(12), [attribute(PEER, xor_address(*peer)), attribute(DATA_ATTR, data)]))

    def channel(self, number, data):
        self.sock.send(struct.pack("!HH", number, len(data)) + data)

    def receive(self, timeout=2):
        """The next data: ('data', peer, bytes) or ('channel', number, bytes); None if nothing comes."""
        if self.waiting:
            raw = self.waiting.pop(0)
        else:
            self.sock.settimeout(timeout)
            try:
                raw = self.sock.recv(65536)
            except (socket.timeout, BlockingIOError):
                return None
        if 64 <= raw[0] <= 79:
            number, length = struct.unpack("!HH", raw[:4])
            assert length == len(raw) - 4, raw.hex()
            return "channel", number, raw[4:]
        kind, transaction, found = read_message(raw)
        assert kind == DATA, hex(kind)
        return "data", read_address(found[PEER], transaction), found[DATA_ATTR]

    def close(self):
        self.sock.close()
