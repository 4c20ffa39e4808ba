"""Runs of `calls FILE`: a long script that runs into its list of denied prefixes, and short ones, each with a text of its own.

`runs(seed, lines)` gives texts with their scripts. A short script asks for permissions at the edges of the text's prefixes, so that its
answers show which list was read. The short texts have one prefix each, of every length over seven seeds, or are at the edge of being
refused: damaged, or near 512 nodes.
"""
import random

import gen
import prefixes
from relay import ALLOCATE, CHANNEL_BIND, CREATE_PERMISSION, u16, xor_address

ID = bytes(range(12))
SHORT = 9             # lines of a short script: an Allocate, and a request for each of the addresses around a prefix
LENGTHS = 5           # lengths of a prefix that a seed tries


def from_client(kind, *attributes):
    return f"Q\t1000\t1\t0\tc6336407\t40000\t{gen.stun(kind, attributes, ID).hex()}\n".encode()


def peer(address):
    return 0x12, xor_address(address.to_bytes(4, "big"), 5000, ID)


def allocate():
    return from_client(ALLOCATE, (0x19, bytes([17, 0, 0, 0])))


def permit(address):
    return from_client(CREATE_PERMISSION, peer(address))


def bind(address, number):
    return from_client(CHANNEL_BIND, (0x0C, u16(number) + bytes(2)), peer(address))


def short_script(r, listed):
    addresses = prefixes.around(r, r.choice(listed))
    r.shuffle(addresses)
    return allocate() + b"".join(permit(a) if r.random() < 0.5 else bind(a, 0x4000 + n) for n, a in enumerate(addresses))


# -- texts that may be refused


def with_length(length):
    return lambda r, line: line[:9] + b"%d" % length


# What may be wrong with a line.
DAMAGES = [
    lambda r, line: b"",
    lambda r, line: line.upper(),
    lambda r, line: line[:8],
    lambda r, line: line[:9],
    lambda r, line: line[1:],
    lambda r, line: b"0" + line,
    lambda r, line: line[:8] * 4 + line[8:],
    lambda r, line: line.replace(b"\t", r.choice((b"", b" ", b"\t\t", b"\t0", b"\t+", b"\t-", b"/", b" \t", b"\t ", b"\t1"))),
    lambda r, line: line + r.choice((b"\t", b" ", b"\r", b"\0", b"0", b"\t0")),
    lambda r, line: r.choice((b" ", b"\t", b"0x", b"\xef\xbb\xbf")) + line,
    lambda r, line: b"%08x\t%d" % (int(line[:8], 16) | 1, r.randrange(32)),
    lambda r, line: b"%08x\t%d" % (1 << r.randrange(32), r.randrange(33)),
    *map(with_length, (33, 64, 100, 256, 288, 2**32, 2**64, 2**64 + 8)),
]


def damaged(r, listed):
    """A text of which one line may be bad."""
    lines = prefixes.text(listed).splitlines()
    at = r.randrange(len(lines))
    lines[at] = r.choice(DAMAGES)(r, lines[at])
    return b"".join(line + b"\n" for line in lines)


def torn(r, listed):
    text = prefixes.text(listed)
    return text[:r.randrange(1, len(text))]


def one_byte_off(r, listed):
    text = bytearray(prefixes.text(listed))
    text[r.randrange(len(text))] = r.choice(b"\n\t 0123789abcfgF\0\xff")
    return bytes(text)


def near_512_nodes(r, listed):
    """A text for some nodes fewer or more than there may be, in any order."""
    found = prefixes.of_nodes(r.randrange(509, 516), listed[0][0])
    r.shuffle(found)
    return prefixes.text(found)


def full_and_more(r, listed):
    """A text for 512 nodes, and two lines more: one that needs no node, one that needs some, or a bad one."""
    found = prefixes.text(prefixes.of_nodes(512, listed[0][0]))
    more = [prefixes.text([prefixes.cut(listed[0][0], r.randrange(33))]), prefixes.text([(r.randrange(2**32), 32)]), b"\n"]
    r.shuffle(more)
    return found + b"".join(more[:2])


SORTS = (damaged, torn, one_byte_off, near_512_nodes, full_and_more)


def short_runs(seed):
    r = random.Random(f"denied texts {seed}")
    for n in range(LENGTHS):
        listed = [prefixes.cut(r.randrange(2**32), (LENGTHS * seed + n) % 33)]
        yield prefixes.text(listed), short_script(r, listed)
    for sort in SORTS:
        listed = [prefixes.cut(r.choice(prefixes.PLACES), r.randrange(33)) for _ in range(4)]
        yield sort(r, listed), short_script(r, listed)


def runs(seed, lines):
    """Texts and scripts, with so many lines in all scripts together; few lines are all the long script's."""
    short = list(short_runs(seed))
    left = lines - len(short) * SHORT
    if left <= 0:
        short, left = [], lines
    return short + [(gen.denied_text(seed, gen.DENIED), gen.script(seed, left, gen.DENIED))]
