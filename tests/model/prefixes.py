#!/usr/bin/env python3
"""Lists of denied prefixes (request 2), and addresses in and beside them.

python3 prefixes.py SEED      the text that gen.py's script of the profile `denied` with this seed runs into

A prefix is (value, length); the bits of the value after the length are zero.
"""
import random
import sys

LENGTHS = (1, 7, 8, 8, 8, 9, 16, 24, 30, 31, 31, 31, 32, 32, 32)
# places for prefixes: peers and clients of gen.py, the relay itself, the ends of all addresses
PLACES = (0xC0000296, 0xC0000200, 0xC6336407, 0xC6336408, 0xCB007105, 0, 2 ** 32 - 1)


def cut(address, length):
    """The prefix of this length that covers the address."""
    return address >> (32 - length) << (32 - length), length


def covers(prefix, address):
    return cut(address, prefix[1]) == prefix


def text(prefixes):
    return b''.join(b'%08x\t%d\n' % prefix for prefix in prefixes)


def of_nodes(count, address=0):
    """Prefixes that need so many nodes, from 34 to 561: the address itself, and one that branches off its path at each depth."""
    out, left = [(address, 32)], count - 33
    for depth in range(32):
        more = min(32 - depth, left)
        if more:
            out.append(cut(address ^ 1 << 31 - depth, depth + more))
        left -= more
    return out


def listed(seed):
    """Prefixes in the order of the text: of several lengths, some in others, some twice; seldom all addresses, sometimes as many as fit."""
    r = random.Random('denied %s' % seed)
    if r.random() < 0.2:
        out = of_nodes(r.choice((510, 511, 512, 512)), r.randrange(2 ** 32))
    else:
        out = []
        for _ in range(r.choice((2, 3, 6))):
            address = r.choice(PLACES) if r.random() < 0.5 else r.randrange(2 ** 32)
            out += [cut(address, n) for n in r.sample(LENGTHS, r.choice((1, 1, 2, 3)))]
    if r.random() < 0.08:
        out.append((0, 0))
    out += r.choices(out, k=r.randrange(3))
    r.shuffle(out)
    return out


def around(r, prefix):
    """The first and the last address in the prefix and one between them, these with its last bit the other way, and the ones before and behind."""
    value, length = prefix
    size = 2 ** (32 - length)
    inner = [value, value + size - 1, value + r.randrange(size)]
    return [a % 2 ** 32 for a in inner + [a ^ size for a in inner] + [value - 1, value + size]]


def peers(r, prefixes, count):
    """Addresses for peers, as bytes: the first is denied, and a quarter of them, or more where there are not enough others."""
    found = [a for prefix in r.sample(prefixes, min(len(prefixes), count)) for a in around(r, prefix)]
    r.shuffle(found)
    found = list(dict.fromkeys(found + [r.randrange(2 ** 32) for _ in range(count)]))
    is_denied = {a: any(covers(prefix, a) for prefix in prefixes) for a in found}
    denied = [a for a in found if is_denied[a]]
    others = [a for a in found if not is_denied[a]][:count * 3 // 4]
    rest = others + denied[1:count - len(others)]
    r.shuffle(rest)
    return [a.to_bytes(4, 'big') for a in denied[:1] + rest]


if __name__ == '__main__':
    sys.stdout.buffer.write(text(listed(sys.argv[1])))
