#!/usr/bin/env python3
"""Encodings of values that Debian's python3-cbor2 makes, for tests from outside.

As a program it writes them one a line, in hexadecimal digits. Floating-point numbers are left out, since only those that are not
finite are read and written here. The values are random, and the same each time.
"""

import random

import cbor2

COUNT = 1000
TAGS = [6, 24, 100, 1000, 2**40]
# With these, values have times, addresses and bignums among them.
LITERAL_TAGS = [1, 2, 3, 6, 38, 52, 54, 2**40]
WORDS = [True, False, None, cbor2.undefined]


def integer(rng):
    bits = rng.choice([3, 5, 8, 16, 32, 64, 65, 127])
    return rng.getrandbits(bits) * rng.choice([1, -1])


def text(rng):
    return "".join(chr(rng.choice([rng.randrange(0x80), rng.randrange(0xD800), rng.randrange(0x10000, 0x110000)])) for _ in range(rng.randrange(30)))


def literal(rng):
    """A time, an address or a bignum in its tag, or what is nearly one."""
    address = rng.randbytes(rng.choice([4, 16, rng.randrange(18)]))
    number, content = rng.choice([
        (1, rng.randrange(-2**33, 2**33)),
        (1, rng.choice([0, 253402300799, 253402300800, -62167219200, -62167219201])),
        (rng.choice([52, 54]), address),
        (rng.choice([52, 54]), [rng.randrange(140), address]),
        (rng.choice([52, 54]), [rng.randrange(0, 129, 8), address.rstrip(b"\0")[: rng.randrange(17)]]),
        (rng.choice([52, 54]), [address, text(rng)]),
        (rng.choice([2, 3]), rng.randbytes(rng.randrange(18))),
        (38, ["he", text(rng), rng.choice([True, False, None])]),
    ])
    return cbor2.CBORTag(number, content)


def value(rng, depth, tags, words):
    kind = rng.randrange(9 if depth else 6)
    if tags is LITERAL_TAGS and rng.randrange(4) == 0:
        return literal(rng)
    if kind == 0:
        return integer(rng)
    if kind == 1:
        return rng.randbytes(rng.randrange(40))
    if kind == 2:
        return text(rng)
    if kind == 3:
        return rng.choice(words)
    if kind == 4:
        return cbor2.CBORSimpleValue(rng.choice([*range(20), *range(32, 256)]))
    if kind == 5:
        return cbor2.CBORTag(rng.choice(tags), integer(rng))
    if kind == 6:
        return cbor2.CBORTag(rng.choice([6, 100, 70000]), value(rng, depth - 1, tags, words))
    if kind == 7:
        return [value(rng, depth - 1, tags, words) for _ in range(rng.randrange(30))]
    return {rng.choice([integer, text])(rng): value(rng, depth - 1, tags, words) for _ in range(rng.randrange(30))}


def encodings(tags=TAGS, words=WORDS):
    rng = random.Random(8949)
    return [cbor2.dumps(value(rng, 3, tags, words)) for _ in range(COUNT)]


if __name__ == "__main__":
    for tags in (TAGS, LITERAL_TAGS):
        for data in encodings(tags):
            print(data.hex())
