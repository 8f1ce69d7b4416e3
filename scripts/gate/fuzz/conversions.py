"""What the flags make of items, as `edn` has them, written from the tables of tags, literals and claims: spaces and comments aside.

A visit reaches items of sequences, arrays, maps, tags and embedded sequences, the outer one first, and none in `simple(..)`.
"""

import datetime
import ipaddress
import re

import edn

DECIMAL = re.compile(r"[+-]?(?:[0-9]+\.[0-9]{0,9}|\.[0-9]{1,9})")
ADDRESSES = {52: ipaddress.IPv4Address, 54: ipaddress.IPv6Address}
SIZES = {52: 4, 54: 16}
FIRST_SECOND, LAST_SECOND = -62167219200, 253402300799


def literal(prefix, text):
    return "string", [("quoted", prefix, text, None)]


def encoded(item):
    """The encoding of an item with its literals resolved, or None."""
    try:
        return edn.encode_item(item, False)
    except edn.Unencoded:
        return None


def bytes_of(item):
    """The bytes of a string or a stream whose pieces all are bytes, whatever their indicators, or None."""
    strings = [item[1]] if item[0] == "string" else item[1] if item[0] == "stream" else []
    contents = [content_of(piece) for pieces in strings for piece in pieces]
    return b"".join(contents) if contents and None not in contents else None


def content_of(piece):
    if piece[0] == "dots" or edn.is_other(piece) or piece[1] == '"':
        return None
    if piece[0] == "embedded":
        contents = [encoded_as_written(item) for item in piece[1]]
        return None if None in contents else b"".join(contents)
    return edn.content_of(piece[1], piece[2])


def encoded_as_written(item):
    """The encoding of an item that holds no literal of a time or an address, or None."""
    return None if holds_literal(item) else encoded(item)


def holds_literal(item):
    found = []
    visit(item, lambda part: found.append(part) if part[0] == "string" and any(map(edn.is_other, part[1])) else None)
    return bool(found)


def address_text(address):
    if address.version == 6 and address.packed[:12] == bytes(10) + b"\xff\xff":
        return "::ffff:" + str(ipaddress.IPv4Address(address.packed[12:]))
    return address.compressed


def address_item(tag):
    """The literal of an address in its tag, or the tag over an array that begins with one; or None where nothing is shown."""
    _, number, indicator, content = tag
    if indicator not in (None, "0"):
        return None
    shown = shown_address(number, content)
    return shown if shown is not None and encoded_as_written(tag) is not None and encoded(shown) == encoded_as_written(tag) else None


def shown_address(number, content):
    size, address = SIZES[number], ADDRESSES[number]
    data = bytes_of(content)
    if data is not None:
        return literal("IP", address_text(address(data))) if len(data) == size else None
    if content[0] != "array" or not content[2]:
        return None
    first, *others = content[2]
    data = bytes_of(first)
    if data is not None:
        if len(data) != size:
            return None
        return "tag", number, None, ("array", content[1], [literal("ip", address_text(address(data))), *others])
    if len(others) != 1 or first[0] != "number":
        return None
    length, data = edn.integer_of(first[1]), bytes_of(others[0])
    if length is None or data is None or not 0 <= length <= 8 * size or len(data) > size:
        return None
    return literal("IP", f"{address_text(address(data.ljust(size, bytes(1))))}/{length}")


def time_text(item):
    """The text of a time that a number stands for, or None."""
    if item[0] != "number":
        return None
    text, indicator = item[1:]
    seconds, nanoseconds = edn.integer_of(text), 0
    if seconds is not None:
        argument = seconds if seconds >= 0 else -1 - seconds
        if not FIRST_SECOND <= seconds <= LAST_SECOND or indicator not in (None, edn.cbor.shortest(argument)):
            return None
    else:
        if indicator is not None or not DECIMAL.fullmatch(text):
            return None
        whole, _, fraction = text.lstrip("+-").partition(".")
        total = int((whole or "0") + fraction.ljust(9, "0")) * (-1 if text[0] == "-" else 1)
        seconds, nanoseconds = divmod(total, 10**9)
        if not FIRST_SECOND <= seconds <= LAST_SECOND:
            return None
    # the calendar repeats itself every 400 years, which are 146097 days: in this one there is no year 0
    moved = 400 if seconds < FIRST_SECOND + 400 * 366 * 86400 else 0
    time = datetime.datetime(1970, 1, 1) + datetime.timedelta(days=146097 * moved // 400, seconds=seconds)
    digits = f"{nanoseconds:09}"
    while digits.endswith("000"):
        digits = digits[:-3]
    return f"{time.year - moved:04}-{time:%m-%dT%H:%M:%S}{'.' + digits if digits else ''}+00:00"


def time_item(tag):
    text = time_text(tag[3]) if tag[2] in (None, "i") else None
    return None if text is None else literal("DT", text)


def number_item(tag):
    """The number of a bignum in its tag, or None."""
    _, number, indicator, content = tag
    if indicator is not None or content[0] != "string":
        return None
    if any(piece[0] != "quoted" or piece[3] is not None for piece in content[1]):
        return None
    data = bytes_of(content)
    if data is None:
        return None
    value = int.from_bytes(data, "big")
    item = "number", str(value if number == 2 else -1 - value), None
    return item if encoded(item) is not None and encoded(item) == encoded(tag) else None


def resolved_item(prefix, text):
    """What a literal of a time or an address stands for, or None."""
    if prefix in ("dt", "DT"):
        instant = edn.instant_of(text)
        if instant is None:
            return None
        item = "number", decimal(*instant), None
        return ("tag", 1, None, item) if prefix == "DT" else item
    address = edn.address_of(text)
    if address is None:
        return None
    data, length = address
    item = literal("h", data.hex())
    if length is not None:
        item = "array", None, [("number", str(length), None), literal("h", data.rstrip(b"\0").hex())]
    return ("tag", 52 if len(data) == 4 else 54, None, item) if prefix == "IP" else item


def decimal(seconds, nanoseconds):
    if nanoseconds == 0:
        return str(seconds)
    total = seconds * 10**9 + nanoseconds
    whole, fraction = divmod(abs(total), 10**9)
    return f"{'-' if total < 0 else ''}{whole}.{fraction:09}".rstrip("0")


def depth(item):
    """How deep an item nests for a visit: nothing in `simple(..)` counts."""
    form = item[0]
    if form in ("array", "map", "tag"):
        return 1 + max(map(depth, parts(item)), default=0)
    return max((1 + max(map(depth, piece[1]), default=0) for piece in pieces_of(item) if piece[0] == "embedded"), default=0)


def pieces_of(item):
    if item[0] == "string":
        return item[1]
    return [piece for pieces in item[1] for piece in pieces] if item[0] == "stream" else []


def parts(item):
    if item[0] == "map":
        return [part for pair in item[2] for part in pair]
    return item[2] if item[0] == "array" else [item[3]] if item[0] == "tag" else []


def visit(item, change):
    """The item that is left where a function answers another item for some, or None."""
    left = change(item)
    if left is not None:
        if depth(left) > depth(item):
            return left
        item = left
    form = item[0]
    if form == "array":
        return form, item[1], [visit(part, change) for part in item[2]]
    if form == "map":
        return form, item[1], [(visit(key, change), visit(value, change)) for key, value in item[2]]
    if form == "tag":
        return form, item[1], item[2], visit(item[3], change)
    if form == "string":
        return form, visit_pieces(item[1], change)
    if form == "stream":
        return form, [visit_pieces(pieces, change) for pieces in item[1]]
    return item


def visit_pieces(pieces, change):
    return [(*piece[:1], [visit(item, change) for item in piece[1]], piece[2]) if piece[0] == "embedded" else piece for piece in pieces]


def by_tag(numbers, convert):
    return lambda item: convert(item) if item[0] == "tag" and item[1] in numbers else None


def by_prefix(convert):
    """For literals that are items, with a prefix that is no spelling of bytes."""

    def change(item):
        if item[0] == "string" and len(item[1]) == 1 and edn.is_other(item[1][0]):
            return convert(*item[1][0][1:3])
        return None

    return change


def by_prefixes(prefixes):
    return by_prefix(lambda prefix, text: resolved_item(prefix, text) if prefix in prefixes else None)


def with_times(item):
    """A map of claims with its times as literals."""
    if item[0] != "map":
        return item
    return item[0], item[1], [(key, claim(key, value)) for key, value in item[2]]


def claim(key, value):
    if key[0] == "number" and edn.integer_of(key[1]) in (4, 5, 6):
        text = time_text(value)
        if text is not None:
            return literal("dt", text)
    return value


def converted(items, annotate_tags, aol_to_item, annotate_ccs, bignums, apply_999):
    """The items after the steps that are asked for."""
    steps = []
    if annotate_tags:
        steps += [by_tag((52, 54), address_item), by_tag((1,), time_item)]
    if aol_to_item:
        steps += [by_prefixes(("ip", "IP")), by_prefixes(("dt", "DT"))]
    if annotate_ccs:
        steps.append(with_times)
    if bignums:
        steps.append(by_tag((2, 3), number_item))
    if apply_999:
        steps.append(by_prefix(lambda prefix, text: ("tag", 999, None, ("array", None, [literal('"', prefix), literal('"', text)]))))
    for step in steps:
        items = [step(item) if step is with_times else visit(item, step) for item in items]
    return items
