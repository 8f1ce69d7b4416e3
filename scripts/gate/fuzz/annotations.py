"""What `cbor2diag` makes of decoded items, comments included, written from the tables of claims, algorithms and faults.

An item with comments behind it is ("noted", item, comments). A new comment stands in front of the ones that are there.
"""

import conversions
import edn
from conversions import SIZES, bytes_of

CLAIMS = {1: "iss", 2: "sub", 3: "aud", 4: "exp", 5: "nbf", 6: "iat", 7: "jti", 8: "cnf", 9: "scope", 38: "ace_profile", 39: "cnonce", 40: "exi"}
CONFIRMATION = {3: "kid", 4: "osc"}
OSCORE = {0: "id", 1: "version", 2: "ms", 3: "hkdf", 4: "alg", 5: "salt", 6: "contextId"}
ALGORITHMS = {
    -18: "SHAKE128", -17: "SHA-512/256", -16: "SHA-256", -15: "SHA-256/64", -14: "SHA-1", -13: "direct+HKDF-AES-256",
    -12: "direct+HKDF-AES-128", -11: "direct+HKDF-SHA-512", -10: "direct+HKDF-SHA-256", -9: "Unassigned", -8: "EdDSA", -7: "ES256",
    -6: "direct", -5: "A256KW", -4: "A192KW", -3: "A128KW", 0: "Reserved", 1: "A128GCM", 2: "A192GCM", 3: "A256GCM", 4: "HMAC 256/64",
    5: "HMAC 256/256", 6: "HMAC 384/384", 7: "HMAC 512/512", 10: "AES-CCM-16-64-128", 11: "AES-CCM-16-64-256", 12: "AES-CCM-64-64-128",
    13: "AES-CCM-64-64-256", 14: "AES-MAC 128/64", 15: "AES-MAC 256/64", 24: "ChaCha20/Poly1305",
}  # fmt: skip
DIRECTIONS = {"true": "Right-to-left", "false": "Left-to-right", "null": "Automatic direction"}
CHANGED = "Conversion would change the encoding"


def noted(item, words):
    if words is None:
        return item
    comment = f"# {words}\n" if "/" in words else f"/ {words} /"
    return ("noted", item[1], comment + item[2]) if item[0] == "noted" else ("noted", item, comment)


def bare(item):
    """The item itself, whose parts may have comments."""
    return item[1] if item[0] == "noted" else item


def entered(item, change):
    """As `conversions.visit`: what a function answers is another item or None, and the words of a comment or None."""
    comments = item[2] if item[0] == "noted" else None
    item = bare(item)
    left, words = change(item)
    if left is None or depth(left) <= depth(item):
        item = with_parts(left or item, lambda part: entered(part, change))
    else:
        item = left
    return noted(item if comments is None else ("noted", item, comments), words)


def with_parts(item, change):
    form = item[0]
    if form == "array":
        return form, item[1], [change(part) for part in item[2]]
    if form == "map":
        return form, item[1], [(change(key), change(value)) for key, value in item[2]]
    if form == "tag":
        return form, item[1], item[2], change(item[3])
    if form == "string" and item[1][0][0] == "embedded":
        return form, [(piece[0], [change(part) for part in piece[1]], piece[2]) for piece in item[1]]
    return item


def stripped(item):
    """The item without comments anywhere."""
    return with_parts(bare(item), stripped)


def depth(item):
    return conversions.depth(stripped(item))


def address(tag):
    shown = conversions.address_item(stripped(tag))
    return shown, None if shown else address_fault(tag[1], stripped(tag[3]))


def address_fault(number, content):
    """Why no address is shown, in the order in which the reasons are looked for."""
    if bytes_of(content) is not None:
        return size_fault(number, bytes_of(content))
    if content[0] != "array":
        return "Unexpected type for this tag"
    if not content[2]:
        return "Array too short for IP tag"
    first, *others = content[2]
    if bytes_of(first) is not None:
        return size_fault(number, bytes_of(first))
    if not others:
        return "Array too short for IP tag"
    if len(others) > 1:
        return "Address with prefix and zone identifier is inexpressible in IP'' literal"
    if first[0] != "number":
        return "Address with prefix is inexpressible in IP'' literal"
    if bytes_of(others[0]) is None:
        return "Second element after an integer must be a byte string"
    if len(bytes_of(others[0])) > SIZES[number]:
        return "Data too long for address type"
    if not 0 <= edn.integer_of(first[1]) <= 8 * SIZES[number]:
        return "Prefix exceeds address size"
    return CHANGED


def size_fault(number, data):
    if len(data) > SIZES[number]:
        return "Data too long for address type"
    return "Data too short for address type" if len(data) < SIZES[number] else CHANGED


def time(tag):
    shown = conversions.time_item((*tag[:3], bare(tag[3])))
    return shown, None if shown else time_fault(bare(tag[3]))


def time_fault(item):
    if item[0] != "number":
        return "Numeric value expected for dt'' literal"
    if not conversions.FIRST_SECOND <= edn.integer_of(item[1]) <= conversions.LAST_SECOND:
        return "Value out of range for time stamps"
    return CHANGED


def language(tag):
    content = bare(tag[3])
    if content[0] != "array":
        return None, "Expected array"
    entries = list(content[2])
    if len(entries) > 2 and bare(entries[2])[0] == "word":
        entries[2] = noted(entries[2], DIRECTIONS.get(bare(entries[2])[1]))
    array = "array", content[1], entries
    return (*tag[:3], ("noted", array, tag[3][2]) if tag[3][0] == "noted" else array), None


def bignum(tag):
    return conversions.number_item(stripped(tag)), None


def by_tag(numbers, convert):
    return lambda item: convert(item) if item[0] == "tag" and item[1] in numbers else (None, None)


def resolved(prefixes):
    convert = conversions.by_prefixes(prefixes)
    return lambda item: (convert(item), None)


def integer(item):
    return edn.integer_of(bare(item)[1]) if bare(item)[0] == "number" else None


def claims(item):
    """A map with its claims named and their times shown."""
    if bare(item)[0] != "map":
        return item
    return with_pairs(item, lambda key: CLAIMS.get(integer(key)), {4: timestamp, 5: timestamp, 6: timestamp, 8: confirmation})


def with_pairs(item, name, handlers):
    """A map whose keys have names as comments, and the values of some another form. A key that is no integer may be refused."""
    _, indicator, pairs = bare(item)
    pairs = [(noted(key, name(key)), handlers.get(integer(key), lambda value: value)(value)) for key, value in pairs]
    changed = "map", indicator, pairs
    return ("noted", changed, item[2]) if item[0] == "noted" else changed


def timestamp(value):
    text = conversions.time_text(bare(value))
    if text is None:
        return noted(value, time_fault(bare(value)))
    shown = conversions.literal("dt", text)
    return ("noted", shown, value[2]) if value[0] == "noted" else shown


def confirmation(value):
    if bare(value)[0] != "map":
        return noted(value, "Expected map")
    return with_pairs(value, lambda key: CONFIRMATION.get(integer(key)), {4: oscore})


def oscore(value):
    if bare(value)[0] != "map":
        return noted(value, "Expected map")
    name = lambda key: "Expected integer" if integer(key) is None else OSCORE.get(integer(key))  # noqa: E731
    return with_pairs(value, name, {3: algorithm, 4: algorithm})


def algorithm(value):
    return noted(value, ALGORITHMS.get(integer(value)))


def annotated(items, annotate_tags, aol_to_item, annotate_ccs, bignums):
    """The items after the steps that are asked for, with their comments."""
    steps = []
    if annotate_tags:
        steps += [by_tag((52, 54), address), by_tag((1,), time), by_tag((38,), language)]
    if aol_to_item:
        steps += [resolved(("ip", "IP")), resolved(("dt", "DT"))]
    if annotate_ccs:
        steps.append(claims)
    if bignums:
        steps.append(by_tag((2, 3), bignum))
    for step in steps:
        items = [step(item) if step is claims else entered(item, step) for item in items]
    return items
