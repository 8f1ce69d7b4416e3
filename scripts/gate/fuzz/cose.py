"""The names that `show` puts into messages and keys of COSE, and the claims in messages, written from the tables of RFC 9052, 9053 and 9360.

Items have comments as in `annotations`.
"""

from annotations import ALGORITHMS, annotated, bare, by_tag, claims, entered, integer, noted, with_pairs

NAMES = {
    **ALGORITHMS,
    -36: "ES512", -35: "ES384", -34: "ECDH-SS + A256KW", -33: "ECDH-SS + A192KW", -32: "ECDH-SS + A128KW", -31: "ECDH-ES + A256KW",
    -30: "ECDH-ES + A192KW", -29: "ECDH-ES + A128KW", -28: "ECDH-SS + HKDF-512", -27: "ECDH-SS + HKDF-256", -26: "ECDH-ES + HKDF-512",
    -25: "ECDH-ES + HKDF-256", 25: "AES-MAC 128/128", 26: "AES-MAC 256/128", 30: "AES-CCM-16-128-128", 31: "AES-CCM-16-128-256",
    32: "AES-CCM-64-128-128", 33: "AES-CCM-64-128-256",
}  # fmt: skip
HEADERS = {
    1: "alg", 2: "crit", 3: "content type", 4: "kid", 5: "IV", 6: "Partial IV", 7: "counter signature", 32: "x5bag", 33: "x5chain",
    34: "x5t", 35: "x5u",
}  # fmt: skip
MESSAGES = {
    16: ("COSE_Encrypt0", ["protected", "unprotected", "ciphertext"]),
    17: ("COSE_Mac0", ["protected", "unprotected", "payload", "tag"]),
    18: ("COSE_Sign1", ["protected", "unprotected", "payload", "signature"]),
    96: ("COSE_Encrypt", ["protected", "unprotected", "ciphertext", "recipients"]),
    97: ("COSE_Mac", ["protected", "unprotected", "payload", "tag", "recipients"]),
    98: ("COSE_Sign", ["protected", "unprotected", "payload", "signatures"]),
}
INNER = {
    "signatures": ["protected", "unprotected", "signature"],
    "recipients": ["protected", "unprotected", "ciphertext", "recipients"],
}
METHODS = {1: "COSE_Key", 2: "Encrypted_COSE_Key"}
TYPES = {1: "OKP", 2: "EC2", 4: "Symmetric"}
CURVES = {1: "P-256", 2: "P-384", 3: "P-521", 4: "X25519", 5: "X448", 6: "Ed25519", 7: "Ed448"}
PARAMETERS = {1: "kty", 2: "kid", 3: "alg", 4: "key_ops", 5: "Base IV"}
OF_TYPE = {1: {-1: "crv", -2: "x", -4: "d"}, 2: {-1: "crv", -2: "x", -3: "y", -4: "d"}, 4: {-1: "k"}}


def kept(item, changed):
    """Another item in the place of one, with its comments."""
    return ("noted", changed, item[2]) if item[0] == "noted" else changed


def by(names):
    return lambda item: noted(item, names.get(integer(item)))


def with_names(item, names, handlers):
    """A map whose keys have names. Anything else stays."""
    return with_pairs(item, lambda key: names.get(integer(key)), handlers) if bare(item)[0] == "map" else item


def headers(item):
    return with_names(item, HEADERS, {1: by(NAMES)})


def in_string(item, change):
    """A string in which the first item that is embedded is another."""
    string = bare(item)
    if string[0] != "string" or string[1][0][0] != "embedded":
        return item
    (form, inside, indicator), *pieces = string[1]
    inside = [change(part) for part in inside[:1]] + inside[1:]
    return kept(item, ("string", [(form, inside, indicator), *pieces]))


def in_array(item, change):
    """An array of which each element is another, by its number."""
    if bare(item)[0] != "array":
        return item
    _, indicator, entries = bare(item)
    return kept(item, ("array", indicator, [change(number, entry) for number, entry in enumerate(entries)]))


def structure(item, names):
    def change(number, entry):
        return noted(in_part(entry, names[number]), names[number]) if number < len(names) else entry

    return in_array(item, change)


def in_part(item, name):
    if name == "protected":
        return in_string(item, headers)
    if name == "unprotected":
        return headers(item)
    if name in INNER:
        return in_array(item, lambda _, entry: structure(entry, INNER[name]))
    return item


def message(tag):
    name, names = MESSAGES[tag[1]]
    return (*tag[:3], structure(tag[3], names)), name


def claims_of_message(tag):
    if MESSAGES[tag[1]][1][2] != "payload":
        return tag, None
    return (*tag[:3], in_array(tag[3], lambda number, entry: in_string(entry, claims_and_keys) if number == 2 else entry)), None


def claims_and_keys(item):
    return with_names(claims(item), {}, {8: lambda value: with_names(value, METHODS, {1: key})})


def key(item):
    if bare(item)[0] != "map":
        return item
    kind = next((integer(value) for label, value in bare(item)[2] if integer(label) == 1), None)
    handlers = {1: by(TYPES), 3: by(NAMES)}
    if kind in (1, 2):
        handlers[-1] = by(CURVES)
    return with_names(item, {**PARAMETERS, **OF_TYPE.get(kind, {})}, handlers)


def shown(items, annotate_ccs, names, bignums):
    """The items after the steps of `show` behind that which shows embedded ones."""
    items = annotated(items, True, False, False, False)
    if annotate_ccs:
        items = [entered(claims_and_keys(item), by_tag(MESSAGES, claims_of_message)) for item in items]
    if names:
        items = [entered(item, by_tag(MESSAGES, message)) for item in items]
    return annotated(items, False, False, False, bignums)
