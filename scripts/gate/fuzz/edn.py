"""An EDN reader and an encoder of what it reads, written from the grammar and from RFC 8949, and not from the program.

Items are tuples. The first entry names the form:
    ("number", text, indicator), ("float", word, indicator), ("word", word), ("simple", item), ("string", pieces),
    ("stream", strings), ("array", indicator, items), ("map", indicator, pairs), ("tag", number, indicator, item)
A piece is ("dots", length), ("quoted", prefix, text, indicator) or ("embedded", items, indicator). The prefix is the quote
where there is none. An indicator is None, or what stands behind the underscore.
"""

import datetime
import ipaddress
import re

import cbor

NUMBER = "Number has no encoding"
INDICATOR = "Encoding indicator does not fit"
SIMPLE = "Invalid simple value"
SEVERAL = "Encoding indicators present on string expressed in multiple EDN chunks"
UNSUPPORTED = "Unsupported application oriented literal or ellipsis"
UNDECODED = "String content can not be decoded"
NOT_UTF8 = "Concatenated text string is not valid UTF-8"
OTHER_KIND = "Chunk of another kind in indefinite length string"
FAULTS = (NUMBER, INDICATOR, SIMPLE, SEVERAL, UNSUPPORTED, UNDECODED, NOT_UTF8, OTHER_KIND)

UPWARD = " -\U0010ffff"
BLANK_OR_COMMENT = rf"(?:[\t\n\r ]|/[\t\n\r -.0-\U0010ffff]*/|#[\t\r{UPWARD}]*\n)"
SPACE = re.compile(BLANK_OR_COMMENT + "*")
SPEC = re.compile("_([i0-3]?)")
TAG = re.compile(r"(0|[1-9][0-9]*)(?:_([i0-3]?))?\(")
DECIMAL = r"(?:[0-9]+(?:\.[0-9]*)?|\.[0-9]+)(?:[eE][+-]?[0-9]+)?"
HEX_FLOAT = r"0[xX](?:[0-9a-fA-F]+(?:\.[0-9a-fA-F]*)?|\.[0-9a-fA-F]+)[pP][+-]?[0-9]+"
NUMBER_TEXT = re.compile(rf"[+-]?(?:{HEX_FLOAT}|0[xX][0-9a-fA-F]+|0[oO][0-7]+|0[bB][01]+|{DECIMAL})")
FLOAT = re.compile("-?Infinity|NaN")
WORD = re.compile("false|true|null|undefined")
DOTS = re.compile(r"\.{3,}")
PREFIX = re.compile("(?:[a-z][a-z0-9]*|[A-Z][A-Z0-9]*)?(?=')")
ESCAPE = r"\\(?:[bfnrt/\\%s]|u[0-9a-fA-F]{4}|u\{[0-9a-fA-F]+\})"
QUOTED = {
    '"': re.compile(r'"((?:[\n\r !#-\[\]-\U0010ffff]|%s)*)"' % (ESCAPE % '"')),
    "'": re.compile(r"'((?:[\n\r -&(-\[\]-\U0010ffff]|%s)*)'" % (ESCAPE % "'")),
}
SPELLED = re.compile(
    r"\\u([dD][89abAB][0-9a-fA-F]{2})\\u([dD][c-fC-F][0-9a-fA-F]{2})|\\u([0-9a-fA-F]{4})|\\u\{([0-9a-fA-F]+)\}|\\(.)|(\r)", re.DOTALL
)
SHORT = {"b": "\b", "f": "\f", "n": "\n", "r": "\r", "t": "\t"}
BINARY = {"h": None, "b64": 6, "b32": 5, "h32": 5}
SYMBOLS = {
    "b64": "ABCDEFGHIJKLMNOPQRSTUVWXYZabcdefghijklmnopqrstuvwxyz0123456789+/",
    "b32": "ABCDEFGHIJKLMNOPQRSTUVWXYZ234567",
    "h32": "0123456789ABCDEFGHIJKLMNOPQRSTUV",
}
HEX_TEXT = re.compile(rf"{BLANK_OR_COMMENT}*((?:[0-9a-fA-F]{BLANK_OR_COMMENT}*)*)(?:#[\t\r{UPWARD}]*)?")
TIME = re.compile(r"([0-9]{4})-([0-9]{2})-([0-9]{2})[Tt]([0-9]{2}):([0-9]{2}):([0-9]{2})(?:\.([0-9]{1,9}))?(?:[Zz]|([+-])([0-9]{2}):([0-9]{2}))")


class Refused(Exception):
    """The text is no EDN."""


class Unencoded(Exception):
    """An item means nothing; the words say why."""


class Reader:
    def __init__(self, text):
        self.text = text
        self.at = 0

    def stands(self, token):
        return self.text.startswith(token, self.at)

    def take(self, token):
        if not self.stands(token):
            raise Refused
        self.at += len(token)

    def find(self, pattern):
        found = pattern.match(self.text, self.at)
        if found:
            self.at = found.end()
        return found

    def space(self):
        """Takes all space, and answers whether there was some."""
        return self.find(SPACE).group() != ""

    def spec(self):
        found = self.find(SPEC)
        return found.group(1) if found else None

    def entries(self, entry, end):
        """Takes one entry or more, what separates them and the end. The end of the text is the empty one."""
        entries = [entry()]
        while True:
            parted = self.space()
            if self.stands(","):
                self.at += 1
                self.space()
                parted = True
            if self.at == len(self.text) if end == "" else self.stands(end):
                self.at += len(end)
                return entries
            if not parted:
                raise Refused
            entries.append(entry())

    def sequence(self, end):
        self.space()
        if self.at == len(self.text) if end == "" else self.stands(end):
            self.at += len(end)
            return []
        return self.entries(self.item, end)

    def listed(self, entry, end):
        """What stands in an array or a map: the indicator and the entries."""
        self.at += 1
        indicator = self.spec()
        spaced = self.space()
        if self.stands(end):
            self.at += 1
            return indicator, []
        if indicator is not None and not spaced:
            raise Refused
        return indicator, self.entries(entry, end)

    def enclosed(self):
        self.space()
        item = self.item()
        self.space()
        self.take(")")
        return item

    def pair(self):
        key = self.item()
        self.space()
        self.take(":")
        self.space()
        return key, self.item()

    def item(self):
        if self.stands("["):
            return ("array", *self.listed(self.item, "]"))
        if self.stands("{"):
            return ("map", *self.listed(self.pair, "}"))
        if self.stands("(_"):
            self.at += 2
            if not self.space():
                raise Refused
            return "stream", self.entries(self.string, ")")
        tag = self.find(TAG)
        if tag:
            if int(tag.group(1)) >= 2**64:
                raise Refused
            return "tag", int(tag.group(1)), tag.group(2), self.enclosed()
        number = self.find(NUMBER_TEXT)
        if number:
            return "number", number.group(), self.spec()
        if self.is_piece():
            return "string", self.string()
        if self.stands("simple("):
            self.at += len("simple(")
            return "simple", self.enclosed()
        word = self.find(WORD)
        if word:
            return "word", word.group()
        word = self.find(FLOAT)
        if word:
            return "float", word.group(), self.spec()
        raise Refused

    def is_piece(self):
        return self.stands('"') or self.stands("<<") or self.stands("...") or PREFIX.match(self.text, self.at) is not None

    def string(self):
        pieces = [self.piece()]
        while True:
            before = self.at
            self.space()
            if self.stands("+"):
                self.at += 1
                self.space()
                if self.is_piece():
                    pieces.append(self.piece())
                    continue
            self.at = before
            return pieces

    def piece(self):
        if self.stands("<<"):
            self.at += 2
            return "embedded", self.sequence(">>"), self.spec()
        dots = self.find(DOTS)
        if dots:
            return "dots", len(dots.group())
        prefix, quote = "", '"'
        if not self.stands(quote):
            found = self.find(PREFIX)
            if found is None:
                raise Refused
            prefix, quote = found.group(), "'"
        quoted = self.find(QUOTED[quote])
        if quoted is None:
            raise Refused
        return "quoted", prefix or quote, SPELLED.sub(spelled, quoted.group(1)), self.spec()


def spelled(found):
    """The character that an escape spells, or none for a raw CR."""
    high, low, digits, scalar, letter, _ = found.groups()
    if high:
        return chr(0x10000 + ((int(high, 16) - 0xD800) << 10) + int(low, 16) - 0xDC00)
    if digits or scalar:
        number = int(digits or scalar, 16)
        if number > 0x10FFFF or 0xD800 <= number < 0xE000:
            raise Refused
        return chr(number)
    return SHORT.get(letter, letter) if letter else ""


def read(text):
    """The items of a text, or None where it is no EDN."""
    try:
        return Reader(text).sequence("")
    except Refused:
        return None


def nesting(item):
    """How deep an item nests: arrays, maps, tags, `simple(..)` and embedded sequences count."""
    form = item[0]
    if form in ("number", "float", "word"):
        return 0
    if form == "string":
        return nesting_of_pieces(item[1])
    if form == "stream":
        return max(nesting_of_pieces(pieces) for pieces in item[1])
    if form == "map":
        return 1 + max((nesting(part) for pair in item[2] for part in pair), default=0)
    if form == "array":
        return 1 + max((nesting(part) for part in item[2]), default=0)
    return 1 + nesting(item[-1])


def nesting_of_pieces(pieces):
    return max(1 + max(map(nesting, piece[1]), default=0) if piece[0] == "embedded" else 0 for piece in pieces)


def integer_of(text):
    """The integer of a number text, or None where it has a point or an exponent."""
    sign = -1 if text[0] == "-" else 1
    digits = text.lstrip("+-").lower()
    base = {"0x": 16, "0o": 8, "0b": 2}.get(digits[:2], 10)
    if "." in digits or "p" in digits or (base == 10 and "e" in digits):
        return None
    return sign * int(digits[2:] if base != 10 else digits, base)


def head(major, argument, indicator):
    if not cbor.fits(argument, indicator):
        raise Unencoded(INDICATOR)
    return cbor.head(major, argument, indicator)


def encode_number(text, indicator):
    value = integer_of(text)
    if value is None or abs(value) >= 2**128:
        raise Unencoded(NUMBER)
    if -(2**64) <= value < 2**64:
        return head(*((0, value) if value >= 0 else (1, -1 - value)), indicator)
    if indicator is not None:
        raise Unencoded(INDICATOR)
    magnitude = value if value >= 0 else -1 - value
    content = magnitude.to_bytes((magnitude.bit_length() + 7) // 8, "big")
    return (b"\xc2" if value >= 0 else b"\xc3") + cbor.head(2, len(content)) + content


def encode_simple(item):
    if item[0] == "number":
        value = integer_of(item[1])
        if value is not None and (0 <= value < 24 and item[2] in (None, "i") or 32 <= value < 256 and item[2] in (None, "0")):
            return bytes([0xE0 + value]) if value < 24 else bytes([0xF8, value])
    raise Unencoded(SIMPLE)


def content_of(prefix, text):
    """The bytes of a literal, or None."""
    if prefix in ('"', "'"):
        return text.encode()
    if prefix == "h":
        found = HEX_TEXT.fullmatch(text)
        digits = re.sub(BLANK_OR_COMMENT, "", found.group(1)) if found else "0"
        return bytes.fromhex(digits) if len(digits) % 2 == 0 else None
    text = text.replace("=", "")
    if prefix == "b64":
        text = text.replace("-", "+").replace("_", "/")
    elif text.isascii():
        text = text.upper()
    places = [SYMBOLS[prefix].find(symbol) for symbol in text]
    if -1 in places:
        return None
    width = BINARY[prefix]
    bits = "".join(f"{place:0{width}b}" for place in places)
    whole = len(bits) // 8 * 8
    if len(bits) - whole >= width or "1" in bits[whole:]:
        return None
    return bytes(int(bits[at : at + 8], 2) for at in range(0, whole, 8))


def instant_of(text):
    """The whole seconds and the nanoseconds of a time text, or None."""
    found = TIME.fullmatch(text)
    if not found:
        return None
    year, month, day, hour, minute, second = map(int, found.groups()[:6])
    try:
        # the calendar repeats itself every 400 years, which are 146097 days
        days = datetime.date(year or 400, month, day).toordinal() - (0 if year else 146097)
    except ValueError:
        return None
    offset_hour, offset_minute = int(found.group(9) or 0), int(found.group(10) or 0)
    if hour > 23 or minute > 59 or second > 59 or offset_hour > 23 or offset_minute > 59:
        return None
    offset = (offset_hour * 60 + offset_minute) * (-60 if found.group(8) == "-" else 60)
    days -= datetime.date(1970, 1, 1).toordinal()
    return days * 86400 + hour * 3600 + minute * 60 + second - offset, int((found.group(7) or "0").ljust(9, "0"))


def address_of(text):
    """The bytes and the prefix length of an address text, or None."""
    address, slash, length = text.partition("/")
    if "%" in address:
        return None
    try:
        packed = ipaddress.ip_address(address).packed
    except ValueError:
        return None
    if not slash:
        return packed, None
    if not re.fullmatch("[0-9]{1,3}", length) or int(length) > 8 * len(packed):
        return None
    beyond = 8 * len(packed) - int(length)
    return None if int.from_bytes(packed, "big") % 2**beyond else (packed, int(length))


def encode_resolved(prefix, text):
    """The encoding of what a time or an address stands for, or None where it stands for nothing."""
    if prefix in ("dt", "DT"):
        instant = instant_of(text)
        if instant is None:
            return None
        if instant[1]:
            raise Unencoded(NUMBER)
        return (b"\xc1" if prefix == "DT" else b"") + encode_number(str(instant[0]), None)
    if prefix in ("ip", "IP"):
        address = address_of(text)
        if address is None:
            return None
        packed, length = address
        tag = (b"\xd8\x34" if len(packed) == 4 else b"\xd8\x36") if prefix == "IP" else b""
        if length is None:
            return tag + cbor.head(2, len(packed)) + packed
        kept = packed.rstrip(b"\0")
        return tag + b"\x82" + cbor.head(0, length) + cbor.head(2, len(kept)) + kept
    return None


def is_other(piece):
    """Whether a piece is a literal whose prefix means nothing by itself."""
    return piece[0] == "quoted" and piece[1] not in ('"', "'") and piece[1] not in BINARY


def encode_string(pieces, as_999, is_chunk=False):
    first, single = pieces[0], len(pieces) == 1
    if single and not is_chunk and is_other(first):
        resolved = encode_resolved(first[1], first[2])
        if resolved is not None:
            return resolved
        if as_999:
            texts = [text.encode() for text in first[1:3]]
            return b"\xd9\x03\xe7\x82" + b"".join(cbor.head(3, len(text)) + text for text in texts)
    if not single and any(piece[0] != "dots" and piece[-1] is not None for piece in pieces):
        raise Unencoded(SEVERAL)
    if any(piece[0] == "dots" or is_other(piece) for piece in pieces):
        raise Unencoded(UNSUPPORTED)
    contents = [None if piece[0] == "embedded" else content_of(piece[1], piece[2]) for piece in pieces]
    if any(content is None and piece[0] != "embedded" for content, piece in zip(contents, pieces)):
        raise Unencoded(UNDECODED)
    joined = b"".join(
        encode(piece[1], as_999) if piece[0] == "embedded" else content for content, piece in zip(contents, pieces)
    )
    major = 3 if first[1] == '"' else 2
    indicator = first[-1] if single else None
    if indicator == "":
        if joined or is_chunk:
            raise Unencoded(INDICATOR)
        return bytes([major << 5 | 31, 0xFF])
    if major == 3 and not cbor.is_utf8(joined):
        raise Unencoded(NOT_UTF8)
    return head(major, len(joined), indicator) + joined


def encode_stream(strings, as_999):
    if any(piece[0] == "dots" or is_other(piece) for pieces in strings for piece in pieces):
        raise Unencoded(UNSUPPORTED)
    kinds = {pieces[0][1] == '"' for pieces in strings}
    if len(kinds) > 1:
        raise Unencoded(OTHER_KIND)
    chunks = b"".join(encode_string(pieces, as_999, True) for pieces in strings)
    return (b"\x7f" if kinds.pop() else b"\x5f") + chunks + b"\xff"


def encode_list(major, indicator, count, parts, as_999):
    if indicator == "":
        return bytes([major << 5 | 31]) + encode(parts, as_999) + b"\xff"
    return head(major, count, indicator) + encode(parts, as_999)


def encode_item(item, as_999):
    form = item[0]
    if form == "number":
        return encode_number(item[1], item[2])
    if form == "float":
        if item[2] not in (None, "1", "2", "3"):
            raise Unencoded(INDICATOR)
        return cbor.FLOATS[item[1]][int(item[2] or 1) - 1]
    if form == "word":
        return bytes([0xF4 + ("false", "true", "null", "undefined").index(item[1])])
    if form == "simple":
        return encode_simple(item[1])
    if form == "string":
        return encode_string(item[1], as_999)
    if form == "stream":
        return encode_stream(item[1], as_999)
    if form == "array":
        return encode_list(4, item[1], len(item[2]), item[2], as_999)
    if form == "map":
        return encode_list(5, item[1], len(item[2]), [part for pair in item[2] for part in pair], as_999)
    if item[2] == "":
        raise Unencoded(INDICATOR)
    return head(6, item[1], item[2]) + encode_item(item[3], as_999)


def encode(items, as_999):
    """The encodings of items, one behind the other, as `diag2cbor` writes them. Raises `Unencoded` at the first that has none."""
    return b"".join(encode_item(item, as_999) for item in items)
