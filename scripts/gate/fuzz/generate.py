"""Random texts by the grammar of EDN, random CBOR, and damage to either."""

import base64
import datetime
import ipaddress

import cbor

BLANKS = "\t\n\r "
# what comments and quoted texts are made of: brackets and quotes, controls that may stand there, other planes, marks of direction
CHARACTERS = "abcXYZ019 _-+.,:;/\\\"'#()[]{}<>=%\n\n\t\r\b\f\0\x1b\x7f\u0080\u009b\u00a0\u00adé\u061c\u2028\u202e\u2066\ufe0f\ufeff\uffff\U0001f600\U000e0041\U0010ffff"
ESCAPES = {"\b": "\\b", "\f": "\\f", "\n": "\\n", "\r": "\\r", "\t": "\\t", "/": "\\/", "\\": "\\\\"}
INDICATORS = [None] * 12 + ["", "i", "0", "1", "2", "3"]
DAMAGE = b"[]{}()<>\"'\\/#_+-.,:0159abehiptux \n\r\t\0\x1b\x7f\x80\xc3\xe2\xf0\xff"
EDGES = [0, 23, 24, 255, 256, 65535, 65536, 2**32 - 1, 2**32, 2**64 - 1]
KEYS = [1, 2, 3, 4, 5, 6, 7, 8, 9, 38, 39, 40]
# the first and the last second that are shown as times, and the second behind each
SECONDS = [-62167219201, -62167219200, -62135596800, -1, 0, 253402300799, 253402300800]
# what times are of that are no integers, or hardly
DECIMALS = ["1.5", "-0.25", ".5", "-.000000001", "1.", "1700000000.123456789", "1.0000000001", "-62167219200.5", "1.50_1", "1e3"]


# Bytes of addresses and of bignums, of some size.
ADDRESSES = [
    lambda rng, size: rng.randbytes(size),
    lambda rng, size: bytes(size - size // 3) + rng.randbytes(size // 3),
    lambda rng, size: rng.randbytes(size // 2) + bytes(size - size // 2),
    lambda rng, size: (bytes(10) + b"\xff\xff" + rng.randbytes(4))[-size:],
    lambda rng, size: b"".join(rng.choice([b"\0\0", b"\0\1", rng.randbytes(2)]) for _ in range(size // 2 + 1))[:size],
]


class Texts:
    """Texts by the grammar. Each call answers a text and what it spells, as `edn` names it. Where `means` is set, it has an encoding."""

    def __init__(self, rng, means):
        self.rng = rng
        self.means = means

    def often(self, per_cent):
        return self.rng.randrange(100) < per_cent

    # spaces

    def characters(self, most):
        return "".join(self.rng.choice(CHARACTERS) for _ in range(self.rng.randrange(most + 1)))

    def comment(self):
        text = "".join(c for c in self.characters(8) if c >= " " or c in "\t\r\n")
        if self.often(50):
            return f"/{text.replace('/', '')}/"
        return "#" + text.replace("\n", "") + "\n"

    def mandatory(self):
        first = self.comment() if self.often(15) else self.rng.choice(" " * 9 + BLANKS)
        return first + self.space()

    def space(self):
        return "" if self.often(75) else self.mandatory()

    def separator(self):
        if self.often(70):
            return self.space() + "," + self.space()
        return self.mandatory()

    def end(self):
        return self.space() + ("," + self.space() if self.often(10) else "")

    # lists

    def joined(self, entry, count):
        texts, entries = zip(*(entry() for _ in range(count)))
        text = texts[0] + "".join(self.separator() + following for following in texts[1:])
        return text + self.end(), list(entries)

    def listed(self, opening, closing, entry, count):
        indicator = self.rng.choice(INDICATORS)
        if self.means and indicator == "i" and count > 23:
            indicator = None
        text = opening + ("" if indicator is None else "_" + indicator)
        if count == 0:
            return text + self.space() + closing, indicator, []
        inside, entries = self.joined(entry, count)
        return text + ("" if indicator is None else self.mandatory()) + self.space() + inside + closing, indicator, entries

    def sequence(self, depth, most):
        count = self.rng.randrange(most + 1)
        if count == 0:
            return self.space(), []
        text, items = self.joined(lambda: self.item(depth), count)
        return self.space() + text, items

    # items

    def item(self, depth):
        kinds = [self.number, self.number, self.string, self.string, self.word, self.float, self.literal]
        if depth > 0:
            kinds += [self.array, self.map, self.tag, self.claims, self.known_tag, self.stream, self.simple]
        elif self.often(20):
            kinds = [self.simple]
        return self.rng.choice(kinds)(depth)

    def spec(self, argument):
        """An indicator, one that fits an argument where the item is to mean something."""
        if self.means and argument is None:
            return "", None
        indicator = self.rng.choice(INDICATORS)
        if self.means and not cbor.fits(argument, indicator):
            indicator = None
        return ("" if indicator is None else "_" + indicator), indicator

    def integer(self):
        rng = self.rng
        value = rng.choice([rng.choice(EDGES), rng.getrandbits(rng.choice([4, 8, 16, 32, 64, 65, 100, 128]))])
        base = rng.choice("dddxob")
        digits = {"d": str, "x": hex, "o": oct, "b": bin}[base](value)
        zeros = "0" * rng.choice([0, 0, 0, 1, 5])
        digits = digits[:2] + zeros + digits[2:] if base != "d" else zeros + digits
        if self.often(30):
            digits = digits.upper()
        sign = rng.choice(["", "", "", "+", "-"])
        return (-value if sign == "-" else value), sign + digits

    def number(self, depth):
        value, text = self.integer()
        if not self.means and self.often(30):
            digits = self.rng.choice
            text = digits(["1", "0", "12"]) + digits([".", ".5", "", ".250"]) + digits(["", "e3", "E-2", "e+10"])
            text = digits(["", "-", "+"]) + digits([text, ".5", "0x1.8p1", "0X.8P-3", "0x1p+4", "0x1.p0", "1.", str(2**128)])
            value = None
        argument = None if value is None or not -(2**64) <= value < 2**64 else value if value >= 0 else -1 - value
        spec, indicator = self.spec(argument)
        return text + spec, ("number", text, indicator)

    def word(self, depth):
        word = self.rng.choice(["false", "true", "null", "undefined"])
        return word, ("word", word)

    def float(self, depth):
        word = self.rng.choice(["Infinity", "-Infinity", "NaN"])
        indicator = self.rng.choice([None, "1", "2", "3"] if self.means else INDICATORS)
        return word + ("" if indicator is None else "_" + indicator), ("float", word, indicator)

    def simple(self, depth):
        value = self.rng.choice([*range(24), *range(32, 256)])
        indicator = self.rng.choice([None, "i" if value < 24 else "0"])
        text, item = str(value), ("number", str(value), indicator)
        text += "" if indicator is None else "_" + indicator
        if not self.means and self.often(30):
            text, item = self.item(depth - 1)
        return f"simple({self.space()}{text}{self.space()})", ("simple", item)

    def quote(self, text, quote):
        """A quoted text, each character raw or as an escape."""
        spelled = []
        for c in text:
            raw = c not in "\\" + quote and (c >= " " or c == "\n")
            forms = [c] * 6 if raw else []
            if c in ESCAPES:
                forms.append(ESCAPES[c])
            if c == quote:
                forms.append("\\" + c)
            if ord(c) < 0x10000:
                forms.append(f"\\u{ord(c):04x}")
            else:
                high, low = divmod(ord(c) - 0x10000, 0x400)
                forms.append(f"\\u{0xD800 + high:04X}\\u{0xDC00 + low:04x}")
            forms.append(f"\\u{{{'0' * self.rng.randrange(4)}{ord(c):X}}}")
            spelled.append(self.rng.choice(forms))
            if self.often(3):
                spelled.append("\r")
        return quote + "".join(spelled) + quote

    def hexadecimal(self, content):
        digits = content.hex()
        if self.often(30):
            digits = digits.upper()
        text = self.space() + "".join(digit + (self.space() if self.often(5) else "") for digit in digits)
        return text + ("#" + self.characters(5).translate({n: None for n in (0, 8, 10, 12, 27)}) if self.often(10) else "")

    def encoded(self, prefix, content):
        if prefix == "h":
            return self.hexadecimal(content)
        text = {"b64": base64.b64encode, "b32": base64.b32encode, "h32": base64.b32hexencode}[prefix](content).decode()
        if self.often(50):
            text = text.rstrip("=")
        if prefix != "b64" and self.often(50):
            return text.lower()
        return text.replace("+", "-").replace("/", "_") if prefix == "b64" and self.often(50) else text

    def piece(self, depth, quote=None, alone=False):
        """A piece, of the kind of a quote where one is given. Its content's length is known where it has an indicator."""
        kind = self.rng.choice(['"', "'", "h", "b64", "b32", "h32", "<<", "..."]) if quote is None else quote
        if kind == "'" and quote is not None and self.often(50):
            kind = self.rng.choice(["h", "b64", "b32", "h32", "<<"])
        if self.means and kind == "...":
            kind = '"'
        if kind == "<<" and depth > 0:
            text, items = self.sequence(depth - 1, 3)
            return f"<<{text}>>", ("embedded", items, None)
        if kind == "...":
            length = self.rng.randrange(3, 7)
            return "." * length, ("dots", length)
        if kind in ('"', "'", "<<"):
            kind = kind if kind == '"' else "'"
            content = self.characters(12)
            prefix, text, length = "", content, len(content.encode())
        else:
            content = self.rng.randbytes(self.rng.randrange(12))
            prefix, text, length = kind, self.encoded(kind, content), len(content)
            if not self.means and self.often(20):
                text = self.characters(5)
        if not self.means and kind == "'" and self.often(20):
            prefix = self.rng.choice(["a", "true", "x9", "X1", "e", "ref", "dt", "IP", "z0a"])
        spec, indicator = self.spec(length) if alone else ("", None)
        if alone and self.means and length == 0 and alone == "item" and self.often(30):
            spec, indicator = "_", ""
        mark = kind if kind == '"' else "'"
        return prefix + self.quote(text, mark) + spec, ("quoted", prefix or mark, text, indicator)

    def pieces(self, depth, quote=None, alone="item"):
        count = self.rng.choice([1, 1, 1, 2, 3])
        text, piece = self.piece(depth, quote, alone if count == 1 else False)
        pieces = [piece]
        for _ in range(count - 1):
            # what is joined to a text must be UTF-8
            follows = '"' if self.means and pieces[0][0] == "quoted" and pieces[0][1] == '"' else None
            following, piece = self.piece(depth, follows)
            text += f"{self.space()}+{self.space()}{following}"
            pieces.append(piece)
        return text, pieces

    def string(self, depth):
        text, pieces = self.pieces(depth)
        return text, ("string", pieces)

    def stream(self, depth):
        quote = self.rng.choice("\"'")
        if not self.means and self.often(10):
            quote = None
        text, strings = self.joined(lambda: self.pieces(depth - 1, quote, "chunk"), self.rng.randrange(1, 4))
        return f"(_{self.mandatory()}{text})", ("stream", strings)

    def literal(self, depth):
        """A time or an address, or what is nearly one."""
        prefix, text = self.rng.choice([self.time, self.address])()
        if not self.means and self.often(20):
            text = self.rng.choice([text[1:], text + "0", text.upper(), text + "/33", "1.2.3", "::/129", "2001-02-29T00:00:00Z"])
        quoted = self.quote(text, "'")
        indicator = self.rng.choice(INDICATORS)
        return prefix + quoted + ("" if indicator is None else "_" + indicator), ("string", [("quoted", prefix, text, indicator)])

    def time(self):
        rng = self.rng
        time = datetime.datetime(1, 1, 1) + datetime.timedelta(seconds=rng.randrange(315_537_897_600))
        text = time.isoformat(rng.choice("Tt")) if self.often(30) else time.isoformat()
        if not self.means and self.often(30):
            text += "." + str(rng.getrandbits(32))[: rng.randrange(1, 10)]
        return rng.choice(["dt", "DT"]), text + rng.choice(["Z", "z", "+00:00", "-23:59", "+05:30"])

    def address(self):
        rng = self.rng
        version, size = rng.choice([(ipaddress.IPv4Address, 4), (ipaddress.IPv6Address, 16)])
        data = rng.choice([rng.randbytes(size), bytes(size - 2) + rng.randbytes(2), rng.randbytes(3) + bytes(size - 3), bytes(10) + b"\xff" * 6][: 3 if size == 4 else 4])
        length = rng.choice([None, None, 0, 8 * size, rng.randrange(8 * size + 1)])
        if length is not None:
            beyond = 8 * size - length
            data = (int.from_bytes(data, "big") >> beyond << beyond).to_bytes(size, "big")
        address = version(data)
        text = rng.choice([str(address), address.exploded, str(address).upper()])
        if size == 16 and data[:10] == bytes(10) and self.often(50):
            text = "::" + f"{data[10:12].hex()}:" + ".".join(map(str, data[12:]))
        return rng.choice(["ip", "IP"]), text + ("" if length is None else f"/{length}")

    def array(self, depth):
        return self.as_list("array", "[", "]", lambda: self.item(depth - 1))

    def map(self, depth):
        return self.as_list("map", "{", "}", lambda: self.pair(self.item(depth - 1), self.item(depth - 1)))

    def as_list(self, form, opening, closing, entry):
        text, indicator, entries = self.listed(opening, closing, entry, self.rng.choice([0, 1, 1, 2, 3, 4]))
        return text, (form, indicator, entries)

    def pair(self, key, value):
        return f"{key[0]}{self.space()}:{self.space()}{value[0]}", (key[1], value[1])

    def of_time(self):
        """A number of seconds, mostly of a time."""
        rng = self.rng
        if not self.means and self.often(20):
            text, _, indicator = rng.choice(DECIMALS).partition("_")
            return text + ("_" + indicator if indicator else ""), ("number", text, indicator or None)
        value = rng.choice([rng.choice(SECONDS), rng.getrandbits(32), -rng.getrandbits(40), rng.getrandbits(38)])
        if self.often(80):
            return self.of_number(value)
        spec, indicator = self.spec(value if value >= 0 else -1 - value)
        return f"{value}{spec}", ("number", str(value), indicator)

    def of_number(self, value):
        text = hex(value) if self.often(10) else str(value)
        return text, ("number", text, None)

    def claims(self, depth):
        """A map of claims, with times and a key to confirm by."""

        def entry():
            key = self.rng.choice(KEYS)
            if key in (4, 5, 6) and self.often(80):
                value = self.of_time()
            elif key == 8 and depth > 1 and self.often(80):
                keys = self.as_list("map", "{", "}", lambda: self.pair(self.of_number(self.rng.randrange(8)), self.of_number(self.rng.randrange(-20, 26))))
                value = self.as_list("map", "{", "}", lambda: self.pair(self.of_number(self.rng.choice([3, 4])), keys))
            else:
                value = self.item(depth - 1)
            return self.pair(self.of_number(key), value)

        return self.as_list("map", "{", "}", entry)

    def tag(self, depth):
        number = self.rng.choice(EDGES + [1, 2, 3, 24, 38, 52, 54, 999])
        return self.tagged(number, self.item(depth - 1))

    def tagged(self, number, item):
        spec, indicator = self.spec(number)
        return f"{number}{spec}({self.space()}{item[0]}{self.space()})", ("tag", number, indicator, item[1])

    def known_tag(self, depth):
        """A tag that conversions know, over what it is for or nearly so."""
        rng = self.rng
        number = rng.choice([1, 2, 3, 38, 52, 54])
        if number == 1:
            return self.tagged(1, self.of_time())
        if number == 38:
            language, words, mark = self.piece(0, '"'), self.piece(0, '"'), self.word(0)
            entries = iter([(text, ("string", [piece])) for text, piece in (language, words)] + [mark])
            text, indicator, items = self.listed("[", "]", lambda: next(entries), 3)
            return self.tagged(38, (text, ("array", indicator, items)))
        size = {52: 4, 54: 16}.get(number, rng.randrange(20))
        data = rng.choice(ADDRESSES)(rng, size)
        if self.often(20):
            data = data[: rng.randrange(size + 1)]
        text = self.hexadecimal(data)
        spec, indicator = self.spec(len(data)) if self.often(10) else ("", None)
        content = f"h{self.quote(text, chr(39))}{spec}", ("string", [("quoted", "h", text, indicator)])
        if number > 3 and self.often(50):
            length = self.of_number(rng.choice([0, 8, 32, 64, 128, rng.randrange(140)]))
            zone = self.known_tag(depth - 1) if depth > 1 and self.often(50) else self.item(0)
            entries = iter(rng.choice([[length, content], [content, zone]]))
            text, indicator, items = self.listed("[", "]", lambda: next(entries), 2)
            content = text, ("array", indicator, items)
        return self.tagged(number, content)


class Bytes:
    """Encodings of random values, with heads of every width."""

    def __init__(self, rng):
        self.rng = rng

    def head(self, major, argument):
        indicator = None
        if self.rng.randrange(5) == 0:
            indicator = self.rng.choice([name for name in "i0123" if cbor.fits(argument, name)])
        return cbor.head(major, argument, indicator)

    def argument(self):
        return self.rng.choice([self.rng.choice(EDGES), self.rng.getrandbits(self.rng.choice([4, 8, 16, 32, 64]))])

    def string(self, major):
        rng = self.rng
        content = rng.randbytes(rng.randrange(30))
        if major == 3:
            content = "".join(rng.choice(CHARACTERS) for _ in content).encode()
        return self.head(major, len(content)) + content

    def item(self, depth):
        rng = self.rng
        kind = rng.randrange(14 if depth else 7)
        if kind == 13:
            return self.message(depth)
        if kind == 12:
            return self.embedded(depth)
        if kind < 2:
            return self.head(kind, self.argument())
        if kind < 4:
            if rng.randrange(4) == 0:
                chunks = b"".join(self.string(kind) for _ in range(rng.choice([0, 1, 2, 20])))
                return bytes([kind << 5 | 31]) + chunks + b"\xff"
            return self.string(kind)
        if kind == 4:
            value = rng.choice([*range(24), *range(32, 256)])
            return bytes([0xE0 + value]) if value < 24 else bytes([0xF8, value])
        if kind == 5:
            return rng.choice(list(cbor.WORDS_OF_FLOATS))
        if kind == 6:
            return self.known_tag()
        if kind == 7:
            return self.head(6, rng.choice([self.argument(), 1, 2, 3, 38, 52, 54])) + self.item(depth - 1)
        if kind == 8:
            return self.claims(depth)
        major, count = rng.choice([4, 5]), rng.randrange(6)
        entries = b"".join(self.item(depth - 1) for _ in range(count * (major - 3)))
        if rng.randrange(3) == 0:
            return bytes([major << 5 | 31]) + entries + b"\xff"
        return self.head(major, count) + entries

    def long_array(self):
        """An array of about as many items as a line has columns, or of more, between others."""
        count = self.rng.choice([79, 80, 81, 300])
        elements = b"".join(self.known_tag() if self.rng.randrange(2) else self.item(1) for _ in range(count))
        return self.item(1) + self.head(4, count) + elements + self.items(1, self.rng.randrange(2))

    def embedded(self, depth):
        """A byte string that holds an item, or a sequence, whole or damaged."""
        return self.holding(self.items(depth - 1, self.rng.choice([1, 1, 1, 1, 0, 2])))

    def holding(self, content):
        """A byte string with this content, or with what damage leaves of it."""
        if self.rng.randrange(8) == 0:
            content = damaged(self.rng, content)
        return self.head(2, len(content)) + content

    def message(self, depth):
        """A message of COSE, or what is nearly one, in the tag of CWT now and then."""
        rng = self.rng
        return (b"" if rng.randrange(4) else self.head(6, 61)) + self.head(6, rng.choice([16, 17, 18, 18, 18, 96, 97, 98])) + self.structure(depth)

    def structure(self, depth):
        rng = self.rng
        parts = [
            self.holding(self.header()) if rng.randrange(8) else self.header(),
            self.header() if rng.randrange(8) else self.item(0),
            rng.choice([lambda: self.holding(self.claims(depth)), lambda: self.holding(self.claims(depth)), lambda: self.item(0), lambda: b"\xf6"])(),
            self.string(2) if rng.randrange(2) else self.structures(depth),
            self.structures(depth),
            self.item(0),
        ]
        return self.array(parts) if rng.randrange(3) == 0 else self.head(4, 4) + b"".join(parts[:4])

    def structures(self, depth):
        count = self.rng.randrange(3) if depth > 1 else 0
        return self.head(4, count) + b"".join(self.structure(depth - 1) for _ in range(count))

    def header(self):
        return self.keys([*range(9), 1, 1, 1, 32, 33, 34, 35, 36], lambda: self.algorithm() if self.rng.randrange(4) else self.item(0))

    def key(self):
        """A key of COSE, or what is nearly one."""
        rng = self.rng
        labels = [1, *(rng.randrange(-5, 7) for _ in range(rng.randrange(5)))]
        rng.shuffle(labels)
        return self.head(5, len(labels)) + b"".join(self.integer(label) + (self.integer(rng.randrange(-8, 9)) if rng.randrange(4) else self.item(0)) for label in labels)

    def known_tag(self):
        rng = self.rng
        number = rng.choice([1, 2, 3, 38, 52, 54])
        size = rng.choice([{52: 4, 54: 16}.get(number, 12), 4, 16, rng.randrange(20)])
        data = rng.choice(ADDRESSES)(rng, size)
        shortened = data.rstrip(b"\0")
        seconds = rng.choice([*SECONDS, rng.getrandbits(33), -rng.getrandbits(40)])
        address = self.head(2, len(data)) + data
        contents = [
            lambda: self.head(0, seconds) if seconds >= 0 else self.head(1, -1 - seconds),
            lambda: address,
            lambda: b"\x82" + self.head(0, rng.choice([8, 24, 32, 64, 128])) + self.head(2, len(shortened)) + shortened,
            lambda: b"\x82" + self.head(0, rng.randrange(200)) + rng.choice([address, self.string(3)]),
            lambda: b"\x82" + address + (self.known_tag() if rng.randrange(2) else self.string(3)),
            lambda: self.array([address, self.string(3), self.string(2)]),
            lambda: self.array([self.string(3), address]),
            lambda: self.array([self.head(0, 8), address, address]),
            lambda: b"\x83" + self.string(3) + self.string(3) + rng.choice([b"\xf4", b"\xf5", b"\xf6", b"\x01"]),
        ]
        return self.head(6, number) + rng.choice(contents)()

    def array(self, entries):
        """An array of the first few of some items."""
        entries = entries[: self.rng.randrange(len(entries) + 1)]
        return self.head(4, len(entries)) + b"".join(entries)

    def keys(self, numbers, value):
        """A map of some of these keys, and of another one now and then."""
        rng = self.rng
        keys = [self.string(3) if rng.randrange(8) == 0 else self.head(0, rng.choice(numbers)) for _ in range(rng.randrange(5))]
        return self.head(5, len(keys)) + b"".join(key + value() for key in keys)

    def integer(self, number):
        return self.head(0, number) if number >= 0 else self.head(1, -1 - number)

    def algorithm(self):
        return self.integer(self.rng.randrange(-38, 36))

    def claims(self, depth):
        rng = self.rng
        count = rng.randrange(4)
        entries = b""
        for _ in range(count):
            key = rng.choice(KEYS + [8] * 6)
            value = self.head(rng.randrange(2), rng.getrandbits(rng.choice([31, 38]))) if key in (4, 5, 6) else self.item(depth - 1)
            if key == 8 and rng.randrange(4):
                oscore = lambda: self.keys(range(8), lambda: self.algorithm() if rng.randrange(4) else self.item(0))  # noqa: E731
                value = self.keys([2, 3, 4, 4, 4, 4], lambda: oscore() if rng.randrange(4) else self.item(0))
                if rng.randrange(2):
                    value = self.head(5, 1) + self.head(0, rng.choice([1, 1, 1, 2])) + self.key()
            entries += self.head(0, key) + value
        return self.head(5, count) + entries

    def items(self, depth, count):
        return b"".join(self.item(depth) for _ in range(count))


def damaged(rng, data):
    """The bytes with a few of them deleted, inserted, swapped or cut off, or from where they stand put elsewhere."""
    for _ in range(rng.choice([1, 1, 1, 2, 5])):
        at = rng.randrange(len(data) + 1)
        kind = rng.randrange(6)
        if kind == 0:
            data = data[:at] + data[at + rng.choice([1, 1, 2, 9]) :]
        elif kind == 1:
            data = data[:at] + bytes([rng.choice(DAMAGE)]) + data[at:]
        elif kind == 2:
            data = data[:at] + rng.randbytes(rng.randrange(1, 3)) + data[at + 1 :]
        elif kind == 3 and len(data) > 1:
            at = rng.randrange(len(data) - 1)
            data = data[:at] + data[at + 1 : at + 2] + data[at : at + 1] + data[at + 2 :]
        elif kind == 4:
            data = data[:at]
        else:
            begin = rng.randrange(len(data) + 1)
            data = data[:at] + data[begin : begin + rng.randrange(9)] + data[at:]
    return data


def digits(rng, data):
    """Hexadecimal digits of bytes, in either case, with space between them."""
    text = "".join(rng.choice([digit, digit.upper()]) for digit in data.hex())
    if rng.randrange(2):
        text = "".join(digit + rng.choice(["", "", "", " ", "\n", "\t", "\r\n"]) for digit in text)
    return text.encode()
