"""A reader of CBOR, written from RFC 8949: it says why bytes are refused, and which items EDN has for them."""

RESERVED = "Reserved header byte"
OUT_OF_DATA = "Expected item, out of data"
NO_ARGUMENT = "Missing argument bytes"
OTHER_CHUNK = "Indefinite length strings can only contain matching items"
OPEN_CHUNK = "Indefinite length strings can only contain definite lengths"
OPEN_HEAD = "Integer/Tag with indefinite length encoding is not well-formed"
BREAK = "Break code only expected at end of indefinite length items"
SIMPLE = "Invalid simple value"
FLOAT = "Float value out of scope"
NO_BYTES = "Announced bytes unavailable"
NOT_UTF8 = "Text string must be valid UTF-8"
TOO_DEEP = "Nested too deeply"
FAULTS = (OUT_OF_DATA, RESERVED, NO_ARGUMENT, OTHER_CHUNK, OPEN_CHUNK, OPEN_HEAD, BREAK, SIMPLE, FLOAT, NO_BYTES, NOT_UTF8, TOO_DEEP)

# of two, four and eight bytes
FLOATS = {
    "Infinity": (b"\xf9\x7c\x00", b"\xfa\x7f\x80\0\0", b"\xfb\x7f\xf0\0\0\0\0\0\0"),
    "-Infinity": (b"\xf9\xfc\x00", b"\xfa\xff\x80\0\0", b"\xfb\xff\xf0\0\0\0\0\0\0"),
    "NaN": (b"\xf9\x7e\x00", b"\xfa\x7f\xc0\0\0", b"\xfb\x7f\xf8\0\0\0\0\0\0"),
}
WORDS_OF_FLOATS = {data: (word, str(at + 1)) for word, row in FLOATS.items() for at, data in enumerate(row)}
WIDTHS = {"0": 1, "1": 2, "2": 4, "3": 8}


class Fault(Exception):
    """Bytes are refused for these words."""


def is_utf8(data):
    try:
        data.decode()
    except UnicodeDecodeError:
        return False
    return True


def fits(argument, indicator):
    """Whether a head by an indicator has room for an argument. By none it has."""
    if indicator is None:
        return argument < 2**64
    return argument < (24 if indicator == "i" else 2 ** (8 * WIDTHS[indicator]) if indicator else 0)


def shortest(argument):
    return "i" if argument < 24 else next(name for name, width in WIDTHS.items() if argument < 2 ** (8 * width))


def head(major, argument, indicator=None):
    indicator = indicator or shortest(argument)
    if indicator == "i":
        return bytes([major << 5 | argument])
    return bytes([major << 5 | 24 + int(indicator)]) + argument.to_bytes(WIDTHS[indicator], "big")


class Reader:
    """Reads items, each of which may nest so deep."""

    def __init__(self, data, limit):
        self.data = data
        self.limit = limit
        self.at = 0
        # where the last head begins
        self.begun = 0

    def head(self, within=None):
        """Takes a head, within a string of indefinite length one of its chunks: the major type and the argument, which is None at 31."""
        self.begun = self.at
        if self.at == len(self.data):
            raise Fault(OUT_OF_DATA)
        first = self.data[self.at]
        self.at += 1
        major, information = first >> 5, first & 31
        if 28 <= information < 31:
            raise Fault(RESERVED)
        argument, self.indicator = information, "i"
        if 24 <= information < 28:
            self.indicator = str(information - 24)
            width = WIDTHS[self.indicator]
            if len(self.data) - self.at < width:
                raise Fault(NO_ARGUMENT)
            argument = int.from_bytes(self.data[self.at : self.at + width], "big")
            self.at += width
        if information == 31:
            argument = None
        if within is not None and first != 0xFF:
            if major != within:
                raise Fault(OTHER_CHUNK)
            if argument is None:
                raise Fault(OPEN_CHUNK)
        if argument is None and major in (0, 1, 6):
            raise Fault(OPEN_HEAD)
        return major, argument

    def wider(self, argument):
        """The indicator of the last head, where a shorter one would do."""
        return None if self.indicator == shortest(argument) else self.indicator

    def deeper(self, depth):
        if depth >= self.limit:
            raise Fault(TOO_DEEP)

    def chunk(self, major, argument):
        indicator = self.wider(argument)
        if len(self.data) - self.at < argument:
            raise Fault(NO_BYTES)
        content = self.data[self.at : self.at + argument]
        self.at += argument
        if major == 2:
            return "quoted", "h", content.hex(), indicator
        if not is_utf8(content):
            raise Fault(NOT_UTF8)
        return "quoted", '"', content.decode(), indicator

    def chunks(self, major):
        chunks = []
        while True:
            found = self.head(major)
            if found == (7, None):
                break
            chunks.append([self.chunk(*found)])
        if chunks:
            return "stream", chunks
        return "string", [("quoted", "'" if major == 2 else '"', "", "")]

    def simple(self, argument, begin, depth):
        if argument is None:
            raise Fault(BREAK)
        if self.indicator == "0":
            if argument < 32:
                raise Fault(SIMPLE)
        elif self.indicator != "i":
            if self.data[begin : self.at] not in WORDS_OF_FLOATS:
                raise Fault(FLOAT)
            return ("float", *WORDS_OF_FLOATS[self.data[begin : self.at]])
        elif 20 <= argument < 24:
            return "word", ("false", "true", "null", "undefined")[argument - 20]
        self.deeper(depth)
        return "simple", ("number", str(argument), None)

    def entries(self, argument, entry):
        if argument is not None:
            return [entry() for _ in range(argument)]
        entries = []
        while self.at == len(self.data) or self.data[self.at] != 0xFF:
            entries.append(entry())
        self.at += 1
        return entries

    def item(self, depth):
        begin = self.at
        major, argument = self.head()
        if major == 7:
            return self.simple(argument, begin, depth)
        if major in (2, 3):
            return self.chunks(major) if argument is None else ("string", [self.chunk(major, argument)])
        indicator = "" if argument is None else self.wider(argument)
        if major < 2:
            return "number", str(argument if major == 0 else -1 - argument), indicator
        self.deeper(depth)
        if major == 4:
            return "array", indicator, self.entries(argument, lambda: self.item(depth + 1))
        if major == 5:
            return "map", indicator, self.entries(argument, lambda: (self.item(depth + 1), self.item(depth + 1)))
        return "tag", argument, indicator, self.item(depth + 1)


def read(data, limit):
    """The items that EDN has for encodings, and None; or None, and the words of the first fault."""
    reader, items = Reader(data, limit), []
    try:
        while reader.at < len(data):
            items.append(reader.item(0))
    except Fault as fault:
        return None, str(fault)
    return items, None


def offset_of_fault(data, limit):
    """Where the head begins at which the bytes are refused: at their end where an item is missing."""
    reader = Reader(data, limit)
    try:
        while reader.at < len(data):
            reader.item(0)
    except Fault:
        return reader.begun
    raise ValueError("the bytes are taken")
