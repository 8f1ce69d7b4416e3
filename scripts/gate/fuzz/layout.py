"""The spaces that a layout sets, written from its table: one line, or lines where that is wide, and the least spaces.

A text is read again into nodes that keep their spaces and the texts of their tokens:
    ("token", text), ("string", pieces, spaces round each plus sign), ("stream", space, strings, separators, end),
    ("list", opening, space of the indicator, first space, entries, separators, end), ("pair", key, space, space, value),
    ("label", opening, space, item, space)
A list without entries has no separators and no end. What stands in an embedded sequence is a part of its piece's text.
"""

import re

import edn

WIDTH, LEVEL = 80, 4
COMMENTS = re.compile(rf"/[\t\n\r -.0-\U0010ffff]*/|#[\t\r{edn.UPWARD}]*\n")
CLOSING = {"[": "]", "{": "}"}


class Reader(edn.Reader):
    """Reads a text that is known to be EDN."""

    def spaces(self):
        return self.find(edn.SPACE).group()

    def separated(self, entry, end):
        """Entries, the separators between them and the space at the end, which may have a comma."""
        entries, between = [entry()], []
        while True:
            text = self.spaces()
            if self.stands(","):
                self.at += 1
                text += "," + self.spaces()
            if self.at == len(self.text) if end == "" else self.stands(end):
                self.at += len(end)
                return entries, between, text
            between.append(text)
            entries.append(entry())

    def whole(self):
        first = self.spaces()
        if self.at == len(self.text):
            return first, [], [], None
        return first, *self.separated(self.node, "")

    def since(self, begin):
        return self.text[begin : self.at]

    def node(self):
        begin = self.at
        if self.stands("[") or self.stands("{"):
            return self.list_node()
        if self.stands("(_"):
            self.at += 2
            return "stream", self.spaces(), *self.separated(self.strings, ")")
        if self.find(edn.TAG):
            return self.label(begin)
        if not self.find(edn.NUMBER_TEXT) and self.is_piece():
            return self.strings()
        if self.stands("simple("):
            self.at += len("simple(")
            return self.label(begin)
        self.at = begin
        self.item()
        return "token", self.since(begin)

    def list_node(self):
        opening = self.text[self.at]
        self.at += 1
        spec = self.find(edn.SPEC)
        before, space = "", self.spaces()
        entry = self.node if opening == "[" else self.pair_node
        opening += spec.group() if spec else ""
        if self.stands(CLOSING[opening[0]]):
            self.at += 1
            return "list", opening, None, space, [], [], None
        if spec:
            before, space = space, ""
        return "list", opening, before if spec else None, space, *self.separated(entry, CLOSING[opening[0]])

    def pair_node(self):
        key, before = self.node(), self.spaces()
        self.take(":")
        return "pair", key, before, self.spaces(), self.node()

    def label(self, begin):
        opening, before, item, after = self.since(begin), self.spaces(), self.node(), self.spaces()
        self.take(")")
        return "label", opening, before, item, after

    def piece_text(self):
        begin = self.at
        self.piece()
        return self.since(begin)

    def strings(self):
        pieces, between = [self.piece_text()], []
        while True:
            begin = self.at
            before = self.spaces()
            if self.stands("+"):
                self.at += 1
                after = self.spaces()
                if self.is_piece():
                    between.append((before, after))
                    pieces.append(self.piece_text())
                    continue
            self.at = begin
            return "string", pieces, between


def comments(space):
    found = list(COMMENTS.finditer(space))
    return space[found[0].start() : found[-1].end()] if found else ""


def cut(space):
    """The comments in front of the comma of a space and those behind it. Without a comma all are in front."""
    comma = next((found.start() for found in re.finditer(rf"{COMMENTS.pattern}|,", space) if found.group() == ","), len(space))
    return comments(space[:comma]), comments(space[comma + 1 :])


class Least:
    """As few spaces as there may be."""

    space = first = before_colon = after_colon = before_plus = after_plus = end = staticmethod(lambda space: "")
    mandatory = first_chunk = staticmethod(lambda space: " ")
    separator = staticmethod(lambda space: ",")


class Chunk:
    """One line, within a string of indefinite length."""

    space = first = before_colon = before_plus = after_plus = staticmethod(comments)
    mandatory = first_chunk = staticmethod(lambda space: comments(space) or " ")
    end = staticmethod(lambda space: "".join(cut(space)))

    @staticmethod
    def separator(space):
        before, after = cut(space)
        return f"{before}, {after}"


class Line(Chunk):
    """One line."""

    after_colon = before_plus = after_plus = staticmethod(lambda space: " " + comments(space))


def put(node, policy, inner, chunk):
    """The text of a node by a policy, of what stands in it by a function, and of the strings of a stream by a policy."""
    kind = node[0]
    if kind == "token":
        return node[1]
    if kind == "string":
        first, *others = node[1]
        joined = (f"{policy.before_plus(before)}+{policy.after_plus(after)}{piece}" for (before, after), piece in zip(node[2], others))
        return first + "".join(joined)
    if kind == "label":
        return f"{node[1]}{policy.space(node[2])}{inner(node[3])}{policy.space(node[4])})"
    if kind == "pair":
        return f"{inner(node[1])}{policy.before_colon(node[2])}:{policy.after_colon(node[3])}{inner(node[4])}"
    if kind == "stream":
        strings = [put(string, chunk, inner, chunk) for string in node[2]]
        return f"(_{policy.first_chunk(node[1])}{between(strings, node[3], policy)}{policy.end(node[4])})"
    _, opening, indicator_space, first, entries, separators, end = node
    if not entries:
        return f"{opening}{policy.space(first)}{CLOSING[opening[0]]}"
    texts = [put(entry, policy, inner, chunk) if entry[0] == "pair" else inner(entry) for entry in entries]
    mandatory = "" if indicator_space is None else policy.mandatory(indicator_space)
    return f"{opening}{mandatory}{policy.first(first)}{between(texts, separators, policy)}{policy.end(end)}{CLOSING[opening[0]]}"


def between(texts, separators, policy):
    return texts[0] + "".join(policy.separator(space) + text for space, text in zip(separators, texts[1:]))


def line(node):
    return put(node, Line, line, Chunk)


def least(node):
    return put(node, Least, least, Least)


def lines(base):
    """The policy of what does not fit on a line that begins behind so many spaces."""
    begin, last = "\n" + " " * (base + LEVEL), "\n" + " " * base

    class Lines:
        space = before_colon = after_colon = after_plus = staticmethod(comments)
        mandatory = staticmethod(lambda space: comments(space) or " ")
        first = first_chunk = before_plus = staticmethod(lambda space: begin + comments(space))
        end = staticmethod(lambda space: last + "".join(cut(space)))

        @staticmethod
        def separator(space):
            before, after = cut(space)
            return f"{before},{begin}{after}"

    return Lines


def indented(node, base):
    text = line(node)
    if len(text.encode()) + base < WIDTH:
        return text
    policy = lines(base)
    return put(node, policy, lambda part: indented(part, base + LEVEL), policy)


def laid_out(text):
    """A text on lines of their own."""
    first, nodes, separators, end = Reader(text).whole()
    if not nodes:
        return comments(first)
    text = comments(first) + indented(nodes[0], 0)
    for space, node in zip(separators, nodes[1:]):
        before, after = cut(space)
        text += f"{before},\n{after}{indented(node, 0)}"
    return text + "\n" + "".join(cut(end))


def without_comments(text):
    _, nodes, _, _ = Reader(text).whole()
    return ",".join(map(least, nodes))


def spelled(text):
    """A quoted text as the decoder and conversions write it."""
    letters = {"\b": "\\b", "\t": "\\t", "\f": "\\f", "\r": "\\r", '"': '\\"', "\\": "\\\\", "'": "\\u{27}"}
    return '"' + "".join(c if c == "\n" else letters.get(c) or (c if c >= " " else f"\\u{{{ord(c):x}}}") for c in text) + '"'


def piece_text(piece):
    if piece[0] == "embedded":
        # decoded on a single line, which a layout of lines leaves
        _, nodes, _, end = Reader(",".join(map(text_of, piece[1]))).whole()
        return "<<" + ", ".join(map(line, nodes)) + comments(end) + ">>" + spec(piece[2])
    _, prefix, text, indicator = piece
    # without a prefix it is the empty string of indefinite length
    quoted = spelled(text) if prefix == '"' else f"{prefix.rstrip(chr(39))}'{text}'"
    return quoted + spec(indicator)


def spec(indicator):
    return "" if indicator is None else "_" + indicator


def text_of(item):
    """A text of an item that was decoded or converted, which a layout may be set of."""
    form = item[0]
    if form == "noted":
        return text_of(item[1]) + item[2]
    if form in ("number", "float"):
        return item[1] + spec(item[2])
    if form == "word":
        return item[1]
    if form == "simple":
        return f"simple({text_of(item[1])})"
    if form == "string":
        return piece_text(item[1][0])
    if form == "stream":
        return "(_ " + ",".join(piece_text(pieces[0]) for pieces in item[1]) + ")"
    if form == "tag":
        return f"{item[1]}{spec(item[2])}({text_of(item[3])})"
    opening, closing = ("[", "]") if form == "array" else ("{", "}")
    entries = [text_of(entry) if form == "array" else ":".join(map(text_of, entry)) for entry in item[2]]
    return opening + spec(item[1]) + (" " if entries and item[1] is not None else "") + ",".join(entries) + closing
