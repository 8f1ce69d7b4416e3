"""What the program must do with an input. Each law raises `Problem` where it is broken."""

import re

import annotations
import cbor
import conversions
import cose
import edn
import embedded
import layout
from runs import Problem, expect, expect_place, expect_place_of_file, fault, fault_of_bytes, run, written

LIMIT = 512
LINE = 64
# What acts on a terminal, turns text or hides it, but line feeds: Unicode's Cc, Bidi_Control, Zl, Zp and Default_Ignorable_Code_Point without
# the variation selectors up to U+FE0F, and U+FFF9 to U+FFFB.
ACTING = re.compile(
    "[\0-\t\x0b-\x1f\x7f-\x9f\xad\u034f\u061c\u115f\u1160\u17b4\u17b5\u180b-\u180f\u200b-\u200f\u2028-\u202e\u2060-\u206f"
    "\u3164\ufeff\uffa0\ufff0-\ufffb\U0001bca0-\U0001bca3\U0001d173-\U0001d17a\U000e0000-\U000e0fff]"
)
MARK = re.compile(r"[\[{(]|<<")
# With these flags `diag2diag` changes nothing.
EXACT = ["--preserve-space", "--no-bignum-from-tags"]
# With one of these it makes spaces or comments of its own.
CONVERSIONS = {"--annotate-tags", "--apply-999", "--aol-to-item", "--annotate=ccs"}


def limited(limit):
    return [] if limit == LIMIT else [f"--max-nesting={limit}"]


def decoded(data):
    try:
        return data.decode()
    except UnicodeDecodeError:
        return None


def refuse(ended, text, items, limit):
    """The run must have refused a text that the grammar or the limit refuses."""
    if items is not None:
        expect_place(ended, text, True)
    else:
        expect_place(ended, text, None if len(MARK.findall(text)) > limit else False)


def read(data, limit):
    """The text, its items or None, and whether they are taken."""
    text = decoded(data)
    items = None if text is None else edn.read(text)
    return text, items, items is not None and max(map(edn.nesting, items), default=0) <= limit


def keep(data, limit, flags):
    """`diag2diag` that changes nothing writes what it read, and takes what the grammar has."""
    text, items, taken = read(data, limit)
    ended = run(["diag2diag", *EXACT, *limited(limit)], data)
    if text is None:
        expect(fault("Error processing input file"), ended)
    elif taken:
        expect(written(data), ended)
    else:
        refuse(ended, text, items, limit)


def hex_lines(data):
    digits = data.hex()
    return "".join(digits[at : at + LINE] + "\n" for at in range(0, len(digits), LINE)).encode()


def encode(data, limit, flags):
    """`diag2cbor` writes the encodings of what the items mean, or tells the first that means nothing."""
    text, items, taken = read(data, limit)
    ended = run(["diag2cbor", *flags, *limited(limit)], data)
    if text is None:
        expect(fault("Error processing input file"), ended)
    elif not taken:
        refuse(ended, text, items, limit)
    else:
        expect(encoded(items, flags), ended)


def encoded(items, flags):
    try:
        data = edn.encode(items, "--apply-999" in flags)
    except edn.Unencoded as why:
        return fault(f"Error encoding output data: {why}")
    return written(hex_lines(data) if any("hex" in flag for flag in flags) else data)


def is_idempotent(flags, text):
    """Whether twice is once. A comment of a conversion that fails is put again each time, unless comments are removed, which none is in
    an embedded sequence. Claims have times only where these are numbers again in the second run, and a bignum is no number in the first.
    Removing comments takes the spaces that a conversion made. An address in a tag with a literal that means nothing stays, until the literal
    is a tag 999."""
    flags = set(flags)
    if {"--annotate-tags", "--apply-999"} <= flags:
        return False
    if "<<" in text and flags & {"--annotate-tags", "--aol-to-item"}:
        return False
    if {"--remove-comments", "--preserve-space"} <= flags and flags & {"--aol-to-item", "--apply-999"}:
        return False
    if "--annotate=ccs" in flags:
        return {"--aol-to-item", "--remove-comments", "--no-bignum-from-tags"} <= flags and "--apply-999" not in flags
    if "--annotate-tags" in flags and "--remove-comments" not in flags:
        return False
    # a literal that fails stays and is told of again, or it becomes a tag 999 and is told of once
    return "--aol-to-item" not in flags or ("--remove-comments" in flags) != ("--apply-999" in flags)


def steps(flags, annotate_tags):
    """Which steps the flags ask for, in their order."""
    return annotate_tags, "--aol-to-item" in flags, "--annotate=ccs" in flags, "--no-bignum-from-tags" not in flags


def lay_out(data, limit, flags):
    """`diag2diag` writes the items that the flags make, and takes them again, with the same result where flags allow; they mean the same."""
    text, items, taken = read(data, limit)
    ended = run(["diag2diag", *flags, *limited(limit)], data)
    if text is None:
        expect(fault("Error processing input file"), ended)
        return
    if not taken:
        refuse(ended, text, items, limit)
        return
    if ended.status != 0:
        raise Problem(f"the text is of the grammar: {ended}")
    again = run(["diag2diag", *flags], ended.output)
    if is_idempotent(flags, text):
        expect(ended, again)
    elif again.status != 0:
        raise Problem(f"its own output {ended} is refused: {again}")
    made = conversions.converted(items, *steps(flags, "--annotate-tags" in flags), "--apply-999" in flags)
    if edn.read(ended.output.decode()) != made:
        raise Problem(f"the items are others: {ended}; and not {made}"[:2000])
    if "--no-bignum-from-tags" in flags and not CONVERSIONS & set(flags):
        text = layout.without_comments(text) if "--remove-comments" in flags else text
        text = text if "--preserve-space" in flags else layout.laid_out(text)
        expect(written(text.encode()), ended)
    direct = encoded(items, [])
    if direct.status == 0 and "--apply-999" not in flags:
        expect(direct, run(["diag2cbor"], ended.output))


def annotate(data, limit, flags):
    """`diag2cbor --annotate-tags` writes the encodings of the items that the step makes. What has an encoding without it has the same."""
    text, items, taken = read(data, limit)
    ended = run(["diag2cbor", "--annotate-tags", *flags, *limited(limit)], data)
    if text is None:
        expect(fault("Error processing input file"), ended)
    elif not taken:
        refuse(ended, text, items, limit)
    else:
        direct = encoded(items, flags)
        if direct.status == 0:
            expect(direct, ended)
        expect(encoded(conversions.converted(items, True, False, False, False, False), flags), ended)


def decode(data, limit, flags):
    """`cbor2diag` writes the text of the well-formed CBOR of its scope, or tells the first fault; `diag2cbor` gives the bytes back."""
    items, words = cbor.read(data, limit)
    ended = run(["cbor2diag", *flags, *limited(limit)], data)
    if items is None:
        expect(fault(f"Error decoding input data: {words}"), ended)
        return
    if ended.status != 0:
        raise Problem(f"the bytes are of the scope: {ended}")
    expect(written(data), run(["diag2cbor", *limited(limit)], ended.output))
    items = annotations.annotated(items, *steps(flags, "--no-annotate-tags" not in flags))
    expect(written(layout.laid_out(",".join(map(layout.text_of, items))).encode()), ended)


def show(data, limit, flags):
    """`show` writes the text with what byte strings hold, and with names, or tells the first fault; `diag2cbor` gives the bytes back."""
    items, words = cbor.read(data, limit)
    ended = run(["show", *flags, *limited(limit)], data)
    if items is None:
        expect(fault_of_bytes(words, cbor.offset_of_fault(data, limit)), ended)
        return
    if ended.status != 0:
        raise Problem(f"the bytes are of the scope: {ended}")
    expect(written(data), run(["diag2cbor", *limited(limit)], ended.output))
    _, _, claims, bignums = steps(flags, True)
    items = cose.shown(embedded.shown(items, levels(flags), limit), claims, "--no-names" not in flags, bignums)
    expect(written(escaped(with_line_feed(layout.laid_out(",".join(map(layout.text_of, items))))).encode()), ended)


def escaped(text):
    """A text in which line feeds alone act on a terminal: the other characters that do stand in quotes."""
    return ACTING.sub(lambda found: f"\\u{{{ord(found[0]):x}}}", text)


def with_line_feed(text):
    return text if text[-1:] in ("", "\n") else text + "\n"


def levels(flags):
    if "--no-embedded" in flags:
        return 0
    return next((int(flag.split("=")[1]) for flag in flags if flag.startswith("--levels=")), embedded.LEVELS)


def lay_out_file(data, limit, flags):
    """`fmt` writes the text with other spaces and a line feed at its end, and leaves that; of a text that it does not take it tells the place."""
    text, items, taken = read(data, limit)
    ended = run(["fmt", *flags, *limited(limit)], data)
    if not taken:
        refuse_file(ended, data, text, items, limit)
        return
    if "--remove-comments" in flags:
        text = layout.without_comments(text)
    expect(written(with_line_feed(layout.laid_out(text)).encode()), ended)
    expect(ended, run(["fmt", *flags, *limited(limit)], ended.output))


def rest(data, limit, flags):
    """`fmt` leaves what it wrote."""
    ended = run(["fmt", *flags, *limited(limit)], data)
    if ended.status != 0:
        raise Problem(f"the text is one: {ended}")
    expect(ended, run(["fmt", *flags, *limited(limit)], ended.output))


def refuse_file(ended, data, text, items, limit):
    """A command for files must have refused a text that is none, or that the grammar or the limit refuses."""
    if text is None:
        expect_place_of_file(ended, data.decode(errors="replace"), ["Not UTF-8"])
    elif items is not None:
        expect_place_of_file(ended, text, ["EDN nested too deeply"])
    else:
        expect_place_of_file(ended, text, ["Invalid EDN", *(["EDN nested too deeply"] if len(MARK.findall(text)) > limit else [])])


def check(data, limit, flags):
    """`check` is silent where `diag2cbor` writes, and tells a place where it does not."""
    text, items, taken = read(data, limit)
    ended = run(["check", *flags, *limited(limit)], data)
    if not taken:
        refuse_file(ended, data, text, items, limit)
    elif encoded(items, flags).status == 0:
        expect(written(b""), ended)
    else:
        expect_place_of_file(ended, text, edn.FAULTS)


def decode_digits(data, limit, flags):
    """Hexadecimal input is read as the bytes that it stands for."""
    digits = data.translate(None, b"\t\n\r ")
    ended = run(["cbor2diag", "-ihex", *flags, *limited(limit)], data)
    if re.fullmatch(b"(?:[0-9a-fA-F]{2})*", digits):
        expect(run(["cbor2diag", *flags, *limited(limit)], bytes.fromhex(digits.decode())), ended)
    else:
        expect(fault("Error decoding hexadecimal input"), ended)
