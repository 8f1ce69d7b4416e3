"""The Extended Diagnostic Notation (EDN) of CBOR, into CBOR and back, by a library that is proved to meet its contracts.

>>> diag2cbor('[1, 0x1f, []]').hex()
'8301181f80'
>>> cbor2diag(bytes.fromhex('8301181f80'))
'[1, 31, []]\\n'
>>> diag2diag('{4: 1700000000}', annotate_ccs=True)
"{4/ exp /: dt'2023-11-14T22:13:20+00:00'}\\n"
>>> show(bytes.fromhex('43a10126'))
'<<{1: -7}>>\\n'
>>> diag2cbor('[1,\\n  2x]')
Traceback (most recent call last):
cbor_edn.ParseError: Error parsing input data: Invalid EDN in line 2 column 4 (byte 7)
>>> try:
...     diag2cbor('[1,\\n  {2: 1.5}]')
... except Error as error:
...     (error.line, error.column, error.offset)
(2, 7, 10)

The library is the file that CBOR_EDN_LIBRARY names, else `libcbor_edn.so` beside this file, else the system's. A call takes a stack of
1 MB at most: mind `threading.stack_size`. Other threads run meanwhile.

Options are those of the program's commands, with the same defaults:

- hex: CBOR stands in hexadecimal digits, as bytes
- annotate_tags: tags 52, 54 and 1 become IP'..' and DT'..'
- remove_comments: comments are left out
- aol_to_item: ip'..' and dt'..' become what they stand for
- annotate_ccs: each item that is a map is shown as the claims set of a CWT
- bignum_from_tags: tags 2 and 3 become integers
- apply_999: literals that mean nothing by themselves become tags 999
- preserve_space: spaces stay as they are, where else items are indented
- levels: to how many levels show shows CBOR in byte strings, at most 255
- names: COSE messages get their names as comments
- limit: how deep items may nest, at most NESTING_LIMIT
"""

import ctypes
import os

__all__ = ["diag2cbor", "cbor2diag", "diag2diag", "show", "Error", "ParseError", "DecodeError", "EncodeError", "NESTING_LIMIT"]

NESTING_LIMIT = 512

# Commands, flags and statuses of cbor_edn.h.
_DIAG2CBOR, _CBOR2DIAG, _DIAG2DIAG, _SHOW = range(4)
_FLAGS = {
    "hex": 1,
    "annotate_tags": 2,
    "remove_comments": 4,
    "aol_to_item": 8,
    "annotate_ccs": 16,
    "bignum_from_tags": 32,
    "apply_999": 64,
    "preserve_space": 128,
    "names": 256,
}
_LEVEL = 512
_MOST_LEVELS = 255
_DONE, _NO_ROOM, _BAD_CALL, _NOT_UTF8, _INVALID_TEXT, _INVALID_CBOR, _INVALID_HEX, _NO_ENCODING, _OUT_OF_MEMORY, _TOO_DEEP = range(10)

# Memory to find the place ran out.
_NO_OFFSET = ctypes.c_size_t(-1).value

# Takes each message.
_MESSAGE_ROOM = 160

# The system's library, by the name that `scripts/build/c.sh` gives it.
_SONAME = "libcbor_edn.so.0"


class Error(ValueError):
    """A fault of the input. `too_deep` says whether items nest deeper than the limit.

    In a text `line` and `column` count from 1, and `offset` counts bytes of UTF-8 from 0. CBOR has an `offset` alone. What is not told
    is None.
    """

    too_deep = False

    def __init__(self, message, line=None, column=None, offset=None):
        super().__init__(message)
        self.line, self.column, self.offset = line, column, offset

    def __reduce__(self):
        return (type(self), (str(self), self.line, self.column, self.offset), self.__dict__)


class ParseError(Error):
    """The text is no EDN, or nests too deep."""


class DecodeError(Error):
    """The bytes are no CBOR that is read here, or nest too deep, or the digits are no hexadecimal digits.

    `offset` is that of a head, or the end where an item is missing; of digits it is a byte that they stand for.
    """


class EncodeError(Error):
    """What the text says has no encoding: the place is that of the first item that has none while all in it has one."""


class _Report(ctypes.Structure):
    _fields_ = [(name, ctypes.c_size_t) for name in ("output_len", "message_len", "offset", "line", "column")]


def _load():
    beside = os.path.join(os.path.dirname(os.path.abspath(__file__)), "libcbor_edn.so")
    file = os.environ.get("CBOR_EDN_LIBRARY") or (beside if os.path.exists(beside) else _SONAME)
    try:
        convert = ctypes.CDLL(file).cbor_edn_convert
    except (OSError, AttributeError) as error:
        raise ImportError(
            f"{error}. Install the package libcbor-edn0, or make the library by scripts/build/c.sh of cbor-edn"
            " and let CBOR_EDN_LIBRARY name its out/c/libcbor_edn.so"
        ) from None
    convert.restype = ctypes.c_uint32
    convert.argtypes = [
        ctypes.c_uint32,  # command
        ctypes.c_uint32,  # flags
        ctypes.c_size_t,  # limit
        ctypes.c_char_p,  # input
        ctypes.c_size_t,
        ctypes.c_char_p,  # output
        ctypes.c_size_t,
        ctypes.c_char_p,  # message
        ctypes.c_size_t,
        ctypes.POINTER(_Report),
    ]
    return convert


_convert = _load()


def _place(status, report):
    """The line, the column and the offset. Lines count from 1: what has none is no text."""
    if report.line > 0:
        return report.line, report.column, report.offset
    if status in (_INVALID_CBOR, _TOO_DEEP) and report.offset != _NO_OFFSET:
        return None, None, report.offset
    return None, None, None


def _fault(status, message, report):
    place = _place(status, report)
    if status == _NO_ENCODING:
        return EncodeError(message, *place)
    if report.line > 0:
        return ParseError(message, *place)
    return DecodeError(message, *place)


def _error(status, message, report):
    if status in (_INVALID_TEXT, _INVALID_CBOR, _INVALID_HEX, _NO_ENCODING, _TOO_DEEP):
        error = _fault(status, message, report)
        error.too_deep = status == _TOO_DEEP
        return error
    if status == _OUT_OF_MEMORY:
        return MemoryError(message)
    return AssertionError(f"status {status}")


def _run(command, data, limit, *, levels=0, **options):
    """Calls once, and again where the output is longer than was guessed. data is no subclass of bytes: that could lie of its length."""
    if not 0 <= limit <= NESTING_LIMIT:
        raise ValueError(f"limit is 0 to {NESTING_LIMIT}")
    flags = _LEVEL * levels + sum(_FLAGS[name] for name, is_on in options.items() if is_on)
    message = ctypes.create_string_buffer(_MESSAGE_ROOM)
    report = _Report()
    room = 2 * len(data) + 16
    status = _NO_ROOM
    while status == _NO_ROOM:
        output = ctypes.create_string_buffer(room)
        status = _convert(command, flags, limit, data, len(data), output, room, message, _MESSAGE_ROOM, ctypes.byref(report))
        room = report.output_len
    if status == _DONE:
        return ctypes.string_at(output, report.output_len)
    shown = ctypes.string_at(message, min(report.message_len, _MESSAGE_ROOM))
    raise _error(status, shown.decode("utf-8", "replace"), report)


def diag2cbor(edn, *, hex=False, annotate_tags=False, aol_to_item=True, apply_999=False, limit=NESTING_LIMIT):
    """The CBOR that a text means: the encodings of its items, one behind the other."""
    return _run(
        _DIAG2CBOR,
        str.encode(edn),
        limit,
        hex=hex,
        annotate_tags=annotate_tags,
        aol_to_item=aol_to_item,
        apply_999=apply_999,
    )


def cbor2diag(
    cbor, *, hex=False, annotate_tags=True, aol_to_item=False, annotate_ccs=False, bignum_from_tags=True, limit=NESTING_LIMIT
):
    """The text of what bytes encode, item by item, each on one line where that is less than 80 bytes wide."""
    shown = _run(
        _CBOR2DIAG,
        memoryview(cbor).tobytes(),
        limit,
        hex=hex,
        annotate_tags=annotate_tags,
        aol_to_item=aol_to_item,
        annotate_ccs=annotate_ccs,
        bignum_from_tags=bignum_from_tags,
    )
    return shown.decode()


def diag2diag(
    edn,
    *,
    annotate_tags=False,
    remove_comments=False,
    aol_to_item=False,
    annotate_ccs=False,
    bignum_from_tags=True,
    apply_999=False,
    preserve_space=False,
    limit=NESTING_LIMIT,
):
    """The same items with other spaces."""
    shown = _run(
        _DIAG2DIAG,
        str.encode(edn),
        limit,
        annotate_tags=annotate_tags,
        remove_comments=remove_comments,
        aol_to_item=aol_to_item,
        annotate_ccs=annotate_ccs,
        bignum_from_tags=bignum_from_tags,
        apply_999=apply_999,
        preserve_space=preserve_space,
    )
    return shown.decode()


def show(cbor, *, hex=False, levels=8, names=True, annotate_ccs=False, bignum_from_tags=True, limit=NESTING_LIMIT):
    """The text of what bytes encode, with the CBOR in its byte strings and the names of COSE."""
    if not 0 <= levels <= _MOST_LEVELS:
        raise ValueError(f"levels is 0 to {_MOST_LEVELS}")
    shown = _run(
        _SHOW,
        memoryview(cbor).tobytes(),
        limit,
        levels=levels,
        hex=hex,
        names=names,
        annotate_ccs=annotate_ccs,
        bignum_from_tags=bignum_from_tags,
    )
    return shown.decode()
