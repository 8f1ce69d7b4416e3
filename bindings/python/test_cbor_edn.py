"""What each option does, what is told of faults, threads, and encodings of another implementation.

CBOR_EDN_VALUES names a file of such encodings, one a line in hexadecimal digits; without it that test is left out.
CBOR_EDN_STACK is how many bytes the small stack has; without it 1 MB.
"""

import doctest
import os
import pickle
import threading
import unittest
from unittest import mock

import cbor_edn
from cbor_edn import NESTING_LIMIT, cbor2diag, diag2cbor, diag2diag, show

VALUES = os.environ.get("CBOR_EDN_VALUES")
STACK = int(os.environ.get("CBOR_EDN_STACK", 1 << 20))

BIGNUM = b"\xc2\x49\x01" + bytes(8)

# An option, a call, its input, what it gives with the option on, and off.
OPTIONS = [
    ("hex", diag2cbor, "[1, 0x1f, []]", b"8301181f80\n", b"\x83\x01\x18\x1f\x80"),
    ("hex", cbor2diag, b"30", "-17\n", "-20,\n-17\n"),
    ("annotate_tags", cbor2diag, b"\xc1\x00", "DT'1970-01-01T00:00:00+00:00'\n", "1(0)\n"),
    ("annotate_tags", diag2diag, "52(h'c0000201')", "IP'192.0.2.1'\n", "52(h'c0000201')\n"),
    ("remove_comments", diag2diag, "[1 /c/, 2]\n", "[1, 2]\n", "[1/c/, 2]\n"),
    ("aol_to_item", cbor2diag, b"\xc1\x00", "1(0)\n", "DT'1970-01-01T00:00:00+00:00'\n"),
    ("aol_to_item", diag2diag, "dt'1970-01-01T00:00:23Z'", "23\n", "dt'1970-01-01T00:00:23Z'\n"),
    ("annotate_ccs", cbor2diag, b"\xa1\x04\x1a\x65\x53\xf1\x00", "{4/ exp /: dt'2023-11-14T22:13:20+00:00'}\n", "{4: 1700000000}\n"),
    ("annotate_ccs", diag2diag, "{4: 1700000000}", "{4/ exp /: dt'2023-11-14T22:13:20+00:00'}\n", "{4: 1700000000}\n"),
    ("bignum_from_tags", cbor2diag, BIGNUM, "18446744073709551616\n", "2(h'010000000000000000')\n"),
    ("bignum_from_tags", diag2diag, "2(h'010000000000000000')", "18446744073709551616\n", "2(h'010000000000000000')\n"),
    ("apply_999", diag2diag, "foo'bar'", "999([\"foo\", \"bar\"])\n", "foo'bar'\n"),
    ("preserve_space", diag2diag, "[1 /one/,2]", "[1 /one/,2]", "[1/one/, 2]\n"),
    ("hex", show, b"30", "-17\n", "-20,\n-17\n"),
    ("names", show, b"\xd1\x80", "17([])\n/ COSE_Mac0 /\n", "17([])\n"),
    ("annotate_ccs", show, b"\x43\xa1\x04\x00\xa1\x04\x00", "<<{4: 0}>>,\n{4/ exp /: dt'1970-01-01T00:00:00+00:00'}\n", "<<{4: 0}>>,\n{4: 0}\n"),
    ("bignum_from_tags", show, BIGNUM, "18446744073709551616\n", "2(h'010000000000000000')\n"),
]

# What opens, stands inside and closes.
NESTED = [("[_ ", "1", "]"), ("{", "1", ": 2}"), ("{_ 2: ", "1", "}"), ("6(", "1", ")"), ("<<2, ", "1", ", 3>>"), ("(_ 'a', 'b' + <<", "1", ">>, 'c')")]


def in_thread(work, stack=0):
    """Runs in a thread with a stack of that many bytes, and returns what it was raised, or None."""
    raised = []

    def run():
        try:
            work()
        except BaseException as error:
            raised.append(error)

    old = threading.stack_size(stack)
    thread = threading.Thread(target=run)
    thread.start()
    threading.stack_size(old)
    return thread, raised


class Calls(unittest.TestCase):
    def test_options(self):
        for name, call, given, on, off in OPTIONS:
            with self.subTest(option=name, call=call.__name__):
                self.assertEqual(call(given, **{name: True}), on)
                self.assertEqual(call(given, **{name: False}), off)
        self.assertEqual(diag2cbor("<<foo'x'>>", apply_999=True), b"\x4a\xd9\x03\xe7\x82\x63foo\x61x")
        self.assertEqual(diag2cbor("1(23)", annotate_tags=True), b"\xc1\x17")
        with self.assertRaises(cbor_edn.EncodeError):
            diag2cbor("1(23)", annotate_tags=True, aol_to_item=False)

    def test_defaults(self):
        self.assertEqual(diag2cbor("ip'192.0.2.1', 0x1f"), b"\x44\xc0\x00\x02\x01\x18\x1f")
        self.assertEqual(cbor2diag(bytearray(b"\x80")), "[]\n")
        self.assertEqual((diag2cbor(""), cbor2diag(b"")), (b"", ""))
        self.assertEqual(diag2cbor('"\u00e9"'), b"\x62\xc3\xa9")

    def test_levels(self):
        for levels, shown in [(0, "h'8143814107'"), (1, "<<[h'814107']>>"), (2, "<<[<<[h'07']>>]>>"), (255, "<<[<<[h'07']>>]>>")]:
            self.assertEqual(show(b"\x45\x81\x43\x81\x41\x07", levels=levels), shown + "\n")
        for levels in (-1, 256):
            with self.assertRaises(ValueError):
                show(b"", levels=levels)

    def test_more_room_than_was_guessed(self):
        data = b"\x59\x10\x00" + bytes(4096)
        self.assertEqual(cbor2diag(data), f"h'{'00' * 4096}'\n")
        deep = "[" * NESTING_LIMIT + "]" * NESTING_LIMIT
        self.assertEqual(diag2cbor(diag2diag(deep)), b"\x81" * (NESTING_LIMIT - 1) + b"\x80")

    def test_more_room_than_there_is(self):
        """As where a call says that the output takes 2^62 bytes."""

        def convert(*words):
            words[-1]._obj.output_len = 1 << 62
            return cbor_edn._NO_ROOM

        with mock.patch.object(cbor_edn, "_convert", convert), self.assertRaises(MemoryError):
            cbor2diag(b"\x80")

    def test_faults(self):
        with self.assertRaises(cbor_edn.ParseError) as caught:
            diag2cbor("[1,\n  2x]")
        error = caught.exception
        self.assertEqual((error.line, error.column, error.offset), (2, 4, 7))
        self.assertEqual(str(error), "Error parsing input data: Invalid EDN in line 2 column 4 (byte 7)")
        self.assertEqual(pickle.loads(pickle.dumps(error)).column, 4)
        self.assertFalse(error.too_deep)
        with self.assertRaisesRegex(cbor_edn.ParseError, "nested too deeply in line 1 column 2 ") as caught:
            diag2diag("[[]]", limit=1)
        error = pickle.loads(pickle.dumps(caught.exception))
        self.assertEqual((error.too_deep, error.line, error.column, error.offset), (True, 1, 2, 1))
        with self.assertRaisesRegex(cbor_edn.DecodeError, "Nested too deeply") as caught:
            cbor2diag(b"\x81\x80", limit=1)
        self.assertTrue(caught.exception.too_deep)
        for limit in (-1, NESTING_LIMIT + 1):
            with self.assertRaises(ValueError):
                diag2cbor("1", limit=limit)
            with self.assertRaises(ValueError):
                show(b"", limit=limit)

    def test_places(self):
        decode, encode = cbor_edn.DecodeError, cbor_edn.EncodeError
        rows = [
            (lambda: cbor2diag(b"\x83\x01"), decode, "Expected item, out of data", (None, None, 2)),
            (lambda: cbor2diag(b"\x1c"), decode, "Reserved header byte", (None, None, 0)),
            (lambda: cbor2diag(b"01 82\n01 f818", hex=True), decode, "Invalid simple value", (None, None, 3)),
            (lambda: show(b"\x81\x80", limit=1), decode, "Nested too deeply", (None, None, 1)),
            (lambda: cbor2diag(b"123", hex=True), decode, "hexadecimal", (None, None, None)),
            (lambda: diag2cbor("1.0"), encode, "Number has no encoding", (1, 1, 0)),
            (lambda: diag2cbor('["\u00e9",\n {2: <<1.5>>}]'), encode, "Number has no encoding", (2, 8, 14)),
            (lambda: diag2cbor("dt'1970-01-01T00:00:23Z', foo'x'"), encode, "Unsupported application oriented literal", (1, 27, 26)),
        ]
        for call, kind, message, place in rows:
            with self.subTest(place=place), self.assertRaisesRegex(cbor_edn.Error, message) as caught:
                call()
            for error in (caught.exception, pickle.loads(pickle.dumps(caught.exception))):
                self.assertIs(type(error), kind)
                self.assertEqual((error.line, error.column, error.offset), place)
                self.assertEqual(error.too_deep, message == "Nested too deeply")

    def test_arguments(self):
        class Long(bytes):
            def __len__(self):
                return 1 << 40

        class Text(str):
            def encode(self, *args):
                return Long(b"1")

        self.assertEqual(cbor2diag(Long(b"\x80")), "[]\n")
        self.assertEqual(diag2cbor(Text("2")), b"\x02")
        for call, given in [(diag2cbor, b"1"), (diag2diag, b"1"), (cbor2diag, "1"), (diag2cbor, None)]:
            with self.assertRaises(TypeError):
                call(given)
        with self.assertRaises(UnicodeEncodeError):
            diag2cbor("\ud800")

    def test_eight_threads_at_once(self):
        def work():
            for _ in range(1000):
                self.assertEqual(diag2cbor("[1, 0x1f, []]"), b"\x83\x01\x18\x1f\x80")
                with self.assertRaises(cbor_edn.ParseError):
                    diag2cbor("[1, ")

        for thread, raised in [in_thread(work) for _ in range(8)]:
            thread.join()
            self.assertEqual(raised, [])

    def test_the_deepest_nesting_in_a_small_stack(self):
        def work(text):
            data = diag2cbor(text)
            self.assertEqual(diag2cbor(cbor2diag(data)), data)

        for opened, inside, closed in NESTED:
            text = opened * NESTING_LIMIT + inside + closed * NESTING_LIMIT
            thread, raised = in_thread(lambda text=text: work(text), STACK)
            thread.join()
            self.assertEqual(raised, [], opened)

    @unittest.skipUnless(VALUES, "CBOR_EDN_VALUES names no file")
    def test_encodings_of_another_implementation(self):
        with open(VALUES, encoding="ascii") as lines:
            values = [bytes.fromhex(line) for line in lines]
        self.assertTrue(values)
        for options in [{}, {"annotate_ccs": True}, {"aol_to_item": True}, {"annotate_tags": False, "bignum_from_tags": False}]:
            for data in values:
                self.assertEqual(diag2cbor(cbor2diag(data, **options)), data, options)
        for options in [{}, {"annotate_ccs": True}, {"names": False, "levels": 1}]:
            for data in values:
                self.assertEqual(diag2cbor(show(data, **options)), data, options)


def load_tests(loader, tests, ignore):
    tests.addTests(doctest.DocTestSuite(cbor_edn))
    return tests


if __name__ == "__main__":
    unittest.main()
