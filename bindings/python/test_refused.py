"""Each allocation of some calls refused in turn: it is told, and nothing is left behind.

CBOR_EDN_LIBRARY names the library for tests of which an allocation can be refused (`../c/tests/refusing.h`).
"""

import ctypes
import os
import unittest

from cbor_edn import Error, cbor2diag, diag2cbor, diag2diag, show

LIBRARY = ctypes.CDLL(os.environ["CBOR_EDN_LIBRARY"])
LIBRARY.cbor_edn_refuse.argtypes = [ctypes.c_long]
LIBRARY.cbor_edn_allocations.restype = ctypes.c_long
LIBRARY.cbor_edn_blocks_left.restype = ctypes.c_long

TEXT = "{4: 1(0), 8: {4: {3: -17}}} , [_ h'00', <<dt'1970-01-01T00:00:23Z'>>]"

MESSAGE = bytes.fromhex("d28443a10126a043a1040040")

BYTES = bytes.fromhex("a204c10008a104a103309f4100c249010000000000000000ff")


class Refused(unittest.TestCase):
    def test_each_allocation(self):
        rows = [
            (diag2cbor, TEXT, {}),
            (cbor2diag, BYTES, {"annotate_ccs": True}),
            (diag2diag, TEXT, {"annotate_tags": True}),
            (show, MESSAGE, {"annotate_ccs": True}),
        ]
        for call, given, options in rows:
            LIBRARY.cbor_edn_refuse(-1)
            wanted = call(given, **options)
            last, told = LIBRARY.cbor_edn_allocations(), 0
            for number in range(last):
                LIBRARY.cbor_edn_refuse(number)
                try:
                    # a collection that asked for more than it needs at once does with less
                    self.assertEqual(call(given, **options), wanted)
                except MemoryError:
                    told += 1
                self.assertEqual(LIBRARY.cbor_edn_blocks_left(), 0, f"{call.__name__}: allocation {number}")
            self.assertTrue(0 < last < 2 * told, f"{call.__name__}: {told} of {last} allocations were told")

    def test_each_allocation_of_a_place(self):
        def fault(call, given):
            with self.assertRaises((Error, MemoryError)) as caught:
                call(given)
            error = caught.exception
            return None if isinstance(error, MemoryError) else (type(error), error.line, error.column, error.offset)

        for call, given in [(diag2cbor, "[1, <<dt'1970-01-01T00:00:23Z', 1.5>>]"), (cbor2diag, bytes.fromhex("829f01f818"))]:
            LIBRARY.cbor_edn_refuse(-1)
            wanted = fault(call, given)
            last, missed = LIBRARY.cbor_edn_allocations(), 0
            for number in range(last):
                LIBRARY.cbor_edn_refuse(number)
                told = fault(call, given)
                missed += told != wanted
                self.assertIn(told, (None, wanted, (wanted[0], None, None, None)), f"{call.__name__}: allocation {number}")
                self.assertEqual(LIBRARY.cbor_edn_blocks_left(), 0, f"{call.__name__}: allocation {number}")
            self.assertTrue(0 < missed < last, f"{call.__name__}: {missed} of {last} allocations were missed")


if __name__ == "__main__":
    unittest.main()
