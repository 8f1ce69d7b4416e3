"""The kinds of flat text that scripts/measure/bench.py and scripts/gate/limits.py measure.

Called as a program, with a kind and a size in bytes, it writes one."""

import sys


def fill(begin, units, between, end):
    """Answers what makes a text of about some size: the units, again and again, joined and enclosed."""

    def text(size):
        row = between.join(units)
        count = max(1, round(size / len((row + between).encode())))
        return (begin + between.join([row] * count) + end).encode()

    return text


def array(*units):
    return fill("[", units, ", ", "]")


def sequence(*units):
    return fill("", units, " ", "")


WORDS = "true false null undefined simple(0) simple(255) Infinity -Infinity NaN NaN_3".split()
# a message of COSE, as RFC 8152, appendix C.2.1 has it, and one of its form in the tag of CWT (RFC 8392, section 6)
CONTENT = "546869732069732074686520636f6e74656e742e"
SIGNATURE = "8eb33e4ca31d1c465ab05aac34cc6b23d58fef5c083106c4d25a91aef0b0117e2af9a291aa32e14ab834dc56ed2a223444547e01f11d3b0916e5a4c345cacb36"
COSE = f"18([h'a10126', {{4: h'3131'}}, h'{CONTENT}', h'{SIGNATURE}'])"
FLAT = {
    "integers": array(*(str(digit) * digit for digit in range(1, 10))),
    "ones": sequence("1"),
    "maps": array("{1: 2, 3: 4}", "{1234: 56789, 6: -7}"),
    "words": array(*WORDS),
    "texts": array('"a"', '"words of a text"', '"é and \\u00e9, \\"quoted\\"\\n"'),
    "one text": fill('"', ["words of a text, é and \\u00e9, "], "", '"'),
    "byte strings": array("h'00'", "h'0123456789abcdef'", "h'FEDC BA98'"),
    "one byte string": fill("h'", ["0123456789abcdef"], "", "'"),
    "concatenations": array("'a' + 'b'"),
    "one concatenation": fill("", ["'a'", "h'62'"], " + ", ""),
    "streams": array("(_ 'a', 'b')"),
    "one stream": fill("(_ ", ["'a'", "'b'"], ", ", ")"),
    "tags": array("1(2)"),
    "tags alone": sequence("1(2)"),
    "COSE": sequence(COSE),
    "CWT": sequence(f"61({COSE})"),
    "embedded": array("<<1, 2>>"),
    "comments": sequence("/ words of a comment /   1 # to the end of the line\n", "2 /c/\t"),
    "one space": fill("1 ", ["/ words of a comment /", "# a line\n"], " ", ""),
}


if __name__ == "__main__":
    sys.stdout.buffer.write(FLAT[sys.argv[1]](int(sys.argv[2])))
