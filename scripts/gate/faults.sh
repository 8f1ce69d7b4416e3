#!/usr/bin/env bash
# Compares the line that tells of a fault, whole, for each reason and for inputs with controls that a terminal obeys; and looks that what
# is written of decoded bytes has no such control either, but those that are shown as they are.
#
# usage: scripts/gate/faults.sh [PROGRAM]
#
# Without PROGRAM it is the working tree's. The last line is 'N passed, M failed'.
set -euo pipefail

cd "$(dirname "$(readlink -f "$0")")/../.."
# shellcheck source=scripts/gate/common.sh
. scripts/gate/common.sh
begin_trial "${1-}"

# Runs the words on an input, and counts whether status, output and what is said are these. `\` has its meaning in all but the words.
expect() {
  local words=$1 input=$2 wanted_status=$3 output=$4 said=$5
  status=0
  # shellcheck disable=SC2086
  printf '%b' "$input" | "$program" $words > "$work/output" 2> "$work/said" || status=$?
  count "$words of '$input'" ended "$wanted_status" "$output" "$said"
}

ended() {
  [ "$status" = "$1" ] && printf '%b' "$2" | cmp -s - "$work/output" && printf '%b' "$3" | cmp -s - "$work/said"
}

details() {
  echo ": status $status, it wrote and said:"
  cat -v "$work/output" "$work/said"
}

# Rows of an input and words, for a command: the run is at fault and says so in one line.
faults() {
  local words=$1 beginning=$2 input said
  while IFS='|' read -r input said; do
    [ -z "$input" ] || expect "$words" "$input" 1 '' "cbor-edn: $beginning$said\\n"
  done
}

# Rows of an input and an output.
writes() {
  local words=$1 input output
  while IFS='|' read -r input output; do
    [ -z "$input" ] || expect "$words" "$input" 0 "$output" ''
  done
}

# Texts that the grammar refuses, by docs/SUPPORTED.md ("Texts"): the place is that of the character that can't stand there, or the end. A
# line ends at a line feed alone, a column counts characters, a byte those of UTF-8. Bytes that are no UTF-8 by RFC 3629, section 3: a
# byte that begins nothing, a sequence cut short, a surrogate, a zero in two bytes. What nests is named under "Texts" too: the place is
# that of the opening that is one too many, behind the number of a tag and behind the word of `simple(`.
for command in diag2diag 'diag2diag --preserve-space --no-bignum-from-tags' diag2cbor 'diag2cbor -o hex --annotate-tags --apply-999'; do
  faults "$command" 'Error parsing input data: Invalid EDN in ' << 'END'
[1, |line 1 column 5 (byte 4)
1,,|line 1 column 3 (byte 2)
,1|line 1 column 1 (byte 0)
1 # c|line 1 column 6 (byte 5)
1\n/ c|line 2 column 4 (byte 5)
\x1b|line 1 column 1 (byte 0)
[1, \x1b[31m2]|line 1 column 5 (byte 4)
1\x07|line 1 column 2 (byte 1)
1\x08|line 1 column 2 (byte 1)
1\x7f|line 1 column 2 (byte 1)
1\x0c|line 1 column 2 (byte 1)
\x00|line 1 column 1 (byte 0)
"a\x1b"|line 1 column 3 (byte 2)
"\x07"|line 1 column 2 (byte 1)
'\x00'|line 1 column 2 (byte 1)
'\t'|line 1 column 2 (byte 1)
h'00\x1b'|line 1 column 5 (byte 4)
/\x1b]0;title\x07/|line 1 column 2 (byte 1)
# c\x1b\n|line 1 column 4 (byte 3)
\xc2\x9b|line 1 column 1 (byte 0)
\xc2\x85|line 1 column 1 (byte 0)
\xc2\xa0|line 1 column 1 (byte 0)
\xef\xbb\xbf1|line 1 column 1 (byte 0)
\xe2\x80\xae1|line 1 column 1 (byte 0)
a\xe2\x80\xae'x'|line 1 column 2 (byte 1)
a\x1b'x'|line 1 column 2 (byte 1)
1\n2\n\x1b|line 3 column 1 (byte 4)
1\r\x1b|line 1 column 3 (byte 2)
1\r\n\x1b|line 2 column 1 (byte 3)
"\xc3\xa9\x1b"|line 1 column 3 (byte 3)
/\xf0\x9f\x98\x80\n\xf0\x9f\x98\x80/ \x1b|line 2 column 4 (byte 12)
END
  faults "$command" 'Error processing input file' << 'END'
\xff|
\x1b\xff|
\xff\xfe1\x00|
1 /\xc3/|
"\xed\xa0\x80"|
"\xc0\x80"|
END
  faults "$command --max-nesting 0" 'Error parsing input data: EDN nested too deeply in ' << 'END'
[]|line 1 column 1 (byte 0)
/ c /\n {1: 2}|line 2 column 2 (byte 7)
1(2)|line 1 column 2 (byte 1)
<<>>|line 1 column 1 (byte 0)
simple(4)|line 1 column 7 (byte 6)
END
  faults "$command --max-nesting 1" 'Error parsing input data: EDN nested too deeply in ' << 'END'
[[]]|line 1 column 2 (byte 1)
1\n[2, "\xc3\xa9", {}]|line 2 column 10 (byte 12)
END
done

# Items that mean nothing, by the column "means" of docs/SUPPORTED.md: the first in the text is told, an item before its parts.
for command in diag2cbor 'diag2cbor -o hex'; do
  faults "$command" 'Error encoding output data: ' << 'END'
1.0|Number has no encoding
340282366920938463463374607431768211456|Number has no encoding
dt'1970-01-01T00:00:00.5Z'|Number has no encoding
24_i|Encoding indicator does not fit
18446744073709551616_3|Encoding indicator does not fit
1_(2)|Encoding indicator does not fit
NaN_|Encoding indicator does not fit
simple(24)|Invalid simple value
simple("\\u{1b}")|Invalid simple value
'a'_0 + 'b'|Encoding indicators present on string expressed in multiple EDN chunks
e'\\u{1b}[31m'|Unsupported application oriented literal or ellipsis
dt'\\u{1b}'|Unsupported application oriented literal or ellipsis
ip'\xc2\x9b'|Unsupported application oriented literal or ellipsis
"a" + ...|Unsupported application oriented literal or ellipsis
b64'A'|String content can not be decoded
h'\\u{1b}'|String content can not be decoded
b32'\xe2\x80\xae'|String content can not be decoded
"" + h'ff'|Concatenated text string is not valid UTF-8
(_ "a", 'b')|Chunk of another kind in indefinite length string
[24_i, 1.0]|Encoding indicator does not fit
[_i 1.0, 24_i]|Number has no encoding
END
done

# Bytes, of which RFC 8949, section 3 and appendix F, say that they are not well-formed, or which have no item in EDN here.
for form in '' '-i hex'; do
  while IFS='|' read -r digits said; do
    input=$digits
    [ -n "$form" ] || input=$(sed 's/../\\x&/g' <<< "$digits")
    expect "cbor2diag $form" "$input" 1 '' "cbor-edn: Error decoding input data: $said\\n"
  done << 'END'
81|Expected item, out of data
9f01|Expected item, out of data
a101|Expected item, out of data
5f41ff|Expected item, out of data
1c|Reserved header byte
5f1e|Reserved header byte
18|Missing argument bytes
1b00000000000000|Missing argument bytes
f97c|Missing argument bytes
5f6161ff|Indefinite length strings can only contain matching items
7f4161ff|Indefinite length strings can only contain matching items
5f5f4161ffff|Indefinite length strings can only contain definite lengths
1f|Integer/Tag with indefinite length encoding is not well-formed
3f|Integer/Tag with indefinite length encoding is not well-formed
df01|Integer/Tag with indefinite length encoding is not well-formed
ff|Break code only expected at end of indefinite length items
81ff|Break code only expected at end of indefinite length items
bf01ff|Break code only expected at end of indefinite length items
c1ff|Break code only expected at end of indefinite length items
f81f|Invalid simple value
f93c00|Float value out of scope
fb7ff8000000000001|Float value out of scope
421b|Announced bytes unavailable
7b7fffffffffffffff1b5b33316d|Announced bytes unavailable
61ff|Text string must be valid UTF-8
62c31b|Text string must be valid UTF-8
7f61c361a9ff|Text string must be valid UTF-8
END
done
# A simple value nests one deep (docs/SUPPORTED.md, "CBOR").
faults 'cbor2diag --max-nesting 0' 'Error decoding input data: ' <<< '\xe4|Nested too deeply'
faults 'cbor2diag -i hex --max-nesting 0' 'Error decoding input data: ' <<< 'e4|Nested too deeply'
# Digits come in pairs, with blanks anywhere, and nothing else is taken (crates/cbor_edn_command/specs/Hexadecimal.antt).
faults 'cbor2diag -i hex' 'Error decoding hexadecimal input' << 'END'
8|
8g|
0x01|
01,02|
\x1b[31m|
01\x07|
01\x0c|
01\x00|
\xc2\x9b|
\xe2\x80\xae01|
\xff|
END

# Decoded texts: a line feed and all from U+0020 upward are as they are, but for the quotes and the backslash. So DEL, the controls from
# U+0080 to U+009F and the marks of direction are shown as they are. The others have a letter or their number.
for ((n = 0; n < 32; n++)); do
  case $n in
    8) shown='\\b' ;;
    9) shown='\\t' ;;
    10) shown='\n' ;;
    12) shown='\\f' ;;
    13) shown='\\r' ;;
    *) shown=$(printf '\\\\u{%x}' "$n") ;;
  esac
  expect cbor2diag "\\x61\\x$(printf %02x "$n")" 0 "\"$shown\"\\n" ''
done
writes cbor2diag << 'END'
\x61\x22|"\\""\n
\x61\x27|"\\u{27}"\n
\x61\x5c|"\\\\"\n
\x61\x7f|"\x7f"\n
\x62\xc2\x80|"\xc2\x80"\n
\x62\xc2\x9b|"\xc2\x9b"\n
\x63\xe2\x80\xae|"\xe2\x80\xae"\n
\x63\xef\xbb\xbf|"\xef\xbb\xbf"\n
\x64\x1b[2J|"\\u{1b}[2J"\n
\x44\x1b[2J|h'1b5b324a'\n
\x7f\x61\x1b\x61\x07\xff|(_ "\\u{1b}", "\\u{7}")\n
\xa1\x61\x1b\x61\x0d|{"\\u{1b}": "\\r"}\n
\xd8\x26\x83\x61\x1b\x61\x07\xf5|38(["\\u{1b}", "\\u{7}", true/ Right-to-left /])\n
END
# Such controls in a literal that becomes a tag 999: its text is shown as a decoded one is.
writes 'diag2diag --apply-999' << 'END'
foo'\\u{1b}[31m'|999(["foo", "\\u{1b}[31m"])\n
END
# Texts keep what the grammar lets stand in quotes and comments: CR in both, HT in comments.
writes diag2diag << 'END'
"a\rb"|"a\rb"\n
[1 /\r\t/]|[1/\r\t/]\n
END

# Names of files are not told, but for one that is to be replaced, of which no character acts on a terminal.
for name in $'\e[31m' $'\r' $'\u202e'; do
  for words in "diag2cbor $name" "cbor2diag - $name/$name"; do
    which=input
    [ "${words#* - }" = "$words" ] || which=output
    expect "$words" '' 1 '' "cbor-edn: Error opening $which\\n"
  done
  shown=$(printf '<U+%04X>' "'${name:0:1}")${name:1}
  expect "cbor2diag -O $name/$name" '' 1 '' "cbor-edn: $shown/$shown: No such file or directory (os error 2)\\n"
done

# One file as input and output is not touched.
printf '[1,2]' > "$work/same"
expect "diag2diag $work/same $work/./same" '' 1 '' 'cbor-edn: Input and output are the same file\n'
count 'one file as both' test "$(cat "$work/same")" = '[1,2]'

end
