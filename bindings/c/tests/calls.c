/* Rows of calls: what each writes, what it leaves, and what it tells. The last line is 'N passed, M failed'. */
#include "../cbor_edn.h"

#include <stdio.h>
#include <string.h>

enum { ROOM = 4096, MESSAGE = 160 };

/* What rooms and the report hold before a call. */
enum { OLD_OUTPUT = 0xAA, OLD_MESSAGE = 0xBB, OLD_REPORT = 0xCC };

typedef struct {
  const char *name;
  uint32_t command, flags;
  size_t limit;
  const char *input;
  size_t input_len;
  const char *output;
  size_t output_len;
} Done;

typedef struct {
  const char *name;
  uint32_t command, flags;
  size_t limit;
  const char *input;
  size_t input_len;
  uint32_t status;
  size_t offset, line, column;
  const char *message;
} Fault;

#define TEXT(t) t, sizeof(t) - 1

static const Done DONE[] = {
    {"integers and arrays", 0, 0, 512, TEXT("[1, 0x1f, []]"), TEXT("\x83\x01\x18\x1f\x80")},
    {"no items", 0, 0, 512, TEXT(""), TEXT("")},
    {"no bytes", 1, 0, 512, TEXT(""), TEXT("")},
    {"a sequence", 0, 0, 512, TEXT("1/c/2"), TEXT("\x01\x02")},
    {"UTF-8", 0, 0, 512, TEXT("\"\xc3\xa9\""), TEXT("\x62\xc3\xa9")},
    {"bytes as text", 1, 0, 512, TEXT("\x83\x01\x18\x1f\x80"), TEXT("[1, 31, []]\n")},
    {"other spaces", 2, 0, 512, TEXT("[1 /one/,2]"), TEXT("[1/one/, 2]\n")},
    {"hex out", 0, CBOR_EDN_HEX, 512, TEXT("[1, 0x1f, []]"), TEXT("8301181f80\n")},
    {"hex in", 1, CBOR_EDN_HEX, 512, TEXT("83 01 18\n1F 80"), TEXT("[1, 31, []]\n")},
    {"a time stays a tag", 1, 0, 512, TEXT("\xc1\x00"), TEXT("1(0)\n")},
    {"annotate_tags", 1, CBOR_EDN_ANNOTATE_TAGS, 512, TEXT("\xc1\x00"), TEXT("DT'1970-01-01T00:00:00+00:00'\n")},
    {"annotate_tags in a text", 2, CBOR_EDN_ANNOTATE_TAGS, 512, TEXT("52(h'c0000201')"), TEXT("IP'192.0.2.1'\n")},
    {"remove_comments", 2, CBOR_EDN_REMOVE_COMMENTS, 512, TEXT("[1 /c/, 2]\n"), TEXT("[1, 2]\n")},
    {"a literal stays", 2, 0, 512, TEXT("dt'1970-01-01T00:00:23Z'"), TEXT("dt'1970-01-01T00:00:23Z'\n")},
    {"aol_to_item", 2, CBOR_EDN_AOL_TO_ITEM, 512, TEXT("dt'1970-01-01T00:00:23Z'"), TEXT("23\n")},
    {"aol_to_item to bytes", 0, CBOR_EDN_AOL_TO_ITEM, 512, TEXT("<<ip'192.0.2.1'>>"), TEXT("\x45\x44\xc0\x00\x02\x01")},
    {"annotate_ccs", 2, CBOR_EDN_ANNOTATE_CCS, 512, TEXT("{4: 1700000000}"),
     TEXT("{4/ exp /: dt'2023-11-14T22:13:20+00:00'}\n")},
    {"a bignum stays a tag", 1, 0, 512, TEXT("\xc2\x49\x01\0\0\0\0\0\0\0\0"), TEXT("2(h'010000000000000000')\n")},
    {"bignum_from_tags", 1, CBOR_EDN_BIGNUM_FROM_TAGS, 512, TEXT("\xc2\x49\x01\0\0\0\0\0\0\0\0"),
     TEXT("18446744073709551616\n")},
    {"apply_999", 0, CBOR_EDN_APPLY_999, 512, TEXT("<<foo'x'>>"), TEXT("\x4a\xd9\x03\xe7\x82\x63"
                                                                       "foo\x61x")},
    {"preserve_space", 2, CBOR_EDN_PRESERVE_SPACE, 512, TEXT("[1 /one/,2]"), TEXT("[1 /one/,2]")},
    {"two flags", 2, CBOR_EDN_PRESERVE_SPACE | CBOR_EDN_AOL_TO_ITEM, 512, TEXT("[ dt'1970-01-01T00:00:23Z']"), TEXT("[ 23]")},
    {"what diag2cbor sets", 0, CBOR_EDN_DIAG2CBOR_FLAGS, 512, TEXT("ip'192.0.2.1', 0x1f"), TEXT("\x44\xc0\x00\x02\x01\x18\x1f")},
    {"what cbor2diag sets", 1, CBOR_EDN_CBOR2DIAG_FLAGS, 512, TEXT("\xc1\x00\xc2\x49\x01\0\0\0\0\0\0\0\0"),
     TEXT("DT'1970-01-01T00:00:00+00:00',\n18446744073709551616\n")},
    {"what diag2diag sets", 2, CBOR_EDN_DIAG2DIAG_FLAGS, 512, TEXT("2(h'010000000000000000')"), TEXT("18446744073709551616\n")},
    {"show, nothing asked", 3, 0, 512, TEXT("\x43\xa1\x01\x26"), TEXT("h'a10126'\n")},
    {"levels", 3, CBOR_EDN_LEVELS(1), 512, TEXT("\x45\x81\x43\x81\x41\x07"), TEXT("<<[h'814107']>>\n")},
    {"255 levels from digits", 3, CBOR_EDN_LEVELS(255) | CBOR_EDN_HEX, 512, TEXT("458143814107"), TEXT("<<[<<[h'07']>>]>>\n")},
    {"names", 3, CBOR_EDN_NAMES, 512, TEXT("\xd1\x80"), TEXT("17([])\n/ COSE_Mac0 /\n")},
    {"show, a bignum", 3, CBOR_EDN_BIGNUM_FROM_TAGS, 512, TEXT("\xc2\x49\x01\0\0\0\0\0\0\0\0"),
     TEXT("18446744073709551616\n")},
    {"show, claims", 3, CBOR_EDN_ANNOTATE_CCS, 512, TEXT("\xa1\x04\x00"),
     TEXT("{4/ exp /: dt'1970-01-01T00:00:00+00:00'}\n")},
    {"what show sets", 3, CBOR_EDN_SHOW_FLAGS, 512, TEXT("\xc1\x00\x43\xa1\x01\x26"),
     TEXT("DT'1970-01-01T00:00:00+00:00',\n<<{1: -7}>>\n")},
    {"as deep as the limit", 0, 0, 2, TEXT("[[]]"), TEXT("\x81\x80")},
    {"no depth", 0, 0, 0, TEXT("1"), TEXT("\x01")},
};

static const Fault FAULTS[] = {
    {"no EDN", 0, 0, 512, TEXT("[1,\n  2x]"), CBOR_EDN_INVALID_TEXT, 7, 2, 4,
     "Error parsing input data: Invalid EDN in line 2 column 4 (byte 7)"},
    {"no EDN for diag2diag", 2, 0, 512, TEXT(",1"), CBOR_EDN_INVALID_TEXT, 0, 1, 1,
     "Error parsing input data: Invalid EDN in line 1 column 1 (byte 0)"},
    {"too deep a text", 0, 0, 2, TEXT("[[[]]]"), CBOR_EDN_TOO_DEEP, 2, 1, 3,
     "Error parsing input data: EDN nested too deeply in line 1 column 3 (byte 2)"},
    {"no UTF-8", 0, 0, 512, TEXT("\xff"), CBOR_EDN_NOT_UTF8, 0, 0, 0, "Error processing input file"},
    {"bytes that end early", 1, 0, 512, TEXT("\x83\x01"), CBOR_EDN_INVALID_CBOR, 2, 0, 0,
     "Error decoding input data: Expected item, out of data"},
    {"the first byte", 1, 0, 512, TEXT("\x1c"), CBOR_EDN_INVALID_CBOR, 0, 0, 0, "Error decoding input data: Reserved header byte"},
    {"a head behind items", 1, 0, 512, TEXT("\x01\x82\x01\xf8\x18"), CBOR_EDN_INVALID_CBOR, 3, 0, 0,
     "Error decoding input data: Invalid simple value"},
    {"a head of digits", 1, CBOR_EDN_HEX, 512, TEXT("01 82\n01 f818"), CBOR_EDN_INVALID_CBOR, 3, 0, 0,
     "Error decoding input data: Invalid simple value"},
    {"too deep a text for diag2diag", 2, 0, 0, TEXT("1\n[2]"), CBOR_EDN_TOO_DEEP, 2, 2, 1,
     "Error parsing input data: EDN nested too deeply in line 2 column 1 (byte 2)"},
    {"too deep bytes", 1, 0, 1, TEXT("\x81\x81\x01"), CBOR_EDN_TOO_DEEP, 1, 0, 0,
     "Error decoding input data: Nested too deeply"},
    {"show, bytes that end early", 3, CBOR_EDN_SHOW_FLAGS, 512, TEXT("\x83\x01"), CBOR_EDN_INVALID_CBOR, 2, 0, 0,
     "Error decoding input data: Expected item, out of data"},
    {"show, too deep bytes", 3, CBOR_EDN_SHOW_FLAGS, 1, TEXT("\x81\x81\x01"), CBOR_EDN_TOO_DEEP, 1, 0, 0,
     "Error decoding input data: Nested too deeply"},
    {"show, too deep digits", 3, CBOR_EDN_SHOW_FLAGS | CBOR_EDN_HEX, 1, TEXT("81 81 01"), CBOR_EDN_TOO_DEEP, 1, 0, 0,
     "Error decoding input data: Nested too deeply"},
    {"show, no digit", 3, CBOR_EDN_SHOW_FLAGS | CBOR_EDN_HEX, 512, TEXT("1g"), CBOR_EDN_INVALID_HEX, 0, 0, 0,
     "Error decoding hexadecimal input"},
    {"half a digit pair", 1, CBOR_EDN_HEX, 512, TEXT("123"), CBOR_EDN_INVALID_HEX, 0, 0, 0, "Error decoding hexadecimal input"},
    {"no digit", 1, CBOR_EDN_HEX, 512, TEXT("1g"), CBOR_EDN_INVALID_HEX, 0, 0, 0, "Error decoding hexadecimal input"},
    {"no encoding", 0, 0, 512, TEXT("1.0"), CBOR_EDN_NO_ENCODING, 0, 1, 1,
     "Error encoding output data: Number has no encoding"},
    {"a literal left", 0, 0, 512, TEXT("ip'192.0.2.1'"), CBOR_EDN_NO_ENCODING, 0, 1, 1,
     "Error encoding output data: Unsupported application oriented literal or ellipsis"},
    {"no encoding in a line below", 0, 0, 512, TEXT("[1,\n  {2: 1.5}]"), CBOR_EDN_NO_ENCODING, 10, 2, 7,
     "Error encoding output data: Number has no encoding"},
    {"no encoding behind two bytes of a character", 0, 0, 512, TEXT("[\"\xc3\xa9\", 1.5]"), CBOR_EDN_NO_ENCODING, 7, 1, 7,
     "Error encoding output data: Number has no encoding"},
    {"no encoding in embedded items", 0, 0, 512, TEXT("<<1, <<1.5>>>>"), CBOR_EDN_NO_ENCODING, 7, 1, 8,
     "Error encoding output data: Number has no encoding"},
    {"no encoding of a piece and of an item in another", 0, 0, 512, TEXT("e'x' + <<1.5>>"), CBOR_EDN_NO_ENCODING, 9, 1, 10,
     "Error encoding output data: Number has no encoding"},
    {"no encoding behind a literal", 0, CBOR_EDN_AOL_TO_ITEM, 512, TEXT("dt'1970-01-01T00:00:23Z', foo'x'"), CBOR_EDN_NO_ENCODING, 26,
     1, 27, "Error encoding output data: Unsupported application oriented literal or ellipsis"},
    {"no encoding but for tags 999", 0, CBOR_EDN_APPLY_999, 512, TEXT("foo'x', 1.5"), CBOR_EDN_NO_ENCODING, 8, 1, 9,
     "Error encoding output data: Number has no encoding"},
    {"no encoding of a tag that became a literal", 0, CBOR_EDN_ANNOTATE_TAGS, 512, TEXT("[2, 1(23)]"), CBOR_EDN_NO_ENCODING, 4, 1, 5,
     "Error encoding output data: Unsupported application oriented literal or ellipsis"},
    {"no encoding of a claim that became a literal", 0, CBOR_EDN_ANNOTATE_CCS, 512, TEXT("{4: 1700000000}"), CBOR_EDN_NO_ENCODING, 4,
     1, 5, "Error encoding output data: Unsupported application oriented literal or ellipsis"},
    {"no encoding to digits", 0, CBOR_EDN_HEX, 512, TEXT("1, 1.5"), CBOR_EDN_NO_ENCODING, 3, 1, 4,
     "Error encoding output data: Number has no encoding"},
};

static int passed, failed;
static uint8_t output[ROOM], message[MESSAGE];
static cbor_edn_report report;

static void count(const char *name, const char *what, int is_right) {
  if (is_right) {
    passed++;
  } else {
    failed++;
    printf("calls: %s: %s\n", name, what);
  }
}

static int all_are(const uint8_t *bytes, size_t from, size_t to, uint8_t byte) {
  for (size_t i = from; i < to; i++)
    if (bytes[i] != byte) return 0;
  return 1;
}

static uint32_t call(uint32_t command, uint32_t flags, size_t limit, const char *input, size_t input_len, size_t room,
                     size_t message_capacity) {
  memset(output, OLD_OUTPUT, sizeof output);
  memset(message, OLD_MESSAGE, sizeof message);
  memset(&report, OLD_REPORT, sizeof report);
  return cbor_edn_convert(command, flags, limit, (const uint8_t *)input, input_len, output, room, message, message_capacity, &report);
}

static int tells_no_fault(void) {
  return report.message_len == 0 && report.offset == 0 && report.line == 0 && report.column == 0 &&
         all_are(message, 0, MESSAGE, OLD_MESSAGE);
}

/* With room to spare, with just enough, and with a byte too little. */
static void check_done(const Done *row) {
  uint32_t status = call(row->command, row->flags, row->limit, row->input, row->input_len, ROOM, MESSAGE);
  count(row->name, "the output",
        status == CBOR_EDN_DONE && report.output_len == row->output_len && memcmp(output, row->output, row->output_len) == 0);
  count(row->name, "what stands behind the output", all_are(output, row->output_len, ROOM, OLD_OUTPUT) && tells_no_fault());
  status = call(row->command, row->flags, row->limit, row->input, row->input_len, row->output_len, MESSAGE);
  count(row->name, "just enough room", status == CBOR_EDN_DONE && report.output_len == row->output_len &&
                                           memcmp(output, row->output, row->output_len) == 0 &&
                                           all_are(output, row->output_len, ROOM, OLD_OUTPUT));
  if (row->output_len == 0) return;
  status = call(row->command, row->flags, row->limit, row->input, row->input_len, row->output_len - 1, MESSAGE);
  count(row->name, "no room", status == CBOR_EDN_NO_ROOM && report.output_len == row->output_len &&
                                  all_are(output, 0, ROOM, OLD_OUTPUT) && tells_no_fault());
}

/* With room for the message, with room for its front, and with none. */
static void check_fault(const Fault *row) {
  size_t length = strlen(row->message), rooms[] = {MESSAGE, length, 5, 0};
  for (size_t i = 0; i < sizeof rooms / sizeof *rooms; i++) {
    size_t shown = length < rooms[i] ? length : rooms[i];
    uint32_t status = call(row->command, row->flags, row->limit, row->input, row->input_len, ROOM, rooms[i]);
    count(row->name, "the status", status == row->status && report.output_len == 0 && all_are(output, 0, ROOM, OLD_OUTPUT));
    count(row->name, "the place", report.offset == row->offset && report.line == row->line && report.column == row->column);
    count(row->name, "the message", report.message_len == length && memcmp(message, row->message, shown) == 0 &&
                                        all_are(message, shown, MESSAGE, OLD_MESSAGE));
  }
}

static void check_bad_call(const char *name, uint32_t command, uint32_t flags, size_t limit) {
  uint32_t status = call(command, flags, limit, "1", 1, ROOM, MESSAGE);
  count(name, "a bad call", status == CBOR_EDN_BAD_CALL && report.output_len == 0 && all_are(output, 0, ROOM, OLD_OUTPUT) &&
                                tells_no_fault());
}

/* NULL with length 0, as callers write an empty input and no room. */
static void check_null(void) {
  static const char text[] = "[1]";
  for (uint32_t command = 0; command < 4; command++) {
    call(command, 0, 512, NULL, 0, ROOM, MESSAGE);
    count("no input", "the output", report.output_len == 0 && all_are(output, 0, ROOM, OLD_OUTPUT) && tells_no_fault());
    uint32_t status = cbor_edn_convert(command, 0, 512, NULL, 0, NULL, 0, NULL, 0, &report);
    count("no input and no rooms", "the status", status == CBOR_EDN_DONE && report.output_len == 0);
  }
  count("no input of digits", "the status", call(1, CBOR_EDN_HEX, 512, NULL, 0, ROOM, MESSAGE) == CBOR_EDN_DONE);
  uint32_t status = cbor_edn_convert(0, 0, 512, (const uint8_t *)text, 3, NULL, 0, NULL, 0, &report);
  count("no room for an output", "its length", status == CBOR_EDN_NO_ROOM && report.output_len == 2);
  status = cbor_edn_convert(0, 0, 512, (const uint8_t *)text, 2, NULL, 0, NULL, 0, &report);
  count("no room for a message", "its length", status == CBOR_EDN_INVALID_TEXT && report.offset == 2 &&
                                                   report.message_len == strlen("Error parsing input data: Invalid EDN in line 1 column 3 (byte 2)"));
}

int main(void) {
  for (size_t i = 0; i < sizeof DONE / sizeof *DONE; i++) check_done(&DONE[i]);
  for (size_t i = 0; i < sizeof FAULTS / sizeof *FAULTS; i++) check_fault(&FAULTS[i]);
  check_null();
  check_bad_call("command 4", 4, 0, 512);
  check_bad_call("the highest command", UINT32_MAX, 0, 512);
  check_bad_call("flag 256", 0, 256, 512);
  check_bad_call("all bits", 0, UINT32_MAX, 512);
  check_bad_call("show, annotate_tags", 3, CBOR_EDN_ANNOTATE_TAGS, 512);
  check_bad_call("show, preserve_space", 3, CBOR_EDN_SHOW_FLAGS | CBOR_EDN_PRESERVE_SPACE, 512);
  check_bad_call("256 levels", 3, CBOR_EDN_LEVELS(256), 512);
  check_bad_call("show, limit 513", 3, CBOR_EDN_SHOW_FLAGS, CBOR_EDN_NESTING_LIMIT + 1);
  check_bad_call("limit 513", 0, 0, CBOR_EDN_NESTING_LIMIT + 1);
  check_bad_call("the highest limit", 0, 0, SIZE_MAX);
  printf("%d passed, %d failed\n", passed, failed);
  return failed != 0;
}
