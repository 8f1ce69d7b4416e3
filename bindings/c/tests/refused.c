/* Each allocation of some calls refused in turn: it is told, nothing is written and nothing left behind. The last line is
 * 'N passed, M failed'. */
#include "refusing.h"

#include <stdio.h>
#include <string.h>

enum { ROOM = 8192, OLD = 0xAA };

typedef struct {
  const char *name;
  uint32_t command, flags;
  const char *input;
  size_t input_len;
  uint32_t status;
} Row;

#define TEXT(t) t, sizeof(t) - 1

static const char Y[] = "{4: 1(0), 8: {4: {3: -17}}} , [_ h'00', <<dt'1970-01-01T00:00:23Z'>>]";

static const Row ROWS[] = {
    {"diag2cbor", 0, CBOR_EDN_AOL_TO_ITEM, Y, sizeof Y - 1, CBOR_EDN_DONE},
    {"diag2cbor to digits", 0, CBOR_EDN_AOL_TO_ITEM | CBOR_EDN_HEX, Y, sizeof Y - 1, CBOR_EDN_DONE},
    {"diag2cbor with tag 999", 0, CBOR_EDN_APPLY_999, TEXT("<<foo'x'>>"), CBOR_EDN_DONE},
    {"cbor2diag", 1, CBOR_EDN_CBOR2DIAG_FLAGS | CBOR_EDN_ANNOTATE_CCS,
     TEXT("\xa2\x04\xc1\x00\x08\xa1\x04\xa1\x03\x30\x9f\x41\x00\xc2\x49\x01\0\0\0\0\0\0\0\0\xff"), CBOR_EDN_DONE},
    {"cbor2diag of digits", 1, CBOR_EDN_HEX, TEXT("83 01 18 1f 80"), CBOR_EDN_DONE},
    {"show", 3, CBOR_EDN_SHOW_FLAGS | CBOR_EDN_ANNOTATE_CCS, TEXT("\xd2\x84\x43\xa1\x01\x26\xa0\x43\xa1\x04\x00\x40"),
     CBOR_EDN_DONE},
    {"diag2diag", 2, 255 - CBOR_EDN_PRESERVE_SPACE, Y, sizeof Y - 1, CBOR_EDN_DONE},
    {"a fault of a text", 0, 0, TEXT("[1, {2: h'00'}, x]"), CBOR_EDN_INVALID_TEXT},
    {"a fault of bytes", 1, 0, TEXT("\x83\x01\x43"), CBOR_EDN_INVALID_CBOR},
    {"a fault of digits", 1, CBOR_EDN_HEX, TEXT("83 0"), CBOR_EDN_INVALID_HEX},
    {"no encoding", 0, 0, TEXT("[1, 1.5]"), CBOR_EDN_NO_ENCODING},
    {"no encoding in embedded items", 0, CBOR_EDN_AOL_TO_ITEM | CBOR_EDN_APPLY_999, TEXT("foo'x', [dt'1970-01-01T00:00:23Z', <<1.5>>]"),
     CBOR_EDN_NO_ENCODING},
    {"a fault of bytes in digits", 1, CBOR_EDN_HEX, TEXT("82 9f 01 f8 18"), CBOR_EDN_INVALID_CBOR},
    {"a fault of bytes to show", 3, CBOR_EDN_SHOW_FLAGS, TEXT("\x82\xbf\x01\xa1\x00\x1c"), CBOR_EDN_INVALID_CBOR},
};

static uint8_t output[ROOM], wanted[ROOM], message[160];
static cbor_edn_report report, wanted_report;

static uint32_t call(const Row *row, long number) {
  memset(output, OLD, sizeof output);
  cbor_edn_refuse(number);
  return cbor_edn_convert(row->command, row->flags, CBOR_EDN_NESTING_LIMIT, (const uint8_t *)row->input, row->input_len, output,
                          sizeof output, message, sizeof message, &report);
}

static int nothing_is_written(void) {
  for (size_t i = 0; i < sizeof output; i++)
    if (output[i] != OLD) return 0;
  return report.output_len == 0;
}

/* A fault is told all the same where memory was refused for its message or for its place. A collection that asks for more room than
 * it needs at once may do with less, and then all is done. */
static int is_told(const Row *row, uint32_t status) {
  if (cbor_edn_blocks_left() != 0) return 0;
  if (status == CBOR_EDN_OUT_OF_MEMORY) return nothing_is_written();
  if (row->status == CBOR_EDN_DONE) return status == CBOR_EDN_DONE && memcmp(output, wanted, sizeof output) == 0;
  if (status != row->status || !nothing_is_written()) return 0;
  if (report.offset == CBOR_EDN_NO_OFFSET) return report.message_len != 0 && report.line == 0 && report.column == 0;
  return report.offset == wanted_report.offset && report.line == wanted_report.line && report.column == wanted_report.column;
}

/* Whether something is missing, since memory was refused. */
static int is_missed(uint32_t status) {
  return status == CBOR_EDN_OUT_OF_MEMORY || report.offset == CBOR_EDN_NO_OFFSET ||
         (status != CBOR_EDN_DONE && report.message_len == 0);
}

int main(void) {
  int passed = 0, failed = 0;
  for (size_t i = 0; i < sizeof ROWS / sizeof *ROWS; i++) {
    const Row *row = &ROWS[i];
    long last = -1, told = 0;
    if (call(row, -1) == row->status && cbor_edn_blocks_left() == 0) last = cbor_edn_allocations();
    memcpy(wanted, output, sizeof wanted);
    wanted_report = report;
    for (long number = 0; number < last; number++) {
      uint32_t status = call(row, number);
      int is_right = is_told(row, status);
      told += is_missed(status);
      passed += is_right;
      failed += !is_right;
      if (!is_right) printf("refused: %s: allocation %ld: status %u\n", row->name, number, (unsigned)status);
    }
    if (last < 1 || 2 * told < last) {
      failed++;
      printf("refused: %s: %ld of %ld allocations were told\n", row->name, told, last);
    }
  }
  printf("%d passed, %d failed\n", passed, failed);
  return failed != 0;
}
