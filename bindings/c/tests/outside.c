/* Encodings of another implementation go to text and come back. Standard input has one a line, in hexadecimal digits. The last
 * line is 'N passed, M failed'. */
#include "../cbor_edn.h"

#include <stdio.h>
#include <string.h>

enum { ROOM = 1 << 20 };

/* What cbor2diag may do and diag2cbor undoes. */
static const uint32_t FLAGS[] = {
    CBOR_EDN_CBOR2DIAG_FLAGS,
    CBOR_EDN_CBOR2DIAG_FLAGS | CBOR_EDN_ANNOTATE_CCS,
    CBOR_EDN_CBOR2DIAG_FLAGS | CBOR_EDN_AOL_TO_ITEM,
    0,
};

static uint8_t bytes[ROOM], text[ROOM], again[ROOM], message[160];

static int comes_back(size_t length, uint32_t flags) {
  cbor_edn_report report;
  if (cbor_edn_convert(CBOR_EDN_CBOR2DIAG, flags, CBOR_EDN_NESTING_LIMIT, bytes, length, text, sizeof text, message, sizeof message,
                       &report) != CBOR_EDN_DONE)
    return 0;
  if (cbor_edn_convert(CBOR_EDN_DIAG2CBOR, CBOR_EDN_DIAG2CBOR_FLAGS, CBOR_EDN_NESTING_LIMIT, text, report.output_len, again,
                       sizeof again, message, sizeof message, &report) != CBOR_EDN_DONE)
    return 0;
  return report.output_len == length && memcmp(again, bytes, length) == 0;
}

static int value_of(char digit) { return digit <= '9' ? digit - '0' : digit - 'a' + 10; }

int main(void) {
  static char line[2 * ROOM + 2];
  int passed = 0, failed = 0;
  while (fgets(line, sizeof line, stdin)) {
    size_t length = strcspn(line, "\n") / 2;
    for (size_t i = 0; i < length; i++) bytes[i] = (uint8_t)(16 * value_of(line[2 * i]) + value_of(line[2 * i + 1]));
    for (size_t i = 0; i < sizeof FLAGS / sizeof *FLAGS; i++) {
      if (comes_back(length, FLAGS[i])) {
        passed++;
      } else {
        failed++;
        printf("outside: flags %u: %.200s", (unsigned)FLAGS[i], line);
      }
    }
  }
  printf("%d passed, %d failed\n", passed, failed);
  return failed != 0 || passed == 0;
}
