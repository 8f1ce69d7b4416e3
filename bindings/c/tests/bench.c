/* Calls a second, by the time of one processor. It judges nothing, and no test runs it.
 *
 * cc -O2 -o out/bench bindings/c/tests/bench.c out/c/libcbor_edn.a && out/bench */
#include "../cbor_edn.h"

#include <stdio.h>
#include <string.h>
#include <time.h>

enum { ROOM = 1 << 16, ROUNDS = 5 };

static uint8_t output[ROOM], message[160];

static double seconds(void) {
  struct timespec now;
  clock_gettime(CLOCK_PROCESS_CPUTIME_ID, &now);
  return (double)now.tv_sec + (double)now.tv_nsec / 1e9;
}

/* The best of some rounds. Returns how long the output is. */
static size_t bench(const char *name, uint32_t command, uint32_t flags, const void *input, size_t length, long calls) {
  cbor_edn_report report = {0, 0, 0, 0, 0};
  double best = 1e9;
  uint32_t status = 0;
  for (int round = 0; round < ROUNDS; round++) {
    double began = seconds();
    for (long i = 0; i < calls; i++)
      status = cbor_edn_convert(command, flags, CBOR_EDN_NESTING_LIMIT, input, length, output, sizeof output, message, sizeof message,
                                &report);
    double took = seconds() - began;
    if (took < best) best = took;
  }
  printf("%-28s status %u, %4zu to %4zu bytes: %9.0f calls/s\n", name, (unsigned)status, length, report.output_len,
         (double)calls / best);
  return report.output_len;
}

int main(void) {
  const char *small = "[1, 0x1f, []]";
  const char *claims = "{1: \"coap://as.example.com\", 2: \"erikw\", 3: \"coap://light.example.com\", 4: 1444064944, 5: 1443944944, "
                       "6: 1443944944, 7: h'0b71'}";
  uint8_t bytes[512];
  bench("diag2cbor, small", 0, CBOR_EDN_DIAG2CBOR_FLAGS, small, strlen(small), 200000);
  bench("cbor2diag, small", 1, CBOR_EDN_CBOR2DIAG_FLAGS, "\x83\x01\x18\x1f\x80", 5, 200000);
  bench("diag2diag, small", 2, CBOR_EDN_DIAG2DIAG_FLAGS, small, strlen(small), 200000);
  size_t length = bench("diag2cbor, claims of a CWT", 0, CBOR_EDN_DIAG2CBOR_FLAGS, claims, strlen(claims), 50000);
  memcpy(bytes, output, length);
  bench("cbor2diag, claims of a CWT", 1, CBOR_EDN_CBOR2DIAG_FLAGS, bytes, length, 50000);
  bench("cbor2diag, claims, annotated", 1, CBOR_EDN_CBOR2DIAG_FLAGS | CBOR_EDN_ANNOTATE_CCS, bytes, length, 50000);
  bench("a fault with its message", 0, CBOR_EDN_DIAG2CBOR_FLAGS, "[1, ", 4, 200000);
  bench("no encoding, with its place", 0, CBOR_EDN_DIAG2CBOR_FLAGS, "[1, 1.5]", 8, 50000);
  bench("a fault of CBOR", 1, CBOR_EDN_CBOR2DIAG_FLAGS, "\x82\x01\x1c", 3, 50000);
  return 0;
}
