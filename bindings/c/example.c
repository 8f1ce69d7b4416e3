#include <cbor_edn.h>
#include <stdio.h>

int main(void) {
  const char text[] = "[1, 0x1f, []]";
  uint8_t output[64], message[160];
  cbor_edn_report report;
  uint32_t status = cbor_edn_convert(CBOR_EDN_DIAG2CBOR, CBOR_EDN_DIAG2CBOR_FLAGS, CBOR_EDN_NESTING_LIMIT, (const uint8_t *)text,
                                     sizeof text - 1, output, sizeof output, message, sizeof message, &report);
  for (size_t i = 0; i < report.output_len && status == CBOR_EDN_DONE; i++) printf("%02x", output[i]);
  return status == CBOR_EDN_DONE ? puts("") == EOF : 1;
}
