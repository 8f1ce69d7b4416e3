/* Puts a wrapper round the library for tests: during a call, an allocation of its own choice is refused, and blocks are counted.
 *
 * It is linked with the library whose export has the name library_convert, and whose calls of malloc, realloc and free go to
 * refusing_malloc, refusing_realloc and refusing_free. */
#include "refusing.h"

#include <stdlib.h>

uint32_t library_convert(uint32_t command, uint32_t flags, size_t limit, const uint8_t *input, size_t input_len, uint8_t *output,
                         size_t output_capacity, uint8_t *message, size_t message_capacity, cbor_edn_report *report);
void *refusing_malloc(size_t size);
void *refusing_realloc(void *block, size_t size);
void refusing_free(void *block);

static long refused = -1, made, left;

void cbor_edn_refuse(long number) { refused = number; }

long cbor_edn_allocations(void) { return made; }

long cbor_edn_blocks_left(void) { return left; }

uint32_t cbor_edn_convert(uint32_t command, uint32_t flags, size_t limit, const uint8_t *input, size_t input_len, uint8_t *output,
                          size_t output_capacity, uint8_t *message, size_t message_capacity, cbor_edn_report *report) {
  made = left = 0;
  return library_convert(command, flags, limit, input, input_len, output, output_capacity, message, message_capacity, report);
}

void *refusing_malloc(size_t size) {
  void *block = made++ == refused ? NULL : malloc(size);
  left += block != NULL;
  return block;
}

void *refusing_realloc(void *block, size_t size) {
  void *moved = made++ == refused ? NULL : realloc(block, size);
  left += block == NULL && moved != NULL;
  return moved;
}

void refusing_free(void *block) {
  left -= block != NULL;
  free(block);
}
