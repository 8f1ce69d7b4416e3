/* Stands in front of the C library's malloc and realloc (LD_PRELOAD), by which alone these programs ask for memory: the request that
 * REFUSED counts, from 1, is refused, none where it is missing. Where it is `ready`, each request is refused from a line that ends with
 * `: ready` to the next line. At the end, how many requests were made, and how many of them were refused, is written to the file that
 * ALLOCATIONS names. */
#include <stddef.h>
#include <stdio.h>
#include <stdlib.h>
#include <string.h>
#include <sys/syscall.h>
#include <unistd.h>

void *__libc_malloc(size_t size);
void *__libc_realloc(void *block, size_t size);

static unsigned long one, made, refused;
static int by_lines, each;

__attribute__((constructor)) static void begin(void) {
  const char *word = getenv("REFUSED");
  by_lines = word && strcmp(word, "ready") == 0;
  one = word ? strtoul(word, NULL, 10) : 0;
  made = refused = 0;
}

__attribute__((destructor)) static void end(void) {
  const char *name = getenv("ALLOCATIONS");
  FILE *file;
  unsigned long all = made, none = refused;
  one = each = 0;
  if (name && (file = fopen(name, "w"))) {
    fprintf(file, "%lu %lu\n", all, none);
    fclose(file);
  }
}

/* Whether a request is refused, which it counts. */
static int refuse(void) {
  int is_refused = ++made == one || each;
  refused += is_refused;
  return is_refused;
}

void *malloc(size_t size) { return refuse() ? NULL : __libc_malloc(size); }

void *realloc(void *block, size_t size) { return refuse() ? NULL : __libc_realloc(block, size); }

/* A program writes each line at once. */
ssize_t write(int file, const void *line, size_t size) {
  static const char mark[] = ": ready\n";
  size_t length = sizeof mark - 1;
  each = by_lines && size >= length && memcmp((const char *)line + size - length, mark, length) == 0;
  return syscall(SYS_write, file, line, size);
}
