/* Eight threads at once, and each kind of nesting under a stack of 1 MB, or of CBOR_EDN_STACK bytes, where that is in the environment.
 * The last line is 'N passed, M failed'. */
#include "../cbor_edn.h"

#include <pthread.h>
#include <stdio.h>
#include <stdlib.h>
#include <string.h>

enum { THREADS = 8, TURNS = 2000, LIMIT = CBOR_EDN_NESTING_LIMIT, ROOM = 4 << 20 };

static int passed, failed;

static void count(const char *name, int is_right) {
  if (is_right) {
    passed++;
  } else {
    failed++;
    printf("threads: %s\n", name);
  }
}

static size_t stack_size(void) {
  const char *bytes = getenv("CBOR_EDN_STACK");
  return bytes ? strtoul(bytes, NULL, 10) : 1 << 20;
}

static void run_in(void *(*work)(void *), void *argument, pthread_t *thread) {
  pthread_attr_t attributes;
  if (pthread_attr_init(&attributes) || pthread_attr_setstacksize(&attributes, stack_size()) ||
      pthread_create(thread, &attributes, work, argument)) {
    puts("0 passed, 1 failed");
    exit(1);
  }
  pthread_attr_destroy(&attributes);
}

/* ---- at once */

/* By command: what the program sets, and for diag2diag all that changes items. */
static const uint32_t FLAGS[] = {
    CBOR_EDN_DIAG2CBOR_FLAGS,
    CBOR_EDN_CBOR2DIAG_FLAGS | CBOR_EDN_ANNOTATE_CCS,
    CBOR_EDN_ANNOTATE_TAGS | CBOR_EDN_REMOVE_COMMENTS | CBOR_EDN_AOL_TO_ITEM | CBOR_EDN_ANNOTATE_CCS | CBOR_EDN_BIGNUM_FROM_TAGS |
        CBOR_EDN_APPLY_999,
};

static uint32_t convert(uint32_t command, const char *input, size_t length, uint8_t *output, size_t room, cbor_edn_report *report) {
  uint8_t message[160];
  return cbor_edn_convert(command, FLAGS[command], LIMIT, (const uint8_t *)input, length, output, room, message, sizeof message, report);
}

static void *take_turns(void *wrong) {
  for (int turn = 0; turn < TURNS; turn++) {
    uint8_t output[64];
    cbor_edn_report report;
    uint32_t status = convert(CBOR_EDN_DIAG2CBOR, "[1, 0x1f, []]", 13, output, sizeof output, &report);
    if (status != CBOR_EDN_DONE || report.output_len != 5 || memcmp(output, "\x83\x01\x18\x1f\x80", 5) != 0) ++*(int *)wrong;
    status = convert(CBOR_EDN_CBOR2DIAG, "\xc1\x00", 2, output, sizeof output, &report);
    if (status != CBOR_EDN_DONE || report.output_len != 30 || memcmp(output, "DT'1970-01-01T00:00:00+00:00'\n", 30) != 0)
      ++*(int *)wrong;
    status = convert(CBOR_EDN_DIAG2CBOR, "[1, ", 4, output, sizeof output, &report);
    if (status != CBOR_EDN_INVALID_TEXT || report.line != 1 || report.column != 5) ++*(int *)wrong;
  }
  return NULL;
}

static void check_at_once(void) {
  pthread_t threads[THREADS];
  int wrong[THREADS] = {0}, all = 0;
  for (int i = 0; i < THREADS; i++) run_in(take_turns, &wrong[i], &threads[i]);
  for (int i = 0; i < THREADS; i++) {
    pthread_join(threads[i], NULL);
    all += wrong[i];
  }
  count("eight at once", all == 0);
}

/* ---- nested */

typedef struct {
  const char *open, *inside, *close;
} Nested;

static const Nested TEXTS[] = {
    {"[", "1", "]"},           {"[2, ", "1", ", 3]"}, {"[_ ", "1", "]"},          {"{2: ", "1", "}"},
    {"{", "1", ": 2}"},        {"{_ 2: ", "1", "}"},  {"{_ ", "1", ": 2}"},       {"6(", "1", ")"},
    {"<<", "1", ">>"},         {"<<2, ", "1", ", 3>>"}, {"'a' + <<", "1", ">> + 'b'"}, {"(_ <<", "1", ">>)"},
    {"(_ 'a', 'b' + <<", "1", ">>, 'c')"},
};

/* A call in a thread, and what it answered. */
typedef struct {
  uint32_t command;
  const char *input;
  size_t length;
  uint8_t *output;
  uint32_t status;
  cbor_edn_report report;
} Call;

static void *make(void *argument) {
  Call *call = argument;
  call->status = convert(call->command, call->input, call->length, call->output, ROOM, &call->report);
  return NULL;
}

static void make_in_small_stack(Call *call) {
  pthread_t thread;
  run_in(make, call, &thread);
  pthread_join(thread, NULL);
}

static size_t nest(const Nested *kind, int depth, char *text) {
  char *end = text;
  for (int i = 0; i < depth; i++) end = stpcpy(end, kind->open);
  end = stpcpy(end, kind->inside);
  for (int i = 0; i < depth; i++) end = stpcpy(end, kind->close);
  return (size_t)(end - text);
}

/* An item without an encoding at the limit: its place is found. */
static void check_without_encoding(const Nested *kind, char *text, uint8_t *bytes) {
  Nested without = {kind->open, "1.5", kind->close};
  size_t length = nest(&without, LIMIT, text), offset = LIMIT * strlen(kind->open);
  Call call = {CBOR_EDN_DIAG2CBOR, text, length, bytes, 0, {0, 0, 0, 0, 0}};
  make_in_small_stack(&call);
  count(kind->open, call.status == CBOR_EDN_NO_ENCODING && call.report.offset == offset && call.report.line == 1 &&
                        call.report.column == offset + 1);
}

/* There and back at the limit: the same bytes again. One level deeper is refused. */
static void check_nested(const Nested *kind, char *text, uint8_t *bytes, uint8_t *shown, uint8_t *again) {
  Call there = {CBOR_EDN_DIAG2CBOR, text, nest(kind, LIMIT, text), bytes, 0, {0, 0, 0, 0, 0}};
  make_in_small_stack(&there);
  count(kind->open, there.status == CBOR_EDN_DONE);
  Call spaces = {CBOR_EDN_DIAG2DIAG, text, there.length, shown, 0, {0, 0, 0, 0, 0}};
  make_in_small_stack(&spaces);
  Call from_spaces = {CBOR_EDN_DIAG2CBOR, (char *)shown, spaces.report.output_len, again, 0, {0, 0, 0, 0, 0}};
  make_in_small_stack(&from_spaces);
  count(kind->open, spaces.status == CBOR_EDN_DONE && from_spaces.status == CBOR_EDN_DONE &&
                        from_spaces.report.output_len == there.report.output_len &&
                        memcmp(again, bytes, there.report.output_len) == 0);
  Call back = {CBOR_EDN_CBOR2DIAG, (char *)bytes, there.report.output_len, shown, 0, {0, 0, 0, 0, 0}};
  make_in_small_stack(&back);
  Call from_back = {CBOR_EDN_DIAG2CBOR, (char *)shown, back.report.output_len, again, 0, {0, 0, 0, 0, 0}};
  make_in_small_stack(&from_back);
  count(kind->open, back.status == CBOR_EDN_DONE && from_back.status == CBOR_EDN_DONE &&
                        from_back.report.output_len == there.report.output_len &&
                        memcmp(again, bytes, there.report.output_len) == 0);
  Call deeper = {CBOR_EDN_DIAG2CBOR, text, nest(kind, LIMIT + 1, text), again, 0, {0, 0, 0, 0, 0}};
  make_in_small_stack(&deeper);
  count(kind->open, deeper.status == CBOR_EDN_TOO_DEEP);
}

int main(void) {
  char *text = malloc(ROOM);
  uint8_t *bytes = malloc(ROOM), *shown = malloc(ROOM), *again = malloc(ROOM);
  if (!text || !bytes || !shown || !again) return 1;
  check_at_once();
  for (size_t i = 0; i < sizeof TEXTS / sizeof *TEXTS; i++) {
    check_nested(&TEXTS[i], text, bytes, shown, again);
    check_without_encoding(&TEXTS[i], text, bytes);
  }
  free(text), free(bytes), free(shown), free(again);
  printf("%d passed, %d failed\n", passed, failed);
  return failed != 0;
}
