/* cbor-edn: the Extended Diagnostic Notation (EDN) of CBOR, into CBOR and back.
 *
 * What the caller owes, which nothing checks:
 *  - Each pointer points to as many bytes as its length says, which is PTRDIFF_MAX at most. With length 0 it may be NULL: such an
 *    input is empty, and such a room takes nothing.
 *  - report points to a report, is not NULL, and is aligned as its type asks.
 *  - No two of input, output, message and report overlap.
 *  - During the call no other thread writes any of them, nor reads output, message and report.
 *  - The call has a stack of 1 MB, or 32 kB and 1.5 kB for each level that limit allows, by measurement. With less, a deep
 *    input ends the process at the guard page.
 *  - It is not made from a signal handler, nor in the forked child of a process with threads.
 *  - malloc, realloc and free are of one allocator. malloc and realloc align a block to each power of two up to 16 that
 *    divides its size.
 *  - The processor is an x86-64-v2 (it has SSE4.2), which is not looked at.
 *
 * Any number of threads may call at once: the library keeps nothing between calls. It reads and writes no file.
 */
#ifndef CBOR_EDN_H
#define CBOR_EDN_H

#include <stddef.h>
#include <stdint.h>

#ifdef __cplusplus
extern "C" {
#endif

/* Commands. */
#define CBOR_EDN_DIAG2CBOR 0u /* EDN into CBOR */
#define CBOR_EDN_CBOR2DIAG 1u /* CBOR into EDN */
#define CBOR_EDN_DIAG2DIAG 2u /* EDN into EDN with other spaces */
#define CBOR_EDN_SHOW 3u      /* CBOR into EDN, with the CBOR in its byte strings */

/* Flags, which are added up. The steps are taken in this order. */
#define CBOR_EDN_HEX 1u               /* CBOR stands in hexadecimal digits */
#define CBOR_EDN_ANNOTATE_TAGS 2u     /* tags 52, 54 and 1 become IP'..' and DT'..' */
#define CBOR_EDN_REMOVE_COMMENTS 4u   /* comments are left out */
#define CBOR_EDN_AOL_TO_ITEM 8u       /* ip'..' and dt'..' become what they stand for */
#define CBOR_EDN_ANNOTATE_CCS 16u     /* each item that is a map is shown as the claims set of a CWT */
#define CBOR_EDN_BIGNUM_FROM_TAGS 32u /* tags 2 and 3 become integers */
#define CBOR_EDN_APPLY_999 64u        /* literals that mean nothing by themselves become tags 999 */
#define CBOR_EDN_PRESERVE_SPACE 128u  /* spaces stay as they are, where else items are indented */

/* Flags of CBOR_EDN_SHOW, beside CBOR_EDN_HEX, CBOR_EDN_ANNOTATE_CCS and CBOR_EDN_BIGNUM_FROM_TAGS: it has no others. */
#define CBOR_EDN_NAMES 256u                       /* COSE messages get their names as comments */
#define CBOR_EDN_LEVELS(n) (512u * (uint32_t)(n)) /* levels of CBOR in byte strings that are shown, 0 to 255 */

/* The flags that the program's commands set by themselves. */
#define CBOR_EDN_DIAG2CBOR_FLAGS CBOR_EDN_AOL_TO_ITEM
#define CBOR_EDN_CBOR2DIAG_FLAGS (CBOR_EDN_ANNOTATE_TAGS | CBOR_EDN_BIGNUM_FROM_TAGS)
#define CBOR_EDN_DIAG2DIAG_FLAGS CBOR_EDN_BIGNUM_FROM_TAGS
#define CBOR_EDN_SHOW_FLAGS (CBOR_EDN_BIGNUM_FROM_TAGS | CBOR_EDN_NAMES | CBOR_EDN_LEVELS(8))

/* The highest limit, which is also the program's own. */
#define CBOR_EDN_NESTING_LIMIT 512u

/* Statuses. */
#define CBOR_EDN_DONE 0u
#define CBOR_EDN_NO_ROOM 1u       /* the output is longer than its room: report->output_len says how long */
#define CBOR_EDN_BAD_CALL 2u      /* no such command, no such flags, or too high a limit */
#define CBOR_EDN_NOT_UTF8 3u      /* the text is no UTF-8 */
#define CBOR_EDN_INVALID_TEXT 4u  /* the text is no EDN: the report has the place */
#define CBOR_EDN_INVALID_CBOR 5u  /* the bytes are no CBOR that is read here: the report has the offset */
#define CBOR_EDN_INVALID_HEX 6u   /* a character is no digit and no space, or there is an odd number of digits */
#define CBOR_EDN_NO_ENCODING 7u   /* what the text says has no encoding: the report has the place */
#define CBOR_EDN_OUT_OF_MEMORY 8u /* malloc or realloc gave nothing */
#define CBOR_EDN_TOO_DEEP 9u      /* items nest deeper than limit: the report has the place, for CBOR the offset */

/* The offset at CBOR_EDN_INVALID_CBOR, CBOR_EDN_NO_ENCODING and CBOR_EDN_TOO_DEEP where memory to find the place ran out. */
#define CBOR_EDN_NO_OFFSET ((size_t)-1)

/* The place in a text is that of the first item that has no encoding while all in it has one, or of what is no EDN or nests too
 * deep. A string that embeds more than 64 items is looked at as a whole. The offset in CBOR, or in the bytes that digits stand for,
 * is that of the first head (RFC 8949, section 3) that is not whole, may not stand there or nests too deep, or the end of the bytes
 * where an item is missing. At CBOR_EDN_NO_ENCODING a call takes up to some 10 times as long as one that encodes, and as many times
 * longer as items nest where a string has no encoding for the bytes that it embeds. */
typedef struct {
  size_t output_len;  /* in bytes, at CBOR_EDN_DONE and CBOR_EDN_NO_ROOM, else 0 */
  size_t message_len; /* of a fault's whole message, in bytes, else 0. It is 0 too where memory ran out for it */
  size_t offset;      /* of a place, in bytes from 0; else 0 or CBOR_EDN_NO_OFFSET */
  size_t line;        /* of a place in a text, from 1, else 0 */
  size_t column;      /* of a place in a text, in characters from 1, else 0 */
} cbor_edn_report;

/* Turns input into output, and returns a status.
 *
 * A text is UTF-8, without a zero at its end. Items nest limit deep at most. Only at CBOR_EDN_DONE is output written, and of it
 * the first report->output_len bytes alone. At a fault (3 to 9), message gets as much of the message as fits, in UTF-8 and
 * without a zero at its end; 160 bytes suffice for each. At CBOR_EDN_NO_ROOM the whole work was done: call again with room. */
uint32_t cbor_edn_convert(uint32_t command, uint32_t flags, size_t limit, const uint8_t *input, size_t input_len,
                          uint8_t *output, size_t output_capacity, uint8_t *message, size_t message_capacity,
                          cbor_edn_report *report);

#ifdef __cplusplus
}
#endif
#endif
