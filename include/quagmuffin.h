/* Quagmuffin: one column of FPGA slices, judged, settled, clocked and edited. Every function is proved to do what is said here, for any
 * bytes. docs/FORMAT.md has the slice file.
 *
 * The library is target/staticlib/libquagmuffin.a, written by `host/rt staticlib quagmuffin`. It allocates nothing and keeps nothing between
 * calls, so calls on different buffers may run at the same time.
 *
 * A buffer is a pointer and then its length in elements. What the host owes, since no call can check it and the proofs assume it:
 *
 *   - no pointer is null, also where the length is 0
 *   - a buffer has as many elements as its length says, and no other thread touches them during the call, but to read const ones
 *   - a buffer of words is aligned as uint64_t, a list of edits as qm_change
 *   - a buffer that is not const overlaps no other of the call
 *   - 69 KB (70,656 bytes) of stack are left
 *
 * Nothing else is asked: lengths, bytes, words, edits and numbers may be any, and are judged. For a file of n slices and m outside inputs
 * the buffers are:
 *
 *   file       any bytes, of any length
 *   contents   4n words, the contents of table 4s + letter (letters A to D count 0 to 3)
 *   flops      n bytes, one a slice: bits 0-3 main flip-flops A to D, bits 4-7 second ones
 *   inputs     m bytes, 0 or 1
 *   values     32n bytes, 0 or 1, by signal number
 *   edits      0 to 256 edits; the padding of the struct is not read, and may hold anything
 *   record     the 127 bytes of a slice record
 *   body       124 bytes, the fields of a slice record in the file's layout: a record without its first three bytes
 *   part       the 127 bytes or more of a file from where a slice record is to stand
 *   state      3 words, the reader's own; three zeros are a fresh reader
 *   store      QM_STORE bytes, the reader's own; a fresh one's may hold anything
 *   run        any bytes, also none: the next ones of a file that comes in runs
 *
 * Each function answers one number. 0 is done, but for qm_judge and qm_feed. A refusal has its number, 1 to 11, in the low 8 bits and its
 * place in the bits above, and then no buffer was written, but for the state and the store, which are the reader's:
 *
 *   1   bytes run out in a record or before the end record       7   a driver that doesn't exist
 *   2   tag not 1, 2, 3                                           8   bytes after the end record
 *   3   length not the tag's                                      9   a loop
 *   4   tag or slice number not the one due                      10   a buffer of another length than named
 *   5   n, m or a choice outside its list                        11   an argument, a byte, an edit or a state not in range,
 *   6   choices that don't go together                                or a word with bits 32-63 set in shift mode
 *
 * The place of 1 to 8 is the offset of the record, that of 9 the smallest signal on a loop, that of 10 and 11 is 0. A call on a file judges
 * it first and gives the judge's refusal; then 10; then 11. The two record calls test 10 (the body first), then n and m (11), then 2 to 7, at
 * place 0. qm_feed tests 10, then gives a verdict that was given before, then tests 11, then judges.
 */
#ifndef QUAGMUFFIN_H
#define QUAGMUFFIN_H

#include <stddef.h>
#include <stdint.h>

#ifdef __cplusplus
extern "C" {
#endif

/* The refusal's number of an answer, 0 where there is none, and its place. */
#define QM_NUMBER(answer) ((unsigned)((answer) & 255))
#define QM_PLACE(answer) ((uint64_t)(answer) >> 8)

/* The slices n and the outside inputs m of a file that qm_judge or qm_feed accepted. */
#define QM_SLICES(answer) ((unsigned)(((answer) >> 8) & 65535))
#define QM_INPUTS(answer) ((unsigned)((answer) >> 24))

/* Judges any bytes. An accepted file's answer has 0 in its low 8 bits, n in bits 8-23 and m from bit 24. */
uint64_t qm_judge(const uint8_t *file, size_t file_len);

/* Fills the contents and the flip-flops with the state at power-up, whatever they held. */
uint64_t qm_power_up(const uint8_t *file, size_t file_len, uint64_t *contents, size_t contents_len, uint8_t *flops, size_t flops_len);

/* Fills the values with the settled signals, whatever they held. */
uint64_t qm_settle(const uint8_t *file, size_t file_len, const uint64_t *contents, size_t contents_len, const uint8_t *flops, size_t flops_len,
                   const uint8_t *inputs, size_t inputs_len, uint8_t *values, size_t values_len);

/* One clock: fills the values with the signals settled before the edge, and moves the contents and the flip-flops. */
uint64_t qm_clock(const uint8_t *file, size_t file_len, uint64_t *contents, size_t contents_len, uint8_t *flops, size_t flops_len,
                  const uint8_t *inputs, size_t inputs_len, uint8_t *values, size_t values_len);

/* An edit, by its kind. 0: outside input `number` is set to `value`, 0 or 1. 1: the contents of table `number`, counted as the words of the
 * contents, are set to `value`. */
typedef struct { uint8_t kind; uint64_t number; uint64_t value; } qm_change;

/* Makes the edits one after another, in their order: sets inputs and contents, and recomputes each signal that depends on any of these
 * changes; all others keep their bytes, settled or not. Setting what is there already is a change as well. An empty list changes nothing.
 *
 * All edits are tested before the first is made. 11 is given for more than 256 of them, whatever they are, and for one whose kind is above 1,
 * whose number is not below m (kind 0) or 4n (kind 1), whose value is above 1 (kind 0), or has one of bits 32-63 set while the table is in
 * shift mode (kind 1), also where a later edit replaces it. The length of the list is never 10. */
uint64_t qm_edit(const uint8_t *file, size_t file_len, uint64_t *contents, size_t contents_len, const uint8_t *flops, size_t flops_len,
                 uint8_t *inputs, size_t inputs_len, uint8_t *values, size_t values_len, const qm_change *edits, size_t edits_len);

/* Reads a slice record of a file of n slices and m outside inputs, any number below n being due, and fills the body with its fields. */
uint64_t qm_read_record(const uint8_t *record, size_t record_len, size_t n, size_t m, uint8_t *body, size_t body_len);

/* Writes the slice record with these fields into the first 127 bytes of the part, and leaves the rest of the part. */
uint64_t qm_write_record(const uint8_t *body, size_t body_len, size_t n, size_t m, uint8_t *part, size_t part_len);

/* The bytes of a reader's store: those of the longest file. */
#define QM_STORE 8136

/* Gives a reader the next run of a file, and with any last but 0 says that no more will come. 0 is "more"; else it is a verdict, packed as
 * by qm_judge (an accepted file has a slice at least, so its answer is not 0). Each call is lent the state and the store that the last one
 * left. No other copy of the file is made.
 *
 * With last the verdict is the judge's on all bytes given, joined. Without it a refusal of 2 to 8 is given as soon as it is certain: whatever
 * follows, nothing included, the judge would refuse by 2 to 8. 1, 9 and accepted are not given before the end. After a verdict every call
 * gives it again and moves nothing. A state or a store of another length is 10, also after a verdict, and moves nothing.
 *
 * Word 0 of the state is the number of bytes kept, at the front of the store; those that find no room are judged and not kept. Word 1 is the
 * number of slices that had passed at the last "more", word 2 the verdict, 0 where there is none yet. Any other state is safe as well: a
 * word 2 that is not 0 is the answer; else a word 0 above QM_STORE or a word 1 above 64 is 11 and moves nothing; else the state is taken as
 * it stands. Whatever the state, as long as word 2 is 0 a file is accepted only where the judge accepts the bytes kept and the run, joined;
 * these then are the first bytes of the store, as many as word 0 says, and can be lent from there as a file. */
uint64_t qm_feed(uint64_t *state, size_t state_len, uint8_t *store, size_t store_len, const uint8_t *run, size_t run_len, uint8_t last);

#ifdef __cplusplus
}
#endif

#endif
