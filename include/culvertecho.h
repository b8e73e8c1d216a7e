/*
** culvertecho.h: calls for a tap's firmware.
**
** Three calls on byte slices: decide a question, check a proof, check a counterexample. They need no file system, no heap and no
** start-up code, hold no state between calls, and may be called from several threads at once.
**
** A SLICE is a pointer and a length in bytes. The pointer is never null, not even where the length is 0: a slice of length 0 points
** anywhere into memory that is there. All bytes of the slice are readable; those of `answer` and `detail` are writable as well, and
** neither overlaps any other slice of the call. Slices that are only read may overlap each other. Nothing is asked of the bytes: a
** call takes whatever stands there and refuses it by a number. README.md has the records and the table of refusals.
**
** EVERY CALL returns one number, the refusal: 0 for none. It writes the details of its answer into the first 16 bytes of `detail`
** and leaves the bytes behind them as they are:
**
**     bytes   field
**     0, 1    verdict   0 refused, 1 implied or accepted, 2 not implied
**     2, 3    number    of the refusal, 0 for none: what the call returns
**     4, 5    input     of a refusal: 1 profile, 2 question, 3 tree or proof, 4 answer; else 0
**     6, 7    record    of a refusal, from 0, where one applies; else 0
**     8..11   used      bytes at the front of `answer` that are the answer's; 0 if none
**     12..15  zero
**
** All fields are little-endian; the functions culvertecho_verdict() to culvertecho_used() read them on any machine.
**
** Where `detail` is shorter than 16 bytes a call returns 19, before it looks at anything else, and writes nothing at all.
** For every other refusal `detail` is written and `answer` stays as it was.
**
** STACK. What each call takes below its caller was measured, not proved: see each call, and docs/COST.md.
**
** The objects of the static library are for x86-64 (System V calling convention). They ask the firmware for memcpy, memmove and memset.
*/
#ifndef CULVERTECHO_H
#define CULVERTECHO_H

#include <stddef.h>
#include <stdint.h>

#ifdef __cplusplus
extern "C" {
#endif

/* Sizes of lent slices: `detail` at least, and `answer` at least. Longer ones are as good. */
#define CULVERTECHO_DETAIL_BYTES 16
#define CULVERTECHO_ANSWER_BYTES 65536

/* Verdicts. Implied and accepted are one number. */
#define CULVERTECHO_REFUSED 0
#define CULVERTECHO_IMPLIED 1
#define CULVERTECHO_ACCEPTED 1
#define CULVERTECHO_NOT_IMPLIED 2

/* Refusals. 11 is retired; 17 and 18 are of a reader that these calls do not have. */
#define CULVERTECHO_OK 0               /* none */
#define CULVERTECHO_BAD_RECORD 1       /* a record's length or the end of its body */
#define CULVERTECHO_BAD_KIND 2         /* a kind unknown or not allowed here */
#define CULVERTECHO_BAD_LABEL 3        /* a label's number, class or name; an edition */
#define CULVERTECHO_BAD_PATH 4         /* a symbol, a doubled 0, a path too long */
#define CULVERTECHO_BAD_KEY_PATHS 5    /* none, too many, out of order, repeated */
#define CULVERTECHO_BAD_KEY 6          /* context, target and a key path make no valid path */
#define CULVERTECHO_TOO_LARGE 7        /* an input over its size; one key, node or line too many */
#define CULVERTECHO_BAD_NODE 8         /* tree empty; a parent, label or value */
#define CULVERTECHO_DOES_NOT_FOLLOW 9  /* a proof line */
#define CULVERTECHO_NOT_THE_QUESTION 10 /* proof empty, or its last key is another */
#define CULVERTECHO_BREAKS_A_KEY 12    /* the tree breaks a key of the profile: its number is the record */
#define CULVERTECHO_KEEPS_QUESTION 13  /* the tree keeps the question */
#define CULVERTECHO_SMALL_ANSWER 14    /* `answer` is shorter than 65,536 bytes */
#define CULVERTECHO_DOUBLED_KEY 15     /* two equal keys in the profile */
#define CULVERTECHO_REPEATED_ATTRIBUTE 16 /* edition 2 */
#define CULVERTECHO_SHORT_DETAIL 19    /* `detail` is shorter than 16 bytes */

/* Inputs. */
#define CULVERTECHO_PROFILE 1
#define CULVERTECHO_QUESTION 2
#define CULVERTECHO_TREE_OR_PROOF 3
#define CULVERTECHO_ANSWER 4

/* Bytes of stack that a call took at most, of all inputs that were measured. */
#define CULVERTECHO_DECIDE_STACK 8192
#define CULVERTECHO_CHECK_PROOF_STACK 4096
#define CULVERTECHO_CHECK_COUNTEREXAMPLE_STACK 307200

/*
** Decide whether the key of `question` follows from the keys of `profile`.
**
** Reads:   profile, question.
** Writes:  detail; and answer, from its front, `used` bytes: a proof where the verdict is CULVERTECHO_IMPLIED (at most 256 lines), a
**          tree where it is CULVERTECHO_NOT_IMPLIED (at most 178 nodes of 11 bytes). Bytes of `answer` behind those used stay.
** Returns: 0, or 19, 14, then what is wrong with the profile, then with the question.
** Stack:   CULVERTECHO_DECIDE_STACK.
**
** `answer` has to be lent whole, 65,536 bytes or more, although few are used; else 14.
*/
size_t culvertecho_decide(
    const uint8_t *profile, size_t profile_length,
    const uint8_t *question, size_t question_length,
    uint8_t *answer, size_t answer_length,
    uint8_t *detail, size_t detail_length);

/*
** Check that `proof` shows that the key of `question` follows from `profile`. It does not ask the decider.
**
** Reads:   profile, question, proof.
** Writes:  detail.
** Returns: 0 where each line follows and the last is the question, with verdict CULVERTECHO_ACCEPTED; else 19, then what is wrong with
**          profile, question and proof, in this order.
** Stack:   CULVERTECHO_CHECK_PROOF_STACK.
*/
size_t culvertecho_check_proof(
    const uint8_t *profile, size_t profile_length,
    const uint8_t *question, size_t question_length,
    const uint8_t *proof, size_t proof_length,
    uint8_t *detail, size_t detail_length);

/*
** Check that `tree` keeps every key of `profile` and breaks the key of `question`. It does not ask the decider.
**
** Reads:   profile, question, tree.
** Writes:  detail. The nodes that break a key have no field there.
** Returns: 0 where it does, with verdict CULVERTECHO_ACCEPTED; else 19, then what is wrong with profile, question and tree, then 12 (the
**          record is the lowest key that the tree breaks), then 13.
** Stack:   CULVERTECHO_CHECK_COUNTEREXAMPLE_STACK: it holds its tables there, 4,096 nodes of each, whatever the tree's size.
*/
size_t culvertecho_check_counterexample(
    const uint8_t *profile, size_t profile_length,
    const uint8_t *question, size_t question_length,
    const uint8_t *tree, size_t tree_length,
    uint8_t *detail, size_t detail_length);

/* The fields of `detail` after a call that did not return 19. */
static inline unsigned culvertecho_verdict(const uint8_t *detail) {
    return detail[0] | (unsigned)detail[1] << 8;
}

static inline unsigned culvertecho_number(const uint8_t *detail) {
    return detail[2] | (unsigned)detail[3] << 8;
}

static inline unsigned culvertecho_input(const uint8_t *detail) {
    return detail[4] | (unsigned)detail[5] << 8;
}

static inline unsigned culvertecho_record(const uint8_t *detail) {
    return detail[6] | (unsigned)detail[7] << 8;
}

static inline uint32_t culvertecho_used(const uint8_t *detail) {
    return detail[8] | (uint32_t)detail[9] << 8 | (uint32_t)detail[10] << 16 | (uint32_t)detail[11] << 24;
}

#ifdef __cplusplus
}
#endif

#endif
