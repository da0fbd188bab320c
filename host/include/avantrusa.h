/* Avantrusa for a host in C or C++: a judge for rounds of consensus under A_T,E or U_T,E,alpha.
 *
 * A host opens a run into an image, keeps the image, and hands it back with each round:
 *
 *     uint8_t *image = malloc(avantrusa_image_length(n));
 *     uint64_t answer = avantrusa_open(opening, opening_len, image, avantrusa_image_length(n));
 *     answer = avantrusa_step(image, avantrusa_image_length(n), round, avantrusa_round_length(n));
 *
 * Compile c/avantrusa.c with the host, and link with libswitch.a (made by `host/archive`).
 *
 * "Rule 11.2" and the like are numbers of docs/RULES.md, the whole of what the judge does; its
 * section 15 is what a host may rely on.
 */
#ifndef AVANTRUSA_H
#define AVANTRUSA_H

#include <stddef.h>
#include <stdint.h>

#ifdef __cplusplus
extern "C" {
#endif

/* The numbers of an answer (section 11; section 12 has the order of the checks). Each but
 * AVANTRUSA_ACCEPTED is a refusal, and a refusal writes no byte. The place is 0 where none is
 * named; records, receivers and buffers are counted from 0.
 *
 * A step reads its image first and then its round. AVANTRUSA_LENGTH and AVANTRUSA_MALFORMED don't
 * tell which of the two was at fault. An image as the judge wrote it is never at fault, so a host
 * that keeps its images unchanged looks at the round (rules 15.4 and 15.5).
 */

/* Accepted: the image is written (rule 11.0). */
#define AVANTRUSA_ACCEPTED 0u
/* A buffer to be read (opening, image or round) has the wrong length (rule 11.1). */
#define AVANTRUSA_LENGTH 1u
/* A record has a wrong kind or station, or a byte that isn't zero and has to be, or it is a default
 * other than 0 under A. The place is the record (rules 11.2, 2.6 and 3.2). */
#define AVANTRUSA_MALFORMED 2u
/* The algorithm is neither 1 (A) nor 2 (U), or n isn't 1 to 32 (rules 11.3 and 10.1). */
#define AVANTRUSA_RANGE 3u
/* The setup breaks an inequality. Both algorithms: E < n and T < n. A: T >= 2(n + 2 alpha - E).
 * U: neither 2T nor 2E is below n + 2 alpha (rules 11.4 and 10.2 to 10.6). */
#define AVANTRUSA_INEQUALITY 4u
/* A "?" was heard outside a vote round; the vote rounds are U's even rounds. The place is the
 * record (rules 11.5 and 4.6). */
#define AVANTRUSA_QUERY 5u
/* A receiver heard more than alpha altered frames. The place is the lowest such receiver
 * (rules 11.6 and 10.8). */
#define AVANTRUSA_ALTERED 6u
/* Under U, a receiver heard too few frames as they were sent: it must be more than the largest of
 * T, alpha and n + 2 alpha - E - 1. The place is the lowest such receiver (rules 11.7 and 10.9). */
#define AVANTRUSA_UNSAFE 7u
/* The run has had its 4,096 rounds (rule 11.8). */
#define AVANTRUSA_FULL 8u
/* The buffer for the image hasn't the exact length (rule 11.9). */
#define AVANTRUSA_BUFFER 9u
/* The image's records are well formed and break a rule of a run. The place is the first such
 * record; where a decision and its round don't go together, it is the round's (rules 11.10 and
 * 6.5). */
#define AVANTRUSA_RULES 10u

/* The numbers of the checked entries' own refusals. The judge never answers these. */

/* A buffer is null and its length isn't 0. The place is 0 for the first buffer, 1 for the
 * second (rule 15.10). */
#define AVANTRUSA_NULL 0xFFFFFFFEu
/* The two buffers overlap: they have a byte in common (rule 15.11). */
#define AVANTRUSA_OVERLAP 0xFFFFFFFFu

/* The number of an answer: its low 32 bits (rule 15.2). */
static inline uint32_t avantrusa_number(uint64_t answer)
{
    return (uint32_t)(answer & 0xFFFFFFFFu);
}

/* The place of an answer: its high 32 bits. */
static inline uint32_t avantrusa_place(uint64_t answer)
{
    return (uint32_t)(answer >> 32);
}

/* Tapes and images are made of records of 8 bytes. Byte 0 is the kind. Values are unsigned numbers
 * of 32 bits in bytes 4 to 7, the low byte first. A byte not named is zero. Rule 2.4 has all kinds
 * in one table; sections 1 and 2 have these sizes and limits. */
#define AVANTRUSA_RECORD 8u
#define AVANTRUSA_STATIONS 32u
#define AVANTRUSA_ROUNDS 4096u
#define AVANTRUSA_A 1u
#define AVANTRUSA_U 2u

/* An opening: a setup, a default, a start for each station in order (rule 3.1). */
/* bytes 1 algorithm, 2 n, 3 T, 4 E, 5 alpha */
#define AVANTRUSA_KIND_SETUP 1u
/* the value; 0 under A (rule 3.2) */
#define AVANTRUSA_KIND_DEFAULT 2u
/* byte 1 station, and its value */
#define AVANTRUSA_KIND_START 3u

/* A round: a row for each receiver in order, and in it a cell for each sender in order (rules 4.3
 * and 4.5). */
/* byte 1 receiver, 2 sender, and the value */
#define AVANTRUSA_KIND_HEARD 4u
/* byte 1 receiver, 2 sender; in vote rounds only (rule 4.6) */
#define AVANTRUSA_KIND_HEARD_QUERY 5u
/* byte 1 receiver, 2 sender */
#define AVANTRUSA_KIND_LOST 6u

/* An image: setup, default and clock, then the estimates, the votes, the decisions and the
 * decisions' rounds, each a record for each station in order (rules 6.1 and 6.2). */
/* the number of rounds accepted (rule 5.4) */
#define AVANTRUSA_KIND_CLOCK 8u
/* byte 1 station, and its value */
#define AVANTRUSA_KIND_ESTIMATE 9u
/* byte 1 station, whose vote is "?" (rule 5.5) */
#define AVANTRUSA_KIND_NO_VOTE 10u
/* byte 1 station, and its vote */
#define AVANTRUSA_KIND_VOTE 11u
/* byte 1 station, which is undecided */
#define AVANTRUSA_KIND_UNDECIDED 12u
/* byte 1 station, and the value it decided first (rule 9.10) */
#define AVANTRUSA_KIND_DECIDED 13u
/* byte 1 station, and the number of the round in which it decided, 0 if undecided (rules 5.6 and
 * 5.7) */
#define AVANTRUSA_KIND_DECISION_ROUND 14u

/* The bytes of an opening, an image and a round of n stations (rule 1.7). */
static inline size_t avantrusa_opening_length(size_t n)
{
    return AVANTRUSA_RECORD * (2 + n);
}

static inline size_t avantrusa_image_length(size_t n)
{
    return AVANTRUSA_RECORD * (3 + 4 * n);
}

static inline size_t avantrusa_round_length(size_t n)
{
    return AVANTRUSA_RECORD * n * n;
}

/* The checked entries, the ones to use. What they are handed first:
 *
 *   - each buffer that isn't null points to as many bytes as its length says;
 *   - null with length 0 is an empty buffer; null with another length is answered AVANTRUSA_NULL;
 *   - two buffers with a byte in common are answered AVANTRUSA_OVERLAP. One buffer may begin where
 *     the other ends, and an empty buffer overlaps nothing.
 *
 * They test for null, the first buffer first, then for overlap, and then ask the judge (rules 15.10
 * and 15.11). No entry keeps anything from one call to the next (rule 15.7).
 */

/* Opens a run: reads the opening and writes the image of the run at its starts (rule 12.10).
 * Answers 0, 1, 2, 3, 4 or 9, or as said above of null and overlap. The image has
 * avantrusa_image_length(n) bytes, which may hold anything before. */
uint64_t avantrusa_open(const uint8_t *opening, size_t opening_len, uint8_t *image,
                        size_t image_len);

/* Offers one round to the run of an image, and rewrites the image if the round is accepted (rule
 * 12.11). Answers 0 to 8 or 10, or as said above of null and overlap. */
uint64_t avantrusa_step(uint8_t *image, size_t image_len, const uint8_t *round, size_t round_len);

/* The judge's own entries, as the archive has them: the same buffers and answers, and no test.
 * Null, even with length 0, and buffers that overlap are undefined behaviour here (rule 15.9). */
uint64_t judge_open(const uint8_t *opening, size_t opening_len, uint8_t *image, size_t image_len);
uint64_t judge_step(uint8_t *image, size_t image_len, const uint8_t *round, size_t round_len);

#ifdef __cplusplus
}
#endif

#endif
