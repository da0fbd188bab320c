/* Tests of the checked entries. Linked with --wrap=judge_open and --wrap=judge_step, so that each
 * call that reaches the judge passes through here and is looked at. */
#include <inttypes.h>
#include <stdio.h>
#include <string.h>

#include "avantrusa.h"

enum {
    N = 3,
    OPENING = AVANTRUSA_RECORD * (2 + N),
    IMAGE = AVANTRUSA_RECORD * (3 + 4 * N),
    ROUND = AVANTRUSA_RECORD * N * N,
    ROOM = 1024,  /* more than any two buffers of a test */
    MIDDLE = 400, /* where the buffer that stays in place begins */
    FILL = 0xA5,  /* what lies around the buffers */
    VALUE = 4,    /* the first byte of a record's value */
    CLOCK = 2     /* the clock's record in an image */
};

uint64_t __real_judge_open(const uint8_t *opening, size_t opening_len, uint8_t *image,
                           size_t image_len);
uint64_t __real_judge_step(uint8_t *image, size_t image_len, const uint8_t *round,
                           size_t round_len);
uint64_t __wrap_judge_open(const uint8_t *opening, size_t opening_len, uint8_t *image,
                           size_t image_len);
uint64_t __wrap_judge_step(uint8_t *image, size_t image_len, const uint8_t *round,
                           size_t round_len);

static int failures;
static int judged; /* the calls that reached the judge */

#define CHECK(condition) check((condition) != 0, #condition, __LINE__)

static void check(int holds, const char *condition, int line)
{
    if (!holds) {
        fprintf(stderr, "test.c:%d: %s does not hold\n", line, condition);
        failures++;
    }
}

uint64_t __wrap_judge_open(const uint8_t *opening, size_t opening_len, uint8_t *image,
                           size_t image_len)
{
    judged++;
    CHECK(opening != NULL && image != NULL);
    return __real_judge_open(opening, opening_len, image, image_len);
}

uint64_t __wrap_judge_step(uint8_t *image, size_t image_len, const uint8_t *round, size_t round_len)
{
    judged++;
    CHECK(image != NULL && round != NULL);
    return __real_judge_step(image, image_len, round, round_len);
}

static uint64_t answer_of(uint32_t number, uint32_t place)
{
    return (uint64_t)place << 32 | number;
}

/* Buffers of tapes/case-09: its opening, and its first round, in which all is heard. */

static void put(uint8_t *records, size_t k, uint8_t kind, uint8_t first, uint8_t second,
                uint8_t value)
{
    const uint8_t record[AVANTRUSA_RECORD] = {kind, first, second, 0, value};
    memcpy(records + AVANTRUSA_RECORD * k, record, sizeof record);
}

static void make_opening(uint8_t *opening)
{
    const uint8_t setup[AVANTRUSA_RECORD] = {AVANTRUSA_KIND_SETUP, AVANTRUSA_A, N, 2, 2, 0};
    memcpy(opening, setup, sizeof setup);
    put(opening, 1, AVANTRUSA_KIND_DEFAULT, 0, 0, 0);
    put(opening, 2, AVANTRUSA_KIND_START, 0, 0, 5);
    put(opening, 3, AVANTRUSA_KIND_START, 1, 0, 5);
    put(opening, 4, AVANTRUSA_KIND_START, 2, 0, 9);
}

static void make_image(uint8_t *image)
{
    uint8_t opening[OPENING];
    make_opening(opening);
    CHECK(__real_judge_open(opening, sizeof opening, image, IMAGE) == AVANTRUSA_ACCEPTED);
}

static void make_round(uint8_t *round)
{
    const uint8_t sent[N] = {5, 5, 9};
    for (uint8_t k = 0; k < N * N; k++)
        put(round, k, AVANTRUSA_KIND_HEARD, k / N, k % N, sent[k % N]);
}

/* One call of the checked entry and one of the judge's own, on buffers with the same bytes: the
 * same answer and bytes, and none written if the answer is a refusal. */

static uint64_t same_open(const uint8_t *opening, size_t opening_len, size_t image_len)
{
    uint8_t before[ROOM], checked[ROOM], bare[ROOM];
    int calls = judged;
    memset(before, FILL, sizeof before);
    memcpy(checked, before, sizeof before);
    memcpy(bare, before, sizeof before);
    uint64_t answer = avantrusa_open(opening, opening_len, checked + MIDDLE, image_len);
    CHECK(judged == calls + 1);
    CHECK(answer == __real_judge_open(opening, opening_len, bare + MIDDLE, image_len));
    CHECK(memcmp(checked, bare, sizeof bare) == 0);
    CHECK((memcmp(checked, before, sizeof before) == 0) == (answer != AVANTRUSA_ACCEPTED));
    return answer;
}

static uint64_t same_step(const uint8_t *image, size_t image_len, const uint8_t *round,
                          size_t round_len)
{
    uint8_t before[ROOM], checked[ROOM], bare[ROOM];
    int calls = judged;
    memset(before, FILL, sizeof before);
    memcpy(before + MIDDLE, image, image_len);
    memcpy(checked, before, sizeof before);
    memcpy(bare, before, sizeof before);
    uint64_t answer = avantrusa_step(checked + MIDDLE, image_len, round, round_len);
    CHECK(judged == calls + 1);
    CHECK(answer == __real_judge_step(bare + MIDDLE, image_len, round, round_len));
    CHECK(memcmp(checked, bare, sizeof bare) == 0);
    CHECK((memcmp(checked, before, sizeof before) == 0) == (answer != AVANTRUSA_ACCEPTED));
    return answer;
}

static void ordinary_opens(void)
{
    uint8_t opening[OPENING];
    make_opening(opening);
    CHECK(same_open(opening, OPENING, IMAGE) == AVANTRUSA_ACCEPTED);
    CHECK(same_open(opening, OPENING - 1, IMAGE) == AVANTRUSA_LENGTH);
    CHECK(same_open(opening, 0, IMAGE) == AVANTRUSA_LENGTH);
    CHECK(same_open(opening, OPENING, IMAGE - 1) == AVANTRUSA_BUFFER);
    CHECK(same_open(opening, OPENING, IMAGE + 1) == AVANTRUSA_BUFFER);
    CHECK(same_open(opening, OPENING, 0) == AVANTRUSA_BUFFER);
    opening[AVANTRUSA_RECORD * 3 + 1] = 2; /* the start of station 1 names 2 */
    CHECK(same_open(opening, OPENING, IMAGE) == answer_of(AVANTRUSA_MALFORMED, 3));
    opening[3] = 1; /* T */
    CHECK(same_open(opening, OPENING, IMAGE) == AVANTRUSA_INEQUALITY);
    opening[2] = AVANTRUSA_STATIONS + 1;
    CHECK(same_open(opening, OPENING, IMAGE) == AVANTRUSA_RANGE);
}

static void ordinary_steps(void)
{
    uint8_t image[IMAGE], round[ROUND];
    make_image(image);
    make_round(round);
    CHECK(same_step(image, IMAGE, round, ROUND) == AVANTRUSA_ACCEPTED);
    CHECK(same_step(image, IMAGE, round, ROUND - AVANTRUSA_RECORD) == AVANTRUSA_LENGTH);
    CHECK(same_step(image, IMAGE, round, 0) == AVANTRUSA_LENGTH);
    CHECK(same_step(image, IMAGE - 1, round, ROUND) == AVANTRUSA_LENGTH);
    CHECK(same_step(image, 0, round, ROUND) == AVANTRUSA_LENGTH);
    round[AVANTRUSA_RECORD * 4 + VALUE] = 6; /* receiver 1 hears 6 of station 1 */
    CHECK(same_step(image, IMAGE, round, ROUND) == answer_of(AVANTRUSA_ALTERED, 1));
    put(round, 5, AVANTRUSA_KIND_HEARD_QUERY, 1, 2, 0);
    CHECK(same_step(image, IMAGE, round, ROUND) == answer_of(AVANTRUSA_QUERY, 5));
    put(round, 2, AVANTRUSA_KIND_LOST, 0, 1, 0); /* the sender is 2 */
    CHECK(same_step(image, IMAGE, round, ROUND) == answer_of(AVANTRUSA_MALFORMED, 2));
    image[AVANTRUSA_RECORD * CLOCK + VALUE + 1] = AVANTRUSA_ROUNDS >> 8;
    CHECK(same_step(image, IMAGE, round, ROUND) == AVANTRUSA_FULL);
    image[AVANTRUSA_RECORD * CLOCK + VALUE] = 1;
    CHECK(same_step(image, IMAGE, round, ROUND) == answer_of(AVANTRUSA_RULES, CLOCK));
    image[3] = 1; /* T */
    CHECK(same_step(image, IMAGE, round, ROUND) == AVANTRUSA_INEQUALITY);
    image[1] = AVANTRUSA_U + 1;
    CHECK(same_step(image, IMAGE, round, ROUND) == AVANTRUSA_RANGE);
    image[0] = AVANTRUSA_KIND_DEFAULT;
    CHECK(same_step(image, IMAGE, round, ROUND) == AVANTRUSA_MALFORMED);
}

/* U(2,1,1,0), starts 3 3: a lost frame leaves a receiver with too few. */
static void an_unsafe_step(void)
{
    const uint8_t setup[AVANTRUSA_RECORD] = {AVANTRUSA_KIND_SETUP, AVANTRUSA_U, 2, 1, 1, 0};
    uint8_t opening[AVANTRUSA_RECORD * 4], image[AVANTRUSA_RECORD * 11];
    uint8_t round[AVANTRUSA_RECORD * 4];
    memcpy(opening, setup, sizeof setup);
    put(opening, 1, AVANTRUSA_KIND_DEFAULT, 0, 0, 7);
    put(opening, 2, AVANTRUSA_KIND_START, 0, 0, 3);
    put(opening, 3, AVANTRUSA_KIND_START, 1, 0, 3);
    CHECK(avantrusa_open(opening, sizeof opening, image, sizeof image) == AVANTRUSA_ACCEPTED);
    for (uint8_t k = 0; k < 4; k++)
        put(round, k, AVANTRUSA_KIND_HEARD, k / 2, k % 2, 3);
    CHECK(same_step(image, sizeof image, round, sizeof round) == AVANTRUSA_ACCEPTED);
    put(round, 3, AVANTRUSA_KIND_LOST, 1, 1, 0);
    CHECK(same_step(image, sizeof image, round, sizeof round) == answer_of(AVANTRUSA_UNSAFE, 1));
}

/* Buffers in one room. The first lies at MIDDLE and the second begins at `at`. Where they overlap,
 * the judge isn't asked and no byte changes; where they don't, the call is an ordinary one. */

static uint64_t open_in_room(size_t at)
{
    uint8_t room[ROOM], before[ROOM];
    memset(room, FILL, sizeof room);
    make_opening(room + MIDDLE);
    memcpy(before, room, sizeof room);
    int calls = judged;
    uint64_t answer = avantrusa_open(room + MIDDLE, OPENING, room + at, IMAGE);
    int untouched = memcmp(room, before, sizeof room) == 0;
    CHECK(judged == calls + (answer == AVANTRUSA_ACCEPTED));
    CHECK(untouched == (answer != AVANTRUSA_ACCEPTED));
    CHECK(memcmp(room + MIDDLE, before + MIDDLE, OPENING) == 0);
    return answer;
}

static uint64_t step_in_room(size_t at)
{
    uint8_t room[ROOM], before[ROOM];
    memset(room, FILL, sizeof room);
    make_round(room + at);
    make_image(room + MIDDLE); /* over the round, where they overlap */
    memcpy(before, room, sizeof room);
    int calls = judged;
    uint64_t answer = avantrusa_step(room + MIDDLE, IMAGE, room + at, ROUND);
    int untouched = memcmp(room, before, sizeof room) == 0;
    CHECK(judged == calls + (answer == AVANTRUSA_ACCEPTED));
    CHECK(untouched == (answer != AVANTRUSA_ACCEPTED));
    return answer;
}

/* Every place of the second buffer from one byte before the adjacent place in front to one byte
 * after the adjacent place behind: in front, over its front, the same, within, over its back,
 * behind. */
static void opens_in_every_arrangement(void)
{
    for (size_t at = MIDDLE - IMAGE - 1; at <= MIDDLE + OPENING + 1; at++) {
        int apart = at + IMAGE <= MIDDLE || at >= MIDDLE + OPENING;
        CHECK(open_in_room(at) == (apart ? AVANTRUSA_ACCEPTED : AVANTRUSA_OVERLAP));
    }
}

static void steps_in_every_arrangement(void)
{
    for (size_t at = MIDDLE - ROUND - 1; at <= MIDDLE + IMAGE + 1; at++) {
        int apart = at + ROUND <= MIDDLE || at >= MIDDLE + IMAGE;
        CHECK(step_in_room(at) == (apart ? AVANTRUSA_ACCEPTED : AVANTRUSA_OVERLAP));
    }
}

/* The arrangements again by name. */
static void named_arrangements(void)
{
    CHECK(open_in_room(MIDDLE) == AVANTRUSA_OVERLAP);               /* the same beginning */
    CHECK(open_in_room(MIDDLE - IMAGE + 1) == AVANTRUSA_OVERLAP);   /* a byte at the front */
    CHECK(open_in_room(MIDDLE + OPENING - 1) == AVANTRUSA_OVERLAP); /* a byte at the back */
    CHECK(open_in_room(MIDDLE - IMAGE) == AVANTRUSA_ACCEPTED);      /* adjacent in front */
    CHECK(open_in_room(MIDDLE + OPENING) == AVANTRUSA_ACCEPTED);    /* adjacent behind */
    CHECK(step_in_room(MIDDLE) == AVANTRUSA_OVERLAP);
    CHECK(step_in_room(MIDDLE - ROUND + 1) == AVANTRUSA_OVERLAP);
    CHECK(step_in_room(MIDDLE + IMAGE - 1) == AVANTRUSA_OVERLAP);
    CHECK(step_in_room(MIDDLE - ROUND) == AVANTRUSA_ACCEPTED);
    CHECK(step_in_room(MIDDLE + IMAGE) == AVANTRUSA_ACCEPTED);
}

/* An empty buffer has no byte in common with any, wherever it points. */
static void empty_within(void)
{
    uint8_t opening[OPENING], image[IMAGE], before[IMAGE];
    make_opening(opening);
    make_image(image);
    memcpy(before, image, sizeof image);
    CHECK(avantrusa_open(opening, OPENING, opening + 1, 0) == AVANTRUSA_BUFFER);
    CHECK(avantrusa_open(image + 1, 0, image, IMAGE) == AVANTRUSA_LENGTH);
    CHECK(avantrusa_step(image, IMAGE, image, 0) == AVANTRUSA_LENGTH);
    CHECK(avantrusa_step(image + 1, 0, image, IMAGE) == AVANTRUSA_LENGTH);
    CHECK(memcmp(image, before, sizeof image) == 0);
}

static void null_and_nothing(void)
{
    uint8_t opening[OPENING], image[IMAGE], before[IMAGE], round[ROUND];
    int calls = judged;
    make_opening(opening);
    make_image(image);
    make_round(round);
    memcpy(before, image, sizeof image);
    CHECK(avantrusa_open(NULL, 0, image, IMAGE) == AVANTRUSA_LENGTH);
    CHECK(avantrusa_open(opening, OPENING, NULL, 0) == AVANTRUSA_BUFFER);
    CHECK(avantrusa_open(NULL, 0, NULL, 0) == AVANTRUSA_LENGTH);
    CHECK(avantrusa_step(NULL, 0, round, ROUND) == AVANTRUSA_LENGTH);
    CHECK(avantrusa_step(image, IMAGE, NULL, 0) == AVANTRUSA_LENGTH);
    CHECK(avantrusa_step(NULL, 0, NULL, 0) == AVANTRUSA_LENGTH);
    CHECK(judged == calls + 6);
    CHECK(memcmp(image, before, sizeof image) == 0);
}

static void null_with_a_length(void)
{
    uint8_t opening[OPENING], image[IMAGE], before[IMAGE], round[ROUND];
    int calls = judged;
    make_opening(opening);
    make_image(image);
    make_round(round);
    memcpy(before, image, sizeof image);
    CHECK(avantrusa_open(NULL, 1, image, IMAGE) == answer_of(AVANTRUSA_NULL, 0));
    CHECK(avantrusa_open(NULL, SIZE_MAX, image, IMAGE) == answer_of(AVANTRUSA_NULL, 0));
    CHECK(avantrusa_open(opening, OPENING, NULL, IMAGE) == answer_of(AVANTRUSA_NULL, 1));
    CHECK(avantrusa_open(opening, OPENING, NULL, 1) == answer_of(AVANTRUSA_NULL, 1));
    CHECK(avantrusa_open(NULL, OPENING, NULL, IMAGE) == answer_of(AVANTRUSA_NULL, 0));
    CHECK(avantrusa_step(NULL, IMAGE, round, ROUND) == answer_of(AVANTRUSA_NULL, 0));
    CHECK(avantrusa_step(image, IMAGE, NULL, ROUND) == answer_of(AVANTRUSA_NULL, 1));
    CHECK(avantrusa_step(image, IMAGE, NULL, SIZE_MAX) == answer_of(AVANTRUSA_NULL, 1));
    CHECK(avantrusa_step(NULL, 1, NULL, 1) == answer_of(AVANTRUSA_NULL, 0));
    CHECK(avantrusa_step(NULL, 0, NULL, 1) == answer_of(AVANTRUSA_NULL, 1));
    CHECK(judged == calls);
    CHECK(memcmp(image, before, sizeof image) == 0);
}

static void parts_and_lengths(void)
{
    uint64_t answer = UINT64_C(0x0000000700000006);
    CHECK(avantrusa_number(answer) == AVANTRUSA_ALTERED);
    CHECK(avantrusa_place(answer) == 7);
    CHECK(avantrusa_number(UINT64_MAX) == AVANTRUSA_OVERLAP);
    CHECK(avantrusa_place(UINT64_MAX) == UINT32_MAX);
    CHECK(avantrusa_opening_length(N) == 40 && avantrusa_opening_length(32) == 272);
    CHECK(avantrusa_image_length(N) == 120 && avantrusa_image_length(32) == 1048);
    CHECK(avantrusa_round_length(N) == 72 && avantrusa_round_length(32) == 8192);
}

int main(void)
{
    ordinary_opens();
    ordinary_steps();
    an_unsafe_step();
    opens_in_every_arrangement();
    steps_in_every_arrangement();
    named_arrangements();
    empty_within();
    null_and_nothing();
    null_with_a_length();
    parts_and_lengths();
    if (failures != 0)
        fprintf(stderr, "%d checks failed\n", failures);
    return failures != 0;
}
