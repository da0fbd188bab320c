/* The checked entries: rules 15.10 and 15.11 of docs/RULES.md, told in avantrusa.h. */
#include "avantrusa.h"

static uint64_t refused(uint32_t number, uint32_t place)
{
    return (uint64_t)place << 32 | number;
}

/* Whether two buffers have a byte in common. No sum is taken, so none can overflow. */
static int overlap(const uint8_t *first, size_t first_len, const uint8_t *second, size_t second_len)
{
    uintptr_t a = (uintptr_t)first;
    uintptr_t b = (uintptr_t)second;
    if (first_len == 0 || second_len == 0)
        return 0;
    return a <= b ? b - a < first_len : a - b < second_len;
}

/* What is wrong with two buffers, or AVANTRUSA_ACCEPTED. */
static uint64_t check(const uint8_t *first, size_t first_len, const uint8_t *second,
                      size_t second_len)
{
    if (first == NULL && first_len != 0)
        return refused(AVANTRUSA_NULL, 0);
    if (second == NULL && second_len != 0)
        return refused(AVANTRUSA_NULL, 1);
    if (overlap(first, first_len, second, second_len))
        return refused(AVANTRUSA_OVERLAP, 0);
    return AVANTRUSA_ACCEPTED;
}

uint64_t avantrusa_open(const uint8_t *opening, size_t opening_len, uint8_t *image,
                        size_t image_len)
{
    uint8_t nothing = 0; /* stands in for null: the judge is never handed null */
    uint64_t answer = check(opening, opening_len, image, image_len);
    if (answer != AVANTRUSA_ACCEPTED)
        return answer;
    return judge_open(opening != NULL ? opening : &nothing, opening_len,
                      image != NULL ? image : &nothing, image_len);
}

uint64_t avantrusa_step(uint8_t *image, size_t image_len, const uint8_t *round, size_t round_len)
{
    uint8_t nothing = 0; /* stands in for null: the judge is never handed null */
    uint64_t answer = check(image, image_len, round, round_len);
    if (answer != AVANTRUSA_ACCEPTED)
        return answer;
    return judge_step(image != NULL ? image : &nothing, image_len, round != NULL ? round : &nothing,
                      round_len);
}
