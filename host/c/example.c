/* A small host: opens A(3,2,2,0) with starts 5 5 9, and offers two rounds in which all is heard. */
#include <inttypes.h>
#include <stdio.h>
#include <string.h>

#include "avantrusa.h"

enum {
    N = 3,
    T = 2,
    E = 2,
    ALPHA = 0,
    OPENING = AVANTRUSA_RECORD * (2 + N),
    IMAGE = AVANTRUSA_RECORD * (3 + 4 * N),
    ROUND = AVANTRUSA_RECORD * N * N,
    ESTIMATES = 3,         /* an image's first estimate, by record */
    DECISIONS = 3 + 2 * N, /* its first decision */
    ROUNDS = 2             /* how many rounds are offered */
};

/* Writes record k: a kind, bytes 1 and 2, and a value. */
static void put(uint8_t *records, size_t k, uint8_t kind, uint8_t first, uint8_t second,
                uint32_t value)
{
    uint8_t *record = records + AVANTRUSA_RECORD * k;
    record[0] = kind;
    record[1] = first;
    record[2] = second;
    record[3] = 0;
    for (int i = 0; i < 4; i++)
        record[4 + i] = (uint8_t)(value >> 8 * i);
}

static uint8_t kind_of(const uint8_t *records, size_t k)
{
    return records[AVANTRUSA_RECORD * k];
}

static uint32_t value_of(const uint8_t *records, size_t k)
{
    const uint8_t *record = records + AVANTRUSA_RECORD * k;
    return (uint32_t)record[4] | (uint32_t)record[5] << 8 | (uint32_t)record[6] << 16 |
           (uint32_t)record[7] << 24;
}

static void make_opening(uint8_t *opening, const uint32_t *starts)
{
    const uint8_t setup[AVANTRUSA_RECORD] = {AVANTRUSA_KIND_SETUP, AVANTRUSA_A, N, T, E, ALPHA};
    memcpy(opening, setup, sizeof setup);
    put(opening, 1, AVANTRUSA_KIND_DEFAULT, 0, 0, 0);
    for (uint8_t p = 0; p < N; p++)
        put(opening, 2 + p, AVANTRUSA_KIND_START, p, 0, starts[p]);
}

/* Each receiver hears what each sender now holds. */
static void make_round(uint8_t *round, const uint8_t *image)
{
    for (uint8_t k = 0; k < N * N; k++)
        put(round, k, AVANTRUSA_KIND_HEARD, k / N, k % N, value_of(image, ESTIMATES + k % N));
}

static void print_estimates(const uint8_t *image)
{
    printf("hold");
    for (size_t p = 0; p < N; p++)
        printf(" %" PRIu32, value_of(image, ESTIMATES + p));
}

static void print_decisions(const uint8_t *image)
{
    printf(" decided");
    for (size_t p = 0; p < N; p++) {
        if (kind_of(image, DECISIONS + p) == AVANTRUSA_KIND_DECIDED)
            printf(" %" PRIu32, value_of(image, DECISIONS + p));
        else
            printf(" -");
    }
    printf("\n");
}

static void print_image(const uint8_t *image)
{
    print_estimates(image);
    print_decisions(image);
}

static int complain(const char *what, uint64_t answer)
{
    fprintf(stderr, "%s: refused with %" PRIu32 " at %" PRIu32 "\n", what,
            avantrusa_number(answer), avantrusa_place(answer));
    return 1;
}

int main(void)
{
    const uint32_t starts[N] = {5, 5, 9};
    uint8_t opening[OPENING], image[IMAGE], round[ROUND];
    uint64_t answer;

    make_opening(opening, starts);
    answer = avantrusa_open(opening, sizeof opening, image, sizeof image);
    if (answer != AVANTRUSA_ACCEPTED)
        return complain("opening", answer);
    printf("opened A(%d,%d,%d,%d): ", N, T, E, ALPHA);
    print_image(image);

    for (int k = 1; k <= ROUNDS; k++) {
        make_round(round, image);
        answer = avantrusa_step(image, sizeof image, round, sizeof round);
        if (answer != AVANTRUSA_ACCEPTED)
            return complain("round", answer);
        printf("round %d, all heard: ", k);
        print_image(image);
    }
    return 0;
}
