/*
 * Compares the calls between a card or an answer and its bytes with the model, on small lengths and on some long ones.
 *
 *   pieces [SEED]
 *
 * What is handed over stands between other bytes, and after each call all are compared with what they have to be.
 */
#include <inttypes.h>
#include <stdbool.h>
#include <stdio.h>
#include <stdlib.h>
#include <string.h>

#include "fields.h"
#include "foldharbor.h"
#include "model.h"
#include "some.h"

enum {
    DEFAULT_SEED = 7200,
    TIMES = 300,    /* that each length is tried */
    SENTINELS = 63, /* before and behind the bytes; odd, so that they do not start aligned */
    SMALL = 64,
    LONGEST = (1 << 16) + SMALL /* whose low 16 bits are those of a small length */
};

static uint8_t area[SENTINELS + LONGEST + SENTINELS];
static uint8_t wanted[SENTINELS + LONGEST + SENTINELS];
static uint8_t *const bytes = area + SENTINELS;
static uint8_t *const wanted_bytes = wanted + SENTINELS;

static uint64_t calls, different;

static void lay_bytes(struct dice *dice, size_t length)
{
    some_bytes(dice, area, SENTINELS + length + SENTINELS);
    memcpy(wanted, area, SENTINELS + length + SENTINELS);
}

static void print_bytes(const char *what, const uint8_t *first, size_t count)
{
    printf("  %-7s", what);
    for (size_t i = 0; i < count; i++)
        printf(" %02x", first[i]);
    printf("\n");
}

static void check(bool good, const char *call, size_t length, const uint8_t *got, const uint8_t *want, size_t count)
{
    calls++;
    if (good || different++ > 0)
        return;
    printf("first difference: %s with %zu bytes\n", call, length);
    print_bytes("call", got, count);
    print_bytes("model", want, count);
}

static bool all_as_wanted(size_t length)
{
    return memcmp(area, wanted, SENTINELS + length + SENTINELS) == 0;
}

static void write_card(uint8_t *place, const foldharbor_card *card)
{
    foldharbor_desk desk = {.card = *card};
    struct desk made = model_of_desk(&desk);

    model_write_card(place, &made.card);
}

/* A card or an answer is shown by its bytes, which the model writes. */
static void compare_reading(struct dice *dice, size_t length)
{
    static const uint8_t zeros[CARD_BYTES];
    uint8_t shown[CARD_BYTES];

    lay_bytes(dice, length);

    foldharbor_card card = foldharbor_card_at(bytes, length);
    const uint8_t *want = length < CARD_BYTES ? zeros : wanted_bytes;

    write_card(shown, &card);
    check(memcmp(shown, want, CARD_BYTES) == 0 && all_as_wanted(length), "card_at", length, shown, want, CARD_BYTES);

    foldharbor_answer answer = foldharbor_answer_at(bytes, length);

    want = length < ANSWER_BYTES ? zeros : wanted_bytes;
    write_answer(shown, &answer);
    check(memcmp(shown, want, ANSWER_BYTES) == 0 && all_as_wanted(length), "answer_at", length, shown, want,
          ANSWER_BYTES);
}

static void compare_writing(struct dice *dice, size_t length)
{
    foldharbor_card card;
    foldharbor_answer answer;
    size_t written = length < CARD_BYTES ? 0 : CARD_BYTES;

    some_bytes(dice, &card, sizeof card);
    some_bytes(dice, &answer, sizeof answer);
    lay_bytes(dice, length);
    if (written > 0)
        write_card(wanted_bytes, &card);
    check(foldharbor_put_card(card, bytes, length) == written && all_as_wanted(length), "put_card", length, bytes,
          wanted_bytes, CARD_BYTES);

    lay_bytes(dice, length);
    written = length < ANSWER_BYTES ? 0 : ANSWER_BYTES;
    if (written > 0)
        write_answer(wanted_bytes, &answer);
    check(foldharbor_put_answer(answer, bytes, length) == written && all_as_wanted(length), "put_answer", length, bytes,
          wanted_bytes, ANSWER_BYTES);
}

static void compare_length(struct dice *dice, size_t length)
{
    compare_reading(dice, length);
    compare_writing(dice, length);
}

int main(int count, char **arguments)
{
    uint64_t seed = count > 1 ? strtoull(arguments[1], NULL, 0) : DEFAULT_SEED;
    struct dice dice = {seed};

    printf("pieces: seed %" PRIu64 "\n", seed);
    for (size_t length = 0; length <= SMALL; length++)
        for (uint32_t times = 0; times < TIMES; times++)
            compare_length(&dice, length);
    for (size_t length = LONGEST - SMALL; length <= LONGEST; length++)
        compare_length(&dice, length);
    printf("pieces: %" PRIu64 " calls, %" PRIu64 " differ\n", calls, different);
    return different > 0;
}
