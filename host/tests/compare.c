/*
 * Compares the calls that run and read an exercise with the model on generated exercises: good, damaged, cut and
 * lengthened ones.
 *
 *   compare [SEED [COUNT]]
 *
 * A call gets a copy of the file with other bytes behind its end than the model sees, so that a result that
 * depends on bytes out of the file shows. Both buffers are filled with sentinels and compared whole.
 */
#include <inttypes.h>
#include <stdbool.h>
#include <stdio.h>
#include <stdlib.h>
#include <string.h>

#include "bytes.h"
#include "foldharbor.h"
#include "generate.h"
#include "model.h"
#include "seen.h"

enum {
    DEFAULT_SEED = 7200,
    DEFAULT_COUNT = 24000,
    SENTINEL = 0xA5,
    SENTINELS = 63, /* before and behind a buffer, and behind a file; odd, so that no buffer starts aligned */
    LONGEST_BUFFER = FOLDHARBOR_ANSWER_BYTES * (FOLDHARBOR_MOST_TICKS + 8),
    LONGEST_FILE = 1 << 17, /* twice what a file's 16-bit total can say */
    ANSWERS_AREA = SENTINELS + LONGEST_BUFFER + SENTINELS,
    LONG_STAND = 300 /* ticks */
};

static uint8_t exercise[LONGEST_FILE];
static size_t exercise_length;
static uint8_t exercise_of_call[LONGEST_FILE + SENTINELS];
static uint8_t answers_of_call[ANSWERS_AREA];
static uint8_t answers_of_model[ANSWERS_AREA];
static uint8_t sentinels[ANSWERS_AREA];

static uint64_t seed;
static uint64_t exercises, calls, ticks_played, different;
static bool exercise_differs;

static uint64_t refusals_seen[16]; /* by number; 0 counts what was accepted */
static uint64_t reader_refusals_seen[UINT8_MAX + 1];
static uint64_t stands_seen; /* long runs at a stand, on a curve from their first tick to their last */

/* Goes by the records alone: the desk takes the mode asked for where the train stands. */
static void tally_records(void)
{
    uint32_t runs = read_half(exercise + 2);
    const uint8_t *run = exercise + read_half(exercise + 6);
    uint8_t mode = MODE_POS;

    for (; runs > 0; runs--, run += RUN_BYTES) {
        const uint8_t *record = run + RECORD_IN_RUN;

        if (read_half(record) == 0)
            mode = record[3];
        tally_ticks(mode, record[2], read_half(run));
    }
}

static bool is_on_curve(const uint8_t *answer)
{
    return answer[FOLDHARBOR_ANSWER_MARKS] & FOLDHARBOR_MARK_CURVE;
}

static void tally_stands(void)
{
    uint32_t runs = read_half(exercise + 2);
    const uint8_t *run = exercise + read_half(exercise + 6);
    const uint8_t *first = answers_of_call + SENTINELS; /* answer of the run */

    for (; runs > 0; runs--, run += RUN_BYTES) {
        uint32_t ticks = read_half(run);
        const uint8_t *next = first + (size_t)FOLDHARBOR_ANSWER_BYTES * ticks;

        stands_seen += ticks >= LONG_STAND && read_half(run + RECORD_IN_RUN) == 0 && is_on_curve(first) &&
                       is_on_curve(next - FOLDHARBOR_ANSWER_BYTES);
        first = next;
    }
}

static void tally_answers(uint32_t ticks)
{
    const uint8_t *answer = answers_of_call + SENTINELS;

    ticks_played += ticks;
    for (; ticks > 0; ticks--, answer += FOLDHARBOR_ANSWER_BYTES)
        tally_answer(answer[4], answer[5], answer[6], answer[7]);
}

static void tally(uint32_t returned)
{
    if (returned > FOLDHARBOR_REFUSED) {
        refusals_seen[(returned - FOLDHARBOR_REFUSED) & 15]++;
        return;
    }
    refusals_seen[0]++;
    tally_records();
    tally_stands();
    tally_answers(returned);
}

static bool report_all_seen(void)
{
    bool all = true;

    printf("seen in what was compared, calls:\n");
    all &= report_seen("accepted", refusals_seen[0]);
    all &= report_seen("refused 4", refusals_seen[4]);
    all &= report_seen("refused 9", refusals_seen[9]);
    all &= report_seen("refused 10", refusals_seen[10]);
    all &= report_seen("refused 11", refusals_seen[11]);
    all &= report_seen("refused 12", refusals_seen[12]);
    all &= report_seen("refused 13", refusals_seen[13]);
    printf("exercises read:\n");
    all &= report_seen("accepted", reader_refusals_seen[0]);
    all &= report_seen("refused 4", reader_refusals_seen[4]);
    all &= report_seen("refused 9", reader_refusals_seen[9]);
    all &= report_seen("refused 10", reader_refusals_seen[10]);
    all &= report_seen("refused 11", reader_refusals_seen[11]);
    printf("runs:\n");
    all &= report_seen("long stand on a curve", stands_seen);
    printf("ticks:\n");
    all &= report_ticks();
    return all;
}

static void print_bytes(const char *what, const uint8_t *bytes, uint32_t count)
{
    printf("  %-14s", what);
    for (uint32_t i = 0; i < count; i++)
        printf(" %02x", bytes[i]);
    printf("\n");
}

static void print_tick(uint32_t card, uint32_t tick)
{
    const uint8_t *run = exercise + read_half(exercise + 6);
    uint32_t before = 0; /* ticks of earlier runs */
    size_t at = SENTINELS + (size_t)FOLDHARBOR_ANSWER_BYTES * tick;

    for (; tick >= before + read_half(run); run += RUN_BYTES)
        before += read_half(run);

    const uint8_t *record = run + RECORD_IN_RUN;

    printf("  tick %u (from 0), tick %u of a run of %u\n", (unsigned)tick, (unsigned)(tick - before),
           (unsigned)read_half(run));
    printf("  record: speed %u code %u mode %u lever %u flags %u band %u sense %u\n", (unsigned)read_half(record),
           record[2], record[3], record[4], record[5], record[6], record[7]);
    print_bytes("card", exercise + HEADER_BYTES + CARD_BYTES * (card - 1), CARD_BYTES);
    if (tick > 0)
        print_bytes("answer before", answers_of_model + at - FOLDHARBOR_ANSWER_BYTES, FOLDHARBOR_ANSWER_BYTES);
    print_bytes("call", answers_of_call + at, FOLDHARBOR_ANSWER_BYTES);
    print_bytes("model", answers_of_model + at, FOLDHARBOR_ANSWER_BYTES);
}

static void print_difference(uint32_t card, size_t answers_length, uint32_t by_call, uint32_t by_model)
{
    size_t at = 0;

    printf("first difference: seed %" PRIu64 ", exercise %" PRIu64 " of %zu bytes, card %" PRIu32
           ", buffer of %zu bytes: the call returned %" PRIu32 ", the model %" PRIu32 "\n",
           seed, exercises, exercise_length, card, answers_length, by_call, by_model);
    if (memcmp(exercise_of_call, exercise, exercise_length) != 0)
        printf("  the call changed the exercise\n");
    while (at < ANSWERS_AREA && answers_of_call[at] == answers_of_model[at])
        at++;
    if (at == ANSWERS_AREA)
        return;
    printf("  first at byte %ld of the buffer\n", (long)at - SENTINELS);
    if (by_model <= FOLDHARBOR_MOST_TICKS && at >= SENTINELS && at < SENTINELS + 8 * (size_t)by_model)
        print_tick(card, (at - SENTINELS) / FOLDHARBOR_ANSWER_BYTES);
}

/* A refusal changes no byte, any other run none behind its last answer. */
static bool rest_untouched(uint32_t returned)
{
    size_t written = returned <= FOLDHARBOR_MOST_TICKS ? FOLDHARBOR_ANSWER_BYTES * (size_t)returned : 0;
    size_t behind = SENTINELS + written;

    return memcmp(answers_of_call, sentinels, SENTINELS) == 0 &&
           memcmp(answers_of_call + behind, sentinels, ANSWERS_AREA - behind) == 0;
}

static void hand_exercise_to_call(void)
{
    memcpy(exercise_of_call, exercise, exercise_length);
    memset(exercise_of_call + exercise_length, 255, SENTINELS);
}

static void compare_call(uint32_t card, size_t answers_length)
{
    hand_exercise_to_call();
    memcpy(answers_of_call, sentinels, ANSWERS_AREA);
    memcpy(answers_of_model, sentinels, ANSWERS_AREA);

    uint32_t by_call =
        foldharbor_run_exercise(exercise_of_call, exercise_length, card, answers_of_call + SENTINELS, answers_length);
    uint32_t by_model =
        model_run_exercise(exercise, exercise_length, card, answers_of_model + SENTINELS, answers_length);

    calls++;
    if (by_call == by_model && rest_untouched(by_call) &&
        memcmp(answers_of_call, answers_of_model, ANSWERS_AREA) == 0 &&
        memcmp(exercise_of_call, exercise, exercise_length) == 0) {
        tally(by_call);
        return;
    }
    if (different == 0 && !exercise_differs)
        print_difference(card, answers_length, by_call, by_model);
    exercise_differs = true;
}

static void print_counts(const char *whose, uint32_t refusal, uint32_t cards, uint32_t runs, uint32_t ticks)
{
    printf("  %-6s refusal %" PRIu32 ", cards %" PRIu32 ", runs %" PRIu32 ", ticks %" PRIu32 "\n", whose, refusal,
           cards, runs, ticks);
}

static void compare_reader(void)
{
    struct exercise_counts by_model;
    uint32_t refusal = model_read_exercise(exercise, exercise_length, &by_model);

    hand_exercise_to_call();

    foldharbor_counts by_call = foldharbor_read_exercise(exercise_of_call, exercise_length);

    if (by_call.refusal == refusal && by_call.cards == by_model.cards && by_call.runs == by_model.runs &&
        by_call.ticks == by_model.ticks && memcmp(exercise_of_call, exercise, exercise_length) == 0) {
        reader_refusals_seen[by_call.refusal]++;
        return;
    }
    if (different == 0 && !exercise_differs) {
        printf("first difference: seed %" PRIu64 ", exercise %" PRIu64 " of %zu bytes, read\n", seed, exercises,
               exercise_length);
        print_counts("call", by_call.refusal, by_call.cards, by_call.runs, by_call.ticks);
        print_counts("model", refusal, by_model.cards, by_model.runs, by_model.ticks);
    }
    exercise_differs = true;
}

static void end_exercise(void)
{
    exercises++;
    different += exercise_differs;
    exercise_differs = false;
}

static uint32_t cards_in_header(void)
{
    return exercise_length >= 2 ? read_half(exercise) : 0;
}

/* The least buffer for the exercise; for a refused one, a buffer that would hold any. */
static size_t least_buffer(void)
{
    struct exercise_counts counts;
    uint32_t refusal = model_read_exercise(exercise, exercise_length, &counts);

    return FOLDHARBOR_ANSWER_BYTES * (size_t)(refusal == 0 ? counts.ticks : FOLDHARBOR_MOST_TICKS);
}

static size_t one_less(size_t length)
{
    return length > 0 ? length - 1 : 0;
}

static void compare_every_way(void)
{
    uint32_t cards = cards_in_header();
    size_t least = least_buffer();
    const uint32_t numbers[] = {0, 1, cards, cards + 1, UINT32_MAX, (1u << 8) + 1, (1u << 16) + 1};
    const size_t lengths[] = {least, one_less(least), 0, least + 1, least + 9, LONGEST_BUFFER};

    compare_reader();
    for (size_t i = 0; i < sizeof numbers / sizeof numbers[0]; i++)
        for (size_t j = 0; j < sizeof lengths / sizeof lengths[0]; j++)
            compare_call(numbers[i], lengths[j]);
    end_exercise();
}

static uint32_t some_number(struct dice *dice, uint32_t cards)
{
    const uint32_t numbers[] = {0, 1, cards, cards + 1, UINT32_MAX, dice_roll(dice, UINT32_MAX)};

    return numbers[dice_roll(dice, sizeof numbers / sizeof numbers[0])];
}

static size_t some_length(struct dice *dice, size_t least)
{
    const size_t lengths[] = {least, one_less(least), 0, least + 1, dice_roll(dice, least + 60)};

    return lengths[dice_roll(dice, sizeof lengths / sizeof lengths[0])];
}

static void compare_some_ways(struct dice *dice)
{
    uint32_t cards = cards_in_header();
    size_t least = least_buffer();
    uint32_t card = 1 + dice_roll(dice, cards > 0 ? cards : 1);

    compare_reader();
    compare_call(card, least);
    compare_call(card, some_length(dice, least));
    card = some_number(dice, cards);
    compare_call(card, some_length(dice, least));
    end_exercise();
}

struct field {
    uint32_t offset, bytes, least, most;
};

static const struct field card_fields[] = {
    {0, 2, 1, 2500}, {2, 2, 1, 2500}, {4, 2, 1, 2500}, {6, 2, 1, 2500},   {8, 2, 1, 2500},
    {10, 2, 0, 100}, {12, 2, 0, 400}, {14, 2, 5, 40},  {16, 2, 150, 600}, {18, 2, 250, 1000},
};

static const struct field record_fields[] = {
    {0, 2, 0, 2500}, {2, 1, 0, 4}, {3, 1, 1, 4}, {4, 1, 0, 2}, {5, 1, 0, 127}, {6, 1, 0, 2}, {7, 1, 0, 2},
};

/* Puts a number at an end of the field's range or next to it, or one in between. */
static void bend_field(struct dice *dice, const struct field *field, uint8_t *place)
{
    const uint32_t values[] = {field->least - 1, field->least, field->most, field->most + 1,
                               field->least + dice_roll(dice, field->most - field->least)};
    uint32_t value = values[dice_roll(dice, sizeof values / sizeof values[0])];

    if (field->bytes == 2)
        write_half(place + field->offset, value);
    else
        place[field->offset] = value & 255;
}

static void bend_card(struct dice *dice, uint32_t cards)
{
    uint8_t *card = exercise + HEADER_BYTES + CARD_BYTES * dice_roll(dice, cards);

    bend_field(dice, &card_fields[dice_roll(dice, sizeof card_fields / sizeof card_fields[0])], card);
}

static void bend_record(struct dice *dice, uint8_t *run)
{
    const struct field *field = &record_fields[dice_roll(dice, sizeof record_fields / sizeof record_fields[0])];

    bend_field(dice, field, run + RECORD_IN_RUN);
}

/* Makes the run empty, far too long, or such that the sum comes to the limit or one above it. */
static void bend_ticks(struct dice *dice, uint8_t *run, uint32_t ticks)
{
    uint32_t up_to_limit = read_half(run) + FOLDHARBOR_MOST_TICKS - ticks;
    const uint32_t values[] = {0, up_to_limit, up_to_limit + 1, UINT16_MAX, FOLDHARBOR_MOST_TICKS + 1};

    write_half(run, values[dice_roll(dice, sizeof values / sizeof values[0])]);
}

static void flip_bit(struct dice *dice, size_t bytes)
{
    uint8_t *place = exercise + dice_roll(dice, bytes);

    *place ^= 1u << dice_roll(dice, 8);
}

static void lengthen(size_t bytes)
{
    memset(exercise + exercise_length, 1, bytes);
    exercise_length += bytes;
}

static void damage(struct dice *dice, uint32_t cards, uint32_t runs, uint32_t ticks)
{
    uint8_t *run = exercise + HEADER_BYTES + CARD_BYTES * cards + RUN_BYTES * dice_roll(dice, runs);

    switch (dice_roll(dice, 16)) {
    case 0:
        flip_bit(dice, HEADER_BYTES);
        break;
    case 1:
        flip_bit(dice, exercise_length);
        break;
    case 2:
        exercise_length = dice_roll(dice, exercise_length);
        break;
    case 3:
        exercise_length -= exercise_length > 20 ? 1 + dice_roll(dice, 20) : 0;
        break;
    case 4:
        lengthen(1 + dice_roll(dice, 20));
        break;
    case 5:
    case 6:
    case 7:
        bend_card(dice, cards);
        break;
    case 8:
    case 9:
    case 10:
        bend_ticks(dice, run, ticks);
        break;
    default:
        bend_record(dice, run);
        break;
    }
}

static void compare_generated(void)
{
    struct dice dice = dice_for(seed, exercises);
    bool long_one = dice_once_in(&dice, 50);
    uint32_t cards = 1 + (dice_once_in(&dice, 2) ? dice_roll(&dice, MOST_CARDS) : 0);
    uint32_t runs = 1 + dice_roll(&dice, long_one ? 3000 : 120);
    uint32_t ticks = runs + dice_roll(&dice, long_one ? FOLDHARBOR_MOST_TICKS - runs + 1 : 1200);

    exercise_length = generate_exercise(&dice, cards, runs, ticks, exercise);
    if (dice_once_in(&dice, 3))
        for (uint32_t times = 1 + dice_roll(&dice, 3); times > 0; times--)
            damage(&dice, cards, runs, ticks);
    compare_some_ways(&dice);
}

static void compare_limits(void)
{
    static const struct exercise_counts limits[] = {
        {0, 0, 0},       {1, 0, 0},       {8, 0, 0},       {9, 0, 0},       {0, 1, 1},
        {1, 1, 1},       {8, 1, 1},       {9, 1, 1},       {1, 1, 7199},    {1, 1, 7200},
        {1, 1, 7201},    {1, 2, 7199},    {1, 2, 7200},    {1, 2, 7201},    {3, 40, 7199},
        {3, 40, 7200},   {3, 40, 7201},   {1, 5999, 5999}, {1, 6000, 6000}, {1, 6001, 6001},
        {8, 6000, 7199}, {8, 6000, 7200}, {8, 6000, 7201}, {8, 6001, 7200}, {9, 6000, 7200},
    };

    for (size_t i = 0; i < sizeof limits / sizeof limits[0]; i++) {
        struct dice dice = dice_for(seed, exercises);

        exercise_length = generate_exercise(&dice, limits[i].cards, limits[i].runs, limits[i].ticks, exercise);
        compare_every_way();
    }
}

/* An empty run in the first, a middle and the last place, behind and before a bad record. */
static void compare_empty_runs(void)
{
    enum { CARDS = 2, RUNS = 9, TICKS = 90 };

    for (uint32_t empty = 0; empty < RUNS; empty++) {
        for (uint32_t bad = 0; bad <= RUNS; bad++) {
            struct dice dice = dice_for(seed, exercises);
            uint8_t *run = exercise + HEADER_BYTES + CARD_BYTES * CARDS;

            exercise_length = generate_exercise(&dice, CARDS, RUNS, TICKS, exercise);
            write_half(run + RUN_BYTES * empty, 0);
            if (bad < RUNS)
                run[RUN_BYTES * bad + RECORD_IN_RUN + 3] = 0; /* no mode has this number */
            compare_every_way();
        }
    }
}

/* Every cut of a short file, and lengths whose low 16 bits are those of a good file. */
static void compare_lengths(void)
{
    struct dice dice = dice_for(seed, exercises);
    size_t whole = generate_exercise(&dice, 2, 3, 30, exercise);

    for (exercise_length = 0; exercise_length <= whole; exercise_length++)
        compare_every_way();
    exercise_length = whole;
    lengthen(1);
    compare_every_way();
    lengthen(UINT16_MAX);
    compare_every_way();
    exercise_length = whole;
    write_half(exercise + 2, 3 + (1 << 15)); /* so many runs more are a multiple of 65,536 bytes */
    compare_every_way();
}

int main(int count, char **arguments)
{
    seed = count > 1 ? strtoull(arguments[1], NULL, 0) : DEFAULT_SEED;
    uint64_t wanted = count > 2 ? strtoull(arguments[2], NULL, 0) : DEFAULT_COUNT;

    printf("compare: seed %" PRIu64 "\n", seed);
    memset(sentinels, SENTINEL, sizeof sentinels);
    compare_limits();
    compare_empty_runs();
    compare_lengths();
    while (exercises < wanted)
        compare_generated();

    bool all_seen = report_all_seen();

    printf("%" PRIu64 " calls, %" PRIu64 " ticks; %s\n", calls, ticks_played,
           all_seen ? "everything listed was seen" : "something listed was never seen");
    printf("compare: %" PRIu64 " exercises, %" PRIu64 " differ\n", exercises, different);
    return different > 0 || !all_seen;
}
