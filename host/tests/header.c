/*
 * Whether the header's names are what the call goes by. Tries each limit: accepted at it, refused one beyond. Then
 * writes the tour of docs/FORMATS.md by the names, runs it and tells the answer after each of its runs by the names;
 * and asks there why, in a journal of the tour, whose records have to be those of the runs:
 *
 *   header EXERCISE ANSWERS   the two files get the tour and all its answers
 *
 * docs/formats.sh compares the files and what is printed with the page.
 */
#include <stdbool.h>
#include <stdio.h>
#include <string.h>

#include "bytes.h"
#include "foldharbor.h"

struct bounds {
    const char *name;
    uint32_t place, least, most;
};

struct run {
    uint32_t ticks, speed, code, mode, lever, flags, band, sense;
};

struct bit {
    uint32_t mask;
    const char *name;
};

enum {
    MOST_ANSWERS = FOLDHARBOR_ANSWER_BYTES * FOLDHARBOR_MOST_TICKS,
    ALL_FLAGS = FOLDHARBOR_FLAG_VIGILANCE | FOLDHARBOR_FLAG_PLUS | FOLDHARBOR_FLAG_MAN | FOLDHARBOR_FLAG_DIRECT_BRAKE |
                FOLDHARBOR_FLAG_REMOTE_STOP | FOLDHARBOR_FLAG_ADHESION_LOSS | FOLDHARBOR_FLAG_CAB_ON
};

static const struct bounds card_bounds[] = {
    {"design", FOLDHARBOR_CARD_DESIGN, 1, FOLDHARBOR_MOST_SPEED},
    {"set", FOLDHARBOR_CARD_SET, 1, FOLDHARBOR_MOST_SPEED},
    {"highest", FOLDHARBOR_CARD_HIGHEST, 1, FOLDHARBOR_MOST_SPEED},
    {"POS", FOLDHARBOR_CARD_POS, 1, FOLDHARBOR_MOST_SPEED},
    {"ZAV", FOLDHARBOR_CARD_ZAV, 1, FOLDHARBOR_MOST_SPEED},
    {"tolerance", FOLDHARBOR_CARD_TOLERANCE, 0, FOLDHARBOR_MOST_TOLERANCE},
    {"stop", FOLDHARBOR_CARD_STOP, 0, FOLDHARBOR_MOST_STOP},
    {"deceleration", FOLDHARBOR_CARD_DECELERATION, FOLDHARBOR_LEAST_DECELERATION, FOLDHARBOR_MOST_DECELERATION},
    {"cycle", FOLDHARBOR_CARD_CYCLE, FOLDHARBOR_LEAST_CYCLE, FOLDHARBOR_MOST_CYCLE},
    {"short wait", FOLDHARBOR_CARD_WAIT, FOLDHARBOR_SHORT_WAIT, FOLDHARBOR_SHORT_WAIT},
    {"long wait", FOLDHARBOR_CARD_WAIT, FOLDHARBOR_LONG_WAIT, FOLDHARBOR_LONG_WAIT},
};

static const struct bounds record_bounds[] = {
    {"code", FOLDHARBOR_RECORD_CODE, FOLDHARBOR_CODE_NONE, FOLDHARBOR_CODE_CLEAR},
    {"mode", FOLDHARBOR_RECORD_MODE, FOLDHARBOR_MODE_POS, FOLDHARBOR_MODE_ZAV},
    {"lever", FOLDHARBOR_RECORD_LEVER, FOLDHARBOR_NO_DIRECTION, FOLDHARBOR_REVERSE},
    {"flags", FOLDHARBOR_RECORD_FLAGS, 0, ALL_FLAGS},
    {"band", FOLDHARBOR_RECORD_BAND, FOLDHARBOR_BAND_BELOW_3_5, FOLDHARBOR_BAND_FROM_4_5},
    {"sense", FOLDHARBOR_RECORD_SENSE, FOLDHARBOR_NO_DIRECTION, FOLDHARBOR_REVERSE},
};

static const struct bit marks[] = {
    {FOLDHARBOR_MARK_MAN, "MAN"},
    {FOLDHARBOR_MARK_CURVE, "CURVE"},
    {FOLDHARBOR_MARK_CYCLIC_PROMPT, "CYCLIC_PROMPT"},
    {FOLDHARBOR_MARK_ONE_TIME_PROMPT, "ONE_TIME_PROMPT"},
    {FOLDHARBOR_MARK_ONE_TIME_KIND, "ONE_TIME_KIND"},
    {FOLDHARBOR_MARK_ZS20, "ZS20"},
};

static const struct bit causes[] = {
    {FOLDHARBOR_NZ1, "NZ1"}, {FOLDHARBOR_NZ2, "NZ2"}, {FOLDHARBOR_NZ3, "NZ3"},
    {FOLDHARBOR_NZ4, "NZ4"}, {FOLDHARBOR_NZ5, "NZ5"},
};

enum { /* short names for the lines below */
    PRE = FOLDHARBOR_MODE_PRE,
    VYL = FOLDHARBOR_MODE_VYL,
    NO = FOLDHARBOR_NO_DIRECTION,
    FORWARD = FOLDHARBOR_FORWARD,
    REVERSE = FOLDHARBOR_REVERSE,
    CAB = FOLDHARBOR_FLAG_CAB_ON,
    BRAKE = FOLDHARBOR_FLAG_DIRECT_BRAKE,
    PRESS = FOLDHARBOR_FLAG_VIGILANCE,
    RELEASED = FOLDHARBOR_BAND_FROM_4_5
};

static const struct run tour[] = {
    {10, 0, FOLDHARBOR_CODE_CLEAR, PRE, FORWARD, CAB | BRAKE, RELEASED, NO},
    {20, 1250, FOLDHARBOR_CODE_CLEAR, PRE, FORWARD, CAB, RELEASED, FORWARD},
    {1, 1250, FOLDHARBOR_CODE_STOP, PRE, FORWARD, CAB, RELEASED, FORWARD},
    {1, 1250, FOLDHARBOR_CODE_STOP, PRE, FORWARD, CAB | PRESS, RELEASED, FORWARD},
    {139, 1250, FOLDHARBOR_CODE_STOP, PRE, FORWARD, CAB, RELEASED, FORWARD},
    {1, 1250, FOLDHARBOR_CODE_STOP, PRE, FORWARD, CAB | FOLDHARBOR_FLAG_MAN, RELEASED, FORWARD},
    {1, 1250, FOLDHARBOR_CODE_STOP, PRE, FORWARD, CAB | PRESS, RELEASED, FORWARD},
    {1, 1250, FOLDHARBOR_CODE_FORTY, PRE, FORWARD, CAB | FOLDHARBOR_FLAG_PLUS, RELEASED, FORWARD},
    {150, 0, FOLDHARBOR_CODE_FORTY, PRE, FORWARD, CAB, RELEASED, NO},
    {100, 0, FOLDHARBOR_CODE_FORTY, PRE, FORWARD, CAB, RELEASED, NO},
    {1, 0, FOLDHARBOR_CODE_FORTY, PRE, FORWARD, CAB | FOLDHARBOR_FLAG_REMOTE_STOP, FOLDHARBOR_BAND_BELOW_4_5, NO},
    {1, 0, FOLDHARBOR_CODE_FORTY, PRE, FORWARD, CAB | PRESS, FOLDHARBOR_BAND_BELOW_3_5, NO},
    {1, 0, FOLDHARBOR_CODE_CLEAR, PRE, FORWARD, CAB | BRAKE, RELEASED, NO},
    {1, 0, FOLDHARBOR_CODE_WARNING, PRE, FORWARD, CAB | BRAKE | FOLDHARBOR_FLAG_ADHESION_LOSS, RELEASED, NO},
    {10, 360, FOLDHARBOR_CODE_NONE, PRE, REVERSE, CAB, RELEASED, FORWARD},
    {1, 1231, FOLDHARBOR_CODE_NONE, PRE, REVERSE, CAB, RELEASED, REVERSE},
    {1, 0, FOLDHARBOR_CODE_NONE, VYL, NO, BRAKE | PRESS, RELEASED, NO},
    {166, 500, FOLDHARBOR_CODE_NONE, VYL, FORWARD, CAB, RELEASED, FORWARD},
    {35, 500, FOLDHARBOR_CODE_NONE, VYL, FORWARD, CAB, RELEASED, FORWARD},
    {1, 0, FOLDHARBOR_CODE_NONE, FOLDHARBOR_MODE_POS, NO, CAB, RELEASED, NO},
    {1, 0, FOLDHARBOR_CODE_NONE, FOLDHARBOR_MODE_ZAV, NO, PRESS, RELEASED, NO},
};

enum { TOUR_RUNS = sizeof tour / sizeof tour[0] };

_Static_assert(sizeof causes / sizeof causes[0] == FOLDHARBOR_CAUSES, "every cause has its name");

static uint8_t exercise[FOLDHARBOR_MOST_BYTES + FOLDHARBOR_CARD_BYTES]; /* a card more, to go beyond the limits */
static uint8_t answers[MOST_ANSWERS + FOLDHARBOR_ANSWER_BYTES];
static uint8_t journal[FOLDHARBOR_JOURNAL_BYTES];
static unsigned checks, failures;

static size_t runs_offset(uint32_t cards)
{
    return FOLDHARBOR_HEADER_BYTES + (size_t)FOLDHARBOR_CARD_BYTES * cards;
}

static void write_card(uint8_t *card)
{
    write_half(card + FOLDHARBOR_CARD_DESIGN, 1600);
    write_half(card + FOLDHARBOR_CARD_SET, 1400);
    write_half(card + FOLDHARBOR_CARD_HIGHEST, 1500);
    write_half(card + FOLDHARBOR_CARD_POS, 400);
    write_half(card + FOLDHARBOR_CARD_ZAV, 1000);
    write_half(card + FOLDHARBOR_CARD_TOLERANCE, 30);
    write_half(card + FOLDHARBOR_CARD_STOP, 50);
    write_half(card + FOLDHARBOR_CARD_DECELERATION, 18);
    write_half(card + FOLDHARBOR_CARD_CYCLE, 200);
    write_half(card + FOLDHARBOR_CARD_WAIT, FOLDHARBOR_SHORT_WAIT);
}

static void write_record(uint8_t *record, const struct run *run)
{
    write_half(record + FOLDHARBOR_RECORD_SPEED, run->speed);
    record[FOLDHARBOR_RECORD_CODE] = run->code;
    record[FOLDHARBOR_RECORD_MODE] = run->mode;
    record[FOLDHARBOR_RECORD_LEVER] = run->lever;
    record[FOLDHARBOR_RECORD_FLAGS] = run->flags;
    record[FOLDHARBOR_RECORD_BAND] = run->band;
    record[FOLDHARBOR_RECORD_SENSE] = run->sense;
}

static void write_run(uint8_t *place, const struct run *run)
{
    write_half(place + FOLDHARBOR_RUN_TICKS, run->ticks);
    write_record(place + FOLDHARBOR_RUN_RECORD, run);
}

/* Writes a good exercise if the counts are good: the same card over and over, and the tour's runs round and round. */
static size_t write_exercise(uint32_t cards, uint32_t runs)
{
    size_t length = runs_offset(cards) + (size_t)FOLDHARBOR_RUN_BYTES * runs;

    memset(exercise, 0, sizeof exercise);
    write_half(exercise + FOLDHARBOR_FILE_CARDS, cards);
    write_half(exercise + FOLDHARBOR_FILE_RUNS, runs);
    write_half(exercise + FOLDHARBOR_FILE_CARDS_OFFSET, FOLDHARBOR_HEADER_BYTES);
    write_half(exercise + FOLDHARBOR_FILE_RUNS_OFFSET, runs_offset(cards));
    write_half(exercise + FOLDHARBOR_FILE_LENGTH, length);
    for (uint32_t i = 0; i < cards; i++)
        write_card(exercise + FOLDHARBOR_HEADER_BYTES + FOLDHARBOR_CARD_BYTES * i);
    for (uint32_t i = 0; i < runs; i++)
        write_run(exercise + runs_offset(cards) + FOLDHARBOR_RUN_BYTES * i, &tour[i % TOUR_RUNS]);
    return length;
}

static uint32_t refused(uint32_t number)
{
    return FOLDHARBOR_REFUSED + number;
}

static void expect(size_t length, uint32_t card, size_t room, uint32_t wanted, const char *what)
{
    uint32_t returned = foldharbor_run_exercise(exercise, length, card, answers, room);

    checks++;
    if (returned == wanted)
        return;
    failures++;
    printf("%s: %u and not %u\n", what, (unsigned)returned, (unsigned)wanted);
}

/* One card and one run of a tick, with a number in 16 bits or in 8 at a place. */
static void expect_with(size_t place, bool wide, uint32_t number, uint32_t wanted, const char *what)
{
    size_t length = write_exercise(1, 1);

    write_half(exercise + runs_offset(1) + FOLDHARBOR_RUN_TICKS, 1);
    if (wide)
        write_half(exercise + place, number);
    else
        exercise[place] = number;
    expect(length, 1, MOST_ANSWERS, wanted, what);
}

static void try_bounds(const struct bounds *bounds, size_t start, bool wide, uint32_t refusal)
{
    size_t place = start + bounds->place;

    expect_with(place, wide, bounds->least, 1, bounds->name);
    expect_with(place, wide, bounds->most, 1, bounds->name);
    expect_with(place, wide, bounds->most + 1, refusal, bounds->name);
    if (bounds->least > 0)
        expect_with(place, wide, bounds->least - 1, refusal, bounds->name);
}

static void try_fields(void)
{
    const struct bounds speed = {"speed", FOLDHARBOR_RECORD_SPEED, 0, FOLDHARBOR_MOST_SPEED};
    size_t record = runs_offset(1) + FOLDHARBOR_RUN_RECORD;

    for (size_t i = 0; i < sizeof card_bounds / sizeof card_bounds[0]; i++)
        try_bounds(&card_bounds[i], FOLDHARBOR_HEADER_BYTES, true, refused(FOLDHARBOR_BAD_CARD));
    try_bounds(&speed, record, true, refused(FOLDHARBOR_BAD_RECORD));
    for (size_t i = 0; i < sizeof record_bounds / sizeof record_bounds[0]; i++)
        try_bounds(&record_bounds[i], record, false, refused(FOLDHARBOR_BAD_RECORD));
}

static void try_counts(void)
{
    size_t ticks = runs_offset(1) + FOLDHARBOR_RUN_TICKS;

    expect_with(ticks, true, FOLDHARBOR_MOST_TICKS, FOLDHARBOR_MOST_TICKS, "most ticks");
    expect_with(ticks, true, FOLDHARBOR_MOST_TICKS + 1, refused(FOLDHARBOR_BAD_TICKS), "a tick too many");
    expect_with(ticks, true, 0, refused(FOLDHARBOR_BAD_TICKS), "a run of no ticks");
    for (size_t i = 0; i < FOLDHARBOR_HEADER_BYTES; i++)
        expect(i, 1, MOST_ANSWERS, refused(FOLDHARBOR_BAD_FILE), "shorter than a header");

    size_t length = write_exercise(FOLDHARBOR_MOST_CARDS, 1);
    expect(length, FOLDHARBOR_MOST_CARDS, MOST_ANSWERS, tour[0].ticks, "most cards");
    expect(length, FOLDHARBOR_MOST_CARDS + 1, MOST_ANSWERS, refused(FOLDHARBOR_NO_SUCH_CARD), "no such card");
    expect(length, 1, FOLDHARBOR_ANSWER_BYTES * tour[0].ticks, tour[0].ticks, "an exact buffer");
    expect(length, 1, FOLDHARBOR_ANSWER_BYTES * tour[0].ticks - 1, refused(FOLDHARBOR_SHORT_BUFFER), "a byte too few");
    length = write_exercise(FOLDHARBOR_MOST_CARDS + 1, 1);
    expect(length, 1, MOST_ANSWERS, refused(FOLDHARBOR_BAD_FILE), "a card too many");
    length = write_exercise(0, 1);
    expect(length, 1, MOST_ANSWERS, refused(FOLDHARBOR_BAD_FILE), "no card");
}

/* The longest file, each of its runs with one tick, and one of a run more. */
static void try_runs(void)
{
    for (uint32_t runs = FOLDHARBOR_MOST_RUNS; runs <= FOLDHARBOR_MOST_RUNS + 1; runs++) {
        size_t length = write_exercise(FOLDHARBOR_MOST_CARDS, runs);
        uint8_t *first = exercise + runs_offset(FOLDHARBOR_MOST_CARDS) + FOLDHARBOR_RUN_TICKS;

        for (uint32_t i = 0; i < runs; i++)
            write_half(first + FOLDHARBOR_RUN_BYTES * i, 1);
        if (runs == FOLDHARBOR_MOST_RUNS)
            expect(FOLDHARBOR_MOST_BYTES, 1, MOST_ANSWERS, runs, "most runs");
        else
            expect(length, 1, MOST_ANSWERS, refused(FOLDHARBOR_BAD_FILE), "a run too many");
    }
}

/* The run of the tour that has the tick, counted from 1. */
static const struct run *run_of(uint32_t tick)
{
    const struct run *run = tour;

    for (; tick > run->ticks; run++)
        tick -= run->ticks;
    return run;
}

static bool is_of_run(const foldharbor_record *reading, const struct run *run)
{
    return reading->v == run->speed && reading->code == run->code && reading->mode == run->mode &&
           reading->lever == run->lever && reading->flags == run->flags && reading->band == run->band &&
           reading->sense == run->sense;
}

static void write_journal(void)
{
    uint8_t *record = journal;

    for (size_t i = 0; i < TOUR_RUNS; i++)
        for (uint32_t ticks = tour[i].ticks; ticks > 0; ticks--, record += FOLDHARBOR_RECORD_BYTES)
            write_record(record, &tour[i]);
}

/* After so many ticks of the tour: a reason for each cause that is held, and a refusal where none is. */
static void ask_why(uint32_t ticks, uint32_t held)
{
    foldharbor_desk desk =
        foldharbor_open(foldharbor_card_at(exercise + FOLDHARBOR_HEADER_BYTES, FOLDHARBOR_CARD_BYTES)).desk;

    desk.n = ticks;
    desk = foldharbor_step_back(desk, 0, journal, sizeof journal).desk;

    foldharbor_reasons why = foldharbor_why(desk, journal, sizeof journal);
    bool good = why.refusal == (held == 0 ? FOLDHARBOR_VALVE_CLOSED : 0);

    for (size_t i = 0; i < FOLDHARBOR_CAUSES; i++) {
        const foldharbor_reason *reason = &why.of_cause[i];

        good &= (reason->tick > 0) == ((held & causes[i].mask) != 0);
        good &= reason->tick == 0 || is_of_run(&reason->reading, run_of(reason->tick));
    }
    if (good)
        return;
    failures++;
    printf("why after %u ticks gives something else\n", (unsigned)ticks);
}

static void print_bits(const struct bit *bits, size_t count, uint32_t byte)
{
    printf(" [");
    for (size_t i = 0; i < count; i++)
        if (byte & bits[i].mask) {
            byte &= ~bits[i].mask;
            printf("%s%s", bits[i].name, byte ? " " : "");
        }
    printf("]");
}

static void print_answer(uint32_t ticks, const uint8_t *answer)
{
    printf("%u %u %u", (unsigned)ticks, (unsigned)read_half(answer + FOLDHARBOR_ANSWER_PERMITTED),
           (unsigned)read_half(answer + FOLDHARBOR_ANSWER_TARGET));
    print_bits(marks, sizeof marks / sizeof marks[0], answer[FOLDHARBOR_ANSWER_MARKS]);
    print_bits(causes, sizeof causes / sizeof causes[0], answer[FOLDHARBOR_ANSWER_CAUSES]);
    printf(" %u %u\n", answer[FOLDHARBOR_ANSWER_LOWEST], answer[FOLDHARBOR_ANSWER_HELD]);
}

static bool save(const char *path, const uint8_t *bytes, size_t length)
{
    FILE *file = fopen(path, "wb");
    bool written = file && fwrite(bytes, 1, length, file) == length;

    written = file && fclose(file) == 0 && written;
    if (!written)
        perror(path);
    return written;
}

int main(int count, char **arguments)
{
    if (count != 3) {
        fprintf(stderr, "usage: header EXERCISE ANSWERS\n");
        return 2;
    }
    try_fields();
    try_counts();
    try_runs();

    size_t length = write_exercise(1, TOUR_RUNS);
    uint32_t ticks = foldharbor_run_exercise(exercise, length, 1, answers, MOST_ANSWERS);
    if (ticks > FOLDHARBOR_REFUSED) {
        printf("the tour is refused with %u\n", (unsigned)ticks);
        return 1;
    }
    uint32_t played = 0;
    write_journal();
    for (size_t i = 0; i < TOUR_RUNS; i++) {
        played += tour[i].ticks;

        const uint8_t *answer = answers + FOLDHARBOR_ANSWER_BYTES * (played - 1);

        print_answer(played, answer);
        ask_why(played, answer[FOLDHARBOR_ANSWER_CAUSES]);
    }
    if (!save(arguments[1], exercise, length) || !save(arguments[2], answers, FOLDHARBOR_ANSWER_BYTES * ticks))
        return 2;
    printf("%u limits tried, %u failed\n", checks, failures);
    return failures > 0;
}
