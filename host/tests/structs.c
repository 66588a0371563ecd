/*
 * Whether the header's structs are the archive's, field by field.
 *
 * A struct that goes in and comes back untouched looks right in any layout. So each field is here one that the archive
 * reads or writes for itself: from or to bytes, by a rule that moves it, by its range. Fields are put and looked at by
 * the header's names, and what has to come of them stands here in numbers, worked out by hand from the rules.
 *
 * Then every two fields of one size are exchanged, as if the header had them the other way round: a check has to fail.
 */
#include <stdbool.h>
#include <stdio.h>
#include <string.h>

#include "bytes.h"
#include "foldharbor.h"

struct field {
    const char *name;
    size_t offset, size;
    bool real;            /* a float */
    uint32_t least, most; /* in a card and in a desk */
};

struct fields { /* of a struct */
    const char *name;
    struct field *all;
    size_t count;
    size_t size, wanted_size; /* of the struct, here and in the archive */
    size_t padding;           /* how many of its bytes belong to no field; those of a desk's card too */
};

#define FIELD(type, member, least, most)                                                                               \
    {#member, offsetof(type, member), sizeof((type *)0)->member,                                                       \
     _Generic(((type *)0)->member, float: true, default: false), least, most}
#define CARD(member, least, most) FIELD(foldharbor_card, member, least, most)
#define SAMPLE(member) FIELD(foldharbor_sample, member, 0, 0)
#define ANSWER(member) FIELD(foldharbor_answer, member, 0, 0)
#define DESK(member, least, most) FIELD(foldharbor_desk, member, least, most)
#define COUNTS(member) FIELD(foldharbor_counts, member, 0, 0)
#define PLACE(member) FIELD(foldharbor_place, member, 0, 0)
#define REASONS(member) FIELD(foldharbor_reasons, member, 0, 0)
#define REASON(i)                                                                                                      \
    REASONS(of_cause[i].tick), REASONS(of_cause[i].reading.v), REASONS(of_cause[i].reading.code),                      \
        REASONS(of_cause[i].reading.mode), REASONS(of_cause[i].reading.lever), REASONS(of_cause[i].reading.flags),     \
        REASONS(of_cause[i].reading.band), REASONS(of_cause[i].reading.sense)

enum {
    CARD_FIELDS = 10,
    SAMPLE_FIELDS = 7,
    ANSWER_FIELDS = 6,
    DESK_FIELDS = 18,
    COUNTS_FIELDS = 4,
    PLACE_FIELDS = 3,
    REASONS_FIELDS = 1 + 5 * 8
};

static struct field card_fields[CARD_FIELDS] = {
    CARD(design, 1, 2500),
    CARD(set, 1, 2500),
    CARD(highest, 1, 2500),
    CARD(pos, 1, 2500),
    CARD(zav, 1, 2500),
    CARD(tolerance, 0, 100),
    CARD(stop, 0, 400),
    CARD(deceleration, 5, 40),
    CARD(cycle, 150, 600),
    CARD(wait, 250, 250), /* or 1000, see check_ranges */
};

static struct field sample_fields[SAMPLE_FIELDS] = {
    SAMPLE(speed), SAMPLE(pressure), SAMPLE(code), SAMPLE(mode), SAMPLE(lever), SAMPLE(flags), SAMPLE(sense),
};

static struct field answer_fields[ANSWER_FIELDS] = {
    ANSWER(permitted), ANSWER(target), ANSWER(marks), ANSWER(causes), ANSWER(lowest), ANSWER(held),
};

static struct field desk_fields[DESK_FIELDS] = { /* without its card */
    DESK(n, 0, 7200),
    DESK(state.mode, 1, 4),
    DESK(state.buttons, 0, 7),
    DESK(state.signal.codes.last, 0, 4),
    DESK(state.signal.codes.interrupted, 0, 4),
    DESK(state.signal.codes.gap, 0, 51),
    DESK(state.signal.codes.raise, 0, 4),
    DESK(state.signal.curve.start, 0, 2500),
    DESK(state.signal.curve.driven, 0, 6250000),
    DESK(state.signal.curve.prompted, 0, 1),
    DESK(state.signal.man, 0, 2500),
    DESK(state.prompt.ticks, 0, 35),
    DESK(state.prompt.kind, 0, 1),
    DESK(state.cyclic.kind, 0, 2),
    DESK(state.cyclic.ticks, 0, 599),
    DESK(state.wrongway, 0, 3600),
    DESK(state.standing, 0, 1000),
    DESK(state.causes, 0, 31),
};

static struct field counts_fields[COUNTS_FIELDS] = {COUNTS(refusal), COUNTS(cards), COUNTS(runs), COUNTS(ticks)};

static struct field place_fields[PLACE_FIELDS] = {PLACE(refusal), PLACE(start), PLACE(end)};

static struct field reasons_fields[REASONS_FIELDS] = {
    REASONS(refusal), REASON(0), REASON(1), REASON(2), REASON(3), REASON(4),
};

static const struct fields of_card = {"card", card_fields, CARD_FIELDS, sizeof(foldharbor_card), 20, 0};
static const struct fields of_sample = {"sample", sample_fields, SAMPLE_FIELDS, sizeof(foldharbor_sample), 16, 3};
static const struct fields of_answer = {"answer", answer_fields, ANSWER_FIELDS, sizeof(foldharbor_answer), 8, 0};
static const struct fields of_desk = {"desk", desk_fields, DESK_FIELDS, sizeof(foldharbor_desk), 60, 20 + 13};
static const struct fields of_counts = {"counts", counts_fields, COUNTS_FIELDS, sizeof(foldharbor_counts), 8, 1};
static const struct fields of_place = {"place", place_fields, PLACE_FIELDS, sizeof(foldharbor_place), 6, 1};
static const struct fields of_reasons = {"reasons", reasons_fields, REASONS_FIELDS, sizeof(foldharbor_reasons), 52, 1};
static const struct fields *const structs[] = {&of_card,   &of_sample, &of_answer, &of_desk,
                                               &of_counts, &of_place,  &of_reasons};

enum { STRUCTS = sizeof structs / sizeof structs[0], OUTCOME_BYTES = 60 + 8 + 1 + 3 };

/* The card of the rows, and a fresh desk. */
static const double card_numbers[CARD_FIELDS] = {1600, 1450, 1500, 400, 1000, 30, 50, 18, 200, 250};
static const double fresh[DESK_FIELDS] = {[1] = 1};

/* A tick: the desk before it, the sample, the desk after it, the answer, and the record in the journal. */
struct row {
    const char *rule;
    double before[DESK_FIELDS], sample[SAMPLE_FIELDS], after[DESK_FIELDS], answer[ANSWER_FIELDS];
    uint8_t record[FOLDHARBOR_RECORD_BYTES];
};

/*
 * Before and after, in the order of desk_fields: n, mode, buttons, last, interrupted, gap, raise, start, driven,
 * prompted, man, the prompt's ticks and kind, the kind and ticks of cyclic vigilance, wrongway, standing, causes.
 * driven is above 65,535 wherever it is not 0: it has more than 16 bits.
 */
static const struct row rows[] = {
    /*
     * 360 are added to driven and to wrongway. 5 * 1,500 * 1,500 - 18 * 200,360 is 7,643,520: from 5 * 1,236 * 1,236,
     * which is 7,638,480, and below 5 * 1,237 * 1,237. PLUS counts under code 3 only, and no button lets go.
     */
    {"a curve falls, a prompt and a cycle go on, the train moves against the lever",
     {5, 2, 4, 1, 3, 20, 2, 1500, 200000, 0, 0, 7, 1, 1, 50, 1000, 40, 18},
     {10, 5, 1, 3, 1, 0x42, 2},
     {6, 2, 2, 1, 3, 20, 2, 1500, 200360, 0, 0, 8, 1, 1, 51, 1360, 0, 18},
     {1236, 50, 0x1A, 18, 2, 2},
     {0x68, 0x01, 1, 3, 1, 0x42, 2, 2}},
    /*
     * Step 4: the least of 1,400 and 1,300. Vigilance is held and no press, so the prompt comes at 120 - 35. Without a
     * curve driven stays, here at the end of its range.
     */
    {"MAN goes on, increased vigilance, the lever agrees",
     {6, 2, 1, 1, 2, 30, 3, 0, 6250000, 1, 1400, 0, 0, 2, 84, 500, 7, 1},
     {1300 / 36.0, 4, 1, 1, 2, 0x41, 2},
     {7, 2, 1, 1, 2, 30, 3, 0, 6250000, 1, 1300, 0, 0, 2, 85, 0, 0, 1},
     {1300, 50, 0x05, 1, 1, 1},
     {0x14, 0x05, 1, 1, 2, 0x41, 1, 2}},
    /* Step 2: no raise, and a curve from Clear's 1,600. Step 3 adds a raise. Step 8: the prompt of a curve's start. */
    {"a new code begins a curve, PLUS raises",
     {7, 2, 0, 4, 0, 0, 4, 0, 0x123456, 1, 0, 0, 1, 1, 90, 20, 9, 4},
     {1200 / 36.0, 5, 3, 2, 1, 0x42, 1},
     {8, 2, 2, 3, 0, 0, 1, 1600, 0, 0, 0, 1, 0, 2, 0, 0, 0, 4},
     {1450, 600, 0x0A, 4, 3, 1},
     {0xB0, 0x04, 3, 2, 1, 0x42, 2, 1}},
    /* ZS20 sounds from 250 - 100. Standing keeps the distance and has no cycle. Without a prompt its kind is 0. */
    {"a gap goes on, the train stands with its brakes released",
     {8, 2, 7, 0, 4, 12, 2, 0, 0x543210, 1, 0, 0, 1, 0, 33, 600, 149, 0},
     {0, 4.5, 0, 2, 0, 0x00, 0},
     {9, 2, 0, 0, 4, 13, 2, 0, 0x543210, 1, 0, 0, 0, 0, 0, 600, 150, 0},
     {1200, 1200, 0x20, 0, 0, 0},
     {0x00, 0x00, 0, 2, 0, 0x00, 2, 0}},
    /* Step 2: 51 ticks without code, and Stop's target is below that of Clear, which was before them. */
    {"a code after a long gap begins MAN",
     {9, 2, 2, 0, 4, 51, 3, 0, 65536, 0, 0, 0, 0, 1, 70, 0, 0, 8},
     {37.5, 10, 1, 2, 1, 0x44, 1},
     {10, 2, 4, 1, 0, 0, 0, 0, 0, 0, 1350, 0, 0, 2, 0, 0, 0, 8},
     {1350, 50, 0x01, 8, 4, 1},
     {0x46, 0x05, 1, 2, 1, 0x44, 2, 1}},
    /*
     * 5 * 1,500 * 1,500 - 18 * 263,639 is 6,504,498: from 5 * 1,140 * 1,140, which is 6,498,000, and below 5 * 1,141 *
     * 1,141. Step 8: another 100 * 1,000 ahead 4,704,498 is left, and 5 * 970 * 970 is 4,704,500, so that the curve is
     * at 969 there; 1,000 is above that and 30. Cyclic prompt from 200 - 35.
     */
    {"the train nears the curve",
     {10, 2, 0, 1, 3, 5, 1, 1500, 262639, 0, 0, 0, 0, 1, 164, 100, 0, 2},
     {1000 / 36.0, 3.5, 1, 4, 2, 0x40, 2},
     {11, 2, 0, 1, 3, 5, 1, 1500, 263639, 1, 0, 1, 1, 1, 165, 0, 0, 2},
     {1140, 50, 0x1E, 2, 2, 1},
     {0xE8, 0x03, 1, 4, 2, 0x40, 1, 2}},
    /* Step 2: MAN ends as 1,200 is above 1,100; 1,200 is below the old signal speed, which was MAN's. */
    {"a gap begins, MAN turns into a curve",
     {11, 2, 0, 4, 1, 40, 2, 0, 131073, 0, 1250, 3, 0, 2, 100, 0, 0, 0},
     {1100 / 36.0, 5, 0, 2, 1, 0x40, 1},
     {12, 2, 0, 0, 4, 1, 0, 1250, 0, 0, 0, 4, 0, 1, 0, 0, 0, 0},
     {1250, 1200, 0x0A, 0, 0, 0},
     {0x4C, 0x04, 0, 2, 1, 0x40, 2, 1}},
    /* Step 1 clears what is for PRE alone. Remote stop keeps NZ4; distance and standing keep their values. */
    {"a press in POS lets NZ2 and NZ5 go",
     {12, 1, 6, 2, 3, 4, 1, 900, 808080, 1, 1300, 9, 1, 2, 60, 700, 900, 26},
     {0, 0, 4, 1, 0, 0x11, 0},
     {13, 1, 1, 0, 0, 0, 0, 0, 0, 0, 0, 0, 0, 0, 0, 700, 900, 8},
     {400, 0, 0x00, 8, 4, 1},
     {0x00, 0x00, 4, 1, 0, 0x11, 0, 0}},
    /* Step 9: 1,031 is above 1,000 + 30. The mode stays while the train moves. */
    {"too fast in ZAV",
     {13, 4, 0, 1, 0, 0, 0, 0, 0, 0, 0, 0, 0, 1, 33, 44, 55, 0},
     {1031 / 36.0, 5, 1, 2, 1, 0x08, 0},
     {14, 4, 0, 0, 0, 0, 0, 0, 0, 0, 0, 0, 0, 0, 0, 44, 55, 2},
     {1000, 0, 0x00, 2, 2, 1},
     {0x07, 0x04, 1, 2, 1, 0x08, 2, 0}},
    /* Step 1 clears all but n, buttons and causes; then the standing is counted. */
    {"a new mode",
     {14, 3, 5, 0, 0, 0, 0, 0, 0, 0, 0, 0, 0, 1, 99, 3599, 240, 16},
     {0, 5, 4, 2, 2, 0x45, 0},
     {15, 2, 5, 4, 0, 0, 0, 0, 0, 0, 0, 0, 0, 0, 0, 0, 1, 16},
     {1450, 1600, 0x00, 16, 5, 1},
     {0x00, 0x00, 4, 2, 2, 0x45, 2, 0}},
    /* 3,000 + 700 is over 3,600. */
    {"the wrong way to its end in VYL, remote stop",
     {15, 3, 0, 0, 0, 0, 0, 0, 0, 0, 0, 0, 0, 1, 100, 3000, 0, 1},
     {700 / 36.0, 3.25, 2, 4, 0, 0x50, 1},
     {16, 3, 0, 0, 0, 0, 0, 0, 0, 0, 0, 0, 0, 1, 101, 3600, 0, 13},
     {1200, 0, 0x00, 13, 1, 3},
     {0xBC, 0x02, 2, 4, 0, 0x50, 0, 1}},
    /* 5 * 1,500 * 1,500 - 18 * 624,277 is 13,014, and 5 * 51 * 51 is 13,005. Nothing is added at speed 0. */
    {"a train that stands keeps its curve",
     {16, 2, 0, 1, 0, 0, 0, 1500, 624277, 1, 0, 0, 0, 0, 0, 77, 0, 0},
     {0, 3.25, 1, 2, 1, 0x40, 0},
     {17, 2, 0, 1, 0, 0, 0, 1500, 624277, 1, 0, 0, 0, 0, 0, 77, 0, 0},
     {51, 50, 0x02, 0, 0, 0},
     {0x00, 0x00, 1, 2, 1, 0x40, 0, 0}},
    /* With 1 more 12,996 is left: the curve is at Stop's 50. Without a curve Stop asks for increased vigilance. */
    {"a train that moves comes to the curve's end",
     {17, 2, 0, 1, 0, 0, 0, 1500, 624277, 1, 0, 0, 0, 1, 10, 0, 0, 0},
     {1 / 36.0, 5, 1, 2, 1, 0x40, 1},
     {18, 2, 0, 1, 0, 0, 0, 0, 0, 0, 0, 0, 0, 2, 0, 0, 0, 0},
     {50, 50, 0x00, 0, 0, 0},
     {0x01, 0x00, 1, 2, 1, 0x40, 2, 1}},
};

enum { ROWS = sizeof rows / sizeof rows[0], UNUSED = 0xA5, SENTINEL = 0xEE };

struct run {
    uint16_t ticks, v;
    uint8_t code, mode, lever, flags, band, sense;
};

/* A drive, and why its valve is open in the end: the refusal, then for NZ1 to NZ5 the tick and its record. */
struct drive {
    const char *what;
    struct run runs[12]; /* up to one of 0 ticks */
    double reasons[REASONS_FIELDS];
};

/*
 * The first three are in VYL, where P is 1,200. NZ5 comes in the 250th tick of standing, and NZ2 in the next, above
 * 1,230; NZ3 two ticks later, when the three speeds make 3,600; NZ4 by its flag; NZ1 200 ticks after the first moved.
 */
static const struct drive drives[] = {
    {"five causes",
     {{249, 0, 0, 3, 0, 0x40, 2, 0},
      {1, 0, 2, 3, 1, 0x46, 2, 1},    /* 250 */
      {1, 1300, 2, 1, 0, 0x6E, 2, 2}, /* 251 */
      {1, 900, 4, 4, 1, 0x40, 0, 2},
      {1, 1400, 1, 3, 2, 0x4A, 1, 1}, /* 253 */
      {46, 900, 4, 4, 1, 0x40, 0, 2},
      {1, 800, 1, 1, 1, 0x50, 1, 0}, /* 300 */
      {150, 900, 4, 4, 1, 0x40, 0, 2},
      {1, 600, 3, 3, 2, 0x42, 2, 2}, /* 451 */
      {9, 900, 4, 4, 1, 0x40, 0, 2}},
     {0,
      451, 600, 3, 3, 2, 0x42, 2, 2,
      251, 1300, 2, 1, 0, 0x6E, 2, 2,
      253, 1400, 1, 3, 2, 0x4A, 1, 1,
      300, 800, 1, 1, 1, 0x50, 1, 0,
      250, 0, 2, 3, 1, 0x46, 2, 1}},
    {"five causes after 20 ticks in POS",
     {{20, 0, 0, 1, 0, 0x40, 2, 0},
      {249, 0, 0, 3, 0, 0x40, 2, 0},
      {1, 0, 1, 3, 0, 0x66, 2, 2},    /* 270 */
      {1, 1231, 0, 3, 1, 0x68, 1, 2}, /* 271 */
      {1, 900, 4, 4, 1, 0x40, 0, 2},
      {1, 1500, 3, 3, 0, 0x66, 2, 1}, /* 273 */
      {46, 900, 4, 4, 1, 0x40, 0, 2},
      {1, 700, 0, 3, 1, 0x7A, 1, 2}, /* 320 */
      {150, 900, 4, 4, 1, 0x40, 0, 2},
      {1, 500, 0, 1, 2, 0x22, 0, 1}}, /* 471 */
     {0,
      471, 500, 0, 1, 2, 0x22, 0, 1,
      271, 1231, 0, 3, 1, 0x68, 1, 2,
      273, 1500, 3, 3, 0, 0x66, 2, 1,
      320, 700, 0, 3, 1, 0x7A, 1, 2,
      270, 0, 1, 3, 0, 0x66, 2, 2}},
    {"five causes by other records",
     {{249, 0, 0, 3, 0, 0x40, 2, 0},
      {1, 0, 4, 3, 1, 0x42, 2, 2},    /* 250 */
      {1, 2500, 3, 1, 2, 0x26, 1, 1}, /* 251 */
      {1, 900, 4, 4, 1, 0x40, 0, 2},
      {1, 200, 2, 1, 2, 0x2C, 1, 0}, /* 253 */
      {46, 900, 4, 4, 1, 0x40, 0, 2},
      {1, 1000, 3, 3, 2, 0x32, 1, 2}, /* 300 */
      {150, 900, 4, 4, 1, 0x40, 0, 2},
      {1, 1100, 3, 2, 0, 0x42, 1, 2}, /* 451 */
      {1, 900, 4, 4, 1, 0x40, 0, 2}},
     {0,
      451, 1100, 3, 2, 0, 0x42, 1, 2,
      251, 2500, 3, 1, 2, 0x26, 1, 1,
      253, 200, 2, 1, 2, 0x2C, 1, 0,
      300, 1000, 3, 3, 2, 0x32, 1, 2,
      250, 0, 4, 3, 1, 0x42, 2, 2}},
    /* In POS P is the card's 400, and 431 is above 430. A press at 400 lets NZ2 go. */
    {"NZ2 let go, and again",
     {{1, 431, 4, 2, 1, 0x40, 2, 1},
      {1, 400, 4, 2, 1, 0x41, 2, 1},
      {1, 430, 4, 2, 1, 0x40, 2, 1},
      {1, 431, 3, 4, 2, 0x60, 1, 0}, /* 4 */
      {2, 430, 2, 3, 1, 0x40, 0, 1}},
     {0,
      0, 0, 0, 0, 0, 0, 0, 0,
      4, 431, 3, 4, 2, 0x60, 1, 0}},
    {"nothing held", {{7, 430, 4, 2, 1, 0x40, 2, 1}}, {14}},
};

enum { DRIVES = sizeof drives / sizeof drives[0] };

static uint8_t journal[FOLDHARBOR_RECORD_BYTES * 32];
static uint8_t long_journal[FOLDHARBOR_RECORD_BYTES * 500];
static uint8_t exercise[FOLDHARBOR_MOST_BYTES];
static unsigned checks, failures;
static bool quiet; /* while fields are exchanged */

static void expect(double got, double wanted, const char *call, const char *what)
{
    checks++;
    if (got == wanted)
        return;
    failures++;
    if (!quiet)
        printf("%s: %s is %g and not %g\n", call, what, got, wanted);
}

/* x86-64 has the low byte of a number first, whatever its size. */
static void put(void *place, const struct field *field, double number)
{
    uint8_t *bytes = (uint8_t *)place + field->offset;
    uint32_t whole = number;
    float real = number;

    if (field->real)
        memcpy(bytes, &real, sizeof real);
    else
        memcpy(bytes, &whole, field->size);
}

static double get(const void *place, const struct field *field)
{
    uint32_t whole = 0;

    memcpy(&whole, (const uint8_t *)place + field->offset, field->size); /* no float is handed back */
    return whole;
}

static void put_all(void *place, const struct fields *fields, const double *numbers)
{
    for (size_t i = 0; i < fields->count; i++)
        put(place, &fields->all[i], numbers[i]);
}

static void expect_all(const void *place, const struct fields *fields, const double *numbers, const char *call)
{
    for (size_t i = 0; i < fields->count; i++)
        expect(get(place, &fields->all[i]), numbers[i], call, fields->all[i].name);
}

/* Bytes between the fields are not 0: the archive would take them for a part of a field that it has wider. */
static foldharbor_card make_card(const double *numbers)
{
    foldharbor_card card;

    memset(&card, UNUSED, sizeof card);
    put_all(&card, &of_card, numbers);
    return card;
}

static foldharbor_desk make_desk(const double *card, const double *numbers)
{
    foldharbor_desk desk;

    memset(&desk, UNUSED, sizeof desk);
    desk.card = make_card(card);
    put_all(&desk, &of_desk, numbers);
    return desk;
}

static foldharbor_sample make_sample(const double *numbers)
{
    foldharbor_sample sample;

    memset(&sample, UNUSED, sizeof sample);
    put_all(&sample, &of_sample, numbers);
    return sample;
}

static void expect_outcome(const foldharbor_outcome *out, const double *card, const double *desk, const double *answer,
                           uint32_t refusal, const char *call)
{
    expect(out->refusal, refusal, call, "refusal");
    expect_all(&out->desk.card, &of_card, card, call);
    expect_all(&out->desk, &of_desk, desk, call);
    expect_all(&out->answer, &of_answer, answer, call);
}

/* From bytes 1, 2, 3 .. and to them: a card's numbers are 0x0201, 0x0403 .. */
static void check_bytes(void)
{
    static const double answer_numbers[ANSWER_FIELDS] = {0x0201, 0x0403, 5, 6, 7, 8};
    static const double bytes_card[CARD_FIELDS] = {0x0201, 0x0403, 0x0605, 0x0807, 0x0A09,
                                                   0x0C0B, 0x0E0D, 0x100F, 0x1211, 0x1413};
    uint8_t bytes[FOLDHARBOR_CARD_BYTES], written[FOLDHARBOR_CARD_BYTES];
    foldharbor_answer answer;

    for (size_t i = 0; i < sizeof bytes; i++)
        bytes[i] = i + 1;

    foldharbor_card card = foldharbor_card_at(bytes, sizeof bytes);

    expect_all(&card, &of_card, bytes_card, "card_at");
    expect(foldharbor_put_card(make_card(bytes_card), written, sizeof written), 20, "put_card", "count");
    expect(memcmp(written, bytes, 20), 0, "put_card", "difference");

    answer = foldharbor_answer_at(bytes, FOLDHARBOR_ANSWER_BYTES);
    expect_all(&answer, &of_answer, answer_numbers, "answer_at");
    put_all(&answer, &of_answer, answer_numbers);
    expect(foldharbor_put_answer(answer, written, FOLDHARBOR_ANSWER_BYTES), 8, "put_answer", "count");
    expect(memcmp(written, bytes, 8), 0, "put_answer", "difference");
}

static void check_rows(void)
{
    for (size_t i = 0; i < ROWS; i++) {
        const struct row *row = &rows[i];
        uint8_t *record = journal + FOLDHARBOR_RECORD_BYTES * (size_t)row->before[0];

        memset(journal, SENTINEL, sizeof journal);

        foldharbor_outcome out = foldharbor_tick(make_desk(card_numbers, row->before), make_sample(row->sample),
                                                 journal, sizeof journal);

        expect_outcome(&out, card_numbers, row->after, row->answer, 0, row->rule);
        expect(memcmp(record, row->record, sizeof row->record), 0, row->rule, "difference in the record");
        expect(record[-1] == SENTINEL && record[sizeof row->record] == SENTINEL, true, row->rule, "only the record");
    }
}

/* A fresh desk; then two ticks of the first row's sample, a step back by the second, and a restart. */
static void check_calls(void)
{
    static const double nothing[ANSWER_FIELDS] = {0};
    /* A moving train stays in POS, whose 400 are not exceeded; a button is kept. */
    static const double later[DESK_FIELDS] = {1, 1, 2}, answer[ANSWER_FIELDS] = {400};
    foldharbor_sample sample = make_sample(rows[0].sample);
    foldharbor_outcome out = foldharbor_open(make_card(card_numbers));

    expect_outcome(&out, card_numbers, fresh, nothing, 0, "open");
    out = foldharbor_tick(out.desk, sample, journal, 16);
    out = foldharbor_tick(out.desk, sample, journal, 16);

    foldharbor_desk desk = out.desk;

    out = foldharbor_step_back(desk, 1, journal, 16);
    expect_outcome(&out, card_numbers, later, answer, 0, "step back");
    expect(foldharbor_step_back(desk, 65536 + 1, journal, 16).refusal, 8, "step back by 65,537", "refusal");
    expect(foldharbor_step_back(desk, 1, journal, 15).refusal, 6, "step back in 15 bytes", "refusal");
    out = foldharbor_restart(desk);
    expect_outcome(&out, card_numbers, fresh, nothing, 0, "restart");
}

/* Lays the drive's journal, and gives the desk that it rebuilds. */
static foldharbor_desk rebuild(const struct drive *drive)
{
    foldharbor_desk desk = foldharbor_open(make_card(card_numbers)).desk;
    uint8_t *record = long_journal;

    for (const struct run *run = drive->runs; run->ticks > 0; run++) {
        const uint8_t others[] = {run->code, run->mode, run->lever, run->flags, run->band, run->sense};

        for (uint16_t ticks = run->ticks; ticks > 0; ticks--, record += FOLDHARBOR_RECORD_BYTES, desk.n++) {
            write_half(record, run->v);
            memcpy(record + 2, others, sizeof others);
        }
    }
    return foldharbor_step_back(desk, 0, long_journal, sizeof long_journal).desk;
}

static void check_why(void)
{
    foldharbor_desk desk;

    for (size_t i = 0; i < DRIVES; i++) {
        desk = rebuild(&drives[i]);

        foldharbor_reasons why = foldharbor_why(desk, long_journal, FOLDHARBOR_RECORD_BYTES * desk.n);

        expect_all(&why, &of_reasons, drives[i].reasons, drives[i].what);
    }
    /* One fault after the other, so that each comes before those that are there. */
    desk.state.buttons = 7;
    expect(foldharbor_why(desk, long_journal, sizeof long_journal).refusal, 23, "why of another desk", "refusal");
    long_journal[3] = 0;
    expect(foldharbor_why(desk, long_journal, sizeof long_journal).refusal, 9, "why of a bad record", "refusal");
    expect(foldharbor_why(desk, long_journal, 8 * desk.n - 1).refusal, 6, "why in a byte too few", "refusal");
    desk.n = 7201;
    expect(foldharbor_why(desk, long_journal, sizeof long_journal).refusal, 5, "why of a bad desk", "refusal");
}

/* A desk with a number in each field that is far out of its range, each another, comes back from each call. */
static void check_refused(void)
{
    static const double nothing[ANSWER_FIELDS] = {0};
    static const double far_out[] = {[1] = 0xC0, [2] = 0xE0C0, [4] = 0xF1E2D3C4}; /* by the size of the field */
    double card[CARD_FIELDS], desk[DESK_FIELDS];

    for (size_t i = 0; i < CARD_FIELDS; i++)
        card[i] = 0xD0C0 + 0x0101 * i;
    for (size_t i = 0; i < DESK_FIELDS; i++)
        desk[i] = far_out[desk_fields[i].size] + (desk_fields[i].size == 1 ? 0x01 : 0x0101) * i;

    foldharbor_outcome out = foldharbor_tick(make_desk(card, desk), make_sample(rows[0].sample), journal, 8);

    expect_outcome(&out, card, desk, nothing, 5, "refused tick");
    out = foldharbor_step_back(make_desk(card, desk), 1, journal, 8);
    expect_outcome(&out, card, desk, nothing, 5, "refused step back");
    out = foldharbor_restart(make_desk(card, desk));
    expect_outcome(&out, card, desk, nothing, 5, "refused restart");
}

/* A fresh desk but for one number: whether it is refused as out of range. */
static void expect_range(const struct field *field, bool in_card, uint32_t number, bool in_range)
{
    foldharbor_desk desk = make_desk(card_numbers, fresh);

    put(in_card ? (void *)&desk.card : (void *)&desk, field, number);
    expect(foldharbor_tick(desk, make_sample(rows[0].sample), journal, 8).refusal != 5, in_range, "range", field->name);
}

static void check_range(const struct field *field, bool in_card, uint32_t least, uint32_t most)
{
    expect_range(field, in_card, least, true);
    expect_range(field, in_card, most, true);
    expect_range(field, in_card, most + 1, false);
    if (least > 0)
        expect_range(field, in_card, least - 1, false);
}

static void check_ranges(void)
{
    for (size_t i = 0; i < CARD_FIELDS; i++)
        check_range(&card_fields[i], true, card_fields[i].least, card_fields[i].most);
    check_range(&card_fields[CARD_FIELDS - 1], true, 1000, 1000);
    for (size_t i = 0; i < DESK_FIELDS; i++)
        check_range(&desk_fields[i], false, desk_fields[i].least, desk_fields[i].most);
}

/* 3 cards and 300 runs: 299 of 23 ticks and one of 124. */
static void check_counts(void)
{
    static const double counted[COUNTS_FIELDS] = {0, 3, 300, 7001}, refused[COUNTS_FIELDS] = {10, 0, 0, 0};
    const size_t runs_offset = 10 + 3 * 20, length = runs_offset + 300 * 10;

    memset(exercise, 0, sizeof exercise);
    write_half(exercise, 3);
    write_half(exercise + 2, 300);
    write_half(exercise + 4, 10);
    write_half(exercise + 6, runs_offset);
    write_half(exercise + 8, length);
    for (size_t i = 0; i < 3; i++)
        foldharbor_put_card(make_card(card_numbers), exercise + 10 + 20 * i, 20);
    for (size_t i = 0; i < 300; i++) {
        write_half(exercise + runs_offset + 10 * i, i == 0 ? 124 : 23);
        exercise[runs_offset + 10 * i + 5] = FOLDHARBOR_MODE_POS;
    }

    foldharbor_counts counts = foldharbor_read_exercise(exercise, length);

    expect_all(&counts, &of_counts, counted, "read_exercise");
    counts = foldharbor_read_exercise(exercise, length - 1);
    expect_all(&counts, &of_counts, refused, "read_exercise of a byte too few");
}

/* A table of two messages: 300 bytes from place 8 on, and 500 behind them. */
static void check_place(void)
{
    static const double second[PLACE_FIELDS] = {0, 308, 808}, refused[PLACE_FIELDS] = {16, 0, 0};
    uint8_t table[808];

    memset(table, 'a', sizeof table);
    write_half(table, 2);
    write_half(table + 2, 8);
    write_half(table + 4, 308);
    write_half(table + 6, 808);

    foldharbor_place place = foldharbor_text(table, sizeof table, table, sizeof table, 1, 1);

    expect_all(&place, &of_place, second, "text");
    place = foldharbor_text(table, sizeof table, table, sizeof table, 2, 2);
    expect_all(&place, &of_place, refused, "text of no such message");
}

static void check_all(void)
{
    check_bytes();
    check_rows();
    check_calls();
    check_why();
    check_refused();
    check_ranges();
    check_counts();
    check_place();
}

static void exchange(struct field *a, struct field *b)
{
    size_t offset = a->offset;

    a->offset = b->offset;
    b->offset = offset;
}

static bool is_noticed(struct field *a, struct field *b)
{
    unsigned checks_before = checks, failures_before = failures;

    exchange(a, b);
    quiet = true;
    check_all();
    quiet = false;
    exchange(a, b);

    bool noticed = failures > failures_before;

    checks = checks_before;
    failures = failures_before;
    return noticed;
}

/* Gives how many pairs of fields there are. */
static unsigned check_pairs(const struct fields *fields)
{
    unsigned pairs = 0;

    for (struct field *a = fields->all; a < fields->all + fields->count; a++)
        for (struct field *b = fields->all; b < a; b++) {
            if (a->size != b->size)
                continue;
            pairs++;
            if (is_noticed(a, b))
                continue;
            failures++;
            printf("%s and %s exchanged: no check fails\n", a->name, b->name);
        }
    return pairs;
}

/*
 * A struct of more than 16 bytes is returned to where a hidden first pointer points (System V ABI). Handed over openly,
 * it tells which bytes the archive writes: all of each field, and none outside of the struct.
 */
void open_into(void *out, foldharbor_card card) __asm__("foldharbor_open");
void card_at_into(void *out, const uint8_t *bytes, size_t length) __asm__("foldharbor_card_at");
void why_into(void *out, foldharbor_desk desk, const uint8_t *journal, size_t length) __asm__("foldharbor_why");

enum { FRONT = 64, ROOM = 256 };

static bool written[ROOM]; /* bytes before, in and behind what is returned */

static void call_open(void *out)
{
    open_into(out, make_card(card_numbers));
}

static void call_card_at(void *out)
{
    static const uint8_t bytes[FOLDHARBOR_CARD_BYTES] = {0};

    card_at_into(out, bytes, sizeof bytes);
}

static void call_why(void *out)
{
    foldharbor_desk desk = rebuild(&drives[0]);

    why_into(out, desk, long_journal, sizeof long_journal);
}

static void note_written(void call(void *out), uint8_t filling)
{
    static _Alignas(64) uint8_t room[ROOM];

    memset(room, filling, ROOM);
    call(room + FRONT);
    for (size_t i = 0; i < ROOM; i++)
        written[i] |= room[i] != filling;
}

static void find_written(void call(void *out))
{
    memset(written, 0, sizeof written);
    note_written(call, 0x5A);
    note_written(call, 0xA5);
}

static void expect_written(size_t start, const struct fields *fields, const char *call)
{
    for (size_t i = 0; i < fields->count; i++)
        for (size_t byte = 0; byte < fields->all[i].size; byte++)
            expect(written[FRONT + start + fields->all[i].offset + byte], true, call, fields->all[i].name);
}

static void expect_none_outside(size_t size, const char *call)
{
    for (size_t i = 0; i < ROOM; i++)
        if (i < FRONT || i >= FRONT + size)
            expect(written[i], false, call, "a byte outside of what is returned");
}

static void check_written(void)
{
    find_written(call_card_at);
    expect_written(0, &of_card, "card_at");
    expect_none_outside(sizeof(foldharbor_card), "card_at");
    find_written(call_why);
    expect_written(0, &of_reasons, "why");
    expect_none_outside(sizeof(foldharbor_reasons), "why");
    find_written(call_open);
    expect_written(offsetof(foldharbor_outcome, desk.card), &of_card, "open");
    expect_written(offsetof(foldharbor_outcome, desk), &of_desk, "open");
    expect_written(offsetof(foldharbor_outcome, answer), &of_answer, "open");
    expect(written[FRONT + offsetof(foldharbor_outcome, refusal)], true, "open", "refusal");
    expect_none_outside(sizeof(foldharbor_outcome), "open");
}

/* Whether a struct is as long as the archive's, and has no fields but those that are known here. */
static void check_size(const struct fields *fields)
{
    size_t sum = fields->padding;

    for (size_t i = 0; i < fields->count; i++)
        sum += fields->all[i].size;
    expect(fields->size, fields->wanted_size, fields->name, "size");
    expect(sum, fields->wanted_size, fields->name, "sum of its fields' sizes");
}

static void print_sizes(void)
{
    printf("bytes: card %zu, sample %zu, answer %zu, codes %zu, curve %zu, signal %zu, prompt %zu, cyclic %zu, ",
           sizeof(foldharbor_card), sizeof(foldharbor_sample), sizeof(foldharbor_answer), sizeof(foldharbor_codes),
           sizeof(foldharbor_curve), sizeof(foldharbor_signal), sizeof(foldharbor_prompt), sizeof(foldharbor_cyclic));
    printf("state %zu, desk %zu, outcome %zu, counts %zu, place %zu, record %zu, reason %zu, reasons %zu\n",
           sizeof(foldharbor_state), sizeof(foldharbor_desk), sizeof(foldharbor_outcome), sizeof(foldharbor_counts),
           sizeof(foldharbor_place), sizeof(foldharbor_record), sizeof(foldharbor_reason), sizeof(foldharbor_reasons));
}

int main(void)
{
    size_t count = 1; /* the refusal of an outcome */
    unsigned pairs = 0;

    print_sizes();
    for (size_t i = 0; i < STRUCTS; i++) {
        check_size(structs[i]);
        count += structs[i]->count;
    }
    expect(sizeof(foldharbor_outcome), OUTCOME_BYTES, "outcome", "size");
    expect(foldharbor_version(), FOLDHARBOR_VERSION, "version", "number");
    check_written();
    if (failures == 0) /* else a call might write over anything */
        check_all();
    for (size_t i = 0; i < STRUCTS && failures == 0; i++)
        pairs += check_pairs(structs[i]);
    printf("%zu fields, %u pairs exchanged and noticed, %u checks, %u failed\n", count, pairs, checks, failures);
    return failures > 0;
}
