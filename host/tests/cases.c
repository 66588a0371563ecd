/* See cases.h. */
#include "cases.h"

#include <string.h>

#include "both.h"
#include "bytes.h"
#include "fields.h"
#include "generate.h"
#include "some.h"

enum { /* by the rules */
       REFUSED_SPEED = 1,
       REFUSED_PRESSURE = 2,
       REFUSED_DESK = 5,
       REFUSED_SHORT = 6,
       REFUSED_FULL = 7,
       REFUSED_RECORD = 9,
       REFUSED_CLOSED = 14,
       REFUSED_OTHER = 23
};

/* A journal full of records in range. */
static void lay_some_journal(struct dice *dice, size_t length)
{
    lay_journal(length, dice_roll(dice, 256));
    for (uint32_t place = 0; place < length / RECORD_BYTES; place++) {
        struct record record = some_record(dice);
        uint8_t bytes[RECORD_BYTES];

        model_write_record(bytes, &record);
        lay_record(place, bytes);
    }
}

static void lay_bad_record(uint32_t place, uint32_t fault)
{
    uint8_t record[RECORD_BYTES];

    memcpy(record, journal_record(place), sizeof record);
    spoil_record(record, fault);
    lay_record(place, record);
}

/* Readings: the first record shows how a float is read. */

static uint32_t compare_speed(struct dice *dice, foldharbor_desk desk, float speed)
{
    foldharbor_sample sample = some_sample(dice);

    sample.speed = speed;
    return both_tick(desk, sample, RECORD_BYTES).refusal;
}

static uint32_t compare_pressure(struct dice *dice, foldharbor_desk desk, float pressure)
{
    foldharbor_sample sample = some_sample(dice);

    sample.pressure = pressure;
    return both_tick(desk, sample, RECORD_BYTES).refusal;
}

/* The float and its neighbours, with either sign. */
static void compare_around(struct dice *dice, foldharbor_desk desk, float number)
{
    const uint32_t sign = 1u << 31;

    for (uint32_t bits = bits_of(number) - 2; bits != bits_of(number) + 3; bits++) {
        compare_speed(dice, desk, float_of(bits));
        compare_speed(dice, desk, float_of(bits ^ sign));
        compare_pressure(dice, desk, float_of(bits));
        compare_pressure(dice, desk, float_of(bits ^ sign));
    }
}

/* What some floats have to be read as: numbers that the rules name, and the last floats before a border. */
static void compare_known_readings(struct dice *dice, foldharbor_desk desk)
{
    struct known {
        float reading;
        uint32_t value;
    };
    const float last_speed = float_of(bits_of(speed_border(MOST_SPEED + 1)) - 1);
    const struct known speeds[] = {{-0.0f, 0}, {0.125f, 5}, {10, 360}, {69.4375f, 2500}, {last_speed, 2500}};
    static const struct known bands[] = {{-0.0f, 0},         {0x1.bffffep1f, 0}, {3.5f, 1},
                                         {0x1.1ffffep2f, 1}, {4.5f, 2},          {10, 2}};

    for (size_t i = 0; i < sizeof speeds / sizeof speeds[0]; i++) {
        compare_speed(dice, desk, speeds[i].reading);
        expect(read_half(journal_record(0)) == speeds[i].value, "this speed has to be read as another number");
    }
    for (size_t i = 0; i < sizeof bands / sizeof bands[0]; i++) {
        compare_pressure(dice, desk, bands[i].reading);
        expect(journal_record(0)[6] == bands[i].value, "this pressure lies in another band");
    }
    expect(compare_speed(dice, desk, 69.5f) == REFUSED_SPEED, "this speed is too high");
    expect(compare_speed(dice, desk, speed_border(MOST_SPEED + 1)) == REFUSED_SPEED, "this speed is too high");
    expect(compare_pressure(dice, desk, 0x1.400002p3f) == REFUSED_PRESSURE, "this pressure is too high");
}

/* Each field of a record in its place. */
static void compare_known_record(foldharbor_desk desk)
{
    static const foldharbor_sample sample = {
        .speed = 10, .pressure = 5, .code = CODE_FORTY, .mode = MODE_ZAV, .lever = 0, .flags = 85, .sense = 1};
    static const uint8_t record[RECORD_BYTES] = {360 % 256, 360 / 256, CODE_FORTY, MODE_ZAV, 0, 85, 2, 1};

    both_tick(desk, sample, RECORD_BYTES);
    expect(memcmp(journal_record(0), record, RECORD_BYTES) == 0, "this sample has to leave another record");
}

static void compare_readings(struct dice *dice)
{
    static const float borders[] = {0, 1, 3.5f, 4.5f, 10, 69.4375f, 69.5f, 128};
    foldharbor_desk desk = both_open(some_card(dice)).desk;

    lay_journal(RECORD_BYTES, UINT8_MAX);
    compare_known_readings(dice, desk);
    compare_known_record(desk);
    for (uint32_t speed = 1; speed <= MOST_SPEED + 1; speed++)
        for (uint32_t i = 0; i < 5; i++)
            compare_speed(dice, desk, float_of(bits_of(speed_border(speed)) - 2 + i));
    for (size_t i = 0; i < sizeof borders / sizeof borders[0]; i++)
        compare_around(dice, desk, borders[i]);
    for (uint32_t exponent = 0; exponent <= UINT8_MAX; exponent++)
        compare_around(dice, desk, float_of(exponent << 23));
    for (uint32_t i = 0; i < 10000; i++) {
        compare_speed(dice, desk, float_of(dice_roll(dice, UINT32_MAX)));
        compare_pressure(dice, desk, float_of(dice_roll(dice, UINT32_MAX)));
    }
}

/* Ranges. */

/* All calls on a desk that is in range or not. The step back leaves few ticks, since many take their time. */
static void compare_judgement(struct dice *dice, foldharbor_desk desk, bool in_range)
{
    uint32_t count = desk.n - (desk.n < 20 ? desk.n : dice_roll(dice, 20));
    foldharbor_outcome outcome = both_tick(desk, some_sample(dice), FOLDHARBOR_JOURNAL_BYTES);

    expect((outcome.refusal != REFUSED_DESK) == in_range, "a tick takes another range");
    outcome = both_step_back(desk, count, FOLDHARBOR_JOURNAL_BYTES);
    expect((outcome.refusal != REFUSED_DESK) == in_range, "a step back takes another range");
    outcome = both_restart(desk);
    expect((outcome.refusal != REFUSED_DESK) == in_range, "a restart takes another range");
    expect((both_why(desk, FOLDHARBOR_JOURNAL_BYTES).refusal != REFUSED_DESK) == in_range, "why takes another range");
}

/* The desk with the field at the ends of its range, next to them, and far out. */
static void compare_field(struct dice *dice, foldharbor_desk desk, const struct field *field)
{
    const uint32_t values[] = {field->least - 1, field->least, field->least + 1, field->most - 1, field->most,
                               field->most + 1,  UINT16_MAX,   UINT16_MAX + 1,   UINT32_MAX,      0};

    for (size_t i = 0; i < sizeof values / sizeof values[0]; i++) {
        set_field(&desk, field, values[i]);

        bool in_range = field_takes(field, get_field(&desk, field));

        compare_judgement(dice, desk, in_range);
        if (field < desk_fields + CARD_FIELDS)
            expect((both_open(desk.card).refusal == 0) == in_range, "an opening takes another range");
    }
}

static void compare_ranges(struct dice *dice)
{
    lay_some_journal(dice, FOLDHARBOR_JOURNAL_BYTES);
    for (uint32_t times = 0; times < 12; times++) {
        foldharbor_desk desk = some_desk(dice, FOLDHARBOR_MOST_TICKS);

        if (times == 0)
            desk = both_open(desk.card).desk;
        for (const struct field *field = desk_fields; field < desk_fields + DESK_FIELDS; field++)
            compare_field(dice, desk, field);
    }
}

/* Several faults at once: the first in the order of the rules is what is refused. */

static uint32_t first_of(const uint8_t *order, uint32_t faults)
{
    if (faults == 0)
        return 0;
    for (; !(faults & 1); faults >>= 1)
        order++;
    return *order;
}

static void compare_faults_of_tick(struct dice *dice, uint32_t faults)
{
    enum { DESK = 1 << 0, SHORT = 1 << 1, FULL_UP = 1 << 2, SPEED = 1 << 3, PRESSURE = 1 << 4, SWITCH = 1 << 5 };
    static const uint8_t order[] = {5, 6, 7, 1, 2, 3};
    foldharbor_desk desk = some_desk(dice, 20);
    foldharbor_sample sample = some_sample(dice);

    desk.n++;

    size_t used = (size_t)RECORD_BYTES * desk.n;
    size_t length = used + RECORD_BYTES + dice_roll(dice, 2 * RECORD_BYTES);

    if (faults & FULL_UP)
        length = used + dice_roll(dice, RECORD_BYTES);
    if (faults & SHORT)
        length = dice_roll(dice, used);
    if (faults & DESK)
        desk = bent_desk(dice, desk);
    if (faults & SPEED)
        spoil_speed(dice, &sample);
    if (faults & PRESSURE)
        spoil_pressure(dice, &sample);
    if (faults & SWITCH)
        spoil_switch(dice, &sample);
    expect(both_tick(desk, sample, length).refusal == first_of(order, faults), "another fault of the tick comes first");
}

static void compare_faults_of_step_back(struct dice *dice, uint32_t faults)
{
    enum { DESK = 1 << 0, SHORT = 1 << 1, TOO_FAR = 1 << 2, RECORD = 1 << 3 };
    static const uint8_t order[] = {5, 6, 8, 9};
    foldharbor_desk desk = some_desk(dice, 20);

    desk.n++;

    size_t length = (size_t)RECORD_BYTES * desk.n + dice_roll(dice, 2 * RECORD_BYTES);
    uint32_t count = dice_roll(dice, desk.n);
    uint32_t place = dice_roll(dice, desk.n - count);

    if (faults & RECORD)
        lay_bad_record(place, dice_roll(dice, RECORD_FAULTS));
    if (faults & TOO_FAR)
        count = some_count_above(dice, desk.n);
    if (faults & SHORT)
        length = dice_roll(dice, RECORD_BYTES * desk.n);
    if (faults & DESK)
        desk = bent_desk(dice, desk);
    expect(both_step_back(desk, count, length).refusal == first_of(order, faults),
           "another fault of the step back comes first");
}

/* The desk of some card that the first n records of the journal rebuild. */
static foldharbor_desk rebuilt_desk(struct dice *dice, uint32_t n)
{
    foldharbor_desk desk = some_desk(dice, 0);

    desk.n = n;
    return both_step_back(desk, 0, RECORD_BYTES * n).desk;
}

/* A train that stands: in POS it triggers nothing, in PRE with remote stop NZ4. */
static void lay_standing_record(struct dice *dice, uint32_t place, bool remote_stop)
{
    struct record record = some_record(dice);
    uint8_t bytes[RECORD_BYTES];

    record.speed = 0;
    record.mode = remote_stop ? MODE_PRE : MODE_POS;
    if (remote_stop)
        record.flags |= FLAG_REMOTE_STOP;
    model_write_record(bytes, &record);
    lay_record(place, bytes);
}

/* A desk with a closed valve is another one than the journal's where that has NZ4. */
static void compare_faults_of_why(struct dice *dice, uint32_t faults)
{
    enum { DESK = 1 << 0, SHORT = 1 << 1, RECORD = 1 << 2, OTHER = 1 << 3, CLOSED = 1 << 4 };
    static const uint8_t order[] = {5, 6, 9, 23, 14};
    const bool closed_by_journal = (faults & (OTHER | CLOSED)) == CLOSED;
    const uint32_t n = dice_between(dice, 1, 20);
    size_t length = (size_t)RECORD_BYTES * n + dice_roll(dice, 2 * RECORD_BYTES);

    for (uint32_t place = closed_by_journal ? 0 : n - 1; place < n; place++)
        lay_standing_record(dice, place, !closed_by_journal);
    lay_bad_record(n, dice_roll(dice, RECORD_FAULTS)); /* behind the last one it does not matter */

    foldharbor_desk desk = rebuilt_desk(dice, n);

    if (faults & RECORD)
        lay_bad_record(dice_roll(dice, n), dice_roll(dice, RECORD_FAULTS));
    if (faults & OTHER)
        desk = changed_desk(dice, desk);
    if (faults & CLOSED)
        desk.state.causes = 0;
    if (faults & SHORT)
        length = dice_roll(dice, RECORD_BYTES * n);
    if (faults & DESK)
        desk = bent_desk(dice, desk);
    expect(both_why(desk, length).refusal == first_of(order, faults), "another fault comes first where why is asked");
}

static void compare_faults(struct dice *dice)
{
    for (uint32_t times = 0; times < 40; times++) {
        for (uint32_t faults = 0; faults < 1 << 6; faults++) {
            lay_some_journal(dice, 25 * RECORD_BYTES);
            compare_faults_of_tick(dice, faults);
        }
        for (uint32_t faults = 0; faults < 1 << 4; faults++) {
            lay_some_journal(dice, 25 * RECORD_BYTES);
            compare_faults_of_step_back(dice, faults);
        }
        for (uint32_t faults = 0; faults < 1 << 5; faults++) {
            lay_some_journal(dice, 25 * RECORD_BYTES);
            compare_faults_of_why(dice, faults);
        }
    }
}

/*
 * All causes at once, which drives hardly come to: in VYL, without a press, a stand for the card's wait, and then too
 * fast by any tolerance and in no direction for a whole cycle. Remote stop is any time.
 */
static void compare_five_causes(struct dice *dice)
{
    foldharbor_desk desk = both_open(some_card(dice)).desk;
    const uint32_t stand = desk.card.wait, ticks = stand + 1 + desk.card.cycle;

    lay_journal(RECORD_BYTES * ticks, 0);
    for (uint32_t place = 0; place < ticks; place++) {
        struct record record = some_record(dice);
        uint8_t bytes[RECORD_BYTES];

        record.speed = place < stand ? 0 : dice_between(dice, VYL_CEILING + 101, MOST_SPEED);
        record.mode = MODE_VYL;
        record.flags &= ~(FLAG_VIGILANCE | FLAG_DIRECT_BRAKE);
        record.band = BRAKES_RELEASED;
        record.sense = 0;
        model_write_record(bytes, &record);
        lay_record(place, bytes);
    }
    desk.n = ticks;
    desk = both_step_back(desk, 0, RECORD_BYTES * ticks).desk;

    foldharbor_reasons why = both_why(desk, RECORD_BYTES * ticks);

    expect(why.of_cause[4].tick == stand, "NZ5 begins elsewhere");
    expect(why.of_cause[1].tick == stand + 1, "NZ2 begins elsewhere");
    expect(why.of_cause[2].tick == stand + 2 || why.of_cause[2].tick == stand + 3, "NZ3 begins elsewhere");
    expect(why.of_cause[0].tick == ticks, "NZ1 begins elsewhere");
}

/*
 * One field with another number: in the state it makes another desk than the journal's. With another card or n the
 * journal may rebuild just that desk.
 */
static void compare_other_desk(foldharbor_desk desk, const struct field *field, uint32_t value, size_t length)
{
    const uint32_t own = get_field(&desk, field);

    set_field(&desk, field, value);
    value = get_field(&desk, field);

    uint32_t refusal = both_why(desk, length).refusal;

    if (!field_takes(field, value))
        expect(refusal == REFUSED_DESK, "why is told of a desk out of range");
    else if (length < (size_t)RECORD_BYTES * desk.n)
        expect(refusal == REFUSED_SHORT, "why is told of a journal that is too short");
    else if (field >= desk_fields + FIRST_STATE_FIELD && value != own)
        expect(refusal == REFUSED_OTHER, "why is told of another desk");
}

static void compare_other_desks(struct dice *dice)
{
    enum { TICKS = 30, LENGTH = TICKS * RECORD_BYTES };

    for (uint32_t times = 0; times < 40; times++) {
        lay_some_journal(dice, LENGTH);

        foldharbor_desk desk = rebuilt_desk(dice, dice_roll(dice, TICKS + 1));

        for (const struct field *field = desk_fields; field < desk_fields + DESK_FIELDS; field++) {
            const uint32_t own = get_field(&desk, field);
            const uint32_t values[] = {own - 1,      own,         own + 1,         own ^ 1u << 16, field->least - 1,
                                       field->least, field->most, field->most + 1, UINT16_MAX,     0};

            for (size_t i = 0; i < sizeof values / sizeof values[0]; i++)
                compare_other_desk(desk, field, values[i], LENGTH);
        }
    }
}

/*
 * Curves. What has to come of them is worked out by hand: with V0 the curve's start, E what is driven and r the card's
 * deceleration, a curve's value is the largest w with 5 * w * w <= 5 * V0 * V0 - r * E, or the target T.
 */

/* But for the set speed no limit of the card is in the way of a curve up to 1600. */
static foldharbor_card curve_card(uint16_t set, uint16_t tolerance, uint16_t stop, uint16_t deceleration)
{
    return (foldharbor_card){
        .design = MOST_SPEED,
        .set = set,
        .highest = MOST_SPEED,
        .pos = MOST_SPEED,
        .zav = MOST_SPEED,
        .tolerance = tolerance,
        .stop = stop,
        .deceleration = deceleration,
        .cycle = 600,
        .wait = 1000,
    };
}

/* A tick in PRE, with cab and lever as they should be. */
static foldharbor_outcome curve_tick(foldharbor_desk desk, uint8_t code, uint32_t speed, size_t length)
{
    foldharbor_sample sample = {
        .speed = (float)speed / 36,
        .pressure = 5,
        .code = code,
        .mode = MODE_PRE,
        .lever = 1,
        .flags = FLAG_CAB_ON,
        .sense = 1,
    };

    return both_tick(desk, sample, length);
}

static foldharbor_desk desk_on_curve(foldharbor_card card, uint8_t code, uint16_t start, uint32_t driven)
{
    foldharbor_desk desk = both_open(card).desk;

    desk.state.mode = MODE_PRE;
    desk.state.signal.codes.last = code;
    desk.state.signal.curve = (foldharbor_curve){.start = start, .driven = driven};
    return desk;
}

/* A tick of an older curve: its value, or the end of the curve, which is at T then. */
static void compare_values(void)
{
    static const struct {
        uint16_t deceleration, stop, start;
        uint8_t code;
        uint32_t driven, speed, wanted_driven, wanted_permitted;
        bool ends;
        const char *otherwise;
    } ticks[] = {
        {18, 0, 1600, CODE_WARNING, 310443, 1, 310444, 1201, false, "Clear to Warning is not 1201 at 310,444"},
        {18, 0, 1600, CODE_WARNING, 310444, 1, 0, 1200, true, "Clear to Warning does not end at 310,445"},
        {18, 0, 1600, CODE_STOP, 65535, 1, 65536, 1524, false, "Clear to Stop is not 1524 at 65,536"},
        {18, 0, 1600, CODE_STOP, 711109, 1, 711110, 2, false, "Clear to Stop is not 2 at 711,110"},
        {18, 0, 1600, CODE_STOP, 711110, 1, 0, 0, true, "Clear to Stop does not end at 711,111"},
        /* 1600 * 1600 - 1560000 is 1000 * 1000 */
        {5, 0, 1600, CODE_STOP, 1559000, 1000, 1560000, 1000, false, "a curve at a square is below it"},
        {5, 0, 1600, CODE_STOP, 1559001, 1000, 1560001, 999, false, "a curve just below a square is at it"},
        /* 1600 * 1600 - 2399199 is 401 * 401, and 1201 * 1201 - 8 * 160200 is too */
        {5, 400, 1600, CODE_STOP, 2399199, 0, 2399199, 401, false, "a curve ends above its target"},
        {5, 400, 1600, CODE_STOP, 2399199, 1, 0, 400, true, "a curve goes on at its target"},
        {40, 400, 1201, CODE_STOP, 160100, 100, 160200, 401, false, "a curve ends above its target"},
        {40, 400, 1201, CODE_STOP, 160101, 100, 0, 400, true, "a curve goes on at its target"},
        /* what is driven goes beyond its range inside of the tick, and the curve ends */
        {5, 0, 2500, CODE_STOP, 6249999, 0, 6249999, 1, false, "the longest curve ends early"},
        {5, 0, 2500, CODE_STOP, 6249998, 1, 6249999, 1, false, "the longest curve ends early"},
        {5, 0, 2500, CODE_STOP, 6249999, 1, 0, 0, true, "the longest curve goes on"},
        {5, 0, 2500, CODE_STOP, 6250000, 0, 0, 0, true, "a curve goes on at the end of its range"},
        {5, 0, 2500, CODE_STOP, 6250000, 2500, 0, 0, true, "a curve goes on beyond the end of its range"},
        {40, 0, 2500, CODE_STOP, 6250000, 2500, 0, 0, true, "a curve goes on beyond the end of its range"},
        {40, 0, 1, CODE_STOP, 6250000, 2500, 0, 0, true, "a curve goes on far behind its end"},
        {5, 0, 1, CODE_STOP, 0, 0, 0, 1, false, "the lowest curve ends early"},
        {5, 0, 1, CODE_STOP, 0, 1, 0, 0, true, "the lowest curve goes on"},
        /* T above V0, at it and just below it */
        {5, 0, 1000, CODE_WARNING, 0, 0, 0, 1200, true, "a curve goes on below its target"},
        {40, 0, 1, CODE_CLEAR, 6250000, 2500, 0, 1600, true, "a curve goes on below its target"},
        {5, 0, 1200, CODE_WARNING, 0, 0, 0, 1200, true, "a curve goes on at its target"},
        {5, 0, 1201, CODE_WARNING, 0, 0, 0, 1201, false, "a curve ends above its target"},
        {5, 0, 1201, CODE_WARNING, 0, 1, 0, 1200, true, "a curve goes on at its target"},
    };

    for (size_t i = 0; i < sizeof ticks / sizeof ticks[0]; i++) {
        foldharbor_card card = curve_card(MOST_SPEED, 0, ticks[i].stop, ticks[i].deceleration);
        foldharbor_desk desk = desk_on_curve(card, ticks[i].code, ticks[i].start, ticks[i].driven);
        foldharbor_outcome outcome = curve_tick(desk, ticks[i].code, ticks[i].speed, RECORD_BYTES);
        const foldharbor_curve *curve = &outcome.desk.state.signal.curve;

        expect(curve->start == (ticks[i].ends ? 0 : ticks[i].start) && curve->driven == ticks[i].wanted_driven &&
                   outcome.answer.permitted == ticks[i].wanted_permitted,
               ticks[i].otherwise);
    }
}

/* A new code goes by the old curve without this tick's speed: 1600 * 1600 - 1560000 is 1000 * 1000. */
static void compare_old_value(void)
{
    foldharbor_desk desk = desk_on_curve(curve_card(MOST_SPEED, 0, 0, 5), CODE_FORTY, 1600, 1560000);
    foldharbor_curve curve = curve_tick(desk, CODE_STOP, MOST_SPEED, RECORD_BYTES).desk.state.signal.curve;

    expect(curve.start == 1000 && curve.driven == 0, "a curve follows another from elsewhere");
    desk.state.signal.curve.driven++;
    curve = curve_tick(desk, CODE_STOP, MOST_SPEED, RECORD_BYTES).desk.state.signal.curve;
    expect(curve.start == 999 && curve.driven == 0, "a curve follows another from elsewhere");
}

/* The prompt of kind 1: at the first of the two distances no more than the tolerance too fast, at the next more. */
static void compare_nearing(void)
{
    static const struct {
        uint16_t set, tolerance, deceleration;
        uint32_t speed, not_yet;
    } trains[] = {
        {1400, 30, 18, 1200, 210861},
        {1400, 30, 18, 1400, 49750},
        /* 2560000 - 1460000 - 100 * 1000 is 1000 * 1000, and so is 2560000 - 1410000 - 150 * 1000 */
        {1001, 0, 5, 1000, 1460000},
        {1000, 0, 5, 1000, 1410000},
    };

    for (size_t i = 0; i < sizeof trains / sizeof trains[0]; i++) {
        foldharbor_card card = curve_card(trains[i].set, trains[i].tolerance, 0, trains[i].deceleration);

        for (uint32_t more = 0; more <= 1; more++) {
            foldharbor_desk desk = desk_on_curve(card, CODE_STOP, 1600, trains[i].not_yet + more - trains[i].speed);
            foldharbor_state state = curve_tick(desk, CODE_STOP, trains[i].speed, RECORD_BYTES).desk.state;

            expect(state.signal.curve.driven == trains[i].not_yet + more && state.signal.curve.prompted == more &&
                       state.prompt.ticks == more && state.prompt.kind == more,
                   "a train nears a curve elsewhere");
        }
    }
}

/* The prompt of a curve's start: up to this speed the curve is out of reach for long. */
static void compare_starts(void)
{
    static const struct {
        uint16_t set;
        uint32_t speed;
    } trains[] = {
        {1001, 1503}, /* 1503 * (1503 + 199) is 2558106 and below 2560000, 1504 * (1504 + 199) is 2561312 */
        {1000, 1480}, /* 1480 * (1480 + 249) is 2558920, 1481 * (1481 + 249) is 2562130 */
    };

    for (size_t i = 0; i < sizeof trains / sizeof trains[0]; i++) {
        foldharbor_desk desk = desk_on_curve(curve_card(trains[i].set, 0, 0, 5), CODE_CLEAR, 0, 0);

        for (uint32_t more = 0; more <= 1; more++) {
            foldharbor_state state = curve_tick(desk, CODE_STOP, trains[i].speed + more, RECORD_BYTES).desk.state;

            expect(state.signal.curve.start == 1600 && state.signal.curve.driven == 0 &&
                       state.prompt.ticks == 1 - more && state.prompt.kind == 0,
                   "the start of a curve is prompted at other speeds");
        }
    }
}

/* A stand of some minutes leaves a curve as it is; then it falls by what is driven, and a step back takes that away. */
static void compare_stand_on_curve(struct dice *dice)
{
    enum { STAND = 3000, MOVED = 10, SPEED = 120, TICKS = 2 + STAND + MOVED };
    foldharbor_outcome outcome = both_open(some_card(dice));

    lay_journal(RECORD_BYTES * TICKS, 0);
    outcome = curve_tick(outcome.desk, CODE_CLEAR, 0, RECORD_BYTES * TICKS);
    outcome = curve_tick(outcome.desk, CODE_STOP, 0, RECORD_BYTES * TICKS);

    const uint16_t permitted = outcome.answer.permitted;

    for (uint32_t ticks = STAND; ticks > 0; ticks--) {
        outcome = curve_tick(outcome.desk, CODE_STOP, 0, RECORD_BYTES * TICKS);
        expect(outcome.desk.state.signal.curve.start == 1600 && outcome.desk.state.signal.curve.driven == 0 &&
                   outcome.answer.permitted == permitted,
               "a curve falls while the train stands");
    }
    for (uint32_t ticks = MOVED; ticks > 0; ticks--)
        outcome = curve_tick(outcome.desk, CODE_STOP, SPEED, RECORD_BYTES * TICKS);
    expect(outcome.desk.state.signal.curve.driven == MOVED * SPEED, "a curve goes by another distance");
    outcome = both_step_back(outcome.desk, MOVED, RECORD_BYTES * TICKS);
    expect(outcome.desk.state.signal.curve.driven == 0 && outcome.answer.permitted == permitted,
           "a step back leaves what was driven");
}

static void compare_curves(struct dice *dice)
{
    lay_journal(RECORD_BYTES, 0);
    compare_values();
    compare_old_value();
    compare_nearing();
    compare_starts();

    foldharbor_desk desk = desk_on_curve(curve_card(MOST_SPEED, 0, 0, 5), CODE_STOP, 2500, 6250001);

    expect(curve_tick(desk, CODE_STOP, 0, RECORD_BYTES).refusal == REFUSED_DESK, "too much is driven on a curve");
    for (uint32_t times = 0; times < 4; times++)
        compare_stand_on_curve(dice);
}

/* Journals of all lengths. */

/* A tick of a good sample on a desk that is in range but for its n. */
static void compare_tick_at(struct dice *dice, foldharbor_desk desk, size_t length)
{
    uint32_t wanted = 0;

    if (desk.n > FOLDHARBOR_MOST_TICKS)
        wanted = REFUSED_DESK;
    else if (length < (size_t)RECORD_BYTES * desk.n)
        wanted = REFUSED_SHORT;
    else if (length < RECORD_BYTES * (desk.n + 1u) || desk.n == FOLDHARBOR_MOST_TICKS)
        wanted = REFUSED_FULL;
    expect(both_tick(desk, some_sample(dice), length).refusal == wanted, "a journal is judged in another way");
}

static void compare_steps_back(foldharbor_desk desk, size_t length)
{
    const uint32_t n = desk.n;
    const uint32_t counts[] = {0,         1,       n / 2,          n,          n + 1,    n + 2,
                               UINT8_MAX, 1u << 8, (1u << 16) + n, UINT32_MAX, 1u << 31, UINT32_MAX - n};

    for (size_t i = 0; i < sizeof counts / sizeof counts[0]; i++)
        both_step_back(desk, counts[i], length);
    both_why(desk, length);
    both_why(both_step_back(desk, 0, length).desk, length);
}

static void compare_short_journals(struct dice *dice)
{
    for (size_t length = 0; length <= 6 * RECORD_BYTES; length++) {
        lay_some_journal(dice, length);
        for (uint32_t n = 0; n <= length / RECORD_BYTES + 2; n++) {
            foldharbor_desk desk = some_desk(dice, 0);

            desk.n = n;
            compare_steps_back(desk, length);
            compare_tick_at(dice, desk, length);
        }
    }
}

/* Steps back that leave all ticks, or all but a few, are for the journal that is just long enough. */
static void compare_long_journal(struct dice *dice, size_t length)
{
    lay_some_journal(dice, length);
    for (uint32_t n = FOLDHARBOR_MOST_TICKS - 2; n <= FOLDHARBOR_MOST_TICKS + 1; n++) {
        foldharbor_desk desk = some_desk(dice, 0);

        desk.n = n;
        compare_tick_at(dice, desk, length);
        both_step_back(desk, n - dice_roll(dice, 50), length);
        both_step_back(desk, n + 1, length);
        if (length / RECORD_BYTES == FOLDHARBOR_MOST_TICKS)
            both_why(both_step_back(desk, dice_roll(dice, 3), length).desk, length);
    }
}

static void compare_long_journals(struct dice *dice)
{
    static const size_t longer[] = {(1 << 16) - 1, 1 << 16, (1 << 16) + 1, (1 << 16) + FOLDHARBOR_JOURNAL_BYTES,
                                    LONGEST_JOURNAL};

    for (size_t length = FOLDHARBOR_JOURNAL_BYTES - 2 * RECORD_BYTES;
         length <= FOLDHARBOR_JOURNAL_BYTES + 2 * RECORD_BYTES; length++)
        compare_long_journal(dice, length);
    for (size_t i = 0; i < sizeof longer / sizeof longer[0]; i++)
        compare_long_journal(dice, longer[i]);
}

/* A record out of range in each place: it is refused among the survivors, and does not matter behind them. */
static void compare_bad_records(struct dice *dice)
{
    enum { TICKS = 9 };
    foldharbor_desk desk = some_desk(dice, 0);

    desk.n = TICKS;
    for (uint32_t fault = 0; fault < RECORD_FAULTS; fault++) {
        for (uint32_t place = 0; place < TICKS; place++) {
            lay_some_journal(dice, TICKS * RECORD_BYTES);
            lay_bad_record(place, fault);
            for (uint32_t left = 0; left <= TICKS; left++) {
                foldharbor_outcome outcome = both_step_back(desk, TICKS - left, TICKS * RECORD_BYTES);
                uint32_t refusal = both_why(outcome.desk, TICKS * RECORD_BYTES).refusal;
                uint32_t wanted = outcome.desk.state.causes == 0 ? REFUSED_CLOSED : 0;

                expect(outcome.refusal == (place < left ? REFUSED_RECORD : 0), "a bad record counts elsewhere");
                /* a refused step back gives back the desk with all its ticks */
                expect(refusal == (place < left ? REFUSED_RECORD : wanted), "a bad record counts elsewhere for why");
            }
        }
    }
}

/* The same in a journal that is full: the first record, one in the middle, and the last that is left or is not. */
static void compare_bad_records_of_long_drive(struct dice *dice)
{
    static const uint32_t places[] = {0, FOLDHARBOR_MOST_TICKS / 2, FOLDHARBOR_MOST_TICKS - 2,
                                      FOLDHARBOR_MOST_TICKS - 1};
    foldharbor_desk desk = some_desk(dice, 0);

    desk.n = FOLDHARBOR_MOST_TICKS;
    for (size_t i = 0; i < sizeof places / sizeof places[0]; i++) {
        lay_some_journal(dice, FOLDHARBOR_JOURNAL_BYTES);
        lay_bad_record(places[i], dice_roll(dice, RECORD_FAULTS));
        both_step_back(desk, 0, FOLDHARBOR_JOURNAL_BYTES);
        both_step_back(desk, 1, FOLDHARBOR_JOURNAL_BYTES);
        expect(both_why(desk, FOLDHARBOR_JOURNAL_BYTES).refusal == REFUSED_RECORD, "a bad record is taken");
    }
}

/* Desks that no drive reaches. */

static void compare_unreached(struct dice *dice, size_t length)
{
    foldharbor_desk desk = some_desk(dice, dice_once_in(dice, 20) ? FOLDHARBOR_MOST_TICKS : length / RECORD_BYTES);
    struct desk seen = model_of_desk(&desk);
    struct driver driver = generate_driver(dice, &seen.card);

    driver.state = seen.state;
    driver.record = some_record(dice);
    driver.phase = dice_roll(dice, PHASES);
    driver.aimed = true; /* so that the driver is quick to press */
    if (dice_once_in(dice, 2))
        driver.record.code = seen.state.signal.last_code;
    for (uint32_t ticks = generate_run(&driver, 2, 4); ticks > 0; ticks--)
        desk = both_tick(desk, sample_of(dice, &driver.record), length).desk;
    if (dice_once_in(dice, 4))
        both_step_back(desk, some_count(dice, desk.n), length);
    if (dice_once_in(dice, 8))
        both_restart(desk);
    if (dice_once_in(dice, 4))
        both_why(desk, length);
}

/* Bytes of any kind in a part of a desk, or in all of it. */
static void compare_any_bytes(struct dice *dice, size_t length)
{
    foldharbor_desk desk = some_desk(dice, length / RECORD_BYTES);
    foldharbor_sample sample = some_sample(dice);

    switch (dice_roll(dice, 4)) {
    case 0:
        some_bytes(dice, &desk.card, sizeof desk.card);
        break;
    case 1:
        some_bytes(dice, &desk.state, sizeof desk.state);
        break;
    default:
        some_bytes(dice, &desk, sizeof desk);
        break;
    }
    if (dice_once_in(dice, 2))
        some_bytes(dice, &sample, sizeof sample);
    both_open(desk.card);
    both_tick(desk, sample, length);
    both_step_back(desk, dice_once_in(dice, 2) ? dice_roll(dice, UINT32_MAX) : some_count(dice, desk.n), length);
    both_restart(desk);
    both_why(desk, length);
}

static void compare_desks(struct dice *dice)
{
    enum { PLACES = 40, JOURNALS = 1000, UNREACHED = 120, ANY = 20 };

    for (uint32_t journals = 0; journals < JOURNALS; journals++) {
        size_t length = dice_roll(dice, PLACES * RECORD_BYTES);

        lay_some_journal(dice, length);
        for (uint32_t desks = 0; desks < UNREACHED; desks++)
            compare_unreached(dice, length);
        for (uint32_t desks = 0; desks < ANY; desks++)
            compare_any_bytes(dice, length);
    }
}

void compare_cases(struct dice *dice)
{
    compare_readings(dice);
    compare_ranges(dice);
    compare_faults(dice);
    compare_other_desks(dice);
    for (uint32_t times = 0; times < 40; times++)
        compare_five_causes(dice);
    compare_curves(dice);
    compare_short_journals(dice);
    compare_long_journals(dice);
    compare_bad_records(dice);
    compare_bad_records_of_long_drive(dice);
    compare_desks(dice);
}
