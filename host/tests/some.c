/* See some.h. */
#include "some.h"

#include <string.h>

#include "bytes.h"
#include "fields.h"
#include "generate.h"

enum { NEIGHBOURS = 2 }; /* on either side of a border */

static const uint32_t sign = 0x80000000;
static const uint32_t infinity = 0x7F800000;
static const uint32_t first_normal = 0x00800000;

float float_of(uint32_t bits)
{
    float number;

    memcpy(&number, &bits, sizeof number);
    return number;
}

uint32_t bits_of(float number)
{
    uint32_t bits;

    memcpy(&bits, &number, sizeof bits);
    return bits;
}

float speed_border(uint32_t speed)
{
    return (float)(2 * speed - 1) / 72;
}

/* Floats are in the order of their bits, minus signs apart, so this is one of those in between. */
static float float_between(struct dice *dice, float least, float most)
{
    return float_of(dice_between_or_end(dice, bits_of(least), bits_of(most)));
}

static float float_before(float number)
{
    return float_of(bits_of(number) - 1);
}

static float float_behind(float number)
{
    return float_of(bits_of(number) + 1);
}

static float minus(float number)
{
    return float_of(bits_of(number) | sign);
}

static float some_zero(struct dice *dice)
{
    return float_of(dice_once_in(dice, 2) ? sign : 0);
}

static float some_nan(struct dice *dice)
{
    uint32_t payload = dice_between_or_end(dice, 1, first_normal - 1);

    return float_of((dice_once_in(dice, 2) ? sign : 0) | infinity | payload);
}

static float some_speed(struct dice *dice, uint32_t speed)
{
    if (!dice_once_in(dice, 4))
        return (float)speed / 36;
    if (speed > 0)
        return float_of(bits_of(speed_border(speed)) - NEIGHBOURS + dice_roll(dice, 2 * NEIGHBOURS + 1));
    return dice_once_in(dice, 2) ? some_zero(dice) : float_between(dice, 0, float_before(speed_border(1)));
}

static float some_pressure(struct dice *dice, uint32_t band)
{
    switch (band) {
    case 0:
        return dice_once_in(dice, 8) ? some_zero(dice) : float_between(dice, 0, float_before(3.5f));
    case 1:
        return float_between(dice, 3.5f, float_before(4.5f));
    default:
        return float_between(dice, 4.5f, 10);
    }
}

foldharbor_sample sample_of(struct dice *dice, const struct record *record)
{
    float speed = some_speed(dice, record->speed);
    float pressure = some_pressure(dice, record->band);

    return (foldharbor_sample){
        .speed = speed,
        .pressure = pressure,
        .code = record->code,
        .mode = record->mode,
        .lever = record->lever,
        .flags = record->flags,
        .sense = record->sense,
    };
}

/* A float that neither a speed nor a pressure may be: no number, infinite, or below zero. */
static float some_bad_float(struct dice *dice)
{
    switch (dice_roll(dice, 4)) {
    case 0:
        return some_nan(dice);
    case 1:
        return float_of(dice_once_in(dice, 2) ? infinity : sign | infinity);
    case 2:
        return minus(float_of(dice_between_or_end(dice, 1, first_normal)));
    default:
        return minus(float_of(dice_between_or_end(dice, 1, infinity)));
    }
}

void spoil_speed(struct dice *dice, foldharbor_sample *sample)
{
    float border = speed_border(MOST_SPEED + 1);

    switch (dice_roll(dice, 3)) {
    case 0:
        sample->speed = float_between(dice, border, float_of(infinity - 1));
        break;
    case 1:
        sample->speed = float_between(dice, border, 70);
        break;
    default:
        sample->speed = some_bad_float(dice);
        break;
    }
}

void spoil_pressure(struct dice *dice, foldharbor_sample *sample)
{
    switch (dice_roll(dice, 3)) {
    case 0:
        sample->pressure = float_between(dice, float_behind(10), float_of(infinity - 1));
        break;
    case 1:
        sample->pressure = float_between(dice, float_behind(10), 11);
        break;
    default:
        sample->pressure = some_bad_float(dice);
        break;
    }
}

void spoil_switch(struct dice *dice, foldharbor_sample *sample)
{
    switch (dice_roll(dice, 6)) {
    case 0:
        sample->code = dice_between_or_end(dice, CODE_CLEAR + 1, UINT8_MAX);
        break;
    case 1:
        sample->mode = dice_between_or_end(dice, MODE_ZAV + 1, UINT8_MAX);
        break;
    case 2:
        sample->mode = 0;
        break;
    case 3:
        sample->lever = dice_between_or_end(dice, 3, UINT8_MAX);
        break;
    case 4:
        sample->flags = dice_between_or_end(dice, 128, UINT8_MAX);
        break;
    default:
        sample->sense = dice_between_or_end(dice, 3, UINT8_MAX);
        break;
    }
}

void spoil_record(uint8_t *record, uint32_t fault)
{
    static const struct {
        uint32_t place, value;
    } faults[RECORD_FAULTS] = {
        {0, MOST_SPEED + 1}, {0, UINT16_MAX}, {2, CODE_CLEAR + 1}, {2, UINT8_MAX}, {3, MODE_POS - 1}, {3, MODE_ZAV + 1},
        {3, UINT8_MAX},      {4, 3},          {4, UINT8_MAX},      {5, 128},       {5, UINT8_MAX},    {6, 3},
        {6, UINT8_MAX},      {7, 3},          {7, UINT8_MAX},
    };

    if (faults[fault].place == 0)
        write_half(record, faults[fault].value);
    else
        record[faults[fault].place] = faults[fault].value;
}

struct record some_record(struct dice *dice)
{
    struct record record;

    record.speed = dice_once_in(dice, 3) ? 0 : dice_between_or_end(dice, 0, MOST_SPEED);
    record.code = dice_roll(dice, CODE_CLEAR + 1);
    record.mode = dice_between(dice, MODE_POS, MODE_ZAV);
    record.lever = dice_roll(dice, 3);
    record.flags = dice_roll(dice, 128);
    record.band = dice_roll(dice, 3);
    record.sense = dice_roll(dice, 3);
    return record;
}

foldharbor_sample some_sample(struct dice *dice)
{
    struct record record = some_record(dice);

    return sample_of(dice, &record);
}

foldharbor_card some_card(struct dice *dice)
{
    struct card card = generate_card(dice);

    return card_of_model(&card);
}

/* What the field takes: its least, next to an end or to a number of the rules, an end, or any. */
static uint32_t some_value(struct dice *dice, const struct field *field)
{
    static const uint32_t numbers[] = {35,  50,   85,   100,  120,  150,  250,  360,  565,
                                       900, 1000, 1200, 1400, 1600, 2500, 3600, 65536};
    uint32_t value;

    switch (dice_roll(dice, 8)) {
    case 0:
    case 1:
        value = field->least;
        break;
    case 2:
        value = dice_once_in(dice, 2) ? field->least + 1 : field->most - 1;
        break;
    case 3:
        value = numbers[dice_roll(dice, sizeof numbers / sizeof numbers[0])] - 1 + dice_roll(dice, 3);
        break;
    default:
        value = dice_between_or_end(dice, field->least, field->most);
        break;
    }
    if (field_takes(field, value))
        return value;
    return dice_once_in(dice, 2) ? field->least : field->most;
}

static uint32_t some_low_value(struct dice *dice, const struct field *field)
{
    uint32_t value = field->least + dice_roll(dice, 2);

    return field_takes(field, value) ? value : field->least;
}

/* Puts a curve to where it is above the target of some code, mostly to where one more tick may bring it to its end. */
static void put_curve_near_end(struct dice *dice, foldharbor_desk *desk)
{
    const struct desk seen = model_of_desk(desk);
    const struct signal *signal = &seen.state.signal;
    const uint32_t targets[] = {0, seen.card.stop_target, TARGET_FORTY + TARGET_STEP * signal->raise, TARGET_CAUTIOUS};
    uint32_t target = targets[dice_roll(dice, sizeof targets / sizeof targets[0])];
    uint32_t end = end_of_curve(&seen.card, signal->curve_start, target);
    uint32_t most = end > MOST_SPEED && !dice_once_in(dice, 4) ? MOST_SPEED : end;

    desk->state.signal.curve.driven = end - dice_roll(dice, most + 1);
}

/* Puts a count next to where the next tick may bring it to a border. */
static void put_count_near_border(struct dice *dice, foldharbor_desk *desk)
{
    foldharbor_state *state = &desk->state;
    uint32_t before = dice_roll(dice, 3);

    switch (dice_roll(dice, 12)) {
    case 0:
        state->cyclic.kind = VIGILANCE_INCREASED;
        state->cyclic.ticks = INCREASED_FROM + 1 - before;
        break;
    case 1:
        state->cyclic.kind = VIGILANCE_INCREASED;
        state->cyclic.ticks = INCREASED_CYCLE - before;
        break;
    case 2:
        state->cyclic.kind = VIGILANCE_ORDINARY;
        state->cyclic.ticks = desk->card.cycle - PROMPT_TICKS - before;
        break;
    case 3:
        state->cyclic.kind = VIGILANCE_ORDINARY;
        state->cyclic.ticks = desk->card.cycle - 1 - before;
        break;
    case 4:
        state->standing = desk->card.wait - ZS20_TICKS - before;
        break;
    case 5:
        state->standing = desk->card.wait - before;
        break;
    case 6:
        state->prompt.ticks = PROMPT_TICKS - before;
        break;
    case 7:
        state->signal.codes.gap = LONG_GAP + 1 - before;
        break;
    default:
        put_curve_near_end(dice, desk);
        break;
    }
}

foldharbor_desk some_desk(struct dice *dice, uint32_t most_ticks)
{
    foldharbor_desk desk = {.card = some_card(dice)};
    bool low = dice_once_in(dice, 8);
    bool sensible_card = dice_once_in(dice, 2);

    for (size_t i = sensible_card ? CARD_FIELDS : 0; i < DESK_FIELDS; i++) {
        const struct field *field = &desk_fields[i];

        set_field(&desk, field, low ? some_low_value(dice, field) : some_value(dice, field));
    }
    desk.n = dice_roll(dice, most_ticks + 1);
    if (dice_once_in(dice, 2))
        desk.state.mode = MODE_PRE;
    if (dice_once_in(dice, 2))
        put_count_near_border(dice, &desk);
    return desk;
}

foldharbor_desk bent_desk(struct dice *dice, foldharbor_desk desk)
{
    const struct field *field = &desk_fields[dice_roll(dice, DESK_FIELDS)];
    uint32_t above = field->most + 1 + (dice_once_in(dice, 4) ? dice_roll(dice, UINT8_MAX - 60) : 0);
    bool below = field->least > 0 && dice_once_in(dice, 2);

    set_field(&desk, field, below ? field->least - 1 : above);
    return desk;
}

foldharbor_desk changed_desk(struct dice *dice, foldharbor_desk desk)
{
    const struct field *field = &desk_fields[dice_between(dice, FIRST_STATE_FIELD, DESK_FIELDS - 1)];
    uint32_t value = dice_between(dice, field->least, field->most - 1);

    set_field(&desk, field, value < get_field(&desk, field) ? value : value + 1);
    return desk;
}

uint32_t some_count(struct dice *dice, uint32_t ticks)
{
    switch (dice_roll(dice, 6)) {
    case 0:
        return 0;
    case 1:
        return ticks;
    case 2:
        return dice_roll(dice, ticks + 1);
    default:
        return dice_roll(dice, (ticks < 60 ? ticks : 60) + 1);
    }
}

uint32_t some_count_above(struct dice *dice, uint32_t ticks)
{
    const uint32_t counts[] = {
        ticks + 1, ticks + 1 + dice_roll(dice, 300), (1u << 8) + ticks, (1u << 16) + ticks / 2, 1u << 31, UINT32_MAX};

    return counts[dice_roll(dice, sizeof counts / sizeof counts[0])];
}

void some_bytes(struct dice *dice, void *place, size_t count)
{
    for (uint8_t *byte = place; count > 0; count--)
        *byte++ = dice_roll(dice, 256);
}
