/* See fields.h. */
#include "fields.h"

#include <inttypes.h>
#include <stdio.h>
#include <string.h>

#include "bytes.h"

#define FIELD(name, in_model, least, most)                                                                             \
    {#name, offsetof(foldharbor_desk, name), sizeof((foldharbor_desk *)0)->name, offsetof(struct desk, in_model),      \
     least, most}

const struct field desk_fields[DESK_FIELDS] = {
    FIELD(card.design, card.design, 1, 2500),
    FIELD(card.set, card.set, 1, 2500),
    FIELD(card.highest, card.highest, 1, 2500),
    FIELD(card.pos, card.pos_ceiling, 1, 2500),
    FIELD(card.zav, card.zav_ceiling, 1, 2500),
    FIELD(card.tolerance, card.tolerance, 0, 100),
    FIELD(card.stop, card.stop_target, 0, 400),
    FIELD(card.deceleration, card.deceleration, 5, 40),
    FIELD(card.cycle, card.cycle, 150, 600),
    FIELD(card.wait, card.wait, 250, 1000),
    FIELD(n, ticks, 0, 7200),
    FIELD(state.mode, state.mode, 1, 4),
    FIELD(state.buttons, state.buttons, 0, 7),
    FIELD(state.signal.codes.last, state.signal.last_code, 0, 4),
    FIELD(state.signal.codes.interrupted, state.signal.gap_code, 0, 4),
    FIELD(state.signal.codes.gap, state.signal.gap, 0, 51),
    FIELD(state.signal.codes.raise, state.signal.raise, 0, 4),
    FIELD(state.signal.curve.start, state.signal.curve_start, 0, 2500),
    FIELD(state.signal.curve.driven, state.signal.curve_driven, 0, 6250000),
    FIELD(state.signal.curve.prompted, state.signal.lead_given, 0, 1),
    FIELD(state.signal.man, state.signal.man_speed, 0, 2500),
    FIELD(state.prompt.ticks, state.signal.prompt, 0, 35),
    FIELD(state.prompt.kind, state.signal.prompt_kind, 0, 1),
    FIELD(state.cyclic.kind, state.vigilance_kind, 0, 2),
    FIELD(state.cyclic.ticks, state.vigilance_ticks, 0, 599),
    FIELD(state.wrongway, state.wrong_way, 0, 3600),
    FIELD(state.standing, state.standing, 0, 1000),
    FIELD(state.causes, state.causes, 0, 31),
};

_Static_assert(sizeof(struct desk) == DESK_FIELDS * sizeof(uint32_t), "every field of the model's desk has its row");

/* x86-64 has the low byte of a number first, whatever its size. */
uint32_t get_field(const foldharbor_desk *desk, const struct field *field)
{
    uint32_t value = 0;

    memcpy(&value, (const uint8_t *)desk + field->place, field->bytes);
    return value;
}

void set_field(foldharbor_desk *desk, const struct field *field, uint32_t value)
{
    memcpy((uint8_t *)desk + field->place, &value, field->bytes);
}

bool field_takes(const struct field *field, uint32_t value)
{
    if (field == &desk_fields[CARD_FIELDS - 1])
        return value == field->least || value == field->most;
    return field->least <= value && value <= field->most;
}

static uint32_t get_field_of_model(const struct desk *desk, const struct field *field)
{
    uint32_t value;

    memcpy(&value, (const uint8_t *)desk + field->place_in_model, sizeof value);
    return value;
}

struct desk model_of_desk(const foldharbor_desk *desk)
{
    struct desk made;

    for (const struct field *field = desk_fields; field < desk_fields + DESK_FIELDS; field++) {
        uint32_t value = get_field(desk, field);

        memcpy((uint8_t *)&made + field->place_in_model, &value, sizeof value);
    }
    return made;
}

struct sample model_of_sample(const foldharbor_sample *sample)
{
    return (struct sample){
        .speed = sample->speed,
        .pressure = sample->pressure,
        .code = sample->code,
        .mode = sample->mode,
        .lever = sample->lever,
        .flags = sample->flags,
        .sense = sample->sense,
    };
}

struct outcome model_of_outcome(const foldharbor_outcome *outcome)
{
    struct outcome made = {.desk = model_of_desk(&outcome->desk), .refusal = outcome->refusal};

    write_answer(made.answer, &outcome->answer);
    return made;
}

void write_answer(uint8_t *place, const foldharbor_answer *answer)
{
    write_half(place, answer->permitted);
    write_half(place + 2, answer->target);
    place[4] = answer->marks;
    place[5] = answer->causes;
    place[6] = answer->lowest;
    place[7] = answer->held;
}

foldharbor_card card_of_model(const struct card *card)
{
    return (foldharbor_card){
        .design = card->design,
        .set = card->set,
        .highest = card->highest,
        .pos = card->pos_ceiling,
        .zav = card->zav_ceiling,
        .tolerance = card->tolerance,
        .stop = card->stop_target,
        .deceleration = card->deceleration,
        .cycle = card->cycle,
        .wait = card->wait,
    };
}

static struct difference first_that_differs(const struct difference *fields, size_t count)
{
    for (; count > 0; count--, fields++)
        if (fields->of_call != fields->of_model)
            return *fields;
    return (struct difference){0};
}

struct difference compare_outcomes(const foldharbor_outcome *of_call, const struct outcome *of_model)
{
    const foldharbor_answer *answer = &of_call->answer;
    const uint8_t *bytes = of_model->answer;
    const struct difference others[] = {
        {"refusal", of_call->refusal, of_model->refusal},
        {"answer.permitted", answer->permitted, read_half(bytes)},
        {"answer.target", answer->target, read_half(bytes + 2)},
        {"answer.marks", answer->marks, bytes[4]},
        {"answer.causes", answer->causes, bytes[5]},
        {"answer.lowest", answer->lowest, bytes[6]},
        {"answer.held", answer->held, bytes[7]},
    };

    struct difference first = first_that_differs(others, sizeof others / sizeof others[0]);

    if (first.name)
        return first;
    for (const struct field *field = desk_fields; field < desk_fields + DESK_FIELDS; field++) {
        uint32_t by_call = get_field(&of_call->desk, field);
        uint32_t by_model = get_field_of_model(&of_model->desk, field);

        if (by_call != by_model)
            return (struct difference){field->name, by_call, by_model};
    }
    return (struct difference){0};
}

static struct difference compare_reason(const foldharbor_reason *of_call, const struct reason *of_model)
{
    const foldharbor_record *reading = &of_call->reading;
    const struct record *record = &of_model->record;
    const struct difference fields[] = {
        {"tick", of_call->tick, of_model->tick},
        {"reading.v", reading->v, record->speed},
        {"reading.code", reading->code, record->code},
        {"reading.mode", reading->mode, record->mode},
        {"reading.lever", reading->lever, record->lever},
        {"reading.flags", reading->flags, record->flags},
        {"reading.band", reading->band, record->band},
        {"reading.sense", reading->sense, record->sense},
    };

    return first_that_differs(fields, sizeof fields / sizeof fields[0]);
}

struct difference compare_reasons(const foldharbor_reasons *of_call, const struct reasons *of_model)
{
    static char name[sizeof "of_cause[0].reading.flags"];

    if (of_call->refusal != of_model->refusal)
        return (struct difference){"refusal", of_call->refusal, of_model->refusal};
    for (uint32_t i = 0; i < CAUSES; i++) {
        struct difference first = compare_reason(&of_call->of_cause[i], &of_model->of_cause[i]);

        if (!first.name)
            continue;
        snprintf(name, sizeof name, "of_cause[%" PRIu32 "].%s", i, first.name);
        first.name = name;
        return first;
    }
    return (struct difference){0};
}
