/* The rules of the desk, of its calls and of the exercise file in plain C. See model.h. */
#include "model.h"

#include <math.h>
#include <stdbool.h>
#include <string.h>

#include "bytes.h"
#include "foldharbor.h"

/* What a tick finds out on its way through the steps. */
struct tick {
    const struct card *card;
    const struct record *record;
    uint32_t speed;
    uint32_t pressed; /* buttons on now and off the tick before */
    bool new_code;
    bool man_before;
    bool curve_began;
    uint32_t target;      /* (T) */
    uint32_t curve_speed; /* the value of the curve, if one runs */
    uint32_t permitted;   /* (P) */
    bool cyclic_prompt;
    bool zs20;
    uint32_t triggered; /* causes */
};

static uint32_t smaller(uint32_t a, uint32_t b)
{
    return a < b ? a : b;
}

static uint32_t larger(uint32_t a, uint32_t b)
{
    return a > b ? a : b;
}

static uint32_t target_of(const struct card *card, uint32_t code, uint32_t raise)
{
    switch (code) {
    case CODE_STOP:
        return card->stop_target;
    case CODE_FORTY:
        return TARGET_FORTY + TARGET_STEP * raise;
    case CODE_CLEAR:
        return TARGET_CLEAR;
    default:
        return TARGET_CAUTIOUS;
    }
}

/* The largest w with 5 * w * w <= bound. The root of the floats is next to it; whole numbers have the last word. */
static uint32_t root_of_fifth(uint32_t bound)
{
    uint32_t root = sqrt(bound / 5);

    while (5 * root * root > bound)
        root--;
    while (5 * (root + 1) * (root + 1) <= bound)
        root++;
    return root;
}

/* A curve falls as the speed of a train that brakes: its square loses as much over a distance wherever on the curve. */
static uint32_t curve_value(const struct card *card, uint32_t start, uint32_t driven, uint32_t target)
{
    uint32_t begun_with = 5 * start * start;
    uint32_t lost = card->deceleration * driven;

    return root_of_fifth(larger(5 * target * target, begun_with - smaller(begun_with, lost)));
}

static uint32_t signal_speed(const struct signal *signal, uint32_t curve_speed, uint32_t target)
{
    if (signal->man_speed > 0)
        return signal->man_speed;
    return signal->curve_start > 0 ? curve_speed : target;
}

static void begin_man(struct signal *signal, uint32_t speed)
{
    signal->man_speed = larger(TARGET_CAUTIOUS, speed);
}

static void end_curve(struct signal *signal)
{
    signal->curve_start = 0;
    signal->curve_driven = 0;
    signal->lead_given = 0;
}

static bool in_pre_or_vyl(const struct state *state)
{
    return state->mode == MODE_PRE || state->mode == MODE_VYL;
}

static void step_1_mode(const struct tick *tick, struct state *state)
{
    if (tick->speed == 0 && tick->record->mode != state->mode)
        *state = (struct state){.mode = tick->record->mode, .buttons = state->buttons, .causes = state->causes};
    if (state->mode != MODE_PRE)
        state->signal = (struct signal){0};
}

static void step_2_code(struct tick *tick, struct signal *signal)
{
    const struct card *card = tick->card;
    uint32_t code = tick->record->code;

    tick->new_code = code != signal->last_code;
    tick->man_before = signal->man_speed > 0;
    if (!tick->new_code) {
        if (code == CODE_NONE)
            signal->gap = smaller(LONG_GAP + 1, signal->gap + 1);
        return;
    }

    uint32_t old_target = target_of(card, signal->last_code, signal->raise);
    uint32_t old_curve_speed = curve_value(card, signal->curve_start, signal->curve_driven, old_target);
    uint32_t old_speed = signal_speed(signal, old_curve_speed, old_target); /* (S0) */
    uint32_t new_target = target_of(card, code, 0);

    signal->raise = 0;
    if (new_target > tick->speed)
        signal->man_speed = 0;
    if (signal->man_speed == 0) {
        end_curve(signal);
        if (signal->last_code == CODE_NONE && signal->gap_code != CODE_NONE && signal->gap > LONG_GAP &&
            new_target < target_of(card, signal->gap_code, 0)) {
            begin_man(signal, tick->speed);
        } else if (new_target < old_speed) {
            signal->curve_start = old_speed;
            tick->curve_began = true;
        }
    }
    if (code == CODE_NONE) {
        signal->gap_code = signal->last_code;
        signal->gap = 1;
    } else if (signal->last_code == CODE_NONE) {
        signal->gap_code = CODE_NONE;
        signal->gap = 0;
    }
}

static void step_3_plus(struct tick *tick, struct signal *signal)
{
    if ((tick->pressed & FLAG_PLUS) && tick->record->code == CODE_FORTY && signal->raise < MOST_RAISE)
        signal->raise++;
    tick->target = target_of(tick->card, tick->record->code, signal->raise);
}

static void step_4_man(const struct tick *tick, struct signal *signal)
{
    if (!tick->man_before || signal->man_speed == 0)
        return;
    if (!tick->new_code && tick->speed <= tick->target)
        signal->man_speed = 0;
    else
        signal->man_speed = larger(TARGET_CAUTIOUS, smaller(signal->man_speed, tick->speed));
}

static void step_5_curve(struct tick *tick, struct signal *signal)
{
    if (signal->curve_start == 0)
        return;
    if (!tick->curve_began)
        signal->curve_driven += tick->speed;
    tick->curve_speed = curve_value(tick->card, signal->curve_start, signal->curve_driven, tick->target);
    if (tick->curve_speed == tick->target) {
        end_curve(signal);
    } else if ((tick->pressed & FLAG_MAN) || (tick->record->flags & FLAG_ADHESION_LOSS)) {
        begin_man(signal, tick->speed);
        end_curve(signal);
    }
}

static void step_6_permitted(struct tick *tick, const struct state *state)
{
    const struct card *card = tick->card;
    uint32_t permitted = smaller(card->design, smaller(card->set, card->highest));

    switch (state->mode) {
    case MODE_POS:
        permitted = smaller(permitted, card->pos_ceiling);
        break;
    case MODE_PRE:
        permitted = smaller(permitted, PRE_CEILING);
        permitted = smaller(permitted, signal_speed(&state->signal, tick->curve_speed, tick->target));
        break;
    case MODE_VYL:
        permitted = smaller(permitted, VYL_CEILING);
        break;
    default:
        permitted = smaller(permitted, card->zav_ceiling);
        break;
    }
    tick->permitted = permitted;
}

static bool wants_increased(const struct tick *tick, const struct signal *signal, bool eased)
{
    bool curve = signal->curve_start > 0;

    if (signal->man_speed > 0)
        return true;
    switch (tick->record->code) {
    case CODE_STOP:
        return !curve && !eased;
    case CODE_FORTY:
        return signal->raise >= 1 && !eased;
    case CODE_WARNING:
        return !curve && tick->speed > WARNING_ORDINARY_UP_TO;
    default:
        return false;
    }
}

static void step_7_cyclic_vigilance(struct tick *tick, struct state *state)
{
    bool direct_brake = tick->record->flags & FLAG_DIRECT_BRAKE;
    bool eased = tick->speed == 0 || (direct_brake && tick->speed < EASED_BELOW);
    uint32_t old_kind = state->vigilance_kind;
    uint32_t kind = VIGILANCE_NONE;
    uint32_t cycle = tick->card->cycle; /* (L) */

    if (state->mode == MODE_PRE && wants_increased(tick, &state->signal, eased)) {
        kind = VIGILANCE_INCREASED;
        cycle = INCREASED_CYCLE;
    } else if (in_pre_or_vyl(state) && !eased) {
        kind = VIGILANCE_ORDINARY;
    }

    bool press_counts = kind == VIGILANCE_ORDINARY || state->vigilance_ticks >= INCREASED_FROM;

    state->vigilance_kind = kind;
    if (kind != old_kind || kind == VIGILANCE_NONE || ((tick->pressed & FLAG_VIGILANCE) && press_counts)) {
        state->vigilance_ticks = 0;
    } else if (++state->vigilance_ticks >= cycle) {
        tick->triggered |= FOLDHARBOR_NZ1;
        state->vigilance_ticks = 0;
    }
    tick->cyclic_prompt = kind != VIGILANCE_NONE && state->vigilance_ticks >= cycle - PROMPT_TICKS;
}

static bool exceeds_curve_at(const struct tick *tick, const struct signal *signal, uint32_t driven) /* (D) */
{
    uint32_t value = curve_value(tick->card, signal->curve_start, driven, tick->target);

    return tick->speed > value + tick->card->tolerance;
}

static void step_8_one_time_vigilance(struct tick *tick, struct signal *signal)
{
    if (signal->prompt > 0) {
        if (tick->pressed & FLAG_VIGILANCE) {
            signal->prompt = 0;
        } else if (++signal->prompt >= PROMPT_TICKS) {
            tick->triggered |= FOLDHARBOR_NZ1;
            signal->prompt = 0;
        }
    } else if (signal->curve_start > 0) {
        uint32_t lead = tick->card->set <= SLOW_SET ? LONG_LEAD : SHORT_LEAD; /* (R) */

        if (!signal->lead_given && exceeds_curve_at(tick, signal, signal->curve_driven + tick->speed * lead)) {
            signal->lead_given = 1;
            signal->prompt = 1;
            signal->prompt_kind = 1;
        } else if (tick->curve_began && !exceeds_curve_at(tick, signal, tick->speed * (START_SPAN + lead)) &&
                   tick->speed > tick->target + tick->card->tolerance) {
            signal->prompt = 1;
            signal->prompt_kind = 0;
        }
    }
    if (signal->prompt == 0)
        signal->prompt_kind = 0;
}

static void step_9_direction(struct tick *tick, struct state *state)
{
    const struct record *record = tick->record;
    bool agrees = (record->flags & FLAG_CAB_ON) && record->lever == record->sense && record->lever != 0;

    if (tick->speed == 0)
        return;
    state->wrong_way = agrees ? 0 : smaller(MOST_WRONG_WAY, state->wrong_way + tick->speed);
    if (state->wrong_way == MOST_WRONG_WAY)
        tick->triggered |= FOLDHARBOR_NZ3;
}

static void step_9_standing(struct tick *tick, struct state *state)
{
    const struct record *record = tick->record;
    uint32_t wait = tick->card->wait;

    if (tick->speed == 0 && !(record->flags & FLAG_DIRECT_BRAKE) && record->band == BRAKES_RELEASED)
        state->standing = smaller(wait, state->standing + 1);
    else
        state->standing = 0;
    if ((tick->pressed & FLAG_VIGILANCE) && (state->causes & FOLDHARBOR_NZ5))
        state->standing = 0;
    if (state->standing == wait)
        tick->triggered |= FOLDHARBOR_NZ5;
    tick->zs20 = state->standing >= wait - ZS20_TICKS;
}

static void step_9_other_triggers(struct tick *tick, struct state *state)
{
    if (tick->speed > tick->permitted + tick->card->tolerance)
        tick->triggered |= FOLDHARBOR_NZ2;
    if (!in_pre_or_vyl(state))
        return;
    step_9_direction(tick, state);
    if (tick->record->flags & FLAG_REMOTE_STOP)
        tick->triggered |= FOLDHARBOR_NZ4;
    step_9_standing(tick, state);
}

static void step_10_hold_and_let_go(const struct tick *tick, struct state *state)
{
    uint32_t let_go = 0;

    if (tick->pressed & FLAG_VIGILANCE) {
        let_go = FOLDHARBOR_NZ5;
        if (tick->speed == 0)
            let_go |= FOLDHARBOR_NZ1 | FOLDHARBOR_NZ3;
        if (tick->speed <= tick->permitted)
            let_go |= FOLDHARBOR_NZ2;
        if (tick->speed == 0 && !(tick->record->flags & FLAG_REMOTE_STOP))
            let_go |= FOLDHARBOR_NZ4;
        let_go &= state->causes & ~tick->triggered;
    }
    if (let_go & FOLDHARBOR_NZ3)
        state->wrong_way = 0;
    state->causes = (state->causes & ~let_go) | tick->triggered;
}

static uint8_t lowest_cause(uint32_t causes)
{
    uint8_t number = 1;

    if (causes == 0)
        return 0;
    for (; !(causes & 1); causes >>= 1)
        number++;
    return number;
}

static uint8_t count_of_causes(uint32_t causes)
{
    uint8_t count = 0;

    for (; causes > 0; causes &= causes - 1) /* takes the lowest one away */
        count++;
    return count;
}

static void write_answer(const struct tick *tick, const struct state *state, uint8_t *answer)
{
    const struct signal *signal = &state->signal;
    uint32_t marks = 0;

    if (signal->man_speed > 0)
        marks |= FOLDHARBOR_MARK_MAN;
    if (signal->curve_start > 0)
        marks |= FOLDHARBOR_MARK_CURVE;
    if (tick->cyclic_prompt)
        marks |= FOLDHARBOR_MARK_CYCLIC_PROMPT;
    if (signal->prompt > 0)
        marks |= FOLDHARBOR_MARK_ONE_TIME_PROMPT;
    if (signal->prompt_kind == 1)
        marks |= FOLDHARBOR_MARK_ONE_TIME_KIND;
    if (tick->zs20)
        marks |= FOLDHARBOR_MARK_ZS20;

    write_half(answer, tick->permitted);
    write_half(answer + 2, tick->target);
    answer[4] = marks;
    answer[5] = state->causes;
    answer[6] = lowest_cause(state->causes);
    answer[7] = count_of_causes(state->causes);
}

struct state model_fresh_state(void)
{
    return (struct state){.mode = MODE_POS};
}

void model_tick(const struct card *card, struct state *state, const struct record *record, uint8_t *answer)
{
    struct tick tick = {
        .card = card,
        .record = record,
        .speed = record->speed,
        .pressed = record->flags & FLAGS_BUTTONS & ~state->buttons,
    };

    step_1_mode(&tick, state);
    if (state->mode == MODE_PRE) {
        step_2_code(&tick, &state->signal);
        step_3_plus(&tick, &state->signal);
        step_4_man(&tick, &state->signal);
        step_5_curve(&tick, &state->signal);
    }
    step_6_permitted(&tick, state);
    step_7_cyclic_vigilance(&tick, state);
    step_8_one_time_vigilance(&tick, &state->signal);
    step_9_other_triggers(&tick, state);
    step_10_hold_and_let_go(&tick, state);

    state->buttons = record->flags & FLAGS_BUTTONS;
    if (state->mode == MODE_PRE)
        state->signal.last_code = record->code;
    write_answer(&tick, state, answer);
}

/* Cards and records: their bytes and their ranges. */

struct card model_read_card(const uint8_t *place)
{
    return (struct card){
        .design = read_half(place),
        .set = read_half(place + 2),
        .highest = read_half(place + 4),
        .pos_ceiling = read_half(place + 6),
        .zav_ceiling = read_half(place + 8),
        .tolerance = read_half(place + 10),
        .stop_target = read_half(place + 12),
        .deceleration = read_half(place + 14),
        .cycle = read_half(place + 16),
        .wait = read_half(place + 18),
    };
}

void model_write_card(uint8_t *place, const struct card *card)
{
    write_half(place, card->design);
    write_half(place + 2, card->set);
    write_half(place + 4, card->highest);
    write_half(place + 6, card->pos_ceiling);
    write_half(place + 8, card->zav_ceiling);
    write_half(place + 10, card->tolerance);
    write_half(place + 12, card->stop_target);
    write_half(place + 14, card->deceleration);
    write_half(place + 16, card->cycle);
    write_half(place + 18, card->wait);
}

static struct record read_record(const uint8_t *place)
{
    return (struct record){
        .speed = read_half(place),
        .code = place[2],
        .mode = place[3],
        .lever = place[4],
        .flags = place[5],
        .band = place[6],
        .sense = place[7],
    };
}

void model_write_record(uint8_t *place, const struct record *record)
{
    write_half(place, record->speed);
    place[2] = record->code;
    place[3] = record->mode;
    place[4] = record->lever;
    place[5] = record->flags;
    place[6] = record->band;
    place[7] = record->sense;
}

static bool within(uint32_t least, uint32_t value, uint32_t most)
{
    return least <= value && value <= most;
}

static bool card_in_range(const struct card *card)
{
    return within(1, card->design, MOST_SPEED) && within(1, card->set, MOST_SPEED) &&
           within(1, card->highest, MOST_SPEED) && within(1, card->pos_ceiling, MOST_SPEED) &&
           within(1, card->zav_ceiling, MOST_SPEED) && card->tolerance <= 100 && card->stop_target <= 400 &&
           within(5, card->deceleration, 40) && within(150, card->cycle, 600) &&
           (card->wait == 250 || card->wait == 1000);
}

static bool record_in_range(const struct record *record)
{
    return record->speed <= MOST_SPEED && record->code <= CODE_CLEAR && within(MODE_POS, record->mode, MODE_ZAV) &&
           record->lever <= 2 && record->flags <= 127 && record->band <= 2 && record->sense <= 2;
}

/* Readings. A float is taken by its bits: from 0 on, floats are in the order of their bits as whole numbers. */

enum {
    FRACTION_BITS = 23,
    EXPONENT_OF_WHOLES = 150 /* with it a float is its significand, a whole number */
};

static const uint32_t minus_zero = 0x80000000;
static const uint32_t speed_128 = 0x43000000;    /* 128 m/s, too fast; infinity, NaN and minus signs have larger bits */
static const uint32_t pressure_3_5 = 0x40600000; /* 1.75 * 2 bar */
static const uint32_t pressure_4_5 = 0x40900000; /* 1.125 * 4 bar */
static const uint32_t pressure_10 = 0x41200000;  /* 1.25 * 8 bar */

static uint32_t bits_of(float reading)
{
    uint32_t bits;

    memcpy(&bits, &reading, sizeof bits);
    return bits == minus_zero ? 0 : bits;
}

static bool read_speed(float reading, uint32_t *speed)
{
    uint32_t bits = bits_of(reading);

    if (bits >= speed_128)
        return false;

    /* The reading is the significand, halved so often. The least floats have no leading one, but read as 0 anyway. */
    uint64_t significand = (bits & ((1u << FRACTION_BITS) - 1)) | 1u << FRACTION_BITS;
    uint32_t halvings = EXPONENT_OF_WHOLES - (bits >> FRACTION_BITS);

    /* The floor of 36x + 1/2. 72 times a significand is below 2^31, so after 31 halvings 36x is below 1/2. */
    *speed = halvings < 31 ? (72 * significand + (1u << halvings)) >> (halvings + 1) : 0;
    return *speed <= MOST_SPEED;
}

static bool read_band(float reading, uint32_t *band)
{
    uint32_t bits = bits_of(reading);

    *band = (bits >= pressure_3_5) + (bits >= pressure_4_5);
    return bits <= pressure_10;
}

/* Gives the number of the refusal, 0 if accepted, and the record. */
static uint32_t read_sample(const struct sample *sample, struct record *record)
{
    *record = (struct record){
        .code = sample->code,
        .mode = sample->mode,
        .lever = sample->lever,
        .flags = sample->flags,
        .sense = sample->sense,
    };
    if (!read_speed(sample->speed, &record->speed))
        return FOLDHARBOR_BAD_SPEED;
    if (!read_band(sample->pressure, &record->band))
        return FOLDHARBOR_BAD_PRESSURE;
    return record_in_range(record) ? 0 : FOLDHARBOR_BAD_FIELD;
}

/* The calls on a desk. */

static bool signal_in_range(const struct signal *signal)
{
    return signal->last_code <= CODE_CLEAR && signal->gap_code <= CODE_CLEAR && signal->gap <= LONG_GAP + 1 &&
           signal->raise <= MOST_RAISE && signal->curve_start <= MOST_SPEED && signal->curve_driven <= MOST_DRIVEN &&
           signal->man_speed <= MOST_SPEED && signal->lead_given <= 1 && signal->prompt <= PROMPT_TICKS &&
           signal->prompt_kind <= 1;
}

static bool state_in_range(const struct state *state)
{
    return within(MODE_POS, state->mode, MODE_ZAV) && state->buttons <= FLAGS_BUTTONS &&
           signal_in_range(&state->signal) && state->vigilance_kind <= VIGILANCE_INCREASED &&
           state->vigilance_ticks <= MOST_VIGILANCE_TICKS && state->wrong_way <= MOST_WRONG_WAY &&
           state->standing <= MOST_STANDING && state->causes <= MOST_CAUSES;
}

static bool desk_in_range(const struct desk *desk)
{
    return card_in_range(&desk->card) && desk->ticks <= FOLDHARBOR_MOST_TICKS && state_in_range(&desk->state);
}

static struct desk fresh_desk(struct card card)
{
    return (struct desk){.card = card, .state = model_fresh_state()};
}

static struct outcome refused(struct desk desk, uint32_t refusal)
{
    return (struct outcome){.desk = desk, .refusal = refusal};
}

static size_t capacity(size_t journal_length)
{
    size_t places = journal_length / RECORD_BYTES;

    return places < FOLDHARBOR_MOST_TICKS ? places : FOLDHARBOR_MOST_TICKS;
}

/* What the calls with a journal refuse first. */
static uint32_t judge_desk(const struct desk *desk, size_t journal_length)
{
    if (!desk_in_range(desk))
        return FOLDHARBOR_BAD_DESK;
    return journal_length < RECORD_BYTES * desk->ticks ? FOLDHARBOR_SHORT_JOURNAL : 0;
}

struct outcome model_desk_open(struct card card)
{
    if (!card_in_range(&card))
        return refused((struct desk){0}, FOLDHARBOR_BAD_CARD);
    return (struct outcome){.desk = fresh_desk(card)};
}

struct outcome model_desk_tick(struct desk desk, struct sample sample, uint8_t *journal, size_t journal_length)
{
    struct outcome outcome = {.desk = desk};
    struct record record;
    uint32_t refusal = judge_desk(&desk, journal_length);

    if (refusal == 0 && desk.ticks >= capacity(journal_length))
        refusal = FOLDHARBOR_FULL_JOURNAL;
    if (refusal == 0)
        refusal = read_sample(&sample, &record);
    if (refusal != 0)
        return refused(desk, refusal);
    model_tick(&outcome.desk.card, &outcome.desk.state, &record, outcome.answer);
    model_write_record(journal + RECORD_BYTES * desk.ticks, &record);
    outcome.desk.ticks++;
    return outcome;
}

struct outcome model_desk_step_back(struct desk desk, uint32_t count, const uint8_t *journal, size_t journal_length)
{
    struct outcome outcome = {.desk = fresh_desk(desk.card)};
    uint32_t refusal = judge_desk(&desk, journal_length);

    if (refusal == 0 && count > desk.ticks)
        refusal = FOLDHARBOR_BACK_TOO_FAR;
    if (refusal != 0)
        return refused(desk, refusal);
    for (; outcome.desk.ticks < desk.ticks - count; outcome.desk.ticks++, journal += RECORD_BYTES) {
        struct record record = read_record(journal);

        if (!record_in_range(&record))
            return refused(desk, FOLDHARBOR_BAD_RECORD);
        model_tick(&outcome.desk.card, &outcome.desk.state, &record, outcome.answer);
    }
    return outcome;
}

struct outcome model_desk_restart(struct desk desk)
{
    if (!desk_in_range(&desk))
        return refused(desk, FOLDHARBOR_BAD_DESK);
    return (struct outcome){.desk = fresh_desk(desk.card)};
}

static struct reasons refused_reasons(uint32_t refusal)
{
    return (struct reasons){.refusal = refusal};
}

/* The tick at which a holding that lasts to the last tick began; held has the causes after so many ticks. */
static uint32_t tick_it_began(const uint8_t *held, uint32_t last, uint32_t cause)
{
    while (held[last - 1] & cause) /* a fresh desk holds none */
        last--;
    return last;
}

struct reasons model_desk_why(struct desk desk, const uint8_t *journal, size_t journal_length)
{
    uint8_t held[FOLDHARBOR_MOST_TICKS + 1], answer[ANSWER_BYTES];
    struct desk rebuilt = fresh_desk(desk.card);
    struct reasons reasons = {.refusal = judge_desk(&desk, journal_length)};

    if (reasons.refusal != 0)
        return reasons;
    held[0] = 0;
    while (rebuilt.ticks < desk.ticks) {
        struct record record = read_record(journal + RECORD_BYTES * rebuilt.ticks);

        if (!record_in_range(&record))
            return refused_reasons(FOLDHARBOR_BAD_RECORD);
        model_tick(&rebuilt.card, &rebuilt.state, &record, answer);
        held[++rebuilt.ticks] = rebuilt.state.causes;
    }
    if (memcmp(&desk, &rebuilt, sizeof desk) != 0) /* fields of one size: there is nothing between them */
        return refused_reasons(FOLDHARBOR_OTHER_DESK);
    if (desk.state.causes == 0)
        return refused_reasons(FOLDHARBOR_VALVE_CLOSED);
    for (uint32_t bit = 0; bit < CAUSES; bit++) {
        if (!(desk.state.causes & 1u << bit))
            continue;
        uint32_t tick = tick_it_began(held, desk.ticks, 1u << bit);

        reasons.of_cause[bit] = (struct reason){tick, read_record(journal + RECORD_BYTES * (tick - 1))};
    }
    return reasons;
}

/* The exercise file. */

static const uint8_t *place_of_card(const uint8_t *exercise, uint32_t number)
{
    return exercise + HEADER_BYTES + CARD_BYTES * (number - 1);
}

static const uint8_t *place_of_runs(const uint8_t *exercise, const struct exercise_counts *counts)
{
    return exercise + HEADER_BYTES + CARD_BYTES * counts->cards;
}

static uint32_t read_header(const uint8_t *exercise, size_t exercise_length, struct exercise_counts *counts)
{
    if (exercise_length < HEADER_BYTES)
        return FOLDHARBOR_BAD_FILE;
    counts->cards = read_half(exercise);
    counts->runs = read_half(exercise + 2);

    uint32_t runs_offset = HEADER_BYTES + CARD_BYTES * counts->cards;
    uint32_t total = runs_offset + RUN_BYTES * counts->runs;

    if (!within(1, counts->cards, MOST_CARDS) || counts->runs > MOST_RUNS || read_half(exercise + 4) != HEADER_BYTES ||
        read_half(exercise + 6) != runs_offset || read_half(exercise + 8) != total || exercise_length != total)
        return FOLDHARBOR_BAD_FILE;
    return 0;
}

static uint32_t read_cards(const uint8_t *exercise, const struct exercise_counts *counts)
{
    for (uint32_t number = 1; number <= counts->cards; number++) {
        struct card card = model_read_card(place_of_card(exercise, number));

        if (!card_in_range(&card))
            return FOLDHARBOR_BAD_CARD;
    }
    return 0;
}

static uint32_t read_runs(const uint8_t *exercise, struct exercise_counts *counts)
{
    const uint8_t *run = place_of_runs(exercise, counts);

    counts->ticks = 0;
    for (uint32_t left = counts->runs; left > 0; left--, run += RUN_BYTES) {
        uint32_t ticks = read_half(run);
        struct record record = read_record(run + RECORD_IN_RUN);

        counts->ticks += ticks;
        if (ticks == 0 || counts->ticks > FOLDHARBOR_MOST_TICKS)
            return FOLDHARBOR_BAD_TICKS;
        if (!record_in_range(&record))
            return FOLDHARBOR_BAD_RECORD;
    }
    return 0;
}

uint32_t model_read_exercise(const uint8_t *exercise, size_t exercise_length, struct exercise_counts *counts)
{
    uint32_t refusal = read_header(exercise, exercise_length, counts);

    if (refusal == 0)
        refusal = read_cards(exercise, counts);
    if (refusal == 0)
        refusal = read_runs(exercise, counts);
    if (refusal != 0)
        *counts = (struct exercise_counts){0};
    return refusal;
}

static void run_exercise(const uint8_t *exercise, const struct exercise_counts *counts, uint32_t number,
                         uint8_t *answer)
{
    struct card card = model_read_card(place_of_card(exercise, number));
    struct state state = model_fresh_state();
    const uint8_t *run = place_of_runs(exercise, counts);

    for (uint32_t left = counts->runs; left > 0; left--, run += RUN_BYTES) {
        struct record record = read_record(run + RECORD_IN_RUN);

        for (uint32_t ticks = read_half(run); ticks > 0; ticks--, answer += FOLDHARBOR_ANSWER_BYTES)
            model_tick(&card, &state, &record, answer);
    }
}

uint32_t model_run_exercise(const uint8_t *exercise, size_t exercise_length, uint32_t card, uint8_t *answers,
                            size_t answers_length)
{
    struct exercise_counts counts;
    uint32_t refusal = read_header(exercise, exercise_length, &counts);

    if (refusal == 0)
        refusal = read_cards(exercise, &counts);
    if (refusal != 0)
        return FOLDHARBOR_REFUSED + refusal;
    if (!within(1, card, counts.cards))
        return FOLDHARBOR_REFUSED + FOLDHARBOR_NO_SUCH_CARD;
    refusal = read_runs(exercise, &counts);
    if (refusal != 0)
        return FOLDHARBOR_REFUSED + refusal;
    if (answers_length < FOLDHARBOR_ANSWER_BYTES * counts.ticks)
        return FOLDHARBOR_REFUSED + FOLDHARBOR_SHORT_BUFFER;
    run_exercise(exercise, &counts, card, answers);
    return counts.ticks;
}
