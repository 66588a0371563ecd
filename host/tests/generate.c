/* See generate.h. */
#include "generate.h"

#include "bytes.h"
#include "foldharbor.h"

static uint32_t near(struct dice *dice, uint32_t middle, uint32_t spread, uint32_t most)
{
    uint32_t raised = middle + dice_roll(dice, 2 * spread + 1);
    uint32_t value = raised > spread ? raised - spread : 0;

    return value < most ? value : most;
}

static uint32_t card_speed(struct dice *dice)
{
    return dice_once_in(dice, 3) ? dice_between_or_end(dice, 1, MOST_SPEED) : dice_between(dice, 900, 1700);
}

struct card generate_card(struct dice *dice)
{
    struct card card;

    card.design = card_speed(dice);
    card.set = dice_once_in(dice, 4) ? near(dice, SLOW_SET, 1, MOST_SPEED) : card_speed(dice);
    card.highest = card_speed(dice);
    if (dice_once_in(dice, 5)) /* no limit of the card below those of the modes */
        card.design = card.set = card.highest = dice_between(dice, PRE_CEILING, MOST_SPEED);
    card.pos_ceiling = card_speed(dice);
    card.zav_ceiling = card_speed(dice);
    card.tolerance = dice_between_or_end(dice, 0, 100);
    card.stop_target = dice_between_or_end(dice, 0, 400);
    card.deceleration = dice_between_or_end(dice, 5, 40);
    card.cycle = dice_between_or_end(dice, 150, 600);
    card.wait = dice_once_in(dice, 3) ? 1000 : 250;
    return card;
}

static uint32_t permitted_speed(const struct driver *driver)
{
    return read_half(driver->answer);
}

static uint32_t target_speed(const struct driver *driver)
{
    return read_half(driver->answer + 2);
}

uint32_t end_of_curve(const struct card *card, uint32_t start, uint32_t target)
{
    return start > target ? 5 * (start * start - (target + 1) * (target + 1)) / card->deceleration : 0;
}

/* How far the running curve still goes. */
static uint32_t left_of_curve(const struct driver *driver)
{
    const struct signal *signal = &driver->state.signal;
    uint32_t end = end_of_curve(&driver->card, signal->curve_start, target_speed(driver));

    return end > signal->curve_driven ? end - signal->curve_driven : 0;
}

/* Whether a train would be above the curve by more than the tolerance, so many ticks further at its speed. */
static bool exceeds_curve(const struct driver *driver, uint32_t speed, uint32_t tolerance, uint32_t ticks)
{
    const struct signal *signal = &driver->state.signal;
    uint32_t lost = driver->card.deceleration * (signal->curve_driven + speed * ticks);
    uint32_t over = speed > tolerance ? speed - tolerance : 0; /* this has to be above the curve then */

    return over > target_speed(driver) && 5 * over * over + lost > 5 * signal->curve_start * signal->curve_start;
}

/* The highest speed that would not: the higher a speed is, the further it leads, and the lower the curve is there. */
static uint32_t speed_at_curve(const struct driver *driver, uint32_t tolerance, uint32_t ticks)
{
    uint32_t below = 0, above = MOST_SPEED + 1;

    while (above - below > 1) {
        uint32_t middle = (below + above) / 2;

        if (exceeds_curve(driver, middle, tolerance, ticks))
            above = middle;
        else
            below = middle;
    }
    return below;
}

/* A speed at which some rule of the tick to come turns; that tick is tried out first, for its curve and target. */
static uint32_t border_speed(const struct driver *before)
{
    static const uint32_t fixed[] = {1,   EASED_BELOW, 360,         400,         600,       720,
                                     800, 1000,        VYL_CEILING, PRE_CEILING, MOST_SPEED};
    uint32_t lead = before->card.set <= SLOW_SET ? LONG_LEAD : SHORT_LEAD;
    uint32_t tolerance = before->card.tolerance;
    uint32_t now = 0; /* ticks of this one's speed that a curve goes by: none where it begins */
    struct driver ahead = *before;

    model_tick(&ahead.card, &ahead.state, &ahead.record, ahead.answer);
    if (before->record.code == before->state.signal.last_code) {
        ahead.state.signal = before->state.signal;
        now = 1;
    }
    switch (dice_roll(before->dice, 12)) {
    case 0:
        return permitted_speed(&ahead);
    case 1:
        return permitted_speed(&ahead) + tolerance;
    case 2:
        return target_speed(&ahead);
    case 3:
        return target_speed(&ahead) + tolerance;
    case 4:
        return speed_at_curve(&ahead, 0, now);
    case 5:
        return speed_at_curve(&ahead, tolerance, now);
    case 6:
        return speed_at_curve(&ahead, tolerance, now + lead);
    case 7:
        return speed_at_curve(&ahead, tolerance, lead + START_SPAN);
    case 8:
        return left_of_curve(&ahead);
    case 9:
        return WARNING_ORDINARY_UP_TO;
    default:
        return fixed[dice_roll(before->dice, sizeof fixed / sizeof fixed[0])];
    }
}

static void choose_speed(struct driver *driver)
{
    struct dice *dice = driver->dice;
    uint32_t speed = driver->record.speed;

    switch (driver->phase) {
    case STANDING:
        speed = 0;
        break;
    case SETTING_OFF:
        speed = near(dice, speed + 4, 4, 400);
        break;
    case CREEPING:
        speed = near(dice, EASED_BELOW, 2, MOST_SPEED);
        break;
    case CRUISING:
        speed = near(dice, speed, 12, MOST_SPEED);
        break;
    case KEEPING_TO_LIMIT:
        speed = near(dice, permitted_speed(driver), 1 + driver->card.tolerance, MOST_SPEED);
        break;
    case BRAKING:
        speed = speed > 20 ? near(dice, speed - 20, 15, MOST_SPEED) : 0;
        break;
    case AT_BORDERS:
        speed = near(dice, border_speed(driver), 1, MOST_SPEED);
        break;
    default:
        speed = dice_roll(dice, MOST_SPEED + 1);
        break;
    }
    driver->record.speed = speed;
}

static void choose_code(struct driver *driver)
{
    if (driver->gap_made || dice_once_in(driver->dice, 12))
        driver->record.code = dice_roll(driver->dice, CODE_CLEAR + 1);
}

static void choose_button(struct driver *driver, uint32_t button, uint32_t seldom)
{
    if (driver->record.flags & button) {
        if (!dice_once_in(driver->dice, 4))
            driver->record.flags &= ~button;
    } else if (dice_once_in(driver->dice, seldom)) {
        driver->record.flags |= button;
    }
}

static void choose_buttons(struct driver *driver)
{
    uint32_t prompts = driver->answer[4] & (FOLDHARBOR_MARK_CYCLIC_PROMPT | FOLDHARBOR_MARK_ONE_TIME_PROMPT);
    bool held = driver->answer[5] != 0;
    uint32_t seldom = 40;

    if (driver->aimed)
        seldom = 2;
    else if (prompts)
        seldom = driver->carelessness;
    else if (held)
        seldom = 8;
    choose_button(driver, FLAG_VIGILANCE, seldom);
    choose_button(driver, FLAG_PLUS, driver->record.code == CODE_FORTY ? 4 : 40);
    choose_button(driver, FLAG_MAN, driver->answer[4] & FOLDHARBOR_MARK_CURVE ? 15 : 40);
}

static void choose_switch(struct driver *driver, uint32_t flag, uint32_t seldom_on, uint32_t seldom_off)
{
    bool on = driver->record.flags & flag;

    if (dice_once_in(driver->dice, on ? seldom_off : seldom_on))
        driver->record.flags ^= flag;
}

static void choose_switches(struct driver *driver)
{
    struct dice *dice = driver->dice;
    struct record *record = &driver->record;
    bool stands = driver->phase == STANDING;

    choose_switch(driver, FLAG_DIRECT_BRAKE, driver->phase == CREEPING ? 3 : 30, 6);
    choose_switch(driver, FLAG_REMOTE_STOP, 150, 5);
    choose_switch(driver, FLAG_ADHESION_LOSS, 150, 5);
    choose_switch(driver, FLAG_CAB_ON, 5, 60);
    if (dice_once_in(dice, stands ? 6 : 40))
        record->mode = dice_once_in(dice, 3) ? dice_between(dice, MODE_POS, MODE_ZAV) : MODE_PRE;
    if (dice_once_in(dice, 40))
        record->lever = dice_roll(dice, 3);
    if (dice_once_in(dice, 10))
        record->sense = dice_once_in(dice, 6) ? dice_roll(dice, 3) : record->lever;
    if (dice_once_in(dice, 20))
        record->band = dice_once_in(dice, 3) ? dice_roll(dice, 3) : BRAKES_RELEASED;
}

static uint32_t ticks_up_to(uint32_t border, uint32_t count)
{
    return border > count ? border - count : 1;
}

/* Ticks until some count of the desk comes to its border. */
static uint32_t ticks_to_border(struct driver *driver)
{
    const struct state *state = &driver->state;
    const struct card *card = &driver->card;
    uint32_t cycle = state->vigilance_kind == VIGILANCE_INCREASED ? INCREASED_CYCLE : card->cycle;
    uint32_t speed = driver->record.speed;

    switch (dice_roll(driver->dice, 8)) {
    case 0:
        return ticks_up_to(INCREASED_FROM, state->vigilance_ticks);
    case 1:
        return ticks_up_to(cycle - PROMPT_TICKS, state->vigilance_ticks);
    case 2:
        return ticks_up_to(cycle, state->vigilance_ticks);
    case 3:
        return ticks_up_to(PROMPT_TICKS, state->signal.prompt);
    case 4:
        return ticks_up_to(card->wait - ZS20_TICKS, state->standing);
    case 5:
        return ticks_up_to(card->wait, state->standing);
    case 6:
        return ticks_up_to(MOST_WRONG_WAY, state->wrong_way) / (speed + 1);
    default: /* at a stand, in which a curve must not fall, for as long as to brake from its start would take */
        return speed > 0 ? left_of_curve(driver) / speed : 10 * state->signal.curve_start / card->deceleration;
    }
}

/* The length of the next run; the record of a gap in the code is made here, as its length is what matters. */
static uint32_t choose_ticks(struct driver *driver, uint32_t mean, uint32_t most)
{
    struct dice *dice = driver->dice;
    uint32_t ticks = 1 + dice_roll(dice, 2 * mean);

    driver->aimed = false;
    driver->gap_made = false;
    if (dice_once_in(dice, 60)) {
        driver->record.code = CODE_NONE;
        driver->gap_made = true;
        ticks = dice_between(dice, 49, 52);
    } else if (dice_once_in(dice, driver->phase == STANDING ? 4 : 16)) {
        driver->aimed = true;
        ticks = near(dice, ticks_to_border(driver), 2, FOLDHARBOR_MOST_TICKS);
    } else if (dice_once_in(dice, 3)) {
        ticks = 1;
    }
    if (ticks > most)
        return most;
    return ticks > 0 ? ticks : 1;
}

struct driver generate_driver(struct dice *dice, const struct card *card)
{
    struct driver driver = {
        .dice = dice,
        .card = *card,
        .state = model_fresh_state(),
        .record = {.mode = MODE_PRE, .lever = 1, .flags = FLAG_CAB_ON, .band = BRAKES_RELEASED},
        .phase = STANDING,
    };

    driver.record.code = dice_roll(dice, CODE_CLEAR + 1);
    driver.carelessness = dice_between(dice, 1, 6) * dice_between(dice, 1, 6);
    return driver;
}

uint32_t generate_run(struct driver *driver, uint32_t mean, uint32_t most)
{
    if (dice_once_in(driver->dice, 10))
        driver->phase = dice_roll(driver->dice, PHASES);
    choose_code(driver);
    choose_buttons(driver);
    choose_switches(driver);
    choose_speed(driver);
    return choose_ticks(driver, mean, most);
}

static void write_header(uint8_t *place, uint32_t cards, uint32_t runs)
{
    uint32_t runs_offset = HEADER_BYTES + CARD_BYTES * cards;

    write_half(place, cards);
    write_half(place + 2, runs);
    write_half(place + 4, HEADER_BYTES);
    write_half(place + 6, runs_offset);
    write_half(place + 8, runs_offset + RUN_BYTES * runs);
}

/* Writes the next run, plays it and gives its ticks: one is left for each later run, and the last takes the rest. */
static uint32_t write_run(uint8_t *place, struct driver *driver, uint32_t runs_left, uint32_t ticks_left)
{
    uint32_t most = ticks_left - (runs_left - 1);
    uint32_t ticks = generate_run(driver, ticks_left / runs_left, most);

    if (runs_left == 1)
        ticks = most;
    write_half(place, ticks);
    model_write_record(place + RECORD_IN_RUN, &driver->record);
    for (uint32_t left = ticks; left > 0; left--)
        model_tick(&driver->card, &driver->state, &driver->record, driver->answer);
    return ticks;
}

size_t generate_exercise(struct dice *dice, uint32_t cards, uint32_t runs, uint32_t ticks, uint8_t *exercise)
{
    struct card known = generate_card(dice);
    uint32_t number = dice_roll(dice, cards + 1); /* of the known card; sometimes the driver knows none of them */
    struct driver driver = generate_driver(dice, &known);
    uint8_t *place = exercise + HEADER_BYTES;

    write_header(exercise, cards, runs);
    for (uint32_t i = 0; i < cards; i++, place += CARD_BYTES) {
        struct card card = i == number ? known : generate_card(dice);

        model_write_card(place, &card);
    }
    for (; runs > 0; runs--, place += RUN_BYTES)
        ticks -= write_run(place, &driver, runs, ticks);
    return place - exercise;
}
