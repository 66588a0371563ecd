/*
 * Compares the calls on a desk with the model: drives with steps back and restarts, in which why is asked, and cases
 * beside them.
 *
 *   drives [SEED [COUNT]]
 */
#include <inttypes.h>
#include <stdio.h>
#include <stdlib.h>
#include <string.h>

#include "both.h"
#include "bytes.h"
#include "cases.h"
#include "fields.h"
#include "generate.h"
#include "seen.h"
#include "some.h"

enum { /* by the rules */
       REFUSED_RECORD = 9,
       REFUSED_CLOSED = 14,
       REFUSED_OTHER = 23
};

enum { DEFAULT_SEED = 7200, DEFAULT_COUNT = 6000, MEAN_RUN = 6, MOST_RUN = 700, LONG_STAND = 300 /* ticks */ };

static uint64_t seed, drives;
static uint64_t held_again_seen; /* causes that were let go and came again, where why was asked */
static uint64_t stands_seen;     /* long ones on a curve */

struct drive {
    struct dice *dice;
    struct driver driver;
    size_t length; /* of the journal */
    foldharbor_desk desk;
    uint32_t stood; /* ticks at a stand on a curve, in a row */
};

/* What the calls gave after so many ticks of the drive: what a step back to there has to give again. */
static struct outcome history[UINT16_MAX + 1];

static void go_on(struct drive *drive, foldharbor_outcome outcome)
{
    struct outcome *now = &history[outcome.desk.n];

    drive->desk = outcome.desk;
    if (outcome.refusal != 0)
        return;
    *now = model_of_outcome(&outcome);
    drive->driver.state = now->desk.state;
    memcpy(drive->driver.answer, now->answer, ANSWER_BYTES);
}

static struct drive begin_drive(struct dice *dice, size_t length)
{
    struct card card = generate_card(dice);
    struct drive drive = {.dice = dice, .driver = generate_driver(dice, &card), .length = length};

    lay_journal(length, dice_roll(dice, 256));
    go_on(&drive, both_open(card_of_model(&card)));
    drives++;
    return drive;
}

static bool tick(struct drive *drive)
{
    foldharbor_outcome outcome = both_tick(drive->desk, sample_of(drive->dice, &drive->driver.record), drive->length);

    go_on(drive, outcome);
    if (outcome.refusal != 0)
        return false;
    bool stands = drive->driver.record.speed == 0 && drive->desk.state.signal.curve.start > 0;

    drive->stood = stands ? drive->stood + 1 : 0;
    stands_seen += drive->stood == LONG_STAND;
    return true;
}

/* Drives on with one choice of the driver; false when the journal is full. */
static bool drive_on(struct drive *drive)
{
    bool accepted = true;

    for (uint32_t ticks = generate_run(&drive->driver, MEAN_RUN, MOST_RUN); ticks > 0 && accepted; ticks--)
        accepted = tick(drive);
    return accepted;
}

static void step_back(struct drive *drive, uint32_t count)
{
    uint16_t left = drive->desk.n - count;
    foldharbor_outcome outcome = both_step_back(drive->desk, count, drive->length);

    expect(outcome.refusal == 0 && !compare_outcomes(&outcome, &history[left]).name,
           "a step back gives another desk or answer than that tick gave");
    go_on(drive, outcome);
    drive->stood = 0;
}

static void restart(struct drive *drive)
{
    go_on(drive, both_restart(drive->desk));
    drive->stood = 0;
}

static bool was_held(uint32_t ticks, uint32_t cause)
{
    return ticks > 0 && history[ticks].answer[5] & cause;
}

/* Whether the cause was held in no tick of the drive's before this one. */
static bool first_time(uint32_t tick, uint32_t cause)
{
    while (tick > 0 && !was_held(tick - 1, cause))
        tick--;
    return tick == 0;
}

static bool is_record(const foldharbor_record *reading, const uint8_t *record)
{
    return reading->v == read_half(record) && reading->code == record[2] && reading->mode == record[3] &&
           reading->lever == record[4] && reading->flags == record[5] && reading->band == record[6] &&
           reading->sense == record[7];
}

/* Whether a reason goes with what the ticks answered and recorded: off before, on since, and that tick's record. */
static bool goes_with_history(const foldharbor_reason *reason, uint32_t ticks, uint32_t cause)
{
    if (reason->tick == 0)
        return !was_held(ticks, cause);
    if (reason->tick > ticks || was_held(reason->tick - 1, cause))
        return false;
    while (ticks >= reason->tick && was_held(ticks, cause))
        ticks--;
    return ticks == reason->tick - 1u && is_record(&reason->reading, journal_record(ticks));
}

static void ask_why(struct drive *drive)
{
    uint16_t ticks = drive->desk.n;
    foldharbor_reasons why = both_why(drive->desk, drive->length);

    expect(why.refusal == (drive->desk.state.causes == 0 ? REFUSED_CLOSED : 0), "why is refused for another reason");
    for (uint32_t bit = 0; bit < FOLDHARBOR_CAUSES; bit++) {
        const foldharbor_reason *reason = &why.of_cause[bit];

        expect(goes_with_history(reason, ticks, 1u << bit), "a reason does not go with what the ticks gave");
        held_again_seen += reason->tick > 0 && !first_time(reason->tick, 1u << bit);
    }
}

/* Why is asked of another desk, or of a journal with a record out of range, and is refused. */
static void ask_why_of_other(struct drive *drive)
{
    struct dice *dice = drive->dice;
    uint32_t n = drive->desk.n, place = dice_roll(dice, n);
    uint8_t record[RECORD_BYTES], spoilt[RECORD_BYTES];

    expect(both_why(changed_desk(dice, drive->desk), drive->length).refusal == REFUSED_OTHER,
           "another desk is taken for the one that the journal rebuilds");
    if (n == 0)
        return;
    memcpy(record, journal_record(place), sizeof record);
    memcpy(spoilt, record, sizeof spoilt);
    spoil_record(spoilt, dice_roll(dice, RECORD_FAULTS));
    lay_record(place, spoilt);
    expect(both_why(drive->desk, drive->length).refusal == REFUSED_RECORD, "a bad record is taken");
    lay_record(place, record);
}

/* A call that is refused. */
static void disturb(struct drive *drive)
{
    struct dice *dice = drive->dice;
    foldharbor_sample sample = sample_of(dice, &drive->driver.record);
    size_t shorter = dice_roll(dice, RECORD_BYTES * (drive->desk.n + 1)); /* without room for one more record */

    switch (dice_roll(dice, 10)) {
    case 0:
        both_tick(bent_desk(dice, drive->desk), sample, drive->length);
        return;
    case 1:
        both_step_back(bent_desk(dice, drive->desk), 0, drive->length);
        return;
    case 2:
        both_restart(bent_desk(dice, drive->desk));
        return;
    case 3:
        go_on(drive, both_step_back(drive->desk, some_count_above(dice, drive->desk.n), drive->length));
        return;
    case 4:
        go_on(drive, both_tick(drive->desk, sample, shorter < drive->length ? shorter : drive->length));
        return;
    case 5:
        both_why(bent_desk(dice, drive->desk), drive->length);
        return;
    case 6:
        ask_why_of_other(drive);
        return;
    case 7:
        spoil_speed(dice, &sample);
        break;
    case 8:
        spoil_pressure(dice, &sample);
        break;
    default:
        spoil_switch(dice, &sample);
        break;
    }
    go_on(drive, both_tick(drive->desk, sample, drive->length));
}

static void compare_drive(void)
{
    struct dice dice = dice_for(seed, drives);
    uint32_t ticks = dice_between(&dice, 20, dice_once_in(&dice, 10) ? 2000 : 500);
    struct drive drive = begin_drive(&dice, dice_between(&dice, RECORD_BYTES * ticks / 2, 2 * RECORD_BYTES * ticks));

    for (uint64_t end = calls_made() + ticks; calls_made() < end;) {
        uint32_t what = dice_roll(&dice, 32);

        if (what == 0 && dice_once_in(&dice, 4))
            restart(&drive);
        else if (what <= 1)
            step_back(&drive, some_count(&dice, drive.desk.n));
        else if (what <= 4)
            disturb(&drive);
        else if (!drive_on(&drive))
            step_back(&drive, some_count(&dice, drive.desk.n));
        if (dice_once_in(&dice, 8))
            ask_why(&drive);
    }
}

/* A drive to the end of a long journal, with steps back from there. */
static void compare_long_drive(size_t length)
{
    struct dice dice = dice_for(seed, drives);
    struct drive drive = begin_drive(&dice, length);
    uint32_t capacity = length < FOLDHARBOR_JOURNAL_BYTES ? length / RECORD_BYTES : FOLDHARBOR_MOST_TICKS;

    for (uint64_t end = calls_made() + 2 * capacity; calls_made() < end && drive_on(&drive);)
        ;
    expect(drive.desk.n == capacity, "the journal is full elsewhere");
    ask_why(&drive);
    ask_why_of_other(&drive);
    step_back(&drive, 0);
    step_back(&drive, 1);
    tick(&drive);
    tick(&drive);
    disturb(&drive);
    step_back(&drive, drive.desk.n / 2);
    drive_on(&drive);
    ask_why(&drive);
    restart(&drive);
    ask_why(&drive);
    drive_on(&drive);
}

int main(int count, char **arguments)
{
    seed = count > 1 ? strtoull(arguments[1], NULL, 0) : DEFAULT_SEED;
    uint64_t wanted = count > 2 ? strtoull(arguments[2], NULL, 0) : DEFAULT_COUNT;
    struct dice dice = {seed};

    printf("drives: seed %" PRIu64 "\n", seed);
    compare_cases(&dice);
    compare_long_drive(FOLDHARBOR_JOURNAL_BYTES - 1);
    compare_long_drive(FOLDHARBOR_JOURNAL_BYTES);
    compare_long_drive(FOLDHARBOR_JOURNAL_BYTES + RECORD_BYTES);
    while (drives < wanted)
        compare_drive();

    bool all_seen = report_seen_in_calls();

    printf("drives:\n");
    all_seen &= report_seen("why of one held again", held_again_seen);
    all_seen &= report_seen("long stand on a curve", stands_seen);

    printf("%s\n", all_seen ? "everything listed was seen" : "something listed was never seen");
    printf("drives: %" PRIu64 " drives, %" PRIu64 " calls, %" PRIu64 " differ\n", drives, calls_made(), differences());
    return differences() > 0 || !all_seen;
}
