/*
 * Measures the calls against the model in one process, on the same exercises and on the same drive; and why against a
 * step back by 0, which goes over the same records. The two take turns and the best turn of each counts, so that other
 * work on the machine weighs on neither.
 *
 *   bench [TURNS]
 */
#define _POSIX_C_SOURCE 200809L
#include <stdbool.h>
#include <stdio.h>
#include <stdlib.h>
#include <string.h>
#include <time.h>

#include "bytes.h"
#include "fields.h"
#include "foldharbor.h"
#include "generate.h"
#include "model.h"

enum {
    SEED = 7200,
    MANY_RUNS = 2000,
    DRIVE_TICKS = 7000,
    STRUCK = 10, /* ticks, by the step back */
    DEFAULT_TURNS = 400,
    CALLS_A_TURN = 4,
    READER_CALLS_A_TURN = 40 /* reading takes far less than running */
};

typedef void work(void);

static long turns = DEFAULT_TURNS;

static uint8_t exercise[FOLDHARBOR_MOST_BYTES];
static size_t exercise_length;
static uint8_t answers_of_call[FOLDHARBOR_ANSWER_BYTES * FOLDHARBOR_MOST_TICKS];
static uint8_t answers_of_model[FOLDHARBOR_ANSWER_BYTES * FOLDHARBOR_MOST_TICKS];
static uint32_t returned_by_call, returned_by_model;

/* A drive, the same for both. */
static struct card card;
static foldharbor_sample samples[DRIVE_TICKS];
static struct sample samples_of_model[DRIVE_TICKS];
static uint8_t journal_of_call[FOLDHARBOR_JOURNAL_BYTES];
static uint8_t journal_of_model[FOLDHARBOR_JOURNAL_BYTES];
static foldharbor_outcome driven_by_call, stepped_back_by_call;
static struct outcome driven_by_model, stepped_back_by_model;
static foldharbor_reasons told_by_call;
static struct reasons told_by_model;

static double now(void)
{
    struct timespec time;

    clock_gettime(CLOCK_MONOTONIC, &time);
    return time.tv_sec * 1e9 + time.tv_nsec;
}

static double turn(work *once, int times)
{
    double start = now();

    for (int i = 0; i < times; i++)
        once();
    return (now() - start) / times;
}

static void compare(const char *what, work *one, work *other, const char *name_of_other, int times, double units)
{
    double best_of_one = 1e18, best_of_other = 1e18;

    for (long i = 0; i < turns; i++) {
        double time_of_one = turn(one, times);
        double time_of_other = turn(other, times);

        best_of_one = time_of_one < best_of_one ? time_of_one : best_of_one;
        best_of_other = time_of_other < best_of_other ? time_of_other : best_of_other;
    }
    printf("%-46s call %7.2f ns   %-5s %7.2f ns   ratio %5.2f\n", what, best_of_one / units, name_of_other,
           best_of_other / units, best_of_one / best_of_other);
}

static void measure(const char *what, work *of_call, work *of_model, int times, double units)
{
    compare(what, of_call, of_model, "model", times, units);
}

static void run_by_call(void)
{
    returned_by_call = foldharbor_run_exercise(exercise, exercise_length, 1, answers_of_call, sizeof answers_of_call);
}

static void run_by_model(void)
{
    returned_by_model = model_run_exercise(exercise, exercise_length, 1, answers_of_model, sizeof answers_of_model);
}

/* Without room for an answer the exercise is read and not run. */
static void read_by_call(void)
{
    returned_by_call = foldharbor_run_exercise(exercise, exercise_length, 1, answers_of_call, 0);
}

static void read_by_model(void)
{
    returned_by_model = model_run_exercise(exercise, exercise_length, 1, answers_of_model, 0);
}

static bool same_runs(void)
{
    run_by_call();
    run_by_model();
    return returned_by_call == FOLDHARBOR_MOST_TICKS && returned_by_model == returned_by_call &&
           memcmp(answers_of_call, answers_of_model, sizeof answers_of_call) == 0;
}

static void make_exercise(uint32_t runs, uint32_t ticks)
{
    struct dice dice = {SEED};

    exercise_length = generate_exercise(&dice, 1, runs, ticks, exercise);
}

/* PRE is taken at a stand only, so one run in PRE stands throughout: on a curve, which stays, and at last too long. */
static void make_one_run(void)
{
    static const uint8_t record[] = {0, 0, CODE_STOP, MODE_PRE, 1, FLAG_CAB_ON, BRAKES_RELEASED, 0};

    make_exercise(1, FOLDHARBOR_MOST_TICKS);
    memcpy(exercise + HEADER_BYTES + CARD_BYTES + RECORD_IN_RUN, record, sizeof record);
}

/*
 * A train on a long curve, from Clear's 1600 down to Stop by the least deceleration. At 300 it is slow enough to be on
 * the curve to the last tick and never near it, so that nearly each tick asks for two values of the curve: here, ahead.
 */
static void make_curve(void)
{
    static const struct card long_curve = {
        .design = 1600,
        .set = 1600,
        .highest = 1600,
        .pos_ceiling = 400,
        .zav_ceiling = 1000,
        .tolerance = 30,
        .stop_target = 0,
        .deceleration = 5,
        .cycle = 200,
        .wait = 250,
    };
    static const struct record under_clear = {0, CODE_CLEAR, MODE_PRE, 1, FLAG_CAB_ON, BRAKES_RELEASED, 0};
    static const struct record under_stop = {300, CODE_STOP, MODE_PRE, 1, FLAG_CAB_ON, BRAKES_RELEASED, 1};
    uint8_t *run = exercise + HEADER_BYTES + CARD_BYTES;

    make_exercise(2, FOLDHARBOR_MOST_TICKS);
    model_write_card(exercise + HEADER_BYTES, &long_curve);
    write_half(run, 1);
    model_write_record(run + RECORD_IN_RUN, &under_clear);
    write_half(run + RUN_BYTES, FOLDHARBOR_MOST_TICKS - 1);
    model_write_record(run + RUN_BYTES + RECORD_IN_RUN, &under_stop);
}

/* Whether the curve runs from the second tick to the last. */
static bool curve_lasts(void)
{
    const uint8_t *marks = answers_of_call + FOLDHARBOR_ANSWER_BYTES + FOLDHARBOR_ANSWER_MARKS;

    for (; marks < answers_of_call + sizeof answers_of_call; marks += FOLDHARBOR_ANSWER_BYTES)
        if (!(*marks & FOLDHARBOR_MARK_CURVE))
            return false;
    return true;
}

static void drive_by_call(void)
{
    foldharbor_outcome out = foldharbor_open(card_of_model(&card));

    for (uint32_t i = 0; i < DRIVE_TICKS; i++)
        out = foldharbor_tick(out.desk, samples[i], journal_of_call, sizeof journal_of_call);
    driven_by_call = out;
}

static void drive_by_model(void)
{
    struct outcome out = model_desk_open(card);

    for (uint32_t i = 0; i < DRIVE_TICKS; i++)
        out = model_desk_tick(out.desk, samples_of_model[i], journal_of_model, sizeof journal_of_model);
    driven_by_model = out;
}

static void step_back_by_call(void)
{
    stepped_back_by_call = foldharbor_step_back(driven_by_call.desk, STRUCK, journal_of_call, sizeof journal_of_call);
}

static void step_back_by_model(void)
{
    stepped_back_by_model =
        model_desk_step_back(driven_by_model.desk, STRUCK, journal_of_model, sizeof journal_of_model);
}

static void step_back_by_0(void)
{
    stepped_back_by_call = foldharbor_step_back(driven_by_call.desk, 0, journal_of_call, sizeof journal_of_call);
}

static void tell_by_call(void)
{
    told_by_call = foldharbor_why(driven_by_call.desk, journal_of_call, sizeof journal_of_call);
}

static void tell_by_model(void)
{
    told_by_model = model_desk_why(driven_by_model.desk, journal_of_model, sizeof journal_of_model);
}

static foldharbor_sample sample_of(const uint8_t *record)
{
    static const float pressure[] = {2.0f, 4.0f, 5.0f}; /* bar, one of each band */

    return (foldharbor_sample){
        .speed = (float)read_half(record) / 36,
        .pressure = pressure[record[6]],
        .code = record[2],
        .mode = record[3],
        .lever = record[4],
        .flags = record[5],
        .sense = record[7],
    };
}

/* The drive of an exercise: its first card, and a sample for each tick of its runs. The last is too fast: NZ2. */
static void make_drive(void)
{
    const uint8_t *run = exercise + HEADER_BYTES + CARD_BYTES;

    make_exercise(MANY_RUNS, DRIVE_TICKS);
    card = model_read_card(exercise + HEADER_BYTES);
    for (uint32_t made = 0; made < DRIVE_TICKS; run += RUN_BYTES) {
        for (uint32_t left = read_half(run); left > 0; left--, made++) {
            samples[made] = sample_of(run + RECORD_IN_RUN);
            samples_of_model[made] = model_of_sample(&samples[made]);
        }
    }
    samples[DRIVE_TICKS - 1].speed = samples_of_model[DRIVE_TICKS - 1].speed = MOST_SPEED / 36.0f;
}

static bool same_drives(void)
{
    drive_by_call();
    drive_by_model();
    step_back_by_call();
    step_back_by_model();
    tell_by_call();
    tell_by_model();
    return driven_by_call.desk.n == DRIVE_TICKS && !compare_outcomes(&driven_by_call, &driven_by_model).name &&
           !compare_outcomes(&stepped_back_by_call, &stepped_back_by_model).name && told_by_call.refusal == 0 &&
           !compare_reasons(&told_by_call, &told_by_model).name &&
           memcmp(journal_of_call, journal_of_model, sizeof journal_of_call) == 0;
}

/* Times of calls that do different work say nothing. */
static int differ(void)
{
    puts("call and model differ: no times");
    return 1;
}

int main(int count, char **arguments)
{
    if (count > 1)
        turns = atol(arguments[1]);
    make_exercise(MANY_RUNS, FOLDHARBOR_MOST_TICKS);
    if (!same_runs())
        return differ();
    measure("7,200 ticks in 2,000 runs, a tick:", run_by_call, run_by_model, CALLS_A_TURN, FOLDHARBOR_MOST_TICKS);
    measure("the reader alone on 2,000 runs, a run:", read_by_call, read_by_model, READER_CALLS_A_TURN, MANY_RUNS);
    make_one_run();
    if (!same_runs())
        return differ();
    measure("7,200 ticks in one run, a tick:", run_by_call, run_by_model, CALLS_A_TURN, FOLDHARBOR_MOST_TICKS);
    make_curve();
    if (!same_runs() || !curve_lasts())
        return differ();
    measure("7,200 ticks on a curve, moving, a tick:", run_by_call, run_by_model, CALLS_A_TURN, FOLDHARBOR_MOST_TICKS);
    make_drive();
    if (!same_drives())
        return differ();
    measure("a drive of 7,000 ticks, a tick:", drive_by_call, drive_by_model, CALLS_A_TURN, DRIVE_TICKS);
    measure("a step back by 10 from there, a tick left:", step_back_by_call, step_back_by_model, CALLS_A_TURN,
            DRIVE_TICKS - STRUCK);
    measure("why the valve is open there, a tick:", tell_by_call, tell_by_model, CALLS_A_TURN, DRIVE_TICKS);
    compare("the same against a step back by 0, a tick:", tell_by_call, step_back_by_0, "back", CALLS_A_TURN,
            DRIVE_TICKS);
    return 0;
}
