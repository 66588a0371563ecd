/*
 * A plain model of the desk in C, written from the rules and not from the proved code.
 * The tests compare the proved calls with it; the benchmark takes it as the measure.
 */
#ifndef FOLDHARBOR_MODEL_H
#define FOLDHARBOR_MODEL_H

#include <stddef.h>
#include <stdint.h>

enum { MODE_POS = 1, MODE_PRE = 2, MODE_VYL = 3, MODE_ZAV = 4 };

enum { CODE_NONE = 0, CODE_STOP = 1, CODE_WARNING = 2, CODE_FORTY = 3, CODE_CLEAR = 4 };

enum { /* bits of a record's flags; the lowest three are the buttons */
    FLAG_VIGILANCE = 1 << 0,
    FLAG_PLUS = 1 << 1,
    FLAG_MAN = 1 << 2,
    FLAG_DIRECT_BRAKE = 1 << 3,
    FLAG_REMOTE_STOP = 1 << 4,
    FLAG_ADHESION_LOSS = 1 << 5,
    FLAG_CAB_ON = 1 << 6,
    FLAGS_BUTTONS = FLAG_VIGILANCE | FLAG_PLUS | FLAG_MAN
};

enum { VIGILANCE_NONE = 0, VIGILANCE_ORDINARY = 1, VIGILANCE_INCREASED = 2 };

enum {
    MOST_SPEED = 2500,            /* of a card and of a record */
    TARGET_CAUTIOUS = 1200,       /* target of no code and of Warning, and the least speed of MAN */
    TARGET_FORTY = 400,           /* target of code 3 before any PLUS */
    TARGET_STEP = 200,            /* what one PLUS adds to it */
    TARGET_CLEAR = 1600,
    MOST_RAISE = 4,
    LONG_GAP = 50,                /* a gap of more ticks may begin MAN */
    PRE_CEILING = 1600,
    VYL_CEILING = 1200,
    EASED_BELOW = 150,            /* direct brake eases vigilance below this speed */
    WARNING_ORDINARY_UP_TO = 900, /* above it Warning asks for increased vigilance */
    INCREASED_CYCLE = 120,
    INCREASED_FROM = 85,          /* increased vigilance takes a press from this count on */
    PROMPT_TICKS = 35,
    SLOW_SET = 1000,              /* up to this set speed the lead is the long one */
    LONG_LEAD = 150,
    SHORT_LEAD = 100,
    START_SPAN = 99,              /* the start prompt is for a curve that stays out of reach for so many ticks */
    MOST_WRONG_WAY = 3600,        /* 10 m */
    ZS20_TICKS = 100,
    BRAKES_RELEASED = 2           /* pressure band */
};

enum { /* what the desk may hold beyond what the rules name */
    MOST_DRIVEN = 6250000, /* the longest curve has lost all of its 5 * 2500 * 2500 by then */
    MOST_VIGILANCE_TICKS = 599,
    MOST_STANDING = 1000,
    MOST_CAUSES = 31
};

enum { CARD_BYTES = 20, RECORD_BYTES = 8, ANSWER_BYTES = 8 };

enum { /* the exercise file */
    HEADER_BYTES = 10,
    RUN_BYTES = 10,
    RECORD_IN_RUN = 2, /* the record stands behind the ticks */
    MOST_CARDS = 8,
    MOST_RUNS = 6000
};

/* Speeds are in tenths of km/h, times in ticks of 0.1 s. The rules' letters stand in parentheses. */
struct card {
    uint32_t design, set, highest, pos_ceiling, zav_ceiling;
    uint32_t tolerance;
    uint32_t stop_target;
    uint32_t deceleration; /* tenths of km/h per second (r) */
    uint32_t cycle;        /* of ordinary vigilance */
    uint32_t wait;         /* of the movement check */
};

struct record {
    uint32_t speed; /* (v) */
    uint32_t code, mode, lever, flags, band, sense;
};

/* What a cab hands over at a tick: the floats in m/s and in bar, and the switches as a record has them. */
struct sample {
    float speed, pressure;
    uint32_t code, mode, lever, flags, sense;
};

/* What the desk holds for PRE alone: from the last code to the kind of the one-time prompt. */
struct signal {
    uint32_t last_code;
    uint32_t gap_code;     /* code before a gap (k) */
    uint32_t gap;          /* ticks without code, 51 at most (g) */
    uint32_t raise;        /* steps of PLUS under code 3 */
    uint32_t curve_start;  /* speed at its start, 0: no curve (V0) */
    uint32_t curve_driven; /* sum of the speeds since, its first tick's apart, in units of 1/360 m (E) */
    uint32_t man_speed;    /* 0: MAN off (M) */
    uint32_t lead_given;   /* the curve's prompt of kind 1 was given (w) */
    uint32_t prompt;       /* one-time prompt, 0: none (u) */
    uint32_t prompt_kind;
};

/* The desk without its card and without the count of ticks, which no rule asks for. */
struct state {
    uint32_t mode;
    uint32_t buttons; /* of the tick before */
    struct signal signal;
    uint32_t vigilance_kind;  /* 0 none, 1 ordinary, 2 increased */
    uint32_t vigilance_ticks; /* (q) */
    uint32_t wrong_way;       /* distance moved against the direction set (d) */
    uint32_t standing;        /* ticks stood with brakes released (h) */
    uint32_t causes;          /* held, NZ1 in bit 0 */
};

/* The desk: handed in and handed back by each call. */
struct desk {
    struct card card;
    uint32_t ticks; /* (n) */
    struct state state;
};

struct outcome {
    struct desk desk;
    uint8_t answer[ANSWER_BYTES];
    uint32_t refusal; /* 0 if accepted */
};

enum { CAUSES = 5 };

/* Why a cause is held; zeros where it is not. */
struct reason {
    uint32_t tick; /* at which its present holding began, from 1 */
    struct record record;
};

struct reasons {
    uint32_t refusal; /* 0 if accepted */
    struct reason of_cause[CAUSES];
};

struct exercise_counts {
    uint32_t cards, runs, ticks;
};

/* A card and a record in their bytes, in range or not. */
struct card model_read_card(const uint8_t *place);
void model_write_card(uint8_t *place, const struct card *card);
void model_write_record(uint8_t *place, const struct record *record);

/* The state of a desk on which no tick has been played. */
struct state model_fresh_state(void);

/* Plays one tick: changes the state and writes the 8 answer bytes. Card and record are in range. */
void model_tick(const struct card *card, struct state *state, const struct record *record, uint8_t *answer);

/* The calls on a desk. They take anything and do the same as foldharbor_open, _tick, _step_back, _restart and _why. */
struct outcome model_desk_open(struct card card);
struct outcome model_desk_tick(struct desk desk, struct sample sample, uint8_t *journal, size_t journal_length);
struct outcome model_desk_step_back(struct desk desk, uint32_t count, const uint8_t *journal, size_t journal_length);
struct outcome model_desk_restart(struct desk desk);
struct reasons model_desk_why(struct desk desk, const uint8_t *journal, size_t journal_length);

/* Reads an exercise file: gives the number of the refusal, 0 if accepted, and the counts, zeros if refused. */
uint32_t model_read_exercise(const uint8_t *exercise, size_t exercise_length, struct exercise_counts *counts);

/* The same as foldharbor_run_exercise. */
uint32_t model_run_exercise(const uint8_t *exercise, size_t exercise_length, uint32_t card, uint8_t *answers,
                            size_t answers_length);

#endif
