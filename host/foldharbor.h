/*
 * Foldharbor, the train-protection desk, for C and C++ on x86-64 Linux. Link with libfoldharbor.a.
 *
 * A cab that is driven live, ten times a second:
 *
 *   foldharbor_open            a fresh desk of a card
 *   foldharbor_tick            the cab's readings in, the answer out
 *   foldharbor_step_back       strikes the last so many ticks
 *   foldharbor_restart         strikes all of them
 *   foldharbor_why             tells since which tick each cause is held
 *
 * A whole exercise, a file of cards and runs:
 *
 *   foldharbor_read_exercise   judges the file and counts its cards, runs and ticks
 *   foldharbor_run_exercise    runs it under one of its cards and writes an answer for each tick
 *
 * And beside them:
 *
 *   foldharbor_card_at, foldharbor_put_card, foldharbor_answer_at, foldharbor_put_answer
 *                              a card and an answer from their bytes, and to them
 *   foldharbor_text            finds a message's text in a table of texts, in one of two languages
 *   foldharbor_version         the version of the archive
 *
 * A live host in short (host/live.c in the source is a whole one):
 *
 *   static uint8_t journal[FOLDHARBOR_JOURNAL_BYTES];
 *   foldharbor_outcome out = foldharbor_open(card);
 *   int refused = 0; // ticks in a row
 *
 *   if (out.refusal != 0)
 *       give_up(out.refusal);
 *   while (ten_times_a_second()) {
 *       out = foldharbor_tick(out.desk, readings_of_the_cab(), journal, sizeof journal);
 *       if (out.refusal == 0)
 *           show(out.answer);
 *       else
 *           show_fault(out.refusal);
 *       refused = out.refusal == 0 ? 0 : refused + 1;
 *       set_valve(out.desk.state.causes != 0 || refused >= 10);
 *   }
 *
 * A desk takes 7,200 ticks, 12 minutes; then each tick is refused with FOLDHARBOR_FULL_JOURNAL, until a step back, a
 * restart or another opening. While ticks are refused no time passes on the desk: a host that goes on driving so has to
 * open the valve by itself, above after a second.
 *
 * Every call returns, whatever is handed over: any number, any struct and any bytes. What does not fit is refused with
 * a number (the four calls on the bytes of a card or an answer give zeros), and a refused call changes nothing. Nothing
 * is kept from one call to the next, and no call waits, allocates or reads a clock: threads may call at the same time,
 * while nobody else writes what a call reads or touches what it writes. What is asked of a host is only
 * - that each pointer is good for its length, not null even if the length is 0;
 * - that bytes which a call writes do not overlap bytes which it reads;
 * - for a tick, that floats are dealt with as at the start of a C program. Where a host lets a NaN trap, as by
 *   feenableexcept, the call may not return, and where it has numbers next to zero taken as zero, as -ffast-math may, a
 *   speed or a pressure just below zero is not refused.
 */
#ifndef FOLDHARBOR_H
#define FOLDHARBOR_H

#include <stddef.h>
#include <stdint.h>

#ifdef __cplusplus
extern "C" {
#endif

/*
 * The version of this header, 2.0.0: 10,000 times the first number, 100 times the second, and the third. The call
 * returns the archive's. The first numbers of the two have to be the same: otherwise the structs may differ.
 *
 * What a host of version 1 meets: with 2 a braking curve falls by distance and no longer by time, and the desk's curve
 * has driven in place of age.
 * - A desk has 60 bytes and an outcome 72, so compile anew. A desk that was kept as bytes can't be taken over.
 * - Cards, journals, exercises and answers keep their bytes. But the same drive may give another P, other prompts and
 *   other causes, and a drive that was kept under 1 (card, n and journal) is rebuilt by the new rule.
 */
#define FOLDHARBOR_VERSION 20000
uint32_t foldharbor_version(void);

/*
 * Refusals; 0 is none, 18 to 22 are not used yet. Each call lists those that it gives in the order in which they are
 * looked for, and gives the first that applies.
 */
enum {
    FOLDHARBOR_BAD_SPEED = 1,     /* of a sample: not a number, infinite, below 0, or above 250.0 km/h when rounded */
    FOLDHARBOR_BAD_PRESSURE = 2,  /* of a sample: not a number, or not from 0 to 10 bar */
    FOLDHARBOR_BAD_FIELD = 3,     /* another field of a sample is out of range */
    FOLDHARBOR_BAD_CARD = 4,      /* a field of a card is out of range; in a file of any card, asked for or not */
    FOLDHARBOR_BAD_DESK = 5,      /* a field of the desk or of its card is out of range */
    FOLDHARBOR_SHORT_JOURNAL = 6, /* the journal has fewer than 8n bytes, for the desk's n ticks */
    FOLDHARBOR_FULL_JOURNAL = 7,  /* it has fewer than 8n + 8, or n is 7,200 */
    FOLDHARBOR_BACK_TOO_FAR = 8,  /* more ticks to strike than the desk has */
    FOLDHARBOR_BAD_RECORD = 9,    /* a record is out of range: one that a step back leaves, one of the desk's n where it
                                     is asked why, or a run's in a file */
    FOLDHARBOR_BAD_FILE = 10,     /* shorter than a header, a count out of range, or an offset, the total or the real
                                     length is not what the counts give */
    FOLDHARBOR_BAD_TICKS = 11,    /* a run of 0 ticks, or one that takes the sum of ticks over 7,200 */
    FOLDHARBOR_SHORT_BUFFER = 12, /* the answer buffer has fewer than 8 bytes for each tick */
    FOLDHARBOR_NO_SUCH_CARD = 13, /* the file has no card of the asked number: 0, or above its count */
    FOLDHARBOR_VALVE_CLOSED = 14, /* no cause is held: there is nothing to tell */
    FOLDHARBOR_BAD_TABLE = 15,    /* anything in the chosen table of texts is not as said below, in whatever message */
    FOLDHARBOR_NO_SUCH_MESSAGE = 16,  /* the message's number is not below the chosen table's count */
    FOLDHARBOR_NO_SUCH_LANGUAGE = 17, /* the language is neither 1 nor 2 */
    FOLDHARBOR_OTHER_DESK = 23,       /* the desk is not the one that the journal rebuilds, in whatever field */
    FOLDHARBOR_REFUSED = 10000        /* foldharbor_run_exercise returns this plus the number */
};

/*
 * Units: a tick is 0.1 s, and speeds are in tenths of km/h, if nothing else is said.
 */
enum { /* sizes in bytes, and limits */
    FOLDHARBOR_MOST_TICKS = 7200, /* of a desk, and of all runs of an exercise: 12 minutes */
    FOLDHARBOR_RECORD_BYTES = 8,
    FOLDHARBOR_JOURNAL_BYTES = FOLDHARBOR_RECORD_BYTES * FOLDHARBOR_MOST_TICKS, /* enough for any drive */
    FOLDHARBOR_ANSWER_BYTES = 8,
    FOLDHARBOR_CARD_BYTES = 20,
    FOLDHARBOR_MOST_SPEED = 2500, /* of a card and of a record */
    FOLDHARBOR_MOST_TOLERANCE = 100,
    FOLDHARBOR_MOST_STOP = 400,
    FOLDHARBOR_LEAST_DECELERATION = 5,
    FOLDHARBOR_MOST_DECELERATION = 40,
    FOLDHARBOR_LEAST_CYCLE = 150,
    FOLDHARBOR_MOST_CYCLE = 600,
    FOLDHARBOR_SHORT_WAIT = 250,
    FOLDHARBOR_LONG_WAIT = 1000,
    FOLDHARBOR_HEADER_BYTES = 10, /* of an exercise file */
    FOLDHARBOR_RUN_BYTES = 2 + FOLDHARBOR_RECORD_BYTES,
    FOLDHARBOR_MOST_CARDS = 8, /* in an exercise file, and at least one */
    FOLDHARBOR_MOST_RUNS = 6000, /* in an exercise file; none is good too */
    FOLDHARBOR_MOST_BYTES = FOLDHARBOR_HEADER_BYTES + FOLDHARBOR_MOST_CARDS * FOLDHARBOR_CARD_BYTES +
                            FOLDHARBOR_MOST_RUNS * FOLDHARBOR_RUN_BYTES, /* of the longest exercise file */
    FOLDHARBOR_MOST_MESSAGES = 64, /* in a table of texts */
    FOLDHARBOR_MOST_TABLE_BYTES = 65535
};

/* The card: what the train is, as the school sets it. In parentheses, here and below, the range. */
typedef struct foldharbor_card {
    uint16_t design;       /* design speed: the permitted speed is at most this (1 to 2500, as the next four) */
    uint16_t set;          /* set speed: likewise; up to 1000 the one-time prompt looks further ahead */
    uint16_t highest;      /* highest speed: likewise */
    uint16_t pos;          /* ceiling of mode POS */
    uint16_t zav;          /* ceiling of mode ZAV */
    uint16_t tolerance;    /* over the permitted speed before NZ2 (0 to 100) */
    uint16_t stop;         /* target of code Stop (0 to 400) */
    uint16_t deceleration; /* of a braking curve, in tenths of km/h per second (5 to 40) */
    uint16_t cycle;        /* of ordinary vigilance, in ticks (150 to 600) */
    uint16_t wait;         /* of the movement check, in ticks (250 or 1000, no other) */
} foldharbor_card;

enum { /* signal codes, and the target T of each */
    FOLDHARBOR_CODE_NONE = 0,    /* 1200 */
    FOLDHARBOR_CODE_STOP = 1,    /* the card's */
    FOLDHARBOR_CODE_WARNING = 2, /* 1200 */
    FOLDHARBOR_CODE_FORTY = 3,   /* "40 and warning": 400, and 200 more for each press of PLUS, four times at most */
    FOLDHARBOR_CODE_CLEAR = 4    /* 1600 */
};

enum { /* modes, and the ceiling of each */
    FOLDHARBOR_MODE_POS = 1, /* shunting: the card's; a fresh desk is in it */
    FOLDHARBOR_MODE_PRE = 2, /* operation under signal codes: 1600 */
    FOLDHARBOR_MODE_VYL = 3, /* lockout, operation without signal codes: 1200 */
    FOLDHARBOR_MODE_ZAV = 4  /* dead in tow: the card's */
};

enum { /* of the lever, and of motion */
    FOLDHARBOR_NO_DIRECTION = 0,
    FOLDHARBOR_FORWARD = 1,
    FOLDHARBOR_REVERSE = 2
};

/*
 * Bits of the flags of a sample and of a record; the highest bit is 0. The first three are buttons, set while the
 * button is down; a press is a tick with the button down after a tick with it up, or as a desk's first.
 */
enum {
    FOLDHARBOR_FLAG_VIGILANCE = 1 << 0,
    FOLDHARBOR_FLAG_PLUS = 1 << 1,
    FOLDHARBOR_FLAG_MAN = 1 << 2,
    FOLDHARBOR_FLAG_DIRECT_BRAKE = 1 << 3,
    FOLDHARBOR_FLAG_REMOTE_STOP = 1 << 4,
    FOLDHARBOR_FLAG_ADHESION_LOSS = 1 << 5,
    FOLDHARBOR_FLAG_CAB_ON = 1 << 6
};

/* A sample: the cab's readings at a tick. */
typedef struct foldharbor_sample {
    float speed;    /* in m/s, rounded to tenths of km/h exactly, halves up (0 to below 2500.5 / 36) */
    float pressure; /* in the main line, in bar (0 to 10) */
    uint8_t code;   /* signal code (0 to 4) */
    uint8_t mode;   /* asked for: taken in a tick at speed 0, and passed over while the train moves; a new one clears
                       all of the desk but card, n, buttons and causes (1 to 4) */
    uint8_t lever;  /* its direction (0 to 2) */
    uint8_t flags;  /* (0 to 127) */
    uint8_t sense;  /* direction of motion; 0 at a moving train is none that agrees with the lever (0 to 2) */
} foldharbor_sample;

/*
 * How the permitted speed P comes about: it is the least of the card's design, set and highest speed, the mode's
 * ceiling and, in PRE, the signal speed. The signal speed is T, but for two cases:
 * - A new code with a T below the old signal speed begins a braking curve. It falls from the old signal speed, whatever
 *   P is, down to T, so P may stand for a while though the curve runs. It falls by the distance driven, as the speed of
 *   a train that brakes by the card's deceleration: while the train stands the curve stands.
 * - MAN, where the driver brakes on his own responsibility, begins by a press of MAN or by adhesion loss while a curve
 *   runs, which it ends; and where the code after more than 5 s without one has a lower T than the code before those
 *   has without PLUS, and then no curve begins. The signal speed is then the train's speed as it falls, and not below
 *   1200. While MAN stays on a new code begins no curve. It ends at speeds up to T while the code stays, and by a new
 *   code with a T above the train's speed.
 */
enum { /* bits of an answer's marks */
    FOLDHARBOR_MARK_MAN = 1 << 0,             /* MAN is on */
    FOLDHARBOR_MARK_CURVE = 1 << 1,           /* a braking curve is running */
    FOLDHARBOR_MARK_CYCLIC_PROMPT = 1 << 2,   /* cyclic vigilance wants a press: the last 35 ticks of its cycle; of
                                                 increased vigilance a press before does not count */
    FOLDHARBOR_MARK_ONE_TIME_PROMPT = 1 << 3, /* one-time vigilance wants a press: for 34 ticks */
    FOLDHARBOR_MARK_ONE_TIME_KIND = 1 << 4,   /* kind of that prompt: 0 at a curve's start, 1 when nearing the curve */
    FOLDHARBOR_MARK_ZS20 = 1 << 5             /* warning tone: from 100 ticks before NZ5 on */
};

/*
 * Bits of the causes. Each opens the emergency brake valve for as long as it is held: until a press of vigilance, in a
 * tick that does not trigger it anew, under the condition in parentheses. NZ2 is triggered in every mode, the others in
 * PRE and VYL alone.
 */
enum {
    FOLDHARBOR_NZ1 = 1 << 0, /* a prompt ran for all its ticks without a press (speed 0) */
    FOLDHARBOR_NZ2 = 1 << 1, /* faster than P and the tolerance (at most P) */
    FOLDHARBOR_NZ3 = 1 << 2, /* moved 10 m without cab on, or without sense and lever both 1 or both 2 (speed 0) */
    FOLDHARBOR_NZ4 = 1 << 3, /* remote stop (speed 0, remote stop off) */
    FOLDHARBOR_NZ5 = 1 << 4, /* stood for the card's wait, direct brake off and from 4.5 bar (always) */
    FOLDHARBOR_CAUSES = 5    /* how many there are */
};

/* An answer: what the desk shows after a tick. */
typedef struct foldharbor_answer {
    uint16_t permitted; /* permitted speed P */
    uint16_t target;    /* target speed T of the signal code, with the raises by PLUS; 0 outside mode PRE */
    uint8_t marks;
    uint8_t causes; /* that are held: the valve is open exactly when this is not 0 */
    uint8_t lowest; /* number of the lowest held cause, 1 to 5; 0 if none is held */
    uint8_t held;   /* how many causes are held, 0 to 5 */
} foldharbor_answer;

/*
 * The desk: all that is kept between ticks. A host keeps it, copies it, puts it back, together with the first 8n bytes
 * of its journal, and hands it to the next call. It may read the fields; what it writes there a call judges by its
 * range alone (FOLDHARBOR_BAD_DESK), foldharbor_why by the journal too (FOLDHARBOR_OTHER_DESK). Desks are compared
 * field by field: bytes between the fields hold anything.
 */
typedef struct foldharbor_codes {
    uint8_t last;        /* code of the last tick; 0 outside PRE (0 to 4) */
    uint8_t interrupted; /* code before a gap without code (0 to 4) */
    uint8_t gap;         /* its length in ticks, 51 for any longer (0 to 51) */
    uint8_t raise;       /* presses of PLUS that count under code "40 and warning" (0 to 4) */
} foldharbor_codes;

/*
 * While a curve runs in a drive, the signal speed is the largest w with
 *
 *   5 * w * w <= 5 * start * start - deceleration * driven (0 if that is below 0)
 *
 * by the card's deceleration. Where w is not above T the curve ends.
 */
typedef struct foldharbor_curve {
    uint16_t start;   /* speed that the braking curve starts from; 0: no curve (0 to 2500) */
    uint32_t driven;  /* the sum of the train's speeds at the ticks since it began, its first apart, in units of 1/360 m
                         (0 to 6250000) */
    uint8_t prompted; /* whether its prompt of kind 1 was given (0 to 1) */
} foldharbor_curve;

typedef struct foldharbor_signal {
    foldharbor_codes codes;
    foldharbor_curve curve;
    uint16_t man; /* speed under MAN; 0: MAN is off (0 to 2500) */
} foldharbor_signal;

typedef struct foldharbor_prompt { /* of one-time vigilance */
    uint8_t ticks;                 /* 1 in the tick in which it comes; 0: no prompt (0 to 35, 34 at most in a drive) */
    uint8_t kind;                  /* (0 to 1) */
} foldharbor_prompt;

typedef struct foldharbor_cyclic { /* cyclic vigilance */
    uint8_t kind;                  /* 0 none, 1 ordinary, 2 increased, with a cycle of 120 ticks (0 to 2) */
    uint16_t ticks;                /* since it was confirmed, lapsed or began (0 to 599) */
} foldharbor_cyclic;

typedef struct foldharbor_state {
    uint8_t mode;    /* (1 to 4) */
    uint8_t buttons; /* of the last tick: the lowest three flags (0 to 7) */
    foldharbor_signal signal;
    foldharbor_prompt prompt;
    foldharbor_cyclic cyclic;
    uint16_t wrongway; /* distance that counts for NZ3, in units of 1/360 m (0 to 3600) */
    uint16_t standing; /* ticks of standing that count for NZ5 (0 to 1000) */
    uint8_t causes;    /* that are held (0 to 31) */
} foldharbor_state;

typedef struct foldharbor_desk {
    foldharbor_card card;
    uint16_t n; /* ticks, which is how many records its journal holds (0 to 7200) */
    foldharbor_state state;
} foldharbor_desk;

/*
 * What a call on a desk returns, but for foldharbor_why. A refusal gives back the desk that was handed in, and an
 * answer of zeros. So a host always goes on with the desk, and sets the valve by desk.state.causes, which a refused
 * reading leaves as it was.
 *
 * A refused tick did not happen: on the desk no time passes and no distance is driven, so prompts and curves stand
 * still. A host whose ticks stay refused, by bad readings or by a full journal, opens the valve by itself.
 */
typedef struct foldharbor_outcome {
    foldharbor_desk desk;
    foldharbor_answer answer;
    uint8_t refusal; /* 0 if accepted */
} foldharbor_outcome;

/*
 * Opens a desk: the fresh desk of the card, in mode POS with nothing held, and an answer of zeros.
 * Refusal: FOLDHARBOR_BAD_CARD; then every field of the desk is 0, card and mode too, and every call refuses it.
 */
foldharbor_outcome foldharbor_open(foldharbor_card card);

/*
 * Plays one tick: the desk a tick later, and what it shows. Writes the tick's record to bytes 8n to 8n + 7 of the
 * journal, for the n of the desk handed in, and no other byte. Refusals: FOLDHARBOR_BAD_DESK, FOLDHARBOR_SHORT_JOURNAL,
 * FOLDHARBOR_FULL_JOURNAL, FOLDHARBOR_BAD_SPEED, FOLDHARBOR_BAD_PRESSURE, FOLDHARBOR_BAD_FIELD; then no byte of the
 * journal changes.
 *
 * The journal is a buffer of the host's with the records of all ticks. Hand the same buffer to every call on a desk,
 * and leave its bytes alone: a step back rebuilds the desk from them, and why is told from them. What it holds before
 * the first tick does not matter. FOLDHARBOR_JOURNAL_BYTES are enough for any drive; a shorter one is full earlier.
 */
foldharbor_outcome foldharbor_tick(foldharbor_desk desk, foldharbor_sample sample, uint8_t *journal,
                                   size_t journal_length);

/*
 * Strikes the last k ticks: the desk and the answer as they were after the tick before those, rebuilt from the journal;
 * an answer of zeros where no tick is left. 10 ticks are a second; k may be 0. Writes nothing: the next ticks are
 * recorded over the struck ones. Refusals: FOLDHARBOR_BAD_DESK, FOLDHARBOR_SHORT_JOURNAL, FOLDHARBOR_BACK_TOO_FAR,
 * FOLDHARBOR_BAD_RECORD.
 *
 * Of a desk in range it looks at card and n alone. So a drive is kept in a file as its card (foldharbor_put_card), its
 * n and the first 8n bytes of its journal, and is taken up again by
 *
 *   out = foldharbor_open(foldharbor_card_at(kept, FOLDHARBOR_CARD_BYTES));
 *   out.desk.n = n;
 *   out = foldharbor_step_back(out.desk, 0, journal, journal_length);
 */
foldharbor_outcome foldharbor_step_back(foldharbor_desk desk, uint32_t k, const uint8_t *journal,
                                        size_t journal_length);

/*
 * Strikes all ticks: the fresh desk of the same card, with nothing held, and an answer of zeros.
 * Refusal: FOLDHARBOR_BAD_DESK.
 */
foldharbor_outcome foldharbor_restart(foldharbor_desk desk);

/* A record: what a tick goes by, and what the journal keeps of it. Ranges are as in a sample. */
typedef struct foldharbor_record {
    uint16_t v;   /* the train's speed (0 to 2500) */
    uint8_t code; /* signal code */
    uint8_t mode; /* asked for */
    uint8_t lever;
    uint8_t flags;
    uint8_t band;  /* of the pressure (0 to 2) */
    uint8_t sense; /* of motion */
} foldharbor_record;

/* Why a cause is held; zeros where it is not. */
typedef struct foldharbor_reason {
    uint16_t tick; /* at which its present holding began: the drive's first is 1 (1 to 7200; 0: not held) */
    foldharbor_record reading;
} foldharbor_reason;

/* Of each cause why it is held. */
typedef struct foldharbor_reasons {
    uint8_t refusal;                               /* 0 if accepted */
    foldharbor_reason of_cause[FOLDHARBOR_CAUSES]; /* by the cause's bit: NZ1 is the first */
} foldharbor_reasons;

/*
 * Tells why the valve is open: of each held cause the tick at which its present holding began, and that tick's record.
 * At that tick the cause was triggered; it was not held just before, and has been held at every tick since. Of a cause
 * that was let go and came again it is the tick at which it came again. Struck ticks do not count.
 *
 * Reads the n records of the desk and writes nothing: the drive goes on with the same desk. Tick t is t tenths of a
 * second into the drive, so that each cause is printed with its tick and its time in minutes and seconds by
 *
 *   foldharbor_reasons why = foldharbor_why(out.desk, journal, sizeof journal);
 *
 *   for (unsigned bit = 0; bit < FOLDHARBOR_CAUSES; bit++) {
 *       unsigned tick = why.of_cause[bit].tick;
 *
 *       if (tick > 0)
 *           printf("NZ%u since tick %u, %u:%02u.%u\n", bit + 1, tick, tick / 600, tick / 10 % 60, tick % 10);
 *   }
 *
 * The text of the cause is message FOLDHARBOR_TEXT_CAUSE + bit. A refusal gives zeros beside its number, so that this
 * prints nothing. Refusals: FOLDHARBOR_BAD_DESK, FOLDHARBOR_SHORT_JOURNAL, FOLDHARBOR_BAD_RECORD,
 * FOLDHARBOR_OTHER_DESK, FOLDHARBOR_VALVE_CLOSED, also where the host alone opened the valve.
 */
foldharbor_reasons foldharbor_why(foldharbor_desk desk, const uint8_t *journal, size_t journal_length);

/*
 * Bytes. Numbers of 16 bits have their low byte first. docs/FORMATS.md in the source has every format with examples.
 */
enum { /* places in a card, 16 bits each, in the order of the struct's fields */
    FOLDHARBOR_CARD_DESIGN = 0,
    FOLDHARBOR_CARD_SET = 2,
    FOLDHARBOR_CARD_HIGHEST = 4,
    FOLDHARBOR_CARD_POS = 6,
    FOLDHARBOR_CARD_ZAV = 8,
    FOLDHARBOR_CARD_TOLERANCE = 10,
    FOLDHARBOR_CARD_STOP = 12,
    FOLDHARBOR_CARD_DECELERATION = 14,
    FOLDHARBOR_CARD_CYCLE = 16,
    FOLDHARBOR_CARD_WAIT = 18
};

enum { /* places in an answer, likewise; the first two have 16 bits, the others 8 */
    FOLDHARBOR_ANSWER_PERMITTED = 0,
    FOLDHARBOR_ANSWER_TARGET = 2,
    FOLDHARBOR_ANSWER_MARKS = 4,
    FOLDHARBOR_ANSWER_CAUSES = 5,
    FOLDHARBOR_ANSWER_LOWEST = 6,
    FOLDHARBOR_ANSWER_HELD = 7
};

enum { /* places in a record; ranges as in a sample */
    FOLDHARBOR_RECORD_SPEED = 0, /* 16 bits; the others have 8 (0 to 2500) */
    FOLDHARBOR_RECORD_CODE = 2,
    FOLDHARBOR_RECORD_MODE = 3, /* asked for */
    FOLDHARBOR_RECORD_LEVER = 4,
    FOLDHARBOR_RECORD_FLAGS = 5,
    FOLDHARBOR_RECORD_BAND = 6, /* of the pressure (0 to 2) */
    FOLDHARBOR_RECORD_SENSE = 7 /* of motion */
};

enum { /* bands of the pressure, in bar */
    FOLDHARBOR_BAND_BELOW_3_5 = 0,
    FOLDHARBOR_BAND_BELOW_4_5 = 1, /* and from 3.5 */
    FOLDHARBOR_BAND_FROM_4_5 = 2   /* no brake by the main line */
};

/* The card in the first 20 bytes, in range or not; of fewer bytes a card of zeros, which no desk opens with. */
foldharbor_card foldharbor_card_at(const uint8_t *bytes, size_t length);

/* Writes the card to the first 20 bytes and returns 20; where there are fewer, writes nothing and returns 0. */
size_t foldharbor_put_card(foldharbor_card card, uint8_t *bytes, size_t length);

/* The answer in the first 8 bytes, such as an answer of foldharbor_run_exercise; of fewer bytes an answer of zeros. */
foldharbor_answer foldharbor_answer_at(const uint8_t *bytes, size_t length);

/* Writes the answer to the first 8 bytes and returns 8; where there are fewer, writes nothing and returns 0. */
size_t foldharbor_put_answer(foldharbor_answer answer, uint8_t *bytes, size_t length);

/*
 * An exercise file: a header, the cards, the runs, and nothing behind them. A run is so many ticks of one record.
 */
enum { /* places in the header, 16 bits each */
    FOLDHARBOR_FILE_CARDS = 0,        /* count */
    FOLDHARBOR_FILE_RUNS = 2,         /* count */
    FOLDHARBOR_FILE_CARDS_OFFSET = 4, /* where the cards begin: behind the header */
    FOLDHARBOR_FILE_RUNS_OFFSET = 6,  /* where the runs begin: behind the cards */
    FOLDHARBOR_FILE_LENGTH = 8        /* of the whole file */
};

enum { /* places in a run */
    FOLDHARBOR_RUN_TICKS = 0, /* 16 bits, at least 1 */
    FOLDHARBOR_RUN_RECORD = 2
};

/* What an exercise file holds; if it is refused, the three counts are 0. */
typedef struct foldharbor_counts {
    uint8_t refusal; /* 0 if accepted */
    uint16_t cards;
    uint16_t runs;
    uint16_t ticks; /* of all runs: foldharbor_run_exercise wants FOLDHARBOR_ANSWER_BYTES for each */
} foldharbor_counts;

/*
 * Reads an exercise file. Refusals: FOLDHARBOR_BAD_FILE, FOLDHARBOR_BAD_CARD; then, in one run after the other, so that
 * an earlier run comes first, FOLDHARBOR_BAD_TICKS, FOLDHARBOR_BAD_RECORD.
 */
foldharbor_counts foldharbor_read_exercise(const uint8_t *exercise, size_t exercise_length);

/*
 * Runs the exercise from a fresh desk of the asked card.
 *
 *   card      which of its cards, counted from 1
 *   answers   where the answers go, 8 bytes for each tick, the first tick first
 *
 * Returns the count of ticks, 0 to 7,200; bytes of the buffer behind the last answer keep their values. A refusal
 * returns FOLDHARBOR_REFUSED plus its number, so a number above it, and changes no byte of the buffer:
 * FOLDHARBOR_BAD_FILE, FOLDHARBOR_BAD_CARD, FOLDHARBOR_NO_SUCH_CARD; then, in one run after the other,
 * FOLDHARBOR_BAD_TICKS, FOLDHARBOR_BAD_RECORD; then FOLDHARBOR_SHORT_BUFFER.
 */
uint32_t foldharbor_run_exercise(const uint8_t *exercise, size_t exercise_length, uint32_t card, uint8_t *answers,
                                 size_t answers_length);

/*
 * A table of texts has the messages of one language. Its numbers have 16 bits, low byte first:
 *
 *   count       how many messages, 1 to 64
 *   offsets     count + 1 of them, from the table's first byte: message k is from offset k up to offset k + 1
 *   messages    in UTF-8, one right behind the other with nothing between them
 *
 * The first offset is the place just after the offsets, 4 + 2 * count. No offset is below the one before it, so a
 * message may be empty. The last offset is the table's length, so a table has 65,535 bytes at most. Each message is
 * well-formed by itself, as the Unicode Standard defines UTF-8: no character is split over two messages.
 */
/* Where a text is in its table: from start up to end, which is the place behind its last byte. */
typedef struct foldharbor_place {
    uint8_t refusal; /* 0 if accepted; else start and end are 0 */
    uint16_t start;
    uint16_t end;
} foldharbor_place;

/*
 * Finds the text of a message. It is a part of the chosen table and no copy.
 *
 *   first, second   the tables of language 1 and of language 2
 *   language        which of them is the chosen one, 1 or 2
 *   message         which message, counted from 0
 *
 * Returns the text's place in the chosen table, which is judged as a whole in each call. The bytes of the other have no
 * influence and may be any. Neither is ever changed. With table for the chosen one, the text is printed by
 *
 *   printf("%.*s", place.end - place.start, (const char *)table + place.start);
 *
 * A refusal's place is empty, so that this prints nothing. UTF-8 allows a zero byte in a message; printf stops there.
 * The two tables may be the same or overlap. Refusals: FOLDHARBOR_NO_SUCH_LANGUAGE, FOLDHARBOR_BAD_TABLE,
 * FOLDHARBOR_NO_SUCH_MESSAGE.
 */
foldharbor_place foldharbor_text(const uint8_t *first, size_t first_length, const uint8_t *second, size_t second_length,
                                 uint32_t language, uint32_t message);

/*
 * The numbers of the desk's own messages, the same in its English and in its Slovak table, which texts/tables.sh in the
 * source makes. What is added begins at 0 or at 1, so that no two are the same.
 */
enum {
    FOLDHARBOR_TEXT_CAUSE = 0,            /* + bit in the causes, 0 to 7; no answer has bits 5 to 7 yet */
    FOLDHARBOR_TEXT_MARK = 8,             /* + bit in the marks, 0 to 2 and 5 */
    FOLDHARBOR_TEXT_ONE_TIME_PROMPT = 11, /* + kind of that prompt, 0 or 1: bit 4 of the marks where bit 3 is set */
    FOLDHARBOR_TEXT_CODE = 14,            /* + signal code, 0 to 4: none, Stop, Warning, 40 and warning, Clear */
    FOLDHARBOR_TEXT_MODE = 18,            /* + mode, 1 to 4: POS, PRE, VYL, ZAV */
    FOLDHARBOR_TEXT_REFUSAL = 22,         /* + number of the refusal, 1 to 23 */
    FOLDHARBOR_TEXTS = 46                 /* how many there are */
};

#ifdef __cplusplus
}
#endif

#endif
