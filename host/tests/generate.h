/* Makes exercises and drives for the tests and for the benchmark: a driver made of dice in front of a desk. */
#ifndef FOLDHARBOR_GENERATE_H
#define FOLDHARBOR_GENERATE_H

#include <stddef.h>
#include <stdint.h>

#include "dice.h"
#include "model.h"

enum phase { STANDING, SETTING_OFF, CREEPING, CRUISING, KEEPING_TO_LIMIT, BRAKING, AT_BORDERS, ERRATIC, PHASES };

/* The driver sees the desk, so that speeds, presses and lengths fall around the limits. */
struct driver {
    struct dice *dice;
    struct card card;
    struct state state;           /* of the desk, kept up to date by whoever plays the ticks */
    uint8_t answer[ANSWER_BYTES]; /* that the desk shows, likewise */
    struct record record;         /* that the driver has chosen */
    enum phase phase;
    uint32_t carelessness; /* one prompt in so many is answered at once */
    bool aimed;            /* the last run was cut to end at a border */
    bool gap_made;         /* the last run was a gap in the code, so that the next has a code */
};

/* A card in range. */
struct card generate_card(struct dice *dice);

/* The last distance, in units of 1/360 m, at which a curve of this start is above the target; 0 if it never is. */
uint32_t end_of_curve(const struct card *card, uint32_t start, uint32_t target);

/* A driver in front of a fresh desk of the card. */
struct driver generate_driver(struct dice *dice, const struct card *card);

/* Chooses the next record, in range, and gives its ticks, 1 to the most: about the mean, or up to some border. */
uint32_t generate_run(struct driver *driver, uint32_t mean, uint32_t most);

/*
 * Writes an exercise of exactly so many cards, runs and ticks (at least one tick a run) and gives its length.
 * Every field of a card and of a record is in range; the counts are taken as they are, in range or not.
 */
size_t generate_exercise(struct dice *dice, uint32_t cards, uint32_t runs, uint32_t ticks, uint8_t *exercise);

#endif
