/* Dice for the tests: from one start, the same rolls on every machine. */
#ifndef FOLDHARBOR_DICE_H
#define FOLDHARBOR_DICE_H

#include <stdbool.h>
#include <stdint.h>

struct dice {
    uint64_t state;
};

/* Dice of its own for each thing that is made, so that one can be made again without those before it. */
static inline struct dice dice_for(uint64_t seed, uint64_t number)
{
    return (struct dice){seed * 0xD1342543DE82EF95u + number};
}

/* A number from 0 to sides - 1. */
static inline uint32_t dice_roll(struct dice *dice, uint32_t sides)
{
    uint64_t mixed = dice->state += 0x9E3779B97F4A7C15u; /* splitmix64 */

    mixed = (mixed ^ mixed >> 30) * 0xBF58476D1CE4E5B9u;
    mixed = (mixed ^ mixed >> 27) * 0x94D049BB133111EBu;
    mixed ^= mixed >> 31;
    return (mixed >> 32) * sides >> 32;
}

/* True once in so many rolls. */
static inline bool dice_once_in(struct dice *dice, uint32_t sides)
{
    return dice_roll(dice, sides) == 0;
}

/* A number of the range, which is not the range of all numbers. */
static inline uint32_t dice_between(struct dice *dice, uint32_t least, uint32_t most)
{
    return least + dice_roll(dice, most - least + 1);
}

/* The same, with the ends more often than by chance. */
static inline uint32_t dice_between_or_end(struct dice *dice, uint32_t least, uint32_t most)
{
    switch (dice_roll(dice, 16)) {
    case 0:
        return least;
    case 1:
        return most;
    default:
        return dice_between(dice, least, most);
    }
}

#endif
