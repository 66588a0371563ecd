/* How often each thing was seen in the ticks that were compared: what never was has not been compared. */
#ifndef SEEN_H
#define SEEN_H

#include <stdbool.h>
#include <stdint.h>

/* Counts ticks by the mode that the desk held and, in PRE, by the code. */
void tally_ticks(uint8_t mode, uint8_t code, uint64_t ticks);

/* Counts a tick's answer. */
void tally_answer(uint8_t marks, uint8_t causes, uint8_t lowest, uint8_t held);

/* Prints a count, and gives whether it is above 0. */
bool report_seen(const char *what, uint64_t count);

/* The same for each mode, code, mark and cause, each lowest cause and each number of causes. */
bool report_ticks(void);

#endif
