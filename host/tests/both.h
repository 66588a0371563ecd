/*
 * Makes each call on a desk on both sides, the archive's and the model's, and compares all that they give and write.
 *
 * Each side has a journal of its own with sentinels around it, others for the call than for the model, so that a result
 * that depends on bytes out of the journal shows. After each call the whole journals are held against what they were.
 */
#ifndef FOLDHARBOR_BOTH_H
#define FOLDHARBOR_BOTH_H

#include <stdbool.h>
#include <stddef.h>
#include <stdint.h>

#include "foldharbor.h"

enum { LONGEST_JOURNAL = 1 << 17 }; /* twice what 16 bits can say */

/* Lays a journal of so many bytes before both sides, each byte this one. */
void lay_journal(size_t length, uint8_t byte);

/* Writes a record to its place in the journals, 8 bytes, whatever they are. */
void lay_record(uint32_t place, const uint8_t *record);

/* The calls, each with a journal that ends after so many bytes of what was laid. They give what the archive's gave. */
foldharbor_outcome both_open(foldharbor_card card);
foldharbor_outcome both_tick(foldharbor_desk desk, foldharbor_sample sample, size_t journal_length);
foldharbor_outcome both_step_back(foldharbor_desk desk, uint32_t count, size_t journal_length);
foldharbor_outcome both_restart(foldharbor_desk desk);
foldharbor_reasons both_why(foldharbor_desk desk, size_t journal_length);

/* The record at its place, as the call left it. */
const uint8_t *journal_record(uint32_t place);

/* Counts a difference where the fact does not hold, and prints the first, after the last call on both sides. */
void expect(bool fact, const char *what);

uint64_t calls_made(void);
uint64_t differences(void);

/* Prints how often each refusal of each call, and each thing of an answer, was seen; false if something never was. */
bool report_seen_in_calls(void);

#endif
