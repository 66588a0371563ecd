/* What a host may hand over, made by dice: good, bad, and often next to a border. */
#ifndef FOLDHARBOR_SOME_H
#define FOLDHARBOR_SOME_H

#include <stddef.h>
#include <stdint.h>

#include "dice.h"
#include "foldharbor.h"
#include "model.h"

/* A float and its bits. */
float float_of(uint32_t bits);
uint32_t bits_of(float number);

/* The float that is nearest to where the readings turn from one less to this speed, which is at least 1. */
float speed_border(uint32_t speed);

/* A sample that reads as the record; sometimes its speed is next to a border and reads as one less. */
foldharbor_sample sample_of(struct dice *dice, const struct record *record);

/* In range. */
struct record some_record(struct dice *dice);
foldharbor_sample some_sample(struct dice *dice);
foldharbor_card some_card(struct dice *dice);

/* Puts something out of range there. */
void spoil_speed(struct dice *dice, foldharbor_sample *sample);
void spoil_pressure(struct dice *dice, foldharbor_sample *sample);
void spoil_switch(struct dice *dice, foldharbor_sample *sample);

/* The same in a record's bytes, where these are all the ways: a field by one and by far. */
enum { RECORD_FAULTS = 15 };
void spoil_record(uint8_t *record, uint32_t fault);

/* A desk in range that hardly any drive reaches, with so many ticks at most. */
foldharbor_desk some_desk(struct dice *dice, uint32_t most_ticks);

/* The desk with one field out of its range, mostly by one. */
foldharbor_desk bent_desk(struct dice *dice, foldharbor_desk desk);

/* The desk with one field of its state another number of its range. */
foldharbor_desk changed_desk(struct dice *dice, foldharbor_desk desk);

/* By how many ticks to step back: as far as there are ticks, and further. */
uint32_t some_count(struct dice *dice, uint32_t ticks);
uint32_t some_count_above(struct dice *dice, uint32_t ticks);

void some_bytes(struct dice *dice, void *place, size_t count);

#endif
