/* The desk's fields by name: from the header's structs to the model's, and what the calls of both give compared. */
#ifndef FOLDHARBOR_FIELDS_H
#define FOLDHARBOR_FIELDS_H

#include <stdbool.h>
#include <stddef.h>
#include <stdint.h>

#include "foldharbor.h"
#include "model.h"

/* A field of the desk, with its range by the rules. */
struct field {
    const char *name;
    size_t place, bytes;   /* in foldharbor_desk */
    size_t place_in_model; /* in struct desk */
    uint32_t least, most;
};

enum { CARD_FIELDS = 10, FIRST_STATE_FIELD = CARD_FIELDS + 1, DESK_FIELDS = 28 };

/* Those of the card come first, the movement wait as the last of them; then n; then the state. */
extern const struct field desk_fields[DESK_FIELDS];

uint32_t get_field(const foldharbor_desk *desk, const struct field *field);
void set_field(foldharbor_desk *desk, const struct field *field, uint32_t value);

/* Whether a desk may hold the value there: of the movement wait only the two ends. */
bool field_takes(const struct field *field, uint32_t value);

/* To the model, and from it. */
struct desk model_of_desk(const foldharbor_desk *desk);
struct sample model_of_sample(const foldharbor_sample *sample);
struct outcome model_of_outcome(const foldharbor_outcome *outcome);
foldharbor_card card_of_model(const struct card *card);

/* The answer's bytes, by the rules. */
void write_answer(uint8_t *place, const foldharbor_answer *answer);

/* The first field in which two outcomes, or reasons, differ; no name where they do not. */
struct difference {
    const char *name;
    uint32_t of_call, of_model;
};

struct difference compare_outcomes(const foldharbor_outcome *of_call, const struct outcome *of_model);
struct difference compare_reasons(const foldharbor_reasons *of_call, const struct reasons *of_model);

#endif
