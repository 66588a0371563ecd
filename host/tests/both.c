/* See both.h. */
#include "both.h"

#include <inttypes.h>
#include <stdio.h>
#include <string.h>

#include "bytes.h"
#include "fields.h"
#include "model.h"
#include "seen.h"
#include "some.h"

enum {
    SENTINELS = 63, /* before and behind a journal; odd, so that no journal starts aligned */
    SENTINEL_OF_CALL = 0xFF,
    SENTINEL_OF_MODEL = 0xA5
};

enum call { OPEN, TICK, STEP_BACK, RESTART, WHY, CALLS };

/* What was handed over last, for the message of a difference. */
struct handed {
    enum call call;
    foldharbor_desk desk; /* of an opening its card alone */
    foldharbor_sample sample;
    uint32_t count;
    size_t journal_length;
};

static const char *const call_names[CALLS] = {"open", "tick", "step back", "restart", "why"};

static uint8_t area_of_call[SENTINELS + LONGEST_JOURNAL + SENTINELS];
static uint8_t area_of_model[SENTINELS + LONGEST_JOURNAL + SENTINELS];
static uint8_t *const journal_of_call = area_of_call + SENTINELS;
static uint8_t *const journal_of_model = area_of_model + SENTINELS;
static uint8_t kept[LONGEST_JOURNAL]; /* what both journals have to hold */
static size_t laid;                   /* their length */

static struct handed handed;
static uint64_t calls, different;

static uint64_t refusals_seen[CALLS][UINT8_MAX + 1]; /* by number; 0 counts what was accepted */
static uint64_t reasons_seen[FOLDHARBOR_CAUSES];     /* that were given, by cause */
static uint64_t at_once_seen[FOLDHARBOR_CAUSES + 1]; /* by how many were given */
static uint64_t from_first_tick_seen;
static uint64_t curves_kept_seen, curves_ended_seen, far_driven_seen; /* ticks */

static void print_desk(const foldharbor_desk *desk, size_t fields)
{
    printf("  desk handed in:");
    for (size_t i = 0; i < fields; i++)
        printf("%s %s %u", i % 6 == 0 ? "\n   " : ",", desk_fields[i].name, (unsigned)get_field(desk, &desk_fields[i]));
    printf("\n");
}

static void print_sample(const foldharbor_sample *sample)
{
    printf("  sample: speed %.9g (bits %08" PRIx32 "), pressure %.9g (bits %08" PRIx32 "),\n", (double)sample->speed,
           bits_of(sample->speed), (double)sample->pressure, bits_of(sample->pressure));
    printf("    code %u, mode %u, lever %u, flags %u, sense %u\n", sample->code, sample->mode, sample->lever,
           sample->flags, sample->sense);
}

static bool takes_journal(enum call call)
{
    return call == TICK || call == STEP_BACK || call == WHY;
}

static void print_handed(void)
{
    print_desk(&handed.desk, handed.call == OPEN ? CARD_FIELDS : DESK_FIELDS);
    if (handed.call == TICK)
        print_sample(&handed.sample);
    if (handed.call == STEP_BACK)
        printf("  by %" PRIu32 "\n", handed.count);
    if (takes_journal(handed.call))
        printf("  journal of %zu bytes\n", handed.journal_length);
}

/* Counts a difference; true for the first, which is printed. */
static bool first_difference(void)
{
    if (different++ > 0)
        return false;
    printf("first difference: call %" PRIu64 ", %s: ", calls, call_names[handed.call]);
    return true;
}

static void report_result(const struct difference *difference)
{
    if (!first_difference())
        return;
    printf("%s is %" PRIu32 " by the call, %" PRIu32 " by the model\n", difference->name, difference->of_call,
           difference->of_model);
    print_handed();
}

static void report_journals(void)
{
    size_t at = 0;

    if (!first_difference())
        return;
    while (journal_of_call[at] == kept[at] && journal_of_model[at] == kept[at])
        at++;
    printf("byte %zu of the journal is %u by the call, %u by the model, and has to be %u\n", at, journal_of_call[at],
           journal_of_model[at], kept[at]);
    print_handed();
}

void expect(bool fact, const char *what)
{
    if (fact || !first_difference())
        return;
    printf("%s\n", what);
    print_handed();
}

static bool only(uint8_t byte, const uint8_t *bytes, size_t count)
{
    while (count > 0 && bytes[count - 1] == byte)
        count--;
    return count == 0;
}

static bool sentinels_stand(const uint8_t *area, uint8_t sentinel)
{
    return only(sentinel, area, SENTINELS) && only(sentinel, area + SENTINELS + laid, SENTINELS);
}

static void lay_sentinels(void)
{
    memset(area_of_call, SENTINEL_OF_CALL, SENTINELS);
    memset(journal_of_call + laid, SENTINEL_OF_CALL, SENTINELS);
    memset(area_of_model, SENTINEL_OF_MODEL, SENTINELS);
    memset(journal_of_model + laid, SENTINEL_OF_MODEL, SENTINELS);
}

void lay_journal(size_t length, uint8_t byte)
{
    laid = length;
    memset(kept, byte, length);
    memset(journal_of_call, byte, length);
    memset(journal_of_model, byte, length);
    lay_sentinels();
}

void lay_record(uint32_t place, const uint8_t *record)
{
    size_t at = (size_t)RECORD_BYTES * place;

    memcpy(kept + at, record, RECORD_BYTES);
    memcpy(journal_of_call + at, record, RECORD_BYTES);
    memcpy(journal_of_model + at, record, RECORD_BYTES);
}

const uint8_t *journal_record(uint32_t place)
{
    return journal_of_call + (size_t)RECORD_BYTES * place;
}

/* Only an accepted tick writes, and only its record: what the model wrote there the call has to have written too. */
static void keep_record(void)
{
    size_t at = (size_t)RECORD_BYTES * handed.desk.n;

    if (at + RECORD_BYTES <= laid)
        memcpy(kept + at, journal_of_model + at, RECORD_BYTES);
}

static void compare_journals(void)
{
    if (memcmp(journal_of_call, kept, laid) == 0 && memcmp(journal_of_model, kept, laid) == 0)
        return;
    report_journals();
    memcpy(journal_of_call, kept, laid); /* one fault is one difference */
    memcpy(journal_of_model, kept, laid);
}

static void compare_sentinels(void)
{
    bool stand = sentinels_stand(area_of_call, SENTINEL_OF_CALL) && sentinels_stand(area_of_model, SENTINEL_OF_MODEL);

    expect(stand, "bytes before or behind a journal are not what they were");
    if (!stand)
        lay_sentinels();
}

static void compare_lent(void)
{
    if (!takes_journal(handed.call))
        return;
    compare_journals();
    compare_sentinels();
}

/* A curve may run on at a stand, may come to its end by what is driven, and may have driven more than 16 bits tell. */
static void tally_curve(const foldharbor_signal *before, const foldharbor_signal *after)
{
    bool same_code = before->codes.last == after->codes.last;
    bool same_target = same_code && before->codes.raise == after->codes.raise;
    bool runs_on = before->curve.start > 0 && after->curve.start > 0 && same_code;

    curves_kept_seen += runs_on && read_half(journal_record(handed.desk.n)) == 0;
    curves_ended_seen += before->curve.start > 0 && after->curve.start == 0 && same_target && after->man == 0;
    far_driven_seen += runs_on && after->curve.driven > UINT16_MAX;
}

static void tally_outcome(const foldharbor_outcome *outcome)
{
    refusals_seen[handed.call][outcome->refusal]++;
    if (handed.call != TICK || outcome->refusal != 0)
        return;
    const foldharbor_state *state = &outcome->desk.state;
    const foldharbor_answer *answer = &outcome->answer;

    tally_ticks(state->mode, state->signal.codes.last, 1);
    tally_answer(answer->marks, answer->causes, answer->lowest, answer->held);
    if (state->mode == FOLDHARBOR_MODE_PRE && handed.desk.state.mode == FOLDHARBOR_MODE_PRE)
        tally_curve(&handed.desk.state.signal, &state->signal);
}

static void tally_reasons(const foldharbor_reasons *reasons)
{
    uint32_t given = 0;

    refusals_seen[WHY][reasons->refusal]++;
    for (uint32_t i = 0; i < FOLDHARBOR_CAUSES; i++) {
        uint16_t tick = reasons->of_cause[i].tick;

        given += tick > 0;
        reasons_seen[i] += tick > 0;
        from_first_tick_seen += tick == 1;
    }
    at_once_seen[given]++;
}

/* Zeros and the desk handed in, whatever the model says; of a refused opening a desk of zeros. */
static void compare_refusal(const foldharbor_outcome *outcome)
{
    struct outcome wanted = {.refusal = outcome->refusal};

    if (handed.call != OPEN)
        wanted.desk = model_of_desk(&handed.desk);
    expect(!compare_outcomes(outcome, &wanted).name, "a refusal gives back another desk, or an answer");
}

static foldharbor_outcome compare(foldharbor_outcome of_call, struct outcome of_model)
{
    struct difference difference = compare_outcomes(&of_call, &of_model);

    calls++;
    if (difference.name)
        report_result(&difference);
    else
        tally_outcome(&of_call);
    if (of_call.refusal != 0)
        compare_refusal(&of_call);
    if (handed.call == TICK && of_model.refusal == 0)
        keep_record();
    compare_lent();
    return of_call;
}

static foldharbor_reasons compare_whys(foldharbor_reasons of_call, struct reasons of_model)
{
    struct difference difference = compare_reasons(&of_call, &of_model);
    struct reasons refused = {.refusal = of_call.refusal};

    calls++;
    if (difference.name)
        report_result(&difference);
    else
        tally_reasons(&of_call);
    if (of_call.refusal != 0)
        expect(!compare_reasons(&of_call, &refused).name, "a refusal gives something else than zeros");
    compare_lent();
    return of_call;
}

foldharbor_outcome both_open(foldharbor_card card)
{
    handed = (struct handed){.call = OPEN, .desk = {.card = card}};
    return compare(foldharbor_open(card), model_desk_open(model_of_desk(&handed.desk).card));
}

foldharbor_outcome both_tick(foldharbor_desk desk, foldharbor_sample sample, size_t journal_length)
{
    handed = (struct handed){.call = TICK, .desk = desk, .sample = sample, .journal_length = journal_length};
    return compare(foldharbor_tick(desk, sample, journal_of_call, journal_length),
                   model_desk_tick(model_of_desk(&desk), model_of_sample(&sample), journal_of_model, journal_length));
}

foldharbor_outcome both_step_back(foldharbor_desk desk, uint32_t count, size_t journal_length)
{
    handed = (struct handed){.call = STEP_BACK, .desk = desk, .count = count, .journal_length = journal_length};
    return compare(foldharbor_step_back(desk, count, journal_of_call, journal_length),
                   model_desk_step_back(model_of_desk(&desk), count, journal_of_model, journal_length));
}

foldharbor_outcome both_restart(foldharbor_desk desk)
{
    handed = (struct handed){.call = RESTART, .desk = desk};
    return compare(foldharbor_restart(desk), model_desk_restart(model_of_desk(&desk)));
}

foldharbor_reasons both_why(foldharbor_desk desk, size_t journal_length)
{
    handed = (struct handed){.call = WHY, .desk = desk, .journal_length = journal_length};
    return compare_whys(foldharbor_why(desk, journal_of_call, journal_length),
                        model_desk_why(model_of_desk(&desk), journal_of_model, journal_length));
}

uint64_t calls_made(void)
{
    return calls;
}

uint64_t differences(void)
{
    return different;
}

static bool report_refusals(enum call call)
{
    static const uint8_t numbers[CALLS][7] = { /* up to the first 0 */
        [OPEN] = {4},
        [TICK] = {5, 6, 7, 1, 2, 3},
        [STEP_BACK] = {5, 6, 8, 9},
        [RESTART] = {5},
        [WHY] = {5, 6, 9, 23, 14},
    };
    bool all = true;
    char what[32];

    snprintf(what, sizeof what, "%s accepted", call_names[call]);
    all &= report_seen(what, refusals_seen[call][0]);
    for (const uint8_t *number = numbers[call]; *number != 0; number++) {
        snprintf(what, sizeof what, "%s refused %u", call_names[call], *number);
        all &= report_seen(what, refusals_seen[call][*number]);
    }
    return all;
}

static bool report_reasons(void)
{
    bool all = true;
    char what[32];

    for (uint32_t i = 0; i < FOLDHARBOR_CAUSES; i++) {
        snprintf(what, sizeof what, "why NZ%" PRIu32, i + 1);
        all &= report_seen(what, reasons_seen[i]);
    }
    for (uint32_t count = 1; count <= FOLDHARBOR_CAUSES; count++) {
        snprintf(what, sizeof what, "why of %" PRIu32 " at once", count);
        all &= report_seen(what, at_once_seen[count]);
    }
    return all & report_seen("why from tick 1 on", from_first_tick_seen);
}

bool report_seen_in_calls(void)
{
    bool all = true;

    printf("seen in what was compared, calls on a desk:\n");
    for (enum call call = OPEN; call < CALLS; call++)
        all &= report_refusals(call);
    all &= report_reasons();
    printf("accepted ticks:\n");
    all &= report_ticks();
    all &= report_seen("curve kept at a stand", curves_kept_seen);
    all &= report_seen("curve driven to its end", curves_ended_seen);
    all &= report_seen("curve beyond 65,535", far_driven_seen);
    return all;
}
