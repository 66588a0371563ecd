/* See seen.h. */
#include "seen.h"

#include <inttypes.h>
#include <stddef.h>
#include <stdio.h>

#include "foldharbor.h"

static uint64_t modes_seen[UINT8_MAX + 1];
static uint64_t codes_seen[UINT8_MAX + 1];
static uint64_t marks_seen[UINT8_MAX + 1]; /* by the whole byte */
static uint64_t causes_seen[UINT8_MAX + 1];
static uint64_t lowest_seen[UINT8_MAX + 1];
static uint64_t held_seen[UINT8_MAX + 1];

void tally_ticks(uint8_t mode, uint8_t code, uint64_t ticks)
{
    modes_seen[mode] += ticks;
    if (mode == FOLDHARBOR_MODE_PRE)
        codes_seen[code] += ticks;
}

void tally_answer(uint8_t marks, uint8_t causes, uint8_t lowest, uint8_t held)
{
    marks_seen[marks]++;
    causes_seen[causes]++;
    lowest_seen[lowest]++;
    held_seen[held]++;
}

bool report_seen(const char *what, uint64_t count)
{
    printf("  %-24s %12" PRIu64 "%s\n", what, count, count == 0 ? "  NEVER SEEN" : "");
    return count > 0;
}

static uint64_t with_bits(const uint64_t *seen, uint32_t mask, uint32_t wanted)
{
    uint64_t sum = 0;

    for (uint32_t byte = 0; byte <= UINT8_MAX; byte++)
        if ((byte & mask) == wanted)
            sum += seen[byte];
    return sum;
}

/* Names of the bytes from 0 on, or of bits from the lowest on; NULL for one that is not looked at. */
static bool report_each(const char *const *names, size_t count, const uint64_t *seen)
{
    bool all = true;

    for (size_t i = 0; i < count; i++)
        if (names[i])
            all &= report_seen(names[i], seen[i]);
    return all;
}

static bool report_bits(const char *const *names, size_t count, const uint64_t *seen)
{
    bool all = true;

    for (size_t i = 0; i < count; i++)
        if (names[i])
            all &= report_seen(names[i], with_bits(seen, 1u << i, 1u << i));
    return all;
}

bool report_ticks(void)
{
    static const char *const modes[] = {NULL, "mode POS", "mode PRE", "mode VYL", "mode ZAV"};
    static const char *const codes[] = {"code none", "code Stop", "code Warning", "code 40 and warning", "code Clear"};
    static const char *const marks[] = {"MAN", "curve", "cyclic prompt", NULL, NULL, "ZS20"};
    static const char *const causes[] = {"NZ1", "NZ2", "NZ3", "NZ4", "NZ5"};
    static const char *const lowest[] = {NULL, "NZ1 lowest", "NZ2 lowest", "NZ3 lowest", "NZ4 lowest", "NZ5 lowest"};
    static const char *const held[] = {"none held", "1 held", "2 held", "3 held", "4 held", "5 held"};
    const uint32_t prompt = FOLDHARBOR_MARK_ONE_TIME_PROMPT, kind = FOLDHARBOR_MARK_ONE_TIME_KIND;
    bool all = true;

    all &= report_each(modes, sizeof modes / sizeof modes[0], modes_seen);
    all &= report_each(codes, sizeof codes / sizeof codes[0], codes_seen);
    all &= report_bits(marks, sizeof marks / sizeof marks[0], marks_seen);
    all &= report_seen("one-time prompt kind 0", with_bits(marks_seen, prompt | kind, prompt));
    all &= report_seen("one-time prompt kind 1", with_bits(marks_seen, prompt | kind, prompt | kind));
    all &= report_bits(causes, sizeof causes / sizeof causes[0], causes_seen);
    all &= report_each(lowest, sizeof lowest / sizeof lowest[0], lowest_seen);
    all &= report_each(held, sizeof held / sizeof held[0], held_seen);
    return all;
}
