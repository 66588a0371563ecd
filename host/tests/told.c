/*
 * Prints of an exercise what the program explain has to print of it, by the model and by the lines of the texts.
 *
 *   told FIRST SECOND <EXERCISE
 *
 * FIRST and SECOND are files of lines; explain gets the tables that texts/table.sh makes of them.
 */
#include <stdbool.h>
#include <stdio.h>
#include <stdlib.h>
#include <string.h>

#include "bytes.h"
#include "foldharbor.h"
#include "model.h"

enum { LANGUAGES = 2, LONGEST_LINE = 1024 };

enum { /* places in a record, behind the speed */
    AT_CODE = 2,
    AT_MODE = 3,
    AT_LEVER = 4,
    AT_FLAGS = 5,
    AT_BAND = 6,
    AT_SENSE = 7
};

static char texts[LANGUAGES][FOLDHARBOR_MOST_MESSAGES][LONGEST_LINE];
static uint8_t exercise[FOLDHARBOR_MOST_BYTES + 1]; /* one byte more, so that a longer file is seen and refused */
static size_t exercise_length;
static const uint8_t *records[FOLDHARBOR_MOST_TICKS]; /* of the ticks, where they stand in the exercise */
static uint8_t answers[ANSWER_BYTES * FOLDHARBOR_MOST_TICKS];

static void fail(const char *what)
{
    perror(what);
    exit(2);
}

static void read_texts(const char *path, int language)
{
    FILE *file = fopen(path, "rb");

    if (!file)
        fail(path);
    for (int i = 0; i < FOLDHARBOR_MOST_MESSAGES && fgets(texts[language][i], LONGEST_LINE, file); i++)
        texts[language][i][strcspn(texts[language][i], "\n")] = 0;
    if (ferror(file))
        fail(path);
    fclose(file);
}

static void print_time(uint32_t tick)
{
    printf("%u:%02u.%u", (unsigned)tick / 600, (unsigned)tick / 10 % 60, (unsigned)tick % 10);
}

static void print_speed(uint32_t speed)
{
    printf("%u.%u km/h", (unsigned)speed / 10, (unsigned)speed % 10);
}

static void print_texts(int cause, uint32_t code, uint32_t mode)
{
    for (int language = 0; language < LANGUAGES; language++)
        printf("  %s (%s, %s)\n", texts[language][FOLDHARBOR_TEXT_CAUSE + cause],
               texts[language][FOLDHARBOR_TEXT_CODE + code], texts[language][FOLDHARBOR_TEXT_MODE + mode]);
}

static void print_record(const uint8_t *record)
{
    static const char *const directions[] = {"none", "forward", "reverse"};
    static const char *const bands[] = {"below 3.5 bar", "3.5 to below 4.5 bar", "from 4.5 bar"};
    static const char *const flags[] = {"vigilance",   "PLUS",          "MAN", "direct brake",
                                        "remote stop", "adhesion loss", "cab"};
    const char *before = "";

    printf("  ");
    print_speed(read_half(record));
    printf(", mode asked for as above, lever %s, motion %s, main line %s, on: ", directions[record[AT_LEVER]],
           directions[record[AT_SENSE]], bands[record[AT_BAND]]);
    for (size_t bit = 0; bit < sizeof flags / sizeof flags[0]; bit++)
        if (record[AT_FLAGS] >> bit & 1) {
            printf("%s%s", before, flags[bit]);
            before = ", ";
        }
    printf("%s\n", record[AT_FLAGS] == 0 ? "nothing" : "");
}

static void tell_change(uint32_t tick, uint32_t permitted, int cause, bool held, uint32_t mode)
{
    const uint8_t *record = records[tick - 1];

    printf("tick %u  ", (unsigned)tick);
    print_time(tick);
    printf("  ");
    print_speed(read_half(record));
    printf(", permitted ");
    print_speed(permitted);
    printf(": NZ%d %s\n", cause + 1, held ? "held" : "let go");
    if (held)
        print_texts(cause, record[AT_CODE], mode);
}

static void tell_why(uint32_t ticks, uint32_t causes, const uint32_t *began)
{
    printf("after tick %u, ", (unsigned)ticks);
    print_time(ticks);
    printf(", the valve is open\n");
    for (int cause = 0; cause < CAUSES; cause++)
        if (causes >> cause & 1) {
            const uint8_t *record = records[began[cause] - 1];

            printf("NZ%d held since tick %u, ", cause + 1, (unsigned)began[cause]);
            print_time(began[cause]);
            printf("\n");
            print_texts(cause, record[AT_CODE], record[AT_MODE]);
            print_record(record);
        }
}

static void tell_card(uint32_t card)
{
    uint32_t ticks = model_run_exercise(exercise, exercise_length, card, answers, sizeof answers);
    uint32_t mode = MODE_POS; /* a standing train takes the mode that is asked for */
    uint32_t causes = 0;
    uint32_t began[CAUSES] = {0}; /* the last tick at which a cause came to be held */
    bool quiet = true;

    printf("card %u\n", (unsigned)card);
    for (uint32_t tick = 1; tick <= ticks; tick++) {
        const uint8_t *answer = answers + ANSWER_BYTES * (tick - 1);
        uint32_t changed = causes ^ answer[5];

        causes = answer[5];
        if (read_half(records[tick - 1]) == 0)
            mode = records[tick - 1][AT_MODE];
        for (int cause = 0; cause < CAUSES; cause++)
            if (changed >> cause & 1) {
                bool held = causes >> cause & 1;

                tell_change(tick, read_half(answer), cause, held, mode);
                if (held)
                    began[cause] = tick;
                quiet = false;
            }
    }
    if (quiet)
        printf("no intervention\n");
    if (causes != 0)
        tell_why(ticks, causes, began);
}

static void find_records(struct exercise_counts counts)
{
    const uint8_t *run = exercise + HEADER_BYTES + CARD_BYTES * counts.cards;
    uint32_t tick = 0;

    for (uint32_t i = 0; i < counts.runs; i++, run += RUN_BYTES)
        for (uint32_t left = read_half(run); left > 0; left--)
            records[tick++] = run + RECORD_IN_RUN;
}

int main(int count, char **arguments)
{
    struct exercise_counts counts;

    if (count != 1 + LANGUAGES) {
        fprintf(stderr, "usage: told FIRST SECOND <EXERCISE\n");
        return 2;
    }
    for (int language = 0; language < LANGUAGES; language++)
        read_texts(arguments[1 + language], language);
    exercise_length = fread(exercise, 1, sizeof exercise, stdin);
    if (ferror(stdin))
        fail("standard input");

    uint32_t refusal = model_read_exercise(exercise, exercise_length, &counts);

    if (refusal != 0) {
        printf("refused %u\n", (unsigned)refusal);
        for (int language = 0; language < LANGUAGES; language++)
            printf("  %s\n", texts[language][FOLDHARBOR_TEXT_REFUSAL + refusal]);
    } else {
        find_records(counts);
        for (uint32_t card = 1; card <= counts.cards; card++)
            tell_card(card);
    }
    if (fflush(stdout) != 0 || ferror(stdout))
        fail("standard output");
    return 0;
}
