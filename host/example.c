/*
 * Shows how a host uses the calls: runs each card of an exercise and tells how the desk stood at the end, in the
 * words of two tables of texts.
 *
 *   example EXERCISE FIRST SECOND
 *
 * Ends with 1 where the exercise is refused, and with 2 where a file can't be read or the output can't be written.
 */
#include <stdio.h>
#include <stdlib.h>

#include "foldharbor.h"

static uint8_t exercise[FOLDHARBOR_MOST_BYTES + 1]; /* one byte more, so that a longer file is seen and refused */
static uint8_t tables[2][FOLDHARBOR_MOST_TABLE_BYTES + 1]; /* likewise */
static size_t lengths[2];
static uint8_t answers[FOLDHARBOR_ANSWER_BYTES * FOLDHARBOR_MOST_TICKS];

/* Reads the file, or as much of it as there is room for, and gives the count of bytes. */
static size_t load(const char *path, uint8_t *bytes, size_t room)
{
    FILE *file = fopen(path, "rb");
    size_t length = file ? fread(bytes, 1, room, file) : 0;

    if (!file || ferror(file)) {
        perror(path);
        exit(2);
    }
    fclose(file);
    return length;
}

/* Prints a line in each language. */
static void print_message(uint32_t message)
{
    for (uint32_t language = 1; language <= 2; language++) {
        const char *table = (const char *)tables[language - 1];
        foldharbor_place place = foldharbor_text(tables[0], lengths[0], tables[1], lengths[1], language, message);

        if (place.refusal != 0)
            printf("    refused %u\n", place.refusal);
        else
            printf("    %.*s\n", place.end - place.start, table + place.start);
    }
}

static void print_answer(foldharbor_answer answer)
{
    const unsigned prompt_and_kind = FOLDHARBOR_MARK_ONE_TIME_PROMPT | FOLDHARBOR_MARK_ONE_TIME_KIND;

    printf("  permitted %u.%u km/h", answer.permitted / 10, answer.permitted % 10);
    if (answer.target > 0)
        printf(", target %u.%u km/h", answer.target / 10, answer.target % 10);
    printf("\n  shown:%s\n", answer.marks == 0 ? " nothing" : "");
    for (unsigned bit = 0; bit < 6; bit++)
        if ((answer.marks & ~prompt_and_kind) >> bit & 1)
            print_message(FOLDHARBOR_TEXT_MARK + bit);
    if (answer.marks & FOLDHARBOR_MARK_ONE_TIME_PROMPT)
        print_message(FOLDHARBOR_TEXT_ONE_TIME_PROMPT + (answer.marks & FOLDHARBOR_MARK_ONE_TIME_KIND ? 1 : 0));
    printf("  valve %s, causes held: %u\n", answer.causes != 0 ? "open" : "closed", answer.held);
    for (unsigned bit = 0; bit < 8; bit++)
        if (answer.causes >> bit & 1)
            print_message(FOLDHARBOR_TEXT_CAUSE + bit);
}

/* Gives the status, or 2 where not all that was printed could be written. */
static int finish(int status)
{
    if (fflush(stdout) == 0 && !ferror(stdout))
        return status;
    perror("standard output");
    return 2;
}

int main(int count, char **arguments)
{
    if (count != 4) {
        fprintf(stderr, "usage: example EXERCISE FIRST SECOND\n"
                        "FIRST and SECOND are tables of texts: texts/table.sh makes one\n");
        return 2;
    }
    size_t length = load(arguments[1], exercise, sizeof exercise);
    for (int i = 0; i < 2; i++) {
        lengths[i] = load(arguments[2 + i], tables[i], sizeof tables[i]);
        if (lengths[i] > FOLDHARBOR_MOST_TABLE_BYTES) {
            fprintf(stderr, "%s: too long for a table of texts (texts/table.sh makes one)\n", arguments[2 + i]);
            return 2;
        }
    }

    for (uint32_t card = 1;; card++) {
        uint32_t ticks = foldharbor_run_exercise(exercise, length, card, answers, sizeof answers);

        if (ticks == FOLDHARBOR_REFUSED + FOLDHARBOR_NO_SUCH_CARD) /* the cards before this one were all */
            return finish(0);
        if (ticks > FOLDHARBOR_REFUSED) {
            printf("refused %u\n", (unsigned)ticks - FOLDHARBOR_REFUSED);
            print_message(FOLDHARBOR_TEXT_REFUSAL + ticks - FOLDHARBOR_REFUSED);
            return finish(1);
        }
        printf("card %u, ticks %u\n", (unsigned)card, (unsigned)ticks);
        if (ticks > 0) {
            const uint8_t *last = answers + FOLDHARBOR_ANSWER_BYTES * (ticks - 1);

            print_answer(foldharbor_answer_at(last, FOLDHARBOR_ANSWER_BYTES));
        }
    }
}
