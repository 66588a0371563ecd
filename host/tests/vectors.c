/*
 * Runs the call on every exercise of a folder and compares with the answers stored beside it.
 *
 *   NN.ex          an exercise file
 *   NN.txt         begins with "refused N" if the file is to be refused with N
 *   NN.K.answers   the answer bytes of card K, for an exercise that is to be accepted
 */
#define _POSIX_C_SOURCE 200809L
#include <dirent.h>
#include <stdbool.h>
#include <stdio.h>
#include <stdlib.h>
#include <string.h>

#include "foldharbor.h"

enum {
    SENTINEL = 0xA5,
    SENTINELS = 64,
    MOST_ANSWERS = FOLDHARBOR_ANSWER_BYTES * FOLDHARBOR_MOST_TICKS,
    LONGEST_FILE = 1 << 17, /* twice what a file's 16-bit total can say */
    LONGEST_PATH = 4096
};

static uint8_t exercise[LONGEST_FILE];
static size_t exercise_length;
static uint8_t expected[LONGEST_FILE];
static uint8_t answers[MOST_ANSWERS + SENTINELS];
static uint8_t untouched[MOST_ANSWERS + SENTINELS];

static unsigned checks, failures;

static void check(bool good, const char *name, uint32_t card, const char *what)
{
    checks++;
    if (good)
        return;
    failures++;
    printf("%s card %u: %s\n", name, (unsigned)card, what);
}

static bool read_file(const char *folder, const char *name, const char *ending, uint8_t *bytes, size_t *length)
{
    char path[LONGEST_PATH];

    snprintf(path, sizeof path, "%s/%s%s", folder, name, ending);
    FILE *file = fopen(path, "rb");
    if (!file)
        return false;
    *length = fread(bytes, 1, LONGEST_FILE, file);
    fclose(file);
    return true;
}

static uint32_t run(uint32_t card, size_t answers_length)
{
    memset(answers, SENTINEL, sizeof answers);
    return foldharbor_run_exercise(exercise, exercise_length, card, answers, answers_length);
}

static void check_refusal(const char *name, uint32_t card, size_t answers_length, uint32_t number)
{
    check(run(card, answers_length) == FOLDHARBOR_REFUSED + number, name, card, "another number than this refusal's");
    check(memcmp(answers, untouched, sizeof answers) == 0, name, card, "a refusal changed the buffer");
}

static void check_refused(const char *name, uint32_t number)
{
    /* The file's shape and the cards are looked at before the card number, the runs after it. */
    bool before_card_number = number == FOLDHARBOR_BAD_FILE || number == FOLDHARBOR_BAD_CARD;

    check_refusal(name, 1, MOST_ANSWERS, number);
    check_refusal(name, 0, MOST_ANSWERS, before_card_number ? number : FOLDHARBOR_NO_SUCH_CARD);
}

static void check_accepted(const char *folder, const char *name)
{
    uint32_t cards = exercise[0] + 256u * exercise[1];

    for (uint32_t card = 1; card <= cards; card++) {
        char ending[32];
        size_t length;

        snprintf(ending, sizeof ending, ".%u.answers", (unsigned)card);
        if (!read_file(folder, name, ending, expected, &length) || length > MOST_ANSWERS) {
            check(false, name, card, "no answers to compare with");
            continue;
        }
        memset(expected + length, SENTINEL, sizeof answers - length);
        check(run(card, length) == length / FOLDHARBOR_ANSWER_BYTES, name, card, "another count of ticks");
        check(memcmp(answers, expected, sizeof answers) == 0, name, card, "another byte in an exact buffer");
        run(card, MOST_ANSWERS);
        check(memcmp(answers, expected, sizeof answers) == 0, name, card, "another byte in a longer buffer");
        if (length > 0)
            check_refusal(name, card, length - 1, FOLDHARBOR_SHORT_BUFFER);
    }
    check_refusal(name, 0, MOST_ANSWERS, FOLDHARBOR_NO_SUCH_CARD);
    check_refusal(name, cards + 1, MOST_ANSWERS, FOLDHARBOR_NO_SUCH_CARD);
}

static void check_exercise(const char *folder, const char *name)
{
    static uint8_t text[LONGEST_FILE + 1]; /* ends with a zero for sscanf */
    size_t text_length;
    unsigned number;

    if (!read_file(folder, name, ".ex", exercise, &exercise_length) ||
        !read_file(folder, name, ".txt", text, &text_length)) {
        check(false, name, 0, "no exercise or no text to read");
        return;
    }
    text[text_length] = 0;
    if (sscanf((const char *)text, "refused %u", &number) == 1)
        check_refused(name, number);
    else
        check_accepted(folder, name);
}

static int is_exercise(const struct dirent *entry)
{
    const char *ending = strrchr(entry->d_name, '.');

    return ending && strcmp(ending, ".ex") == 0;
}

int main(int count, char **arguments)
{
    struct dirent **entries;

    if (count != 2) {
        fprintf(stderr, "usage: vectors FOLDER\n");
        return 2;
    }
    memset(untouched, SENTINEL, sizeof untouched);
    int found = scandir(arguments[1], &entries, is_exercise, alphasort);
    for (int i = 0; i < found; i++) {
        *strrchr(entries[i]->d_name, '.') = 0;
        check_exercise(arguments[1], entries[i]->d_name);
        free(entries[i]);
    }
    if (found > 0)
        free(entries);
    if (found <= 0)
        printf("no exercise in %s\n", arguments[1]);
    printf("vectors: %u checks, %u failed\n", checks, failures);
    return found <= 0 || failures > 0;
}
