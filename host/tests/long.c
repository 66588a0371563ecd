/*
 * Writes drive scripts that fill the journal, and what `drive journal` has to print of each by the model.
 *
 *   long FOLDER
 *
 * For each length L of a journal FOLDER/long-L.drive and FOLDER/long-L.txt: ticks up to the capacity and one more, then
 * steps back, ticks on places that were struck, and a restart. The records that are left at the end close the text.
 */
#include <stdio.h>
#include <stdlib.h>
#include <string.h>

#include "bytes.h"
#include "dice.h"
#include "foldharbor.h"
#include "model.h"

enum { CALL_TICK = 1, CALL_STEP_BACK = 2, CALL_RESTART = 3 };

enum { LONGEST_PATH = 4096 };

static const struct card card = {
    .design = 1600,
    .set = 1400,
    .highest = 1400,
    .pos_ceiling = 400,
    .zav_ceiling = 1000,
    .tolerance = 30,
    .stop_target = 0,
    .deceleration = 18,
    .cycle = 200,
    .wait = 250,
};

static const float too_fast = 69.5f; /* m/s: 2,502 tenths of km/h */

/* A drive on its way: what has been written of it, and the desk that it leads to. */
static FILE *script, *text;
static struct dice dice;
static struct record record; /* of the tick that was handed over last, accepted or not */
static struct desk desk;
static uint8_t journal[FOLDHARBOR_JOURNAL_BYTES + RECORD_BYTES];
static uint32_t journal_length;

static FILE *create(const char *folder, uint32_t length, const char *ending)
{
    char path[LONGEST_PATH];

    snprintf(path, sizeof path, "%s/long-%u.%s", folder, (unsigned)length, ending);
    FILE *file = fopen(path, "wb");
    if (!file) {
        perror(path);
        exit(2);
    }
    return file;
}

static void finish(FILE *file)
{
    if (ferror(file) | fclose(file)) {
        perror("a script or its text");
        exit(2);
    }
}

static void put_byte(uint32_t value)
{
    fputc((int)(value & 255), script);
}

static void put_half(uint32_t value)
{
    put_byte(value);
    put_byte(value >> 8);
}

static void put_float(float value)
{
    uint32_t bits;

    memcpy(&bits, &value, sizeof bits);
    put_half(bits);
    put_half(bits >> 16);
}

static void put_sample(const struct sample *sample)
{
    put_float(sample->speed);
    put_float(sample->pressure);
    put_byte(sample->code);
    put_byte(sample->mode);
    put_byte(sample->lever);
    put_byte(sample->flags);
    put_byte(sample->sense);
}

/* Goes on with the outcome's desk and gives the refusal; the line is what has to be printed of it. */
static uint32_t go_on(struct outcome outcome)
{
    const uint8_t *answer = outcome.answer;

    desk = outcome.desk;
    fprintf(text, "%u %u %u %u %u %u %u %u\n", (unsigned)outcome.refusal, (unsigned)desk.ticks,
            (unsigned)read_half(answer), (unsigned)read_half(answer + 2), answer[4], answer[5], answer[6], answer[7]);
    return outcome.refusal;
}

static void want_records(void)
{
    for (uint32_t i = 0; i < desk.ticks; i++) {
        const uint8_t *held = journal + RECORD_BYTES * i;

        fprintf(text, "%02x %02x %02x %02x %02x %02x %02x %02x\n", held[0], held[1], held[2], held[3], held[4], held[5],
                held[6], held[7]);
    }
}

static void open_desk(void)
{
    uint8_t bytes[CARD_BYTES];

    model_write_card(bytes, &card);
    fwrite(bytes, 1, sizeof bytes, script);
    put_half(journal_length);
    go_on(model_desk_open(card));
}

static void change_record(void)
{
    if (dice_once_in(&dice, 12))
        record.speed = dice_once_in(&dice, 3) ? 0 : dice_roll(&dice, MOST_SPEED + 1);
    if (dice_once_in(&dice, 20))
        record.code = dice_roll(&dice, CODE_CLEAR + 1);
    if (dice_once_in(&dice, 40))
        record.mode = dice_once_in(&dice, 4) ? MODE_POS + dice_roll(&dice, MODE_ZAV) : MODE_PRE;
    if (dice_once_in(&dice, 40))
        record.lever = dice_roll(&dice, 3);
    if (dice_once_in(&dice, 5))
        record.flags = dice_roll(&dice, 128);
    if (dice_once_in(&dice, 40))
        record.band = dice_roll(&dice, 3);
    if (dice_once_in(&dice, 40))
        record.sense = dice_roll(&dice, 3);
}

/* A tick with the record, at another speed maybe. */
static uint32_t tick_at(float speed)
{
    static const float pressure[] = {2.0f, 4.0f, 5.0f}; /* bar, one of each band */
    struct sample sample = {
        .speed = speed,
        .pressure = pressure[record.band],
        .code = record.code,
        .mode = record.mode,
        .lever = record.lever,
        .flags = record.flags,
        .sense = record.sense,
    };

    put_byte(CALL_TICK);
    put_sample(&sample);
    return go_on(model_desk_tick(desk, sample, journal, journal_length));
}

static uint32_t tick(void)
{
    change_record();
    return tick_at((float)record.speed / 36);
}

static void step_back(uint32_t count)
{
    put_byte(CALL_STEP_BACK);
    put_half(count);
    go_on(model_desk_step_back(desk, count, journal, journal_length));
}

static void restart(void)
{
    put_byte(CALL_RESTART);
    go_on(model_desk_restart(desk));
}

static void fill_and_one_more(void)
{
    while (tick() == 0)
        ;
}

static void write_drive(const char *folder, uint32_t length)
{
    script = create(folder, length, "drive");
    text = create(folder, length, "txt");
    dice.state = length;
    record = (struct record){.mode = MODE_PRE};
    journal_length = length;

    open_desk();
    fill_and_one_more();

    uint32_t capacity = desk.ticks;

    tick_at(too_fast); /* a full journal is found before a speed out of range is */
    step_back(0);
    step_back(capacity + 1);
    step_back(1);
    tick_at(too_fast);
    fill_and_one_more();
    step_back(capacity / 2);
    fill_and_one_more();
    step_back(capacity);
    tick();
    restart();
    fill_and_one_more();
    step_back(100);
    tick();
    want_records();

    finish(script);
    finish(text);
}

int main(int count, char **arguments)
{
    if (count != 2) {
        fprintf(stderr, "usage: long FOLDER, where the scripts and their texts are to go\n");
        return 2;
    }
    write_drive(arguments[1], FOLDHARBOR_JOURNAL_BYTES - 1);
    write_drive(arguments[1], FOLDHARBOR_JOURNAL_BYTES);
    write_drive(arguments[1], FOLDHARBOR_JOURNAL_BYTES + RECORD_BYTES);
    return 0;
}
