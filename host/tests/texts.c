/*
 * Compares foldharbor_text with a model written from the request, which judges UTF-8 by decoding it.
 *
 * Strings are tried as the only message of a table: all of up to three bytes, of four those in the form of a
 * character and those at the edges of a byte's ranges, and random ones. Then whole tables: limits, every cut, every
 * number in a header, split characters, each of 64 messages at fault, random ones, good and damaged.
 *
 * A table lies in two rooms at once that differ in the bytes around it, so that an answer that depends on bytes out
 * of the table shows. The other table is one of several that must have no influence.
 */
#include <inttypes.h>
#include <stdbool.h>
#include <stdio.h>
#include <string.h>

#include "bytes.h"
#include "dice.h"
#include "foldharbor.h"

enum {
    SEED = 40,
    RANDOM_STRINGS = 1000000,
    RANDOM_TABLES = 8000,
    MOST_PRINTED = 5,        /* differences */
    AROUND = 31,             /* bytes before and behind a table; odd, so that no table starts aligned */
    LONGEST_TABLE = 1 << 17, /* twice what a 16-bit offset can say */
    MOST_VALUE = 0x10FFFF,
    FIRST_SURROGATE = 0xD800,
    LAST_SURROGATE = 0xDFFF
};

/* Table 3-6 of the Unicode Standard: how the bits of a value are distributed over 1 to 4 bytes. */
static const struct form {
    uint32_t mask, mark; /* the bits of the first byte that tell the form, and how they are set in it */
    uint32_t bytes;
    uint32_t least; /* value that a shorter form has no room for */
} forms[] = {
    {0x80, 0x00, 1, 0},
    {0xE0, 0xC0, 2, 1 << 7},
    {0xF0, 0xE0, 3, 1 << 11},
    {0xF8, 0xF0, 4, 1 << 16},
};

enum { FORMS = sizeof forms / sizeof forms[0] };

static bool is_surrogate(uint32_t value)
{
    return FIRST_SURROGATE <= value && value <= LAST_SURROGATE;
}

/* How many bytes the character at the start of the text has; 0 if there is no well-formed one. */
static size_t character_bytes(const uint8_t *text, size_t length)
{
    const struct form *form = forms;

    while (form < forms + FORMS && (text[0] & form->mask) != form->mark)
        form++;
    if (form == forms + FORMS || form->bytes > length)
        return 0;

    uint32_t value = text[0] & ~form->mask;

    for (uint32_t i = 1; i < form->bytes; i++) {
        if ((text[i] & 0xC0) != 0x80)
            return 0;
        value = value << 6 | (text[i] & 0x3F);
    }
    return value >= form->least && value <= MOST_VALUE && !is_surrogate(value) ? form->bytes : 0;
}

static bool is_well_formed(const uint8_t *text, size_t length)
{
    while (length > 0) {
        size_t bytes = character_bytes(text, length);

        if (bytes == 0)
            return false;
        text += bytes;
        length -= bytes;
    }
    return true;
}

enum fault { NO_FAULT, TOO_SHORT, BAD_COUNT, BAD_FIRST_OFFSET, FALLING_OFFSETS, BAD_LAST_OFFSET, ILL_FORMED, FAULTS };

static size_t header_bytes(uint32_t count)
{
    return 2 + 2 * ((size_t)count + 1);
}

static uint32_t offset_in(const uint8_t *bytes, uint32_t k)
{
    return read_half(bytes + 2 + 2 * k);
}

static enum fault fault_of(const uint8_t *bytes, size_t length)
{
    if (length < 2)
        return TOO_SHORT;

    uint32_t count = read_half(bytes);

    if (count < 1 || count > FOLDHARBOR_MOST_MESSAGES)
        return BAD_COUNT;
    if (length < header_bytes(count))
        return TOO_SHORT;
    if (offset_in(bytes, 0) != header_bytes(count))
        return BAD_FIRST_OFFSET;
    for (uint32_t k = 0; k < count; k++)
        if (offset_in(bytes, k) > offset_in(bytes, k + 1))
            return FALLING_OFFSETS;
    if (offset_in(bytes, count) != length)
        return BAD_LAST_OFFSET;
    for (uint32_t k = 0; k < count; k++)
        if (!is_well_formed(bytes + offset_in(bytes, k), offset_in(bytes, k + 1) - offset_in(bytes, k)))
            return ILL_FORMED;
    return NO_FAULT;
}

/* What the call must give for the chosen table, whatever the other one is. */
static foldharbor_place model_text(const uint8_t *chosen, size_t length, uint32_t language, uint32_t message)
{
    if (language != 1 && language != 2)
        return (foldharbor_place){.refusal = FOLDHARBOR_NO_SUCH_LANGUAGE};
    if (fault_of(chosen, length) != NO_FAULT)
        return (foldharbor_place){.refusal = FOLDHARBOR_BAD_TABLE};
    if (message >= read_half(chosen))
        return (foldharbor_place){.refusal = FOLDHARBOR_NO_SUCH_MESSAGE};
    return (foldharbor_place){.start = offset_in(chosen, message), .end = offset_in(chosen, message + 1)};
}

/* The table that is compared, and the rooms from which the call reads it. */
static uint8_t table[LONGEST_TABLE];
static size_t table_length;
static uint8_t rooms[2][AROUND + LONGEST_TABLE + AROUND];
static uint8_t around[2][AROUND];

struct lent {
    const uint8_t *bytes;
    size_t length;
};

static uint64_t calls, failures;
/* By language, 0 for any that is not 1 or 2, and by refusal. */
static uint64_t outcomes[3][FOLDHARBOR_NO_SUCH_LANGUAGE + 1];
static uint64_t tables_seen[FAULTS];
static uint64_t strings_seen[2]; /* of one kind: ill-formed ones, well-formed ones */

/* With one of these bytes behind it, any cut character would be whole. */
static void fill_around(void)
{
    memset(around[0], 0x80, AROUND);
    memset(around[1], 0xBF, AROUND);
}

static void put_in_rooms(void)
{
    for (int i = 0; i < 2; i++) {
        memcpy(rooms[i], around[i], AROUND);
        memcpy(rooms[i] + AROUND, table, table_length);
        memcpy(rooms[i] + AROUND + table_length, around[i], AROUND);
    }
}

static bool room_unchanged(int i)
{
    return memcmp(rooms[i], around[i], AROUND) == 0 && memcmp(rooms[i] + AROUND, table, table_length) == 0 &&
           memcmp(rooms[i] + AROUND + table_length, around[i], AROUND) == 0;
}

static struct lent table_in_room(int i)
{
    return (struct lent){rooms[i] + AROUND, table_length};
}

static void print_table(const char *what, struct lent lent)
{
    printf("  %s table of %zu bytes:", what, lent.length);
    for (size_t i = 0; i < lent.length && i < 32; i++)
        printf(" %02x", lent.bytes[i]);
    printf(lent.length > 32 ? " ..\n" : "\n");
}

static void print_place(const char *what, foldharbor_place place)
{
    printf("  %s: refusal %u, %u to %u\n", what, place.refusal, place.start, place.end);
}

static void compare_call(int room, struct lent other, uint32_t language, uint32_t message, foldharbor_place by_model)
{
    struct lent chosen = table_in_room(room);
    struct lent first = language == 2 ? other : chosen;
    struct lent second = language == 2 ? chosen : other;
    foldharbor_place by_call =
        foldharbor_text(first.bytes, first.length, second.bytes, second.length, language, message);
    bool same = by_call.refusal == by_model.refusal && by_call.start == by_model.start && by_call.end == by_model.end;
    bool unchanged = room_unchanged(room);

    calls++;
    outcomes[language <= 2 ? language : 0][by_model.refusal]++;
    if (same && unchanged)
        return;
    if (failures++ >= MOST_PRINTED)
        return;
    printf("difference: language %" PRIu32 ", message %" PRIu32 ", around the chosen table %02x%s\n", language, message,
           around[room][0], unchanged ? "" : ", CHANGED");
    print_table("chosen", chosen);
    print_table("other", other);
    print_place("call", by_call);
    print_place("model", by_model);
}

static void expect(bool good, const char *what)
{
    if (good)
        return;
    failures++;
    printf("not as expected: %s\n", what);
}

static uint8_t *const string = table + 2 + 2 * 2; /* text of a table with one message */

static void begin_string(size_t bytes)
{
    table_length = header_bytes(1) + bytes;
    write_half(table, 1);
    write_half(table + 2, header_bytes(1));
    write_half(table + 4, table_length);
}

/* A call in each language: the first table is the one in the first room, the second the one in the second. */
static void compare_string(void)
{
    foldharbor_place by_model = model_text(table, table_length, 1, 0);

    strings_seen[by_model.refusal == 0]++;
    put_in_rooms();
    compare_call(0, table_in_room(1), 1, 0, by_model);
    compare_call(1, table_in_room(0), 2, 0, by_model);
}

static void compare_strings_up_to_three(void)
{
    for (uint32_t bytes = 0; bytes <= 3; bytes++) {
        begin_string(bytes);
        for (uint32_t number = 0; number < 1u << 8 * bytes; number++) {
            for (uint32_t i = 0; i < bytes; i++)
                string[i] = number >> 8 * i & 255;
            compare_string();
        }
    }
}

/* Writes a value in the form of so many bytes, which has room for it and need not be the shortest. */
static size_t encode(uint32_t value, uint32_t bytes, uint8_t *place)
{
    for (uint32_t i = bytes - 1; i > 0; i--, value >>= 6)
        place[i] = 0x80 | (value & 0x3F);
    place[0] = forms[bytes - 1].mark | value;
    return bytes;
}

static void compare_values_in_four(void)
{
    begin_string(4);
    for (uint32_t value = 0; value < 1u << 21; value++) {
        encode(value, 4, string);
        compare_string();
    }
}

/* Both sides of each edge of a range that a byte may be in, all against all. */
static void compare_edges_in_four(void)
{
    static const uint8_t edges[] = {0x00, 0x7F, 0x80, 0x8F, 0x90, 0x9F, 0xA0, 0xBF, 0xC0, 0xC1, 0xC2, 0xDF, 0xE0,
                                    0xE1, 0xEC, 0xED, 0xEE, 0xEF, 0xF0, 0xF1, 0xF3, 0xF4, 0xF5, 0xF7, 0xF8, 0xFF};
    enum { EDGES = sizeof edges };

    begin_string(4);
    for (uint32_t number = 0; number < EDGES * EDGES * EDGES * EDGES; number++) {
        for (uint32_t i = 0, rest = number; i < 4; i++, rest /= EDGES)
            string[i] = edges[rest % EDGES];
        compare_string();
    }
}

static void compare_random_fours(struct dice *dice)
{
    begin_string(4);
    for (uint32_t i = 0; i < RANDOM_STRINGS; i++) {
        write_half(string, dice_roll(dice, 1 << 16));
        write_half(string + 2, dice_roll(dice, 1 << 16));
        compare_string();
    }
}

/* Any form as often as any other, the first and the last value of a form more often than by chance. */
static size_t some_character(struct dice *dice, uint8_t *place)
{
    uint32_t bytes = 1 + dice_roll(dice, FORMS);
    uint32_t least = forms[bytes - 1].least;
    uint32_t most = bytes < FORMS ? forms[bytes].least - 1 : MOST_VALUE;
    uint32_t value = least + dice_roll(dice, most - least + 1);

    if (dice_once_in(dice, 2))
        value = dice_once_in(dice, 2) ? least : most;
    if (is_surrogate(value))
        value = dice_once_in(dice, 2) ? FIRST_SURROGATE - 1 : LAST_SURROGATE + 1;
    return encode(value, bytes, place);
}

static size_t some_broken_piece(struct dice *dice, uint8_t *place)
{
    uint32_t bytes = 2 + dice_roll(dice, FORMS - 1);

    switch (dice_roll(dice, 5)) {
    case 0: /* not the shortest form */
        return encode(dice_roll(dice, forms[bytes - 1].least), bytes, place);
    case 1:
        return encode(FIRST_SURROGATE + dice_roll(dice, LAST_SURROGATE - FIRST_SURROGATE + 1), 3, place);
    case 2: /* too great a value */
        return encode(MOST_VALUE + 1 + dice_roll(dice, (1 << 21) - MOST_VALUE - 1), 4, place);
    case 3: /* a cut character */
        bytes = some_character(dice, place);
        return bytes - dice_roll(dice, bytes);
    default:
        place[0] = dice_roll(dice, 256);
        return 1;
    }
}

/* Writes exactly so many bytes and at times a few behind them; one piece in so many is broken, none if that is 0. */
static void write_text(struct dice *dice, uint8_t *place, size_t bytes, uint32_t one_broken_in)
{
    while (bytes > 0) {
        bool broken = one_broken_in > 0 && dice_once_in(dice, one_broken_in);
        size_t taken = broken ? some_broken_piece(dice, place) : some_character(dice, place);

        if (taken > bytes) {
            place[0] = 'x';
            taken = 1;
        }
        place += taken;
        bytes -= taken;
    }
}

static void compare_random_pieces(struct dice *dice)
{
    for (uint32_t i = 0; i < RANDOM_STRINGS; i++) {
        size_t bytes = 5 + dice_roll(dice, 8);

        begin_string(bytes);
        write_text(dice, string, bytes, 6);
        compare_string();
    }
}

static const uint8_t zeros[16];
static const uint8_t bad_table[] = {1, 0, 6, 0, 7, 0, 0xFF};
static const uint8_t good_table[] = {2, 0, 8, 0, 9, 0, 11, 0, 'x', 0xC3, 0xBD};

static const struct lent others[] = {
    {zeros, sizeof zeros},
    {zeros, 0},
    {bad_table, sizeof bad_table},
    {good_table, sizeof good_table},
    {NULL, 0}, /* stands for the chosen table itself */
};

enum { OTHERS = sizeof others / sizeof others[0] };

static void compare(struct lent other, uint32_t language, uint32_t message)
{
    foldharbor_place by_model = model_text(table, table_length, language, message);

    for (int room = 0; room < 2; room++)
        compare_call(room, other.bytes ? other : table_in_room(room), language, message, by_model);
}

static void begin_table(void)
{
    tables_seen[fault_of(table, table_length)]++;
    put_in_rooms();
}

static void compare_every_way(void)
{
    static const uint32_t languages[] = {0, 1, 2, 3, (1u << 8) + 1, (1u << 16) + 2, 1u << 31, UINT32_MAX};
    uint32_t count = read_half(table);
    const uint32_t messages[] = {0, 1, count - 1, count, count + 1, 1u << 8, 1u << 16, 1u << 31, UINT32_MAX};

    begin_table();
    for (size_t i = 0; i < sizeof messages / sizeof messages[0]; i++)
        for (size_t j = 0; j < sizeof languages / sizeof languages[0]; j++)
            for (size_t k = 0; k < OTHERS; k++)
                compare(others[k], languages[j], messages[i]);
}

static void compare_some_ways(struct dice *dice)
{
    static const uint32_t languages[] = {0, 1, 1, 2, 2, 3, 1u << 31, UINT32_MAX};
    uint32_t count = read_half(table);

    begin_table();
    for (int times = 0; times < 4; times++) {
        const uint32_t messages[] = {dice_roll(dice, count), 0, count - 1, count, count + 1, UINT32_MAX};
        uint32_t message = messages[dice_roll(dice, sizeof messages / sizeof messages[0])];
        uint32_t language = languages[dice_roll(dice, sizeof languages / sizeof languages[0])];

        compare(others[dice_roll(dice, OTHERS)], language, message);
    }
}

static uint8_t *offset_place(uint32_t k)
{
    return table + 2 + 2 * k;
}

/* What the first of so many messages, two at least, takes of the bytes: at times nothing, seldom everything. */
static size_t some_share(struct dice *dice, size_t bytes, uint32_t messages)
{
    if (dice_once_in(dice, 4))
        return 0;
    if (dice_once_in(dice, 50))
        return bytes;
    return dice_roll(dice, 2 * bytes / messages + 1);
}

/* Makes a table of so many messages with so many bytes of text; it is good if it may have so many of both. */
static void make_table(struct dice *dice, uint32_t count, size_t text_bytes)
{
    size_t at = header_bytes(count);

    table_length = at + text_bytes;
    write_half(table, count);
    write_half(offset_place(0), at);
    for (uint32_t k = 0; k < count; k++) {
        size_t left = table_length - at;
        size_t bytes = k + 1 < count ? some_share(dice, left, count - k) : left;

        write_text(dice, table + at, bytes, 0);
        at += bytes;
        write_half(offset_place(k + 1), at);
    }
}

static void compare_limits(struct dice *dice)
{
    static const uint32_t counts[] = {0, 1, 2, 63, 64, 65, 66, 128, 256, 257};

    for (size_t i = 0; i < sizeof counts / sizeof counts[0]; i++) {
        size_t most = FOLDHARBOR_MOST_TABLE_BYTES - header_bytes(counts[i]);
        const size_t text_bytes[] = {0, 1, 100, most, most + 1, most + 101};
        bool count_good = 1 <= counts[i] && counts[i] <= FOLDHARBOR_MOST_MESSAGES;

        for (size_t j = 0; j < sizeof text_bytes / sizeof text_bytes[0]; j++) {
            bool good = count_good && text_bytes[j] <= most;

            make_table(dice, counts[i], text_bytes[j]);
            expect((fault_of(table, table_length) == NO_FAULT) == good, "the model at a limit");
            if (text_bytes[j] <= 100)
                compare_every_way();
            else
                compare_some_ways(dice);
        }
    }
}

/* Every cut of a small table, and lengths whose low 16 bits are those of a good one. */
static void compare_lengths(struct dice *dice)
{
    make_table(dice, 3, 20);

    size_t whole = table_length;

    for (table_length = 0; table_length <= whole + 4; table_length++) {
        expect((fault_of(table, table_length) == NO_FAULT) == (table_length == whole), "the model on a cut table");
        compare_every_way();
    }
    table_length = whole + (1 << 16);
    compare_every_way();
}

/* Each number in the header of a small table takes every value. */
static void compare_header_numbers(struct dice *dice)
{
    enum { COUNT = 3, NUMBERS = 1 + COUNT + 1 };

    make_table(dice, COUNT, 20);
    for (uint32_t number = 0; number < NUMBERS; number++) {
        uint8_t *place = table + 2 * number;
        uint32_t before = read_half(place);

        for (uint32_t value = 0; value < 1 << 16; value++) {
            write_half(place, value);
            begin_table();
            compare(others[value % OTHERS], 1 + value % 2, value / 2 % (COUNT + 1));
        }
        write_half(place, before);
    }
}

/* Two messages that make one character: the text as a whole is well-formed, neither message is. */
static void compare_split_characters(void)
{
    static const uint8_t characters[][4] = {{0xC3, 0xBD}, {0xE2, 0x82, 0xAC}, {0xF0, 0x9F, 0x9A, 0x82}};

    for (uint32_t i = 0; i < sizeof characters / sizeof characters[0]; i++) {
        uint32_t bytes = i + 2;
        uint32_t start = header_bytes(2);

        write_half(table, 2);
        write_half(offset_place(0), start);
        write_half(offset_place(2), start + bytes);
        memcpy(table + start, characters[i], bytes);
        table_length = start + bytes;
        for (uint32_t split = 0; split <= bytes; split++) {
            bool whole = split == 0 || split == bytes;

            write_half(offset_place(1), start + split);
            expect(fault_of(table, table_length) == (whole ? NO_FAULT : ILL_FORMED), "the model on a split character");
            compare_every_way();
        }
    }
}

/* Each message of the largest count in turn: ill-formed, then beginning behind its end. */
static void compare_each_message(void)
{
    enum { COUNT = FOLDHARBOR_MOST_MESSAGES };
    uint32_t start = header_bytes(COUNT);

    table_length = start + COUNT;
    write_half(table, COUNT);
    memset(table + start, 'x', COUNT);
    for (uint32_t k = 0; k <= COUNT; k++)
        write_half(offset_place(k), start + k);
    for (uint32_t k = 0; k < COUNT; k++) {
        enum fault falling = k == 0 ? BAD_FIRST_OFFSET : FALLING_OFFSETS;

        table[start + k] = 0xFF;
        expect(fault_of(table, table_length) == ILL_FORMED, "the model on an ill-formed message");
        compare_every_way();
        table[start + k] = 'x';
        write_half(offset_place(k), start + k + 2);
        expect(fault_of(table, table_length) == falling, "the model on a falling offset");
        compare_every_way();
        write_half(offset_place(k), start + k);
    }
}

static void add_to_half(uint8_t *place, int number)
{
    write_half(place, read_half(place) + (uint32_t)number);
}

static void swap_halves(uint8_t *one, uint8_t *other)
{
    uint32_t before = read_half(one);

    write_half(one, read_half(other));
    write_half(other, before);
}

static void damage(struct dice *dice, uint32_t count)
{
    static const uint32_t counts[] = {0, 65, 66, 256, UINT16_MAX};
    uint8_t *any_offset = offset_place(dice_roll(dice, count + 1));
    uint8_t *any_byte = table + dice_roll(dice, table_length);
    int one = dice_once_in(dice, 2) ? 1 : -1;

    switch (dice_roll(dice, 12)) {
    case 0:
        write_half(table, counts[dice_roll(dice, sizeof counts / sizeof counts[0])]);
        break;
    case 1:
        add_to_half(table, one);
        break;
    case 2:
        add_to_half(offset_place(0), one * (1 + (int)dice_roll(dice, 2)));
        break;
    case 3:
        add_to_half(offset_place(count), one);
        break;
    case 4:
    case 5:
        add_to_half(any_offset, one);
        break;
    case 6:
        swap_halves(any_offset, offset_place(dice_roll(dice, count + 1)));
        break;
    case 7:
        table_length = dice_roll(dice, table_length + 1);
        break;
    case 8:
        table_length += one;
        break;
    default:
        *any_byte = dice_roll(dice, 256);
        break;
    }
}

static void compare_random_tables(struct dice *dice)
{
    for (uint32_t i = 0; i < RANDOM_TABLES; i++) {
        uint32_t count = 1 + dice_roll(dice, FOLDHARBOR_MOST_MESSAGES);
        size_t most = FOLDHARBOR_MOST_TABLE_BYTES - header_bytes(count);

        make_table(dice, count, dice_roll(dice, dice_once_in(dice, 40) ? most + 1 : 300));
        if (!dice_once_in(dice, 3))
            damage(dice, count);
        compare_some_ways(dice);
    }
}

/* How many strings of so many bytes are well-formed: a character of each form, and what may stand behind it. */
static uint64_t well_formed_strings(uint32_t bytes)
{
    const uint64_t characters[] = {128, 2048 - 128, 65536 - 2048 - 2048, 16 * 65536}; /* of 1 to 4 bytes */
    uint64_t sum = bytes == 0;

    for (uint32_t first = 1; first <= 4 && first <= bytes; first++)
        sum += characters[first - 1] * well_formed_strings(bytes - first);
    return sum;
}

static void report_seen(const char *what, uint64_t count)
{
    printf("  %-26s %12" PRIu64 "%s\n", what, count, count == 0 ? "  NEVER SEEN" : "");
    failures += count == 0;
}

static void report_strings(const char *what)
{
    printf("strings %s:\n", what);
    report_seen("well-formed", strings_seen[1]);
    report_seen("ill-formed", strings_seen[0]);
    strings_seen[0] = strings_seen[1] = 0;
}

static void compare_strings(struct dice *dice)
{
    compare_strings_up_to_three();
    expect(strings_seen[1] ==
               well_formed_strings(0) + well_formed_strings(1) + well_formed_strings(2) + well_formed_strings(3),
           "the count of well-formed strings");
    report_strings("of up to 3 bytes, all");
    compare_values_in_four();
    expect(strings_seen[1] == 16 * 65536, "the count of characters of 4 bytes");
    report_strings("of 4 bytes in the form of a character, all");
    compare_edges_in_four();
    report_strings("of 4 bytes at edges, all");
    compare_random_fours(dice);
    report_strings("of 4 bytes, random");
    compare_random_pieces(dice);
    report_strings("of 5 to 12 bytes, random pieces");
}

static void compare_tables(struct dice *dice)
{
    compare_split_characters();
    compare_each_message();
    compare_limits(dice);
    compare_lengths(dice);
    compare_header_numbers(dice);
    compare_random_tables(dice);
    printf("tables:\n");
    report_seen("good", tables_seen[NO_FAULT]);
    report_seen("too short", tables_seen[TOO_SHORT]);
    report_seen("count out of range", tables_seen[BAD_COUNT]);
    report_seen("first offset wrong", tables_seen[BAD_FIRST_OFFSET]);
    report_seen("offsets fall", tables_seen[FALLING_OFFSETS]);
    report_seen("last offset wrong", tables_seen[BAD_LAST_OFFSET]);
    report_seen("message ill-formed", tables_seen[ILL_FORMED]);
}

int main(void)
{
    struct dice dice = {SEED};

    fill_around();
    compare_strings(&dice);
    compare_tables(&dice);
    printf("calls:\n");
    report_seen("refused 17", outcomes[0][FOLDHARBOR_NO_SUCH_LANGUAGE]);
    for (int language = 1; language <= 2; language++) {
        printf(" in language %d:\n", language);
        report_seen("refused 15", outcomes[language][FOLDHARBOR_BAD_TABLE]);
        report_seen("refused 16", outcomes[language][FOLDHARBOR_NO_SUCH_MESSAGE]);
        report_seen("accepted", outcomes[language][0]);
    }
    printf("texts: %" PRIu64 " calls, %" PRIu64 " failures\n", calls, failures);
    return failures > 0;
}
