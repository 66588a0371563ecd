/*
 * Every call of the header, in what C and C++ share: tests/header.sh has it compiled as both, and run as C++.
 * Ends with 0, or with 1 after a line for each call that gives something else than it should.
 */
#include "foldharbor.h"
#include "foldharbor.h" /* a second time, which has to do no harm */

#include <stdio.h>
#include <string.h>

static const uint8_t card_bytes[FOLDHARBOR_CARD_BYTES] = {0x40, 0x06, 0x78, 0x05, 0x78, 0x05, 0x90, 0x01, 0xE8, 0x03,
                                                          0x1E, 0x00, 0x00, 0x00, 0x12, 0x00, 0xC8, 0x00, 0xFA, 0x00};
static uint8_t journal[FOLDHARBOR_JOURNAL_BYTES];
static int failures;

static void expect(int good, const char *call)
{
    if (good)
        return;
    printf("%s gives something else\n", call);
    failures++;
}

static foldharbor_desk play(foldharbor_card card)
{
    foldharbor_sample sample = {0.0f, 5.0f, FOLDHARBOR_CODE_CLEAR, FOLDHARBOR_MODE_PRE, FOLDHARBOR_FORWARD,
                                FOLDHARBOR_FLAG_CAB_ON, FOLDHARBOR_NO_DIRECTION};
    uint8_t bytes[FOLDHARBOR_ANSWER_BYTES];
    foldharbor_outcome out = foldharbor_open(card);

    expect(out.refusal == 0 && out.desk.state.mode == FOLDHARBOR_MODE_POS, "open");
    out = foldharbor_tick(out.desk, sample, journal, sizeof journal);
    expect(out.refusal == 0 && out.answer.permitted == 1400 && out.answer.target == 1600, "tick");
    expect(foldharbor_put_answer(out.answer, bytes, sizeof bytes) == sizeof bytes, "put_answer");
    expect(foldharbor_answer_at(bytes, sizeof bytes).permitted == 1400, "answer_at");
    return out.desk;
}

/* In POS 50 m/s are too fast: NZ2, from the first tick on. */
static void tell_why(foldharbor_card card)
{
    foldharbor_sample fast = {50.0f, 5.0f, FOLDHARBOR_CODE_CLEAR, FOLDHARBOR_MODE_PRE, FOLDHARBOR_FORWARD,
                              FOLDHARBOR_FLAG_CAB_ON, FOLDHARBOR_FORWARD};
    foldharbor_outcome out = foldharbor_open(card);

    expect(foldharbor_why(out.desk, journal, 0).refusal == FOLDHARBOR_VALVE_CLOSED, "why of a closed valve");
    out = foldharbor_tick(out.desk, fast, journal, sizeof journal);

    foldharbor_reasons why = foldharbor_why(out.desk, journal, sizeof journal);

    expect(why.refusal == 0 && why.of_cause[0].tick == 0 && why.of_cause[1].tick == 1, "why");
    expect(why.of_cause[1].reading.v == 1800 && why.of_cause[1].reading.sense == FOLDHARBOR_FORWARD, "why's record");
    out.desk.state.causes = FOLDHARBOR_NZ1;
    expect(foldharbor_why(out.desk, journal, sizeof journal).refusal == FOLDHARBOR_OTHER_DESK, "why of another desk");
}

static void run(void)
{
    /* one card, and one run of 9 ticks that stands in PRE under Clear */
    static const uint8_t header[FOLDHARBOR_HEADER_BYTES] = {1, 0, 1, 0, 10, 0, 30, 0, 40, 0};
    static const uint8_t nine_ticks[FOLDHARBOR_RUN_BYTES] = {9, 0, 0, 0, 4, 2, 1, 72, 2, 0};
    uint8_t exercise[sizeof header + sizeof card_bytes + sizeof nine_ticks];
    uint8_t answers[FOLDHARBOR_ANSWER_BYTES * 9];

    memcpy(exercise, header, sizeof header);
    memcpy(exercise + sizeof header, card_bytes, sizeof card_bytes);
    memcpy(exercise + sizeof header + sizeof card_bytes, nine_ticks, sizeof nine_ticks);
    expect(foldharbor_read_exercise(exercise, sizeof exercise).ticks == 9, "read_exercise");
    expect(foldharbor_run_exercise(exercise, sizeof exercise, 1, answers, sizeof answers) == 9, "run_exercise");
}

int main(void)
{
    static const uint8_t table[] = {1, 0, 6, 0, 9, 0, 'N', 'Z', '1'}; /* a message of 3 bytes */
    uint8_t bytes[FOLDHARBOR_CARD_BYTES];
    foldharbor_card card = foldharbor_card_at(card_bytes, sizeof card_bytes);
    foldharbor_desk desk = play(card);

    expect(foldharbor_version() == FOLDHARBOR_VERSION, "version");
    expect(card.design == 1600 && card.wait == FOLDHARBOR_SHORT_WAIT, "card_at");
    expect(foldharbor_put_card(card, bytes, sizeof bytes) == sizeof bytes, "put_card");
    expect(foldharbor_step_back(desk, 2, journal, sizeof journal).refusal == FOLDHARBOR_BACK_TOO_FAR, "step_back");
    expect(foldharbor_restart(desk).desk.n == 0, "restart");
    expect(foldharbor_text(table, sizeof table, table, sizeof table, 1, 0).end == 9, "text");
    tell_why(card);
    run();
    return failures > 0;
}
