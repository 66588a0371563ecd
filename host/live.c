/*
 * A small cab desk in the terminal: a minute of a made-up drive, ten ticks a second.
 *
 *   live [--fast]      --fast: as fast as it can
 *
 * A key that is pressed in a terminal acts in the next tick. If standard input is none, each of its bytes is the key of
 * a tick: one that is no key, such as a dot, stands for none, and behind the last one the drive goes on without keys.
 * Back, restart and why act just before their tick is played. The train goes back with the desk, so that the same keys
 * then give the same lines again. A terminal shows one line, written anew; into a file or a pipe goes a line for each
 * tick. Where ticks stay refused for a second, no protection is left: then the host opens the valve, until one is
 * accepted.
 *
 * Ends with 0; with 2 where the words make no sense, the input can't be read or the output can't be written; or, in a
 * terminal, with 128 and the number of the signal that ended it (INT, TERM, HUP, QUIT), the terminal being as it was.
 */
#define _POSIX_C_SOURCE 200809L
#include <errno.h>
#include <math.h>
#include <signal.h>
#include <stdarg.h>
#include <stdbool.h>
#include <stdio.h>
#include <stdlib.h>
#include <string.h>
#include <sys/ioctl.h>
#include <termios.h>
#include <time.h>
#include <unistd.h>

#include "foldharbor.h"

enum {
    DRIVE_TICKS = 600,
    BACK_TICKS = 300,
    MOST_REFUSED = 10, /* ticks in a row, then the host opens the valve */
    TICK_NANOSECONDS = 100000000,
    SECOND_NANOSECONDS = 1000000000
};

enum { /* of the made-up train: by how much its speed changes in a tick, in tenths of km/h */
    GAIN = 6,
    LOSS_BY_DRIVER = 9,
    LOSS_BY_VALVE = 12
};

static const char usage[] = "usage: live [--fast]\n";
static const char keys_help[] = "keys: space vigilance, + PLUS, m MAN, b back by 30 s or to the start,\n"
                                "r restart, w why the valve is open, x a failing reading (no number), q quit\n";
static const char heading[] = " time   km/h  permitted  target  signal          valve\n";

static const foldharbor_card card = {
    .design = 1600, .set = 1400, .highest = 1400, .pos = 400, .zav = 1000,
    .tolerance = 30, .stop = 0, .deceleration = 18, .cycle = 200, .wait = FOLDHARBOR_SHORT_WAIT,
};

/* The drive: up to which tick there is which signal, and which speed the driver is after. */
struct part {
    uint32_t until;
    uint8_t code;
    const char *signal;
    uint32_t wanted;
};

static const struct part parts[] = {
    {20, FOLDHARBOR_CODE_CLEAR, "Clear", 0},
    {240, FOLDHARBOR_CODE_CLEAR, "Clear", 1200},
    {300, FOLDHARBOR_CODE_WARNING, "Warning", 1200},
    {430, FOLDHARBOR_CODE_FORTY, "40 and warning", 1200},
    {450, FOLDHARBOR_CODE_STOP, "Stop", 1200},
    {DRIVE_TICKS, FOLDHARBOR_CODE_STOP, "Stop", 0},
};

static uint8_t journal[FOLDHARBOR_JOURNAL_BYTES];
static uint32_t speeds[DRIVE_TICKS + 1]; /* of the train at each tick, so that it can go back with the desk */
static uint32_t refused;                 /* ticks in a row, up to the last one */
static char keys[64];                    /* that act in this tick; zeros are none */
static bool keyboard, screen;            /* whether input and output are a terminal */
static struct termios terminal_before;
static volatile sig_atomic_t caught; /* the signal that ends the drive */

static bool is_pressed(char key)
{
    return memchr(keys, key, sizeof keys) != NULL;
}

/* ---- The train */

static const struct part *part_at(uint32_t tick)
{
    const struct part *part = parts;

    while (tick >= part->until)
        part++;
    return part;
}

static bool valve_is_open(const foldharbor_desk *desk)
{
    return desk->state.causes != 0 || refused >= MOST_REFUSED;
}

static uint32_t slower(uint32_t speed, uint32_t loss, uint32_t least)
{
    return speed > least + loss ? speed - loss : least;
}

static uint32_t speed_after(uint32_t speed, uint32_t wanted, bool valve_open)
{
    if (valve_open)
        return slower(speed, LOSS_BY_VALVE, 0);
    if (speed > wanted)
        return slower(speed, LOSS_BY_DRIVER, wanted);
    return speed + GAIN < wanted ? speed + GAIN : wanted;
}

static foldharbor_sample take_readings(const foldharbor_desk *desk)
{
    const struct part *part = part_at(desk->n);
    uint32_t speed = speeds[desk->n];
    foldharbor_sample sample = {
        .speed = is_pressed('x') ? NAN : speed / 36.0f,
        .pressure = valve_is_open(desk) ? 0.0f : 5.0f,
        .code = part->code,
        .mode = FOLDHARBOR_MODE_PRE,
        .lever = FOLDHARBOR_FORWARD,
        .flags = FOLDHARBOR_FLAG_CAB_ON,
        .sense = speed > 0 ? FOLDHARBOR_FORWARD : FOLDHARBOR_NO_DIRECTION,
    };

    if (part->wanted == 0)
        sample.flags |= FOLDHARBOR_FLAG_DIRECT_BRAKE;
    if (is_pressed(' '))
        sample.flags |= FOLDHARBOR_FLAG_VIGILANCE;
    if (is_pressed('+'))
        sample.flags |= FOLDHARBOR_FLAG_PLUS;
    if (is_pressed('m'))
        sample.flags |= FOLDHARBOR_FLAG_MAN;
    return sample;
}

/* ---- The line */

static char line[160]; /* longer than any line */
static size_t length;  /* of what is in it */

static void add(const char *format, ...)
{
    va_list values;

    va_start(values, format);
    length += vsnprintf(line + length, sizeof line - length, format, values);
    va_end(values);
}

static void add_valve(uint8_t causes)
{
    add(causes != 0 ? "OPEN" : "closed");
    for (unsigned bit = 0; bit < 5; bit++)
        if (causes >> bit & 1)
            add(" NZ%u", bit + 1);
}

static void add_marks(uint8_t marks)
{
    if (marks & FOLDHARBOR_MARK_CYCLIC_PROMPT)
        add("  PRESS (cyclic)");
    if (marks & FOLDHARBOR_MARK_ONE_TIME_PROMPT)
        add("  PRESS (%s)", marks & FOLDHARBOR_MARK_ONE_TIME_KIND ? "near" : "start");
    if (marks & FOLDHARBOR_MARK_CURVE)
        add("  curve");
    if (marks & FOLDHARBOR_MARK_MAN)
        add("  MAN");
    if (marks & FOLDHARBOR_MARK_ZS20)
        add("  ZS20");
}

/* In a terminal what is written next takes the place of the line that is there. */
static void begin_line(void)
{
    if (screen)
        fputs("\r\033[K", stdout);
}

/* Shows how the desk stands after its last tick. */
static void show(const foldharbor_outcome *out)
{
    struct winsize size;
    uint32_t last = out->desk.n - 1;

    length = 0;
    add("%5.1f  %5.1f  %9.1f  %6.1f  %-14s  ", out->desk.n / 10.0, speeds[last] / 10.0, out->answer.permitted / 10.0,
        out->answer.target / 10.0, part_at(last)->signal);
    add_valve(out->desk.state.causes);
    add_marks(out->answer.marks);
    if (screen && ioctl(STDOUT_FILENO, TIOCGWINSZ, &size) == 0 && size.ws_col > 0 && length >= size.ws_col)
        line[size.ws_col - 1] = '\0'; /* what is too long would become two lines */
    begin_line();
    printf(screen ? "%s" : "%s\n", line);
}

/* ---- The calls. A refused one gives back the desk that it got: in any case the drive goes on with out.desk. */

static bool is_accepted(const foldharbor_outcome *out, const char *call)
{
    if (out->refusal == 0)
        return true;
    begin_line();
    printf("%s refused: %u\n", call, out->refusal);
    return false;
}

static foldharbor_desk play_tick(foldharbor_desk desk)
{
    foldharbor_outcome out = foldharbor_tick(desk, take_readings(&desk), journal, sizeof journal);

    refused = out.refusal == 0 ? 0 : refused + 1;
    if (is_accepted(&out, "tick")) {
        speeds[out.desk.n] = speed_after(speeds[desk.n], part_at(desk.n)->wanted, valve_is_open(&out.desk));
        show(&out);
    } else if (refused >= MOST_REFUSED) { /* no time passes on the desk, but the train brakes */
        speeds[desk.n] = slower(speeds[desk.n], LOSS_BY_VALVE, 0);
    }
    if (refused == MOST_REFUSED)
        puts("no reading for a second: the host opens the valve");
    return out.desk;
}

/* In the first 30 s there are fewer ticks to strike: an instructor wants the start then, and not refusal 8. */
static foldharbor_desk step_back(foldharbor_desk desk)
{
    uint32_t ticks = desk.n < BACK_TICKS ? desk.n : BACK_TICKS;
    foldharbor_outcome out = foldharbor_step_back(desk, ticks, journal, sizeof journal);

    if (is_accepted(&out, "step back")) {
        begin_line();
        printf("back by %.1f s\n", ticks / 10.0);
        if (out.desk.n > 0)
            show(&out);
    }
    return out.desk;
}

static foldharbor_desk restart(foldharbor_desk desk)
{
    foldharbor_outcome out = foldharbor_restart(desk);

    if (is_accepted(&out, "restart")) {
        begin_line();
        puts("restart");
    }
    return out.desk;
}

/* Tells since when each cause is held. The valve is also open where the host alone opened it. */
static void tell_why(foldharbor_desk desk)
{
    foldharbor_reasons why = foldharbor_why(desk, journal, sizeof journal);

    begin_line();
    if (why.refusal == FOLDHARBOR_VALVE_CLOSED)
        puts("no cause is held");
    else if (why.refusal != 0)
        printf("why refused: %u\n", why.refusal);
    for (unsigned bit = 0; bit < FOLDHARBOR_CAUSES; bit++) {
        const foldharbor_reason *reason = &why.of_cause[bit];

        if (reason->tick > 0)
            printf("NZ%u held since tick %u, %.1f s, at %.1f km/h\n", bit + 1, reason->tick, reason->tick / 10.0,
                   reason->reading.v / 10.0);
    }
}

/* ---- The terminal */

static void fail(const char *what)
{
    perror(what);
    exit(2);
}

static void end_drive(int number)
{
    caught = number;
}

static void restore_terminal(void)
{
    tcsetattr(STDIN_FILENO, TCSAFLUSH, &terminal_before);
}

/* Has the signals that a terminal or a user sends end the drive, and not the program at once. */
static void catch_signals(void)
{
    struct sigaction action = {.sa_handler = end_drive};

    sigaction(SIGINT, &action, NULL);
    sigaction(SIGTERM, &action, NULL);
    sigaction(SIGHUP, &action, NULL);
    sigaction(SIGQUIT, &action, NULL);
    action.sa_handler = SIG_IGN;
    sigaction(SIGPIPE, &action, NULL); /* a write that fails is noticed */
}

/* Has the terminal hand over each key at once and unseen, and a read come back at once where none is pressed. */
static void take_terminal(void)
{
    struct termios taken;

    if (tcgetattr(STDIN_FILENO, &terminal_before) != 0 || atexit(restore_terminal) != 0)
        fail("standard input");
    catch_signals();
    taken = terminal_before;
    taken.c_lflag &= ~(tcflag_t)(ICANON | ECHO);
    taken.c_cc[VMIN] = 0;
    taken.c_cc[VTIME] = 0;
    taken.c_cc[VSUSP] = _POSIX_VDISABLE; /* no suspending: the shell would get the terminal like this */
    if (tcsetattr(STDIN_FILENO, TCSAFLUSH, &taken) != 0)
        fail("standard input");
}

static void read_keys(void)
{
    memset(keys, 0, sizeof keys);
    if (read(STDIN_FILENO, keys, keyboard ? sizeof keys : 1) < 0 && errno != EINTR)
        fail("standard input");
}

/* Waits until the clock is a tenth of a second on, so that what a tick takes does not add up. A signal ends it. */
static void wait_for_tick(struct timespec *next)
{
    next->tv_nsec += TICK_NANOSECONDS;
    if (next->tv_nsec >= SECOND_NANOSECONDS) {
        next->tv_nsec -= SECOND_NANOSECONDS;
        next->tv_sec++;
    }
    clock_nanosleep(CLOCK_MONOTONIC, TIMER_ABSTIME, next, NULL);
}

static void drive(foldharbor_desk desk, bool fast)
{
    struct timespec next;

    clock_gettime(CLOCK_MONOTONIC, &next);
    while (desk.n < DRIVE_TICKS && fflush(stdout) == 0) {
        if (!fast)
            wait_for_tick(&next);
        read_keys();
        if (is_pressed('q') || caught != 0)
            return;
        if (is_pressed('b'))
            desk = step_back(desk);
        if (is_pressed('r'))
            desk = restart(desk);
        if (is_pressed('w'))
            tell_why(desk);
        desk = play_tick(desk);
    }
}

/* Gives the status, or 2 where not all that was printed could be written. */
static int finish(int status)
{
    if (fflush(stdout) == 0 && !ferror(stdout))
        return status;
    perror("standard output");
    return 2;
}

int main(int count, char **arguments)
{
    bool fast = count == 2 && strcmp(arguments[1], "--fast") == 0;

    if (count == 2 && strcmp(arguments[1], "--help") == 0) {
        printf("%s%s", usage, keys_help);
        return finish(0);
    }
    if (count != 1 && !fast) {
        fputs(usage, stderr);
        return 2;
    }
    if (foldharbor_version() / 10000 != FOLDHARBOR_VERSION / 10000) {
        fputs("live: the archive's version does not go with the header's\n", stderr);
        return 2;
    }

    foldharbor_outcome out = foldharbor_open(card);

    if (!is_accepted(&out, "open"))
        return finish(2);
    keyboard = isatty(STDIN_FILENO);
    screen = isatty(STDOUT_FILENO);
    if (keyboard) {
        take_terminal();
        fputs(keys_help, stdout);
    }
    fputs(heading, stdout);
    drive(out.desk, fast);
    if (screen)
        putchar('\n');
    return finish(caught != 0 ? 128 + caught : 0);
}
