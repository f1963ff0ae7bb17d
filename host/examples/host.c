/*
 * An example host: document 01's example bank, cooked to its end through two
 * outages, with a horn on alarm 1. It checks what it gets back against
 * documents 01 and 02 and exits with a status other than 0 if anything differs.
 *
 *   gcc -std=c99 -Wall -Wextra -Werror -I host host/examples/host.c \
 *       crates/host/out/libhost.a -o example_host
 */
#include <stdio.h>
#include <stdlib.h>
#include <string.h>

#include "cook.h"

#define HORN 1 /* the alarm that the horn hangs on */

struct host {
    uint8_t bank[COOK_BANK_MAX];
    size_t bank_len;
    uint8_t config[COOK_CONFIG_LEN];
    uint8_t record[COOK_RECORD_LEN]; /* retained memory: outlives a cut */
    uint8_t state[COOK_STATE_LEN];
    int horn; /* whether the horn sounds */
};

static void expect(const char *what, long got, long due)
{
    if (got != due) {
        fprintf(stderr, "host: %s is %ld and should be %ld\n", what, got, due);
        exit(1);
    }
}

static void put16(uint8_t *bytes, size_t at, unsigned value)
{
    bytes[at] = (uint8_t)(value & 0xff);
    bytes[at + 1] = (uint8_t)(value >> 8);
}

/* One pattern, run once: to 60.0 degrees in 2 minutes, then 1 minute there. */
static void write_bank(struct host *host)
{
    uint8_t settings[COOK_SETTINGS_LEN] = {0};
    uint8_t patterns[COOK_PATTERNS_LEN] = {0};
    uint8_t steps[COOK_STEPS_LEN] = {0};
    uint64_t result;

    settings[0] = 1;           /* n */
    settings[1] = 1;           /* start from the start value */
    settings[2] = 2;           /* after an outage: continue */
    put16(settings, 5, 1000);  /* SLH; SLL is 0 */
    put16(settings, 7, 200);   /* start value */
    patterns[0] = 1;           /* runs */
    patterns[1] = 2;           /* steps */
    put16(steps, 0, 600);
    put16(steps, 2, 2);
    put16(steps, COOK_STEP_LEN, 600);
    put16(steps, COOK_STEP_LEN + 2, 1);
    result = cook_write(settings, sizeof settings, patterns, sizeof patterns,
                        steps, sizeof steps, host->bank, sizeof host->bank);
    expect("cook_write's number", cook_number(result), COOK_ACCEPTED);
    expect("the bank's length", cook_first(result), 45 + 4 + 2 + 2 * 9);
    host->bank_len = cook_first(result);
    result = cook_check(host->bank, host->bank_len);
    expect("cook_check's number", cook_number(result), COOK_ACCEPTED);
}

/* The horn: 65.0 degrees or more for 4 seconds; it sounds until cleared. */
static void write_config(struct host *host)
{
    uint8_t *horn = host->config + (HORN - 1) * COOK_ALARM_LEN;

    memset(host->config, 0, sizeof host->config); /* no other alarm is set */
    horn[COOK_ALARM_KIND] = COOK_ALARM_MEASURED_AT_LEAST;
    put16(horn, COOK_ALARM_HIGH, 650);
    put16(horn, COOK_ALARM_DELAY, 3);
    horn[COOK_ALARM_FLAGS] = COOK_ALARM_HOLD;
}

static uint64_t give(struct host *host, enum cook_kind kind, int32_t value)
{
    return cook_event(host->bank, host->bank_len,
                      host->config, sizeof host->config,
                      host->record, sizeof host->record,
                      host->state, sizeof host->state, (uint32_t)kind, value);
}

/* Turns the horn on or off as its alarm says, and prints a line if it does. */
static void sound(struct host *host)
{
    int on = cook_alarm_on(host->state, HORN);

    if (on != host->horn)
        printf("%-12s the horn goes %s\n", "", on ? "on" : "off");
    host->horn = on;
}

/* Gives an event, prints a line and checks the answer, set value, k and e. */
static void show(struct host *host, const char *name, enum cook_kind kind,
                 int32_t value, const long due[4])
{
    uint64_t result = give(host, kind, value);
    long elapsed = (long)cook_get32(host->state, COOK_AT_ELAPSED);

    printf("%-12s answer %2u  mode %d  step %d  elapsed %3ld  set value %d\n",
           name, cook_number(result), host->state[COOK_AT_MODE],
           host->state[COOK_AT_STEP], elapsed, cook_set_value(result));
    sound(host);
    expect("the answer", cook_number(result), due[0]);
    expect("the set value", cook_set_value(result), due[1]);
    expect("the step", host->state[COOK_AT_STEP], due[2]);
    expect("the elapsed time", elapsed, due[3]);
}

static void ticks(struct host *host, int count, int32_t reading)
{
    while (count-- > 0) {
        expect("a tick's answer", cook_number(give(host, COOK_TICK, reading)),
               COOK_ACCEPTED);
        sound(host);
    }
}

/* Four seconds of 66.0 degrees: the first three are counted. */
static void too_hot(struct host *host)
{
    unsigned second;

    for (second = 1; second <= 3; second++) {
        ticks(host, 1, 660);
        expect("the horn", host->horn, 0);
        expect("its count", (long)cook_alarm_count(host->state, HORN), second);
    }
    show(host, "tick 66.0", COOK_TICK, 660, (const long[]){0, 600, 2, 24});
    expect("the horn", host->horn, 1);
    expect("its count", (long)cook_alarm_count(host->state, HORN), 0);
}

/* The first outage loses one second, the second one thirty. */
static void cook(struct host *host)
{
    show(host, "start", COOK_START, 0, (const long[]){0, 200, 1, 0});
    show(host, "tick 20.0", COOK_TICK, 200, (const long[]){0, 203, 1, 1});
    show(host, "cut", COOK_CUT, 0, (const long[]){0, 0, 0, 0});
    show(host, "return 20.0", COOK_RETURN, 200, (const long[]){0, 200, 1, 0});
    show(host, "tick 20.0", COOK_TICK, 200, (const long[]){0, 203, 1, 1});
    ticks(host, 118, 400);
    show(host, "tick 60.0", COOK_TICK, 600, (const long[]){0, 600, 2, 0});
    ticks(host, 30, 600);
    show(host, "cut", COOK_CUT, 0, (const long[]){0, 0, 0, 0});
    show(host, "tick 60.0", COOK_TICK, 600, (const long[]){23, 0, 0, 0});
    show(host, "return 60.0", COOK_RETURN, 600, (const long[]){0, 600, 2, 0});
    ticks(host, 20, 600);
    too_hot(host);
    ticks(host, 35, 600);
    show(host, "tick 60.0", COOK_TICK, 600, (const long[]){0, 0, 2, 0});
    expect("the mode", host->state[COOK_AT_MODE], 3);
    expect("the horn after the cook", host->horn, 1);
    show(host, "reset", COOK_RESET, 0, (const long[]){0, 0, 1, 0});
    expect("the horn after the reset", host->horn, 0);
}

static void print_credits(const struct host *host)
{
    static const uint32_t due[] = {120, 60};
    unsigned step;

    for (step = 1; step <= 2; step++) {
        uint32_t credit = cook_credit(host->state, step);
        printf("step %u: %lu seconds credited\n", step, (unsigned long)credit);
        expect("the credit", (long)credit, (long)due[step - 1]);
    }
}

static uint64_t make(struct host *host, size_t config_len)
{
    return cook_make(host->bank, host->bank_len, host->config, config_len,
                     host->record, sizeof host->record,
                     host->state, sizeof host->state);
}

/* A bound above 2,999.9 degrees and a short config are refused. */
static void wrong_configs(const struct host *host)
{
    struct host wrong = *host;

    put16(wrong.config, COOK_ALARM_HIGH, 30000);
    expect("the answer to a wrong setting",
           cook_number(make(&wrong, sizeof wrong.config)), COOK_ALARM_RANGE);
    expect("an event's answer to it", cook_number(give(&wrong, COOK_START, 0)),
           COOK_ALARM_RANGE);
    expect("the answer to a short config",
           cook_number(make(&wrong, COOK_CONFIG_LEN - 1)), COOK_NO_FORM);
    expect("the record then",
           memcmp(wrong.record, host->record, COOK_RECORD_LEN), 0);
    expect("the state then",
           memcmp(wrong.state, host->state, COOK_STATE_LEN), 0);
    printf("a wrong setting is answered %d, a short config %d\n",
           COOK_ALARM_RANGE, COOK_NO_FORM);
}

int main(void)
{
    static struct host host;

    write_bank(&host);
    write_config(&host);
    expect("cook_make's number", cook_number(make(&host, sizeof host.config)),
           COOK_ACCEPTED);
    expect("power", host.state[COOK_AT_POWER], 1);
    expect("the record", memcmp(host.record, host.state + 1, COOK_RECORD_LEN), 0);
    wrong_configs(&host);
    cook(&host);
    print_credits(&host);
    return 0;
}
