/*
 * Cook-room program controller: the calls of the static library libhost.a.
 *
 * Every call takes buffers as a pointer and a length, keeps nothing between
 * calls and allocates nothing. No pointer may be null, not even with length 0.
 * Buffers of one call must not overlap. Numbers of two or more bytes are
 * stored low byte first.
 *
 * Every call gives one 64-bit result:
 *   bits  0-7   number: 0 accepted, 11-31 a refusal of document 01, 41 an
 *               alarm setting out of range, 99 a call of no known form
 *   bits  8-23  first value of the number (offset, pair, pattern, length)
 *   bits 24-31  second value of the number (step)
 *   bits 32-47  set value, signed 16 bits, tenths of a degree
 *   bits 48-51  time signals 1-4
 * On a refusal the bits above 31 are 0.
 *
 * Refusals come in this order: 99, then the bank's own (11-14), then 21, then
 * 22, then 41, then the rest, lower numbers first. A refusal leaves every
 * buffer as it was, but for cook_run: where its last event is refused, what the
 * events before that one left is written.
 *
 * The settings of the four alarms go beside the bank, as COOK_CONFIG_LEN bytes
 * called config, to every call but cook_check and cook_write; another length is
 * 99. They are read and never written. COOK_CONFIG_LEN zeros are four alarms
 * that never go on. A host gives the same settings for as long as it uses a
 * state and its record: both are judged by the settings that they come with,
 * and under others the state may be answered 21 and the record 31.
 */
#ifndef COOK_H
#define COOK_H

#include <stddef.h>
#include <stdint.h>

#ifdef __cplusplus
extern "C" {
#endif

/* Lengths in bytes. */
#define COOK_SETTINGS_LEN 45  /* settings, laid out as at the start of a bank */
#define COOK_PATTERNS_LEN 30  /* 15 pairs of runs and s */
#define COOK_STEPS_LEN 891    /* 99 steps of nine bytes */
#define COOK_STEP_LEN 9       /* one step */
#define COOK_BANK_MAX 1011    /* the longest bank */
#define COOK_CONFIG_LEN 40    /* the settings beside the bank: four alarms */
#define COOK_ALARM_LEN 10     /* the settings of one alarm */
#define COOK_RECORD_LEN 423   /* the record in retained memory */
#define COOK_STATE_LEN 434    /* a state */
#define COOK_EVENT_LEN 5      /* one event of a list */
#define COOK_STEP_COUNT 99    /* steps, each with its credit */
#define COOK_ALARM_COUNT 4    /* alarms */

/* Numbers of results that are no refusal of document 01. */
#define COOK_ACCEPTED 0
#define COOK_ALARM_RANGE 41   /* an alarm setting out of range */
#define COOK_NO_FORM 99

/* Kinds of events. "value" says what the value of the event is. */
enum cook_kind {
    COOK_TICK = 0,          /* value: the reading, tenths of a degree */
    COOK_TICK_OVER = 1,
    COOK_TICK_UNDER = 2,
    COOK_SELECT = 3,        /* value: the pattern */
    COOK_START = 4,         /* start choice 0: at step 1 if its target is SLL,
                               which is the timer; else at step 2, or at the
                               end if there is none */
    COOK_PAUSE = 5,
    COOK_RESET = 6,
    COOK_FEED = 7,
    COOK_BACK = 8,
    COOK_PLUS = 9,
    COOK_MINUS = 10,
    COOK_CUT = 11,
    COOK_RETURN = 12,       /* value: the reading, tenths of a degree */
    COOK_RETURN_OVER = 13,
    COOK_RETURN_UNDER = 14
};

/* Offsets in the settings of an alarm; alarm 1-4 starts at 0, 10, 20, 30. */
enum cook_alarm_offset {
    COOK_ALARM_KIND = 0,        /* an enum cook_alarm_kind */
    COOK_ALARM_HIGH = 1,        /* H, signed 16 bits, -19999 to 29999 */
    COOK_ALARM_LOW = 3,         /* L, signed 16 bits, -19999 to 29999 */
    COOK_ALARM_SENSITIVITY = 5, /* C, 16 bits, 0 to 9999 */
    COOK_ALARM_DELAY = 7,       /* 16 bits, 0 to 9999 ticks */
    COOK_ALARM_FLAGS = 9        /* COOK_ALARM_HOLD, COOK_ALARM_STANDBY */
};

/*
 * Kinds of alarms. The deviation is the measured whole value less the set
 * value. Every field is held to its range, whatever the kind; between L and H
 * includes both and needs L <= H.
 */
enum cook_alarm_kind {
    COOK_ALARM_NEVER = 0,
    COOK_ALARM_DEVIATION_OUTSIDE = 1,  /* deviation at least H or at most L */
    COOK_ALARM_DEVIATION_AT_LEAST = 2, /* deviation at least H */
    COOK_ALARM_DEVIATION_AT_MOST = 3,  /* deviation at most L */
    COOK_ALARM_DEVIATION_BETWEEN = 4,  /* deviation between L and H */
    COOK_ALARM_MEASURED_OUTSIDE = 5,   /* measured at least H or at most L */
    COOK_ALARM_MEASURED_AT_LEAST = 6,  /* measured at least H */
    COOK_ALARM_MEASURED_AT_MOST = 7,   /* measured at most L */
    COOK_ALARM_MEASURED_BETWEEN = 8    /* measured between L and H */
};

/* Flags in the settings of an alarm. */
#define COOK_ALARM_HOLD 1     /* once on, it stays on until it is cleared */
#define COOK_ALARM_STANDBY 2  /* it waits for one false tick after a start */

/* Flags of an alarm in a state. */
#define COOK_ALARM_ON 1
#define COOK_ALARM_PASSED 2   /* standby passed; 0 without standby */

/* Offsets in a state: power, the record's layout from 1 on, u, measured. */
enum cook_state_offset {
    COOK_AT_POWER = 0,      /* 0 off, 1 on */
    COOK_AT_MODE = 1,       /* 0 stopped, 1 running, 2 paused, 3 ended */
    COOK_AT_PATTERN = 2,
    COOK_AT_STEP = 3,
    COOK_AT_PASS = 4,       /* 16 bits */
    COOK_AT_ELAPSED = 6,    /* 32 bits, seconds */
    COOK_AT_WAITED = 10,    /* 32 bits, seconds */
    COOK_AT_BASE = 14,      /* signed 16 bits */
    COOK_AT_CREDITS = 16,   /* 99 of 32 bits, seconds */
    COOK_AT_ALARMS = 412,   /* four of flags (a byte) and count (16 bits) */
    COOK_AT_U = 424,        /* ticks since the last save */
    COOK_AT_MEASURED = 425, /* 0 none, 1 over, 2 under, 3 value */
    COOK_AT_VALUE = 426     /* 64-bit float, 0 unless the kind is 3 */
};

/*
 * Checks a bank of any length. Accepted, or 11, 12 with the offset, 13 with
 * the pair, 14 with pattern and step.
 */
uint64_t cook_check(const uint8_t *bank, size_t bank_len);

/*
 * Writes a bank into out. settings has COOK_SETTINGS_LEN bytes, patterns
 * COOK_PATTERNS_LEN (runs and s of each pattern), steps COOK_STEPS_LEN, the
 * steps of pattern 1 first, those of pattern 2 next and so on. Only the first
 * n patterns are used. Accepted with the bank's length as first value, or 12,
 * 14 or 15 (out too short); 99 if an input has another length. Bytes of out
 * past the bank's end are untouched.
 */
uint64_t cook_write(const uint8_t *settings, size_t settings_len,
                    const uint8_t *patterns, size_t patterns_len,
                    const uint8_t *steps, size_t steps_len,
                    uint8_t *out, size_t out_len);

/*
 * Makes a fresh controller over a bank: writes its state and its record.
 * Whatever the two buffers held before is not read. 99 if config has not
 * COOK_CONFIG_LEN bytes, 11-14 for the bank, 21 if state has not COOK_STATE_LEN
 * bytes, 22 if record has not COOK_RECORD_LEN, 41 for config.
 */
uint64_t cook_make(const uint8_t *bank, size_t bank_len,
                   const uint8_t *config, size_t config_len,
                   uint8_t *record, size_t record_len,
                   uint8_t *state, size_t state_len);

/*
 * Gives one event to a controller: state becomes the next state, and record is
 * written whole if the event saves. value is ignored by kinds that have none.
 * The bank and config are checked anew. After a cut state is all zeros; record
 * is what a return starts from. 99 for a kind above COOK_RETURN_UNDER and for a
 * config of another length; 21 for bytes that are no state (another length, a
 * power above 1, a kind of measured value above 3, a NaN, a value with no kind
 * 3, all with power off too) and for a state that is not sound.
 */
uint64_t cook_event(const uint8_t *bank, size_t bank_len,
                    const uint8_t *config, size_t config_len,
                    uint8_t *record, size_t record_len,
                    uint8_t *state, size_t state_len,
                    uint32_t kind, int32_t value);

/*
 * Makes a controller and gives it a list of events, each of five bytes: kind,
 * then the value as a signed 32-bit number. The bank and config are checked
 * once. If making is refused nothing changes and its refusal is the result.
 * Otherwise state and record after the list are written, also where the last
 * event was refused, and the result is the answer to the last event (making's
 * if the list is empty). 99 if the list's length is no multiple of five, a kind
 * is above COOK_RETURN_UNDER or config has another length.
 */
uint64_t cook_run(const uint8_t *bank, size_t bank_len,
                  const uint8_t *config, size_t config_len,
                  uint8_t *record, size_t record_len,
                  uint8_t *state, size_t state_len,
                  const uint8_t *events, size_t events_len);

/* The number of a result. */
static inline unsigned cook_number(uint64_t result)
{
    return (unsigned)(result & 0xff);
}

/* The first value of a result's number. */
static inline unsigned cook_first(uint64_t result)
{
    return (unsigned)((result >> 8) & 0xffff);
}

/* The second value of a result's number. */
static inline unsigned cook_second(uint64_t result)
{
    return (unsigned)((result >> 24) & 0xff);
}

/* The set value of an accepted result, tenths of a degree. */
static inline int cook_set_value(uint64_t result)
{
    int bits = (int)((result >> 32) & 0xffff);
    return bits < 0x8000 ? bits : bits - 0x10000;
}

/* Whether time signal 1-4 of an accepted result is on. */
static inline int cook_signal(uint64_t result, unsigned signal)
{
    return (int)((result >> (47 + signal)) & 1);
}

/* A 16-bit number at an offset of a state. */
static inline unsigned cook_get16(const uint8_t *bytes, size_t at)
{
    return (unsigned)bytes[at] | (unsigned)bytes[at + 1] << 8;
}

/* A 32-bit number at an offset of a state. */
static inline uint32_t cook_get32(const uint8_t *bytes, size_t at)
{
    return (uint32_t)cook_get16(bytes, at)
        | (uint32_t)cook_get16(bytes, at + 2) << 16;
}

/* The credit of step 1-99 of a state, in seconds. */
static inline uint32_t cook_credit(const uint8_t *state, unsigned step)
{
    return cook_get32(state, COOK_AT_CREDITS + 4 * (size_t)(step - 1));
}

/* Where alarm 1-4 stands in a state: its flags, then its delay count. */
static inline size_t cook_alarm_at(unsigned alarm)
{
    return COOK_AT_ALARMS + 3 * (size_t)(alarm - 1);
}

/* Whether alarm 1-4 of a state is on. */
static inline int cook_alarm_on(const uint8_t *state, unsigned alarm)
{
    return (state[cook_alarm_at(alarm)] & COOK_ALARM_ON) != 0;
}

/* Whether alarm 1-4 of a state has passed its standby. */
static inline int cook_alarm_passed(const uint8_t *state, unsigned alarm)
{
    return (state[cook_alarm_at(alarm)] & COOK_ALARM_PASSED) != 0;
}

/* The delay count of alarm 1-4 of a state: true ticks so far. */
static inline unsigned cook_alarm_count(const uint8_t *state, unsigned alarm)
{
    return cook_get16(state, cook_alarm_at(alarm) + 1);
}

#ifdef __cplusplus
}
#endif

#endif
