/* The starred cases of sent packets, called through the C header, and some at other edges. */

#include "ccfb.h"

#include <stdio.h>

enum { SSRC = 7, NUMBER = 9, CELLS = CCFB_CELLS(1) };

/* Metrics: not received; offset 2 with ECT(1); offset 5 with ECN-CE; over range; no time. */
enum { MISSING = 0x0000, FIRST = 0xA002, SECOND = 0xE005, OVER = 0xFFFE, TIMELESS = 0x9FFF };

#define RTS 0x00050000u

/* What an output holds before a call that must not write it. */
enum { BEFORE = 77 };

/* In place of a metric: the number is registered; the case has no more steps. */
enum { REGISTER = 1, END = 2 };

struct sent_case {
    const char *what;
    uint16_t steps[4];
    uint8_t kind;
    uint8_t mark;
    uint32_t time;
};

static const struct sent_case cases[] = {
    {"registered", {REGISTER, END}, CCFB_NOT_REPORTED, BEFORE, BEFORE},
    {"missing", {REGISTER, MISSING, END}, CCFB_NOT_RECEIVED, BEFORE, BEFORE},
    {"received stays", {REGISTER, MISSING, FIRST, MISSING}, CCFB_RECEIVED, CCFB_ECT_1, RTS - 128},
    {"received twice", {REGISTER, FIRST, SECOND, END}, CCFB_RECEIVED, CCFB_CE, RTS - 320},
    {"reported too early", {FIRST, REGISTER, END}, CCFB_NOT_REPORTED, BEFORE, BEFORE},
    {"registered again", {REGISTER, OVER, REGISTER, END}, CCFB_OVER_RANGE, CCFB_CE, BEFORE},
    {"no time", {REGISTER, FIRST, TIMELESS, END}, CCFB_NO_TIME, CCFB_NOT_ECT, BEFORE},
};

static uint64_t places[1];
static uint64_t cells[CELLS];

static int is_registered(uint16_t number)
{
    return ccfb_register(places, 1, cells, CELLS, SSRC, number) == 0;
}

/* Takes in a packet that says one thing of NUMBER. */
static int is_taken_in(uint16_t metric, uint32_t rts)
{
    uint8_t packet[] = {0x8B, 0xCD, 0, 5, 0, 0, 0, 1, 0, 0, 0, SSRC, 0, NUMBER, 0, 1, 0, 0, 0, 0,
                        0,    0,    0, 0};
    packet[16] = (uint8_t)(metric >> 8);
    packet[17] = (uint8_t)metric;
    for (int i = 0; i < 4; i++)
        packet[20 + i] = (uint8_t)(rts >> (24 - 8 * i));
    return ccfb_take_in(places, 1, cells, CELLS, packet, sizeof packet) == 0;
}

static int has_status(uint8_t kind, uint8_t mark, uint32_t time)
{
    uint8_t got_kind = BEFORE, got_mark = BEFORE;
    uint32_t got_time = BEFORE;
    return ccfb_status(places, 1, cells, CELLS, SSRC, NUMBER, &got_kind, &got_mark, &got_time) == 0
           && got_kind == kind && got_mark == mark && got_time == time;
}

/* A stream whose highest number is the one before NUMBER. */
static int is_started(void)
{
    places[0] = 0;
    return is_registered(NUMBER - 1);
}

static int holds(const struct sent_case *c)
{
    int held = is_started();
    for (int i = 0; i < 4 && c->steps[i] != END; i++)
        held &= c->steps[i] == REGISTER ? is_registered(NUMBER) : is_taken_in(c->steps[i], RTS);
    return held && has_status(c->kind, c->mark, c->time);
}

/* The answer for that number of that stream; outputs of a refused call stay as they were. */
static int answers(uint32_t ssrc, uint16_t number, uint8_t refused)
{
    uint8_t kind = BEFORE, mark = BEFORE;
    uint32_t time = BEFORE;
    uint8_t answer = ccfb_status(places, 1, cells, CELLS, ssrc, number, &kind, &mark, &time);
    int unwritten = kind == BEFORE && mark == BEFORE && time == BEFORE;
    return answer == refused && (refused == 0 || unwritten);
}

/* The window that ends with 0, and times before 0. */
static int edges(void)
{
    places[0] = 0;
    int held = is_registered(0) && is_registered(63489) && !is_registered(63488);
    held &= answers(SSRC, 63489, 0) && answers(SSRC, 63488, CCFB_NOT_REGISTERED);
    held &= answers(SSRC, 1, CCFB_NOT_REGISTERED) && answers(SSRC + 1, 0, CCFB_NOT_HELD);
    held &= is_registered(NUMBER) && is_taken_in(0x8001, 0);
    held &= has_status(CCFB_RECEIVED, CCFB_NOT_ECT, 4294967232u);
    return held && is_taken_in(0x8000, RTS) && has_status(CCFB_RECEIVED, CCFB_NOT_ECT, RTS);
}

int main(void)
{
    const size_t n = sizeof cases / sizeof cases[0];
    int failed = !edges();
    if (failed)
        printf("FAILED starred sent: edges\n");
    for (size_t i = 0; i < n; i++) {
        if (!holds(&cases[i])) {
            failed = 1;
            printf("FAILED starred sent: %s\n", cases[i].what);
        }
    }
    if (failed)
        return 1;
    printf("ok starred sent: %zu cases\n", n + 1);
    return 0;
}
