/* The starred cases of the metric, called through the C header. */

#include "ccfb.h"

#include <stdbool.h>
#include <stdint.h>
#include <stdio.h>

static int cases = 0;
static int failed = 0;

static void check(bool holds, const char *what, unsigned long value)
{
    cases++;
    if (!holds) {
        failed++;
        printf("FAILED starred: %s %lu\n", what, value);
    }
}

/* The highest bit of a metric: received. */
enum { R = 0x8000 };

struct encode_case {
    uint32_t age;
    uint16_t offset;
};

struct decode_case {
    uint16_t metric;
    uint8_t kind;
    uint8_t mark;
    uint16_t offset;
};

static const struct encode_case encodes[] = {
    {0, 0},
    {63, 0},
    {64, 1},
    {524096, 0x1FFD},     /* the longest age that has an offset */
    {524097, 0x1FFE},     /* over range */
    {0x7FFFFFFF, 0x1FFE},
    {0x80000000, 0x1FFF}, /* no time: it counts as after RTS */
};

/* The kind is always written; a mark or an offset that it does not have stays as it was. */
enum { KIND_BEFORE = 77, MARK_BEFORE = 77, OFFSET_BEFORE = 7777 };

static const struct decode_case decodes[] = {
    {0x7FFF, CCFB_NOT_RECEIVED, MARK_BEFORE, OFFSET_BEFORE},
    {0xBFFD, CCFB_RECEIVED, CCFB_ECT_1, 8189},
    {0xFFFE, CCFB_OVER_RANGE, CCFB_CE, OFFSET_BEFORE},
    {0xFFFF, CCFB_NO_TIME, CCFB_CE, OFFSET_BEFORE},
};

enum { DECODES = sizeof decodes / sizeof decodes[0] };

/* The same metrics in one part: what a kind does not have is 0; refused, the arrays stay. */
static void check_part(void)
{
    uint8_t part[2 * DECODES], kinds[DECODES], marks[DECODES];
    uint16_t offsets[DECODES];
    for (size_t i = 0; i < DECODES; i++) {
        part[2 * i] = (uint8_t)(decodes[i].metric >> 8);
        part[2 * i + 1] = (uint8_t)decodes[i].metric;
        kinds[i] = marks[i] = MARK_BEFORE;
        offsets[i] = OFFSET_BEFORE;
    }
    check(ccfb_decode_metrics(part, sizeof part, kinds, DECODES, marks, DECODES, offsets,
                              DECODES - 1) == CCFB_OUTPUT_TOO_SHORT, "entries", DECODES - 1);
    for (size_t i = 0; i < DECODES; i++)
        check(kinds[i] == MARK_BEFORE && marks[i] == MARK_BEFORE && offsets[i] == OFFSET_BEFORE,
              "unchanged entry", i);
    check(ccfb_decode_metrics(part, sizeof part, kinds, DECODES, marks, DECODES, offsets,
                              DECODES) == 0, "entries", DECODES);
    for (size_t i = 0; i < DECODES; i++) {
        uint8_t mark = decodes[i].mark == MARK_BEFORE ? 0 : decodes[i].mark;
        uint16_t offset = decodes[i].offset == OFFSET_BEFORE ? 0 : decodes[i].offset;
        check(kinds[i] == decodes[i].kind && marks[i] == mark && offsets[i] == offset,
              "metric of the part", decodes[i].metric);
    }
}

int main(void)
{
    const uint32_t rts = 0x00050000;
    for (size_t i = 0; i < sizeof encodes / sizeof encodes[0]; i++) {
        uint16_t metric = 0;
        uint32_t time = rts - encodes[i].age;
        uint8_t refused = ccfb_encode_metric(CCFB_NOT_ECT, true, time, rts, &metric);
        check(refused == 0 && metric == (R | encodes[i].offset), "age", encodes[i].age);
    }
    for (size_t i = 0; i < sizeof decodes / sizeof decodes[0]; i++) {
        uint8_t kind = KIND_BEFORE, mark = MARK_BEFORE;
        uint16_t offset = OFFSET_BEFORE;
        ccfb_decode_metric(decodes[i].metric, &kind, &mark, &offset);
        check(kind == decodes[i].kind && mark == decodes[i].mark && offset == decodes[i].offset,
              "metric", decodes[i].metric);
    }
    check_part();
    if (failed != 0) {
        return 1;
    }
    printf("ok starred: %d cases\n", cases);
    return 0;
}
