/* The starred cases of the writer, called through the C header: two ranges at three limits. */

#include "ccfb.h"

#include <stdio.h>
#include <string.h>

enum { PLACES = 2, CELLS = CCFB_CELLS(PLACES), ROOM = 80, UNTOUCHED = 0xEE };

#define SENDER 0x000000F1
#define RTS 0x00050000

struct writer_case {
    size_t limit;
    size_t room;
    uint8_t refused;
    size_t packets;
    size_t sizes[2];
};

static const struct writer_case cases[] = {
    {32, 60, 0, 2, {32, 28}},
    {32, 59, CCFB_OUTPUT_TOO_SHORT, 0, {0, 0}},
    {44, 68, 0, 2, {44, 24}},
    {48, 48, 0, 1, {48, 0}},
};

static uint64_t places[PLACES];
static uint64_t cells[CELLS];

/* Whether a packet of that size, by its length field, starts at `at`. */
static int has_packet(const uint8_t *at, size_t size)
{
    return size == 0 || (at[0] == 0x8B && at[1] == 0xCD && 4 * (at[2] * 256u + at[3] + 1) == size);
}

static int holds(const struct writer_case *c)
{
    const struct ccfb_request requests[] = {{7, 65535, 5}, {9, 1, 3}};
    const size_t octets = c->sizes[0] + c->sizes[1];
    uint8_t out[ROOM];
    size_t got_packets = 0;
    size_t got_octets = 0;
    memset(out, UNTOUCHED, sizeof out);
    uint8_t refused = ccfb_write(places, PLACES, cells, CELLS, SENDER, RTS, c->limit, requests, 2,
                                 out, c->room, &got_packets, &got_octets);
    return refused == c->refused && got_packets == c->packets && got_octets == octets
           && has_packet(out, c->sizes[0]) && has_packet(out + c->sizes[0], c->sizes[1])
           && out[octets] == UNTOUCHED;
}

int main(void)
{
    const size_t n = sizeof cases / sizeof cases[0];
    struct ccfb_arrival arrival;
    int failed = ccfb_arrive(places, PLACES, cells, CELLS, 7, 3, CCFB_ECT_1, true, 0x00048000,
                             &arrival)
                 || ccfb_arrive(places, PLACES, cells, CELLS, 9, 3, CCFB_ECT_0, false, 0, &arrival);
    for (size_t i = 0; i < n; i++) {
        if (!holds(&cases[i])) {
            failed = 1;
            printf("FAILED starred writer: limit %zu room %zu\n", cases[i].limit, cases[i].room);
        }
    }
    if (failed) {
        return 1;
    }
    printf("ok starred writer: %zu cases\n", n);
    return 0;
}
