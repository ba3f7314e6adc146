/*
 * What the header promises beside the calls themselves: NULL with length 0, the kinds of arrival,
 * what a refused call on a datagram leaves in its outputs, refusals in words, and room enough for
 * any limit.
 */
#include "ccfb.h"

#include <stdio.h>
#include <string.h>

/* The streams of the tests, and how many numbers of each arrive, from 0 on. */
enum { FIRST = 7, SECOND = 9, NUMBERS = 16, HIGHEST = NUMBERS - 1 };

/* What an output holds before a call that must not write it. */
enum { BEFORE = 99 };

static int wrong;

static void check(bool holds, const char *what)
{
    if (!holds) {
        printf("wrong: %s\n", what);
        wrong = 1;
    }
}

static void null_store(void)
{
    struct ccfb_arrival arrival = {BEFORE, BEFORE};
    uint32_t ssrc;
    uint16_t number;
    size_t packets, octets;
    check(ccfb_arrive(NULL, 0, NULL, 0, FIRST, 1, 0, true, 1, &arrival) == CCFB_BAD_STORE,
          "arrive");
    check(arrival.kind == BEFORE && arrival.passed_over == BEFORE, "a refused arrive");
    check(ccfb_forget(NULL, 0, NULL, 0, FIRST) == CCFB_BAD_STORE, "forget");
    check(ccfb_place(NULL, 0, NULL, 0, 0, &ssrc, &number) == CCFB_BAD_STORE, "place");
    check(ccfb_oldest(NULL, 0, NULL, 0, 0, &number) == CCFB_BAD_STORE, "oldest");
    check(ccfb_write(NULL, 0, NULL, 0, 1, 2, 24, NULL, 0, NULL, 0, &packets, &octets) ==
              CCFB_BAD_STORE,
          "write from no store");
}

/* A sender's store of no places, and a packet of no octets. */
static void null_sent(void)
{
    static uint64_t places[1], cells[CCFB_CELLS(1)];
    uint8_t kind = BEFORE, mark = BEFORE;
    uint32_t time = BEFORE;
    check(ccfb_register(NULL, 0, NULL, 0, FIRST, 1) == CCFB_BAD_STORE, "register");
    check(ccfb_take_in(NULL, 0, NULL, 0, NULL, 0) == CCFB_BAD_STORE, "take in");
    check(ccfb_status(NULL, 0, NULL, 0, FIRST, 1, &kind, &mark, &time) == CCFB_BAD_STORE, "status");
    check(ccfb_take_in(places, 1, cells, CCFB_CELLS(1), NULL, 0) == CCFB_PACKET_TOO_SHORT,
          "take in no octets");
    check(kind == BEFORE && mark == BEFORE && time == BEFORE, "a refused status");
}

static void null_output(void)
{
    static uint64_t places[1], cells[CCFB_CELLS(1)];
    struct ccfb_request request = {FIRST, 1, 1};
    struct ccfb_arrival arrival;
    size_t packets = 9, octets = 9;
    check(ccfb_arrive(places, 1, cells, CCFB_CELLS(1), FIRST, 1, 0, true, 1, &arrival) == 0,
          "an arrival");
    check(ccfb_write(places, 1, cells, CCFB_CELLS(1), 1, 2, 24, &request, 1, NULL, 0, &packets,
                     &octets) == CCFB_OUTPUT_TOO_SHORT,
          "write to no output");
    check(packets == 9 && octets == 9, "a refused write");
    check(ccfb_write(places, 1, cells, CCFB_CELLS(1), 1, 2, 24, NULL, 0, NULL, 0, &packets,
                     &octets) == 0,
          "write of no request");
    check(packets == 0 && octets == 0, "no packet");
}

static void null_packet(void)
{
    static const uint8_t empty[] = {0x8b, 0xcd, 0, 2, 0, 0, 0, 1, 0, 0, 0, 0};
    uint32_t word, other;
    uint16_t number, begin, count, offset;
    uint8_t kind, mark;
    size_t at, length;
    check(ccfb_read(NULL, 0, &word, &other, &at) == CCFB_PACKET_TOO_SHORT, "read");
    check(ccfb_block(NULL, 0, 0, &word, &begin, &count) == CCFB_PACKET_TOO_SHORT, "block");
    check(ccfb_block_metrics(NULL, 0, 0, &at, &length) == CCFB_PACKET_TOO_SHORT, "metrics");
    check(ccfb_metric(NULL, 0, 0, 0, &number, &kind, &mark, &offset) == CCFB_PACKET_TOO_SHORT,
          "metric");
    check(ccfb_first_block(NULL, 0, &at) == CCFB_PACKET_TOO_SHORT, "first block");
    at = 12;
    check(ccfb_next_block(NULL, 0, &at, &word, &begin, &count, &length) == CCFB_NO_BLOCK,
          "next block");
    check(ccfb_metric_at(NULL, 0, 0, &kind, &mark, &offset) == CCFB_NO_NUMBER, "metric at");
    check(ccfb_decode_metrics(NULL, 0, NULL, 0, NULL, 0, NULL, 0) == 0, "decode metrics");
    check(ccfb_rewrite(NULL, 0, NULL, 0, &at) == CCFB_PACKET_TOO_SHORT, "rewrite");
    check(ccfb_rewrite(empty, sizeof empty, NULL, 0, &at) == CCFB_OUTPUT_TOO_SHORT,
          "rewrite to no output");
}

/* A datagram of no octets holds no packets. */
static void null_datagram(void)
{
    size_t count = BEFORE, at = 0, packet_at = BEFORE, length = BEFORE;
    uint8_t type = BEFORE, format = BEFORE;
    check(ccfb_feedback_count(NULL, 0, &count) == 0 && count == 0, "feedback count");
    check(ccfb_feedback(NULL, 0, 0, &packet_at, &length) == CCFB_NO_PACKET, "feedback");
    check(packet_at == 0 && length == 0, "feedback of no octets");
    check(ccfb_next_packet(NULL, 0, &at, &type, &format, &packet_at, &length) == CCFB_NO_PACKET,
          "next packet");
    check(at == 0 && type == BEFORE && format == BEFORE, "next packet of no octets");
}

/* An arrival, the answer to it, and what its struct holds then. */
struct arrival_case {
    uint32_t ssrc;
    uint16_t number;
    uint8_t mark;
    uint8_t refused;
    uint16_t kind;
    uint16_t passed_over;
};

/* In this order, at a store of one place. */
static const struct arrival_case arrivals[] = {
    {FIRST, 10, CCFB_NOT_ECT, 0, CCFB_FIRST, 0},
    {FIRST, 11, CCFB_NOT_ECT, 0, CCFB_AHEAD, 0},
    {FIRST, 14, CCFB_NOT_ECT, 0, CCFB_AHEAD, 2},
    {FIRST, 13, CCFB_NOT_ECT, 0, CCFB_LATE, 0},
    {FIRST, 13, CCFB_NOT_ECT, 0, CCFB_COPY, 0},
    {FIRST, 14, CCFB_NOT_ECT, 0, CCFB_COPY, 0},
    {FIRST, 14 + 32767, CCFB_NOT_ECT, 0, CCFB_AHEAD, CCFB_MOST_PASSED_OVER},
    {FIRST, 12, CCFB_NOT_ECT, 0, CCFB_AHEAD, CCFB_MOST_PASSED_OVER}, /* 32,767 ahead again */
    {FIRST, 11, CCFB_NOT_ECT, 0, CCFB_LATE, 0},                      /* not the 11 from before */
    {FIRST, 11, CCFB_CE + 1, CCFB_BAD_MARK, BEFORE, BEFORE},
    {FIRST, 12 + 32768, CCFB_NOT_ECT, CCFB_TOO_OLD, BEFORE, BEFORE},
    {FIRST, 12 - 2048 + 65536, CCFB_NOT_ECT, CCFB_TOO_OLD, BEFORE, BEFORE},
    {SECOND, 1, CCFB_NOT_ECT, CCFB_NO_FREE_PLACE, BEFORE, BEFORE},
};

/* The next one, once the stream was forgotten. */
static const struct arrival_case after_forgetting = {FIRST, 12, CCFB_NOT_ECT, 0, CCFB_FIRST, 0};

static void arrives(uint64_t *places, uint64_t *cells, const struct arrival_case *c)
{
    struct ccfb_arrival arrival = {BEFORE, BEFORE};
    check(ccfb_arrive(places, 1, cells, CCFB_CELLS(1), c->ssrc, c->number, c->mark, true, 1,
                      &arrival) == c->refused,
          "the answer to an arrival");
    check(arrival.kind == c->kind && arrival.passed_over == c->passed_over, "what an arrival was");
}

static void kinds(void)
{
    static uint64_t places[1], cells[CCFB_CELLS(1)];
    for (size_t i = 0; i < sizeof arrivals / sizeof arrivals[0]; i++)
        arrives(places, cells, &arrivals[i]);
    check(ccfb_forget(places, 1, cells, CCFB_CELLS(1), FIRST) == 0, "forget a stream");
    arrives(places, cells, &after_forgetting);
    check(sizeof(struct ccfb_arrival) == 4, "the size of what an arrival was");
}

enum { FEEDBACK_AT = 8, FEEDBACK_LENGTH = 12, HEADER_AT = 20, GOODBYE_AT = 24, OCTETS = 28 };
static const uint8_t datagram[OCTETS] = {
    0x80, 201, 0, 1, 0, 0, 0, 1,             /* a receiver report */
    0x8b, 205, 0, 2, 0, 0, 0, 1, 0, 0, 0, 2, /* feedback without blocks */
    0x8b, 205, 0, 0,                         /* a header of feedback, and no more */
    0x80, 203, 0, 0,                         /* a goodbye */
};

/* The part of feedback k of the datagram's first octets; both outputs are 0 where it is refused. */
static void part(size_t octets, size_t k, uint8_t refused, size_t part_at, size_t part_length)
{
    size_t packet_at = BEFORE, length = BEFORE;
    check(ccfb_feedback(datagram, octets, k, &packet_at, &length) == refused, "feedback k");
    check(packet_at == part_at && length == part_length, "where feedback k is");
}

static void parts(void)
{
    size_t count = BEFORE;
    check(ccfb_feedback_count(datagram, OCTETS - 1, &count) == CCFB_BAD_DATAGRAM, "a bad datagram");
    check(count == BEFORE, "the count of a bad datagram");
    check(ccfb_feedback_count(datagram, OCTETS, &count) == 0 && count == 2, "a good datagram");
    part(OCTETS, 0, 0, FEEDBACK_AT, FEEDBACK_LENGTH);
    part(OCTETS, 1, CCFB_PACKET_TOO_SHORT, 0, 0);
    part(OCTETS, 2, CCFB_NO_PACKET, 0, 0);
    part(OCTETS, SIZE_MAX, CCFB_NO_PACKET, 0, 0);
    part(OCTETS - 1, 0, CCFB_BAD_DATAGRAM, 0, 0);
}

/* A refused step of the walk writes nothing. */
static void refused_step(size_t octets, size_t from, uint8_t refused)
{
    size_t at = from, packet_at = BEFORE, length = BEFORE;
    uint8_t type = BEFORE, format = BEFORE;
    check(ccfb_next_packet(datagram, octets, &at, &type, &format, &packet_at, &length) == refused,
          "a refused step");
    check(at == from && type == BEFORE && format == BEFORE && packet_at == BEFORE &&
              length == BEFORE,
          "the outputs of a refused step");
}

static void steps(void)
{
    size_t at = FEEDBACK_AT, packet_at, length;
    uint8_t type, format;
    check(ccfb_next_packet(datagram, OCTETS, &at, &type, &format, &packet_at, &length) == 0,
          "a step");
    check(at == HEADER_AT && type == 205 && format == 11, "the packet of a step");
    check(packet_at == FEEDBACK_AT && length == FEEDBACK_LENGTH, "where the packet of a step is");
    refused_step(OCTETS, OCTETS, CCFB_NO_PACKET);
    refused_step(OCTETS, SIZE_MAX, CCFB_NO_PACKET);
    refused_step(OCTETS, GOODBYE_AT + 1, CCFB_BAD_DATAGRAM);
    refused_step(HEADER_AT - 1, FEEDBACK_AT, CCFB_BAD_DATAGRAM);
}

static void texts(void)
{
    check(strcmp(ccfb_refusal_text(0), "accepted") == 0, "text of 0");
    check(strcmp(ccfb_refusal_text(CCFB_NO_BLOCK), "no such report block") == 0, "text of 29");
    check(strcmp(ccfb_refusal_text(CCFB_NO_PACKET), "no such packet in the datagram") == 0,
          "text of 32");
    check(strcmp(ccfb_refusal_text(CCFB_NOT_REGISTERED),
                 "number not registered as sent, or not in the window") == 0,
          "text of 37");
    for (unsigned refused = 1; refused < 256; refused++) {
        bool known =
            refused <= 14 || (21 <= refused && refused <= 32) || refused == CCFB_NOT_REGISTERED;
        bool said = strcmp(ccfb_refusal_text((uint8_t)refused), "unknown refusal") != 0;
        check(known == said, "which numbers have a text");
    }
    check(CCFB_VERSION_MAJOR == 0 && strlen(CCFB_VERSION) >= 5, "version");
}

/* A request for the newest numbers of a stream. */
static struct ccfb_request newest(uint32_t ssrc, uint16_t count)
{
    struct ccfb_request request;
    request.ssrc = ssrc;
    request.begin = (uint16_t)(count == 0 ? HIGHEST : NUMBERS - count);
    request.count = count;
    return request;
}

/* Two streams with those counts, at that limit: the room is enough. */
static void room_for(const uint64_t *places, const uint64_t *cells, uint16_t first,
                     uint16_t second, size_t limit)
{
    static uint8_t out[CCFB_ROOM(2 * NUMBERS, 2)];
    size_t packets, octets, room = CCFB_ROOM((size_t)first + second, 2);
    struct ccfb_request requests[2];
    requests[0] = newest(FIRST, first);
    requests[1] = newest(SECOND, second);
    check(ccfb_write(places, 2, cells, CCFB_CELLS(2), 1, 2, limit, requests, 2, out, room, &packets,
                     &octets) == 0,
          "room enough");
}

static void room(void)
{
    static uint64_t places[2], cells[CCFB_CELLS(2)];
    struct ccfb_arrival arrival;
    for (uint16_t number = 0; number < NUMBERS; number++) {
        ccfb_arrive(places, 2, cells, CCFB_CELLS(2), FIRST, number, 0, true, 1, &arrival);
        ccfb_arrive(places, 2, cells, CCFB_CELLS(2), SECOND, number, 0, true, 1, &arrival);
    }
    for (size_t limit = CCFB_LEAST_LIMIT; limit < 100; limit++)
        for (uint16_t first = 0; first <= NUMBERS; first++)
            for (uint16_t second = 0; second <= NUMBERS; second++)
                room_for(places, cells, first, second, limit);
}

int main(void)
{
    null_store();
    null_sent();
    null_output();
    null_packet();
    null_datagram();
    kinds();
    parts();
    steps();
    texts();
    room();
    return wrong;
}
