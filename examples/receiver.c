/*
 * Both ends of a stream, for three seconds. The camera registers each packet that it sends; the
 * receiver records what arrives, and reports every 200 ms; the camera takes in the feedback, and
 * says what became of its packets. On the way packets are lost, late, copied or marked CE; one
 * feedback packet is lost, and one comes twice. At the end the receiver says how many were late or
 * copies.
 * The link and its times are made up here: examples/wire.c has sockets and a real clock.
 */
#include "ccfb.h"

#include <stdio.h>
#include <stdlib.h>
#include <string.h>

enum {
    RUN = 3000,         /* ms that are played */
    PACKET_EVERY = 20,  /* ms */
    REPORT_EVERY = 200, /* ms */
    PACKETS = RUN / PACKET_EVERY,
    FIRST_NUMBER = 65470, /* so that the numbers wrap */
    AGAIN = 8,            /* numbers of the last report that each report repeats */
    PLACES = 4,           /* streams that the receiver can hold; there is one */
    LIMIT = 1200,         /* octets of a feedback packet */
    ROOM = CCFB_ROOM(CCFB_CELLS(PLACES), PLACES) /* octets that are enough for any report */
};

#define RECEIVER 0x000000f1u
#define CAMERA 0x0000ca01u

static unsigned now; /* ms since the start; both ends have this clock */

/* That time as a count of 1/65536 s, which wraps after a second of the run. */
static uint32_t count_of(unsigned ms)
{
    return 0xffff0000u + ms * 65536u / 1000;
}

/* Says so if a call was refused. It has then changed nothing, and the run goes on. */
static bool accepted(uint8_t refused, const char *who)
{
    if (refused != 0)
        printf("%s: refused, %s\n", who, ccfb_refusal_text(refused));
    return refused == 0;
}

/* ---- The link */

static unsigned below(unsigned bound)
{
    static uint32_t state = 3; /* with this start, all of it happens */
    state = state * 1664525u + 1013904223u;
    return (state >> 16) % bound;
}

static bool one_in(unsigned many)
{
    return below(many) == 0;
}

/* Packets on the way to the receiver; each may have a copy. */
static struct media_packet {
    unsigned due; /* ms */
    uint16_t number;
    uint8_t mark;
} media[2 * PACKETS];
static size_t media_count;

static void put_media(unsigned delay, uint16_t number, uint8_t mark)
{
    struct media_packet *m = &media[media_count++];
    m->due = now + delay;
    m->number = number;
    m->mark = mark;
}

static void send_media(uint16_t number)
{
    unsigned delay = 20 + below(20);
    uint8_t mark = one_in(12) ? CCFB_CE : CCFB_ECT_1;
    if (one_in(20))
        delay += 100; /* late */
    if (one_in(15))
        return; /* lost */
    put_media(delay, number, mark);
    if (one_in(20))
        put_media(delay + 5, number, CCFB_ECT_1); /* a copy */
}

/* Feedback packets on the way to the camera. */
static struct feedback_packet {
    unsigned due; /* ms */
    bool again;   /* this is a copy */
    size_t len;
    uint8_t octets[LIMIT];
} feedback[2 * RUN / REPORT_EVERY];
static size_t feedback_count;

static void put_feedback(unsigned delay, bool again, const uint8_t *packet, size_t len)
{
    struct feedback_packet *f = &feedback[feedback_count++];
    f->due = now + delay;
    f->again = again;
    f->len = len;
    memcpy(f->octets, packet, len);
}

static void send_feedback(const uint8_t *packet, size_t len)
{
    enum { LOST = 5, COPIED = 8, DELAY = 30 };
    static unsigned packets;
    packets++;
    if (packets == LOST)
        printf("  %4u ms  (a feedback packet is lost: the camera cannot see that)\n", now);
    else
        put_feedback(DELAY, false, packet, len);
    if (packets == COPIED)
        put_feedback(DELAY + REPORT_EVERY + 10, true, packet, len); /* after the next one */
}

/* ---- The receiver */

static uint64_t places[PLACES]; /* zeroed: a fresh store */
static uint64_t cells[CCFB_CELLS(PLACES)];

/* What is known of the reports on the stream in a place. */
static struct told {
    uint16_t next;  /* where the new numbers start; before any report, the first arrival */
    uint16_t count; /* how many numbers the last report had; before any report, 0 */
} told[PLACES];

static unsigned arrivals[CCFB_COPY + 1]; /* how many of each kind */
static uint16_t gap;                     /* the most numbers that one of them passed over */

/* The first arrival of a stream: its reports start at this number. */
static void start_reports(uint32_t ssrc, uint16_t number)
{
    uint32_t held;
    uint16_t highest;
    for (size_t k = 0; k < PLACES; k++)
        if (ccfb_place(places, PLACES, cells, CCFB_CELLS(PLACES), k, &held, &highest) == 0 &&
            held == ssrc) {
            told[k].next = number;
            told[k].count = 0;
        }
}

static void receive(const struct media_packet *m)
{
    struct ccfb_arrival arrival;
    uint8_t refused = ccfb_arrive(places, PLACES, cells, CCFB_CELLS(PLACES), CAMERA, m->number,
                                  m->mark, true, count_of(now), &arrival);
    if (!accepted(refused, "receiver"))
        return;
    arrivals[arrival.kind]++;
    gap = arrival.passed_over > gap ? arrival.passed_over : gap;
    if (arrival.kind == CCFB_FIRST)
        start_reports(CAMERA, m->number);
}

static void receive_all(void)
{
    for (const struct media_packet *m = media; m < media + media_count; m++)
        if (m->due == now)
            receive(m);
}

/*
 * How many numbers to report, up to the highest: the new ones, and up to AGAIN of the last report,
 * of which some may have come late; but never more than it had, so that no report starts before
 * the first arrival. Numbers from before that one may never have been sent.
 */
static uint16_t numbers_to_report(const struct told *t, uint16_t highest)
{
    uint16_t fresh = (uint16_t)(highest + 1 - t->next);
    uint16_t again = t->count < AGAIN ? t->count : (uint16_t)AGAIN;
    if (fresh == 0)
        return 0;
    if (fresh + again > CCFB_CELLS_OF_A_PLACE)
        return CCFB_CELLS_OF_A_PLACE; /* the store knows of no more */
    return (uint16_t)(fresh + again);
}

/* The next request for the stream of place k; false if the place is free, or nothing is new. */
static bool next_request(size_t k, struct ccfb_request *request)
{
    uint16_t highest;
    if (ccfb_place(places, PLACES, cells, CCFB_CELLS(PLACES), k, &request->ssrc, &highest) != 0)
        return false;
    request->count = numbers_to_report(&told[k], highest);
    request->begin = (uint16_t)(highest - request->count + 1);
    return request->count != 0;
}

/* Remembers a request that was sent. One for an empty block changes nothing. */
static void remember(struct told *t, const struct ccfb_request *sent)
{
    if (sent->count == 0)
        return;
    t->next = (uint16_t)(sent->begin + sent->count);
    t->count = sent->count;
}

static void report(void)
{
    static uint8_t out[ROOM];
    struct ccfb_request requests[PLACES];
    size_t place[PLACES], n = 0, packets, octets, at = 0, packet_at, length;
    uint8_t type, format;
    for (size_t k = 0; k < PLACES; k++)
        if (next_request(k, &requests[n]))
            place[n++] = k;
    if (!accepted(ccfb_write(places, PLACES, cells, CCFB_CELLS(PLACES), RECEIVER, count_of(now),
                             LIMIT, requests, n, out, ROOM, &packets, &octets),
                  "receiver"))
        return; /* the next report has the numbers too */
    while (ccfb_next_packet(out, octets, &at, &type, &format, &packet_at, &length) == 0)
        send_feedback(out + packet_at, length);
    for (size_t i = 0; i < n; i++)
        remember(&told[place[i]], &requests[i]);
}

/* ---- The camera */

static uint64_t sent_places[1]; /* zeroed: nothing was sent */
static uint64_t sent_cells[CCFB_CELLS(1)];

/* What is known of a packet: the kind of its status, and the mark and the delay if it has them. */
struct known {
    uint8_t kind;
    uint8_t mark;
    unsigned delay; /* ms */
};

static unsigned sent;               /* packets so far; packet i was sent at i * PACKET_EVERY */
static struct known known[PACKETS]; /* as of the last feedback that came */

static uint16_t number_of(unsigned i)
{
    return (uint16_t)(FIRST_NUMBER + i);
}

static bool is_received(uint8_t kind)
{
    return kind == CCFB_RECEIVED || kind == CCFB_OVER_RANGE || kind == CCFB_NO_TIME;
}

static uint8_t ask(uint16_t number, uint8_t *kind, uint8_t *mark, uint32_t *time)
{
    return ccfb_status(sent_places, 1, sent_cells, CCFB_CELLS(1), CAMERA, number, kind, mark, time);
}

/* Both ends have one clock here, so that a delay comes out. With two, only its changes count. */
static void update(unsigned i)
{
    uint32_t time = 0;
    if (accepted(ask(number_of(i), &known[i].kind, &known[i].mark, &time), "camera") &&
        known[i].kind == CCFB_RECEIVED)
        known[i].delay = (time - count_of(i * PACKET_EVERY)) * 1000u / 65536u;
}

static void send_packet(void)
{
    uint16_t number = number_of(sent);
    accepted(ccfb_register(sent_places, 1, sent_cells, CCFB_CELLS(1), CAMERA, number), "camera");
    send_media(number);
    update(sent++);
}

/* What is known now that was not known before. */
static void print_news(void)
{
    static struct known before[PACKETS];
    unsigned received = 0, missing = 0;
    memcpy(before, known, sizeof known);
    for (unsigned i = 0; i < sent; i++) {
        update(i);
        received += before[i].kind == CCFB_NOT_REPORTED && is_received(known[i].kind);
        missing += before[i].kind == CCFB_NOT_REPORTED && known[i].kind == CCFB_NOT_RECEIVED;
    }
    printf("%2u received, %u missing", received, missing);
    for (unsigned i = 0; i < sent; i++)
        if (before[i].kind == CCFB_NOT_RECEIVED && is_received(known[i].kind))
            printf("; seq %u was missing, is received", number_of(i));
}

/* What a packet, of one block here, calls missing although an earlier one said "received". */
static void print_kept(const uint8_t *packet, size_t len)
{
    uint16_t number, offset;
    uint8_t kind, known_kind, mark;
    uint32_t time;
    for (size_t j = 0; ccfb_metric(packet, len, 0, j, &number, &kind, &mark, &offset) == 0; j++)
        if (kind == CCFB_NOT_RECEIVED && ask(number, &known_kind, &mark, &time) == 0 &&
            is_received(known_kind))
            printf("; seq %u stays received", number);
}

static void take_in_all(void)
{
    for (const struct feedback_packet *f = feedback; f < feedback + feedback_count; f++) {
        if (f->due != now ||
            !accepted(ccfb_take_in(sent_places, 1, sent_cells, CCFB_CELLS(1), f->octets, f->len),
                      "camera"))
            continue;
        printf("  %4u ms  ", now);
        print_news();
        if (f->again)
            printf("; an old packet again");
        print_kept(f->octets, f->len);
        printf("\n");
    }
}

/* ---- What became of the packets */

static const char *name_of(uint8_t kind)
{
    switch (kind) {
    case CCFB_NOT_RECEIVED: return "missing";
    case CCFB_RECEIVED: return "received";
    case CCFB_OVER_RANGE: return "received, over range";
    case CCFB_NO_TIME: return "received, no time";
    default: return "not reported";
    }
}

/* A line for the packets from one index up to another, which are of one kind. */
static void print_range(unsigned from, unsigned to)
{
    unsigned shortest = known[from].delay, longest = shortest, congested = 0;
    for (unsigned i = from; i < to; i++) {
        shortest = known[i].delay < shortest ? known[i].delay : shortest;
        longest = known[i].delay > longest ? known[i].delay : longest;
        congested += known[i].mark == CCFB_CE;
    }
    printf("  seq %5u", number_of(from));
    if (to - from > 1)
        printf(" to %5u", number_of(to - 1));
    printf("%*s%s", to - from > 1 ? 2 : 11, "", name_of(known[from].kind)); /* in one column */
    if (known[from].kind == CCFB_RECEIVED && shortest < longest)
        printf(", delay %u to %u ms", shortest, longest);
    else if (known[from].kind == CCFB_RECEIVED)
        printf(", delay %u ms", shortest);
    if (congested != 0)
        printf(", %u CE", congested);
    printf("\n");
}

static void print_packets(void)
{
    unsigned of_kind[CCFB_NOT_REPORTED + 1] = {0}, congested = 0, from = 0;
    for (unsigned i = 0; i < sent; i++) {
        of_kind[known[i].kind]++;
        congested += known[i].mark == CCFB_CE;
        if (i + 1 == sent || known[i + 1].kind != known[i].kind) {
            print_range(from, i + 1);
            from = i + 1;
        }
    }
    printf("%u sent: %u received (%u CE), %u missing, %u not reported\n", sent,
           of_kind[CCFB_RECEIVED] + of_kind[CCFB_OVER_RANGE] + of_kind[CCFB_NO_TIME], congested,
           of_kind[CCFB_NOT_RECEIVED], of_kind[CCFB_NOT_REPORTED]);
}

/* What the receiver saw. */
static void print_arrivals(void)
{
    unsigned all = 0;
    for (size_t kind = CCFB_FIRST; kind <= CCFB_COPY; kind++)
        all += arrivals[kind];
    printf("%u arrived: %u late, %u copies; at most %u numbers passed over at once\n", all,
           arrivals[CCFB_LATE], arrivals[CCFB_COPY], gap);
}

int main(void)
{
    printf("New to the camera, as each feedback packet comes:\n");
    for (now = 0; now < RUN; now++) {
        if (now % PACKET_EVERY == 0)
            send_packet();
        receive_all();
        if (now % REPORT_EVERY == 0)
            report();
        take_in_all();
    }
    printf("What became of the packets (those not reported were in the lost feedback, or were sent\n"
           "after the last report):\n");
    print_packets();
    print_arrivals();
    return EXIT_SUCCESS;
}
