/*
 * Feedback on the wire: a camera and a receiver over UDP, on this machine and by its real clock.
 * The camera sends RTP, of which some is lost and some comes late; the receiver reports after
 * every 20 packets; the camera reads the reports. docs/WIRE.md goes through both parts.
 * Linux, IPv4, compound RTCP.
 */
#ifndef _GNU_SOURCE
#define _GNU_SOURCE
#endif
#include "ccfb.h"

#include <arpa/inet.h>
#include <netinet/in.h>
#include <stdio.h>
#include <stdlib.h>
#include <string.h>
#include <sys/socket.h>
#include <time.h>
#include <unistd.h>

enum {
    PLACES = 4,
    FRONT = 24,           /* octets of a datagram in front of the feedback */
    LIMIT = 1200 - FRONT, /* octets of a feedback packet: within every usual path's MTU */
    AGAIN = 8,            /* numbers of the last report that each report repeats */
    SILENCE = 10,         /* seconds after which a stream is forgotten */
    ROOM = CCFB_ROOM(CCFB_CELLS(PLACES), PLACES), /* enough for any report */
    RTP_HEADER = 12,
    DATAGRAM = 1500,
    CONTROL = 256 /* octets for what the kernel says of a datagram */
};

#define RECEIVER 0x000000f1u
#define CAMERA 0x0000ca01u

/* ---- The clock */

#define SECONDS_FROM_1900_TO_1970 2208988800u

/* The middle 32 bits of the NTP timestamp of an instant: a count of 1/65536 s. */
static uint32_t ntp_time(const struct timespec *instant)
{
    uint32_t seconds = (uint32_t)instant->tv_sec + SECONDS_FROM_1900_TO_1970;
    uint32_t fraction = (uint32_t)(((uint64_t)instant->tv_nsec << 16) / 1000000000u);
    return seconds << 16 | fraction;
}

static struct timespec time_of(clockid_t clock)
{
    struct timespec instant;
    clock_gettime(clock, &instant);
    return instant;
}

/* ---- The receiver: its streams */

static uint64_t places[PLACES]; /* zeroed: a fresh store */
static uint64_t cells[CCFB_CELLS(PLACES)];

/* What is known of the reports on the stream in a place. */
static struct told {
    uint16_t next;  /* where the new numbers start; before any report, the first arrival */
    uint16_t count; /* how many numbers the last report had; before any report, 0 */
    time_t heard;   /* when the stream last had something new */
} told[PLACES];

/* The first arrival of a stream: its reports start at this number. */
static void start_reports(uint32_t ssrc, uint16_t number)
{
    uint32_t held;
    uint16_t highest;
    for (size_t k = 0; k < PLACES; k++)
        if (ccfb_place(places, PLACES, cells, CCFB_CELLS(PLACES), k, &held, &highest) == 0 &&
            held == ssrc) {
            told[k].next = number;
            told[k].count = 0;
        }
}

/* ---- The receiver: what arrives */

/* If RTP and RTCP share a port, the second octet tells them apart (RFC 5761). */
static bool is_rtp(const uint8_t *datagram, size_t len)
{
    return len >= RTP_HEADER && datagram[0] >> 6 == 2 && (datagram[1] < 192 || datagram[1] > 223);
}

static void record(const uint8_t *rtp, uint8_t ecn, uint32_t arrived_at)
{
    struct ccfb_arrival arrival;
    uint16_t number = (uint16_t)(rtp[2] << 8 | rtp[3]);
    uint32_t ssrc =
        (uint32_t)rtp[8] << 24 | (uint32_t)rtp[9] << 16 | (uint32_t)rtp[10] << 8 | rtp[11];
    uint8_t refused = ccfb_arrive(places, PLACES, cells, CCFB_CELLS(PLACES), ssrc, number, ecn,
                                  true, arrived_at, &arrival);
    if (refused != 0)
        fprintf(stderr, "stream %08x, number %u: %s\n", (unsigned)ssrc, number,
                ccfb_refusal_text(refused));
    else if (arrival.kind == CCFB_FIRST)
        start_reports(ssrc, number);
}

/* The next datagram that has come; what the kernel says of it goes into the message. */
static ssize_t receive(int s, uint8_t *datagram, struct msghdr *message, uint8_t *control)
{
    static struct iovec part;
    part.iov_base = datagram;
    part.iov_len = DATAGRAM;
    memset(message, 0, sizeof *message);
    message->msg_iov = &part;
    message->msg_iovlen = 1;
    message->msg_control = control;
    message->msg_controllen = CONTROL;
    return recvmsg(s, message, MSG_DONTWAIT);
}

/* Records every packet that has come, with its ECN mark and its time of arrival. */
static void receive_all(int s)
{
    uint8_t datagram[DATAGRAM], control[CONTROL];
    struct msghdr message;
    ssize_t len;
    while ((len = receive(s, datagram, &message, control)) >= 0) {
        struct timespec instant = time_of(CLOCK_REALTIME); /* unless the kernel knows better */
        uint8_t ecn = CCFB_NOT_ECT;
        for (struct cmsghdr *c = CMSG_FIRSTHDR(&message); c != NULL; c = CMSG_NXTHDR(&message, c)) {
            if (c->cmsg_level == IPPROTO_IP && c->cmsg_type == IP_TOS) {
                ecn = *CMSG_DATA(c) & 3;
            } else if (c->cmsg_level == SOL_SOCKET && c->cmsg_type == SCM_TIMESTAMPNS) {
                memcpy(&instant, CMSG_DATA(c), sizeof instant);
            }
        }
        if (is_rtp(datagram, (size_t)len))
            record(datagram, ecn, ntp_time(&instant));
    }
}

/* ---- The receiver: what it reports */

/* How many numbers to report, up to the highest: those that are new, and up to AGAIN once more. */
static uint16_t numbers_to_report(const struct told *t, uint16_t highest)
{
    uint16_t fresh = (uint16_t)(highest + 1 - t->next);
    uint16_t again = t->count < AGAIN ? t->count : (uint16_t)AGAIN;
    if (fresh == 0)
        return 0;
    if (fresh + again > CCFB_CELLS_OF_A_PLACE)
        return CCFB_CELLS_OF_A_PLACE; /* the store knows of no more */
    return (uint16_t)(fresh + again);
}

/*
 * The next request for the stream of place k, if it has anything new. A stream that was silent for
 * long is forgotten.
 */
static bool next_request(size_t k, time_t now, struct ccfb_request *request)
{
    struct told *t = &told[k];
    uint16_t highest;
    if (ccfb_place(places, PLACES, cells, CCFB_CELLS(PLACES), k, &request->ssrc, &highest) != 0)
        return false; /* the place is free */
    request->count = numbers_to_report(t, highest);
    request->begin = (uint16_t)(highest - request->count + 1);
    if (request->count != 0)
        t->heard = now;
    else if (now - t->heard > SILENCE)
        ccfb_forget(places, PLACES, cells, CCFB_CELLS(PLACES), request->ssrc);
    return request->count != 0;
}

/* Remembers a request that was sent. One for an empty block changes nothing. */
static void remember(struct told *t, const struct ccfb_request *sent)
{
    if (sent->count == 0)
        return;
    t->next = (uint16_t)(sent->begin + sent->count);
    t->count = sent->count;
}

/* What each datagram starts with: a receiver report without blocks, and a CNAME. */
static const uint8_t front[FRONT] = {
    0x80, 201, 0, 1, 0, 0, 0, 0xf1, /* RR of 8 octets, from RECEIVER */
    0x81, 202, 0, 3, 0, 0, 0, 0xf1, /* SDES of 16 octets, on RECEIVER */
    1, 5, 'c', 'l', 'o', 't', 'h', 0,
};

/* Sends each of the packets in a datagram of its own. */
static bool send_packets(int s, const uint8_t *packets, size_t octets)
{
    uint8_t datagram[FRONT + LIMIT], type, format;
    size_t at = 0, packet_at, length;
    memcpy(datagram, front, FRONT);
    while (ccfb_next_packet(packets, octets, &at, &type, &format, &packet_at, &length) == 0) {
        memcpy(datagram + FRONT, packets + packet_at, length);
        if (send(s, datagram, FRONT + length, 0) < 0)
            return false;
    }
    return true;
}

/* Reports on all streams that have something new. What was not sent is reported the next time. */
static void report(int s)
{
    static uint8_t out[ROOM];
    struct ccfb_request requests[PLACES];
    struct timespec rts = time_of(CLOCK_REALTIME); /* after all arrivals were recorded */
    time_t now = time_of(CLOCK_MONOTONIC).tv_sec;  /* silence is no matter of the time of day */
    size_t place[PLACES], n = 0, packets, octets;
    uint8_t refused;
    for (size_t k = 0; k < PLACES; k++)
        if (next_request(k, now, &requests[n]))
            place[n++] = k;
    refused = ccfb_write(places, PLACES, cells, CCFB_CELLS(PLACES), RECEIVER, ntp_time(&rts), LIMIT,
                         requests, n, out, ROOM, &packets, &octets);
    if (refused != 0)
        fprintf(stderr, "no feedback: %s\n", ccfb_refusal_text(refused));
    else if (!send_packets(s, out, octets))
        perror("send");
    else
        for (size_t i = 0; i < n; i++)
            remember(&told[place[i]], &requests[i]);
}

/* ---- The camera */

static void send_rtp(int s, uint16_t number, int ecn)
{
    uint8_t rtp[RTP_HEADER + 1000] = {0x80, 96}; /* version 2, payload type 96 */
    rtp[2] = (uint8_t)(number >> 8);
    rtp[3] = (uint8_t)number;
    rtp[8] = (uint8_t)(CAMERA >> 24);
    rtp[9] = (uint8_t)(CAMERA >> 16);
    rtp[10] = (uint8_t)(CAMERA >> 8);
    rtp[11] = (uint8_t)CAMERA;
    if (setsockopt(s, IPPROTO_IP, IP_TOS, &ecn, sizeof ecn) != 0 || send(s, rtp, sizeof rtp, 0) < 0)
        perror("send");
}

/* What a report block says, in a line; and what no packet on one machine should have. */
static void print_block(const uint8_t *part, uint16_t begin, uint16_t count)
{
    unsigned missing = 0, congested = 0;
    for (size_t j = 0; j < count; j++) {
        uint8_t kind, mark = CCFB_NOT_ECT;
        uint16_t offset;
        ccfb_metric_at(part, 2 * (size_t)count, j, &kind, &mark, &offset);
        missing += kind == CCFB_NOT_RECEIVED;
        congested += mark == CCFB_CE;
        if (kind == CCFB_OVER_RANGE || kind == CCFB_NO_TIME)
            printf("  %u: received, but without an offset\n", (uint16_t)(begin + j));
    }
    printf("starting at %u: %u numbers, %u missing, %u ECN-CE\n", begin, count, missing, congested);
}

/* Reads a feedback packet: the blocks of the camera's own stream. */
static void read_feedback(const uint8_t *packet, size_t len)
{
    uint32_t ssrc;
    uint16_t begin, count;
    size_t at, metrics_at;
    uint8_t refused = ccfb_first_block(packet, len, &at);
    while (refused == 0) {
        refused = ccfb_next_block(packet, len, &at, &ssrc, &begin, &count, &metrics_at);
        if (refused == 0 && ssrc == CAMERA)
            print_block(packet + metrics_at, begin, count);
    }
    if (refused != CCFB_NO_BLOCK)
        fprintf(stderr, "camera: feedback refused, %s\n", ccfb_refusal_text(refused));
}

/* Reads the feedback in a datagram, whatever other packets it has. */
static void read_datagram(const uint8_t *datagram, size_t len)
{
    uint8_t type, format, refused;
    size_t count, at = 0, packet_at, length;
    refused = ccfb_feedback_count(datagram, len, &count);
    if (refused != 0) {
        fprintf(stderr, "camera: %s\n", ccfb_refusal_text(refused));
        return;
    }
    while (ccfb_next_packet(datagram, len, &at, &type, &format, &packet_at, &length) == 0)
        if (type == CCFB_PACKET_TYPE && format == CCFB_FORMAT)
            read_feedback(datagram + packet_at, length);
}

/* Reads every datagram that has come. */
static void read_reports(int s)
{
    uint8_t datagram[DATAGRAM];
    ssize_t len;
    while ((len = recv(s, datagram, sizeof datagram, MSG_DONTWAIT)) >= 0)
        read_datagram(datagram, (size_t)len);
}

/* ---- Both on one machine */

static int bound_socket(struct sockaddr_in *address)
{
    socklen_t len = sizeof *address;
    int s = socket(AF_INET, SOCK_DGRAM, 0);
    memset(address, 0, sizeof *address);
    address->sin_family = AF_INET;
    address->sin_addr.s_addr = htonl(INADDR_LOOPBACK);
    if (s < 0 || bind(s, (struct sockaddr *)address, len) != 0 ||
        getsockname(s, (struct sockaddr *)address, &len) != 0) {
        perror("socket");
        exit(EXIT_FAILURE);
    }
    return s;
}

static void switch_on(int s, int level, int option)
{
    int on = 1;
    if (setsockopt(s, level, option, &on, sizeof on) != 0)
        perror("setsockopt");
}

static void connect_to(int s, const struct sockaddr_in *address)
{
    if (connect(s, (const struct sockaddr *)address, sizeof *address) != 0) {
        perror("connect");
        exit(EXIT_FAILURE);
    }
}

/* The camera's packet i, on the way to the receiver: some are lost, some marked, two swapped. */
static void send_packet(int camera, unsigned i)
{
    const unsigned first = 65500, late = 19;
    unsigned sent = i == late ? late + 1 : i == late + 1 ? late : i;
    bool lost = sent % 30 == 25, marked = sent % 40 == 39;
    if (!lost)
        send_rtp(camera, (uint16_t)(first + sent), marked ? CCFB_CE : CCFB_ECT_1);
}

int main(void)
{
    enum { PACKETS = 100, PACKETS_OF_A_REPORT = 20 };
    struct sockaddr_in camera_address, receiver_address;
    struct timespec frame = {0, 1000000};
    int camera = bound_socket(&camera_address), receiver = bound_socket(&receiver_address);
    connect_to(camera, &receiver_address);
    connect_to(receiver, &camera_address);
    switch_on(receiver, IPPROTO_IP, IP_RECVTOS);
    switch_on(receiver, SOL_SOCKET, SO_TIMESTAMPNS);

    for (unsigned i = 0; i < PACKETS; i++) {
        send_packet(camera, i);
        nanosleep(&frame, NULL);
        receive_all(receiver);
        if ((i + 1) % PACKETS_OF_A_REPORT == 0) {
            report(receiver);
            read_reports(camera);
        }
    }
    close(camera);
    close(receiver);
    return EXIT_SUCCESS;
}
