/*
 * Nadrwythol: RTCP Congestion Control Feedback (CCFB, RFC 8888).
 *
 * A receiver records RTP arrivals in a store (ccfb_arrive) and writes feedback from it
 * (ccfb_write). A sender registers what it sends (ccfb_register), finds the feedback in a datagram
 * (ccfb_feedback), takes it in (ccfb_take_in) and asks what became of each packet (ccfb_status);
 * or it reads the feedback itself (ccfb_read and what follows). docs/MANUAL.md explains each call
 * with an example, docs/RULES.md has the exact rules.
 *
 * Answers. A call that can be refused returns 0, or the number of its refusal: the first one that
 * applies, in the order that stands at the call. ccfb_refusal_text puts a number into words. A
 * refused call leaves the caller's memory unchanged; only ccfb_block_metrics and ccfb_feedback
 * then set their two outputs to 0.
 *
 * Pointers. A pointer to a single value must be valid. A pointer with a length must be valid for
 * that many elements; with length 0 it may be NULL. Lengths count elements of the array's type,
 * which for packets and datagrams are octets. Any value is safe to pass for what is not a pointer
 * or a length.
 *
 * Overlap. Memory that a call writes must not overlap any other memory that is passed to it. So a
 * packet cannot be rewritten in place, and two outputs cannot be one variable. What a call only
 * reads may overlap.
 *
 * Threads. The library keeps nothing between calls, allocates nothing, and calls nothing but
 * memset and memcpy. Any thread may call it, also within a signal handler. Two calls at the same
 * time must not share memory that one of them writes: guard a store by a lock, or have one for
 * each thread.
 *
 * bool. time_known is 0 or 1, as C makes every bool. If another octet gets here, from another
 * language say, its lowest bit alone counts.
 */
#ifndef CCFB_H
#define CCFB_H

#include <stdbool.h>
#include <stddef.h>
#include <stdint.h>

#ifdef __cplusplus
extern "C" {
#endif

#define CCFB_VERSION_MAJOR 0
#define CCFB_VERSION_MINOR 3
#define CCFB_VERSION_PATCH 0
#define CCFB_VERSION "0.3.0"

/* Refusals. */
#define CCFB_BAD_MARK 1          /* ECN mark above 3 */
#define CCFB_NO_FREE_PLACE 2     /* new stream, and no place is free */
#define CCFB_TOO_OLD 3           /* sequence number too old */
#define CCFB_BAD_STORE 4         /* not 1 to 16 places, or not 2,048 cells for each */
#define CCFB_NOT_HELD 5          /* no such stream, or no stream in that place */
#define CCFB_BAD_LIMIT 6         /* size limit below 24 or above 9,000 */
#define CCFB_TOO_MANY_REQUESTS 7 /* more than 16 requests */
#define CCFB_STREAM_REPEATED 8   /* an earlier request names the same stream */
#define CCFB_BAD_RANGE 9         /* range not within the stream's window */
#define CCFB_OUTPUT_TOO_SHORT 10 /* output too short */
#define CCFB_PACKET_TOO_SHORT 21 /* packet shorter than 12 octets */
#define CCFB_BAD_VERSION 22      /* RTCP version is not 2 */
#define CCFB_BAD_TYPE 23         /* not a CCFB packet: type is not 205, or FMT not 11 */
#define CCFB_BAD_LENGTH 24       /* length field does not match the packet's length */
#define CCFB_PADDED 25           /* padding flag is set */
#define CCFB_RUNS_INTO_RTS 26    /* report block runs into RTS */
#define CCFB_TOO_MANY_REPORTS 27 /* num_reports above 16,384 */
#define CCFB_FILLER_NOT_ZERO 28  /* filler is not zero */
#define CCFB_NO_BLOCK 29         /* no such report block */
#define CCFB_NO_NUMBER 30        /* no such sequence number in the block */
#define CCFB_BAD_DATAGRAM 31     /* not a valid RTCP datagram */
#define CCFB_NO_PACKET 32        /* no such packet in the datagram */
#define CCFB_NOT_REGISTERED 37   /* number not registered as sent, or not in the window */

/* ---- Metrics: what feedback says of one sequence number */

/* ECN marks (RFC 3168). */
#define CCFB_NOT_ECT 0
#define CCFB_ECT_1 1
#define CCFB_ECT_0 2
#define CCFB_CE 3

/* The metric of a sequence number that was not received. */
#define CCFB_METRIC_NOT_RECEIVED 0x0000

/* The kinds of metric. */
#define CCFB_NOT_RECEIVED 0 /* neither a mark nor an offset */
#define CCFB_RECEIVED 1     /* a mark and an offset */
#define CCFB_OVER_RANGE 2   /* a mark; it arrived longer ago than an offset can say */
#define CCFB_NO_TIME 3      /* a mark; its time is unknown, or after RTS */

/*
 * The 16-bit metric of a sequence number that arrived.
 *
 *   mark         the packet's ECN mark, CCFB_NOT_ECT to CCFB_CE
 *   time_known   whether time says when it arrived
 *   time, rts    counts of 1/65536 s: 16 bits of an NTP timestamp's seconds, 16 of its fraction
 *
 * Returns 0, or this; *metric is then unchanged:
 *   CCFB_BAD_MARK   mark is above 3
 */
uint8_t ccfb_encode_metric(uint8_t mark, bool time_known, uint32_t time, uint32_t rts,
                           uint16_t *metric);

/*
 * What a metric says. Refuses nothing.
 *
 *   kind     always written: CCFB_NOT_RECEIVED to CCFB_NO_TIME
 *   mark     written unless the kind is CCFB_NOT_RECEIVED
 *   offset   written if the kind is CCFB_RECEIVED: the arrival time offset, how long before RTS
 *            the packet arrived, in 1/1024 s; at most 8189
 */
void ccfb_decode_metric(uint16_t metric, uint8_t *kind, uint8_t *mark, uint16_t *offset);

/* ---- The store of arrivals: two arrays that the caller owns, zeroed at the start */

#define CCFB_MOST_PLACES 16        /* streams that a store can hold */
#define CCFB_CELLS_OF_A_PLACE 2048 /* sequence numbers of a stream that it knows of */
#define CCFB_CELLS(places) (CCFB_CELLS_OF_A_PLACE * (places))

/* The kinds of accepted arrival. */
#define CCFB_FIRST 0 /* its stream had no place: it is new, or was forgotten */
#define CCFB_AHEAD 1 /* ahead of the highest number; it may have passed over some */
#define CCFB_LATE 2  /* behind the highest number, not received since the stream took its place */
#define CCFB_COPY 3  /* received since the stream took its place */

/* The most numbers that one arrival can pass over. */
#define CCFB_MOST_PASSED_OVER 32766

/* What an accepted arrival was. */
struct ccfb_arrival {
    uint16_t kind;        /* CCFB_FIRST to CCFB_COPY */
    uint16_t passed_over; /* CCFB_AHEAD: how many are between the old highest and it; else 0 */
};

/*
 * Records one received RTP packet.
 *
 * A duplicate keeps the first copy's time and ECN mark, except that the mark becomes ECN-CE if any
 * copy carried it. A new stream takes the free place with the lowest index.
 *
 *   places, cells   the store: n places and CCFB_CELLS(n) cells, n from 1 to 16
 *   mark            the packet's ECN mark, CCFB_NOT_ECT to CCFB_CE
 *   time_known      whether time says when it arrived
 *   time            when it arrived, in 1/65536 s; ignored unless time_known
 *   arrival         what it was; not NULL, even if you do not need it. CCFB_FIRST is where reports
 *                   on the stream start: numbers from before it may never have been sent.
 *                   CCFB_AHEAD with passed_over 0 is the next number in order.
 *
 * Returns 0, or the first of these that applies; the store and *arrival are then unchanged:
 *   CCFB_BAD_STORE       the lengths are not as above
 *   CCFB_BAD_MARK        mark is above 3
 *   CCFB_TOO_OLD         the stream is held, and the number is 2,048 or more behind its highest
 *   CCFB_NO_FREE_PLACE   a new stream, and no place is free
 */
uint8_t ccfb_arrive(uint64_t *places, size_t places_len, uint64_t *cells, size_t cells_len,
                    uint32_t ssrc, uint16_t number, uint8_t mark, bool time_known, uint32_t time,
                    struct ccfb_arrival *arrival);

/*
 * Forgets a stream and frees its place.
 *
 * Returns 0, or the first of these that applies; the store is then unchanged:
 *   CCFB_BAD_STORE   the lengths are not those of a store
 *   CCFB_NOT_HELD    no place holds the stream
 */
uint8_t ccfb_forget(uint64_t *places, size_t places_len, const uint64_t *cells, size_t cells_len,
                    uint32_t ssrc);

/*
 * The stream that place k, from 0, holds, and its highest sequence number.
 *
 * Returns 0, or the first of these that applies:
 *   CCFB_BAD_STORE   the lengths are not those of a store
 *   CCFB_NOT_HELD    the place is free, or k is not below places_len
 */
uint8_t ccfb_place(const uint64_t *places, size_t places_len, const uint64_t *cells,
                   size_t cells_len, size_t k, uint32_t *ssrc, uint16_t *highest);

/*
 * The oldest sequence number that arrived, among the 2,048 that the store knows of the stream of
 * place k, from 0 (its window). For a caller that did not see the stream's first arrival
 * (CCFB_FIRST), the first report starts here: of the numbers before it in the window none arrived,
 * and they may never have been sent.
 *
 * Returns 0, or a refusal as ccfb_place does.
 */
uint8_t ccfb_oldest(const uint64_t *places, size_t places_len, const uint64_t *cells,
                    size_t cells_len, size_t k, uint16_t *oldest);

/* ---- Writing feedback */

/*
 * A request: count sequence numbers of a stream, starting at begin. Ask for those since the last
 * report, and the first time for those since the first arrival (CCFB_FIRST of ccfb_arrive).
 * Numbers from before it would be reported as missing, and their sender would take that for loss.
 */
struct ccfb_request {
    uint32_t ssrc;
    uint16_t begin;
    uint16_t count;
};

#define CCFB_MOST_REQUESTS 16
#define CCFB_LEAST_LIMIT 24 /* octets of a packet */
#define CCFB_MOST_LIMIT 9000

/* Octets of output that are enough for so many requests with so many numbers in all. */
#define CCFB_ROOM(numbers, requests) (12 * (numbers) + 20 * (requests))

/*
 * Writes feedback on the requests to the start of out: the fewest packets possible of at most
 * limit octets each, back to back.
 *
 *   sender, rts       the SSRC of the packets' sender, and the report timestamp in 1/65536 s
 *   limit             the most octets of one packet, CCFB_LEAST_LIMIT to CCFB_MOST_LIMIT
 *   requests          at most 16, each for another stream
 *   out               CCFB_ROOM octets are enough; what is behind the packets stays as it was
 *   packets, octets   how many packets were written, and their total length
 *
 * Returns 0, or the first of these that applies; nothing is written then:
 *   CCFB_BAD_STORE           the lengths are not those of a store
 *   CCFB_BAD_LIMIT           limit is outside 24 to 9,000
 *   CCFB_TOO_MANY_REQUESTS   there are more than 16
 *   then, request by request:
 *   CCFB_NOT_HELD            no place holds its stream
 *   CCFB_STREAM_REPEATED     an earlier request names its stream
 *   CCFB_BAD_RANGE           a number is not among the 2,048 up to the stream's highest; or count
 *                            is 0 and begin is not the highest
 *   and at the end:
 *   CCFB_OUTPUT_TOO_SHORT    out is shorter than the packets
 */
uint8_t ccfb_write(const uint64_t *places, size_t places_len, const uint64_t *cells,
                   size_t cells_len, uint32_t sender, uint32_t rts, size_t limit,
                   const struct ccfb_request *requests, size_t requests_len, uint8_t *out,
                   size_t out_len, size_t *packets, size_t *octets);

/* ---- Reading a packet; each call accepts any octets */

/* No report block has more metrics. */
#define CCFB_MOST_REPORTS 16384

/*
 * The sender, RTS and the number of report blocks of a packet, which is checked as a whole.
 *
 * Returns 0, or the first of these that applies; nothing is written then:
 *   CCFB_PACKET_TOO_SHORT, CCFB_BAD_VERSION, CCFB_BAD_TYPE, CCFB_BAD_LENGTH, CCFB_PADDED
 *   then, block by block:
 *   CCFB_RUNS_INTO_RTS       no room for its header before RTS
 *   CCFB_TOO_MANY_REPORTS    num_reports is above 16,384
 *   CCFB_RUNS_INTO_RTS       no room for its metrics before RTS
 *   CCFB_FILLER_NOT_ZERO     the 16 bits behind an odd number of metrics are not zero
 */
uint8_t ccfb_read(const uint8_t *packet, size_t len, uint32_t *sender, uint32_t *rts,
                  size_t *blocks);

/*
 * The SSRC, begin_seq and num_reports of block k, from 0.
 *
 * Returns 0, or a refusal as ccfb_read does, or then:
 *   CCFB_NO_BLOCK   k is not below the number of blocks
 */
uint8_t ccfb_block(const uint8_t *packet, size_t len, size_t k, uint32_t *ssrc, uint16_t *begin,
                   uint16_t *count);

/*
 * The part of the packet that holds the metrics of block k, 2 octets for each number: the octet
 * where it starts and its length in octets.
 *
 * Returns 0, or a refusal as ccfb_block does; both outputs are then 0.
 */
uint8_t ccfb_block_metrics(const uint8_t *packet, size_t len, size_t k, size_t *metrics_at,
                           size_t *metrics_length);

/*
 * Metric j of block k, both from 0: its sequence number, its kind, and the mark and the offset as
 * ccfb_decode_metric writes them.
 *
 * Returns 0, or a refusal as ccfb_block does, or then:
 *   CCFB_NO_NUMBER   j is not below the block's num_reports
 */
uint8_t ccfb_metric(const uint8_t *packet, size_t len, size_t k, size_t j, uint16_t *number,
                    uint8_t *kind, uint8_t *mark, uint16_t *offset);

/*
 * All blocks in one pass. ccfb_first_block sets *at; each ccfb_next_block reads the block there,
 * as ccfb_block does, and moves *at past it. *metrics_at is the octet where its metrics start.
 *
 * ccfb_first_block returns 0, or the first that applies of CCFB_PACKET_TOO_SHORT to CCFB_PADDED.
 * ccfb_next_block returns 0, CCFB_NO_BLOCK after the last block, or what is wrong with the block:
 * CCFB_RUNS_INTO_RTS, CCFB_TOO_MANY_REPORTS, CCFB_FILLER_NOT_ZERO. Nothing is written then.
 */
uint8_t ccfb_first_block(const uint8_t *packet, size_t len, size_t *at);
uint8_t ccfb_next_block(const uint8_t *packet, size_t len, size_t *at, uint32_t *ssrc,
                        uint16_t *begin, uint16_t *count, size_t *metrics_at);

/*
 * Metric j, from 0, of a part that holds the metrics of a block, in one step: packet + metrics_at
 * and 2 * count of a block. Kind, mark and offset are as ccfb_decode_metric writes them.
 *
 * Returns 0, or this; nothing is written then:
 *   CCFB_NO_NUMBER   j is not below len / 2
 */
uint8_t ccfb_metric_at(const uint8_t *part, size_t len, size_t j, uint8_t *kind, uint8_t *mark,
                       uint16_t *offset);

/*
 * Decodes all metrics of a block in one pass. Metric j is that of sequence number begin + j modulo
 * 65536; its kind, ECN mark and offset in 1/1024 s go to kinds[j], marks[j] and offsets[j].
 *
 * Unlike ccfb_metric_at, this call writes 0 where a kind has no mark or no offset. So look at
 * kinds[j] first: marks[j] is a mark unless the kind is CCFB_NOT_RECEIVED (CCFB_NOT_ECT is 0 too),
 * and offsets[j] is a delay only if the kind is CCFB_RECEIVED.
 *
 *   part, len               packet + metrics_at and 2 * count of a block; len is in octets, and an
 *                           odd last octet is ignored
 *   kinds_len, marks_len,   how many entries each array has (entries, not octets); those after the
 *   offsets_len             first len / 2 stay as they were
 *
 * Returns 0, or this; the arrays are then unchanged:
 *   CCFB_OUTPUT_TOO_SHORT   an array has fewer than len / 2 entries
 */
uint8_t ccfb_decode_metrics(const uint8_t *part, size_t len, uint8_t *kinds, size_t kinds_len,
                            uint8_t *marks, size_t marks_len, uint16_t *offsets,
                            size_t offsets_len);

/*
 * Writes the packet to the start of out with the bits cleared that a reader ignores: those of
 * metrics that say "not received". *written is how many octets; what is behind them stays as it
 * was. out must not overlap packet.
 *
 * Returns 0, or a refusal as ccfb_read does, or then this; nothing is written then:
 *   CCFB_OUTPUT_TOO_SHORT   out is shorter than the packet
 */
uint8_t ccfb_rewrite(const uint8_t *packet, size_t len, uint8_t *out, size_t out_len,
                     size_t *written);

/* ---- Finding CCFB packets in a datagram; each call accepts any octets
 *
 * A datagram is RTCP packets of any type back to back: each has 4 octets or more, version 2, and
 * the octets that its length field says; only the last may have the padding flag set. It may start
 * with any packet, be a single packet, or have no octets and so no packet. In the names of these
 * calls, feedback is CCFB. */

/* The type of a CCFB packet, and its FMT (feedback message type, RFC 4585). */
#define CCFB_PACKET_TYPE 205
#define CCFB_FORMAT 11

/*
 * How many CCFB packets a datagram holds. Only headers are checked, so those that ccfb_read would
 * refuse count too.
 *
 * Returns 0, or this; *count is then unchanged:
 *   CCFB_BAD_DATAGRAM   1 to 3 octets are left where a packet should start, a version is not 2, a
 *                       length field reaches past the end, or a packet that does not end the
 *                       datagram has the padding flag set
 */
uint8_t ccfb_feedback_count(const uint8_t *datagram, size_t len, size_t *count);

/*
 * CCFB packet k, from 0: the octet where it starts and its length in octets. It is checked as
 * ccfb_read checks a packet; read it at datagram + packet_at.
 *
 * The headers of all packets are checked first, those after packet k too. So each call walks the
 * whole datagram. To read all CCFB packets, use ccfb_next_packet: 65,500 octets can hold 16,375
 * packets, and asking for each by its k walks over all of them each time.
 *
 * Padding is not taken off: a last packet with the padding flag is refused.
 *
 * Returns 0, or the first of these that applies; both outputs are then 0:
 *   CCFB_BAD_DATAGRAM   as for ccfb_feedback_count
 *   CCFB_NO_PACKET      k is not below the number of CCFB packets
 *   CCFB_PACKET_TOO_SHORT, CCFB_PADDED, CCFB_RUNS_INTO_RTS, CCFB_TOO_MANY_REPORTS,
 *   CCFB_FILLER_NOT_ZERO: as ccfb_read refuses the packet
 */
uint8_t ccfb_feedback(const uint8_t *datagram, size_t len, size_t k, size_t *packet_at,
                      size_t *packet_length);

/*
 * All packets of a datagram, of any type, in one pass. Set *at to 0; each call gives the packet
 * there and moves *at past it.
 *
 *   packet_type     200 for a sender report, 205 for CCFB and other transport-layer feedback, ...
 *   format          FMT, the low 5 bits of octet 0; some types have a count there
 *   packet_at       the octet where the packet starts
 *   packet_length   its length in octets, with padding (octet 0 & 0x20 is the padding flag)
 *
 * A fault is reported when the walk reaches it, after the packets before it. To take nothing from
 * a damaged datagram, call ccfb_feedback_count first.
 *
 * Returns 0, or one of these; nothing is written then, so *at stays at the fault:
 *   CCFB_NO_PACKET      *at is at the end or past it
 *   CCFB_BAD_DATAGRAM   no packet is at *at, or it has the padding flag set and does not end the
 *                       datagram
 */
uint8_t ccfb_next_packet(const uint8_t *datagram, size_t len, size_t *at, uint8_t *packet_type,
                         uint8_t *format, size_t *packet_at, size_t *packet_length);

/* ---- What became of sent packets: two arrays that the sender owns, zeroed at the start
 *
 * places and cells have the shape of a store of arrivals, but other words in the cells: a program
 * that sends and receives has a pair of arrays for each. Of each stream the 2,048 numbers up to
 * the highest registered one are known. If one thread registers and another takes in, guard both,
 * and ccfb_status, by one lock. A stream keeps its place until its word in places is set to 0. */

/* The kinds of status: those of a metric, CCFB_NOT_RECEIVED to CCFB_NO_TIME, and this one. */
#define CCFB_NOT_REPORTED 4 /* no feedback on it yet; neither a mark nor a time */

/*
 * Registers a sequence number that was sent. Call it before the packet can be reported on: a
 * report on a number that is not registered is ignored.
 *
 * The window moves as with ccfb_arrive: a higher number moves it on, and a new stream takes the
 * free place with the lowest index. Registering a number again changes nothing while it is among
 * the 2,048 of the window.
 *
 *   places, cells   n places and CCFB_CELLS(n) cells, n from 1 to 16
 *
 * Returns 0, or the first of these that applies; nothing is changed then:
 *   CCFB_BAD_STORE       the lengths are not as above
 *   CCFB_TOO_OLD         the stream is held, and the number is 2,048 or more behind its highest
 *   CCFB_NO_FREE_PLACE   a new stream, and no place is free
 */
uint8_t ccfb_register(uint64_t *places, size_t places_len, uint64_t *cells, size_t cells_len,
                      uint32_t ssrc, uint16_t number);

/*
 * Takes in a CCFB packet: block by block, number by number, what it says of each number that is
 * registered and in the window of its stream. Other numbers, and streams that were never
 * registered, are ignored.
 *
 * "Not received" never replaces "received". Of several packets that report a number as received,
 * the one that is taken in last decides mark and time, even if it is the older one. Who sent the
 * packet is not looked at: if several receivers report, have a pair of arrays for each.
 *
 *   packet, len   one CCFB packet, as ccfb_feedback or ccfb_next_packet finds it in a datagram;
 *                 any octets are safe, and they are checked to their end before anything changes
 *
 * Returns 0, or the first of these that applies; nothing is changed then:
 *   CCFB_BAD_STORE   the lengths are not those of a store
 *   a refusal as ccfb_read gives it
 */
uint8_t ccfb_take_in(const uint64_t *places, size_t places_len, uint64_t *cells, size_t cells_len,
                     const uint8_t *packet, size_t len);

/*
 * What is known of a sequence number that was sent.
 *
 *   kind   CCFB_NOT_REPORTED   no feedback on it came yet
 *          CCFB_NOT_RECEIVED   it was reported as not received, and never as received
 *          CCFB_RECEIVED, CCFB_OVER_RANGE, CCFB_NO_TIME   it was received; kind, mark and time
 *                              are by the packet taken in last that reported it as received
 *   mark   the ECN mark; written if it was received
 *   time   when it arrived, by the receiver's clock, in 1/65536 s modulo 2^32: RTS of that packet
 *          minus 64 times the offset; written if the kind is CCFB_RECEIVED
 *
 * Returns 0, or the first of these that applies; nothing is written then:
 *   CCFB_BAD_STORE        the lengths are not those of a store
 *   CCFB_NOT_HELD         no number of the stream was registered
 *   CCFB_NOT_REGISTERED   this one was not, or it is not among the 2,048 up to the highest
 */
uint8_t ccfb_status(const uint64_t *places, size_t places_len, const uint64_t *cells,
                    size_t cells_len, uint32_t ssrc, uint16_t number, uint8_t *kind, uint8_t *mark,
                    uint32_t *time);

/* ---- Refusals in words */

/*
 * The meaning of an answer: that of a refusal, also of those that ccfbline prints (11 to 14);
 * "accepted" for 0; "unknown refusal" for a number that is none.
 */
static inline const char *ccfb_refusal_text(uint8_t refused)
{
    switch (refused) {
    case 0: return "accepted";
    case CCFB_BAD_MARK: return "ECN mark above 3";
    case CCFB_NO_FREE_PLACE: return "new stream, and no place is free";
    case CCFB_TOO_OLD: return "sequence number too old";
    case CCFB_BAD_STORE: return "not 1 to 16 places, or not 2,048 cells for each";
    case CCFB_NOT_HELD: return "no such stream, or no stream in that place";
    case CCFB_BAD_LIMIT: return "size limit below 24 or above 9,000";
    case CCFB_TOO_MANY_REQUESTS: return "more than 16 requests";
    case CCFB_STREAM_REPEATED: return "an earlier request names the same stream";
    case CCFB_BAD_RANGE: return "range not within the stream's window";
    case CCFB_OUTPUT_TOO_SHORT: return "output too short";
    case 11: return "not an arrival file";
    case 12: return "arrival file of an unknown version";
    case 13: return "arrival file ends within a record";
    case 14: return "arrival file has a bad record";
    case CCFB_PACKET_TOO_SHORT: return "packet shorter than 12 octets";
    case CCFB_BAD_VERSION: return "RTCP version is not 2";
    case CCFB_BAD_TYPE: return "not a CCFB packet: type is not 205, or FMT not 11";
    case CCFB_BAD_LENGTH: return "length field does not match the packet's length";
    case CCFB_PADDED: return "padding flag is set";
    case CCFB_RUNS_INTO_RTS: return "report block runs into RTS";
    case CCFB_TOO_MANY_REPORTS: return "num_reports above 16,384";
    case CCFB_FILLER_NOT_ZERO: return "filler is not zero";
    case CCFB_NO_BLOCK: return "no such report block";
    case CCFB_NO_NUMBER: return "no such sequence number in the block";
    case CCFB_BAD_DATAGRAM: return "not a valid RTCP datagram";
    case CCFB_NO_PACKET: return "no such packet in the datagram";
    case CCFB_NOT_REGISTERED: return "number not registered as sent, or not in the window";
    default: return "unknown refusal";
    }
}

#ifdef __cplusplus
}
#endif

#endif
