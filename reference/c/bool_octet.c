/*
 * A bool that is neither 0 nor 1: its lowest bit alone counts. The calls are declared here as a
 * language without bool would, with an octet; include/ccfb.h cannot be included beside that.
 */
#include <stddef.h>
#include <stdint.h>
#include <stdio.h>

uint8_t ccfb_encode_metric(uint8_t mark, uint8_t time_known, uint32_t time, uint32_t rts,
                           uint16_t *metric);
struct ccfb_arrival {
    uint16_t kind;
    uint16_t passed_over;
};
uint8_t ccfb_arrive(uint64_t *places, size_t places_len, uint64_t *cells, size_t cells_len,
                    uint32_t ssrc, uint16_t number, uint8_t mark, uint8_t time_known,
                    uint32_t time, struct ccfb_arrival *arrival);

enum { CELLS = 2048, NUMBER = 100, ECT_0 = 2, TIME = 0x00048000, RTS = 0x00050000 };

static uint16_t encoded(uint8_t time_known)
{
    uint16_t metric = 0;
    ccfb_encode_metric(ECT_0, time_known, TIME, RTS, &metric);
    return metric;
}

static uint64_t stored(uint8_t time_known)
{
    static uint64_t places[1], cells[CELLS];
    struct ccfb_arrival arrival;
    places[0] = 0;
    ccfb_arrive(places, 1, cells, CELLS, 7, NUMBER, ECT_0, time_known, TIME, &arrival);
    return cells[NUMBER];
}

int main(void)
{
    int wrong = encoded(0) == encoded(1) || stored(0) == stored(1);
    for (unsigned octet = 0; octet < 256; octet++)
        if (encoded((uint8_t)octet) != encoded(octet % 2) ||
            stored((uint8_t)octet) != stored(octet % 2)) {
            printf("wrong: octet %u\n", octet);
            wrong = 1;
        }
    return wrong;
}
