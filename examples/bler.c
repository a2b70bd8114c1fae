/* The block error ratio (BLER) of a transport channel over a channel with bit errors: transport blocks of 244 bits with
   12 parity bits, the convolutional code of rate 1/3, and coded bits of which some arrive wrong (TS 25.212 4.2.1,
   4.2.3.1).

       tools/install /tmp/dch
       cc examples/bler.c $(PKG_CONFIG_PATH=/tmp/dch/lib/pkgconfig pkg-config --cflags --libs dch) -o bler

   A row for each share of wrong bits: the share, the blocks that came with a CRC error, those that were read as something
   else with a right CRC, and the BLER. */
#include "dch.h"
#include <stdio.h>
#include <stdlib.h>
#include <string.h>

enum { BITS = 244, PARITY = 12, CODED = 3 * (BITS + PARITY + 8), BLOCKS = 200 };

static uint64_t state = 88172645463325252u;

/* A random number below 1,000. */
static unsigned pick(void) {
    state ^= state << 13;
    state ^= state >> 7;
    state ^= state << 17;
    return (unsigned)(state >> 33) % 1000;
}

static void done(uint8_t status) {
    if (status == DCH_DONE) return;
    fprintf(stderr, "bler: status %u\n", status);
    exit(1);
}

/* Sends a block, and tells whether it came: 0 with a CRC error, 1 as it was sent, 2 as another one. */
static int send(dch_handle *decoder, unsigned wrong_of_1000) {
    uint8_t block[BITS], attached[BITS + PARITY], coded[CODED], read[BITS + PARITY], is_good;
    dch_vote votes[CODED];
    uint32_t copies;
    for (int i = 0; i < BITS; i++) block[i] = '0' + pick() % 2;
    done(dch_parity_attach(PARITY, block, BITS, attached, sizeof attached));
    done(dch_code(3, attached, sizeof attached, coded, CODED));
    for (int i = 0; i < CODED; i++) {
        int one = (coded[i] == '1') ^ (pick() < wrong_of_1000);
        votes[i] = (dch_vote){.zeros = !one, .ones = one};
    }
    done(dch_decoder_nearest(decoder, 3, votes, CODED, 0, read, sizeof read, &copies));
    done(dch_parity_check(PARITY, read, sizeof read, &is_good));
    return !is_good ? 0 : memcmp(read, attached, sizeof read) ? 2 : 1;
}

int main(void) {
    dch_handle decoder = {0};
    done(dch_decoder_open(&decoder, BITS + PARITY));
    for (unsigned wrong = 0; wrong <= 180; wrong += 20) {
        int ends[3] = {0};
        for (int i = 0; i < BLOCKS; i++) ends[send(&decoder, wrong)]++;
        printf("%.2f %3d %d %.3f\n", wrong / 1000.0, ends[0], ends[2], (double)(BLOCKS - ends[1]) / BLOCKS);
    }
    dch_close(&decoder);
    return 0;
}
