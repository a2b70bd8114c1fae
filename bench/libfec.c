/* The search for the nearest code block by libfec (Debian: libfec-dev), whose two Viterbi decoders of constraint length
 * 9 have the generators of TS 25.212. It takes symbols of eight bits, and of several nearest blocks it may find another
 * one. Its rows are as in peers.c. */
#include <fec.h>
#include "work.h"

static uint8_t symbols[BLOCKS][3 * STEPS], octets[STEPS / 8];
static void *decoder;

static void run_fec(void)
{
    for (int b = 0; b < BLOCKS; b++)
        if (rate == 2) {
            init_viterbi29(decoder, 0);
            update_viterbi29_blk(decoder, symbols[b], STEPS);
            chainback_viterbi29(decoder, octets, SIZE, 0);
        } else {
            init_viterbi39(decoder, 0);
            update_viterbi39_blk(decoder, symbols[b], STEPS);
            chainback_viterbi39(decoder, octets, SIZE, 0);
        }
}

/* 0 for a sure zero, 255 for a sure one. */
static void open_symbols(int copies)
{
    for (int b = 0; b < BLOCKS; b++)
        for (int k = 0; k < rate * STEPS; k++)
            symbols[b][k] = 255 * votes[b][k].ones / copies;
}

/* An undamaged block is read as it was sent: the last one, as the decoder left it. */
static int is_sent(void)
{
    run_fec();
    for (int k = 0; k < SIZE; k++)
        if ((octets[k / 8] >> (7 - k % 8) & 1) != found[BLOCKS - 1][k])
            return 0;
    return 1;
}

int main(int count, char **args)
{
    int measured = count > 1 && strcmp(args[1], "measure") == 0;
    char name[40];
    for (int damaged = 1; damaged >= 0; damaged--)
        for (rate = 2; rate <= 3; rate++) {
            set_viterbi29_polynomial((int[]){ 0x11d, 0x1af });
            set_viterbi39_polynomial((int[]){ 0x1ed, 0x19b, 0x127 });
            decoder = rate == 2 ? create_viterbi29(SIZE) : create_viterbi39(SIZE);
            for (int copies = 1; copies <= 40; copies += 39) {
                open_nearest(copies, damaged);
                open_symbols(copies);
                if (!damaged && !is_sent())
                    return 1;
                snprintf(name, sizeof name, "nearest %s votes=%d%s", rate == 2 ? "half" : "third", copies, damaged ? "" : " undamaged");
                report(measured, name, "blocks", BLOCKS, run_fec, 0);
            }
            if (rate == 2)
                delete_viterbi29(decoder);
            else
                delete_viterbi39(decoder);
        }
    return 0;
}
