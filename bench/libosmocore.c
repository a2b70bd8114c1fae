/* The coder, the search for the nearest code block and the parity bits by libosmocore (Debian: libosmocore-dev). Its
 * rows are those of peers.c. */
#include <osmocom/core/bits.h>
#include <osmocom/core/conv.h>
#include <osmocom/core/crc16gen.h>
#include <osmocom/core/crc32gen.h>
#include <osmocom/core/crc8gen.h>
#include "work.h"

static uint8_t outputs[STATES][2], states[STATES][2];
static struct osmo_conv_code code;
static sbit_t symbols[BLOCKS][3 * STEPS];

/* A state has the last eight bits, the latest of them lowest. */
static void open_code(void)
{
    code = (struct osmo_conv_code){ .N = rate, .K = 9, .len = SIZE, .term = CONV_TERM_FLUSH, .next_output = outputs, .next_state = states };
    for (unsigned s = 0; s < STATES; s++)
        for (unsigned bit = 0; bit < 2; bit++) {
            unsigned window = 0, output = 0;
            for (int k = 0; k < 9; k++)
                window |= ((2 * s + bit) >> k & 1) << (8 - k);
            for (int j = 0; j < rate; j++)
                output = 2 * output + __builtin_parity(window & generators[rate - 2][j]);
            outputs[s][bit] = output;
            states[s][bit] = (2 * s + bit) % STATES;
        }
}

/* 127 for a sure zero, -127 for a sure one. */
static void open_symbols(int copies)
{
    for (int b = 0; b < BLOCKS; b++)
        for (int k = 0; k < rate * STEPS; k++)
            symbols[b][k] = 127 * ((int)votes[b][k].zeros - (int)votes[b][k].ones) / copies;
}

static void run_decoder(void)
{
    for (int b = 0; b < BLOCKS; b++)
        osmo_conv_decode(&code, symbols[b], found[b]);
}

static void run_coder(void)
{
    for (int b = 0; b < CODED_BLOCKS; b++)
        osmo_conv_encode(&code, blocks[b], coded[b]);
}

static const struct osmo_crc8gen_code crc8 = { .bits = 8, .poly = 0x9b };
static const struct osmo_crc16gen_code crc12 = { .bits = 12, .poly = 0x80f }, crc16 = { .bits = 16, .poly = 0x1021 };
static const struct osmo_crc32gen_code crc24 = { .bits = 24, .poly = 0x800063 };

/* The library's highest parity bit comes first, and the standard's last. */
static void run_parity(void)
{
    uint8_t parity[24];
    int size = polynomials[kind][0];
    if (kind == 0)
        osmo_crc8gen_set_bits(&crc8, block, BITS, parity);
    else if (kind == 3)
        osmo_crc32gen_set_bits(&crc24, block, BITS, parity);
    else
        osmo_crc16gen_set_bits(kind == 1 ? &crc12 : &crc16, block, BITS, parity);
    memcpy(attached, block, BITS);
    for (int k = 0; k < size; k++)
        attached[BITS + k] = parity[size - 1 - k];
}

int main(int count, char **args)
{
    int measured = count > 1 && strcmp(args[1], "measure") == 0;
    char name[40];
    for (int damaged = 1; damaged >= 0; damaged--)
        for (rate = 2; rate <= 3; rate++)
            for (int copies = 1; copies <= 40; copies += 39) {
                uint8_t sent[SIZE];
                open_code();
                open_nearest(copies, damaged);
                open_symbols(copies);
                memcpy(sent, found[0], SIZE);
                run_decoder();
                if (!damaged && memcmp(sent, found[0], SIZE) != 0)
                    return 1;
                snprintf(name, sizeof name, "nearest %s votes=%d%s", rate == 2 ? "half" : "third", copies, damaged ? "" : " undamaged");
                report(measured, name, "blocks", BLOCKS, run_decoder, 0);
            }
    for (rate = 2; rate <= 3; rate++) {
        uint32_t sum = 0x811c9dc5;
        open_code();
        state = 504;
        fill(blocks[0], SIZE * CODED_BLOCKS);
        run_coder();
        for (int b = 0; b < CODED_BLOCKS; b++)
            sum = add(sum, coded[b], rate * STEPS);
        report(measured, rate == 2 ? "coder half" : "coder third", "bits", SIZE * CODED_BLOCKS, run_coder, sum);
    }
    state = 5000;
    fill(block, BITS);
    for (kind = 0; kind < 4; kind++) {
        run_parity();
        snprintf(name, sizeof name, "parity %u", polynomials[kind][0]);
        report(measured, name, "bits", BITS, run_parity, add(0x811c9dc5, attached, BITS + polynomials[kind][0]));
    }
    return 0;
}
