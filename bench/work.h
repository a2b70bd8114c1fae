/* What the programs of this folder share: the inputs of crates/dch_bench, the encoder that makes them, and the
 * measure. */
#include <stdint.h>
#include <stdio.h>
#include <string.h>
#include <time.h>

enum { SIZE = 504, STEPS = SIZE + 8, STATES = 256, BLOCKS = 4, CODED_BLOCKS = 16, WORDS = 256, BITS = 5000 };

struct vote { uint32_t zeros, ones; };

/* Numbers that look like chance. */
static uint32_t state;

static uint32_t number(void)
{
    state = state * 1664525u + 1013904223u;
    return state >> 16;
}

static void fill(uint8_t *bits, int count)
{
    for (int k = 0; k < count; k++)
        bits[k] = number() >= 32768;
}

/* FNV-1a of 32 bits. */
static uint32_t add(uint32_t sum, const uint8_t *octets, int count)
{
    for (int k = 0; k < count; k++)
        sum = (sum ^ octets[k]) * 0x01000193u;
    return sum;
}

static uint32_t add_number(uint32_t sum, uint32_t value)
{
    uint8_t octets[4];
    for (int k = 0; k < 4; k++)
        octets[k] = value >> 8 * k;
    return add(sum, octets, 4);
}

/* The convolutional codes of TS 25.212 4.2.3.1: rate 1/2 and rate 1/3. */
static void encode(int rate, const uint8_t *restrict block, uint8_t *restrict out)
{
    uint8_t inputs[8 + STEPS] = { 0 };
    memcpy(inputs + 8, block, SIZE);
    const uint8_t *x = inputs + 8;
    if (rate == 2)
        for (int k = 0; k < STEPS; k++) {
            out[2 * k] = x[k] ^ x[k - 2] ^ x[k - 3] ^ x[k - 4] ^ x[k - 8];
            out[2 * k + 1] = x[k] ^ x[k - 1] ^ x[k - 2] ^ x[k - 3] ^ x[k - 5] ^ x[k - 7] ^ x[k - 8];
        }
    else
        for (int k = 0; k < STEPS; k++) {
            out[3 * k] = x[k] ^ x[k - 2] ^ x[k - 3] ^ x[k - 5] ^ x[k - 6] ^ x[k - 7] ^ x[k - 8];
            out[3 * k + 1] = x[k] ^ x[k - 1] ^ x[k - 3] ^ x[k - 4] ^ x[k - 7] ^ x[k - 8];
            out[3 * k + 2] = x[k] ^ x[k - 1] ^ x[k - 2] ^ x[k - 5] ^ x[k - 8];
        }
}

/* The generators of rate 1/2 and of rate 1/3, in octal as TS 25.212 4.2.3.1 has them, and the terms of each parity
 * polynomial below its highest. */
static const unsigned generators[2][3] = { { 0561, 0753, 0 }, { 0557, 0663, 0711 } };
static const uint32_t polynomials[4][2] = { { 8, 0x9b }, { 12, 0x80f }, { 16, 0x1021 }, { 24, 0x800063 } };

/* The inputs, and what is made of them. */
static struct vote votes[BLOCKS][3 * STEPS];
static uint8_t found[BLOCKS][SIZE], blocks[CODED_BLOCKS][SIZE], coded[CODED_BLOCKS][3 * STEPS], words[WORDS][30], block[BITS], attached[BITS + 24];
static uint32_t differing[BLOCKS], index_of[WORDS], distance_of[WORDS];
static int rate, kind;

static void open_nearest(int copies, int damaged)
{
    for (int b = 0; b < BLOCKS; b++) {
        state = b;
        fill(found[b], SIZE);
        encode(rate, found[b], coded[0]);
        for (int k = 0; k < rate * STEPS; k++) {
            uint32_t n = number(), wrong = !damaged ? 0 : n < 4096 ? (uint32_t)copies : n % (copies / 2 + 1);
            votes[b][k] = coded[0][k] ? (struct vote){ wrong, copies - wrong } : (struct vote){ copies - wrong, wrong };
        }
    }
}

static double seconds(void)
{
    struct timespec now;
    clock_gettime(CLOCK_MONOTONIC, &now);
    return now.tv_sec + now.tv_nsec / 1e9;
}

static void report(int measured, const char *name, const char *unit, int amount, void (*run)(void), uint32_t sum)
{
    if (!measured) {
        printf("%s %s=%d sum=%08x\n", name, unit, amount, sum);
        return;
    }
    double best = 0;
    for (int i = 0; i < 3; i++) {
        double start = seconds(), time = 0, done = 0;
        while (time < 0.3) {
            run();
            done += amount;
            time = seconds() - start;
        }
        best = done / time > best ? done / time : best;
    }
    if (strcmp(unit, "bits") == 0)
        printf("%s %.1f Mbit/s\n", name, best / 1e6);
    else
        printf("%s %.0f %s/s\n", name, best, unit);
}
