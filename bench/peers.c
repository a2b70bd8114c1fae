/* The work that crates/dch_bench does on single code blocks and words, in plain C, for comparison. It reads the same
 * inputs and makes the same checksums.
 *
 *     cc -O3 -march=x86-64-v2 -o /tmp/peers bench/peers.c
 *     /tmp/peers            checksums, as crates/dch_bench/stdout has them
 *     /tmp/peers measure    how much is done in a second
 */
#include "work.h"

/* The Viterbi search in costs of 16 bits, back from the end of the tail, so that of several nearest blocks the first in
 * text order is found. The least cost is taken off at times. States 2i and 2i + 1 lead to i by input 0 and to i + 128
 * by input 1; all generators have their first and last tap, so that two costs serve the four branches. */
static uint16_t ones_at[2][3][STATES / 2]; /* all bits set where input 0 in state 2i gives output 1 */
static uint16_t rows[STEPS + 1][STATES];

static void make_outputs(void)
{
    for (int r = 0; r < 2; r++)
        for (int j = 0; j < 3; j++)
            for (unsigned i = 0; i < STATES / 2; i++)
                ones_at[r][j][i] = __builtin_parity(2 * i & generators[r][j]) ? 0xffff : 0;
}

/* What input 0 costs in the states 2i. The answer is the cost of all copies. */
static uint16_t branch_costs(int rate, const struct vote *votes, uint16_t *restrict near)
{
    uint16_t all = 0;
    memset(near, 0, STATES);
    for (int j = 0; j < rate; j++) {
        const uint16_t *mask = ones_at[rate - 2][j];
        uint16_t zeros = votes[j].zeros, ones = votes[j].ones;
        for (int i = 0; i < STATES / 2; i++)
            near[i] += (ones & ~mask[i]) | (zeros & mask[i]);
        all += zeros + ones;
    }
    return all;
}

static void step(const uint16_t *restrict near, uint16_t all, const uint16_t *restrict later, uint16_t *restrict costs)
{
    for (int i = 0; i < STATES / 2; i++) {
        uint16_t far = all - near[i];
        uint16_t a = later[i] + near[i], b = later[i + 128] + far;
        uint16_t c = later[i] + far, d = later[i + 128] + near[i];
        costs[2 * i] = b < a ? b : a;
        costs[2 * i + 1] = d < c ? d : c;
    }
}

/* In the tail only input 0 is free. */
static void tail_step(const uint16_t *restrict near, uint16_t all, const uint16_t *restrict later, uint16_t *restrict costs)
{
    for (int i = 0; i < STATES / 2; i++) {
        costs[2 * i] = later[i] + near[i];
        costs[2 * i + 1] = later[i] + (all - near[i]);
    }
}

static uint16_t lower(uint16_t *costs)
{
    uint16_t least = costs[0];
    for (int s = 0; s < STATES; s++)
        least = costs[s] < least ? costs[s] : least;
    for (int s = 0; s < STATES; s++)
        costs[s] -= least;
    return least;
}

static uint32_t nearest(int rate, const struct vote *votes, uint8_t *found)
{
    uint16_t near[STATES / 2];
    uint32_t base = 0;
    for (int k = STEPS - 1; k >= 0; k--) {
        uint16_t all = branch_costs(rate, votes + rate * k, near);
        if (k < SIZE)
            step(near, all, rows[k + 1], rows[k]);
        else
            tail_step(near, all, rows[k + 1], rows[k]);
        if (k % 64 == 0)
            base += lower(rows[k]);
    }
    for (int k = 0, s = 0; k < SIZE; k++) {
        uint16_t zero = 0, one = 0;
        for (int j = 0; j < rate; j++) {
            const struct vote *vote = &votes[rate * k + j];
            int is_one = (ones_at[rate - 2][j][s / 2] != 0) ^ (s & 1);
            zero += is_one ? vote->zeros : vote->ones;
            one += is_one ? vote->ones : vote->zeros;
        }
        found[k] = rows[k + 1][s / 2 + 128] + one < rows[k + 1][s / 2] + zero;
        s = s / 2 + 128 * found[k];
    }
    return base + rows[0][0];
}

/* The TFCI of TS 25.212 4.3.3: the word of 30 bits that differs in the fewest places. */
static const uint32_t columns[10] = { 0x2aaad555, 0x33336666, 0x3c3c7878, 0x3fc07f80, 0xbfff8000, 0xffffffff, 0xbb83e30a, 0x38edd9c0, 0x35364fa8, 0x22bd761c };
static uint32_t tfci_words[1024];

static void make_words(void)
{
    for (int index = 0; index < 1024; index++)
        for (int n = 0; n < 10; n++)
            if (index >> n & 1)
                tfci_words[index] ^= columns[n];
    for (int index = 0; index < 1024; index++)
        tfci_words[index] &= 0x3fffffff;
}

static void find(const uint8_t *received, uint32_t *index, uint32_t *distance)
{
    uint32_t word = 0, best = 31 * 1024;
    for (int k = 0; k < 30; k++)
        word |= (uint32_t)received[k] << k;
    for (uint32_t i = 0; i < 1024; i++) {
        uint32_t key = 1024 * __builtin_popcount(word ^ tfci_words[i]) + i;
        best = key < best ? key : best;
    }
    *index = best % 1024;
    *distance = best / 1024;
}

/* The parity of TS 25.212 4.2.1, eight bits at a time by a table over a register whose highest bit is the next to
 * leave. */
static uint32_t crc_tables[4][256];

static void make_tables(void)
{
    for (int kind = 0; kind < 4; kind++)
        for (uint32_t octet = 0; octet < 256; octet++) {
            uint32_t value = octet << 24, terms = polynomials[kind][1] << (32 - polynomials[kind][0]);
            for (int k = 0; k < 8; k++)
                value = value >> 31 ? value << 1 ^ terms : value << 1;
            crc_tables[kind][octet] = value;
        }
}

static void attach(int kind, const uint8_t *block, uint8_t *out)
{
    uint32_t crc = 0, size = polynomials[kind][0];
    for (int k = 0; k < BITS; k += 8) {
        uint32_t octet = 0;
        for (int j = 0; j < 8; j++)
            octet = 2 * octet + block[k + j];
        crc = crc << 8 ^ crc_tables[kind][crc >> 24 ^ octet];
    }
    memcpy(out, block, BITS);
    for (uint32_t k = 0; k < size; k++)
        out[BITS + k] = crc >> (32 - size + k) & 1;
}

static void run_nearest(void)
{
    for (int b = 0; b < BLOCKS; b++)
        differing[b] = nearest(rate, votes[b], found[b]);
}

static void run_tfci(void)
{
    for (int w = 0; w < WORDS; w++)
        find(words[w], &index_of[w], &distance_of[w]);
}

static void run_coder(void)
{
    for (int b = 0; b < CODED_BLOCKS; b++)
        encode(rate, blocks[b], coded[b]);
}

static void run_parity(void)
{
    attach(kind, block, attached);
}

int main(int count, char **args)
{
    int measured = count > 1 && strcmp(args[1], "measure") == 0;
    char name[40];
    make_outputs();
    make_words();
    make_tables();
    for (int damaged = 1; damaged >= 0; damaged--)
        for (rate = 2; rate <= 3; rate++)
            for (int copies = 1; copies <= 40; copies += 39) {
                uint32_t sum = 0x811c9dc5;
                open_nearest(copies, damaged);
                run_nearest();
                for (int b = 0; b < BLOCKS; b++)
                    sum = add_number(add(sum, found[b], SIZE), differing[b]);
                snprintf(name, sizeof name, "nearest %s votes=%d%s", rate == 2 ? "half" : "third", copies, damaged ? "" : " undamaged");
                report(measured, name, "blocks", BLOCKS, run_nearest, sum);
            }
    uint32_t sum = 0x811c9dc5;
    state = 30;
    fill(words[0], 30 * WORDS);
    run_tfci();
    for (int w = 0; w < WORDS; w++)
        sum = add_number(add_number(sum, index_of[w]), distance_of[w]);
    report(measured, "tfci", "words", WORDS, run_tfci, sum);
    for (rate = 2; rate <= 3; rate++) {
        sum = 0x811c9dc5;
        state = 504;
        fill(blocks[0], SIZE * CODED_BLOCKS);
        run_coder();
        for (int b = 0; b < CODED_BLOCKS; b++)
            sum = add(sum, coded[b], rate * STEPS);
        report(measured, rate == 2 ? "coder half" : "coder third", "bits", SIZE * CODED_BLOCKS, run_coder, sum);
    }
    state = 5000;
    fill(block, BITS);
    for (kind = 0; kind < 4; kind++) {
        run_parity();
        sum = add(0x811c9dc5, attached, BITS + polynomials[kind][0]);
        snprintf(name, sizeof name, "parity %u", polynomials[kind][0]);
        report(measured, name, "bits", BITS, run_parity, sum);
    }
    return 0;
}
