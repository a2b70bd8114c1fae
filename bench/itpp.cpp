/* The coder and the search for the nearest code block by IT++ (Debian: libitpp-dev). Its rows are those of peers.c. */
#include <itpp/itcomm.h>
#define restrict __restrict
#include "work.h"

static itpp::Convolutional_Code code;
static itpp::vec symbols[BLOCKS];
static itpp::bvec inputs[CODED_BLOCKS], answer;

static void open_code()
{
    itpp::ivec taps(rate);
    for (int j = 0; j < rate; j++)
        taps[j] = generators[rate - 2][j];
    code.set_generator_polynomials(taps, 9);
}

/* 1 for a sure zero, -1 for a sure one. */
static void open_symbols(int copies)
{
    for (int b = 0; b < BLOCKS; b++) {
        symbols[b].set_size(rate * STEPS);
        for (int k = 0; k < rate * STEPS; k++)
            symbols[b][k] = ((double)votes[b][k].zeros - (double)votes[b][k].ones) / copies;
    }
}

static void run_decoder()
{
    for (int b = 0; b < BLOCKS; b++)
        code.decode_tail(symbols[b], answer);
}

static void run_coder()
{
    for (int b = 0; b < CODED_BLOCKS; b++)
        code.encode_tail(inputs[b], answer);
}

int main(int count, char **args)
{
    int measured = count > 1 && strcmp(args[1], "measure") == 0;
    char name[40];
    for (int damaged = 1; damaged >= 0; damaged--)
        for (rate = 2; rate <= 3; rate++)
            for (int copies = 1; copies <= 40; copies += 39) {
                open_code();
                open_nearest(copies, damaged);
                open_symbols(copies);
                run_decoder();
                for (int k = 0; k < SIZE && !damaged; k++)
                    if ((int)answer[k] != found[BLOCKS - 1][k])
                        return 1;
                snprintf(name, sizeof name, "nearest %s votes=%d%s", rate == 2 ? "half" : "third", copies, damaged ? "" : " undamaged");
                report(measured, name, "blocks", BLOCKS, run_decoder, 0);
            }
    for (rate = 2; rate <= 3; rate++) {
        uint32_t sum = 0x811c9dc5;
        open_code();
        state = 504;
        fill(blocks[0], SIZE * CODED_BLOCKS);
        for (int b = 0; b < CODED_BLOCKS; b++) {
            inputs[b].set_size(SIZE);
            for (int k = 0; k < SIZE; k++)
                inputs[b][k] = blocks[b][k];
            code.encode_tail(inputs[b], answer);
            for (int k = 0; k < rate * STEPS; k++)
                coded[b][k] = (int)answer[k];
            sum = add(sum, coded[b], rate * STEPS);
        }
        report(measured, rate == 2 ? "coder half" : "coder third", "bits", SIZE * CODED_BLOCKS, run_coder, sum);
    }
    return 0;
}
