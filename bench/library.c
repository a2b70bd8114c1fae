/* The work that crates/dch_bench does on code blocks and radio frames, through the calls of include/dch.h. It reads the
 * same inputs and makes the same checksums, so that what the library adds to the proved code can be told. bench/library
 * builds and runs it.
 *
 *     library             checksums, as crates/dch_bench/stdout has them
 *     library measure     how much is done in a second
 */
#define _POSIX_C_SOURCE 199309L
#include "dch.h"
#include "work.h"
#include <stdlib.h>

enum { GREATEST = 35, FEW = 8, MANY = 400, DAMAGED = 37, CHANNELS = 5, MOST_BITS = 12 * 336, MOST_CELLS = 9600 };

static void check(uint8_t status, const char *call)
{
    if (status != DCH_DONE) {
        fprintf(stderr, "%s answers %d\n", call, status);
        exit(1);
    }
}

/* The code blocks of peers.c, whose letters the library writes. */
static dch_handle decoder;
static uint8_t letters[BLOCKS][SIZE];

_Static_assert(sizeof(struct vote) == sizeof(dch_vote), "votes");

static void run_nearest(void)
{
    for (int b = 0; b < BLOCKS; b++)
        check(dch_decoder_nearest(&decoder, rate, (const dch_vote *)votes[b], rate * STEPS, 0, letters[b], SIZE, &differing[b]), "dch_decoder_nearest");
}

static uint32_t sum_nearest(void)
{
    uint32_t sum = 0x811c9dc5u;
    for (int b = 0; b < BLOCKS; b++) {
        for (int k = 0; k < SIZE; k++)
            found[b][k] = letters[b][k] - '0';
        sum = add_number(add(sum, found[b], SIZE), differing[b]);
    }
    return sum;
}

static void nearest_rows(int measured)
{
    check(dch_decoder_open(&decoder, SIZE), "dch_decoder_open");
    for (int damaged = 1; damaged >= 0; damaged--)
        for (rate = 2; rate <= 3; rate++)
            for (int copies = 1; copies <= 40; copies += 39) {
                char name[60];
                snprintf(name, sizeof name, "nearest %s votes=%d%s", rate == 2 ? "half" : "third", copies, damaged ? "" : " undamaged");
                open_nearest(copies, damaged);
                run_nearest();
                report(measured, name, "blocks", BLOCKS, run_nearest, sum_nearest());
            }
    dch_close(&decoder);
}

/* Radio frames of the configuration of `gen`, with the most that it sends. */
static dch_handle channels;
static dch_format formats[2][CHANNELS];
static uint8_t given[MOST_BITS], blocks_read[MOST_BITS], good[12];
static uint8_t tfci[30], cells[MOST_CELLS], came[MOST_CELLS];
static size_t tfci_len, cells_len;

static void open_channels(const char *path)
{
    static uint8_t text[20000], why[2000];
    FILE *file = fopen(path, "rb");
    if (!file) {
        perror(path);
        exit(1);
    }
    size_t len = fread(text, 1, sizeof text, file);
    fclose(file);
    dch_refusal refusal;
    check(dch_channels_open(&channels, text, len, why, sizeof why, &refusal), "dch_channels_open");
}

/* The number of the format that a channel has in the combination: its last one. */
static const uint8_t format_of[CHANNELS] = { 2, 1, 1, 1, 5 };

static size_t give(int way, int start, int channel)
{
    size_t len = (size_t)formats[way][channel].blocks * formats[way][channel].size;
    state = 8 * start + channel;
    for (size_t k = 0; k < len; k++)
        given[k] = '0' + (number() >= 32768);
    return len;
}

static void send_frame(int way, int cfn)
{
    for (int channel = 0; channel < CHANNELS; channel++)
        if (cfn % formats[way][channel].frames == 0)
            check(dch_channels_load(&channels, way, channel, format_of[channel], given, give(way, cfn, channel)), "dch_channels_load");
    check(dch_channels_write(&channels, way, cfn, GREATEST, tfci, tfci_len, cells, cells_len), "dch_channels_write");
}

/* Whether each TTI that ends is read as it was loaded. One cell in so many is inverted on the way, none for 0. */
static int read_frame(int way, int cfn, int every)
{
    memcpy(came, cells, cells_len);
    for (size_t k = 0; every && k < cells_len; k += every)
        came[k] = came[k] == '0' ? '1' : came[k] == '1' ? '0' : '-';
    check(dch_channels_take(&channels, way, cfn, tfci, tfci_len, came, cells_len), "dch_channels_take");
    for (int channel = 0; channel < CHANNELS; channel++) {
        int frames = formats[way][channel].frames;
        if ((cfn + 1) % frames)
            continue;
        size_t len = give(way, cfn + 1 - frames, channel);
        dch_tti tti;
        if (dch_channels_read(&channels, way, channel, blocks_read, sizeof blocks_read, good, sizeof good, &tti) != DCH_DONE)
            return 0;
        if (tti.format != format_of[channel] || memcmp(blocks_read, given, len))
            return 0;
        for (size_t b = 0; b < tti.blocks; b++)
            if (!good[b])
                return 0;
    }
    return 1;
}

static void frames_of(int measured, int way, const char *name)
{
    double sending = 0, reading = 0;
    int frames = 0;
    check(dch_channels_frame_size(&channels, way, GREATEST, &tfci_len, &cells_len), "dch_channels_frame_size");
    for (int channel = 0; channel < CHANNELS; channel++)
        check(dch_channels_format(&channels, way, channel, format_of[channel], &formats[way][channel]), "dch_channels_format");
    for (int n = 0; n < (measured ? MANY : FEW); n++) {
        double start = seconds();
        send_frame(way, n % 256);
        double between = seconds();
        int is_back = read_frame(way, n % 256, measured ? 0 : DAMAGED);
        double end = seconds();
        if (is_back) {
            frames++;
            sending += between - start;
            reading += end - between;
        }
    }
    if (!measured)
        printf("frames %s frames=%d cells=%zu\n", name, frames, frames * cells_len);
    else {
        printf("frames %s send %.0f frames/s\n", name, frames / sending);
        printf("frames %s read %.0f frames/s\n", name, frames / reading);
    }
}

int main(int count, char **words)
{
    int measured = count > 1 && strcmp(words[1], "measure") == 0;
    nearest_rows(measured);
    open_channels("examples/gen.toml");
    frames_of(measured, DCH_DOWN, "down");
    frames_of(measured, DCH_UP, "up");
    dch_close(&channels);
    return 0;
}
