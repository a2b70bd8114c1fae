/* Transport channels: what a command wrote of a case is read from its radio frames, and sent again cell by cell. Words:
   the direction (`up` with the cases of ue and link, `down` with those of nodeb and link), and the cases without their
   ending. A configuration that is refused has the line that the command wrote. Without words: each status, and that
   nothing is written with another one than the header says. */
#include "check.h"

enum { ROOM = 1 << 20, FRAMES = 64, CHANNELS = 8 };
static uint8_t text[ROOM], out[ROOM], why[ROOM], blocks[1 << 17], again[60000], good[64];

static size_t load(const char *name, const char *ending, uint8_t *to) {
    char path[300];
    snprintf(path, sizeof path, "%s%s", name, ending);
    FILE *file = fopen(path, "rb");
    CHECK(file);
    size_t len = fread(to, 1, ROOM - 1, file);
    fclose(file);
    to[len] = 0;
    return len;
}

/* The configuration of a case: its lines before the line `---`. */
static size_t configuration(size_t len) {
    for (size_t i = 0; i + 3 <= len; i++)
        if ((i == 0 || text[i - 1] == '\n') && !memcmp(text + i, "---", 3) && (i + 3 == len || text[i + 3] == '\n')) return i;
    return len;
}

typedef struct { const uint8_t *tfci, *cells; size_t bits, places; uint16_t combination; } frame;
typedef struct { uint8_t *blocks; size_t len; uint8_t format, is_read; } loaded;
static frame frames[FRAMES];
static loaded sent[CHANNELS][FRAMES];

/* The radio frames of a report. */
static int gather(const char *word) {
    int count = 0;
    for (char *at = (char *)out; count < FRAMES && (at = strstr(at, word)); count++) {
        at += strlen(word);
        frame *it = &frames[count];
        it->tfci = (uint8_t *)at;
        it->bits = strcspn(at, " \n");
        it->cells = (uint8_t *)at + it->bits + (at[it->bits] == ' ');
        it->places = *it->cells == '.' ? 0 : strcspn((char *)it->cells, "\n"); /* a dot: no cell */
        uint16_t distance = 1;
        if (it->bits < 30) return count; /* no radio frame was sent */
        CHECK(dch_tfci_nearest(it->tfci, it->bits, &it->combination, &distance) == DCH_DONE && distance == 0);
    }
    return count;
}

/* How many radio frames the longest TTI of a direction has. */
static int longest_tti(dch_handle *handle, uint8_t direction) {
    dch_format format;
    int longest = 1;
    for (uint8_t c = 0; dch_channels_format(handle, direction, c, 0, &format) == DCH_DONE; c++)
        if (longest < format.frames) longest = format.frames;
    return longest;
}

/* Reads the TTIs that radio frame n ends. */
static void read_at(dch_handle *handle, uint8_t direction, int n) {
    dch_format format;
    for (uint8_t c = 0; dch_channels_format(handle, direction, c, 0, &format) == DCH_DONE; c++) {
        dch_tti tti;
        if ((n + 1) % format.frames) continue;
        CHECK(dch_channels_read(handle, direction, c, blocks, sizeof blocks, good, sizeof good, &tti) == DCH_DONE);
        size_t len = tti.blocks * tti.size;
        loaded *it = &sent[c][n + 1 - format.frames];
        *it = (loaded){malloc(len + 1), len, tti.format, 1};
        memcpy(it->blocks, blocks, len);
        for (size_t b = 0; b < tti.blocks; b++) CHECK(good[b] == 1);
        CHECK(dch_channels_format(handle, direction, c, tti.format, &format) == DCH_DONE && format.blocks == tti.blocks && format.size == tti.size);
        if (len) CHECK(dch_channels_read(handle, direction, c, blocks, len - 1, good, sizeof good, &tti) == DCH_SHORT && tti.blocks * tti.size == len);
    }
}

/* Sends radio frame n again. */
static void send_at(dch_handle *handle, uint8_t direction, int n) {
    dch_format format;
    for (uint8_t c = 0; dch_channels_format(handle, direction, c, 0, &format) == DCH_DONE; c++) {
        loaded *it = &sent[c][n];
        if (n % format.frames == 0) CHECK(it->is_read && dch_channels_load(handle, direction, c, it->format, it->blocks, it->len) == DCH_DONE);
    }
    frame *was = &frames[n];
    size_t bits, places;
    uint8_t tfci[120];
    CHECK(dch_channels_frame_size(handle, direction, was->combination, &bits, &places) == DCH_DONE && bits == was->bits && places == was->places);
    CHECK(dch_channels_write(handle, direction, (uint8_t)n, was->combination, tfci, bits, again, places + 1) == DCH_BAD_SIZE);
    CHECK(dch_channels_write(handle, direction, (uint8_t)n, was->combination, tfci, bits, again, places) == DCH_DONE);
    CHECK(!memcmp(tfci, was->tfci, bits) && !memcmp(again, was->cells, places));
}

static int run(const char *name, uint8_t direction) {
    dch_handle handle = {0};
    dch_refusal refusal = {0, 0};
    size_t len = configuration(load(name, ".in", text)), told = load(name, ".out", out);
    uint8_t status = dch_channels_open(&handle, text, len, why, sizeof why, &refusal);
    if (status == DCH_REFUSED) {
        char number[30];
        snprintf(number, sizeof number, "refused %d", refusal.number);
        CHECK(!handle.is_open && !strncmp((char *)why, number, strlen(number)));
        if (refusal.number != 28) CHECK(refusal.length == told && !memcmp(why, out, told));
        return 0;
    }
    CHECK(status == DCH_DONE);
    int longest = longest_tti(&handle, direction), count = gather(direction == DCH_UP ? "\nphyup " : "\nphydown ") / longest * longest;
    for (int n = 0; n < count; n++) {
        frame *it = &frames[n];
        CHECK(dch_channels_take(&handle, direction, (uint8_t)n, it->tfci, it->bits, it->cells, it->places) == DCH_DONE);
        read_at(&handle, direction, n);
    }
    for (int n = 0; n < count; n++) send_at(&handle, direction, n);
    dch_close(&handle);
    for (int c = 0; c < CHANNELS; c++)
        for (int n = 0; n < FRAMES; n++) { free(sent[c][n].blocks); sent[c][n] = (loaded){0}; }
    return count;
}

static void statuses(void) {
    dch_handle handle = {0}, decoder = {0};
    dch_refusal refusal = {7, 7};
    dch_format format = {7, 7, 7};
    dch_tti tti = {7, 7, 7, 7};
    uint8_t tfci[30], cells[600], block[103];
    size_t bits = 7, places = 7, len = configuration(load("examples/speech", ".toml", text));
    memset(block, '1', sizeof block);
    CHECK(dch_channels_load(&handle, 0, 0, 1, block, 39) == DCH_CLOSED && dch_channels_miss(&handle, 0, 0) == DCH_CLOSED);
    CHECK(dch_channels_open(&handle, text, 9, why, 4, &refusal) == DCH_SHORT && refusal.number >= 10 && refusal.length > 4 && !handle.is_open);
    size_t wanted = refusal.length;
    CHECK(dch_channels_open(&handle, text, 9, why, wanted, &refusal) == DCH_REFUSED && !memcmp(why, "refused 1", 9) && why[wanted - 1] == '\n');
    CHECK(dch_channels_open(&handle, text, len, why, 0, &refusal) == DCH_DONE && dch_channels_open(&handle, text, len, why, 0, &refusal) == DCH_BUSY);
    CHECK(dch_decoder_open(&decoder, 9) == DCH_DONE && dch_channels_miss(&decoder, 0, 0) == DCH_OTHER_KIND);
    CHECK(dch_decoder_nearest(&handle, 2, &(dch_vote){0, 0}, 0, 0, block, 1, &(uint32_t){0}) == DCH_OTHER_KIND);
    dch_close(&decoder);
    CHECK(dch_channels_format(&handle, 0, 4, 0, &format) == DCH_BAD_CODE && dch_channels_format(&handle, 0, 0, 3, &format) == DCH_BAD_CODE);
    CHECK(dch_channels_format(&handle, 2, 0, 0, &format) == DCH_BAD_CODE && format.size == 7);
    CHECK(dch_channels_format(&handle, 0, 0, 1, &format) == DCH_DONE && format.frames == 2 && format.blocks == 1 && format.size == 39);
    CHECK(dch_channels_load(&handle, 3, 0, 1, block, 39) == DCH_BAD_CODE && dch_channels_load(&handle, 0, 4, 1, block, 39) == DCH_BAD_CODE);
    CHECK(dch_channels_load(&handle, 0, 0, 1, block, 40) == DCH_BAD_SIZE);
    block[38] = '-';
    CHECK(dch_channels_load(&handle, 0, 0, 1, block, 39) == DCH_BAD_LETTER);
    block[38] = '0';
    CHECK(dch_channels_load(&handle, 0, 0, 1, block, 39) == DCH_DONE);
    CHECK(dch_channels_frame_size(&handle, 0, 6, &bits, &places) == DCH_BAD_CODE && bits == 7 && places == 7);
    CHECK(dch_channels_frame_size(&handle, 0, 1, &bits, &places) == DCH_DONE && bits == 30);
    memset(cells, 'x', sizeof cells);
    CHECK(dch_channels_write(&handle, 0, 0, 1, tfci, 30, cells, places) == DCH_NOT_LOADED && cells[0] == 'x');
    for (uint8_t c = 1; c < 4; c++) CHECK(dch_channels_load(&handle, 0, c, 0, block, 0) == DCH_DONE);
    CHECK(dch_channels_write(&handle, 0, 0, 9, tfci, 30, cells, places) == DCH_BAD_CODE && dch_channels_write(&handle, 0, 0, 1, tfci, 29, cells, places) == DCH_BAD_SIZE);
    CHECK(dch_channels_take(&handle, 0, 0, tfci, 29, cells, places) == DCH_BAD_SIZE && dch_channels_take(&handle, 0, 0, block, 30, again, 601) == DCH_BAD_SIZE);
    for (uint8_t n = 0; n < 2; n++) {
        CHECK(dch_channels_write(&handle, 0, n, 1, tfci, 30, cells, places) == DCH_DONE);
        if (n == 0) cells[5] ^= 1;
        CHECK(dch_channels_take(&handle, 0, n, tfci, 30, cells, places) == DCH_DONE);
    }
    CHECK(dch_channels_read(&handle, 0, 4, blocks, 39, good, 1, &tti) == DCH_BAD_CODE && tti.size == 7);
    CHECK(dch_channels_read(&handle, 0, 0, blocks, 39, good, 0, &tti) == DCH_SHORT && tti.format == 1 && tti.blocks == 1 && tti.size == 39);
    CHECK(dch_channels_read(&handle, 0, 0, blocks, 39, good, 1, &tti) == DCH_DONE && good[0] == 1 && !memcmp(blocks, block, 39));
    cells[3] = '+';
    CHECK(dch_channels_take(&handle, 0, 2, tfci, 30, cells, places) == DCH_BAD_LETTER && dch_channels_miss(&handle, 0, 3) == DCH_DONE);
    CHECK(dch_channels_read(&handle, 0, 0, blocks, 39, good, 1, &tti) == DCH_BAD_TTI && tti.bad_frame <= 1);
    CHECK(dch_channels_miss(&handle, 2, 3) == DCH_BAD_CODE);
    dch_close(&handle);
}

int main(int count, char **words) {
    if (count < 2) { statuses(); return 0; }
    int all = 0;
    for (int i = 2; i < count; i++) all += run(words[i], strcmp(words[1], "up") ? DCH_DOWN : DCH_UP);
    printf("%d cases of radio frames %s were read and sent again, %d frames in all\n", count - 2, words[1], all);
}
