/* The coder and the decoder: worked values, each status, and that nothing is written with another one than DCH_DONE. */
#include "check.h"

static void parity(void) {
    uint8_t out[64], good = 9;
    CHECK(dch_parity_attach(8, TEXT("1"), out, 9) == DCH_DONE && !memcmp(out, "111011001", 9));
    CHECK(dch_parity_check(8, out, 9, &good) == DCH_DONE && good == 1);
    out[3] ^= 1;
    CHECK(dch_parity_check(8, out, 9, &good) == DCH_DONE && good == 0);
    CHECK(dch_parity_check(8, out, 7, &good) == DCH_BAD_SIZE && dch_parity_check(7, out, 9, &good) == DCH_BAD_CODE && good == 0);
    memset(out, 'x', 9);
    CHECK(dch_parity_attach(9, TEXT("1"), out, 10) == DCH_BAD_CODE && dch_parity_attach(8, TEXT("1"), out, 8) == DCH_BAD_SIZE);
    CHECK(dch_parity_attach(8, TEXT("2"), out, 9) == DCH_BAD_LETTER && !memcmp(out, "xxxxxxxxx", 9));
    CHECK(dch_parity_attach(0, TEXT(""), out, 0) == DCH_DONE);
}

static void blocks(void) {
    static uint8_t joined[1011], cut_bits[1012], again[1011];
    dch_cut cut = {7, 7, 7};
    for (size_t i = 0; i < sizeof joined; i++) joined[i] = '0' + (i * i / 3 % 2);
    CHECK(dch_blocks_cut(4, joined, 1011, cut_bits, 1012, &cut) == DCH_BAD_CODE && cut.blocks == 7);
    CHECK(dch_blocks_cut(3, joined, 1011, cut_bits, 0, &cut) == DCH_BAD_SIZE && cut.blocks == 3 && cut.size == 337 && cut.filler == 0);
    CHECK(dch_blocks_cut(3, joined, 1010, cut_bits, 1011, &cut) == DCH_DONE && cut.blocks == 3 && cut.size == 337 && cut.filler == 1);
    CHECK(cut_bits[0] == '0' && !memcmp(cut_bits + 1, joined, 1010));
    CHECK(dch_blocks_join(3, cut_bits, 1011, again, 1010) == DCH_DONE && !memcmp(again, joined, 1010));
    CHECK(dch_blocks_join(3, cut_bits, 1010, again, 1010) == DCH_BAD_SIZE && dch_blocks_join(9, cut_bits, 1011, again, 1010) == DCH_BAD_CODE);
    CHECK(dch_blocks_cut(1, joined, 1011, cut_bits, 1011, &cut) == DCH_DONE && cut.blocks == 1 && cut.size == 1011 && cut.filler == 0);
}

static void code(void) {
    uint8_t out[1536], block[505];
    memset(block, '1', sizeof block);
    const char *third = "111100110011100111110001100001010101100001100101110010101100110111000000000";
    CHECK(dch_code(2, TEXT("1"), out, 18) == DCH_DONE && !memcmp(out, "110111111001000111", 18));
    CHECK(dch_code(3, TEXT("11000010000001000"), out, 75) == DCH_DONE && !memcmp(out, third, 75));
    CHECK(dch_code(4, TEXT("1"), out, 36) == DCH_BAD_CODE && dch_code(2, TEXT("1"), out, 17) == DCH_BAD_SIZE && dch_code(2, TEXT(""), out, 16) == DCH_BAD_SIZE);
    CHECK(dch_code(3, block, 504, out, 1536) == DCH_DONE && dch_code(3, block, 505, out, 1536) == DCH_BAD_SIZE && dch_code(2, TEXT("-"), out, 18) == DCH_BAD_LETTER);
}

static void tfci(void) {
    uint32_t word = 5;
    uint16_t index = 77, distance = 77;
    char bits[31] = {0};
    CHECK(dch_tfci_word(1024, &word) == DCH_BAD_CODE && word == 5 && dch_tfci_word(1, &word) == DCH_DONE);
    for (int i = 0; i < 30; i++) bits[i] = '0' + (word >> i & 1);
    CHECK(!strcmp(bits, "101010101010101101010101010101"));
    for (int i = 0; i < 4; i++) bits[7 * i] ^= 1;
    CHECK(dch_tfci_nearest(TEXT(bits), &index, &distance) == DCH_DONE && index == 1 && distance == 4);
    CHECK(dch_tfci_nearest(TEXT("101"), &index, &distance) == DCH_BAD_SIZE && index == 1);
    bits[9] = 'x';
    CHECK(dch_tfci_nearest(TEXT(bits), &index, &distance) == DCH_BAD_LETTER && index == 1 && distance == 4);
}

static void decoder(void) {
    dch_vote votes[18], many[18];
    const char *received = "010111111001000111";
    uint8_t block[2] = "xx";
    uint32_t copies = 99;
    dch_handle handle = {0};
    for (int i = 0; i < 18; i++) votes[i] = (dch_vote){received[i] == '0', received[i] == '1'};
    CHECK(dch_decoder_nearest(&handle, 2, votes, 18, 0, block, 1, &copies) == DCH_CLOSED);
    CHECK(dch_decoder_open(&handle, 505) == DCH_BAD_SIZE && !handle.is_open);
    CHECK(dch_decoder_open(&handle, 40) == DCH_DONE && dch_decoder_open(&handle, 40) == DCH_BUSY);
    CHECK(dch_decoder_nearest(&handle, 5, votes, 18, 0, block, 1, &copies) == DCH_BAD_CODE);
    CHECK(dch_decoder_nearest(&handle, 2, votes, 17, 0, block, 1, &copies) == DCH_BAD_SIZE);
    CHECK(dch_decoder_nearest(&handle, 2, votes, 18, 2, block, 1, &copies) == DCH_BAD_SIZE);
    memcpy(many, votes, sizeof many);
    many[3].ones = 0xffffffff;
    CHECK(dch_decoder_nearest(&handle, 2, many, 18, 0, block, 1, &copies) == DCH_BAD_SIZE && copies == 99 && block[0] == 'x');
    CHECK(dch_decoder_nearest(&handle, 2, votes, 18, 0, block, 1, &copies) == DCH_DONE && block[0] == '1' && block[1] == 'x' && copies == 1);
    dch_close(&handle);
    CHECK(!handle.is_open && !handle.at);
    dch_close(&handle);
    CHECK(dch_decoder_nearest(&handle, 2, votes, 18, 0, block, 1, &copies) == DCH_CLOSED);
    for (int i = 0; i < 1000; i++) { CHECK(dch_decoder_open(&handle, i % 505) == DCH_DONE); dch_close(&handle); }
}

int main(void) {
    parity();
    blocks();
    code();
    tfci();
    decoder();
    puts("the coder and the decoder are as they should be");
}
