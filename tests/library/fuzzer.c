/* Random calls with random arguments, and handles that are closed, open or of another kind; among them three nodes that
   give their frames on to each other, with random damage, and go over to their second configuration. Words: seconds,
   calls, seed, and configurations, of which what follows a line --- is passed over. */
#include "check.h"
#include <time.h>

static uint64_t state;
static uint32_t pick(uint32_t below) {
    state ^= state << 13; state ^= state >> 7; state ^= state << 17;
    return (uint32_t)(state >> 33) % below;
}
static size_t letters(uint8_t *text, size_t most) {
    size_t len = pick((uint32_t)most + 1);
    for (size_t i = 0; i < len; i++) text[i] = "01"[pick(2)];
    if (len && !pick(20)) text[pick((uint32_t)len)] = (uint8_t)pick(256);
    return len;
}

/* The configuration that the next handle is opened for. */
static uint8_t configs[4][20000], *config, why[20000], tfci[120], cells[60000];
static size_t config_lens[4], config_len;
static int config_count;
static void choose_config(void) {
    int i = (int)pick((uint32_t)config_count);
    config = configs[i];
    config_len = config_lens[i];
}

/* A call on transport channels, of which some are cut or changed in a place. */
static uint8_t on_channels(dch_handle *handle, uint8_t *text, uint8_t *out) {
    uint8_t direction = (uint8_t)(pick(20) ? pick(2) : pick(256)), channel = (uint8_t)(pick(20) ? pick(4) : pick(256)), cfn = (uint8_t)pick(256);
    uint16_t combination = (uint16_t)(pick(20) ? pick(6) : pick(65536));
    size_t bits = 30, places = pick(600);
    dch_format format = {1, 1, 1};
    dch_tti tti;
    switch (pick(8)) {
    case 0: {
        dch_refusal refusal;
        if (pick(500)) return dch_channels_miss(handle, direction, cfn);
        size_t at = pick((uint32_t)config_len), len = pick(4) ? config_len : at;
        uint8_t was = config[at];
        if (!pick(3)) config[at] = (uint8_t)pick(256);
        uint8_t status = dch_channels_open(handle, config, len, why, pick(4) ? sizeof why : pick(40), &refusal);
        config[at] = was;
        return status;
    }
    case 1: return dch_channels_format(handle, direction, channel, (uint8_t)pick(4), &format);
    case 2: return dch_channels_frame_size(handle, direction, combination, &bits, &places);
    case 3: case 4: {
        uint8_t number = (uint8_t)pick(4);
        dch_channels_format(handle, direction, channel, number, &format);
        size_t len = pick(20) ? (size_t)format.blocks * format.size : letters(text, 300);
        if (len > 600) len = 600;
        for (size_t i = 0; i < len; i++) text[i] = "01"[pick(2)];
        return dch_channels_load(handle, direction, channel, number, text, len);
    }
    case 5: case 6: {
        dch_channels_frame_size(handle, direction, combination, &bits, &places);
        uint8_t status = dch_channels_write(handle, direction, cfn, combination, tfci, bits, cells, pick(20) ? places : pick(600));
        if (status && pick(2)) return status;
        if (!pick(20)) cells[pick(600)] = (uint8_t)pick(256);
        return dch_channels_take(handle, direction, cfn, tfci, bits, cells, places);
    }
    default: return dch_channels_read(handle, direction, channel, out, pick(4) ? 2000 : pick(200), text, pick(3), &tti);
    }
}

/* What all calls came to. */
static long done, kept, handed_up, radio_frames, changes;
static uint8_t count_call(uint8_t status) {
    CHECK(status <= DCH_NOT_DUE);
    done++;
    kept += status == DCH_DONE;
    return status;
}

/* Frames that a node sent are given to the others, some with a damage. */
static uint8_t sent_iub[2][8][20000], sent_tfci[120], sent_cells[60000];
static size_t iub_len[2][8], tfci_len = 30, cells_len;
static int is_phy;

/* Pulls what waits at a node, into a buffer that is sometimes short. */
static void pull_all(dch_handle *handle) {
    static uint8_t out[70000];
    dch_told told;
    for (uint8_t status; (status = dch_next(handle, &told, out, pick(9) ? sizeof out : pick(40))) == DCH_DONE || status == DCH_SHORT;) {
        CHECK(told.kind <= DCH_TTI_BAD && told.direction < 2 && told.length <= sizeof out);
        if (status == DCH_SHORT) continue;
        handed_up += told.kind == DCH_GOT || told.kind == DCH_GOT_BITS;
        if (told.kind == DCH_IUB && told.length <= sizeof sent_iub[0][0]) memcpy(sent_iub[told.direction][told.number % 8], out, iub_len[told.direction][told.number % 8] = told.length);
        if (told.kind == DCH_PHY) {
            is_phy = 1;
            memcpy(sent_tfci, out, tfci_len = told.tfci);
            memcpy(sent_cells, out + told.tfci, cells_len = told.length - told.tfci);
        }
    }
}

static dch_handle nodes[3];
enum { RNC, UE, NODE_B };
static uint8_t open_node(dch_handle *handle, int kind) {
    uint8_t (*const opens[3])(dch_handle *, const uint8_t *, size_t, uint8_t, uint8_t *, size_t, dch_refusal *) = {dch_rnc_open, dch_ue_open, dch_nodeb_open};
    dch_refusal refusal;
    return opens[kind](handle, config, pick(9) ? config_len : pick((uint32_t)config_len), (uint8_t)(pick(9) ? 8 * pick(32) : pick(256)), why, pick(4) ? sizeof why : pick(40), &refusal);
}

/* A random event of a random handle, of which the node may have another state than that for it. */
static uint8_t on_nodes(dch_handle *handle, uint8_t *text) {
    uint8_t number = (uint8_t)(pick(30) ? pick(6) : pick(256)), way = (uint8_t)pick(2);
    size_t len = pick(40), *iub = &iub_len[way][number % 8];
    if (pick(3)) pull_all(handle);
    switch (pick(9)) {
    case 0:
        if (pick(500)) return dch_node_miss(handle);
        choose_config();
        return open_node(handle, (int)pick(3));
    case 1: for (size_t i = 0; i < len; i++) text[i] = (uint8_t)pick(256);
        return dch_node_unit(handle, number, text, pick(50) ? len : 600);
    case 2: return dch_node_unit_bits(handle, number, text, letters(text, 300));
    case 3: return dch_node_block(handle, number, (uint8_t)pick(3));
    case 4:
        if (*iub && !pick(4)) sent_iub[way][number % 8][pick((uint32_t)*iub)] ^= (uint8_t)pick(256);
        return dch_node_iub(handle, number % 4, sent_iub[way][number % 8], pick(8) ? *iub : pick((uint32_t)*iub + 1));
    case 5:
        if (cells_len && !pick(3)) sent_cells[pick((uint32_t)cells_len)] = "01-x"[pick(4)];
        return dch_node_phy(handle, sent_tfci, pick(20) ? tfci_len : pick(120), sent_cells, pick(20) ? cells_len : pick(60000));
    case 6: return dch_node_down(handle);
    default: return pick(8) ? dch_node_tick(handle) : dch_node_change(handle);
    }
}

/* The Iub frames that were sent arrive, some of them damaged. */
static void iub_arrives(int way, dch_handle *node) {
    for (uint8_t set = 0; set < 8; set++) {
        size_t len = iub_len[way][set];
        iub_len[way][set] = 0;
        if (!len || !pick(20)) continue;
        if (!pick(20)) sent_iub[way][set][pick((uint32_t)len)] ^= (uint8_t)(1 + pick(255));
        count_call(dch_node_iub(node, set, sent_iub[way][set], len));
        pull_all(node);
    }
}

/* The radio frame that was sent arrives, with some bits turned over, or is missing. */
static void phy_arrives(dch_handle *node) {
    int is_there = is_phy && pick(20);
    for (uint32_t i = pick(2) ? pick(12) : 0; is_there && cells_len && i; i--) {
        uint8_t *cell = &sent_cells[pick((uint32_t)cells_len)];
        if (*cell != '-') *cell ^= 1;
    }
    count_call(is_there ? dch_node_phy(node, sent_tfci, tfci_len, sent_cells, cells_len) : dch_node_miss(node));
    is_phy = 0;
    pull_all(node);
}

/* A radio frame passes at three nodes, with units for them, as in `dch link`. Where they are closed, they are opened
   for the same configuration. */
static void pass(uint8_t *text) {
    if (!nodes[RNC].is_open || !nodes[UE].is_open || !nodes[NODE_B].is_open || !pick(60)) {
        dch_refusal refusal;
        uint8_t cfn = (uint8_t)(8 * pick(32));
        for (int i = 0; i < 3; i++) dch_close(&nodes[i]);
        choose_config();
        count_call(dch_rnc_open(&nodes[RNC], config, config_len, cfn, why, sizeof why, &refusal));
        count_call(dch_ue_open(&nodes[UE], config, config_len, cfn, why, sizeof why, &refusal));
        count_call(dch_nodeb_open(&nodes[NODE_B], config, config_len, cfn, why, sizeof why, &refusal));
        memset(iub_len, 0, sizeof iub_len);
        is_phy = 0;
    }
    for (uint32_t i = pick(4); i; i--) {
        dch_handle *node = &nodes[pick(2)];
        uint8_t bearer = (uint8_t)pick(6);
        size_t len = 1 + pick(200);
        static const uint8_t sizes[] = {39, 81, 103, 60};
        for (size_t k = 0; k < len; k++) text[k] = (uint8_t)pick(256);
        count_call(dch_node_unit(node, bearer, text, len));
        pull_all(node);
        for (size_t k = 0; k < 103; k++) text[k] = "01"[pick(2)];
        count_call(dch_node_unit_bits(node, bearer, text, sizes[pick(4)]));
        pull_all(node);
    }
    if (!pick(9)) count_call(dch_node_block(&nodes[pick(2)], (uint16_t)pick(4), (uint8_t)(pick(4) == 0)));
    for (int i = 0; i < 3; i++) changes += count_call(dch_node_change(&nodes[i])) == DCH_DONE;
    count_call(dch_node_tick(&nodes[RNC])); pull_all(&nodes[RNC]);
    iub_arrives(DCH_DOWN, &nodes[NODE_B]);
    count_call(dch_node_down(&nodes[NODE_B])); pull_all(&nodes[NODE_B]);
    phy_arrives(&nodes[UE]);
    radio_frames += count_call(dch_node_tick(&nodes[UE])) == DCH_DONE; pull_all(&nodes[UE]);
    phy_arrives(&nodes[NODE_B]);
    iub_arrives(DCH_UP, &nodes[RNC]);
}

int main(int count, char **words) {
    double seconds = count > 1 ? atof(words[1]) : 10;
    long events = count > 2 ? atol(words[2]) : 1000000;
    state = count > 3 ? strtoull(words[3], 0, 10) | 1 : 88172645463325252u;
    for (int i = 4; i < count && config_count < 4; i++) {
        FILE *file = fopen(words[i], "rb");
        CHECK(file);
        uint8_t *to = configs[config_count];
        size_t len = fread(to, 1, sizeof configs[0] - 1, file);
        fclose(file);
        char *end = strstr((char *)to, "\n---\n");
        config_lens[config_count++] = end ? (size_t)(end + 1 - (char *)to) : len;
    }
    if (config_count) choose_config();
    memset(tfci, '0', sizeof tfci);
    memset(cells, '0', sizeof cells);
    static uint8_t text[600], out[2000];
    static dch_vote votes[1536];
    dch_handle handles[4] = {{0}};
    clock_t begun = clock();
    for (; done < events && (double)(clock() - begun) / CLOCKS_PER_SEC < seconds;) {
        if (config_count && !pick(12)) { pass(text); continue; }
        dch_handle *handle = &handles[pick(4)];
        uint8_t number = (uint8_t)(pick(3) ? 2 + pick(2) : pick(256)), byte = 0;
        size_t len = letters(text, pick(8) ? 40 : 600), room = pick(4) ? number * (len + 8) % 2000 : pick(2000);
        uint32_t wide = 0;
        uint16_t index = 0, distance = 0;
        dch_cut cut;
        uint8_t status = 0;
        switch (pick(config_len ? 40 : 10)) {
        case 0: number = (uint8_t)(8 * pick(5)); status = dch_parity_attach(number, text, len, out, pick(4) ? len + number : room); break;
        case 1: status = dch_parity_check((uint8_t)(8 * pick(5)), text, len, &byte); CHECK(byte < 2); break;
        case 2: status = dch_blocks_cut((uint8_t)pick(5), text, len, out, pick(2) ? len : room, &cut); break;
        case 3: status = dch_blocks_join((uint8_t)pick(5), text, len, out, pick(2) ? len : room); break;
        case 4: status = dch_code(number, text, len, out, room); break;
        case 5: status = dch_tfci_word((uint16_t)pick(2048), &wide); break;
        case 6: status = dch_tfci_nearest(text, len = len < 30 ? len : 30, &index, &distance); CHECK(index < 1024 && distance <= len); break;
        case 7: status = dch_decoder_open(handle, pick(600)); break;
        case 8: {
            size_t size = 1 + pick(60), all = number % 4 * (size + 8);
            for (size_t i = 0; i < all; i++) votes[i] = (dch_vote){pick(3), pick(3)};
            status = dch_decoder_nearest(handle, number, votes, all, pick(10) ? 0 : pick(70), out, size, &wide);
            break;
        }
        case 9: if (!pick(40)) dch_close(handle); break;
        default: status = pick(3) ? on_nodes(pick(4) ? &nodes[pick(3)] : handle, text) : on_channels(handle, text, out);
        }
        count_call(status);
    }
    for (int i = 0; i < 4; i++) dch_close(&handles[i]);
    for (int i = 0; i < 3; i++) dch_close(&nodes[i]);
    printf("%ld random calls, of which %ld did what they are for; %ld radio frames, %ld units handed up, %ld changes\n", done, kept, radio_frames, handed_up, changes);
    CHECK(done >= events && (!config_count || (radio_frames && handed_up && changes)));
}
