/* Nodes: each line of a case of rnc, ue or nodeb is an event, and what the node tells is what the command wrote. The
   cases of link run three nodes, whose frames are given on here, with the damage of the case. Words: the command, and
   the cases of any folder, each without its ending. Words of a case of its own (`--start N`, `--quiet`) stand in
   NAME.args, a word a line, or else in the file `words` beside it. A case whose words are of another command is passed
   over. Without words: each status, and that nothing changed with another one than DCH_DONE. */
#include "check.h"

enum { ROOM = 1 << 20 };
static char text[ROOM], wanted[ROOM], given[ROOM];
static uint8_t octets[ROOM], why[ROOM], out[ROOM];
static size_t given_len;
static int quiet;

static size_t load(const char *name, const char *ending, char *to) {
    char path[300];
    snprintf(path, sizeof path, "%s%s", name, ending);
    FILE *file = fopen(path, "rb");
    to[0] = 0;
    if (!file) return 0;
    size_t len = fread(to, 1, ROOM - 1, file);
    fclose(file);
    to[len] = 0;
    return len;
}

/* The words of a case: those of NAME.args, or else those behind its name in the file `words`, each behind a space;
   empty where it has none of its own. */
static char words_given[300];
static void load_words(const char *name) {
    char path[300], line[300];
    const char *base = strrchr(name, '/') ? strrchr(name, '/') + 1 : name;
    size_t len = 0;
    words_given[0] = 0;
    snprintf(path, sizeof path, "%s.args", name);
    FILE *file = fopen(path, "rb");
    int is_args = file != NULL;
    if (!is_args) {
        snprintf(path, sizeof path, "%.*swords", (int)(base - name), name);
        file = fopen(path, "rb");
    }
    while (file && fgets(line, sizeof line, file)) {
        size_t front = is_args ? 0 : strlen(base);
        line[strcspn(line, "\n")] = 0;
        if (!is_args && (strncmp(line, base, front) || line[front] != ' ')) continue;
        len += (size_t)snprintf(words_given + len, sizeof words_given - len, "%s%s", is_args ? " " : "", line + front);
        CHECK(len < sizeof words_given);
    }
    if (file) fclose(file);
}

/* The number behind a word of the case, 0 where none is behind it, or -1 where the word isn't there. */
static int word_of(const char *word) {
    const char *at = strstr(words_given, word);
    return at ? atoi(at + strlen(word)) : -1;
}

/* Whether a case is of another command. */
static int is_of_another(const char *command) {
    size_t len = strlen(command);
    return words_given[0] && (strncmp(words_given + 1, command, len) || (words_given[1 + len] && words_given[1 + len] != ' '));
}

static void say(const char *words) {
    size_t len = strlen(words);
    CHECK(given_len + len < ROOM);
    memcpy(given + given_len, words, len + 1);
    given_len += len;
}

static void say_letters(const uint8_t *letters, size_t len) {
    if (!len) { say("."); return; }
    CHECK(given_len + len < ROOM);
    memcpy(given + given_len, letters, len);
    given[given_len += len] = 0;
}

static void say_octets(size_t len) {
    char pair[3];
    if (!len) say(".");
    for (size_t i = 0; i < len; i++) { snprintf(pair, sizeof pair, "%02x", out[i]); say(pair); }
}

/* A value as the command writes it. */
static void say_told(const dch_told *it) {
    static const char *const names[] = {"took", "full", "wrong", "bad", "reserved", "nobearer", "nobody", "pdubad", "outside", "overlong", "got", "got", "iub",
                                        "iubbad", "phy", "phydown none\n", "badtti"};
    char words[60];
    const char *way = it->direction == DCH_UP ? "up" : "down";
    CHECK(it->kind <= DCH_TTI_BAD && it->direction <= 1);
    if (quiet && (it->kind == DCH_IUB || it->kind == DCH_PHY || it->kind == DCH_PHY_NONE)) return;
    switch (it->kind) {
    case DCH_PHY_NONE: say(names[it->kind]); return;
    case DCH_BAD: case DCH_NO_BEARER: case DCH_PDU_BAD: case DCH_IUB_BAD: case DCH_TTI_BAD: snprintf(words, sizeof words, "%s %s %d %d", names[it->kind], way, it->number, it->more); say(words); break;
    case DCH_GOT: case DCH_GOT_BITS: snprintf(words, sizeof words, "got %s %d ", way, it->number); say(words); break;
    case DCH_IUB: snprintf(words, sizeof words, "iub%s %d ", way, it->number); say(words); break;
    case DCH_PHY: snprintf(words, sizeof words, "phy%s ", way); say(words); break;
    default: snprintf(words, sizeof words, "%s %s %d", names[it->kind], way, it->number); say(words); break;
    }
    if (it->kind == DCH_GOT || it->kind == DCH_IUB) say_octets(it->length);
    if (it->kind == DCH_GOT_BITS) say_letters(out, it->length);
    if (it->kind == DCH_PHY) { say_letters(out, it->tfci); say(" "); say_letters(out + it->tfci, it->length - it->tfci); }
    say("\n");
}

/* The nodes of a case; of a command with one node it is the first. */
enum { RNC, UE, NODE_B };
static dch_handle nodes[3];

/* What a node sent: Iub frames, and a radio frame. */
typedef struct { uint8_t set, *octets; size_t len; } iub;
static struct { iub iubs[8]; int count; uint8_t tfci[120], cells[57600]; size_t bits, places; int is_phy; } sent;

static void keep(const dch_told *it) {
    if (it->kind == DCH_IUB && nodes[1].is_open) {
        CHECK(sent.count < 8);
        iub *to = &sent.iubs[sent.count++];
        *to = (iub){it->number, malloc(it->length + 1), it->length};
        memcpy(to->octets, out, it->length);
    }
    if (it->kind == DCH_PHY) {
        sent.is_phy = 1;
        memcpy(sent.tfci, out, sent.bits = it->tfci);
        memcpy(sent.cells, out + it->tfci, sent.places = it->length - it->tfci);
    }
}

/* Pulls all that waits; a buffer that is too short changes nothing. */
static void pull(dch_handle *node) {
    dch_told told, again;
    uint8_t status;
    while ((status = dch_next(node, &told, out, 0)) != DCH_NOTHING) {
        if (status == DCH_SHORT) {
            CHECK(told.length && dch_next(node, &again, out, told.length - 1) == DCH_SHORT && again.length == told.length);
            CHECK(dch_node_tick(node) != DCH_DONE && dch_node_change(node) == DCH_QUEUE_FULL);
            CHECK(dch_next(node, &again, out, sizeof out) == DCH_DONE && again.kind == told.kind && again.number == told.number);
        } else CHECK(status == DCH_DONE && !told.length);
        say_told(&told);
        keep(&told);
    }
}

/* The octets of a hexadecimal text; -1 where it is none. */
static long read_hex(const char *hex) {
    size_t len = strlen(hex);
    if (!strcmp(hex, ".")) return 0;
    if (len % 2 || strspn(hex, "0123456789abcdefABCDEF") != len) return -1;
    for (size_t i = 0; i < len; i += 2) { unsigned octet; sscanf(hex + i, "%2x", &octet); octets[i / 2] = (uint8_t)octet; }
    return (long)(len / 2);
}

static const char *dotless(const char *letters) { return strcmp(letters, ".") ? letters : ""; }

/* The event of a line. */
static uint8_t happen(dch_handle *node, char *line, int *frames) {
    char *words[5] = {0};
    int count = 0;
    for (char *word = strtok(line, " "); word && count < 5; word = strtok(NULL, " ")) words[count++] = word;
    CHECK(count);
    int number = count > 1 ? atoi(words[1]) : 0;
    if (number > 255) return DCH_BAD_CODE;
    if (!strcmp(words[0], "unit") && count == 3) {
        long len = read_hex(words[2]);
        if (len >= 0) {
            uint8_t status = dch_node_unit(node, (uint8_t)number, octets, (size_t)len);
            if (status != DCH_BAD_CODE) return status;
        }
        return dch_node_unit_bits(node, (uint8_t)number, TEXT(dotless(words[2])));
    }
    if (!strcmp(words[0], "block") && count == 2) return dch_node_block(node, (uint16_t)number, 1);
    if (!strcmp(words[0], "free") && count == 2) return dch_node_block(node, (uint16_t)number, 0);
    if (!strcmp(words[0], "iub") && count == 3) {
        long len = read_hex(words[2]);
        return len < 0 ? DCH_BAD_LETTER : dch_node_iub(node, (uint8_t)number, octets, (size_t)len);
    }
    uint8_t status = DCH_BAD_CODE;
    if (!strcmp(words[0], "tick") && count == 1) { status = dch_node_tick(node); *frames += status == DCH_DONE; }
    if (!strcmp(words[0], "down") && count == 1) status = dch_node_down(node);
    if (!strcmp(words[0], "change") && count == 1) status = dch_node_change(node);
    if (!strcmp(words[0], "phy")) {
        if (count == 2 && !strcmp(words[1], "none")) status = dch_node_miss(node);
        if (count == 3) status = dch_node_phy(node, TEXT(words[1]), TEXT(dotless(words[2])));
        *frames += status == DCH_DONE && dch_node_iub(node, 255, octets, 0) != DCH_OTHER_KIND; /* at a Node B */
    }
    return status;
}

typedef uint8_t (*opens)(dch_handle *, const uint8_t *, size_t, uint8_t, uint8_t *, size_t, dch_refusal *);
static opens opener(const char *command) { return !strcmp(command, "rnc") ? dch_rnc_open : !strcmp(command, "ue") ? dch_ue_open : dch_nodeb_open; }

static char damage[2000][60];
static int damages;

/* Damage that waits does its work on a radio frame: whether it is lost. */
static int spoil_phy(const char *way) {
    char word[8], part;
    unsigned place;
    int lost = 0, end;
    for (int i = 0; i < damages; i++) {
        if (sscanf(damage[i], "flip %7s %c %u", word, &part, &place) == 3 && !strcmp(word, way)) {
            uint8_t *at = part == 't' ? sent.tfci : sent.cells;
            if (place < (part == 't' ? sent.bits : sent.places)) at[place] = at[place] == '1' ? '0' : '1';
        }
        end = 0;
        if (sscanf(damage[i], "lose %7s%n", word, &end) == 1 && !damage[i][end] && !strcmp(word, way)) lost = 1;
    }
    return lost || !sent.is_phy;
}

/* And on an Iub frame. */
static int spoil_iub(const char *way, iub *it) {
    char word[12];
    unsigned set, octet, mask;
    int lost = 0;
    for (int i = 0; i < damages; i++) {
        if (sscanf(damage[i], "lose iub%7s %u", word, &set) == 2 && !strcmp(word, way) && set == it->set) lost = 1;
        if (sscanf(damage[i], "spoil iub%7s %u %u %2x", word, &set, &octet, &mask) == 4 && !strcmp(word, way) && set == it->set && octet < it->len) it->octets[octet] ^= (uint8_t)mask;
    }
    return lost;
}

/* The Iub frames that were sent arrive. */
static void arrive(const char *way, dch_handle *node) {
    iub iubs[8];
    int count = sent.count;
    memcpy(iubs, sent.iubs, sizeof iubs);
    sent.count = 0;
    for (int i = 0; i < count; i++) {
        if (!spoil_iub(way, &iubs[i])) { CHECK(dch_node_iub(node, iubs[i].set, iubs[i].octets, iubs[i].len) == DCH_DONE); pull(node); }
        free(iubs[i].octets);
    }
}

/* The radio frame that was sent arrives, or is missing. */
static void arrive_phy(const char *way, dch_handle *node) {
    CHECK((spoil_phy(way) ? dch_node_miss(node) : dch_node_phy(node, sent.tfci, sent.bits, sent.cells, sent.places)) == DCH_DONE);
    sent.is_phy = 0;
    pull(node);
}

/* A radio frame passes at all nodes. */
static void pass(void) {
    for (int i = 0; i < 3; i++) { uint8_t status = dch_node_change(&nodes[i]); CHECK(status == DCH_DONE || status == DCH_NOT_DUE); pull(&nodes[i]); }
    sent.is_phy = 0;
    CHECK(dch_node_tick(&nodes[RNC]) == DCH_DONE); pull(&nodes[RNC]);
    arrive("down", &nodes[NODE_B]);
    CHECK(dch_node_down(&nodes[NODE_B]) == DCH_DONE); pull(&nodes[NODE_B]);
    arrive_phy("down", &nodes[UE]);
    CHECK(dch_node_tick(&nodes[UE]) == DCH_DONE); pull(&nodes[UE]);
    arrive_phy("up", &nodes[NODE_B]);
    arrive("up", &nodes[RNC]);
    damages = 0;
}

/* A line of link: of one node, damage, or radio frames that pass. */
static uint8_t happen_linked(char *line, int *frames) {
    char way[8], event[8], *rest;
    int at = 0, count = 1;
    if (!strncmp(line, "frame", 5)) {
        if (line[5]) count = (int)strtol(line + 6, &rest, 10);
        for (; count > 0; count--, ++*frames) pass();
        return DCH_DONE;
    }
    if (sscanf(line, "%7s %7s %n", event, way, &at) == 2 && (!strcmp(event, "unit") || !strcmp(event, "block") || !strcmp(event, "free"))) {
        if (strcmp(way, "up") && strcmp(way, "down")) return DCH_BAD_CODE;
        dch_handle *node = &nodes[!strcmp(way, "up") ? UE : RNC];
        char plain[1 << 14];
        snprintf(plain, sizeof plain, "%s %s", event, line + at);
        uint8_t status = happen(node, plain, frames);
        if (status == DCH_DONE) pull(node);
        return status;
    }
    CHECK(damages < 2000 && strlen(line) < sizeof damage[0]);
    strcpy(damage[damages++], line);
    return DCH_DONE;
}

/* Leaves out the lines `false`, which no node tells. */
static size_t without_false(char *lines) {
    char *to = lines;
    for (char *from = lines, *end; *from; from = end) {
        end = strchr(from, '\n');
        end = end ? end + 1 : from + strlen(from);
        if (strncmp(from, "false ", 6)) { memmove(to, from, (size_t)(end - from)); to += end - from; }
    }
    *to = 0;
    return (size_t)(to - lines);
}

/* A case, and how many lines of it were taken; -1 of another command. */
static int run(const char *command, const char *name) {
    static const opens all_opens[] = {dch_rnc_open, dch_ue_open, dch_nodeb_open};
    int is_link = !strcmp(command, "link"), count = is_link ? 3 : 1;
    dch_refusal refusal;
    char words[60];
    load_words(name);
    if (is_of_another(command)) return -1;
    size_t len = load(name, ".in", text);
    if (!len) len = load(name, ".txt", text);
    load(name, ".out", wanted);
    size_t all = without_false(wanted);
    int start = word_of("--start "), frames = 0, taken = 0;
    if (len >= 4 && !strcmp(text + len - 4, "\n---")) text[len -= 3] = 0;
    char *script = strncmp(text, "---\n", 4) ? strstr(text, "\n---\n") : text;
    size_t config = script ? (size_t)(script - text) + (script != text) : len;
    quiet = word_of("--quiet") >= 0;
    damages = 0;
    given_len = 0;
    given[0] = 0;
    uint8_t status = DCH_DONE;
    for (int i = 0; i < count; i++) {
        opens open = is_link ? all_opens[i] : opener(command);
        status = open(&nodes[i], (uint8_t *)text, config, (uint8_t)(start < 0 ? 0 : 8 * start), why, sizeof why, &refusal);
        if (status == DCH_REFUSED) {
            int same = !nodes[i].is_open && refusal.length == all && !memcmp(why, wanted, all);
            if (!same) printf("%s: is refused\n", name);
            CHECK(same);
            return 0;
        }
        CHECK(status == DCH_DONE);
    }
    say("open\n");
    for (char *at = script ? text + config + 4 : text + len; status == DCH_DONE && *at; ) {
        char *end = strchr(at, '\n');
        int is_refused = !strncmp(wanted + given_len, "refused 50", 10), is_of_node = !strncmp(at, "unit ", 5) || !strncmp(at, "block ", 6) || !strncmp(at, "free ", 5);
        if (!end || (is_link && is_refused && !is_of_node)) { status = DCH_BAD_CODE; break; }
        *end = 0;
        if (*at) {
            status = is_link ? happen_linked(at, &frames) : happen(&nodes[0], at, &frames);
            taken += status == DCH_DONE;
            if (status == DCH_DONE) pull(&nodes[0]);
        }
        at = end + 1;
    }
    if (status == DCH_DONE) { snprintf(words, sizeof words, "end frames=%d\n", frames); say(words); }
    int same = status == DCH_DONE ? all == given_len && !memcmp(given, wanted, all) : all > given_len && !memcmp(given, wanted, given_len) && !strncmp(wanted + given_len, "refused 50 line=", 16);
    if (!same) printf("%s: status %d\n", name, status);
    CHECK(same);
    for (int i = 0; i < count; i++) dch_close(&nodes[i]);
    for (; sent.count; sent.count--) free(sent.iubs[sent.count - 1].octets);
    return taken;
}

static void statuses(void) {
    dch_handle rnc = {0}, ue = {0}, nodeb = {0}, other = {0};
    dch_refusal refusal = {7, 7};
    dch_told told = {7, 7, 7, 7, 7, 7};
    size_t len = load("examples/speech", ".toml", text);
    uint8_t bits[5001], tfci[30];
    const uint8_t *config = (uint8_t *)text;
    memset(bits, '1', sizeof bits);
    memset(tfci, '0', sizeof tfci);
    CHECK(dch_node_unit(&rnc, 0, octets, 1) == DCH_CLOSED && dch_next(&rnc, &told, out, 9) == DCH_CLOSED && told.kind == 7);
    CHECK(dch_rnc_open(&rnc, config, len, 4, why, sizeof why, &refusal) == DCH_BAD_CODE && refusal.number == 7 && !rnc.is_open);
    CHECK(dch_rnc_open(&rnc, config, 9, 0, why, 4, &refusal) == DCH_SHORT && refusal.length > 4 && !rnc.is_open);
    CHECK(dch_rnc_open(&rnc, config, 9, 0, why, refusal.length, &refusal) == DCH_REFUSED && !memcmp(why, "refused 1", 9));
    CHECK(dch_rnc_open(&rnc, config, len, 248, why, 0, &refusal) == DCH_DONE && dch_ue_open(&rnc, config, len, 0, why, 0, &refusal) == DCH_BUSY);
    CHECK(dch_ue_open(&ue, config, len, 0, why, 0, &refusal) == DCH_DONE && dch_nodeb_open(&nodeb, config, len, 0, why, 0, &refusal) == DCH_DONE);
    CHECK(dch_decoder_open(&other, 9) == DCH_DONE && dch_node_tick(&other) == DCH_OTHER_KIND && dch_next(&other, &told, out, 9) == DCH_OTHER_KIND);
    CHECK(dch_node_tick(&nodeb) == DCH_OTHER_KIND && dch_node_unit(&nodeb, 0, octets, 1) == DCH_OTHER_KIND && dch_node_down(&ue) == DCH_OTHER_KIND);
    CHECK(dch_node_iub(&ue, 0, octets, 1) == DCH_OTHER_KIND && dch_node_phy(&rnc, tfci, 30, bits, 0) == DCH_OTHER_KIND && dch_node_miss(&rnc) == DCH_OTHER_KIND);
    CHECK(dch_channels_miss(&rnc, 0, 0) == DCH_OTHER_KIND && dch_decoder_nearest(&ue, 2, &(dch_vote){0, 0}, 0, 0, bits, 1, &(uint32_t){0}) == DCH_OTHER_KIND);
    CHECK(dch_node_unit(&rnc, 99, octets, 1) == DCH_BAD_CODE && dch_node_unit_bits(&rnc, 99, bits, 1) == DCH_BAD_CODE);
    for (uint8_t b = 0; b < 16; b++) CHECK(dch_node_unit_bits(&rnc, b, bits, 5001) != DCH_DONE);
    CHECK(dch_node_block(&rnc, 999, 1) == DCH_BAD_CODE && dch_node_block(&rnc, 0, 2) == DCH_BAD_CODE && dch_node_iub(&rnc, 99, octets, 1) == DCH_BAD_CODE);
    CHECK(dch_node_phy(&ue, tfci, 29, bits, 0) == DCH_BAD_SIZE && dch_node_phy(&nodeb, tfci, 30, out, 57601) == DCH_BAD_SIZE);
    bits[3] = 'x';
    CHECK(dch_node_phy(&ue, tfci, 30, bits, 9) == DCH_BAD_LETTER && dch_node_change(&ue) == DCH_NOT_DUE);
    CHECK(dch_next(&ue, &told, out, 9) == DCH_NOTHING && told.kind == 7);
    CHECK(dch_node_tick(&ue) == DCH_DONE && dch_node_tick(&ue) == DCH_QUEUE_FULL && dch_node_unit(&ue, 99, octets, 1) == DCH_QUEUE_FULL);
    CHECK(dch_next(&ue, &told, out, 9) == DCH_SHORT && told.kind == DCH_PHY && told.tfci == 30 && told.length == 30);
    CHECK(dch_next(&ue, &told, out, 30) == DCH_DONE && dch_next(&ue, &told, out, 30) == DCH_NOTHING && dch_node_tick(&ue) == DCH_DONE);
    dch_close(&rnc); dch_close(&ue); dch_close(&nodeb); dch_close(&other);
    CHECK(dch_node_tick(&ue) == DCH_CLOSED);
}

int main(int count, char **words) {
    if (count < 2) { statuses(); return 0; }
    int cases = 0, taken = 0;
    for (int i = 2; i < count; i++) {
        int lines = run(words[1], words[i]);
        cases += lines >= 0;
        taken += lines > 0 ? lines : 0;
    }
    printf("%d cases of %s told the same, with %d lines\n", cases, words[1], taken);
}
