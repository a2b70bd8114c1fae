/* dch: the user plane of a dedicated channel (DCH) in UTRA FDD, Release 99, as a library for C.

   Units. A bit is an octet '0' or '1'. A length counts the octets of its buffer, so bits.

   Statuses. Each call that can fail answers a number of enum dch_status. With another status than DCH_DONE nothing
   changed, neither behind the handle nor in what a call writes, but for what the call itself says below.

   What the caller upholds, since no call can check it:
   - A handle is all zero (dch_handle handle = {0}) before it is first opened. After that it is as a call left it: it is
     never copied and never written.
   - One call at a time uses a handle. Two handles have nothing in common.
   - A pointer is not null, also where its length is 0, and has as many octets as its length says. What a call writes
     overlaps nothing else that it is passed.
   - Nothing calls in from a signal handler. */
#ifndef DCH_H
#define DCH_H
#include <stdbool.h>
#include <stddef.h>
#include <stdint.h>
#ifdef __cplusplus
extern "C" {
#endif

enum dch_status {
    DCH_DONE = 0,
    DCH_NO_MEMORY = 1,       /* memory was wanted and not found */
    DCH_BUSY = 2,            /* a handle that is to be opened is open */
    DCH_CLOSED = 3,          /* the handle is closed, or was never opened */
    DCH_OTHER_KIND = 4,      /* the handle is of another kind */
    DCH_BAD_CODE = 5,        /* a number that stands for nothing: no parity, code, TFCI, direction, channel, .. */
    DCH_BAD_SIZE = 6,        /* a length that doesn't fit the other arguments */
    DCH_BAD_LETTER = 7,      /* a bit that is neither '0' nor '1', or a cell that is neither of them nor '-' */
    DCH_REFUSED = 8,         /* a configuration is refused, and the call tells why */
    DCH_SHORT = 9,           /* what is to be written is longer than its buffer */
    DCH_NOT_LOADED = 10,     /* what is loaded of a channel has another format than the combination wants */
    DCH_BAD_TTI = 11,        /* a radio frame of the TTI is missing, or has another format for the channel */
    DCH_QUEUE_FULL = 12,     /* what the node told of the event before is not pulled yet */
    DCH_NOTHING = 13,        /* all that the node told is pulled */
    DCH_NOT_DUE = 14         /* no second configuration is to become active now */
};

/* A direction: from the terminal to the network, or back. */
enum dch_direction {
    DCH_UP = 0,
    DCH_DOWN = 1
};

/* A handle of any kind: a decoder, the transport channels of a configuration, or a node. */
typedef struct dch_handle {
    bool is_open;
    void *at;
} dch_handle;

/* Closes a handle of any kind, and gives its memory back. A closed one stays closed. */
void dch_close(dch_handle *handle);

/* ---- The coder (TS 25.212 4.2.1 to 4.2.3, 4.3.3) ---- */

/* Writes a transport block and behind it its parity, last bit first (TS 25.212 4.2.1).
   parity_bits: 0, 8, 12, 16 or 24. out_len = block_len + parity_bits.
   DCH_BAD_CODE: no such parity. DCH_BAD_SIZE: out has another length. DCH_BAD_LETTER, DCH_NO_MEMORY. */
uint8_t dch_parity_attach(uint8_t parity_bits, const uint8_t *block, size_t block_len, uint8_t *out, size_t out_len);

/* Whether a block ends with the parity of the bits before it: *is_good becomes 1 or 0 (TS 25.212 4.2.1).
   DCH_BAD_CODE: no such parity. DCH_BAD_SIZE: fewer bits than the parity has. DCH_BAD_LETTER, DCH_NO_MEMORY. */
uint8_t dch_parity_check(uint8_t parity_bits, const uint8_t *attached, size_t attached_len, uint8_t *is_good);

/* Into how many code blocks bits are cut, the bits of each, and how many zeros of filler the first one begins with. */
typedef struct dch_cut {
    size_t blocks;
    size_t size;
    size_t filler;
} dch_cut;

/* Cuts the joined bits of a TTI into code blocks, which follow one another in out (TS 25.212 4.2.2.2).
   outputs: the coded bits of a bit: 1 without a code, 2 or 3. out_len = cut->blocks * cut->size.
   *cut is written wherever the code is one and joined_len at most 2^31, also with another status than DCH_DONE. So a
   call with out_len 0 tells how much room is wanted. DCH_BAD_CODE: no such code. DCH_BAD_LETTER, DCH_NO_MEMORY. */
uint8_t dch_blocks_cut(uint8_t outputs, const uint8_t *joined, size_t joined_len, uint8_t *out, size_t out_len,
                       dch_cut *cut);

/* Joins such code blocks again, and leaves the filler out: out_len is the number of joined bits.
   DCH_BAD_CODE: no such code. DCH_BAD_SIZE: so many bits are cut into blocks of another length in all, or are more than
   2^31. DCH_BAD_LETTER, DCH_NO_MEMORY. */
uint8_t dch_blocks_join(uint8_t outputs, const uint8_t *blocks, size_t blocks_len, uint8_t *out, size_t out_len);

/* Encodes a code block of 1 to 504 bits by the convolutional code of rate 1/2 or 1/3 (TS 25.212 4.2.3.1).
   outputs: 2 or 3. out_len = outputs * (block_len + 8).
   DCH_BAD_CODE: no such rate. DCH_BAD_SIZE: another length. DCH_BAD_LETTER, DCH_NO_MEMORY. */
uint8_t dch_code(uint8_t outputs, const uint8_t *block, size_t block_len, uint8_t *out, size_t out_len);

/* The TFCI word of an index below 1024: bit i of *word, from the lowest, is output bit b_i (TS 25.212 4.3.3).
   DCH_BAD_CODE: a greater index. */
uint8_t dch_tfci_word(uint16_t index, uint32_t *word);

/* The index whose 30 or 120 bits are nearest to the received ones, the least of several, and how many bits differ
   (TS 25.212 4.3.3, 4.3.5). DCH_BAD_SIZE: another length. DCH_BAD_LETTER, DCH_NO_MEMORY. */
uint8_t dch_tfci_nearest(const uint8_t *received, size_t received_len, uint16_t *index, uint16_t *distance);

/* ---- The decoder (TS 25.212 4.2.3.1) ---- */

/* The received copies of a coded bit: how many are '0', and how many '1'. */
typedef struct dch_vote {
    uint32_t zeros;
    uint32_t ones;
} dch_vote;

/* Opens a decoder for code blocks of up to `most` bits, at most 504. It takes all its memory now.
   DCH_BUSY, DCH_BAD_SIZE: most is above 504. DCH_NO_MEMORY. */
uint8_t dch_decoder_open(dch_handle *handle, size_t most);

/* The code block with so many zeros of filler in front whose coded bits disagree with the fewest copies, the first in
   text order of several; *copies is their number.
   outputs: 2 or 3. votes_len = outputs * (block_len + 8), in dch_vote. block_len: 1 to `most`. filler: at most
   block_len.
   DCH_CLOSED, DCH_OTHER_KIND, DCH_BAD_CODE: no such rate. DCH_BAD_SIZE: another length, or 2^31 copies or more. */
uint8_t dch_decoder_nearest(dch_handle *handle, uint8_t outputs, const dch_vote *votes, size_t votes_len, size_t filler,
                            uint8_t *block, size_t block_len, uint32_t *copies);

/* ---- Transport channels (TS 25.212 4.2) ---- */

/* Why a configuration is refused: its number (docs/FORMATS.md has them), and the length of its line. */
typedef struct dch_refusal {
    uint16_t number;
    size_t length;
} dch_refusal;

/* Opens the transport channels of a configuration, whose text is that of a file that `dch check` reads. All memory is
   taken now.
   DCH_BUSY, DCH_NO_MEMORY. DCH_REFUSED: *refusal tells why, and the line that `dch check` writes of it stands at the
   front of why, with its line feed. DCH_SHORT: it is refused, as *refusal tells, and its line is longer than why_len;
   why stays. */
uint8_t dch_channels_open(dch_handle *handle, const uint8_t *text, size_t text_len, uint8_t *why, size_t why_len,
                          dch_refusal *refusal);

/* A format of a channel: the radio frames of a TTI, how many transport blocks it has, and the bits of each of them. */
typedef struct dch_format {
    uint8_t frames;
    uint16_t blocks;
    uint16_t size;
} dch_format;

/* Tells a format of a channel.
   DCH_CLOSED, DCH_OTHER_KIND. DCH_BAD_CODE: no such direction, channel or format. */
uint8_t dch_channels_format(dch_handle *handle, uint8_t direction, uint8_t channel, uint8_t format, dch_format *told);

/* How many TFCI bits and how many cells the radio frames of a combination have (TS 25.212 4.2.7, 4.3.5).
   DCH_CLOSED, DCH_OTHER_KIND. DCH_BAD_CODE: no such direction or combination. */
uint8_t dch_channels_frame_size(dch_handle *handle, uint8_t direction, uint16_t combination, size_t *tfci_len,
                                size_t *cells_len);

/* Loads the transport blocks of a channel for its next TTI, one block after another: they get parity, are coded and
   interleaved (TS 25.212 4.2.1 to 4.2.5). They replace those that were loaded before.
   blocks_len: the number of blocks of the format times their size.
   DCH_CLOSED, DCH_OTHER_KIND. DCH_BAD_CODE: no such direction, channel or format. DCH_BAD_SIZE: another length.
   DCH_BAD_LETTER. */
uint8_t dch_channels_load(dch_handle *handle, uint8_t direction, uint8_t channel, uint8_t format, const uint8_t *blocks,
                          size_t blocks_len);

/* Writes the radio frame of a CFN in a combination (TS 25.212 4.2.6 to 4.2.12, 4.3.3): its TFCI bits, and its cells of
   '0', '1' and '-', in which nothing is sent. Of a TTI of F radio frames it carries that with the number CFN modulo F.
   Both lengths: as dch_channels_frame_size tells them.
   DCH_CLOSED, DCH_OTHER_KIND. DCH_BAD_CODE: no such direction or combination. DCH_BAD_SIZE: another length.
   DCH_NOT_LOADED: a channel has nothing loaded, or a format that is not that of the combination. */
uint8_t dch_channels_write(dch_handle *handle, uint8_t direction, uint8_t cfn, uint16_t combination, uint8_t *tfci,
                           size_t tfci_len, uint8_t *cells, size_t cells_len);

/* Takes the radio frame of a CFN that was received. The last 8 are held. A frame counts as missing where its TFCI names
   no combination of the list, or where it is not as long as the frames of that combination (TS 25.212 4.3.3).
   tfci_len: the TFCI bits of the direction. cells_len: at most those of the direction's longest frame.
   DCH_CLOSED, DCH_OTHER_KIND. DCH_BAD_CODE: no such direction. DCH_BAD_SIZE: another length. DCH_BAD_LETTER. */
uint8_t dch_channels_take(dch_handle *handle, uint8_t direction, uint8_t cfn, const uint8_t *tfci, size_t tfci_len,
                          const uint8_t *cells, size_t cells_len);

/* Takes that the radio frame of a CFN is missing.
   DCH_CLOSED, DCH_OTHER_KIND. DCH_BAD_CODE: no such direction. */
uint8_t dch_channels_miss(dch_handle *handle, uint8_t direction, uint8_t cfn);

/* What was read of a TTI: the format, how many blocks it has, and how many bits each of them. bad_frame is 0, and with
   DCH_BAD_TTI the first radio frame of the TTI, from 0, that is missing or has another format than frame 0. */
typedef struct dch_tti {
    uint8_t format;
    uint8_t bad_frame;
    size_t blocks;
    size_t size;
} dch_tti;

/* Reads the TTI of a channel that the last radio frame ends (TS 25.212 4.2, read backwards): the bits of its blocks,
   one block after another, at the front of blocks, and for each at the front of good 1 where its parity fits, else 0.
   DCH_CLOSED, DCH_OTHER_KIND. DCH_BAD_CODE: no such direction or channel. DCH_BAD_TTI: *tti tells the frame, and the
   rest of it stays. DCH_SHORT: *tti tells what was read, and blocks or good is shorter; both stay. */
uint8_t dch_channels_read(dch_handle *handle, uint8_t direction, uint8_t channel, uint8_t *blocks, size_t blocks_len,
                          uint8_t *good, size_t good_len, dch_tti *tti);

/* ---- Nodes: network controller, terminal and Node B ---- */

/* Opens a node. The text is that of a configuration as `dch check` reads it, and behind a line `--- N` maybe a second
   one that becomes active at radio frame N. The first radio frame has CFN first_cfn, a multiple of 8. All memory is
   taken now; that for what a node tells is touched only as far as it is used.
   DCH_BUSY. DCH_BAD_CODE: no such CFN. DCH_NO_MEMORY, DCH_REFUSED, DCH_SHORT: as dch_channels_open. */
uint8_t dch_rnc_open(dch_handle *handle, const uint8_t *text, size_t text_len, uint8_t first_cfn, uint8_t *why,
                     size_t why_len, dch_refusal *refusal);
uint8_t dch_ue_open(dch_handle *handle, const uint8_t *text, size_t text_len, uint8_t first_cfn, uint8_t *why,
                    size_t why_len, dch_refusal *refusal);
uint8_t dch_nodeb_open(dch_handle *handle, const uint8_t *text, size_t text_len, uint8_t first_cfn, uint8_t *why,
                       size_t why_len, dch_refusal *refusal);

/* The events. A network controller takes unit, unit_bits, block, iub, tick and change; a terminal unit, unit_bits,
   block, phy, miss, tick and change; a Node B iub, down, phy, miss and change. A call is one event, and the node tells
   what it does by values, which wait until they are pulled; no event is taken before all are.
   Of each: DCH_CLOSED. DCH_OTHER_KIND: the handle holds no node that takes this event. DCH_QUEUE_FULL. */

/* Offers a unit of octets to a bearer of acknowledged or unacknowledged mode (TS 25.322). One of no octets or more than
   1,500 is told as wrong. DCH_BAD_CODE: no such bearer, or it doesn't send in the node's direction, or takes bits. */
uint8_t dch_node_unit(dch_handle *handle, uint8_t bearer, const uint8_t *octets, size_t octets_len);

/* Offers a unit of bits to a transparent bearer (TS 25.322).
   DCH_BAD_CODE: no such bearer, or it doesn't send in the node's direction, or takes octets. DCH_BAD_SIZE: more than
   5,000 bits. DCH_BAD_LETTER. */
uint8_t dch_node_unit_bits(dch_handle *handle, uint8_t bearer, const uint8_t *bits, size_t bits_len);

/* Blocks a combination of the node's direction (on = 1), or frees it (on = 0) (TS 25.321).
   DCH_BAD_CODE: no such combination, or on is neither. */
uint8_t dch_node_block(dch_handle *handle, uint16_t combination, uint8_t on);

/* Takes an Iub frame of a set that comes (TS 25.427): of an uplink set at a network controller, of a downlink set at a
   Node B. DCH_BAD_CODE: no such set. */
uint8_t dch_node_iub(dch_handle *handle, uint8_t set, const uint8_t *frame, size_t frame_len);

/* Takes the radio frame of the CFN that comes, its TFCI bits and its cells of '0', '1' and '-' (TS 25.212), or that it
   is missing. At a Node B that passes 10 ms.
   tfci_len: the TFCI bits of the direction. cells_len: at most 57,600.
   DCH_BAD_SIZE: another length. DCH_BAD_LETTER. */
uint8_t dch_node_phy(dch_handle *handle, const uint8_t *tfci, size_t tfci_len, const uint8_t *cells, size_t cells_len);
uint8_t dch_node_miss(dch_handle *handle);

/* Takes that the downlink radio frame of the CFN is due. */
uint8_t dch_node_down(dch_handle *handle);

/* Takes that 10 ms have passed. */
uint8_t dch_node_tick(dch_handle *handle);

/* Makes the second configuration active (TS 25.331 8.2.2), once, when N radio frames have passed.
   DCH_NOT_DUE: there is none, or it is not that time. */
uint8_t dch_node_change(dch_handle *handle);

/* The kinds of what a node tells; number is the bearer, channel or set. docs/FORMATS.md has the same as words. */
enum dch_kind {
    DCH_TOOK = 0,       /* the bearer took the unit */
    DCH_FULL = 1,       /* its buffer has no room for it */
    DCH_WRONG = 2,      /* the unit has no length that the bearer sends */
    DCH_BAD = 3,        /* block `more` of the channel came with wrong parity */
    DCH_RESERVED = 4,   /* a block of the channel has the reserved C/T field */
    DCH_NO_BEARER = 5,  /* no bearer of the channel has the C/T field `more` */
    DCH_NOBODY = 6,     /* a block came on a channel that has no bearer */
    DCH_PDU_BAD = 7,    /* a PDU of the bearer is refused by cause `more` */
    DCH_OUTSIDE = 8,    /* a PDU of the bearer, or a number in a status, is outside the window */
    DCH_OVERLONG = 9,   /* a unit of more than 1,500 octets is dropped */
    DCH_GOT = 10,       /* a unit of octets is handed up */
    DCH_GOT_BITS = 11,  /* a unit of bits is handed up: letters */
    DCH_IUB = 12,       /* an Iub frame of the set is sent: octets */
    DCH_IUB_BAD = 13,   /* an Iub frame of the set is refused by cause `more` */
    DCH_PHY = 14,       /* a radio frame is sent: letters, first `tfci` of the TFCI bits and then the cells */
    DCH_PHY_NONE = 15,  /* no radio frame is sent */
    DCH_TTI_BAD = 16    /* a TTI of the channel can't be read, for its radio frame `more` */
};

/* What a node tells: its kind, the direction in which the data travels, and how many octets or letters it has. */
typedef struct dch_told {
    uint8_t kind;
    uint8_t direction;
    uint8_t number;
    uint8_t more;
    size_t tfci;
    size_t length;
} dch_told;

/* Pulls the next value, and writes its octets or letters at the front of out.
   DCH_CLOSED, DCH_OTHER_KIND. DCH_NOTHING: all are pulled. DCH_SHORT: *told tells the value, whose length is more than
   out_len; it waits on, and out stays. */
uint8_t dch_next(dch_handle *handle, dch_told *told, uint8_t *out, size_t out_len);

#ifdef __cplusplus
}
#endif
#endif
