/* The proved operations of crates/card_api, for firmware, bus viewers and panels in C and C++.
 *
 * What an operation promises: it takes any operands and always returns; it answers 0 where it was accepted, else the number of a
 * refusal (card_new, map_new: nothing; card_is_late: 0 or 1); and a refusal leaves table, map and every buffer as they
 * were. card_look, card_inbox, card_read_out and all with a const table or map change no word of it.
 *
 * What the caller owes, since nothing here can test it:
 *  - Every pointer is valid for as many words as its parameter says, aligned as uint64_t is, and no two of a call overlap. That of a
 *    text is valid for as many bytes as the number after it says, wherever they begin; where that is 0 it may be NULL.
 *  - One caller at a time for one table or map: an interrupt or thread that calls for it meanwhile must be kept out.
 *  - A table came from card_new and a map from map_new, and no other code has written into them since.
 *  - card_tick is called once a millisecond; each frame that left is put on the bus, or card_fail says that it could not be;
 *    each frame that comes in is handed over by card_foreign.
 *
 * Data is one number of eight bytes, the first byte highest. Bytes past the length are ignored in what goes in, and are 0 in what
 * comes out. c/constants holds the numbers below to the proved sources. Link with crates/card_api/out/libcard_api.a,
 * which `rt lib` writes in crates/card_api.
 */
#ifndef CARD_H
#define CARD_H
#include <stddef.h>
#include <stdint.h>

#ifdef __cplusplus
extern "C" {
#endif

/* The words of a table. How they are laid out is no caller's business: card_look, card_inbox and card_read_out show what they hold,
 * and card_choose goes by the mark, which nothing else shows. */
#define CARD_WORDS 1928

/* The words of a map of foreign aliases. */
#define MAP_WORDS 65

/* The nodes of a table have the indexes 0 to 23, and an inbox has the places 0 to 31. */
#define CARD_NODES 24
#define CARD_INBOX 32

/* In place of an index, from card_choose: no node has a due frame. As an index it is refused by 1. */
#define CARD_NOBODY 24

/* The entries that a map has room for. */
#define MAP_ENTRIES 64

/* The refusals of documents 01 and 02. 10 and 11 are given by the program `segment` alone. */
enum {
    CARD_REFUSED_BAD_INDEX = 1,        /* the index is above 23 */
    CARD_REFUSED_OFF = 2,              /* the node is Off */
    CARD_REFUSED_BAD_NODE_ID = 3,      /* the Node ID is 0 or has more than 48 bits */
    CARD_REFUSED_NOTHING_DUE = 4,      /* the node has no due frame */
    CARD_REFUSED_INBOX_FULL = 5,       /* an inbox that the frame would join is full */
    CARD_REFUSED_INBOX_EMPTY = 6,      /* the inbox is empty, or has no frame at that place */
    CARD_REFUSED_NOT_PERMITTED = 7,    /* the node is not Permitted */
    CARD_REFUSED_HOST_WAITING = 8,     /* a host frame waits already */
    CARD_REFUSED_MALFORMED = 9,        /* an operand is out of range */
    CARD_REFUSED_UNKNOWN = 10,         /* the command is unknown */
    CARD_REFUSED_CUT_SHORT = 11,       /* the script ends within the command */
    CARD_REFUSED_FULL = 12,            /* the map is full: 64 other entries remain */
    CARD_REFUSED_ABSENT = 13,          /* the map has no such entry */
    CARD_REFUSED_BAD_LINK_STATE = 14,  /* the link state is above 2 */
    CARD_REFUSED_NODE_ID_IN_USE = 15,  /* the Node ID is in use at another index */
    CARD_REFUSED_NOT_GRIDCONNECT = 16, /* the text is no GridConnect frame, or its header has more than 29 bits */
    CARD_REFUSED_SHORT_BUFFER = 17,    /* the text is longer than the room for it */
    CARD_REFUSED_BAD_START = 18        /* the flag is above 1, or it is 1 and the state has more than 48 bits */
};

/* COMMANDS, as documents 01 and 02 have them. The refusals of each are tested in the order given. */

/* All nodes Off. */
void card_new(uint64_t table[CARD_WORDS]);

/* 1 where a frame has stood in an inbox, or a reply RID or an AMR has waited, for more than 40 ticks since card_new; else 0.
 * While it is 0 no two nodes use one alias. That holds as well, whatever this answers, while no frame has stood for more than i
 * ticks and no reply RID or AMR has waited for more than o, for any i and o with 2i + o and i + 2o at most 200. No operation
 * gives these two: a caller with other limits than 40 counts for itself, by the commands that it gives and their answers, and by
 * card_look after each. */
uint64_t card_is_late(const uint64_t table[CARD_WORDS]);

/* The node starts anew with this Node ID, whatever it did before. 1, 3, 15. The last says that a node at another index, in any
 * state but Off, has this Node ID: card_look finds it. The node at this index then runs on as it was, with its inbox, or stays Off.
 * The Node ID that it had itself does not count. */
uint64_t card_power_on(uint64_t table[CARD_WORDS], size_t index, uint64_t id);

/* As card_power_on, with what card_read_out gave before the power was off: its past as the flag, and its state. 1, 3, 15, 18.
 * Flag 1: the node starts with the alias that is drawn from the state, the exclusive-or of its four parts of 12 bits, or 1 where
 * that is 0. It is the one that the node had. Flag 0: the node starts as by card_power_on, with the first alias of its Node ID, and
 * the state is ignored, whatever it is. Either alias is tested in full, by four CIDs, wait and RID; where another has it by then,
 * the node takes the next of its generator. A flag above 1 is refused by 18, tested last, and so is a state above 48 bits with
 * flag 1. */
uint64_t card_warm_on(uint64_t table[CARD_WORDS], size_t index, uint64_t id, uint8_t flag, uint64_t state);

/* The node's due frame leaves: put it on the bus. It joins the inboxes of the other nodes by itself. 1, 2, 4, 5. */
uint64_t card_send(uint64_t table[CARD_WORDS], size_t index, uint64_t sent[3]);

/* The places of `sent`. */
enum { CARD_SENT_HEADER, CARD_SENT_LEN, CARD_SENT_BYTES, CARD_SENT_WORDS };

/* The due frame could not be sent. 1, 2, 4. */
uint64_t card_fail(uint64_t table[CARD_WORDS], size_t index);

/* The node takes the oldest frame from its inbox and acts on it. 1, 2, 6. */
uint64_t card_deliver(uint64_t table[CARD_WORDS], size_t index);

/* A millisecond has passed. Never refused. */
uint64_t card_tick(uint64_t table[CARD_WORDS]);

/* A frame of other equipment came. kind: 0 extended, 1 extended remote, 2 eleven-bit. 9, 5. */
uint64_t card_foreign(uint64_t table[CARD_WORDS], uint8_t kind, uint32_t header, uint8_t len, uint64_t bytes);

/* The host orders a message. 1, 2, 9, 7, 8. */
uint64_t card_message(uint64_t table[CARD_WORDS], size_t index, uint16_t field, uint8_t len, uint64_t bytes);

/* The host orders an enquiry: of length 0 for all nodes, of length 6 for the one with this Node ID. 1, 2, 9, 7, 8. */
uint64_t card_enquiry(uint64_t table[CARD_WORDS], size_t index, uint8_t len, uint64_t bytes);

/* The node shall give up its alias. 1, 2, 7. */
uint64_t card_release(uint64_t table[CARD_WORDS], size_t index);

/* The host tells the node the state of its CAN link. A Permitted node reports most changes: an error report waits. 1, 2, 14. */
uint64_t card_link(uint64_t table[CARD_WORDS], size_t index, uint8_t state);

/* The link states. A node starts with the first at power-on, and keeps the one that it was told until then. */
enum { CARD_LINK_ERROR_ACTIVE, CARD_LINK_ERROR_PASSIVE, CARD_LINK_BUS_OFF };

/* Who sends next, where all nodes share one CAN controller: the first node with a due frame after the one chosen last, wrapping
 * past 23, so that the one chosen last is looked at last. A due frame counts also where card_send would refuse it by 5. Gives the
 * node's index, or CARD_NOBODY. It sends nothing: call card_send for that node. Never refused.
 * The table keeps a mark, the node chosen last, at first 23. It moves by every choice that names a node, whatever card_send then
 * answers, and by nothing else but card_new; card_power_on and card_warm_on leave it. So a node that has a due frame at each of 24
 * choices is named by one of them, whatever the others queue or receive and whatever is called between these. */
uint64_t card_choose(uint64_t table[CARD_WORDS], uint64_t chosen[1]);

/* Gives what card_warm_on takes, to be kept with the Node ID while the power is off: the state of the node's generator, and whether
 * its first alias is past. It is past once the generator has stepped since power-on, as at every restart, or where the power-on was
 * by card_warm_on with flag 1. 1, 2. */
uint64_t card_read_out(const uint64_t table[CARD_WORDS], size_t index, uint64_t out[2]);

/* The places of `out`. */
enum {
    CARD_OUT_STATE, /* the generator's state, of 48 bits */
    CARD_OUT_PAST,  /* 1 where the first alias is past, else 0 */
    CARD_OUT_WORDS
};

/* LOOKING */

/* What is seen of a node. 1. */
uint64_t card_look(const uint64_t table[CARD_WORDS], size_t index, uint64_t seen[12]);

/* The places of `seen`. The last four words are 0. */
enum {
    CARD_SEEN_STATE,      /* one of the states below */
    CARD_SEEN_ID,         /* the Node ID, 0 where Off */
    CARD_SEEN_ALIAS,      /* the alias in test or in use, 0 where neither */
    CARD_SEEN_DUE,        /* 1 where a frame is due, else 0, and so are the three words of the frame: */
    CARD_SEEN_DUE_HEADER, /* its header */
    CARD_SEEN_DUE_LEN,    /* its length */
    CARD_SEEN_DUE_BYTES,  /* its data */
    CARD_SEEN_INBOX,      /* how many frames the inbox has */
    CARD_SEEN_WORDS = 12
};

enum {
    CARD_STATE_OFF,
    CARD_STATE_TESTING, /* asks for its alias */
    CARD_STATE_RESERVED,
    CARD_STATE_PERMITTED, /* up: it may send messages under its alias */
    CARD_STATE_LEAVING,   /* still uses its alias, until its AMR has left */
    CARD_STATE_RESTING,   /* released */
    CARD_STATE_SILENT     /* another has its Node ID */
};

/* A frame of the node's inbox, at place 0 the oldest. 1, 6. */
uint64_t card_inbox(const uint64_t table[CARD_WORDS], size_t index, size_t place, uint64_t frame[4]);

/* The places of `frame`. */
enum { CARD_FRAME_KIND, CARD_FRAME_HEADER, CARD_FRAME_LEN, CARD_FRAME_BYTES, CARD_FRAME_WORDS };

/* THE MAP of foreign aliases: which Node ID stands behind an alias that was seen on the bus. */

/* No entry. */
void map_new(uint64_t map[MAP_WORDS]);

/* A frame was seen on the bus: an AMD makes an entry, an AMR removes one. Operands as in card_foreign. 9, 12. */
uint64_t map_note(uint64_t map[MAP_WORDS], uint8_t kind, uint32_t header, uint8_t len, uint64_t bytes);

/* The Node ID of an alias, and how many entries were compared. 13. */
uint64_t map_id_of(const uint64_t map[MAP_WORDS], uint16_t alias, uint64_t found[2]);

/* The alias of a Node ID, and how many entries were compared. 13. */
uint64_t map_alias_of(const uint64_t map[MAP_WORDS], uint64_t id, uint64_t found[2]);

/* The places of `found`. A look-up compares from the oldest entry on and ends at its hit: the count is the hit's place from the
 * oldest, which is 1. Where the entry is absent there is no count. */
enum { MAP_FOUND_VALUE, MAP_FOUND_COMPARED, MAP_FOUND_WORDS };

/* HEADERS AND ALIASES, as the standard has them */

/* The header of a frame. bit: bit 28, 0 or 1; nodes send 1. type: 0 control, 1 message. 9. */
uint64_t lcc_write_header(uint8_t bit, uint8_t type, uint16_t field, uint16_t alias, uint64_t header[1]);

/* What a header says, bit 28 as it came. Writing it back with that bit gives the same header, or 9 where its alias is 0. 9. */
uint64_t lcc_read_header(uint32_t header, uint64_t parts[7]);

/* The places of `parts`. */
enum {
    LCC_PARTS_TYPE,
    LCC_PARTS_FIELD,
    LCC_PARTS_ALIAS,
    LCC_PARTS_KIND,    /* one of the kinds below */
    LCC_PARTS_NUMBER,  /* of a CID or an error report, else 0 */
    LCC_PARTS_SECTION, /* of a CID: a part of the Node ID, else 0 */
    LCC_PARTS_BIT,     /* bit 28: some equipment sends 0; nodes and map do the same by both */
    LCC_PARTS_WORDS
};

enum {
    LCC_KIND_CID,
    LCC_KIND_RID,
    LCC_KIND_AMD,
    LCC_KIND_AME,
    LCC_KIND_AMR,
    LCC_KIND_ERROR_REPORT,
    LCC_KIND_RESERVED,
    LCC_KIND_MESSAGE
};

/* The first alias of a Node ID. 3. */
uint64_t lcc_first_alias(uint64_t id, uint64_t alias[1]);

/* The generator's next state and the alias drawn from it; the state starts at the Node ID. 9. */
uint64_t lcc_next_alias(uint64_t state, uint64_t next[2]);

/* The places of `next`. */
enum { LCC_NEXT_STATE, LCC_NEXT_ALIAS, LCC_NEXT_WORDS };

/* GRIDCONNECT TEXT, as bus viewers exchange it. An extended frame that is not remote is `:X`, eight hex digits of header, `N`, two
 * digits for each of 0 to 8 data bytes, `;`, and nothing else: no blank, no line end, no 0 behind it. */

/* The longest text, that of eight data bytes: 12 + 2 * 8. A buffer of so many bytes has room for every frame. */
#define GRID_TEXT_MAX 28

/* Writes a frame as text, in upper case, and gives the text's length. header: 29 bits at most. len: 0 to 8. Room for exactly the
 * text is enough; what the buffer has beyond the text stays as it was. 9, 17. */
uint64_t grid_write(uint8_t *text, size_t room, uint32_t header, uint8_t len, uint64_t bytes, uint64_t written[1]);

/* Reads a text of this length; its hex digits may be in either case. The header keeps all 29 bits, and its alias may be 0. 16. */
uint64_t grid_read(const uint8_t *text, size_t length, uint64_t frame[3]);

/* The places of `frame`, which card_foreign and map_note take with kind 0. */
enum { GRID_FRAME_HEADER, GRID_FRAME_LEN, GRID_FRAME_BYTES, GRID_FRAME_WORDS };

#ifdef __cplusplus
}
#endif

#endif
