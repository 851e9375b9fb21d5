/* A test: every operation of card.h, accepted and refused, with guard words before and behind every buffer. */
#include "card.h"
#include <ctype.h>
#include <inttypes.h>
#include <stdio.h>
#include <stdlib.h>
#include <string.h>

enum { GUARD = 16 };

/* The rooms that are tried for a text, and the words of its buffer, in which it can begin at any byte of a word. */
enum { ROOM_MAX = 40, TEXT_WORDS = ROOM_MAX / 8 + 1 };

/* A buffer of so many words between its guards, and what it held before the last call. */
struct guarded {
    size_t words;
    uint64_t all[GUARD + CARD_WORDS + GUARD];
    uint64_t before[GUARD + CARD_WORDS + GUARD];
};

static struct guarded table = {.words = CARD_WORDS}, sent = {.words = CARD_SENT_WORDS}, seen = {.words = CARD_SEEN_WORDS},
                      frame = {.words = CARD_FRAME_WORDS}, map = {.words = MAP_WORDS},
                      found = {.words = MAP_FOUND_WORDS}, one = {.words = 1}, parts = {.words = LCC_PARTS_WORDS},
                      next = {.words = LCC_NEXT_WORDS}, text = {.words = TEXT_WORDS},
                      grid = {.words = GRID_FRAME_WORDS}, out = {.words = CARD_OUT_WORDS};
static struct guarded *const BUFFERS[] = {&table, &sent, &seen, &frame, &map, &found, &one, &parts, &next, &text, &grid, &out};
static unsigned accepted, refused;

#define EACH(b) for (struct guarded *const *b = BUFFERS; b < BUFFERS + sizeof BUFFERS / sizeof *BUFFERS; b++)

static uint64_t *words(struct guarded *b) {
    return b->all + GUARD;
}

static void fail(const char *call, const char *what, uint64_t value) {
    printf("guards: %s: %s (%" PRIu64 ")\n", call, what, value);
    exit(1);
}

/* Guards are numbers that no operation writes. */
static uint64_t guard(size_t place) {
    return UINT64_C(0x9E3779B97F4A7C15) * (place + 1);
}

static void fill(struct guarded *b) {
    for (size_t i = 0; i < GUARD + CARD_WORDS + GUARD; i++)
        b->all[i] = guard(i);
}

static void check_guards(const char *call) {
    EACH(b)
        for (size_t i = 0; i < GUARD; i++) {
            size_t behind = GUARD + (*b)->words + i;
            if ((*b)->all[i] != guard(i))
                fail(call, "a word before a buffer has changed", i);
            if ((*b)->all[behind] != guard(behind))
                fail(call, "a word behind a buffer has changed", i);
        }
}

static void keep(void) {
    EACH(b) memcpy((*b)->before, (*b)->all, sizeof (*b)->all);
}

/* The buffer has not changed since `keep`. */
static void check_same(const char *call, const struct guarded *b) {
    if (memcmp(b->all, b->before, sizeof b->all) != 0)
        fail(call, "a buffer has changed", b->words);
}

static void check_accepted(const char *call, uint64_t answer) {
    check_guards(call);
    if (answer != 0)
        fail(call, "refused", answer);
    accepted++;
}

/* A refusal leaves every buffer as it was. */
static void check_refused(const char *call, uint64_t answer, uint64_t number) {
    check_guards(call);
    if (answer != number)
        fail(call, "answered by another number", answer);
    EACH(b) check_same(call, *b);
    refused++;
}

#define ACCEPTED(call) (keep(), check_accepted(#call, call))
#define REFUSED(number, call) (keep(), check_refused(#call, call, number))
#define EXPECT(value, wanted) ((value) == (uint64_t)(wanted) ? (void)0 : fail(#value, "is not " #wanted " but", value))

static const uint64_t ID = UINT64_C(0x050101010101);
static const size_t FAR = SIZE_MAX;

#define T words(&table)
#define SENT words(&sent)
#define SEEN words(&seen)
#define FRAME words(&frame)
#define M words(&map)
#define FOUND words(&found)
#define ONE words(&one)
#define PARTS words(&parts)
#define NEXT words(&next)
#define TEXT ((uint8_t *)words(&text))
#define GRID words(&grid)
#define OUT words(&out)

/* The node chosen last. */
static uint64_t last;

static void new_table(void) {
    card_new(T);
    check_guards("card_new");
    last = CARD_NODES - 1;
}

/* A choice. Of the table it changes one word at most, always the same one, which holds the mark, and none where nobody is named. Of
 * the other buffers it writes that of its answer alone, with an index or CARD_NOBODY. */
static void choose_any(void) {
    static size_t mark = SIZE_MAX;
    fill(&one);
    ACCEPTED(card_choose(T, ONE));
    if (ONE[0] > CARD_NOBODY)
        fail("card_choose", "names what is no node", ONE[0]);
    for (size_t i = 0; i < sizeof table.all / sizeof *table.all; i++)
        if (table.all[i] != table.before[i]) {
            if (ONE[0] == CARD_NOBODY || (mark != SIZE_MAX && mark != i))
                fail("card_choose", "a word of the table has changed that may not", i);
            mark = i;
        }
    EACH(b)
        if (*b != &table && *b != &one)
            check_same("card_choose", *b);
}

/* The first node with a due frame after the one chosen last, by what is seen of the nodes. */
static uint64_t first_due(void) {
    for (size_t i = 1; i <= CARD_NODES; i++) {
        const size_t index = (last + i) % CARD_NODES;
        uint64_t node[CARD_SEEN_WORDS];
        card_look(T, index, node);
        if (node[CARD_SEEN_DUE])
            return index;
    }
    return CARD_NOBODY;
}

/* A choice that names this node, or nobody. */
static void choose(uint64_t named) {
    choose_any();
    if (ONE[0] != named)
        fail("card_choose", "names another than it has to", ONE[0]);
    last = named == CARD_NOBODY ? last : named;
}

/* Looking changes no word of the table. A choice goes by what is seen. */
static void look_and_choose(size_t index) {
    ACCEPTED(card_look(T, index, SEEN));
    check_same("card_look", &table);
    for (int i = CARD_SEEN_INBOX + 1; i < CARD_SEEN_WORDS; i++)
        EXPECT(SEEN[i], 0);
    choose(first_due());
}

static void while_off(void) {
    new_table();
    REFUSED(CARD_REFUSED_OFF, card_send(T, 0, SENT));
    REFUSED(CARD_REFUSED_OFF, card_fail(T, 0));
    REFUSED(CARD_REFUSED_OFF, card_deliver(T, 0));
    REFUSED(CARD_REFUSED_OFF, card_message(T, 0, 0xFFFF, 255, 0));
    REFUSED(CARD_REFUSED_OFF, card_enquiry(T, 0, 255, 0));
    REFUSED(CARD_REFUSED_OFF, card_release(T, 0));
    REFUSED(CARD_REFUSED_OFF, card_link(T, 0, 255));
    REFUSED(CARD_REFUSED_INBOX_EMPTY, card_inbox(T, 0, 0, FRAME));
    for (size_t i = 0; i < CARD_NODES; i++)
        REFUSED(CARD_REFUSED_OFF, card_read_out(T, i, OUT));
    ACCEPTED(card_foreign(T, 2, 0x7FF, 8, UINT64_MAX));
    look_and_choose(23);
    for (int i = 0; i < CARD_SEEN_WORDS; i++)
        EXPECT(SEEN[i], 0);
    choose(CARD_NOBODY);
}

static void beyond_the_last(size_t index) {
    REFUSED(CARD_REFUSED_BAD_INDEX, card_power_on(T, index, 0));
    REFUSED(CARD_REFUSED_BAD_INDEX, card_warm_on(T, index, 0, 255, UINT64_MAX));
    REFUSED(CARD_REFUSED_BAD_INDEX, card_read_out(T, index, OUT));
    REFUSED(CARD_REFUSED_BAD_INDEX, card_send(T, index, SENT));
    REFUSED(CARD_REFUSED_BAD_INDEX, card_fail(T, index));
    REFUSED(CARD_REFUSED_BAD_INDEX, card_deliver(T, index));
    REFUSED(CARD_REFUSED_BAD_INDEX, card_message(T, index, 0xFFFF, 255, 0));
    REFUSED(CARD_REFUSED_BAD_INDEX, card_enquiry(T, index, 255, 0));
    REFUSED(CARD_REFUSED_BAD_INDEX, card_release(T, index));
    REFUSED(CARD_REFUSED_BAD_INDEX, card_link(T, index, 255));
    REFUSED(CARD_REFUSED_BAD_INDEX, card_look(T, index, SEEN));
    REFUSED(CARD_REFUSED_BAD_INDEX, card_inbox(T, index, FAR, FRAME));
}

static void malformed(void) {
    REFUSED(CARD_REFUSED_BAD_NODE_ID, card_power_on(T, 0, 0));
    REFUSED(CARD_REFUSED_BAD_NODE_ID, card_power_on(T, 0, UINT64_C(1) << 48));
    REFUSED(CARD_REFUSED_BAD_NODE_ID, card_power_on(T, 0, UINT64_MAX));
    REFUSED(CARD_REFUSED_MALFORMED, card_foreign(T, 3, 0, 0, 0));
    REFUSED(CARD_REFUSED_MALFORMED, card_foreign(T, 255, 0, 0, 0));
    REFUSED(CARD_REFUSED_MALFORMED, card_foreign(T, 0, UINT32_MAX, 0, 0));
    REFUSED(CARD_REFUSED_MALFORMED, card_foreign(T, 0, 0, 9, 0));
    REFUSED(CARD_REFUSED_MALFORMED, card_foreign(T, 1, 0, 1, 0));
    REFUSED(CARD_REFUSED_MALFORMED, card_foreign(T, 2, 0x800, 0, 0));
}

/* Looks. The Node ID that is seen is in use: at every other index a power-on with it is refused, be the node there on or Off. 1 and
 * 3 are tested before. */
static void look_in_use(size_t index) {
    look_and_choose(index);
    const uint64_t id = SEEN[CARD_SEEN_ID];
    for (size_t other = 0; other < CARD_NODES; other++)
        if (other != index) {
            REFUSED(CARD_REFUSED_NODE_ID_IN_USE, card_power_on(T, other, id));
            REFUSED(CARD_REFUSED_BAD_NODE_ID, card_power_on(T, other, id + (UINT64_C(1) << 48)));
        }
    REFUSED(CARD_REFUSED_BAD_INDEX, card_power_on(T, CARD_NODES, id));
    REFUSED(CARD_REFUSED_BAD_INDEX, card_power_on(T, FAR, id));
}

/* The last node of the table, from power-on to Permitted. */
static void bring_up(size_t index) {
    ACCEPTED(card_power_on(T, index, ID));
    ACCEPTED(card_fail(T, index));
    ACCEPTED(card_power_on(T, index, ID));
    look_in_use(index);
    EXPECT(SEEN[CARD_SEEN_STATE], CARD_STATE_TESTING);
    EXPECT(SEEN[CARD_SEEN_ID], ID);
    EXPECT(SEEN[CARD_SEEN_ALIAS], 0x263);
    EXPECT(SEEN[CARD_SEEN_DUE], 1);
    EXPECT(SEEN[CARD_SEEN_DUE_HEADER], 0x17050263);
    for (int i = 0; i < 4; i++)
        ACCEPTED(card_send(T, index, SENT));
    REFUSED(CARD_REFUSED_NOTHING_DUE, card_send(T, index, SENT));
    REFUSED(CARD_REFUSED_NOTHING_DUE, card_fail(T, index));
    REFUSED(CARD_REFUSED_NOT_PERMITTED, card_message(T, index, 0, 0, 0));
    REFUSED(CARD_REFUSED_NOT_PERMITTED, card_enquiry(T, index, 0, 0));
    REFUSED(CARD_REFUSED_NOT_PERMITTED, card_release(T, index));
    look_and_choose(index);
    EXPECT(SEEN[CARD_SEEN_DUE], 0);
    for (int i = 0; i < 201; i++)
        ACCEPTED(card_tick(T));
    ACCEPTED(card_send(T, index, SENT));
    EXPECT(SENT[CARD_SENT_HEADER], 0x10700263);
    EXPECT(SENT[CARD_SENT_LEN], 0);
    look_in_use(index);
    EXPECT(SEEN[CARD_SEEN_STATE], CARD_STATE_RESERVED);
    ACCEPTED(card_send(T, index, SENT));
    EXPECT(SENT[CARD_SENT_LEN], 6);
    EXPECT(SENT[CARD_SENT_BYTES], ID << 16);
    look_in_use(index);
    EXPECT(SEEN[CARD_SEEN_STATE], CARD_STATE_PERMITTED);
}

static void orders(size_t index) {
    REFUSED(CARD_REFUSED_MALFORMED, card_message(T, index, 0x8000, 0, 0));
    REFUSED(CARD_REFUSED_MALFORMED, card_message(T, index, 0, 9, 0));
    REFUSED(CARD_REFUSED_MALFORMED, card_enquiry(T, index, 255, 0));
    ACCEPTED(card_message(T, index, 0x7FFF, 8, UINT64_MAX));
    REFUSED(CARD_REFUSED_HOST_WAITING, card_message(T, index, 0, 0, 0));
    REFUSED(CARD_REFUSED_HOST_WAITING, card_enquiry(T, index, 0, 0));
    look_and_choose(index);
    EXPECT(SEEN[CARD_SEEN_DUE_LEN], 8);
    EXPECT(SEEN[CARD_SEEN_DUE_BYTES], UINT64_MAX);
    ACCEPTED(card_send(T, index, SENT));
    ACCEPTED(card_enquiry(T, index, 6, UINT64_MAX));
    ACCEPTED(card_send(T, index, SENT));
}

/* From one link state to another, and the header of the error report that is then due. */
static void reports(size_t index, uint8_t from, uint8_t to, uint64_t header) {
    ACCEPTED(card_link(T, index, from));
    ACCEPTED(card_link(T, index, to));
    look_and_choose(index);
    EXPECT(SEEN[CARD_SEEN_DUE_HEADER], header);
    EXPECT(SEEN[CARD_SEEN_DUE_LEN], 6);
    EXPECT(SEEN[CARD_SEEN_DUE_BYTES], ID << 16);
}

static void links(size_t index) {
    REFUSED(CARD_REFUSED_BAD_LINK_STATE, card_link(T, index, 3));
    REFUSED(CARD_REFUSED_BAD_LINK_STATE, card_link(T, index, 255));
    reports(index, CARD_LINK_ERROR_ACTIVE, CARD_LINK_ERROR_PASSIVE, 0x10710263);
    reports(index, CARD_LINK_BUS_OFF, CARD_LINK_ERROR_PASSIVE, 0x10711263);
    reports(index, CARD_LINK_ERROR_PASSIVE, CARD_LINK_ERROR_ACTIVE, 0x10712263);
    reports(index, CARD_LINK_BUS_OFF, CARD_LINK_ERROR_ACTIVE, 0x10713263);
    ACCEPTED(card_send(T, index, SENT));
    EXPECT(SENT[CARD_SENT_HEADER], 0x10713263);
    REFUSED(CARD_REFUSED_NOTHING_DUE, card_send(T, index, SENT));
    ACCEPTED(card_link(T, index, CARD_LINK_BUS_OFF));
    REFUSED(CARD_REFUSED_NOTHING_DUE, card_send(T, index, SENT));
}

/* Other equipment has the node's Node ID: the report is due, its data the eight bytes of A.2, and then the node is silent. */
static void duplicate(size_t index) {
    const uint64_t event = UINT64_C(0x0101000000000201);
    ACCEPTED(card_foreign(T, 0, UINT32_C(0x10701111), 6, ID << 16));
    ACCEPTED(card_deliver(T, index));
    look_and_choose(index);
    EXPECT(SEEN[CARD_SEEN_DUE_HEADER], 0x195B4263);
    EXPECT(SEEN[CARD_SEEN_DUE_LEN], 8);
    EXPECT(SEEN[CARD_SEEN_DUE_BYTES], event);
    ACCEPTED(card_send(T, index, SENT));
    EXPECT(SENT[CARD_SENT_HEADER], 0x195B4263);
    EXPECT(SENT[CARD_SENT_LEN], 8);
    EXPECT(SENT[CARD_SENT_BYTES], event);
    REFUSED(CARD_REFUSED_NOTHING_DUE, card_send(T, index, SENT));
    look_in_use(index);
    EXPECT(SEEN[CARD_SEEN_STATE], CARD_STATE_SILENT);
    EXPECT(SEEN[CARD_SEEN_ALIAS], 0);
}

/* 32 frames in every inbox of two nodes; then no more; each at its place; then one less. */
static void inboxes(size_t index) {
    ACCEPTED(card_power_on(T, 0, ID + 1));
    for (uint32_t i = 0; i < CARD_INBOX; i++)
        ACCEPTED(card_foreign(T, 2, i, 1, UINT64_MAX));
    REFUSED(CARD_REFUSED_INBOX_FULL, card_foreign(T, 0, 0, 0, 0));
    REFUSED(CARD_REFUSED_INBOX_FULL, card_send(T, 0, SENT));
    look_in_use(0);
    look_in_use(index);
    for (uint64_t i = 0; i < CARD_INBOX; i++) {
        ACCEPTED(card_inbox(T, index, i, FRAME));
        check_same("card_inbox", &table);
        EXPECT(FRAME[CARD_FRAME_KIND], 2);
        EXPECT(FRAME[CARD_FRAME_HEADER], i);
        EXPECT(FRAME[CARD_FRAME_LEN], 1);
        EXPECT(FRAME[CARD_FRAME_BYTES], UINT64_C(0xFF) << 56);
    }
    REFUSED(CARD_REFUSED_INBOX_EMPTY, card_inbox(T, index, CARD_INBOX, FRAME));
    REFUSED(CARD_REFUSED_INBOX_EMPTY, card_inbox(T, index, FAR, FRAME));
    ACCEPTED(card_deliver(T, index));
    ACCEPTED(card_inbox(T, index, 0, FRAME));
    EXPECT(FRAME[CARD_FRAME_HEADER], 1);
    look_and_choose(index);
    EXPECT(SEEN[CARD_SEEN_INBOX], CARD_INBOX - 1);
    while (card_deliver(T, index) == 0)
        check_guards("card_deliver");
    REFUSED(CARD_REFUSED_INBOX_EMPTY, card_deliver(T, index));
}

static void ends(size_t index) {
    ACCEPTED(card_release(T, index));
    look_in_use(index);
    EXPECT(SEEN[CARD_SEEN_STATE], CARD_STATE_LEAVING);
    EXPECT(SEEN[CARD_SEEN_ALIAS], 0x263);
    EXPECT(card_is_late(T), 0);
    for (int i = 0; i < 41; i++)
        ACCEPTED(card_tick(T));
    EXPECT(card_is_late(T), 1);
    while (card_deliver(T, 0) == 0)
        check_guards("card_deliver");
    ACCEPTED(card_send(T, index, SENT));
    look_in_use(index);
    EXPECT(SEEN[CARD_SEEN_STATE], CARD_STATE_RESTING);
    EXPECT(SEEN[CARD_SEEN_ALIAS], 0);
}

/* A Node ID, here the highest, is in use until a power-on at its index brings another. The own one does not count. */
static void moves(size_t from, size_t to) {
    const uint64_t highest = (UINT64_C(1) << 48) - 1;
    ACCEPTED(card_power_on(T, from, highest));
    ACCEPTED(card_power_on(T, from, highest));
    look_in_use(from);
    ACCEPTED(card_power_on(T, from, 1));
    ACCEPTED(card_power_on(T, to, highest));
    look_in_use(from);
    look_in_use(to);
}

/* A node that is on has sent its CIDs: nothing is due. */
static void wait_with_nothing_due(size_t index) {
    ACCEPTED(card_power_on(T, index, ID + index));
    for (int i = 0; i < 4; i++)
        ACCEPTED(card_send(T, index, SENT));
}

/* The mark at each node, and each node the only one with a due frame. A mark stays through a power-on and where nobody is named. */
static void each_mark(void) {
    for (size_t mark = 0; mark < CARD_NODES; mark++)
        for (size_t due = 0; due < CARD_NODES; due++) {
            new_table();
            choose(CARD_NOBODY);
            ACCEPTED(card_power_on(T, mark, ID + mark));
            choose(mark);
            wait_with_nothing_due(mark);
            choose(CARD_NOBODY);
            ACCEPTED(card_power_on(T, due, ID + due));
            choose(due);
            choose(due);
        }
}

/* A full inbox: the send of the node that is named is refused, and the mark has moved all the same. */
static void named_and_refused(void) {
    new_table();
    for (size_t i = 3; i < 9; i += 3)
        ACCEPTED(card_power_on(T, i, ID + i));
    for (uint32_t i = 0; i < CARD_INBOX; i++)
        ACCEPTED(card_foreign(T, 2, i, 0, 0));
    choose(3);
    REFUSED(CARD_REFUSED_INBOX_FULL, card_send(T, 3, SENT));
    choose(6);
    REFUSED(CARD_REFUSED_INBOX_FULL, card_send(T, 6, SENT));
    choose(3);
}

/* From a new table, whose mark is at 23, on: every second node has a due frame, then all. Each is named once in a round. */
static void all_in_turn(void) {
    new_table();
    for (size_t i = 0; i < CARD_NODES; i += 2)
        ACCEPTED(card_power_on(T, i, ID + i));
    for (size_t i = 0; i < CARD_NODES; i += 2)
        choose(i);
    choose(0);
    for (size_t i = 1; i < CARD_NODES; i += 2)
        ACCEPTED(card_power_on(T, i, ID + i));
    for (size_t i = 1; i <= 2 * CARD_NODES; i++)
        choose(i % CARD_NODES);
}

/* A number by chance, the same ones at each run. */
static uint64_t chance(void) {
    static uint64_t state = 1;
    state ^= state << 13;
    state ^= state >> 7;
    state ^= state << 17;
    return state;
}

/* A command by chance, accepted or refused. */
static void any_command(size_t index) {
    switch (chance() % 8) {
    case 0:
        card_power_on(T, index, ID + index);
        break;
    case 1:
        card_fail(T, index);
        break;
    case 2:
        card_message(T, index, 0x15B4, 0, 0);
        break;
    case 3:
        card_release(T, index);
        break;
    case 4:
        for (uint64_t ticks = chance() % 300; ticks > 0; ticks--)
            card_tick(T);
        break;
    case 5:
        for (size_t i = 0; i < CARD_NODES; i++)
            while (card_deliver(T, i) == 0)
                check_guards("card_deliver");
        break;
    default:
        card_send(T, last, SENT);
    }
}

/* Choices between commands by chance, of which some name each node and some nobody. */
static void choices_by_chance(void) {
    unsigned times[CARD_NOBODY + 1] = {0};
    new_table();
    for (int i = 0; i < 4000; i++) {
        any_command(chance() % CARD_NODES);
        choose(first_due());
        times[ONE[0]]++;
    }
    for (size_t i = 0; i <= CARD_NOBODY; i++)
        if (times[i] < 10)
            fail("card_choose", "is named too seldom for a test", i);
}

/* Words that no operation left: what is owed is that the choice returns, and writes where it may. */
static void choices_on_any_words(void) {
    for (int i = 0; i < 2000; i++) {
        for (size_t j = 0; j < CARD_WORDS; j++) {
            const uint64_t bits = chance() % 64;
            T[j] = i < 64 ? UINT64_MAX >> i : chance() >> bits;
        }
        choose_any();
    }
}

static void choices(void) {
    each_mark();
    named_and_refused();
    all_in_turn();
    choices_by_chance();
    choices_on_any_words();
}

/* A node of a table, its Node ID ID, and what it had: the state of its generator, whether its first alias is past, its alias. */
struct node {
    size_t index;
    uint64_t state, past, alias;
};

/* Reads a node out: it is what the node had. No word but the two that are given has changed. */
static void read_out(const struct node *node) {
    fill(&out);
    ACCEPTED(card_read_out(T, node->index, OUT));
    EACH(b)
        if (*b != &out)
            check_same("card_read_out", *b);
    EXPECT(OUT[CARD_OUT_STATE], node->state);
    EXPECT(OUT[CARD_OUT_PAST], node->past);
}

/* So many ticks. */
static void ticks(unsigned count) {
    for (unsigned i = 0; i < count; i++)
        card_tick(T);
    check_guards("card_tick");
}

/* What leaves next has this header. */
static void sends(const struct node *node, uint64_t field) {
    ACCEPTED(card_send(T, node->index, SENT));
    EXPECT(SENT[CARD_SENT_HEADER], UINT64_C(1) << 28 | field << 12 | node->alias);
    read_out(node);
}

/* A node that has just started tests its alias in full: four CIDs, nothing for 200 ticks, and RID and AMD after 201. Ends as soon
 * as it is in this state. */
static void tests_its_alias(const struct node *node, uint64_t until) {
    look_and_choose(node->index);
    EXPECT(SEEN[CARD_SEEN_STATE], CARD_STATE_TESTING);
    EXPECT(SEEN[CARD_SEEN_ID], ID);
    EXPECT(SEEN[CARD_SEEN_ALIAS], node->alias);
    EXPECT(SEEN[CARD_SEEN_INBOX], 0);
    read_out(node);
    if (until == CARD_STATE_TESTING)
        return;
    for (unsigned cid = 7; cid >= 4; cid--)
        sends(node, cid << 12 | (ID >> (12 * (cid - 4)) & 0xFFF));
    REFUSED(CARD_REFUSED_NOTHING_DUE, card_send(T, node->index, SENT));
    ticks(200);
    REFUSED(CARD_REFUSED_NOTHING_DUE, card_send(T, node->index, SENT));
    ticks(1);
    sends(node, 0x0700);
    if (until == CARD_STATE_RESERVED)
        return;
    sends(node, 0x0701);
    look_and_choose(node->index);
    EXPECT(SEEN[CARD_SEEN_STATE], CARD_STATE_PERMITTED);
    EXPECT(SEEN[CARD_SEEN_ALIAS], node->alias);
}

/* From Permitted on, to one of the three states behind it. */
static void ends_in(const struct node *node, uint64_t state) {
    if (state == CARD_STATE_SILENT) {
        ACCEPTED(card_foreign(T, 0, UINT32_C(0x10701000), 6, ID << 16));
        ACCEPTED(card_deliver(T, node->index));
        sends(node, UINT64_C(1) << 15 | 0x15B4);
    } else if (state != CARD_STATE_PERMITTED) {
        ACCEPTED(card_release(T, node->index));
        read_out(node);
        if (state == CARD_STATE_RESTING)
            sends(node, 0x0703);
    }
}

/* What a node at this index has after so many steps of its generator, by the library's own first and next alias. */
static struct node after_steps(size_t index, unsigned steps) {
    struct node node = {.index = index, .state = ID, .past = steps > 0};
    ACCEPTED(lcc_first_alias(ID, ONE));
    node.alias = ONE[0];
    for (unsigned i = 0; i < steps; i++) {
        ACCEPTED(lcc_next_alias(node.state, NEXT));
        node.state = NEXT[LCC_NEXT_STATE];
        node.alias = NEXT[LCC_NEXT_ALIAS];
    }
    return node;
}

/* A new table in which a node is in this state, after so many steps of its generator; each by a failed send. */
static struct node node_in(size_t index, uint64_t state, unsigned steps) {
    new_table();
    const struct node node = after_steps(index, steps);
    if (state == CARD_STATE_OFF)
        return node;
    ACCEPTED(card_power_on(T, index, ID));
    for (unsigned i = 0; i < steps; i++)
        ACCEPTED(card_fail(T, index));
    tests_its_alias(&node, state);
    if (state > CARD_STATE_RESERVED)
        ends_in(&node, state);
    look_and_choose(index);
    EXPECT(SEEN[CARD_SEEN_STATE], state);
    return node;
}

/* The refusals of a warm power-on in their order, at a node in any state: what would be refused by a later one is wrong too. */
static void starts_refused(size_t index, uint64_t in_use) {
    REFUSED(CARD_REFUSED_BAD_INDEX, card_warm_on(T, CARD_NODES, 0, 2, UINT64_MAX));
    REFUSED(CARD_REFUSED_BAD_INDEX, card_warm_on(T, FAR, in_use, 1, UINT64_MAX));
    REFUSED(CARD_REFUSED_BAD_NODE_ID, card_warm_on(T, index, 0, 2, UINT64_MAX));
    REFUSED(CARD_REFUSED_BAD_NODE_ID, card_warm_on(T, index, in_use + (UINT64_C(1) << 48), 1, UINT64_MAX));
    REFUSED(CARD_REFUSED_NODE_ID_IN_USE, card_warm_on(T, index, in_use, 0, UINT64_MAX));
    REFUSED(CARD_REFUSED_NODE_ID_IN_USE, card_warm_on(T, index, in_use, 1, UINT64_MAX));
    REFUSED(CARD_REFUSED_NODE_ID_IN_USE, card_warm_on(T, index, in_use, 1, ID));
    REFUSED(CARD_REFUSED_NODE_ID_IN_USE, card_warm_on(T, index, in_use, 255, ID));
    for (unsigned flag = 2; flag < 256; flag++)
        REFUSED(CARD_REFUSED_BAD_START, card_warm_on(T, index, ID, (uint8_t)flag, flag % 2 ? ID : UINT64_MAX));
    for (unsigned bit = 48; bit < 64; bit++)
        REFUSED(CARD_REFUSED_BAD_START, card_warm_on(T, index, ID, 1, UINT64_C(1) << bit | ID));
}

/* Flag 0, with a state that is any number, leaves the words that card_power_on leaves, and so every table. */
static void starts_cold(const struct node *node) {
    const uint64_t states[] = {0, ID, (UINT64_C(1) << 48) - 1, UINT64_C(1) << 48, UINT64_MAX, chance()};
    uint64_t before[CARD_WORDS], cold[CARD_WORDS];
    memcpy(before, T, sizeof before);
    memcpy(cold, T, sizeof cold);
    EXPECT(card_power_on(cold, node->index, ID), 0);
    for (size_t i = 0; i < sizeof states / sizeof *states; i++) {
        memcpy(T, before, sizeof before);
        ACCEPTED(card_warm_on(T, node->index, ID, 0, states[i]));
        if (memcmp(T, cold, sizeof cold) != 0)
            fail("card_warm_on", "with flag 0 it leaves other words than card_power_on, with a state", states[i]);
    }
    const struct node anew = after_steps(node->index, 0);
    tests_its_alias(&anew, CARD_STATE_TESTING);
}

/* What was read out of a node is given back at every other index of a new table: there it comes up under the alias that it had. */
static void comes_back(const struct node *node) {
    for (size_t other = 0; other < CARD_NODES; other++)
        if (other != node->index) {
            struct node back = *node;
            back.index = other;
            new_table();
            ACCEPTED(card_warm_on(T, other, ID, (uint8_t)back.past, back.state));
            tests_its_alias(&back, CARD_STATE_PERMITTED);
        }
}

/* Every state, before and after steps of the generator: what is read out, what is refused, flag 0, and what comes back. */
static void starts_from_every_state(void) {
    for (uint64_t state = CARD_STATE_OFF; state <= CARD_STATE_SILENT; state++)
        for (unsigned steps = 0; steps < 3; steps++) {
            const size_t index = (state * 3 + steps) % CARD_NODES;
            const struct node node = node_in(index, state, steps);
            ACCEPTED(card_power_on(T, (index + 5) % CARD_NODES, ID + 1));
            starts_refused(index, ID + 1);
            if (state == CARD_STATE_OFF)
                REFUSED(CARD_REFUSED_OFF, card_read_out(T, index, OUT));
            else
                read_out(&node);
            starts_cold(&node);
            if (state != CARD_STATE_OFF)
                comes_back(&node);
        }
}

/* The alias that is drawn from a state, by request A.9. */
static uint64_t drawn(uint64_t state) {
    uint64_t alias = 0;
    for (int part = 0; part < 4; part++)
        alias ^= state >> (12 * part) & 0xFFF;
    return alias == 0 ? 1 : alias;
}

/* A warm start with this state. The next alias is the one that the generator draws from there. */
static void starts_warm(size_t index, uint64_t state) {
    const struct node node = {index, state, 1, drawn(state)};
    ACCEPTED(card_warm_on(T, index, ID, 1, state));
    tests_its_alias(&node, CARD_STATE_TESTING);
    ACCEPTED(lcc_next_alias(state, NEXT));
    const struct node stepped = {index, NEXT[LCC_NEXT_STATE], 1, NEXT[LCC_NEXT_ALIAS]};
    ACCEPTED(card_fail(T, index));
    tests_its_alias(&stepped, CARD_STATE_TESTING);
}

/* States with every bit alone, by chance, and such whose parts are 0 together: alias 1. */
static void starts_with_any_state(void) {
    const uint64_t zero[] = {0, UINT64_C(0x001001000000), UINT64_C(0xFFF000000FFF), UINT64_C(0xFFFFFFFFFFFF),
                             UINT64_C(0x123456444131)};
    new_table();
    for (size_t i = 0; i < sizeof zero / sizeof *zero; i++) {
        EXPECT(drawn(zero[i]), 1);
        starts_warm(i, zero[i]);
        ACCEPTED(card_power_on(T, i, ID + 1 + i));
    }
    for (int bit = 0; bit < 48; bit++)
        starts_warm(9, UINT64_C(1) << bit);
    for (int i = 0; i < 1000; i++)
        starts_warm(9, chance() >> 16);
    starts_warm(9, ID);
}

/* A cold start after a warm one, whose state was the Node ID: the first alias is past no longer. */
static void starts_cold_again(void) {
    const struct node warm = {9, ID, 1, drawn(ID)}, cold = after_steps(9, 0);
    new_table();
    for (int flag_0 = 0; flag_0 < 2; flag_0++) {
        ACCEPTED(card_warm_on(T, 9, ID, 1, ID));
        tests_its_alias(&warm, CARD_STATE_TESTING);
        if (flag_0)
            ACCEPTED(card_warm_on(T, 9, ID, 0, ID));
        else
            ACCEPTED(card_power_on(T, 9, ID));
        tests_its_alias(&cold, CARD_STATE_TESTING);
    }
}

/* A node that is up, with a link that has degraded, a frame in its inbox and one due, starts warm: the inbox is empty and the link
 * Error Active, so that the same change is reported again; the mark stays. In its test a frame with its alias makes it start
 * again. */
static void starts_anew(void) {
    struct node node = node_in(7, CARD_STATE_PERMITTED, 1);
    ACCEPTED(card_power_on(T, 3, ID + 3));
    choose(3);
    ACCEPTED(card_link(T, 7, CARD_LINK_ERROR_PASSIVE));
    ACCEPTED(card_foreign(T, 0, UINT32_C(0x10702111), 0, 0));
    ACCEPTED(card_warm_on(T, 7, ID, 1, node.state));
    choose(7);
    tests_its_alias(&node, CARD_STATE_TESTING);
    wait_with_nothing_due(3);
    while (card_deliver(T, 7) == 0)
        check_guards("card_deliver");
    tests_its_alias(&node, CARD_STATE_PERMITTED);
    ACCEPTED(card_link(T, 7, CARD_LINK_ERROR_PASSIVE));
    sends(&node, 0x0710);
    ACCEPTED(card_warm_on(T, 7, ID, 1, node.state));
    ACCEPTED(card_foreign(T, 0, (uint32_t)(UINT32_C(0x17050000) | node.alias), 0, 0));
    ACCEPTED(card_deliver(T, 7));
    node = after_steps(7, 2);
    tests_its_alias(&node, CARD_STATE_PERMITTED);
}

/* Words that no operation left: what is owed is that both return, with an answer that they have, and write where they may. */
static void starts_on_any_words(void) {
    for (int i = 0; i < 2000; i++) {
        for (size_t j = 0; j < CARD_WORDS; j++) {
            const uint64_t bits = chance() % 64;
            T[j] = i < 64 ? UINT64_MAX >> i : chance() >> bits;
        }
        const size_t index = chance() % CARD_NODES;
        keep();
        uint64_t answer = card_read_out(T, index, OUT);
        check_guards("card_read_out");
        check_same("card_read_out", &table);
        if (answer != 0 && answer != CARD_REFUSED_OFF)
            fail("card_read_out", "answers what it has not", answer);
        keep();
        answer = card_warm_on(T, index, ID + index, (uint8_t)(chance() % 3), chance() >> 15);
        check_guards("card_warm_on");
        if (answer != 0 && answer != CARD_REFUSED_NODE_ID_IN_USE && answer != CARD_REFUSED_BAD_START)
            fail("card_warm_on", "answers what it has not", answer);
        if (answer != 0)
            check_same("card_warm_on", &table);
    }
}

static void starts(void) {
    starts_from_every_state();
    starts_with_any_state();
    starts_cold_again();
    starts_anew();
    starts_on_any_words();
}

/* An alias with a Node ID, as an AMD defines them. */
#define AMD(alias, id) M, 0, UINT32_C(0x10701000) + (alias), 6, (id) << 16

/* Either look-up of alias n with Node ID ID + n: found at this place, from the oldest, which is 1. The map does not change. */
static void find_at(uint16_t n, size_t place) {
    ACCEPTED(map_id_of(M, n, FOUND));
    check_same("map_id_of", &map);
    EXPECT(FOUND[MAP_FOUND_VALUE], ID + n);
    EXPECT(FOUND[MAP_FOUND_COMPARED], place);
    ACCEPTED(map_alias_of(M, ID + n, FOUND));
    check_same("map_alias_of", &map);
    EXPECT(FOUND[MAP_FOUND_VALUE], n);
    EXPECT(FOUND[MAP_FOUND_COMPARED], place);
}

static void maps(void) {
    map_new(M);
    check_guards("map_new");
    REFUSED(CARD_REFUSED_ABSENT, map_id_of(M, 0, FOUND));
    REFUSED(CARD_REFUSED_ABSENT, map_id_of(M, 0xFFFF, FOUND));
    REFUSED(CARD_REFUSED_ABSENT, map_alias_of(M, 0, FOUND));
    REFUSED(CARD_REFUSED_ABSENT, map_alias_of(M, UINT64_MAX, FOUND));
    REFUSED(CARD_REFUSED_MALFORMED, map_note(M, 255, UINT32_MAX, 255, UINT64_MAX));
    for (uint32_t i = 1; i <= MAP_ENTRIES; i++)
        ACCEPTED(map_note(AMD(i, ID + i)));
    REFUSED(CARD_REFUSED_FULL, map_note(AMD(0xFFF, ID)));
    for (uint16_t i = 1; i <= MAP_ENTRIES; i++)
        find_at(i, i);
    ACCEPTED(map_note(M, 0, UINT32_C(0x10703001), 0, 0));
    REFUSED(CARD_REFUSED_ABSENT, map_id_of(M, 1, FOUND));
    REFUSED(CARD_REFUSED_ABSENT, map_alias_of(M, ID + 1, FOUND));
    find_at(2, 1);
    find_at(MAP_ENTRIES, MAP_ENTRIES - 1);
    ACCEPTED(map_note(AMD(0xFFF, ID + 0xFFF)));
    find_at(0xFFF, MAP_ENTRIES);
}

/* CID 6 of alias 263 with this bit 28, written and read. */
static void cid_6(uint8_t bit, uint32_t header) {
    ACCEPTED(lcc_write_header(bit, 0, 0x6101, 0x263, ONE));
    EXPECT(ONE[0], header);
    ACCEPTED(lcc_read_header(header, PARTS));
    EXPECT(PARTS[LCC_PARTS_TYPE], 0);
    EXPECT(PARTS[LCC_PARTS_FIELD], 0x6101);
    EXPECT(PARTS[LCC_PARTS_ALIAS], 0x263);
    EXPECT(PARTS[LCC_PARTS_KIND], LCC_KIND_CID);
    EXPECT(PARTS[LCC_PARTS_NUMBER], 6);
    EXPECT(PARTS[LCC_PARTS_SECTION], 0x101);
    EXPECT(PARTS[LCC_PARTS_BIT], bit);
}

static void headers(void) {
    REFUSED(CARD_REFUSED_MALFORMED, lcc_write_header(2, 0, 0, 1, ONE));
    REFUSED(CARD_REFUSED_MALFORMED, lcc_write_header(255, 0, 0, 1, ONE));
    REFUSED(CARD_REFUSED_MALFORMED, lcc_write_header(1, 2, 0, 1, ONE));
    REFUSED(CARD_REFUSED_MALFORMED, lcc_write_header(1, 0, 0x8000, 1, ONE));
    REFUSED(CARD_REFUSED_MALFORMED, lcc_write_header(1, 0, 0, 0, ONE));
    REFUSED(CARD_REFUSED_MALFORMED, lcc_write_header(1, 1, 0, 0x1000, ONE));
    REFUSED(CARD_REFUSED_MALFORMED, lcc_read_header(UINT32_C(1) << 29, PARTS));
    REFUSED(CARD_REFUSED_MALFORMED, lcc_read_header(UINT32_MAX, PARTS));
    cid_6(1, 0x16101263);
    cid_6(0, 0x06101263);
    REFUSED(CARD_REFUSED_BAD_NODE_ID, lcc_first_alias(0, ONE));
    REFUSED(CARD_REFUSED_BAD_NODE_ID, lcc_first_alias(UINT64_C(1) << 48, ONE));
    ACCEPTED(lcc_first_alias(ID, ONE));
    EXPECT(ONE[0], 0x263);
    REFUSED(CARD_REFUSED_MALFORMED, lcc_next_alias(UINT64_C(1) << 48, NEXT));
    ACCEPTED(lcc_next_alias(ID, NEXT));
    EXPECT(NEXT[LCC_NEXT_ALIAS], 0x4F8);
}

static const uint64_t DATA = UINT64_C(0x0123456789ABCDEF);

/* The text that a frame has by request A.7, and its length. */
static size_t text_of(char wanted[GRID_TEXT_MAX + 1], uint32_t header, uint8_t len, uint64_t bytes) {
    uint64_t counted = len == 0 ? 0 : bytes >> (64 - 8 * len);
    return (size_t)snprintf(wanted, GRID_TEXT_MAX + 1, ":X%08" PRIX32 "N%.*" PRIX64 ";", header, 2 * len, counted);
}

/* The text stands at this byte of its buffer, and no byte before or behind it has changed since `keep`. */
static void check_text(size_t from, const char *wanted, size_t length) {
    const uint8_t *all = (const uint8_t *)text.all, *before = (const uint8_t *)text.before;
    const size_t start = GUARD * sizeof *text.all + from;
    if (memcmp(all + start, wanted, length) != 0)
        fail("grid_write", "is not the text of its frame", from);
    for (size_t i = 0; i < sizeof text.all; i++)
        if ((i < start || i >= start + length) && all[i] != before[i])
            fail("grid_write", "a byte beside the text has changed", i);
}

/* A frame as text at this byte of the buffer. Where the room is less than the text's length, nothing is written. */
static void write_text(size_t from, size_t room, uint32_t header, uint8_t len, uint64_t bytes) {
    char wanted[GRID_TEXT_MAX + 1];
    const size_t length = text_of(wanted, header, len, bytes);
    fill(&text);
    fill(&one);
    if (room < length) {
        REFUSED(CARD_REFUSED_SHORT_BUFFER, grid_write(TEXT + from, room, header, len, bytes, ONE));
        return;
    }
    ACCEPTED(grid_write(TEXT + from, room, header, len, bytes, ONE));
    EXPECT(ONE[0], length);
    check_text(from, wanted, length);
}

/* Every length in every room, and at every byte of a word; room for exactly the text, and one less, among them. */
static void texts_written(void) {
    for (uint8_t len = 0; len <= 8; len++)
        for (size_t room = 0; room <= ROOM_MAX; room++)
            write_text((len + room) % 8, room, UINT32_C(0x195B4263), len, DATA);
    for (size_t from = 0; from < 8; from++) {
        write_text(from, GRID_TEXT_MAX, UINT32_C(0x1FFFFFFF), 8, UINT64_MAX);
        write_text(from, GRID_TEXT_MAX - 1, UINT32_C(0x1FFFFFFF), 8, UINT64_MAX);
    }
    write_text(0, 12, 0, 0, UINT64_MAX);
    write_text(0, 11, 0, 0, UINT64_MAX);
    write_text(0, 12, UINT32_C(0x17050000), 0, 0);
    REFUSED(CARD_REFUSED_SHORT_BUFFER, grid_write(NULL, 0, 0, 0, 0, ONE));
    const size_t rooms[] = {0, GRID_TEXT_MAX - 1, GRID_TEXT_MAX, ROOM_MAX};
    for (size_t i = 0; i < sizeof rooms / sizeof *rooms; i++) {
        REFUSED(CARD_REFUSED_MALFORMED, grid_write(TEXT, rooms[i], UINT32_C(1) << 29, 0, 0, ONE));
        REFUSED(CARD_REFUSED_MALFORMED, grid_write(TEXT, rooms[i], 0, 9, 0, ONE));
        REFUSED(CARD_REFUSED_MALFORMED, grid_write(TEXT, rooms[i], UINT32_MAX, 255, UINT64_MAX, ONE));
    }
    REFUSED(CARD_REFUSED_MALFORMED, grid_write(NULL, 0, 0, 9, 0, ONE));
}

/* Reads so many bytes at this byte of the buffer: the frame is read, and its text is the one read, the letters raised. */
static void read_text(size_t from, size_t length) {
    ACCEPTED(grid_read(TEXT + from, length, GRID));
    check_same("grid_read", &text);
    char wanted[GRID_TEXT_MAX + 1];
    const uint64_t *f = GRID;
    EXPECT(text_of(wanted, (uint32_t)f[GRID_FRAME_HEADER], (uint8_t)f[GRID_FRAME_LEN], f[GRID_FRAME_BYTES]), length);
    for (size_t i = 0; i < length; i++)
        if (toupper(TEXT[from + i]) != wanted[i])
            fail("grid_read", "is not the frame of its text", i);
}

/* Words that no frame has stay in `frame`. */
static void refuse_text(const uint8_t *at, size_t length) {
    fill(&grid);
    REFUSED(CARD_REFUSED_NOT_GRIDCONNECT, grid_read(at, length, GRID));
}

/* Whether a text of this length can have the byte at this place. */
static int fits(size_t place, size_t length, int byte) {
    static const char FIRST[] = {':', 'X'};
    if (place < sizeof FIRST)
        return byte == FIRST[place];
    if (place == 2)
        return byte == '0' || byte == '1';
    if (place == 10)
        return byte == 'N';
    return place == length - 1 ? byte == ';' : isxdigit(byte);
}

/* A text with every byte at every place: it is read where the byte fits there, else refused. */
static void each_byte(uint8_t len) {
    write_text(0, ROOM_MAX, UINT32_C(0x195B4263), len, DATA);
    const size_t length = ONE[0];
    for (size_t place = 0; place < length; place++) {
        const uint8_t kept = TEXT[place];
        for (int byte = 0; byte < 256; byte++) {
            TEXT[place] = (uint8_t)byte;
            if (fits(place, length, byte))
                read_text(0, length);
            else
                refuse_text(TEXT, length);
        }
        TEXT[place] = kept;
    }
}

/* Texts that are none, among them one with what ends a line and one with what ends a string. */
static void texts_refused(void) {
    static const char *const WRONG[] = {
        ":", "X17050263N;", "::X17050263N;", " :X17050263N;", ":x17050263N;", ":S123N;", ":X1705026N;", ":X017050263N;",
        ":X20000000N;", ":XFFFFFFFFN;", ":X17050263;", ":X17050263n;", ":X17050263R;", ":X17050263N", ":X17050263N0;",
        ":X17050263N010;", ":X17050263N01", ":X17050263N 01;", ":X17050263N010203040506070809;", ":X17050263N;;",
        ":X17050263N;\n", ":X17050263N;\r\n",
    };
    for (size_t i = 0; i < sizeof WRONG / sizeof *WRONG; i++) {
        memcpy(TEXT, WRONG[i], strlen(WRONG[i]));
        refuse_text(TEXT, strlen(WRONG[i]));
    }
    memcpy(TEXT, ":X17050263N;", sizeof ":X17050263N;");
    refuse_text(TEXT, sizeof ":X17050263N;");
    refuse_text(TEXT, 0);
    refuse_text(NULL, 0);
}

/* Every text is read whole, at every byte of a word, and by no other length, whatever stands behind it. */
static void texts_read(void) {
    for (uint8_t len = 0; len <= 8; len++)
        for (size_t from = 0; from < 8; from++) {
            write_text(from, ROOM_MAX, UINT32_C(0x195B4263), len, DATA);
            const size_t length = ONE[0];
            for (size_t cut = 0; cut <= ROOM_MAX; cut++)
                if (cut != length)
                    refuse_text(TEXT + from, cut);
            read_text(from, length);
            EXPECT(GRID[GRID_FRAME_HEADER], 0x195B4263);
            EXPECT(GRID[GRID_FRAME_LEN], len);
            EXPECT(GRID[GRID_FRAME_BYTES], len == 0 ? 0 : DATA >> (64 - 8 * len) << (64 - 8 * len));
        }
    each_byte(0);
    each_byte(8);
}

int main(void) {
    EACH(b) fill(*b);
    while_off();
    beyond_the_last(CARD_NODES);
    beyond_the_last(FAR);
    malformed();
    bring_up(CARD_NODES - 1);
    orders(CARD_NODES - 1);
    links(CARD_NODES - 1);
    duplicate(CARD_NODES - 1);
    bring_up(CARD_NODES - 1);
    inboxes(CARD_NODES - 1);
    ends(CARD_NODES - 1);
    moves(CARD_NODES - 1, 0);
    choices();
    starts();
    maps();
    headers();
    texts_written();
    texts_read();
    texts_refused();
    printf("guards: %u calls accepted and %u refused: no word beside a buffer is written, none at all by a refusal, "
           "and of the table by a choice the mark alone and by a read-out none\n",
           accepted, refused);
    return 0;
}
