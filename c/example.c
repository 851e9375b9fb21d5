/* 24 exhibits on one breaker, as firmware would run them on a bus with other equipment: when each is up, and under which alias.
 * Beside it a map of what is seen on the bus, as a viewer keeps one, frames as text, as a viewer exchanges them, and turns. At last
 * the breaker trips, and the exhibits come back under the aliases that they had. */
#include "card.h"
#include <inttypes.h>
#include <stdio.h>
#include <string.h>

static uint64_t table[CARD_WORDS];
static uint64_t map[MAP_WORDS];
static unsigned now; /* milliseconds since the breaker was switched on */

static const char *const STATES[] = {"Off", "Testing", "Reserved", "Permitted", "Leaving", "Resting", "Silent"};
static const char MARKS[] = ".trPLzS";
static const char *const KINDS[] = {"CID", "RID", "AMD", "AME", "AMR", "error report", "reserved frame", "message"};

/* Two pairs of exhibits have Node IDs that are 4,095 apart: they start with one alias. */
static uint64_t node_id(size_t exhibit) {
    const uint64_t first = UINT64_C(0x050101010100);
    if (exhibit == 13 || exhibit == 20)
        return first + exhibit - 10 + 4095;
    return first + exhibit;
}

/* What is seen of an exhibit. */
static uint64_t seen(size_t exhibit, int place) {
    uint64_t words[CARD_SEEN_WORDS];
    card_look(table, exhibit, words);
    return words[place];
}

/* One line for the whole card, a mark for each exhibit, if it has changed. */
static void show_marks(void) {
    static char last[CARD_NODES + 1];
    char marks[CARD_NODES + 1] = "";
    int changed = 0;
    for (size_t i = 0; i < CARD_NODES; i++) {
        marks[i] = MARKS[seen(i, CARD_SEEN_STATE)];
        changed |= marks[i] != last[i];
        last[i] = marks[i];
    }
    if (changed)
        printf("%6u ms  %s\n", now, marks);
}

/* An alias, or that there is none. */
static void show_alias(uint64_t alias) {
    if (alias != 0)
        printf("    %03" PRIX64, alias);
    else
        printf("      -");
}

/* Which exhibits are up, and under which alias: their first one, the one that they test or use, and the one that the map has. */
static void show_table(void) {
    printf("\nexhibit  Node ID       state      first  alias    map  up\n");
    for (size_t i = 0; i < CARD_NODES; i++) {
        uint64_t words[CARD_SEEN_WORDS], first[1] = {0}, found[MAP_FOUND_WORDS] = {0};
        card_look(table, i, words);
        lcc_first_alias(words[CARD_SEEN_ID], first);
        map_alias_of(map, words[CARD_SEEN_ID], found);
        printf("%7zu  %012" PRIX64 "  %-9s", i, words[CARD_SEEN_ID], STATES[words[CARD_SEEN_STATE]]);
        show_alias(first[0]);
        show_alias(words[CARD_SEEN_ALIAS]);
        show_alias(found[MAP_FOUND_VALUE]);
        printf("  %s\n", words[CARD_SEEN_STATE] == CARD_STATE_PERMITTED ? "yes" : "no");
    }
    printf("%s\n\n", card_is_late(table) ? "late: something stood or waited for more than 40 ticks" : "kept: no two exhibits use one alias");
}

/* Every frame in an inbox is delivered, so that none waits. */
static void deliver_all(void) {
    for (size_t i = 0; i < CARD_NODES; i++)
        while (card_deliver(table, i) == 0) {
        }
}

/* A frame has left; here a driver would put it on the bus, where a viewer sees it. */
static void put_on_bus(const uint64_t sent[CARD_SENT_WORDS]) {
    map_note(map, 0, (uint32_t)sent[CARD_SENT_HEADER], (uint8_t)sent[CARD_SENT_LEN], sent[CARD_SENT_BYTES]);
    deliver_all();
}

/* Each exhibit sends all that is due. */
static void send_all(void) {
    uint64_t sent[CARD_SENT_WORDS];
    for (size_t i = 0; i < CARD_NODES; i++)
        while (card_send(table, i, sent) == 0)
            put_on_bus(sent);
}

/* The main loop of firmware, for so many milliseconds. */
static void run(unsigned milliseconds) {
    for (unsigned i = 0; i < milliseconds; i++) {
        send_all();
        show_marks();
        card_tick(table);
        now++;
    }
}

/* A frame of other equipment, in every inbox until it is delivered; its kind and bit 28 as exhibit 0 has them there. */
static void foreign(const char *what, uint8_t bit, uint8_t type, uint16_t field, uint64_t alias, uint8_t len, uint64_t bytes) {
    uint64_t header[1], frame[CARD_FRAME_WORDS], parts[LCC_PARTS_WORDS];
    lcc_write_header(bit, type, field, (uint16_t)alias, header);
    card_foreign(table, 0, (uint32_t)header[0], len, bytes);
    map_note(map, 0, (uint32_t)header[0], len, bytes);
    card_inbox(table, 0, 0, frame);
    lcc_read_header((uint32_t)frame[CARD_FRAME_HEADER], parts);
    printf("%6u ms  other equipment sends under %s: %08" PRIX64 ", %s%s\n", now, what, frame[CARD_FRAME_HEADER],
           KINDS[parts[LCC_PARTS_KIND]], parts[LCC_PARTS_BIT] ? "" : ", bit 28 as 0");
    deliver_all();
}

/* Whether an exhibit comes on with this Node ID of the wiring list. Where another has it, that one is named. */
static unsigned comes_on(size_t exhibit, uint64_t id) {
    uint64_t answer = card_power_on(table, exhibit, id);
    for (size_t i = 0; answer == CARD_REFUSED_NODE_ID_IN_USE && i < CARD_NODES; i++)
        if (seen(i, CARD_SEEN_ID) == id)
            printf("exhibit %zu is refused by %" PRIu64 ": exhibit %zu has Node ID %012" PRIX64 "\n", exhibit, answer, i, id);
    return answer == 0;
}

/* One breaker. The wiring list has one Node ID in two lines, and the second is put right. Other equipment sends under an alias that
 * exhibit 17 tests. */
static void switch_on(void) {
    unsigned on = 0;
    card_new(table);
    map_new(map);
    for (size_t i = 0; i < CARD_NODES; i++)
        on += comes_on(i, i == 8 ? node_id(6) : node_id(i));
    on += comes_on(8, node_id(8));
    printf("%u exhibits on; index 24 is refused by %" PRIu64 "\n", on, card_power_on(table, CARD_NODES, 1));
    printf("            exhibits 0 to 23 (t Testing, r Reserved, P Permitted, L Leaving, z Resting, S Silent)\n");
    run(100);
    foreign("the alias that exhibit 17 tests", 1, 1, 0x15B4, seen(17, CARD_SEEN_ALIAS), 0, 0);
    run(310);
}

/* A send that fails: the exhibit goes on with the alias that the generator draws. */
static void fail_once(size_t exhibit) {
    uint64_t next[LCC_NEXT_WORDS];
    card_power_on(table, exhibit, node_id(exhibit));
    card_fail(table, exhibit);
    lcc_next_alias(node_id(exhibit), next);
    printf("%6u ms  exhibit %zu could not send: it tests %03" PRIX64 ", the generator draws %03" PRIX64 "\n", now, exhibit,
           seen(exhibit, CARD_SEEN_ALIAS), next[LCC_NEXT_ALIAS]);
}

/* The CAN controller says that the link has degraded: what the gallery's fault panel will see. */
static void degrade(size_t exhibit) {
    uint64_t parts[LCC_PARTS_WORDS];
    card_link(table, exhibit, CARD_LINK_ERROR_PASSIVE);
    lcc_read_header((uint32_t)seen(exhibit, CARD_SEEN_DUE_HEADER), parts);
    printf("%6u ms  the link of exhibit %zu is Error Passive: %s %" PRIu64 " is due, %08" PRIX64 "\n", now, exhibit,
           KINDS[parts[LCC_PARTS_KIND]], parts[LCC_PARTS_NUMBER], seen(exhibit, CARD_SEEN_DUE_HEADER));
}

/* Host orders, an alias that other equipment takes, a Node ID that equipment with bit 28 as 0 has too, a send that fails. */
static void work(void) {
    card_message(table, 3, 0x05B4, 2, UINT64_C(0xABCD000000000000));
    card_enquiry(table, 4, 6, node_id(5) << 16);
    printf("%6u ms  exhibit 3 has a message due, %08" PRIX64 "; exhibit 4 an enquiry, %08" PRIX64 "\n", now,
           seen(3, CARD_SEEN_DUE_HEADER), seen(4, CARD_SEEN_DUE_HEADER));
    degrade(2);
    run(1);
    card_release(table, 7);
    foreign("the alias of exhibit 5", 1, 1, 0x15B4, seen(5, CARD_SEEN_ALIAS), 0, 0);
    foreign("another alias, with the Node ID of exhibit 9", 0, 0, 0x0701, 0xFFF, 6, node_id(9) << 16);
    show_marks();
    run(1);
    fail_once(11);
    run(50);
}

/* Whose alias is this, by the map? */
static void ask(uint16_t alias) {
    uint64_t found[MAP_FOUND_WORDS];
    uint64_t answer = map_id_of(map, alias, found);
    if (answer == 0)
        printf("alias %03X is that of Node ID %012" PRIX64 ", entries compared: %" PRIu64 "\n", (unsigned)alias,
               found[MAP_FOUND_VALUE], found[MAP_FOUND_COMPARED]);
    else
        printf("alias %03X: refused by %" PRIu64 ", the map has no such entry\n", (unsigned)alias, answer);
}

/* A frame that left, as text for a bus viewer. The text has no 0 at its end: its length is in `written`. */
static void show_text(size_t exhibit, const uint64_t sent[CARD_SENT_WORDS]) {
    uint8_t text[GRID_TEXT_MAX];
    uint64_t written[1];
    uint64_t answer = grid_write(text, sizeof text, (uint32_t)sent[CARD_SENT_HEADER], (uint8_t)sent[CARD_SENT_LEN],
                                 sent[CARD_SENT_BYTES], written);
    if (answer == 0)
        printf("%6u ms  exhibit %zu sends %.*s\n", now, exhibit, (int)written[0], (const char *)text);
}

/* A text of a bus viewer: its frame comes to all exhibits, and what they answer goes to the viewer. */
static void take_text(const char *text) {
    uint64_t frame[GRID_FRAME_WORDS], sent[CARD_SENT_WORDS];
    uint64_t answer = grid_read((const uint8_t *)text, strlen(text), frame);
    if (answer != 0) {
        printf("%6u ms  the viewer's %s is refused by %" PRIu64 ": it is no GridConnect frame\n", now, text, answer);
        return;
    }
    printf("%6u ms  the viewer sends %s\n", now, text);
    card_foreign(table, 0, (uint32_t)frame[GRID_FRAME_HEADER], (uint8_t)frame[GRID_FRAME_LEN], frame[GRID_FRAME_BYTES]);
    map_note(map, 0, (uint32_t)frame[GRID_FRAME_HEADER], (uint8_t)frame[GRID_FRAME_LEN], frame[GRID_FRAME_BYTES]);
    deliver_all();
    for (size_t i = 0; i < CARD_NODES; i++)
        while (card_send(table, i, sent) == 0) {
            show_text(i, sent);
            put_on_bus(sent);
        }
}

/* Enquiries as text: who has the Node ID of exhibit 16? And, with `x` for `X`, one that is no GridConnect frame. */
static void view(void) {
    take_text(":X10702AAAN050101010110;");
    take_text(":x10702AAAN050101010110;");
}

/* A turn: all exhibits share one CAN controller, and the one that is chosen sends. */
static void take_turn(void) {
    uint64_t chosen[1], sent[CARD_SENT_WORDS];
    card_choose(table, chosen);
    if (chosen[0] == CARD_NOBODY) {
        printf(" nobody");
        return;
    }
    printf(" %" PRIu64, chosen[0]);
    if (card_send(table, chosen[0], sent) == 0)
        put_on_bus(sent);
}

/* A chatty exhibit, for which the next message is ordered before each turn but the last, does not delay the others. */
static void share(unsigned turns) {
    card_message(table, 8, 0x05B4, 0, 0);
    card_message(table, 16, 0x05B4, 0, 0);
    printf("%6u ms  exhibit 3 has a message due at every turn but the last, exhibits 8 and 16 have one each; turns:", now);
    for (unsigned left = turns; left > 0; left--) {
        if (left > 1)
            card_message(table, 3, 0x05B4, 0, 0);
        take_turn();
        card_tick(table);
        now++;
    }
    printf("\n");
}

/* What is kept of an exhibit while the power is off, in memory that keeps it: all that it needs to come back. */
struct kept {
    uint64_t id, out[CARD_OUT_WORDS];
    int is_on;
};

/* Before the breaker trips: each exhibit that is on is read out. */
static void read_out(struct kept kept[CARD_NODES]) {
    unsigned on = 0, past = 0;
    for (size_t i = 0; i < CARD_NODES; i++) {
        kept[i].id = seen(i, CARD_SEEN_ID);
        kept[i].is_on = card_read_out(table, i, kept[i].out) == 0;
        on += kept[i].is_on;
        past += kept[i].is_on && kept[i].out[CARD_OUT_PAST];
    }
    printf("%6u ms  %u exhibits are read out, of %u the first alias is past; the breaker trips\n", now, on, past);
}

/* An exhibit is given back what was read out of it. Where it does not start with its first alias, that is said. */
static void give_back(size_t exhibit, const struct kept *kept, uint64_t had) {
    uint64_t first[1];
    card_warm_on(table, exhibit, kept->id, (uint8_t)kept->out[CARD_OUT_PAST], kept->out[CARD_OUT_STATE]);
    lcc_first_alias(kept->id, first);
    if (seen(exhibit, CARD_SEEN_ALIAS) != first[0])
        printf("%6u ms  exhibit %zu had %03" PRIX64 ", its first alias was %03" PRIX64 ": it tests %03" PRIX64 "\n", now, exhibit,
               had, first[0], seen(exhibit, CARD_SEEN_ALIAS));
}

/* The breaker trips, and is switched on again. Exhibits 5 and 11 were in test; 7, which rested, and 9, silent, had no alias. */
static void come_back(void) {
    struct kept kept[CARD_NODES];
    uint64_t had[CARD_NODES];
    unsigned same = 0;
    for (size_t i = 0; i < CARD_NODES; i++)
        had[i] = seen(i, CARD_SEEN_ALIAS);
    read_out(kept);
    card_new(table);
    for (size_t i = 0; i < CARD_NODES; i++)
        if (kept[i].is_on)
            give_back(i, &kept[i], had[i]);
    run(210);
    for (size_t i = 0; i < CARD_NODES; i++)
        same += seen(i, CARD_SEEN_STATE) == CARD_STATE_PERMITTED && seen(i, CARD_SEEN_ALIAS) == had[i];
    printf("%6u ms  %u exhibits are up again under the alias that they had\n", now, same);
    printf("a flag of 2 is refused by %" PRIu64 "\n", card_warm_on(table, 0, node_id(0), 2, kept[0].out[CARD_OUT_STATE]));
}

int main(void) {
    switch_on();
    show_table();
    work();
    show_table();
    view();
    share(7);
    ask(0x265);
    ask(0x267);
    come_back();
    return 0;
}
