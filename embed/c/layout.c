/*
 * Holds the layout of linkspan.h to the library: for every number of nodes and items against
 * linkspan_words, linkspan_stretch and the words that linkspan_format stores; for every number of
 * frames against word 0, and with every number of nodes and items against the answers of linkspan_format
 * and of the calls on a table; and every phase and code of a place against the words that calls leave.
 */
#include "../linkspan.h"

#include <inttypes.h>
#include <stdio.h>

enum { MOST_NODES = 16, MOST_ITEMS = 256, MOST_FRAMES = 512 };
enum { MOST_WORDS = 1 + MOST_NODES + LINKSPAN_ENTRY_WORDS * MOST_NODES * MOST_ITEMS };

static const uint64_t WHOLE = LINKSPAN_WHOLE;

static uint64_t table[MOST_WORDS], compared, faults;

static void same(const char *what, uint64_t found, uint64_t expected)
{
    compared++;
    if (found != expected && faults++ < 10)
        printf("%s: %" PRIu64 ", not %" PRIu64 "\n", what, found, expected);
}

/* From so many frames on, up to the most, all are allowed; besides, as many as a node has places are. */
static uint64_t enough_frames(uint64_t nodes, uint64_t items)
{
    return (4 * items - 1 + nodes - 3) / (nodes - 2);
}

static int are_allowed(uint64_t nodes, uint64_t items, uint64_t frames)
{
    return frames == 2 * items || (enough_frames(nodes, items) <= frames && frames <= MOST_FRAMES);
}

static uint64_t fewest_frames(uint64_t nodes, uint64_t items)
{
    uint64_t frames = 1;
    while (!are_allowed(nodes, items, frames))
        frames++;
    return frames;
}

static void format(uint64_t nodes, uint64_t items, uint64_t frames)
{
    uint64_t value, stores;
    for (uint64_t place = 0; place < linkspan_words(nodes, items); place++)
        table[place] = UINT64_MAX;
    same("format", linkspan_format(table, MOST_WORDS, nodes, items, frames, WHOLE, &value, &stores), LINKSPAN_DONE);
}

static void geometry_in_word_0(uint64_t nodes, uint64_t items, uint64_t frames)
{
    uint64_t word = table[LINKSPAN_GEOMETRY_AT];
    same("nodes in word 0", linkspan_nodes_in(word), nodes);
    same("items in word 0", linkspan_items_in(word), items);
    same("frames in word 0", linkspan_frames_in(word), frames);
}

/* The rows are the stretches, and together with word 0 and the marks they are the table. */
static void rows(uint64_t nodes, uint64_t items)
{
    uint64_t start, words;
    for (uint64_t node = 0; node < nodes; node++) {
        same("stretch", linkspan_stretch(table, MOST_WORDS, node, &start, &words), LINKSPAN_DONE);
        same("row", linkspan_row_at(nodes, items, node), start);
        same("words of a row", linkspan_row_words(items), words);
    }
    same("end", linkspan_row_at(nodes, items, nodes - 1) + linkspan_row_words(items), linkspan_words(nodes, items));
}

static void owners(uint64_t nodes, uint64_t items)
{
    same("owner of word 0", linkspan_owner_of(nodes, items, LINKSPAN_GEOMETRY_AT), LINKSPAN_EVERYBODY);
    same("everybody is a node", LINKSPAN_EVERYBODY < nodes, 0);
    for (uint64_t node = 0; node < nodes; node++) {
        uint64_t start = 0, words = 0;
        linkspan_stretch(table, MOST_WORDS, node, &start, &words);
        same("owner of a mark", linkspan_owner_of(nodes, items, linkspan_mark_at(node)), node);
        for (uint64_t place = start; place < start + words; place++)
            same("owner of a word of a row", linkspan_owner_of(nodes, items, place), node);
    }
}

/* Item b is Shared-CK1 on node 2b mod N and Shared-CK2 on the next. */
static uint64_t formatted_place(uint64_t nodes, uint64_t node, uint64_t item)
{
    if (node == 2 * item % nodes)
        return LINKSPAN_CURRENT_SHARED_CK1;
    return node == (2 * item + 1) % nodes ? LINKSPAN_CURRENT_SHARED_CK2 : LINKSPAN_CURRENT_INVALID;
}

static void mark_is(uint64_t node, uint64_t live, uint64_t phase, uint64_t number)
{
    uint64_t mark = table[linkspan_mark_at(node)];
    same("live", linkspan_mark_live(mark), live);
    same("phase", linkspan_mark_phase(mark), phase);
    same("number", linkspan_mark_number(mark), number);
}

static void formatted_words(uint64_t nodes, uint64_t items)
{
    for (uint64_t node = 0; node < nodes; node++) {
        mark_is(node, 1, LINKSPAN_RUNNING, 0);
        for (uint64_t item = 0; item < items; item++) {
            uint64_t *entry = table + linkspan_entry_at(nodes, items, node, item);
            same("current place", linkspan_current_in(entry[LINKSPAN_STATE]), formatted_place(nodes, node, item));
            same("kept place", linkspan_kept_in(entry[LINKSPAN_STATE]), LINKSPAN_KEPT_INVALID);
            same("current value", entry[LINKSPAN_CURRENT_VALUE], 0);
            same("kept value", entry[LINKSPAN_KEPT_VALUE], 0);
        }
    }
}

/* A format that is lent no words: the frames are judged first. */
static void frames_to_format(uint64_t nodes, uint64_t items, uint64_t frames)
{
    uint64_t value, stores, expected = LINKSPAN_TOO_SHORT;
    if (!are_allowed(nodes, items, frames))
        expected = LINKSPAN_NO_GEOMETRY;
    else if (frames > 2 * items)
        expected = LINKSPAN_TOO_MANY_FRAMES;
    same("format without words", linkspan_format(NULL, 0, nodes, items, frames, WHOLE, &value, &stores), expected);
}

/* A table of word 0 alone: the frames are judged before its length, also where a node has fewer places. */
static void frames_in_table(uint64_t nodes, uint64_t items, uint64_t frames)
{
    uint64_t word = nodes << 55 | items << 46 | frames << 36, scratch[1], value, stores;
    uint64_t expected = are_allowed(nodes, items, frames) ? LINKSPAN_TOO_SHORT : LINKSPAN_NO_GEOMETRY;
    same("check of word 0", linkspan_check(&word, 1), expected);
    same("stretch of word 0", linkspan_stretch(&word, 1, 0, &value, &stores), expected);
    same("create on word 0", linkspan_create(&word, 1, WHOLE, &value, &stores), expected);
    same("recover of word 0", linkspan_recover(&word, 1, 1, 0, scratch, 1, WHOLE, &value, &stores), expected);
}

static void every_number_of_frames(uint64_t nodes, uint64_t items)
{
    for (uint64_t frames = 0; frames <= MOST_FRAMES + 1; frames++) {
        frames_to_format(nodes, items, frames);
        frames_in_table(nodes, items, frames);
    }
}

static void every_geometry(void)
{
    for (uint64_t nodes = 3; nodes <= MOST_NODES; nodes++)
        for (uint64_t items = 1; items <= MOST_ITEMS; items++) {
            every_number_of_frames(nodes, items);
            format(nodes, items, 2 * items);
            format(nodes, items, fewest_frames(nodes, items));
            geometry_in_word_0(nodes, items, fewest_frames(nodes, items));
            rows(nodes, items);
            owners(nodes, items);
            formatted_words(nodes, items);
        }
    for (uint64_t frames = 1; frames <= MOST_FRAMES; frames++) {
        uint64_t items = (frames + 1) / 2; /* the fewest whose places are so many */
        format(MOST_NODES, items, frames);
        geometry_in_word_0(MOST_NODES, items, frames);
    }
}

/* Tables of 3 nodes and 2 items: item 1 of a node must be this. */
static void entry_is(uint64_t node, uint64_t current, uint64_t value, uint64_t kept, uint64_t saved)
{
    uint64_t *entry = table + linkspan_entry_at(3, 2, node, 1);
    same("current place after calls", linkspan_current_in(entry[LINKSPAN_STATE]), current);
    same("kept place after calls", linkspan_kept_in(entry[LINKSPAN_STATE]), kept);
    if (current != LINKSPAN_CURRENT_INVALID)
        same("current value after calls", entry[LINKSPAN_CURRENT_VALUE], value);
    if (kept != LINKSPAN_KEPT_INVALID)
        same("kept value after calls", entry[LINKSPAN_KEPT_VALUE], saved);
}

/* Formatted, item 1 is Shared-CK1 on node 2 and Shared-CK2 on node 0. */
static void after_calls(void)
{
    uint64_t scratch[5], value, stores;
    format(3, 2, 4);
    linkspan_write(table, MOST_WORDS, 1, 1, 7, WHOLE, &value, &stores);
    entry_is(0, LINKSPAN_CURRENT_INVALID, 0, LINKSPAN_KEPT_INV_CK2, 0);
    entry_is(1, LINKSPAN_CURRENT_MODIFIED, 7, LINKSPAN_KEPT_INVALID, 0);
    entry_is(2, LINKSPAN_CURRENT_INVALID, 0, LINKSPAN_KEPT_INV_CK1, 0);
    linkspan_read(table, MOST_WORDS, 2, 1, WHOLE, &value, &stores);
    entry_is(1, LINKSPAN_CURRENT_OWNER, 7, LINKSPAN_KEPT_INVALID, 0);
    entry_is(2, LINKSPAN_CURRENT_SHARED, 7, LINKSPAN_KEPT_INV_CK1, 0);
    linkspan_open(table, MOST_WORDS, WHOLE, &value, &stores);
    mark_is(2, 1, LINKSPAN_CREATING, 0);
    linkspan_create(table, MOST_WORDS, WHOLE, &value, &stores);
    entry_is(1, LINKSPAN_CURRENT_PRECOMMIT1, 7, LINKSPAN_KEPT_INVALID, 0);
    entry_is(2, LINKSPAN_CURRENT_PRECOMMIT2, 7, LINKSPAN_KEPT_INV_CK1, 0);
    linkspan_commit(table, MOST_WORDS, 1, &value, &stores);
    mark_is(0, 1, LINKSPAN_COMMITTING, 1);
    mark_is(1, 1, LINKSPAN_CREATING, 0);
    linkspan_recover(table, MOST_WORDS, 1, 0, scratch, 5, WHOLE, &value, &stores);
    mark_is(0, 1, LINKSPAN_RUNNING, 1);
    entry_is(1, LINKSPAN_CURRENT_SHARED_CK1, 7, LINKSPAN_KEPT_INVALID, 0);
    entry_is(2, LINKSPAN_CURRENT_SHARED_CK2, 7, LINKSPAN_KEPT_INVALID, 0);
    linkspan_write(table, MOST_WORDS, 2, 1, 9, WHOLE, &value, &stores);
    entry_is(1, LINKSPAN_CURRENT_INVALID, 0, LINKSPAN_KEPT_INV_CK1, 7);
    entry_is(2, LINKSPAN_CURRENT_MODIFIED, 9, LINKSPAN_KEPT_INV_CK2, 7);
    linkspan_recover(table, MOST_WORDS, 0, 0, scratch, 5, WHOLE, &value, &stores);
    mark_is(0, 0, 0, 0);
}

/* The last number that a mark can have, which no short run of calls reaches: its bits must be all of it. */
static void largest_number(void)
{
    uint64_t value, stores, largest = UINT64_C(0xffffffff);
    format(3, 1, 2);
    for (uint64_t node = 0; node < 3; node++)
        table[linkspan_mark_at(node)] |= largest << 29;
    mark_is(0, 1, LINKSPAN_RUNNING, largest);
    same("open", linkspan_open(table, MOST_WORDS, WHOLE, &value, &stores), LINKSPAN_LAST_NUMBER);
    for (uint64_t node = 0; node < 3; node++)
        table[linkspan_mark_at(node)] -= UINT64_C(1) << 29;
    linkspan_open(table, MOST_WORDS, WHOLE, &value, &stores);
    linkspan_commit(table, MOST_WORDS, WHOLE, &value, &stores);
    mark_is(2, 1, LINKSPAN_RUNNING, largest);
}

int main(void)
{
    every_geometry();
    after_calls();
    largest_number();
    printf("%" PRIu64 " places, fields and codes compared, %" PRIu64 " differences\n", compared, faults);
    return faults != 0;
}
