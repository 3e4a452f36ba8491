/*
 * A harbour's day. Four machines share the lengths, in metres, of six berths. The lengths are
 * written and saved; later two of them change, and in the middle of the next save a machine is lost.
 * What the plan says afterwards is all of the old save or all of the new one.
 */
#include "../linkspan.h"

#include <inttypes.h>
#include <stdio.h>
#include <stdlib.h>
#include <string.h>

enum { MACHINES = 4, BERTHS = 6, FRAMES = 12, WORDS = 1 + MACHINES + 3 * MACHINES * BERTHS };

static const uint64_t WHOLE = LINKSPAN_WHOLE;

/* The answer must be the one expected: this day has no other surprises than the lost machine. */
static void expect(const char *call, uint64_t answer, uint64_t expected)
{
    if (answer != expected) {
        printf("%s answered %" PRIu64 ", not %" PRIu64 "\n", call, answer, expected);
        exit(1);
    }
}

static void write_length(uint64_t *table, uint64_t machine, uint64_t berth, uint64_t metres)
{
    uint64_t value, stores;
    expect("write", linkspan_write(table, WORDS, machine, berth, metres, WHOLE, &value, &stores), LINKSPAN_DONE);
    printf("machine %" PRIu64 " writes berth %" PRIu64 ": %" PRIu64 " m (%" PRIu64 " stores)\n",
           machine, berth, metres, stores);
}

/* What the plan says, as one machine reads it. */
static void print_plan(const char *when, uint64_t *table, uint64_t machine)
{
    uint64_t total = 0, value, stores;
    printf("%s, machine %" PRIu64 " reads:", when, machine);
    for (uint64_t berth = 0; berth < BERTHS; berth++) {
        expect("read", linkspan_read(table, WORDS, machine, berth, WHOLE, &value, &stores), LINKSPAN_DONE);
        printf(" %" PRIu64, value);
        total += value;
    }
    printf(", %" PRIu64 " m in all\n", total);
}

/* The first two steps of a save: it is opened, and every changed berth gets its new copies. Sailings are held for the
   last step alone, whose stores are known from here on. */
static void prepare_save(uint64_t *table)
{
    uint64_t value, stores, answer, length, berths = 0;
    expect("open", linkspan_open(table, WORDS, WHOLE, &value, &stores), LINKSPAN_DONE);
    while ((answer = linkspan_create(table, WORDS, WHOLE, &value, &stores)) == LINKSPAN_DONE)
        berths++;
    expect("create", answer, LINKSPAN_NOTHING_LEFT);
    expect("commit_length", linkspan_commit_length(table, WORDS, &length), LINKSPAN_DONE);
    printf("a save is opened: new copies of %" PRIu64 " berths; its commit is %" PRIu64 " stores\n", berths, length);
}

/* The last step, up to a number of stores. */
static void commit(uint64_t *table, uint64_t limit)
{
    uint64_t value, stores;
    expect("commit", linkspan_commit(table, WORDS, limit, &value, &stores), LINKSPAN_DONE);
    printf("stores made by the commit: %" PRIu64 "\n", stores);
}

/* Nothing of the machine's words is left. */
static void lose(uint64_t *table, uint64_t machine)
{
    uint64_t start, words;
    expect("stretch", linkspan_stretch(table, WORDS, machine, &start, &words), LINKSPAN_DONE);
    memset(table + start, 0xff, words * sizeof *table);
    table[1 + machine] = UINT64_MAX;
    printf("machine %" PRIu64 " is lost; check answers %" PRIu64 "\n", machine, linkspan_check(table, WORDS));
}

static void restore(uint64_t *table, uint64_t machine)
{
    uint64_t scratch[BERTHS + MACHINES], value, stores;
    expect("recover",
           linkspan_recover(table, WORDS, 0, machine, scratch, BERTHS + MACHINES, WHOLE, &value, &stores),
           LINKSPAN_DONE);
    printf("restored without machine %" PRIu64 " (%" PRIu64 " stores); check answers %" PRIu64 "\n",
           machine, stores, linkspan_check(table, WORDS));
}

/* The save breaks off after so many stores, and a machine is lost; on a copy of the table. */
static void rehearse(const uint64_t *before, uint64_t limit, uint64_t lost, uint64_t reader)
{
    uint64_t table[WORDS], value, stores;
    memcpy(table, before, sizeof table);
    commit(table, limit);
    lose(table, lost);
    restore(table, lost);
    print_plan("after the restore", table, reader);
    printf("machine %" PRIu64 " reads: refused, %" PRIu64 "\n", lost,
           linkspan_read(table, WORDS, lost, 0, WHOLE, &value, &stores));
}

int main(void)
{
    static const uint64_t lengths[BERTHS] = {120, 180, 95, 240, 310, 150};
    uint64_t table[WORDS], value, stores;

    expect("words", linkspan_words(MACHINES, BERTHS), WORDS);
    expect("format", linkspan_format(table, WORDS, MACHINES, BERTHS, FRAMES, WHOLE, &value, &stores), LINKSPAN_DONE);
    printf("morning: %d machines, %d berths, %" PRIu64 " words\n", MACHINES, BERTHS, stores);
    for (uint64_t berth = 0; berth < BERTHS; berth++)
        write_length(table, berth % MACHINES, berth, lengths[berth]);
    prepare_save(table);
    commit(table, WHOLE);
    print_plan("noon", table, 1);

    write_length(table, 2, 3, 205);
    write_length(table, 0, 5, 175);
    print_plan("before the evening's save", table, 1);
    prepare_save(table);

    printf("-- the save breaks off when only machine 0 has heard of it, and machine 0 is lost\n");
    rehearse(table, 1, 0, 1);
    printf("-- the save breaks off when machines 0, 1 and 2 have heard of it, and machine 2 is lost\n");
    rehearse(table, 3, 2, 1);
    return 0;
}
