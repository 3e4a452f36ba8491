/*
 * A table by its owners. Four machines keep three berths' lengths, each machine its own words alone.
 * Who makes a call gathers the words, has the call's stores one by one from the library, and sends
 * each to its owner. A commit stops in the middle of its list, and a machine is lost: its words are
 * gone, and zeros are handed in for them. The restore is broken off too, and begun again. A table in
 * one slice goes along: after every call the words gathered must be its words.
 */
#include "../linkspan.h"

#include <inttypes.h>
#include <stdio.h>
#include <stdlib.h>
#include <string.h>

enum { MACHINES = 4, BERTHS = 3, FRAMES = 6, ROW = LINKSPAN_ENTRY_WORDS * BERTHS, WORDS = 1 + MACHINES * (1 + ROW) };

/* What each machine keeps; a lost one keeps nothing. */
static struct {
    uint64_t geometry, mark, row[ROW];
    int lost;
} machines[MACHINES];

static uint64_t one_slice[WORDS];

enum kind { FORMAT, WRITE, OPEN, CREATE, COMMIT, RECOVER };
static const char *const names[] = {"format", "write", "open", "create", "commit", "recover"};

struct call {
    enum kind kind;
    uint64_t machine, berth, metres;
};

static uint64_t make(struct call call, uint64_t *table, uint64_t limit, uint64_t *stores)
{
    uint64_t scratch[BERTHS + MACHINES], value;
    if (call.kind == FORMAT)
        return linkspan_format(table, WORDS, MACHINES, BERTHS, FRAMES, limit, &value, stores);
    if (call.kind == WRITE)
        return linkspan_write(table, WORDS, call.machine, call.berth, call.metres, limit, &value, stores);
    if (call.kind == OPEN)
        return linkspan_open(table, WORDS, limit, &value, stores);
    if (call.kind == CREATE)
        return linkspan_create(table, WORDS, limit, &value, stores);
    if (call.kind == COMMIT)
        return linkspan_commit(table, WORDS, limit, &value, stores);
    return linkspan_recover(table, WORDS, 0, call.machine, scratch, BERTHS + MACHINES, limit, &value, stores);
}

/* One slice of everybody's words; zeros for those of a lost machine. */
static void gather(uint64_t *table)
{
    memset(table, 0, WORDS * sizeof *table);
    for (uint64_t node = 0; node < MACHINES; node++) {
        if (machines[node].lost)
            continue;
        table[LINKSPAN_GEOMETRY_AT] = machines[node].geometry;
        table[linkspan_mark_at(node)] = machines[node].mark;
        memcpy(table + linkspan_row_at(MACHINES, BERTHS, node), machines[node].row, sizeof machines[node].row);
    }
}

/* Over a network: returns when the word stands at its owner. What goes to a lost machine is never looked at. */
static void send_word(uint64_t place, uint64_t word)
{
    uint64_t owner = linkspan_owner_of(MACHINES, BERTHS, place);
    if (owner == LINKSPAN_EVERYBODY) {
        for (uint64_t node = 0; node < MACHINES; node++)
            machines[node].geometry = word;
    } else if (place == linkspan_mark_at(owner)) {
        machines[owner].mark = word;
    } else {
        machines[owner].row[place - linkspan_row_at(MACHINES, BERTHS, owner)] = word;
    }
}

/* Sends the first `most` stores of the call, one by one: how many changed a word. */
static uint64_t send_stores(struct call call, uint64_t most)
{
    uint64_t gathered[WORDS], last[WORDS], next[WORDS], stores, sent = 0;
    gather(gathered);
    memcpy(last, gathered, sizeof last);
    for (uint64_t limit = 1; limit <= most; limit++) {
        memcpy(next, gathered, sizeof next);
        make(call, next, limit, &stores);
        if (stores < limit)
            break;
        for (uint64_t place = 0; place < WORDS; place++)
            if (next[place] != last[place]) {
                send_word(place, next[place]);
                sent++;
            }
        memcpy(last, next, sizeof last);
    }
    return sent;
}

/* The call by its owners and on the one slice: the words must be the same. */
static uint64_t carry_out(struct call call, uint64_t most)
{
    uint64_t gathered[WORDS], stores, sent = send_stores(call, most);
    uint64_t answer = make(call, one_slice, most, &stores);
    gather(gathered);
    if (memcmp(gathered, one_slice, sizeof gathered) != 0) {
        printf("after %s the words gathered are not the table's\n", names[call.kind]);
        exit(1);
    }
    printf("%s%s: answer %" PRIu64 ", %" PRIu64 " stores, %" PRIu64 " sent\n", names[call.kind],
           most == LINKSPAN_WHOLE ? "" : ", broken off", answer, stores, sent);
    return answer;
}

/* A save whose last step stops after so many stores. */
static void save(uint64_t most)
{
    carry_out((struct call){OPEN, 0, 0, 0}, LINKSPAN_WHOLE);
    while (carry_out((struct call){CREATE, 0, 0, 0}, LINKSPAN_WHOLE) == LINKSPAN_DONE)
        ;
    carry_out((struct call){COMMIT, 0, 0, 0}, most);
}

/* Read on a copy: nobody's words change. */
static void print_plan(uint64_t machine)
{
    uint64_t gathered[WORDS], value, stores;
    gather(gathered);
    printf("machine %" PRIu64 " reads:", machine);
    for (uint64_t berth = 0; berth < BERTHS; berth++) {
        linkspan_read(gathered, WORDS, machine, berth, LINKSPAN_WHOLE, &value, &stores);
        printf(" %" PRIu64, value);
    }
    printf("\n");
}

static void lose(uint64_t node)
{
    memset(&machines[node], 0xff, sizeof machines[node]);
    machines[node].lost = 1;
    one_slice[linkspan_mark_at(node)] = 0;
    memset(one_slice + linkspan_row_at(MACHINES, BERTHS, node), 0, ROW * sizeof *one_slice);
    printf("machine %" PRIu64 " is lost, with its words\n", node);
}

int main(void)
{
    carry_out((struct call){FORMAT, 0, 0, 0}, LINKSPAN_WHOLE);
    for (uint64_t berth = 0; berth < BERTHS; berth++)
        carry_out((struct call){WRITE, berth, berth, 100 + 10 * berth}, LINKSPAN_WHOLE);
    save(LINKSPAN_WHOLE);
    print_plan(3);
    carry_out((struct call){WRITE, 1, 0, 205}, LINKSPAN_WHOLE);
    carry_out((struct call){WRITE, 3, 2, 175}, LINKSPAN_WHOLE);
    save(2);
    lose(1);
    carry_out((struct call){RECOVER, 1, 0, 0}, 4);
    carry_out((struct call){RECOVER, 1, 0, 0}, LINKSPAN_WHOLE);
    print_plan(2);
    return 0;
}
