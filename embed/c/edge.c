/*
 * The edge of the promise: two things that a caller must see to, because no answer tells of them.
 *
 * A machine lost while a recovery that names none is under way. The new save may then come back in
 * part, beside a part of the old one, and the answer is 0. So: end a recovery that names none before
 * anything else can happen; if a machine is lost before its end, format anew. If in doubt whether a
 * machine is lost, name it from the start: if it is lost meanwhile, that recovery is begun again.
 *
 * A recovery that was broken off may leave a table that passes the check. Some items are back, others
 * are not: sound does not mean restored. So: remember outside of the table that a recovery is under
 * way, and begin it again, with the same name, before anything else is done to the table.
 */
#include "../linkspan.h"

#include <inttypes.h>
#include <stdio.h>
#include <stdlib.h>
#include <string.h>

enum { ITEMS = 2, FRAMES = 4, MOST_MACHINES = 4, MOST_WORDS = 1 + MOST_MACHINES + 3 * MOST_MACHINES * ITEMS };

static const uint64_t WHOLE = LINKSPAN_WHOLE;

/* As the name of a recovery. */
static const uint64_t NONE = UINT64_MAX;

struct plan {
    uint64_t words[MOST_WORDS];
    size_t length;
};

/* The answer must be the one expected: what is shown here is that answers do not tell. */
static void expect(const char *call, uint64_t answer, uint64_t expected)
{
    if (answer != expected) {
        printf("%s answered %" PRIu64 ", not %" PRIu64 "\n", call, answer, expected);
        exit(1);
    }
}

static struct plan formatted(uint64_t machines)
{
    struct plan plan = {{0}, linkspan_words(machines, ITEMS)};
    uint64_t value, stores;
    expect("format", linkspan_format(plan.words, plan.length, machines, ITEMS, FRAMES, WHOLE, &value, &stores),
           LINKSPAN_DONE);
    printf("%" PRIu64 " machines, %d items: every value is 0, and saved\n", machines, ITEMS);
    return plan;
}

static void write_item(struct plan *plan, uint64_t machine, uint64_t item, uint64_t new_value)
{
    uint64_t value, stores;
    expect("write", linkspan_write(plan->words, plan->length, machine, item, new_value, WHOLE, &value, &stores),
           LINKSPAN_DONE);
    printf("machine %" PRIu64 " writes item %" PRIu64 ": %" PRIu64 "\n", machine, item, new_value);
}

/* A save, its last step up to a number of stores. */
static void save(struct plan *plan, uint64_t limit)
{
    uint64_t value, stores, answer;
    expect("open", linkspan_open(plan->words, plan->length, WHOLE, &value, &stores), LINKSPAN_DONE);
    while ((answer = linkspan_create(plan->words, plan->length, WHOLE, &value, &stores)) == LINKSPAN_DONE)
        ;
    expect("create", answer, LINKSPAN_NOTHING_LEFT);
    expect("commit", linkspan_commit(plan->words, plan->length, limit, &value, &stores), LINKSPAN_DONE);
    printf("a save; stores made by its commit: %" PRIu64 "\n", stores);
}

/* Nothing of the machine's words is left. */
static void lose(struct plan *plan, uint64_t machine)
{
    uint64_t start, words;
    expect("stretch", linkspan_stretch(plan->words, plan->length, machine, &start, &words), LINKSPAN_DONE);
    memset(plan->words + start, 0xff, words * sizeof *plan->words);
    plan->words[linkspan_mark_at(machine)] = UINT64_MAX;
    printf("machine %" PRIu64 " is lost\n", machine);
}

static void recover(struct plan *plan, uint64_t lost, uint64_t limit)
{
    uint64_t scratch[ITEMS + MOST_MACHINES], value, stores;
    uint64_t answer = linkspan_recover(plan->words, plan->length, lost == NONE, lost, scratch,
                                       ITEMS + MOST_MACHINES, limit, &value, &stores);
    expect("recover", answer, LINKSPAN_DONE);
    printf("recover, naming ");
    if (lost == NONE)
        printf("none");
    else
        printf("machine %" PRIu64, lost);
    printf("%s: answer %" PRIu64 ", %" PRIu64 " stores\n", limit == WHOLE ? "" : ", broken off", answer, stores);
}

static void check(const struct plan *plan)
{
    printf("check: answer %" PRIu64 "\n", linkspan_check(plan->words, plan->length));
}

/* What a machine reads, on a copy: a read may store. */
static void print_items(struct plan copy, uint64_t machine)
{
    uint64_t value, stores;
    printf("machine %" PRIu64 " reads:", machine);
    for (uint64_t item = 0; item < ITEMS; item++) {
        expect("read", linkspan_read(copy.words, copy.length, machine, item, WHOLE, &value, &stores), LINKSPAN_DONE);
        printf(" %" PRIu64, value);
    }
    printf("\n");
}

/* The new save is 101 and 100, the old one 0 and 0; machine 0 alone has heard of the new one. */
static struct plan save_broken_off(void)
{
    struct plan plan = formatted(3);
    write_item(&plan, 0, 1, 100);
    write_item(&plan, 0, 0, 101);
    save(&plan, 1);
    return plan;
}

/* The recovery names `name` and breaks off, or not; then machine 0 is lost, and recovered from. */
static void machine_0_lost(struct plan plan, uint64_t name, uint64_t limit)
{
    recover(&plan, name, limit);
    lose(&plan, 0);
    recover(&plan, 0, WHOLE);
    check(&plan);
    print_items(plan, 1);
}

/* A program that takes the check's word for it saves what it finds. */
static void taken_for_restored(struct plan plan)
{
    save(&plan, WHOLE);
    recover(&plan, NONE, WHOLE);
    print_items(plan, 0);
}

static struct plan half_restored(void)
{
    struct plan plan = formatted(4);
    write_item(&plan, 0, 0, 100);
    write_item(&plan, 1, 1, 101);
    recover(&plan, NONE, 5);
    check(&plan);
    print_items(plan, 0);
    return plan;
}

int main(void)
{
    struct plan plan = save_broken_off();
    printf("-- a machine is lost while a recovery that names none is under way: part new, part old\n");
    machine_0_lost(plan, NONE, 3);
    printf("-- the same, but the recovery that names none has ended: all new\n");
    machine_0_lost(plan, NONE, WHOLE);
    printf("-- the same, but the machine in doubt is named from the start: all old\n");
    machine_0_lost(plan, 0, 3);

    printf("-- a recovery that was broken off leaves a table that passes the check: one item back, one not\n");
    plan = half_restored();
    printf("-- if a program takes it for restored, and saves: that is the save from then on\n");
    taken_for_restored(plan);
    printf("-- if the recovery is begun again first: all of the last save\n");
    recover(&plan, NONE, WHOLE);
    check(&plan);
    print_items(plan, 0);
    return 0;
}
