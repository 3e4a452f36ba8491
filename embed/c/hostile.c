/*
 * Hostile input through the C interface: any lengths, any words, any numbers.
 *
 * Every slice and every result word is allocated by itself and exactly as long as the library is
 * told, so that valgrind (or a sanitizer) sees any access outside. After each call:
 *   - the answer is one that the call can give;
 *   - on a refusal, and on 17, table and scratch are word for word as before, results are 0;
 *   - otherwise no more stores than the limit and no more words changed than stores, none of them
 *     past the table's own words; a whole call leaves a sound table; a recovery leaves the scratch
 *     as promised; a commit is as long as it was told to be;
 *   - a create finds a home while at most one node is dead, or a node has a frame for every place.
 *
 * Usage: hostile [CALLS [SEED]]
 */
#include "../linkspan.h"

#include <inttypes.h>
#include <stdio.h>
#include <stdlib.h>
#include <string.h>

/* Random numbers from a seed (SplitMix64). */

static uint64_t seed_state;

static uint64_t word(void)
{
    uint64_t mixed = seed_state += UINT64_C(0x9e3779b97f4a7c15);
    mixed = (mixed ^ mixed >> 30) * UINT64_C(0xbf58476d1ce4e5b9);
    mixed = (mixed ^ mixed >> 27) * UINT64_C(0x94d049bb133111eb);
    return mixed ^ mixed >> 31;
}

static uint64_t below(uint64_t end)
{
    return word() % end;
}

static uint64_t any_number(void)
{
    static const uint64_t edges[] = {
        0, 1, 2, 3, 4, 15, 16, 17, 255, 256, 257, 511, 512, 513,
        UINT64_C(1) << 31, UINT64_C(1) << 32, UINT64_C(1) << 61, UINT64_C(1) << 63, UINT64_MAX - 1, UINT64_MAX,
    };
    switch (below(4)) {
    case 0:
        return word();
    case 1:
        return edges[below(sizeof edges / sizeof *edges)];
    default:
        return below(6);
    }
}

/* Slices of exactly the length that the library is told. */

struct slice {
    uint64_t *words;
    size_t length;
};

static void *allocated(size_t bytes)
{
    void *block = malloc(bytes ? bytes : 1);
    if (!block) {
        puts("out of memory");
        exit(2);
    }
    return block;
}

/* An empty slice has no word at all behind its pointer, which may be null. */
static struct slice new_slice(size_t length)
{
    struct slice slice = {NULL, length};
    if (length || below(2))
        slice.words = length ? allocated(length * sizeof(uint64_t)) : malloc(0);
    return slice;
}

static struct slice copy_of(struct slice original)
{
    struct slice copy = new_slice(original.length);
    if (original.length)
        memcpy(copy.words, original.words, original.length * sizeof(uint64_t));
    return copy;
}

static int same_words(struct slice one, struct slice other)
{
    return one.length == 0 || memcmp(one.words, other.words, one.length * sizeof(uint64_t)) == 0;
}

/* Tables. */

struct geometry {
    uint64_t nodes, items, frames;
};

/* The numbers in the first word, allowed or not. */
static struct geometry geometry_of(struct slice table)
{
    uint64_t first = table.length ? table.words[0] : 0;
    struct geometry geometry = {first >> 55 & 31, first >> 46 & 511, first >> 36 & 1023};
    return geometry;
}

static uint64_t first_word(struct geometry geometry)
{
    return geometry.nodes << 55 | geometry.items << 46 | geometry.frames << 36;
}

/* Mostly few frames; allowed are as many as a node has places, and all from `enough` to 512. */
static struct geometry small_geometry(void)
{
    struct geometry geometry = {3 + below(5), 1 + below(4), 0};
    if (below(40) == 0) {
        geometry.nodes = 3 + below(14);
        geometry.items = 1 + below(256);
    }
    uint64_t enough = (4 * geometry.items - 1 + geometry.nodes - 3) / (geometry.nodes - 2);
    uint64_t places = 2 * geometry.items;
    geometry.frames = (enough < places ? enough : places) + below(3);
    if (geometry.frames < enough || geometry.frames > 512)
        geometry.frames = places;
    return geometry;
}

/* At most one node is dead, or a node has a frame for every place: a create finds a home. */
static int has_home(struct slice table)
{
    struct geometry geometry = geometry_of(table);
    uint64_t dead = 0;
    for (uint64_t node = 0; node < geometry.nodes && 1 + node < table.length; node++)
        dead += table.words[1 + node] == 0;
    return dead < 2 || geometry.frames >= 2 * geometry.items;
}

/* Words without any order. */
static struct slice noise(void)
{
    struct slice table = new_slice(below(3) ? below(60) : below(700));
    for (size_t place = 0; place < table.length; place++)
        table.words[place] = below(2) ? word() : below(8) << below(64);
    if (table.length && below(4)) {
        struct geometry geometry = small_geometry();
        table.words[0] = first_word(geometry);
    }
    return table;
}

/* All nodes but three are lost, those write an item each, and a checkpoint is opened: a create may find no home. */
static void drain(struct slice table, struct geometry geometry)
{
    uint64_t scratch[256 + 16], value, stores;
    for (uint64_t lost = geometry.nodes - 1; lost > 2; lost--)
        linkspan_recover(table.words, table.length, 0, lost, scratch, 256 + 16, LINKSPAN_WHOLE, &value, &stores);
    for (uint64_t node = 0; node < 3; node++)
        linkspan_write(table.words, table.length, node, below(geometry.items), below(4), LINKSPAN_WHOLE, &value,
                       &stores);
    linkspan_open(table.words, table.length, LINKSPAN_WHOLE, &value, &stores);
}

/* A table that a run of calls leaves, some of them cut off; its answers are of no interest here. */
static struct slice reached(void)
{
    struct geometry geometry = small_geometry();
    struct slice table = new_slice(linkspan_words(geometry.nodes, geometry.items) + below(3));
    uint64_t scratch[256 + 16], value, stores, calls = below(30);
    for (size_t place = 0; place < table.length; place++)
        table.words[place] = word();
    memset(scratch, 0xff, sizeof scratch);
    uint64_t places = 2 * geometry.items;
    linkspan_format(table.words, table.length, geometry.nodes, geometry.items,
                    geometry.frames < places ? geometry.frames : places, LINKSPAN_WHOLE, &value, &stores);
    if (geometry.frames > places) /* as an earlier library formatted it */
        table.words[0] = first_word(geometry);
    if (below(8) == 0) {
        drain(table, geometry);
        return table;
    }
    while (calls--) {
        uint64_t node = below(geometry.nodes), item = below(geometry.items);
        uint64_t limit = below(20) ? LINKSPAN_WHOLE : below(5);
        switch (below(11)) {
        case 10:
            linkspan_recover(table.words, table.length, below(2), node, scratch, 256 + 16, limit, &value, &stores);
            break;
        case 0:
            linkspan_open(table.words, table.length, limit, &value, &stores);
            break;
        case 1:
        case 2:
            linkspan_create(table.words, table.length, limit, &value, &stores);
            break;
        case 3:
            linkspan_commit(table.words, table.length, limit, &value, &stores);
            break;
        case 4:
            linkspan_evict(table.words, table.length, node, item, below(2), limit, &value, &stores);
            break;
        case 5:
        case 6:
        case 7:
            linkspan_write(table.words, table.length, node, item, below(4), limit, &value, &stores);
            break;
        default:
            linkspan_read(table.words, table.length, node, item, limit, &value, &stores);
        }
    }
    return table;
}

/* Bits flipped, words replaced, or the slice cut short. */
static struct slice damaged(struct slice table)
{
    struct geometry geometry = geometry_of(table);
    for (uint64_t times = 1 + below(3); times--;) {
        size_t place = below(2) ? below(1 + geometry.nodes) : below(table.length);
        switch (below(4)) {
        case 0:
            table.words[place] ^= UINT64_C(1) << below(64);
            break;
        case 1:
            table.words[place] = any_number();
            break;
        case 2:
            table.words[place] = below(64) << 58;
            break;
        default:
            table.words[place] = UINT64_C(1) << 63 | below(4) << 61 | below(3) << 29;
        }
    }
    if (below(8) == 0) {
        struct slice whole = table;
        whole.length = below(table.length + 1);
        struct slice shorter = copy_of(whole);
        free(table.words);
        return shorter;
    }
    return table;
}

static struct slice any_table(void)
{
    switch (below(4)) {
    case 0:
        return noise();
    case 1:
        return reached();
    default:
        return damaged(reached());
    }
}

/* Calls. */

enum call { WORDS, CHECK, STRETCH, FORMAT, READ, WRITE, EVICT, OPEN, CREATE, COMMIT, LENGTH, ABANDON, RECOVER, CALLS };

static const char *const names[CALLS] = {
    "words", "check", "stretch", "format", "read", "write",
    "evict", "open", "create", "commit", "length", "abandon", "recover",
};

#define CAN(answer) (UINT64_C(1) << (answer))
#define TABLE_CHECKS (CAN(0) | CAN(1) | CAN(2) | CAN(3))
#define ADDRESSED (TABLE_CHECKS | CAN(4) | CAN(5) | CAN(6) | CAN(7))

/* The answers that each call can give. */
static const uint64_t possible[CALLS] = {
    CAN(0),
    TABLE_CHECKS,
    CAN(0) | CAN(1) | CAN(3) | CAN(4),
    CAN(0) | CAN(1) | CAN(3) | CAN(20),
    ADDRESSED | CAN(9),
    ADDRESSED | CAN(9),
    ADDRESSED | CAN(10) | CAN(11) | CAN(18),
    TABLE_CHECKS | CAN(7) | CAN(13),
    TABLE_CHECKS | CAN(8) | CAN(11) | CAN(17),
    TABLE_CHECKS | CAN(8) | CAN(12),
    TABLE_CHECKS | CAN(8) | CAN(12),
    TABLE_CHECKS | CAN(8),
    TABLE_CHECKS | CAN(4) | CAN(14) | CAN(15) | CAN(16) | CAN(18),
};

enum { MOST_ANSWER = 20 };

static uint64_t met[CALLS][MOST_ANSWER + 1];
static uint64_t made, faults;

static void fault(enum call call, uint64_t answer, const char *what)
{
    if (faults++ < 10)
        printf("call %" PRIu64 ", %s answered %" PRIu64 ": %s\n", made, names[call], answer, what);
}

/* One call with its slices, results and what they were before. */
struct trial {
    enum call call;
    struct slice table, table_before, scratch, scratch_before;
    /* The place of an eviction, or a recovery's `none`: 0 or 1, and anything else is answered with 18. */
    uint64_t choice;
    uint64_t limit, answer, *value, *stores;
};

static uint64_t make_call(struct trial *trial)
{
    uint64_t *table = trial->table.words, *value = trial->value, *stores = trial->stores;
    size_t length = trial->table.length;
    uint64_t limit = trial->limit, one = any_number(), two = any_number();
    struct geometry geometry = small_geometry();
    switch (trial->call) {
    case CHECK:
        *value = *stores = 0;
        return linkspan_check(table, length);
    case STRETCH:
        return linkspan_stretch(table, length, one, value, stores);
    case FORMAT:
        if (below(2))
            return linkspan_format(table, length, one, two, any_number(), limit, value, stores);
        return linkspan_format(table, length, geometry.nodes, geometry.items, geometry.frames, limit, value, stores);
    case READ:
        return linkspan_read(table, length, one, two, limit, value, stores);
    case WRITE:
        return linkspan_write(table, length, one, two, any_number(), limit, value, stores);
    case EVICT:
        return linkspan_evict(table, length, one, two, trial->choice, limit, value, stores);
    case OPEN:
        return linkspan_open(table, length, limit, value, stores);
    case CREATE:
        return linkspan_create(table, length, limit, value, stores);
    case COMMIT:
        return linkspan_commit(table, length, limit, value, stores);
    case LENGTH:
        *stores = 0;
        return linkspan_commit_length(table, length, value);
    case ABANDON:
        return linkspan_abandon(table, length, limit, value, stores);
    case RECOVER:
        return linkspan_recover(table, length, trial->choice, one, trial->scratch.words, trial->scratch.length, limit,
                                value, stores);
    default:
        *value = *stores = 0;
        linkspan_words(one, two);
        return 0;
    }
}

static void judge_refused(const struct trial *trial)
{
    if (!same_words(trial->table, trial->table_before))
        fault(trial->call, trial->answer, "the table was changed");
    if (!same_words(trial->scratch, trial->scratch_before))
        fault(trial->call, trial->answer, "the scratch was changed");
    if (*trial->value || *trial->stores)
        fault(trial->call, trial->answer, "value and stores are not 0");
}

static void judge_stretch(const struct trial *trial)
{
    size_t length = trial->table.length;
    if (*trial->value > length || *trial->stores > length - *trial->value)
        fault(trial->call, trial->answer, "the stretch is not within the table");
    if (!same_words(trial->table, trial->table_before))
        fault(trial->call, trial->answer, "the table was changed");
}

/* The commit that follows makes as many stores. */
static void judge_length(const struct trial *trial)
{
    uint64_t value, stores;
    if (!same_words(trial->table, trial->table_before))
        fault(trial->call, trial->answer, "the table was changed");
    if (linkspan_commit(trial->table.words, trial->table.length, LINKSPAN_WHOLE, &value, &stores) != 0 ||
        stores != *trial->value)
        fault(trial->call, trial->answer, "the commit is not as long");
}

static void judge_scratch(const struct trial *trial)
{
    struct geometry geometry = geometry_of(trial->table_before);
    for (size_t place = 0; place < trial->scratch.length; place++) {
        int cleared = trial->call == RECOVER && place < geometry.items + geometry.nodes;
        if (trial->scratch.words[place] != (cleared ? 0 : trial->scratch_before.words[place])) {
            fault(trial->call, trial->answer, "the scratch is not as promised");
            return;
        }
    }
}

static void judge_done(const struct trial *trial)
{
    struct geometry after = geometry_of(trial->table);
    uint64_t changed = 0, past = 0;
    uint64_t own = 1 + after.nodes + 3 * after.nodes * after.items;
    int whole = trial->limit >= UINT64_C(1) << 16;
    for (size_t place = 0; place < trial->table.length; place++)
        if (trial->table.words[place] != trial->table_before.words[place]) {
            changed++;
            past += place >= own;
        }
    if (*trial->stores > trial->limit)
        fault(trial->call, trial->answer, "more stores than the limit");
    if (changed > *trial->stores)
        fault(trial->call, trial->answer, "more words changed than stores");
    if (past && whole)
        fault(trial->call, trial->answer, "words past the table were changed");
    if (*trial->value && trial->call != READ)
        fault(trial->call, trial->answer, "the value is not 0");
    if (whole && trial->call != WORDS && linkspan_check(trial->table.words, trial->table.length) != 0)
        fault(trial->call, trial->answer, "the table left is not sound");
    judge_scratch(trial);
}

static void judge(const struct trial *trial)
{
    if (trial->answer > MOST_ANSWER || !(possible[trial->call] >> trial->answer & 1)) {
        fault(trial->call, trial->answer, "the call has no such answer");
        return;
    }
    if ((trial->call == EVICT || trial->call == RECOVER) && (trial->choice > 1) != (trial->answer == 18))
        fault(trial->call, trial->answer, "18 is not given exactly where the choice is above 1");
    if (trial->call == CREATE && trial->answer == LINKSPAN_NO_HOME && has_home(trial->table_before))
        fault(trial->call, trial->answer, "there is a home");
    met[trial->call][trial->answer]++;
    if (trial->answer != 0)
        judge_refused(trial);
    else if (trial->call == STRETCH)
        judge_stretch(trial);
    else if (trial->call == LENGTH)
        judge_length(trial);
    else if (trial->call != WORDS)
        judge_done(trial);
}

static struct slice any_scratch(struct slice table)
{
    struct geometry geometry = geometry_of(table);
    uint64_t enough = geometry.items + geometry.nodes;
    struct slice scratch = new_slice(below(4) ? enough + below(3) : below(enough + 1));
    for (size_t place = 0; place < scratch.length; place++)
        scratch.words[place] = word();
    return scratch;
}

static void one_trial(void)
{
    struct trial trial;
    trial.call = below(CALLS + 3);
    if (trial.call >= CALLS)
        trial.call = RECOVER;
    trial.table = any_table();
    trial.table_before = copy_of(trial.table);
    trial.scratch = any_scratch(trial.table);
    trial.scratch_before = copy_of(trial.scratch);
    trial.limit = below(2) ? LINKSPAN_WHOLE : any_number();
    trial.choice = below(4) ? below(2) : any_number();
    trial.value = allocated(sizeof(uint64_t));
    trial.stores = allocated(sizeof(uint64_t));
    *trial.value = *trial.stores = UINT64_C(0xdeadbeefdeadbeef);
    trial.answer = make_call(&trial);
    made++;
    judge(&trial);
    free(trial.table.words);
    free(trial.table_before.words);
    free(trial.scratch.words);
    free(trial.scratch_before.words);
    free(trial.value);
    free(trial.stores);
}

static void print_met(void)
{
    for (int call = 0; call < CALLS; call++) {
        printf("  %-8s", names[call]);
        for (int answer = 0; answer <= MOST_ANSWER; answer++)
            if (met[call][answer])
                printf(" %d: %" PRIu64, answer, met[call][answer]);
        printf("\n");
    }
}

int main(int count, char **arguments)
{
    uint64_t calls = count > 1 ? strtoull(arguments[1], NULL, 10) : 100000;
    seed_state = count > 2 ? strtoull(arguments[2], NULL, 10) : 1;
    while (made < calls)
        one_trial();
    puts("answers met, with the number of calls:");
    print_met();
    printf("%" PRIu64 " hostile calls, %" PRIu64 " faults\n", made, faults);
    return faults != 0;
}
