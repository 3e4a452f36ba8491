/*
 * linkspan.h: shared memory for planning programs, with a saved copy to go back to.
 *
 * A table is a slice of 64-bit words that YOU own and lend to each call. It holds up to 256 items
 * (64-bit values) for up to 16 nodes (machines). A node reads and writes items; a save (a
 * checkpoint) makes the present values the saved ones; when a node is lost, a recovery brings every
 * item back to its saved value from the words of the nodes that are left. The library has no memory
 * of its own, never allocates, never blocks, takes no locks and keeps nothing between calls.
 *
 * Five minutes:
 *
 *     uint64_t table[193];           // linkspan_words(3, 21) is 193
 *     uint64_t scratch[21 + 3];      // items + nodes
 *     uint64_t value, stores;
 *     const uint64_t whole = LINKSPAN_WHOLE;
 *
 *     linkspan_format(table, 193, 3, 21, 42, whole, &value, &stores);  // every value is 0
 *     linkspan_write(table, 193, 0, 5, 180, whole, &value, &stores);   // node 0: item 5 is 180
 *     linkspan_read(table, 193, 2, 5, whole, &value, &stores);         // node 2: value is 180
 *
 *     linkspan_open(table, 193, whole, &value, &stores);               // a save begins,
 *     while (linkspan_create(table, 193, whole, &value, &stores) == LINKSPAN_DONE)
 *         ;                                                            // its copies are made,
 *     linkspan_commit(table, 193, whole, &value, &stores);             // and it stands
 *
 *     linkspan_write(table, 193, 1, 5, 175, whole, &value, &stores);   // then node 1 is lost:
 *     linkspan_recover(table, 193, 0, 1, scratch, 24, whole, &value, &stores);
 *     linkspan_read(table, 193, 2, 5, whole, &value, &stores);         // value is 180 again
 *
 * Link with liblinkspan.a and nothing else.
 *
 *
 * WHAT HOLDS FOR EVERY FUNCTION
 *
 * Answers. The return value is the answer: 0 the call was carried out; 17 (linkspan_create only)
 * there was nothing left to do; any other number is a refusal and says why. The numbers are listed
 * below as LINKSPAN_... and, with each function, in the order in which they are tested: where several
 * reasons hold, the first in that order is given. The conditions are exact: a call to which none
 * applies is carried out.
 *
 * Refusals store nothing. After a refusal (and after 17) the table and the scratch are word for word
 * as before, and *value and *stores are 0.
 *
 * Any input is safe. The words of the table and of the scratch, every length and every number may be
 * anything at all: the answer is then a refusal or a valid result. No function reads or writes
 * outside the `len` words at `table`, the `scratch_len` words at `scratch`, and the words that its
 * pointers to results point to. What you must see to: that those words are there and are aligned as
 * uint64_t; that table, scratch and the result words do not overlap; and that during a call nobody
 * else writes any of them (take a lock of your own, or let one thread make the calls). A pointer to
 * an empty slice (length 0) is not followed. Pointers to results are always followed: never NULL.
 *
 * value and stores. *value is what a read found; for every other call it is 0. *stores is the number
 * of words of the table that the call stored, counting a word again each time it is stored.
 *
 * limit. Every call that stores, stores one word at a time in an order that is laid down. With a
 * limit it makes only the first `limit` of these stores and leaves the table as a machine does that
 * stops in mid-call; *stores is then the number made, while the answer, *value and the scratch are
 * those of the whole call. It is for tests and rehearsals, and for the list of a call's stores (A
 * TABLE BY ITS OWNERS, below). Otherwise pass LINKSPAN_WHOLE; no call makes as many as 2^16 stores.
 * After a call that was cut off, or a machine that stopped in mid-call, the next call is a recovery:
 * WHEN A MACHINE STOPS.
 *
 * Order. What a table holds at every limit is proved. A machine that dies stops between two
 * instructions: that the compiled code makes the same stores there, each once, alone, 8 bytes and in
 * order, is tested on x86-64 (embed/order, embed/kills) and not proved. It rests on the limit being a
 * number that only the caller knows: no call has a fixed limit, and none will. The archive has machine
 * code and no bitcode, so that your link-time optimization cannot reorder it. On other hardware you
 * must see to it that a word is stored whole and that the stores of one machine become visible in
 * their order (docs/RESTORE.md, The hardware).
 *
 *
 * WHEN A MACHINE STOPS
 *
 * A call was broken off, or a machine was lost, or both: the next call is linkspan_recover, naming the
 * lost node, or none if none was lost. (A formatting that was broken off is made again instead.) Every
 * item is back when a recovery has ended, that is, was made whole and answered 0; and this is
 * promised for one lost node, which every attempt at the recovery names. So:
 *
 * 1. Whoever begins a recovery ends it before anything else is done to the table, a check included.
 *    If it is broken off, it is begun again with the same name, as often as that happens.
 * 2. Sound does not mean restored. A recovery that was broken off may leave a table that passes
 *    linkspan_check, some items brought back, others not. So the program itself remembers, outside of
 *    the table, that a recovery is under way and whom it names.
 * 3. Until a recovery that names none has ended, no machine may be lost. If one is, nothing is
 *    promised of the values any more, whatever a recovery then answers, 0 included: part of them may
 *    be of one save and part of another. Format anew.
 * 4. If in doubt whether a machine is lost, name it. A recovery that names it from the start is safe
 *    whether the machine was lost before or not at all; if it is lost while the recovery goes on, begin
 *    that again, with the same name, for the machine's mark may hold anything then. It is dead
 *    afterwards. No other machine may be lost until that recovery has ended. If too few nodes would be
 *    left, the answer is 14 and nothing was stored.
 *
 * embed/c/edge.c shows 2, 3 and 4.
 *
 *
 * WHAT A TABLE HOLDS
 *
 * Geometry: N nodes (3 to 16), M items (1 to 256), F frames per node (1 to 512), allowed if also
 * F = 2 * M or (N - 2) * F >= 4 * M - 1. Nodes and items are counted from 0. A table has
 * 1 + N + 3 * N * M words; a longer slice is fine, the words past these are never touched.
 *
 * F = 2 * M is allowed for every N and M and gives every place of a node a frame of its own: it is the
 * most that linkspan_format takes, and with 3 or 4 nodes the only number. From 5 nodes on fewer will
 * do: 4, 5, 8 for 5 nodes and 3, 4, 6 items, say. They hold four copies of every item while a save is
 * made, so that no save is refused for want of frames while at most one node is dead.
 *
 * Tables that an earlier library formatted: with more than 2 * M frames they go on working, if their
 * geometry is allowed; the frames beyond 2 * M stay unused, and when you format anew, ask for 2 * M at
 * most. With a geometry that is not allowed here, too few frames above all, every call answers 3 and
 * leaves the table as it is: read its values with that library, and write them to a table formatted
 * with frames enough.
 *
 * Each node has an entry for each item, with two places: a current place and a kept place. A copy in
 * a place takes up one of the node's F frames. Current copies have the item's present value; one
 * node is its owner, others may be sharers. Two recovery copies, on two nodes, have the saved value:
 * in the current place while the item has not been written since the save, in the kept place after.
 * So the loss of any one node leaves every item a recovery copy.
 *
 * A node is live or dead. linkspan_format makes all nodes live; linkspan_recover makes the lost one
 * dead, and only linkspan_format brings it back. The words of a dead node, its mark apart,
 * are never read.
 *
 * A table is sound if the calls can work on it: all words in form, no live node over its F frames,
 * the live nodes agreed on the phase and number of the save, and each item either clean, dirty (written
 * since the save) or, in an open checkpoint, created. A whole call, carried out on a sound table,
 * leaves a sound table. You may lend bytes of any origin: every call checks before it stores.
 */
#ifndef LINKSPAN_H
#define LINKSPAN_H

#include <stddef.h>
#include <stdint.h>

#ifdef __cplusplus
extern "C" {
#endif

/* The limit of a call that is to be made whole. */
#define LINKSPAN_WHOLE UINT64_MAX

/* The places of an entry, for linkspan_evict. */
#define LINKSPAN_CURRENT ((uint64_t)0)
#define LINKSPAN_KEPT ((uint64_t)1)

/* Answers. */
enum {
    LINKSPAN_DONE = 0,                /* carried out */
    LINKSPAN_TOO_SHORT = 1,           /* the table is empty, or shorter than its geometry needs */
    LINKSPAN_NOT_SOUND = 2,           /* the table is not sound; in recover: a survivor's words are
                                         out of form, or it uses more frames than it has */
    LINKSPAN_NO_GEOMETRY = 3,         /* no allowed geometry in the table's first word, or asked for */
    LINKSPAN_NO_SUCH_NODE = 4,        /* the node's number is N or more */
    LINKSPAN_NO_SUCH_ITEM = 5,        /* the item's number is M or more */
    LINKSPAN_NODE_DEAD = 6,           /* the node is dead */
    LINKSPAN_CHECKPOINT_OPEN = 7,     /* a checkpoint is open: commit or abandon it first */
    LINKSPAN_NO_CHECKPOINT_OPEN = 8,  /* no checkpoint is open: open one first */
    LINKSPAN_NO_FRAME = 9,            /* the node needs a frame and has none free: evict something */
    LINKSPAN_PLACE_INVALID = 10,      /* there is no copy in that place */
    LINKSPAN_NO_HOME = 11,            /* no other live node can take the copy; in create only where
                                         two or more nodes are dead and F is under 2 * M */
    LINKSPAN_NOT_ALL_CREATED = 12,    /* a dirty item has not been created yet */
    LINKSPAN_LAST_NUMBER = 13,        /* the table has had its 2^32 - 1 saves */
    LINKSPAN_TOO_FEW_SURVIVORS = 14,  /* fewer than two survivors, or (k - 1) * F < 2 * M - 1 for
                                         k survivors: they cannot hold two copies of everything */
    LINKSPAN_NO_RECOVERY_COPY = 15,   /* an item has no recovery copy among the survivors, or two
                                         that differ */
    LINKSPAN_SHORT_SCRATCH = 16,      /* the scratch is shorter than M + N words */
    LINKSPAN_NOTHING_LEFT = 17,       /* create: every dirty item has been created; not a refusal */
    LINKSPAN_NO_SUCH_CHOICE = 18,     /* evict: a place, recover: a `none`, other than 0 and 1 */
    LINKSPAN_TOO_MANY_FRAMES = 20     /* format: F is above 2 * M, the places of a node: the frames
                                         beyond could never be used */
};

/*
 * The number of words that a table for so many nodes and items has, or 0 where no geometry has
 * them (nodes not 3 to 16, or items not 1 to 256).
 */
uint64_t linkspan_words(uint64_t nodes, uint64_t items);

/*
 * Is this table sound? Stores nothing.
 * 0 yes; 1 empty; 3; 1 too short; 2 not sound.
 */
uint64_t linkspan_check(const uint64_t *table, size_t len);

/*
 * Where in your own table the node's entries are: words *start to *start + *words - 1, three words
 * for each item, ascending: state, current value, kept value. On a refusal both are 0. The table
 * need not be sound nor the node live. Stores nothing. You may read the entries there; what you
 * change in them, the next call will check like everything else.
 * 0; 1 empty; 3; 1 too short; 4.
 */
uint64_t linkspan_stretch(const uint64_t *table, size_t len, uint64_t node,
                          uint64_t *start, uint64_t *words);

/*
 * Makes a new table in the slice, whatever it held: all nodes live, every value and saved value 0,
 * no checkpoint open. Words past the table stay as they are.
 * 0; 3 the geometry is not allowed (frames other than 2 * items, and too few for four copies of every
 * item); 20 more frames than 2 * items; 1 the slice is too short for it.
 */
uint64_t linkspan_format(uint64_t *table, size_t len, uint64_t nodes, uint64_t items, uint64_t frames,
                         uint64_t limit, uint64_t *value, uint64_t *stores);

/*
 * The node reads the item: *value is its present value. Afterwards the node has a copy; if it had
 * none before, that takes a frame, and none is freed for it.
 * 0; 1 empty; 3; 1 too short; 2; 4; 5; 6; 7; 9.
 */
uint64_t linkspan_read(uint64_t *table, size_t len, uint64_t node, uint64_t item,
                       uint64_t limit, uint64_t *value, uint64_t *stores);

/*
 * The node writes the item: its value is now new_value, this node is its only owner, and the copies
 * of the others are gone, save for the recovery copies, which are kept. A frame is needed unless
 * the node is the item's owner or a sharer already; a recovery copy does not spare it.
 * 0; 1 empty; 3; 1 too short; 2; 4; 5; 6; 7; 9.
 */
uint64_t linkspan_write(uint64_t *table, size_t len, uint64_t node, uint64_t item, uint64_t new_value,
                        uint64_t limit, uint64_t *value, uint64_t *stores);

/*
 * The node gives up its copy in the place (LINKSPAN_CURRENT or LINKSPAN_KEPT), which frees a frame.
 * A sharer's copy is dropped; any other goes to the next live node that can take it, which may drop
 * a sharer's copy of its own for it. No value changes.
 * 18 the place is neither; then 0; 1 empty; 3; 1 too short; 2; 4; 5; 6; 7; 10; 11.
 */
uint64_t linkspan_evict(uint64_t *table, size_t len, uint64_t node, uint64_t item, uint64_t place,
                        uint64_t limit, uint64_t *value, uint64_t *stores);

/*
 * A save, in three steps. While a checkpoint is open, read, write and evict answer 7.
 *
 * While at most one node is dead it always goes through: on a table without an open checkpoint
 * linkspan_open answers 0, unless that is 13; linkspan_create answers 0 once for each item that was
 * written since the last save, and then 17; linkspan_commit answers 0.
 *
 * linkspan_open opens a checkpoint.
 * 0; 1 empty; 3; 1 too short; 2; 7; 13.
 */
uint64_t linkspan_open(uint64_t *table, size_t len,
                       uint64_t limit, uint64_t *value, uint64_t *stores);

/*
 * linkspan_create makes the two new recovery copies of ONE item, the lowest dirty one that has none
 * yet. Call it until it answers 17. It answers 11 only where two or more nodes are dead and F is under
 * 2 * M: no other live node has room for the second copy, and this save cannot be completed. Abandon
 * it; with copies evicted elsewhere a later one may find room.
 * 0; 17 nothing left; 1 empty; 3; 1 too short; 2; 8; 11.
 */
uint64_t linkspan_create(uint64_t *table, size_t len,
                         uint64_t limit, uint64_t *value, uint64_t *stores);

/*
 * linkspan_commit makes the present values the saved ones and closes the checkpoint. If it is cut
 * off, a recovery finishes it where a survivor's mark had been reached, and undoes it otherwise:
 * for all items alike, once the recovery has ended (WHEN A MACHINE STOPS).
 * 0; 1 empty; 3; 1 too short; 2; 8; 12.
 */
uint64_t linkspan_commit(uint64_t *table, size_t len,
                         uint64_t limit, uint64_t *value, uint64_t *stores);

/*
 * linkspan_commit_length tells how long linkspan_commit will be: *length is the number of stores that the
 * whole of it makes of this very table. Where it would be refused, the refusal is the same one and
 * *length is 0. Stores nothing.
 *
 * The number is exact. It is 2 * k + 4 * d - c: k nodes are live, d items are created, and c times a
 * new recovery copy and an old one of an item stand in one entry of a live node.
 *
 * What a scheduler does with it: when linkspan_create has answered 17, it asks, and knows for how many
 * stores sailings are to be held; a save that does not fit before the next sailing it puts off, or
 * abandons. From then on only a commit, an abandoning, a recovery or a formatting changes the table, and
 * the number stands until one of them is made. It holds the sailings, makes the commit and releases
 * them when that has answered 0, with *stores as it was told. Beside its stores a commit takes about the
 * time of this question, which makes the same checks and goes over the same entries.
 * 0; 1 empty; 3; 1 too short; 2; 8; 12.
 */
uint64_t linkspan_commit_length(const uint64_t *table, size_t len, uint64_t *length);

/*
 * linkspan_abandon closes the checkpoint without a save: present and saved values stay as they are.
 * 0; 1 empty; 3; 1 too short; 2; 8.
 */
uint64_t linkspan_abandon(uint64_t *table, size_t len,
                          uint64_t limit, uint64_t *value, uint64_t *stores);

/*
 * Brings every item back to its saved value and leaves a sound table with two recovery copies of
 * each item and no other copies.
 *
 * none is 1 if no node was lost (`lost` is then not used), or 0 if node `lost` was: that node is
 * dead from now on, and none of its words is read, so they may hold anything. A node that is dead
 * already may be named. The survivors are the live nodes without the lost one.
 *
 * The table may be one that a call, other than a formatting, left when it was cut off. If the call was
 * a commit that had reached a survivor's mark, the commit is finished and its values are the saved
 * ones. A recovery that was itself cut off is made again, naming the same node or again none, before
 * anything else is done to the table; and no other node may be lost until it has ended, none at all
 * if it names none (WHEN A MACHINE STOPS).
 *
 * scratch is working space of at least M + N words. What it holds before does not matter; after a
 * recovery that was carried out its first M + N words are 0, the others as before.
 *
 * 18 none is neither 0 nor 1; then 0; 1 empty; 3; 1 too short; 4; 16; 2; 14; 15.
 */
uint64_t linkspan_recover(uint64_t *table, size_t len, uint64_t none, uint64_t lost,
                          uint64_t *scratch, size_t scratch_len,
                          uint64_t limit, uint64_t *value, uint64_t *stores);


/*
 * LAYOUT
 *
 * Which word of a table is whose, and what its bits say. Word 0 has the geometry and belongs to no
 * node. A node has its mark, and its row: an entry for each item, ascending.
 *
 * The functions are plain arithmetic and test nothing. Where they take nodes, items, a node, an item
 * or a place, these are: nodes 3 to 16, items 1 to 256, node < nodes, item < items, place <
 * linkspan_words(nodes, items). Then nothing overflows, and every place given is one of the table's.
 * Where they take a word, it may be any word: what they give is the bits that stand there.
 */

/* Word 0, the geometry. From the top bit down: 4 zero bits, N in 5, M in 9, F in 10, zeros. */
#define LINKSPAN_GEOMETRY_AT ((uint64_t)0)

static inline uint64_t linkspan_nodes_in(uint64_t geometry)
{
    return geometry >> 55 & 31;
}

static inline uint64_t linkspan_items_in(uint64_t geometry)
{
    return geometry >> 46 & 511;
}

static inline uint64_t linkspan_frames_in(uint64_t geometry)
{
    return geometry >> 36 & 1023;
}

/*
 * A node's mark. From the top bit down: live in 1 bit, the phase in 2, the save's number in 32,
 * zeros. A dead node's mark is 0.
 */
static inline uint64_t linkspan_mark_at(uint64_t node)
{
    return 1 + node;
}

static inline uint64_t linkspan_mark_live(uint64_t mark)
{
    return mark >> 63;
}

static inline uint64_t linkspan_mark_phase(uint64_t mark)
{
    return mark >> 61 & 3;
}

static inline uint64_t linkspan_mark_number(uint64_t mark)
{
    return mark >> 29 & UINT32_MAX;
}

/* Phases. Committing is met in the table of a cut call only. */
enum {
    LINKSPAN_RUNNING = 0,
    LINKSPAN_CREATING = 1,
    LINKSPAN_COMMITTING = 2
};

/* The words of an entry, counted from its first. */
enum {
    LINKSPAN_STATE = 0,
    LINKSPAN_CURRENT_VALUE = 1,
    LINKSPAN_KEPT_VALUE = 2,
    LINKSPAN_ENTRY_WORDS = 3 /* how many they are */
};

/* A node's row: so many words from this place on; linkspan_stretch gives the same of a table. */
static inline uint64_t linkspan_row_words(uint64_t items)
{
    return LINKSPAN_ENTRY_WORDS * items;
}

static inline uint64_t linkspan_row_at(uint64_t nodes, uint64_t items, uint64_t node)
{
    return 1 + nodes + node * linkspan_row_words(items);
}

/* The first word of the node's entry for the item. */
static inline uint64_t linkspan_entry_at(uint64_t nodes, uint64_t items, uint64_t node, uint64_t item)
{
    return linkspan_row_at(nodes, items, node) + LINKSPAN_ENTRY_WORDS * item;
}

/*
 * What is in the two places of an entry with this state word. From the top bit down: the current place
 * in 4 bits, the kept place in 2, zeros.
 */
static inline uint64_t linkspan_current_in(uint64_t state)
{
    return state >> 60;
}

static inline uint64_t linkspan_kept_in(uint64_t state)
{
    return state >> 58 & 3;
}

/* The codes of the current place. The value counts unless the place is invalid. */
enum {
    LINKSPAN_CURRENT_INVALID = 0,
    LINKSPAN_CURRENT_SHARED = 1,
    LINKSPAN_CURRENT_OWNER = 2,      /* others may be sharers */
    LINKSPAN_CURRENT_MODIFIED = 3,   /* the owner, and no sharers */
    LINKSPAN_CURRENT_SHARED_CK1 = 4, /* a recovery copy of an item not written since the save */
    LINKSPAN_CURRENT_SHARED_CK2 = 5,
    LINKSPAN_CURRENT_PRECOMMIT1 = 6, /* a recovery copy to be, in an open checkpoint */
    LINKSPAN_CURRENT_PRECOMMIT2 = 7
};

/* The codes of the kept place. */
enum {
    LINKSPAN_KEPT_INVALID = 0,
    LINKSPAN_KEPT_INV_CK1 = 1, /* a recovery copy of an item written since the save */
    LINKSPAN_KEPT_INV_CK2 = 2
};

/* The node whose word this is; word 0 is everybody's. */
#define LINKSPAN_EVERYBODY UINT64_MAX

static inline uint64_t linkspan_owner_of(uint64_t nodes, uint64_t items, uint64_t place)
{
    if (place == LINKSPAN_GEOMETRY_AT)
        return LINKSPAN_EVERYBODY;
    if (place <= nodes)
        return place - 1;
    return (place - 1 - nodes) / linkspan_row_words(items);
}

/*
 * A TABLE BY ITS OWNERS
 *
 * Each machine may keep its own words: word 0, its mark and its row. Whoever makes a call gathers the
 * words of all into one slice, has the list of the call's stores from the library, and sends each
 * store to the owner of its word. embed/c/owners.c does it.
 *
 * Gathering. The words of a lost node in the recovery that names it, and those of a dead node in every
 * call, may be handed in as zeros, its mark too. The recovery reads none of them: they may be anything.
 * In every other call a dead node's row may be anything, but its mark is 0, and is handed in as 0
 * whatever that machine still has. So the program remembers who is dead, until it formats anew.
 *
 * The list. Make the call on a fresh copy of the gathered table at limit 0, at limit 1, at limit 2 and
 * so on, until *stores is less than the limit. The copies of limits L - 1 and L differ in one word at
 * most, and that word, as the copy of limit L has it, is the L-th store. If they do not differ, the
 * L-th store writes what is there already. Answer and *value are the same at every limit; a refusal,
 * or 17, has an empty list.
 *
 * Sending. In this order, the next store only when the last one stands at its owner. A store that
 * writes what is there already may be left out, since the table without it is the same table. Nobody
 * else gathers or makes a call until the last store stands.
 *
 * If the sending stops, the table is at a limit of that call, as a cut call leaves it: the next call is
 * a recovery (WHEN A MACHINE STOPS), by any machine that is left. If it was a recovery's list that
 * stopped, it is that recovery, with the same name; a second machine lost before it has ended, be it
 * the sender, is one too many. Before anybody gathers, see to it that no store still on its way can
 * arrive later; and a machine that is named as lost but runs on must send nothing any more.
 *
 * A store to a lost node (in a recovery that names it: its mark, first of all) need not arrive, since
 * zeros are handed in for its words. Word 0 is stored by linkspan_format alone: send it to every
 * machine, and if a formatting stops, format again.
 */

#ifdef __cplusplus
}
#endif

#endif
