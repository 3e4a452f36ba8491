/*
 * Watched memory: words that anybody reads and of which no store is missed. For Linux on x86-64.
 *
 * An area is mapped twice: once for the test, which may write it, and once to be lent, read-only. A
 * store to the lent pages faults; the page is opened, the one instruction runs by itself, and the
 * page is closed again. What it stored is noted.
 */
#ifndef WATCH_H
#define WATCH_H

#include <stddef.h>
#include <stdint.h>

/* What is wrong with a store beside its place and word. */
enum {
    WATCH_UNALIGNED = 1,   /* it begins within a word */
    WATCH_OTHER_WORDS = 2, /* words changed beside the one that it begins at */
    WATCH_TWO_PAGES = 4    /* one instruction stored to two pages */
};

struct watch_note {
    uint64_t instruction; /* the address of the instruction */
    uint64_t address;     /* of the first byte that it stored to */
    uint64_t word;        /* the word there once it had run */
    uint64_t wrong;       /* 0, or the sum of what is wrong */
};

/* Takes the signals over; 0, or -1. */
int watch_init(void);

/* A new area; *own is the test's view of the words, the result the one to be lent. NULL if there is none. */
uint64_t *watch_area(size_t words, uint64_t **own);

/* From here on stores are noted, as many as there is room for. */
void watch_start(struct watch_note *notes, uint64_t room);

/* The number of stores since watch_start, also those that there was no room for. */
uint64_t watch_stop(void);

/* Notes the first time that the instruction is run; 0, or -1. */
int watch_instruction(uint64_t address);

/* Was it run since? */
int watch_was_run(uint64_t address);

/* The bytes at the address become these, and these the bytes that were there; 0, or -1. */
int watch_exchange(uint64_t address, unsigned char *bytes, uint64_t count);

#endif
