#define _GNU_SOURCE
#include "watch.h"

#include <signal.h>
#include <string.h>
#include <sys/mman.h>
#include <ucontext.h>
#include <unistd.h>

enum { PAGE = 4096, AREAS = 4, OPEN_PAGES = 2, INSTRUCTIONS = 4096 };

static const greg_t TRAP_FLAG = 0x100;
static const greg_t WRITE_FAULT = 2;
static const unsigned char BREAKPOINT = 0xcc;

/* The lent views, from their first byte to past their last. */
static struct {
    uintptr_t start, end;
} areas[AREAS];
static size_t area_count;

static struct watch_note *notes;
static uint64_t room, noted;

/* The store that is being made: its note, the pages that are open for it and what they held. */
static struct watch_note store;
static uintptr_t open_pages[OPEN_PAGES];
static size_t open_count;
static unsigned char held[OPEN_PAGES][PAGE];

/* Instructions that are watched for: the byte that the breakpoint stands on, and whether they were run. */
static struct {
    uint64_t address;
    unsigned char byte, run;
} instructions[INSTRUCTIONS];
static size_t instruction_count;

/* Not ours: the signal does what it would have done. */
static void give_up(int number)
{
    signal(number, SIG_DFL);
}

static int is_watched(uintptr_t address)
{
    for (size_t area = 0; area < area_count; area++)
        if (areas[area].start <= address && address < areas[area].end)
            return 1;
    return 0;
}

static void open_page(uintptr_t address)
{
    uintptr_t page = address & ~(uintptr_t)(PAGE - 1);
    memcpy(held[open_count], (void *)page, PAGE);
    mprotect((void *)page, PAGE, PROT_READ | PROT_WRITE);
    open_pages[open_count++] = page;
}

/* A store to a closed page: it is opened, and the instruction runs with the trap flag set. */
static void on_fault(int number, siginfo_t *info, void *context)
{
    greg_t *registers = ((ucontext_t *)context)->uc_mcontext.gregs;
    uintptr_t address = (uintptr_t)info->si_addr;
    if (!is_watched(address) || !(registers[REG_ERR] & WRITE_FAULT) || open_count == OPEN_PAGES) {
        give_up(number);
        return;
    }
    if (open_count == 0) {
        store = (struct watch_note){(uint64_t)registers[REG_RIP], address, 0, address % 8 ? WATCH_UNALIGNED : 0};
        registers[REG_EFL] |= TRAP_FLAG;
    } else {
        store.wrong |= WATCH_TWO_PAGES;
    }
    open_page(address);
}

/* Did any word of the page change but the one that was stored to? */
static int others_changed(uintptr_t page, const unsigned char *before)
{
    uint64_t now[PAGE / 8], then[PAGE / 8];
    memcpy(now, (void *)page, PAGE);
    memcpy(then, before, PAGE);
    for (size_t word = 0; word < PAGE / 8; word++)
        if (now[word] != then[word] && page + 8 * word != (store.address & ~(uint64_t)7))
            return 1;
    return 0;
}

/* The instruction has run: the pages are closed, the store is noted. */
static void after_store(greg_t *registers)
{
    for (size_t page = 0; page < open_count; page++) {
        mprotect((void *)open_pages[page], PAGE, PROT_READ);
        if (others_changed(open_pages[page], held[page]))
            store.wrong |= WATCH_OTHER_WORDS;
    }
    memcpy(&store.word, (void *)(uintptr_t)(store.address & ~(uint64_t)7), 8);
    if (noted < room)
        notes[noted] = store;
    noted++;
    open_count = 0;
    registers[REG_EFL] &= ~TRAP_FLAG;
}

static void put_byte(uint64_t address, unsigned char byte)
{
    *(volatile unsigned char *)(uintptr_t)address = byte;
}

/* A breakpoint: the instruction is run as it was, from now on. */
static void on_instruction(int number, greg_t *registers)
{
    uint64_t address = (uint64_t)registers[REG_RIP] - 1;
    for (size_t at = 0; at < instruction_count; at++)
        if (instructions[at].address == address && !instructions[at].run) {
            instructions[at].run = 1;
            put_byte(address, instructions[at].byte);
            registers[REG_RIP] = (greg_t)address;
            return;
        }
    give_up(number);
}

static void on_trap(int number, siginfo_t *info, void *context)
{
    greg_t *registers = ((ucontext_t *)context)->uc_mcontext.gregs;
    (void)info;
    if (open_count)
        after_store(registers);
    else
        on_instruction(number, registers);
}

int watch_init(void)
{
    struct sigaction action;
    memset(&action, 0, sizeof action);
    action.sa_flags = SA_SIGINFO;
    action.sa_sigaction = on_fault;
    if (sigaction(SIGSEGV, &action, NULL))
        return -1;
    action.sa_sigaction = on_trap;
    return sigaction(SIGTRAP, &action, NULL);
}

uint64_t *watch_area(size_t words, uint64_t **own)
{
    size_t bytes = (8 * words + PAGE - 1) / PAGE * PAGE;
    int file = memfd_create("watched", 0);
    if (area_count == AREAS || file < 0 || ftruncate(file, (off_t)bytes))
        return NULL;
    void *test = mmap(NULL, bytes, PROT_READ | PROT_WRITE, MAP_SHARED, file, 0);
    void *lent = mmap(NULL, bytes, PROT_READ, MAP_SHARED, file, 0);
    close(file);
    if (test == MAP_FAILED || lent == MAP_FAILED)
        return NULL;
    areas[area_count].start = (uintptr_t)lent;
    areas[area_count].end = (uintptr_t)lent + bytes;
    area_count++;
    *own = test;
    return lent;
}

void watch_start(struct watch_note *into, uint64_t count)
{
    notes = into;
    room = count;
    noted = 0;
}

uint64_t watch_stop(void)
{
    return noted;
}

/* Code that can be written; an instruction may reach into the next page. */
static int open_code(uint64_t address)
{
    uintptr_t page = (uintptr_t)address & ~(uintptr_t)(PAGE - 1);
    return mprotect((void *)page, 2 * PAGE, PROT_READ | PROT_WRITE | PROT_EXEC);
}

int watch_exchange(uint64_t address, unsigned char *bytes, uint64_t count)
{
    if (open_code(address))
        return -1;
    for (uint64_t at = 0; at < count; at++) {
        unsigned char byte = *(volatile unsigned char *)(uintptr_t)(address + at);
        put_byte(address + at, bytes[at]);
        bytes[at] = byte;
    }
    return 0;
}

int watch_instruction(uint64_t address)
{
    if (instruction_count == INSTRUCTIONS || open_code(address))
        return -1;
    instructions[instruction_count].address = address;
    instructions[instruction_count].byte = *(unsigned char *)(uintptr_t)address;
    instructions[instruction_count++].run = 0;
    put_byte(address, BREAKPOINT);
    return 0;
}

int watch_was_run(uint64_t address)
{
    for (size_t at = 0; at < instruction_count; at++)
        if (instructions[at].address == address)
            return instructions[at].run;
    return 0;
}
