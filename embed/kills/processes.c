/*
 * What the kill test needs and Rust's standard library lacks: memory shared with a child, fork, SIGKILL, also by a
 * timer, and a child that steps through its own instructions and kills itself at one of them.
 *
 * To step, the child sets the trap flag: the processor then raises SIGTRAP after each instruction. To begin at a
 * store, the pages of the table are closed for writing: the store raises SIGSEGV before it happens.
 */
#define _GNU_SOURCE

#if !defined(__linux__) || !defined(__x86_64__)
#error "the kill test steps by the trap flag of x86-64, under Linux"
#endif

#include <signal.h>
#include <stddef.h>
#include <stdint.h>
#include <sys/mman.h>
#include <sys/prctl.h>
#include <sys/wait.h>
#include <time.h>
#include <ucontext.h>
#include <unistd.h>

#define TRAP_FLAG 0x100

enum watch {
    OFF,
    CLOSED,  /* the pages are closed, the next store faults */
    PASSING, /* one store passes, then the pages are closed again */
    COUNTING /* each instruction is counted */
};

static struct {
    volatile enum watch watch;
    char *start;
    size_t bytes;
    uint64_t passes; /* stores still to let pass */
    volatile uint64_t counted;
    uint64_t last; /* counted so far, the process ends, or else the counting */
    int deadly;
    pid_t self;
} step;

static char handlers_stack[1 << 16];

/* Memory of whole pages, zeroed; NULL where there is none. */
void *processes_memory(size_t bytes, int shared)
{
    int kind = shared ? MAP_SHARED : MAP_PRIVATE;
    void *memory = mmap(NULL, bytes, PROT_READ | PROT_WRITE, kind | MAP_ANONYMOUS, -1, 0);
    return memory == MAP_FAILED ? NULL : memory;
}

void processes_kill_self(void)
{
    for (;;)
        kill(step.self, SIGKILL);
}

/* A timer kills this process so many nanoseconds from now; 0 if it is set. */
int processes_kill_later(uint64_t nanoseconds)
{
    struct sigevent event = {.sigev_notify = SIGEV_SIGNAL, .sigev_signo = SIGKILL};
    struct itimerspec time = {0};
    timer_t timer;
    time.it_value.tv_sec = nanoseconds / 1000000000;
    time.it_value.tv_nsec = nanoseconds % 1000000000 + 1; /* all zero would not set it */
    if (timer_create(CLOCK_MONOTONIC, &event, &timer) != 0)
        return -1;
    return timer_settime(timer, 0, &time, NULL);
}

void processes_await_kill(void)
{
    for (;;)
        pause();
}

static void set_trap_flag(void *context, int on)
{
    greg_t *flags = &((ucontext_t *)context)->uc_mcontext.gregs[REG_EFL];
    *flags = on ? *flags | TRAP_FLAG : *flags & ~(greg_t)TRAP_FLAG;
}

static void open_pages(void)
{
    mprotect(step.start, step.bytes, PROT_READ | PROT_WRITE);
}

static void close_pages(void)
{
    mprotect(step.start, step.bytes, PROT_READ);
}

/* The context goes on with or without traps, as the count says. */
static void go_on_counting(void *context)
{
    if (step.counted < step.last) {
        set_trap_flag(context, 1);
        return;
    }
    if (step.deadly)
        processes_kill_self();
    step.watch = OFF;
    set_trap_flag(context, 0);
}

static void on_fault(int number, siginfo_t *info, void *context)
{
    char *at = info->si_addr;
    if (step.watch != CLOSED || at < step.start || at >= step.start + step.bytes) {
        signal(number, SIG_DFL); /* the fault is met again and ends the process */
        return;
    }
    open_pages();
    if (step.passes > 0) {
        step.passes--;
        step.watch = PASSING;
        set_trap_flag(context, 1);
        return;
    }
    step.watch = COUNTING;
    go_on_counting(context);
}

static void on_trap(int number, siginfo_t *info, void *context)
{
    (void)number, (void)info;
    if (step.watch == COUNTING) {
        step.counted++;
        go_on_counting(context);
        return;
    }
    if (step.watch == PASSING) {
        close_pages();
        step.watch = CLOSED;
    }
    set_trap_flag(context, 0);
}

static void handle(int number, void (*handler)(int, siginfo_t *, void *))
{
    struct sigaction action = {0};
    action.sa_sigaction = handler;
    action.sa_flags = SA_SIGINFO | SA_ONSTACK;
    sigfillset(&action.sa_mask);
    sigaction(number, &action, NULL);
}

/* This process ends after so many seconds at the latest. */
void processes_end_after(unsigned seconds)
{
    signal(SIGALRM, SIG_DFL);
    alarm(seconds);
}

static void begin_as_child(pid_t parent, unsigned seconds)
{
    stack_t stack = {.ss_sp = handlers_stack, .ss_size = sizeof handlers_stack};
    prctl(PR_SET_PDEATHSIG, SIGKILL);
    if (getppid() != parent)
        _exit(1);
    step.self = getpid();
    processes_end_after(seconds);
    sigaltstack(&stack, NULL);
    handle(SIGSEGV, on_fault);
    handle(SIGTRAP, on_trap);
}

/* 0 in the child, which ends after so many seconds at the latest; in the parent its number, or -1. */
int processes_fork(unsigned seconds)
{
    pid_t parent = getpid();
    pid_t child = fork();
    if (child == 0)
        begin_as_child(parent, seconds);
    return child;
}

void processes_kill(int child)
{
    kill(child, SIGKILL);
}

/* Waits for the child's end: the signal that ended it, 0 if it left by itself, -1 if it cannot be told. */
int processes_end(int child)
{
    int status;
    if (waitpid(child, &status, 0) != child)
        return -1;
    return WIFSIGNALED(status) ? WTERMSIG(status) : 0;
}

static void begin_counting(uint64_t last, int deadly)
{
    step.counted = 0;
    step.last = last;
    step.deadly = deadly;
}

/*
 * Lets so many stores to the pages pass and counts instructions from the next one on. When `last` are counted, the
 * process is killed if that is asked for (0: before the store happens), or else the counting ends.
 */
void processes_count_after(void *pages, size_t bytes, uint64_t passes, uint64_t last, int deadly)
{
    begin_counting(last, deadly);
    step.start = pages;
    step.bytes = bytes;
    step.passes = passes;
    close_pages();
    step.watch = CLOSED;
}

/* Sets the trap flag of this process; 128 bytes under the stack pointer may be in use. */
static void trap_from_here(void)
{
    __asm__ volatile("leaq -128(%%rsp), %%rsp\n\t"
                     "pushfq\n\t"
                     "orq %0, (%%rsp)\n\t"
                     "popfq\n\t"
                     "leaq 128(%%rsp), %%rsp"
                     :
                     : "i"(TRAP_FLAG)
                     : "memory", "cc");
}

/* The same, counting from here on. */
void processes_count_from_here(uint64_t last, int deadly)
{
    begin_counting(last, deadly);
    step.bytes = 0;
    step.watch = COUNTING;
    trap_from_here();
}

/* Ends the counting; the instructions counted. */
uint64_t processes_stop_counting(void)
{
    step.watch = OFF;
    if (step.bytes > 0)
        open_pages();
    return step.counted;
}
