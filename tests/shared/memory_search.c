/* A library for LD_PRELOAD that searches the memory of a program for secret bytes, the needles of needles.h. It searches
 * whenever the program opens, writes or closes a file, waits at a terminal or raises a signal, and when the program
 * ends. Memory that is excluded from core dumps is taken to be the program's memory for secrets.
 *
 * For each needle, each search appends a line to the file that the environment variable SEARCH_RESULTS names: the event,
 * the name of the needle, and how often it was found in registers, on the stack, in other memory, and in the memory for
 * secrets.
 *
 * search_memory.h searches. Its TRAP raises a signal whose handler calls `look`, so that the registers are in the memory
 * that is searched (`signal_stack`). Its COUNTS_OF makes a line of the results. */
#include "preload.h"

#include <sys/select.h>
#include <sys/syscall.h>

#include "search_memory.h"

/* The file for the results, or -1 if nothing is to be searched. */
static int results = -1;
static const char *event;
/* An address on the stack of the main thread. */
static const uint8_t *stack_address;

/* The usual limit of the stack's size on Linux. The stack is less than this away from `stack_address`. */
enum { STACK_BYTES = 8 << 20 };

static int place_of(const uint8_t *at, bool is_undumped)
{
    return is_undumped                                                              ? OWN
           : is_within(at, signal_stack, sizeof signal_stack)                       ? REGISTERS
           : is_within(at, stack_address - STACK_BYTES, (size_t) 2 * STACK_BYTES)   ? STACK
                                                                                    : ELSEWHERE;
}

/* Searches the memory once, and appends the results to the file. */
static void look(void)
{
    char line[256];
    int fd = results;

    /* Calls that are made during the search must not start another search. */
    results = -1;
    search_all("/proc/self/smaps");
    for (size_t n = 0; n < NEEDLES; n++) {
        syscall(SYS_write, fd, line, (size_t) snprintf(line, sizeof line, COUNTS_OF(event, n)));
    }
    results = fd;
}

#define SEARCH_AT(name) \
    do { \
        if (results >= 0) { \
            event = name; \
            TRAP(); \
        } \
    } while (0)

__attribute__((constructor)) static void begin(void)
{
    const char *name = getenv("SEARCH_RESULTS");

    stack_address = __builtin_frame_address(0);
    if (name != NULL) {
        install_trap();
        results = (int) syscall(SYS_openat, AT_FDCWD, name, O_WRONLY | O_CREAT | O_APPEND | O_CLOEXEC, 0600);
    }
}

__attribute__((destructor)) static void end(void)
{
    SEARCH_AT("end");
}

int open(const char *name, int flags, ...)
{
    SEARCH_AT("open");
    return (int) syscall(SYS_openat, AT_FDCWD, name, flags, MODE_ARGUMENT(flags));
}

int openat(int directory, const char *name, int flags, ...)
{
    SEARCH_AT("open");
    return (int) syscall(SYS_openat, directory, name, flags, MODE_ARGUMENT(flags));
}

ssize_t write(int fd, const void *bytes, size_t len)
{
    SEARCH_AT("write");
    return syscall(SYS_write, fd, bytes, len);
}

int close(int fd)
{
    SEARCH_AT("close");
    return (int) syscall(SYS_close, fd);
}

int pselect(int count, fd_set *reads, fd_set *writes, fd_set *others, const struct timespec *timeout, const sigset_t *mask)
{
    if (isatty(STDIN_FILENO)) {
        SEARCH_AT("wait");
    }
    return REAL(pselect)(count, reads, writes, others, timeout, mask);
}

/* Searches without TRAP, and so not in registers: the program calls raise() in signal handlers, which block all signals,
 * so TRAP would kill it. */
int raise(int number)
{
    event = "raise";
    if (results >= 0) {
        look();
    }
    return kill(getpid(), number);
}
