/*
 * Searches the registers and all writable memory of this process for secret bytes, the needles of needles.h.
 *
 * TRAP raises a signal whose handler calls `look`, which the including file defines. The handler runs on a stack of its
 * own: the kernel saves all registers there, where the search finds them, and no other memory is changed.
 */
#ifndef SEARCH_MEMORY_H
#define SEARCH_MEMORY_H

#include <fcntl.h>
#include <signal.h>
#include <stdbool.h>
#include <stddef.h>
#include <stdint.h>
#include <stdlib.h>
#include <string.h>
#include <ucontext.h>
#include <unistd.h>

#include "needles.h"

/* The capacity for the list of memory maps. */
#define MAPS_BYTES (1 << 18)

/* The places where a needle may be found. Secrets are allowed in OWN. */
enum { REGISTERS, STACK, ELSEWHERE, OWN, PLACES };

/* How often the last search found each needle in each place. */
static size_t counts[NEEDLES][PLACES];
static uint8_t signal_stack[65536];

/* The arguments of printf for the line about a needle: the event, the name of the needle, and its counts. */
#define COUNTS_OF(event, n) \
    "%s\t%s\t%zu\t%zu\t%zu\t%zu\n", event, needles[n].name, counts[n][REGISTERS], counts[n][STACK], \
        counts[n][ELSEWHERE], counts[n][OWN]

/* The handler of TRAP calls this function, which the including file defines. */
static void look(void);

/* Returns the place to which an address belongs. The including file defines this function. is_undumped is true for
 * memory that is excluded from core dumps. */
static int place_of(const uint8_t *at, bool is_undumped);

static bool is_within(const uint8_t *at, const void *from, size_t len)
{
    return at >= (const uint8_t *) from && at < (const uint8_t *) from + len;
}

static void search(const uint8_t *from, const uint8_t *to, bool is_undumped)
{
    /* True for each byte that is the masked first byte of a needle. */
    static bool begins[256];

    for (size_t n = 0; n < NEEDLES; n++) {
        begins[needles[n].masked[0]] = true;
    }
    for (const volatile uint8_t *at = from; at < to; at++) {
        /* Most memory is zeros, which are skipped 8 at a time if no needle begins with a zero. Ranges are whole pages,
         * so 8 bytes can be read. */
        if ((uintptr_t) at % 8 == 0 && !begins[MASK] && *(const volatile uint64_t *) at == 0) {
            at += 7;
            continue;
        }
        for (size_t n = 0; begins[*at ^ MASK] && n < NEEDLES; n++) {
            const struct needle *needle = &needles[n];
            size_t i = 0;

            while (i < needle->len && at + i < to && (at[i] ^ MASK) == needle->masked[i]) {
                i++;
            }
            if (i == needle->len) {
                counts[n][place_of((const uint8_t *) at, is_undumped)]++;
            }
        }
    }
}

/* Searches all memory that is readable and writable. `list` is the path of the list of memory maps: /proc/self/maps, or
 * /proc/self/smaps, which also shows the memory that is excluded from core dumps. */
static void search_all(const char *list)
{
    static char maps[MAPS_BYTES];
    const uint8_t *from = NULL, *to = NULL;
    bool is_undumped = false;
    int fd = open(list, O_RDONLY);
    size_t len = 0;
    ssize_t n;

    memset(counts, 0, sizeof counts);
    while ((n = read(fd, maps + len, sizeof maps - 1 - len)) > 0) {
        len += (size_t) n;
    }
    close(fd);
    maps[len] = 0;
    for (char *line = maps, *end, *next; line != NULL; line = next) {
        uintptr_t begin = strtoull(line, &end, 16);

        next = strchr(line, '\n');
        next = next == NULL ? NULL : next + 1;
        if (*end == '-' || *line == 0) {
            if (from != NULL) {
                search(from, to, is_undumped);
            }
            from = NULL;
            is_undumped = false;
            if (*end == '-') {
                to = (const uint8_t *) (uintptr_t) strtoull(end + 1, &end, 16);
                from = end[1] == 'r' && end[2] == 'w' ? (const uint8_t *) begin : NULL;
            }
        } else if (next != NULL && strncmp(line, "VmFlags:", 8) == 0) {
            next[-1] = 0;
            is_undumped = strstr(line, " dd") != NULL;
        }
    }
}

static void trapped(int number, siginfo_t *info, void *context)
{
    (void) number;
    (void) info;
    look();
#ifdef __aarch64__
    ((ucontext_t *) context)->uc_mcontext.pc += 4;
#else
    (void) context;
#endif
}

/* Installs the signal handler. Must be called before the first TRAP. */
static void install_trap(void)
{
    stack_t stack = { .ss_sp = signal_stack, .ss_size = sizeof signal_stack };
    struct sigaction action = { .sa_flags = SA_SIGINFO | SA_ONSTACK };

    action.sa_sigaction = trapped;
    sigfillset(&action.sa_mask);
    sigaltstack(&stack, NULL);
    sigaction(SIGTRAP, &action, NULL);
}

#if defined(__aarch64__)
#define TRAP() __asm__ __volatile__("brk #0" : : : "memory")
#elif !defined(__x86_64__)
/* Unlike a trap instruction, this call changes some registers and a few bytes of the stack. */
#define TRAP() raise(SIGTRAP)
#else
#define TRAP() __asm__ __volatile__("int3" : : : "memory")
#endif

#endif
