/* Buffers between pages that may not be touched.
 *
 * A lent string stands so that it ends where such a page begins, or begins where
 * one ends: an access on that side is caught. What is only read is write-protected
 * during the call; the octets on the other side of what may be written are held
 * to what they were. */
#ifndef GUARDED_H
#define GUARDED_H

#define _GNU_SOURCE
#include <setjmp.h>
#include <signal.h>
#include <stdint.h>
#include <stdio.h>
#include <stdlib.h>
#include <string.h>
#include <sys/mman.h>

/* The largest page of any machine that runs these programs, emulated or not. */
enum { GRAIN = 65536, MARGIN = 256, MARGIN_OCTET = 0x5A };

struct arena {
    uint8_t *from;                /* first octet that may be touched */
    uint8_t *to;                  /* first one behind that may not */
};

enum side { AT_END, AT_START };

/* An arena for strings of up to `most` octets. */
static inline struct arena make_arena(size_t most)
{
    size_t inside = (most + 2 * MARGIN + GRAIN - 1) / GRAIN * GRAIN;
    size_t whole = inside + 3 * (size_t)GRAIN;
    struct arena arena;
    uint8_t *at = mmap(NULL, whole, PROT_NONE, MAP_PRIVATE | MAP_ANONYMOUS, -1, 0);

    if (at == MAP_FAILED) {
        perror("mmap");
        exit(2);
    }
    arena.from = at + GRAIN + (GRAIN - (uintptr_t)at % GRAIN) % GRAIN;
    arena.to = arena.from + inside;
    if (mprotect(arena.from, inside, PROT_READ | PROT_WRITE) != 0) {
        perror("mprotect");
        exit(2);
    }
    return arena;
}

static inline uint8_t *place_in(const struct arena *arena, enum side side, size_t len)
{
    return side == AT_END ? arena->to - len : arena->from;
}

/* The octets beside a string of this arena, on its open side. */
static inline uint8_t *margin_of(const struct arena *arena, enum side side, size_t len)
{
    return side == AT_END ? arena->to - len - MARGIN : arena->from + len;
}

static inline void protect(const struct arena *arena, int rights)
{
    if (mprotect(arena->from, (size_t)(arena->to - arena->from), rights) != 0) {
        perror("mprotect");
        exit(2);
    }
}

static sigjmp_buf guard_touched;

static void on_touch(int signal_number)
{
    (void)signal_number;
    siglongjmp(guard_touched, 1);
}

/* From here on a touched guard jumps to guard_touched. */
static inline void catch_touches(void)
{
    static uint8_t signal_stack[65536];
    stack_t own = { 0 };
    struct sigaction action;

    own.ss_sp = signal_stack;
    own.ss_size = sizeof signal_stack;
    memset(&action, 0, sizeof action);
    action.sa_handler = on_touch;
    action.sa_flags = SA_ONSTACK;
    sigemptyset(&action.sa_mask);
    if (sigaltstack(&own, NULL) != 0 || sigaction(SIGSEGV, &action, NULL) != 0 ||
        sigaction(SIGBUS, &action, NULL) != 0) {
        perror("sigaction");
        exit(2);
    }
}

#endif
