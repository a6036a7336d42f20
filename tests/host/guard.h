/* Memory that ends, or begins, at an unreadable page: a stray byte faults. */
#ifndef GUARD_H
#define GUARD_H

#include <stdint.h>
#include <stdio.h>
#include <stdlib.h>
#include <sys/mman.h>

#define GUARD_PAGE 4096u

typedef struct {
    uint8_t *start; /* the first byte after the lower unreadable page */
    size_t room;    /* bytes up to the upper one */
} guarded;

static guarded guarded_new(size_t bytes)
{
    size_t room = (bytes + GUARD_PAGE - 1) / GUARD_PAGE * GUARD_PAGE;
    guarded g;
    uint8_t *base;
    if (room == 0)
        room = GUARD_PAGE;
    base = mmap(NULL, room + 2 * GUARD_PAGE, PROT_READ | PROT_WRITE, MAP_PRIVATE | MAP_ANONYMOUS, -1, 0);
    if (base == MAP_FAILED || mprotect(base, GUARD_PAGE, PROT_NONE) != 0 ||
        mprotect(base + GUARD_PAGE + room, GUARD_PAGE, PROT_NONE) != 0) {
        perror("guarded memory");
        exit(2);
    }
    g.start = base + GUARD_PAGE;
    g.room = room;
    return g;
}

/* A place of len bytes against the upper page (low is 0) or against the lower one. */
static uint8_t *guarded_place(guarded g, size_t len, int low)
{
    if (len > g.room) {
        fprintf(stderr, "guarded memory too small: %zu bytes\n", len);
        exit(2);
    }
    return low ? g.start : g.start + g.room - len;
}

#endif
