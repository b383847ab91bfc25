/* Memory to lend whose bounds are watched: a buffer lies between guard bytes, or ends where an inaccessible page begins, or begins where one
   ends, or is a block of the heap with not a byte more, which valgrind watches. _DEFAULT_SOURCE must be defined. */
#ifndef ARENA_H
#define ARENA_H

#include <stdbool.h>
#include <stdint.h>
#include <stdio.h>
#include <stdlib.h>
#include <string.h>
#include <sys/mman.h>
#include <unistd.h>

enum { GUARD = 64, PLACES = 4 };

/* pages that may be used, with an inaccessible page on each side, and what holds the buffer that is lent now: these pages or a block */
struct arena {
    uint8_t *start, *end, *block, *watched;
    size_t watched_size;
};

static struct arena make_arena(size_t room) {
    size_t page = (size_t)sysconf(_SC_PAGESIZE), size = (room + page - 1) / page * page;
    uint8_t *all = mmap(NULL, size + 2 * page, PROT_NONE, MAP_PRIVATE | MAP_ANONYMOUS, -1, 0);
    if (all == MAP_FAILED || mprotect(all + page, size, PROT_READ | PROT_WRITE) != 0) {
        perror("memory between inaccessible pages");
        exit(2);
    }
    return (struct arena){.start = all + page, .end = all + page + size};
}

/* where a buffer of that size lies: 0 between guard bytes, 1 before an inaccessible page, 2 after one, 3 in a block of its own, or nowhere, at
   NULL, if it has no byte */
static uint8_t *place(struct arena *a, size_t size, unsigned where, uint8_t fill) {
    free(a->block);
    a->block = where == 3 && size != 0 ? malloc(size) : NULL;
    a->watched = where == 3 ? a->block : a->start;
    a->watched_size = where == 3 ? size : (size_t)(a->end - a->start);
    if (a->watched_size == 0)
        return NULL;
    if (a->watched == NULL)
        exit(2);
    memset(a->watched, fill, a->watched_size);
    return where == 0 ? a->start + GUARD : where == 1 ? a->end - size : a->watched;
}

static bool filled(const uint8_t *at, size_t size, uint8_t fill) {
    uint64_t word, wanted;
    memset(&wanted, fill, sizeof wanted);
    for (; size >= sizeof word; at += sizeof word, size -= sizeof word) {
        memcpy(&word, at, sizeof word);
        if (word != wanted)
            return false;
    }
    for (; size > 0; at++, size--)
        if (*at != fill)
            return false;
    return true;
}

/* whether all bytes outside the first ones of the lent buffer are as they were filled */
static bool outside_kept(const struct arena *a, const uint8_t *buffer, size_t size, uint8_t fill) {
    if (a->watched_size == 0)
        return size == 0;
    size_t before = (size_t)(buffer - a->watched);
    return filled(a->watched, before, fill) && filled(buffer + size, a->watched_size - before - size, fill);
}

/* a lent copy */
static uint8_t *place_copy(struct arena *a, const uint8_t *bytes, size_t size, unsigned where, uint8_t fill) {
    uint8_t *copy = place(a, size, where, fill);
    if (size != 0)
        memcpy(copy, bytes, size);
    return copy;
}

/* whether the first bytes of a lent buffer are those, and all others as they were filled */
static bool holds_only(const struct arena *a, const uint8_t *buffer, const uint8_t *bytes, size_t size, uint8_t fill) {
    return (size == 0 || memcmp(buffer, bytes, size) == 0) && outside_kept(a, buffer, size, fill);
}

#endif
