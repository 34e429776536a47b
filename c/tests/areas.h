/* Areas to lend that end where memory ends: a page that may not be touched stands on one side, so that a call that reads or writes outside of what it was lent
 * ends the program. An area that is only read may not be written either. */
#ifndef AREAS_H
#define AREAS_H

#ifndef _GNU_SOURCE
#define _GNU_SOURCE
#endif
#include <stdint.h>
#include <stdio.h>
#include <stdlib.h>
#include <string.h>
#include <sys/mman.h>
#include <unistd.h>

enum { MOST_AREAS = 64, RUBBISH = 0x77 };

/* Which side the forbidden page is on. */
enum side { BEHIND, IN_FRONT };

static enum side areas_side = BEHIND;
static struct {
    uint8_t *base;
    size_t size;
} areas_lent[MOST_AREAS];
static size_t areas_count = 0;

/* Bytes between two forbidden pages, up against one of them. Not one byte is lent where none is asked for: the pointer is then to a forbidden page. */
static inline uint8_t *lend(size_t bytes)
{
    const size_t page = (size_t)sysconf(_SC_PAGESIZE);
    const size_t inner = (bytes + page - 1) / page * page;
    uint8_t *base = (uint8_t *)mmap(NULL, inner + 2 * page, PROT_NONE, MAP_PRIVATE | MAP_ANONYMOUS, -1, 0);
    if (base == MAP_FAILED || areas_count == MOST_AREAS || (inner && mprotect(base + page, inner, PROT_READ | PROT_WRITE))) {
        perror("no area");
        exit(2);
    }
    areas_lent[areas_count].base = base;
    areas_lent[areas_count++].size = inner + 2 * page;
    uint8_t *area = areas_side == BEHIND ? base + page + inner - bytes : base + page;
    if (bytes)
        memset(area, RUBBISH, bytes);
    return area;
}

/* A copy that may not be written. */
static inline const uint8_t *lend_copy(const void *from, size_t bytes)
{
    const uintptr_t page = (uintptr_t)sysconf(_SC_PAGESIZE);
    uint8_t *area = lend(bytes);
    if (!bytes)
        return area;
    memcpy(area, from, bytes);
    uint8_t *first = area - (uintptr_t)area % page;
    mprotect(first, (size_t)(area + bytes - first), PROT_READ);
    return area;
}

static inline void take_back(void)
{
    while (areas_count) {
        areas_count--;
        munmap(areas_lent[areas_count].base, areas_lent[areas_count].size);
    }
}

#endif
