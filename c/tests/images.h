/* Images written record by record, as docs/FORMAT.md has them. */
#ifndef IMAGES_H
#define IMAGES_H

#include <stdint.h>
#include <string.h>
#include "pozhdaghi.h"

enum { NARROW = 1, WIDE = 2, HEAD_BYTES = 11, LENGTH_BYTES = 5 };

/* One byte more than any image has, to write one that is too long. */
struct image {
    uint8_t bytes[POZHDAGHI_LONGEST_IMAGE + 1];
    size_t size;
    uint32_t nodes;
    uint32_t edges;
};

/* A number of so many bytes at a place, big-endian. */
static inline void put(uint8_t *at, uint64_t number, int bytes)
{
    for (int i = bytes; i > 0; number >>= 8)
        at[--i] = (uint8_t)number;
}

static inline void add(struct image *image, uint64_t number, int bytes)
{
    put(image->bytes + image->size, number, bytes);
    image->size += (size_t)bytes;
}

/* Length and counts as they are by now. */
static inline void count(struct image *image)
{
    put(image->bytes + 1, image->size - LENGTH_BYTES, 4);
    put(image->bytes + 7, image->nodes, 2);
    put(image->bytes + 9, image->edges, 2);
}

/* A record of one byte: root, jump, and what is removed. */
static inline void add_bare(struct image *image, int kind)
{
    add(image, 1, 1);
    add(image, (uint64_t)kind, 1);
    image->nodes++;
    count(image);
}

static inline void begin(struct image *image, int version, uint32_t files)
{
    memset(image, 0, sizeof *image);
    image->bytes[0] = (uint8_t)version;
    put(image->bytes + 5, files, 2);
    image->size = HEAD_BYTES;
    add_bare(image, POZHDAGHI_NODE_ROOT);
    add_bare(image, POZHDAGHI_NODE_JUMP_TO_SCOPE);
}

static inline void add_scope(struct image *image, uint32_t file, int is_exported)
{
    add(image, 4, 1);
    add(image, POZHDAGHI_NODE_SCOPE, 1);
    add(image, file, 2);
    add(image, (uint64_t)is_exported, 1);
    image->nodes++;
    count(image);
}

static inline void add_drop(struct image *image, uint32_t file)
{
    add(image, 3, 1);
    add(image, POZHDAGHI_NODE_DROP_SCOPES, 1);
    add(image, file, 2);
    image->nodes++;
    count(image);
}

/* A node with a symbol. Where it pushes a scope too, `scope` is that node; else it is 0. The flag makes a push a reference and a pop a definition. */
static inline void add_symbol(struct image *image, int kind, uint32_t file, uint64_t symbol, uint32_t scope, int flag)
{
    const int width = image->bytes[0] == WIDE ? 8 : 4;
    const int attached = kind == POZHDAGHI_NODE_PUSH_SCOPED ? 2 : 0;
    add(image, (uint64_t)(4 + width + attached), 1);
    add(image, (uint64_t)kind, 1);
    add(image, file, 2);
    add(image, symbol, width);
    add(image, scope, attached);
    add(image, (uint64_t)flag, 1);
    image->nodes++;
    count(image);
}

static inline void add_edge(struct image *image, uint32_t source, uint32_t target, uint32_t precedence)
{
    add(image, 9, 1);
    add(image, POZHDAGHI_EDGE_LIVE, 1);
    add(image, source, 2);
    add(image, target, 2);
    add(image, precedence, 4);
    image->edges++;
    count(image);
}

/* One reference to symbol 7, node 2; an exported scope, 3; definitions of 7 and 8, nodes 4 and 5. The records stand at 11, 13, 15, 24, 29, 38, 47, 57, 67. */
static inline void graph_a(struct image *image)
{
    begin(image, NARROW, 1);
    add_symbol(image, POZHDAGHI_NODE_PUSH, 0, 7, 0, 1);
    add_scope(image, 0, 1);
    add_symbol(image, POZHDAGHI_NODE_POP, 0, 7, 0, 1);
    add_symbol(image, POZHDAGHI_NODE_POP, 0, 8, 0, 1);
    add_edge(image, 2, 3, 0);
    add_edge(image, 3, 4, 0);
    add_edge(image, 3, 5, 1);
}

/* A reference, node 2, and so many edges in a row from it over scopes. */
static inline void chain(struct image *image, uint32_t edges)
{
    begin(image, NARROW, 1);
    add_symbol(image, POZHDAGHI_NODE_PUSH, 0, 7, 0, 1);
    for (uint32_t i = 0; i < edges; i++)
        add_scope(image, 0, 0);
    for (uint32_t i = 0; i < edges; i++)
        add_edge(image, 2 + i, 3 + i, 0);
}

#endif
