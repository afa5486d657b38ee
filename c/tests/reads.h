/* reads.h: all reads of a block, of any bytes. */
#ifndef TESTS_READS_H
#define TESTS_READS_H

#include "testing.h"

/* A sum over all that was read, so that the compiler can't omit the reads. */
static uint64_t sum;

static void read_bytes(const unsigned char *bytes, size_t at, size_t count)
{
    for (size_t i = 0; i < count; i++) {
        sum += bytes[at + i];
    }
}

/* Each read of a block, with this number as a node and as a name. */
static void read_all_of(const unsigned char *block, size_t length, uint32_t number)
{
    size_t at, count;
    uint32_t name;

    sum += hengaruto_quirks(block, length) + hengaruto_node_count(block, length);
    sum += hengaruto_kind(block, length, number) + hengaruto_template_contents(block, length, number);
    sum += hengaruto_name(block, length, number) + hengaruto_namespace(block, length, number) + hengaruto_prefix(block, length, number);
    sum += hengaruto_attribute_count(block, length, number);
    if (hengaruto_text(block, length, number, &at, &count) == HENGARUTO_OK) {
        read_bytes(block, at, count);
    }
    if (hengaruto_name_text(block, length, number, &at, &count) == HENGARUTO_OK) {
        read_bytes(block, at, count);
    }
    if (hengaruto_attribute(block, length, number, bytes_of("id"), 2, &at, &count) == HENGARUTO_OK) {
        read_bytes(block, at, count);
    }
    for (uint32_t row = 0; row < 4; row++) {
        if (hengaruto_attribute_at(block, length, number, row, &name, &at, &count) == HENGARUTO_OK) {
            sum += name;
            read_bytes(block, at, count);
        }
    }
}

/* The next sibling, the first child and the end have greater numbers than the node, and the parent has a smaller one. */
static void step(const unsigned char *block, size_t length, uint32_t node)
{
    uint32_t next = hengaruto_next_sibling(block, length, node), child = hengaruto_first_child(block, length, node);
    uint32_t end = hengaruto_subtree_end(block, length, node), parent = hengaruto_parent(block, length, node);
    uint32_t named = hengaruto_next_named(block, length, node, bytes_of("p"), 1);

    CHECK(next == HENGARUTO_NONE || next > node);
    CHECK(child == HENGARUTO_NONE || child > node);
    CHECK(end == HENGARUTO_NONE || end > node);
    CHECK(named == HENGARUTO_NONE || named > node);
    CHECK(parent == HENGARUTO_NONE || parent < node);
}

#endif
