/* Tables made and read word by word, and where the first bytes of an image stand. */

#ifndef LAYOUT_H
#define LAYOUT_H

#include "ring.h"
#include <string.h>

/* The bytes of a field before its contents, the length of the first field's contents, and where the members' fields begin. */
enum { FIELD_HEAD = 3, FIRST_LENGTH = 7, IMAGE_MEMBERS = FIELD_HEAD + FIRST_LENGTH };

/* The record at a place. */
static inline uint32_t *record_at(uint32_t *table, size_t place)
{
    return table + RING_RECORD(table[RING_R], place);
}

/* The identifier of the member at a place. */
static inline uint32_t id_at(const uint32_t *table, size_t place)
{
    return table[RING_RECORD(table[RING_R], place) + RING_ID];
}

/* The pending and candidate words of the member at a place. */
static inline void set_pending(uint32_t *table, size_t place, uint32_t pending, uint32_t candidate)
{
    record_at(table, place)[RING_PENDING] = pending;
    record_at(table, place)[RING_CANDIDATE] = candidate;
}

/* The step count of the member at a place. */
static inline uint32_t *steps_at(uint32_t *table, size_t place)
{
    return table + RING_STEPS(table[RING_R], place);
}

/* A table with no members. */
static inline void no_members(uint32_t *table, uint32_t r)
{
    memset(table, 0, RING_HEADER_WORDS * sizeof *table);
    table[RING_R] = r;
}

/* One more record, the last, with r entries, nothing pending, step count 0. */
static inline void add_member(uint32_t *table, uint32_t id, uint32_t predecessor, const uint32_t *list)
{
    const uint32_t r = table[RING_R];
    uint32_t *const record = record_at(table, table[RING_MEMBERS]++);
    memset(record, 0, RING_RECORD_WORDS(r) * sizeof *record);
    record[RING_ID] = id;
    record[RING_PREDECESSOR] = predecessor;
    memcpy(record + RING_LIST, list, r * sizeof *list);
}

#endif
