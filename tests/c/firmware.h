/* What the files of the firmware loop share: what it does with a ring, in firmware.c, and document 02's requests, in requests.c, requests_07.c and
   requests_09.c. */

#ifndef FIRMWARE_H
#define FIRMWARE_H

#include "ring.h"

uint32_t turn_of(uint32_t *table, size_t words, uint32_t place);
uint32_t rounds_enough(const uint32_t *table, size_t words);
uint32_t join_anywhere(uint32_t *table, size_t words, uint32_t j);
uint32_t report_loss(uint32_t *table, size_t words, uint32_t n);
uint32_t place_of(const uint32_t *table, uint32_t n);
uint32_t steps_of(const uint32_t *table, uint32_t n);
void count_up(uint32_t *ids, size_t count, uint32_t gap);
size_t screen(const uint32_t *table, size_t words, const uint32_t *keys, size_t count);
uint32_t principals(const uint32_t *table, size_t words);

/* The table is the settled ring of 104 shelves, as long as the longest. */
void held_keys(const uint32_t *table);
void principal_test(void);
void join_declined(const uint32_t *table);
void withdrawals(void);
void settling(const uint32_t *table);
void passed_over(const uint32_t *table);
void counted_by_shelf(const uint32_t *table);
void finer_alike(const uint32_t *table);
void service_hours(const uint32_t *table);

#endif
