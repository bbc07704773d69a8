// The straight-line C that straight.py writes: reading and writing by the contracts of knotsaffron.h, with the same answers.
// It is a mark of what the machine can do, for the benchmark alone. Nothing of it is proved; agree.c holds it against Knotsaffron.
#ifndef STRAIGHT_H
#define STRAIGHT_H

#include <stddef.h>
#include <stdint.h>

void straight_read(uint64_t type_number, const uint8_t *bytes, size_t bytes_len, int64_t *sheet, size_t sheet_len, uint64_t answer[8]);
void straight_write(uint64_t edition, uint64_t type_number, const int64_t *sheet, size_t sheet_len, uint8_t *bytes, size_t bytes_len,
                    uint64_t answer[4]);

#endif
