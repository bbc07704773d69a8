// The messages of the benchmark in memory, and the codecs that they are measured with.
#ifndef MESSAGES_H
#define MESSAGES_H

#include <stddef.h>
#include <stdint.h>

#include "asn1c_value.h"
#include "knotsaffron.h"
#include "straight.h"

#define MOST_MESSAGES 8192
// number, place, bits and count; of reading also the row, the lacking bits, the edition and the type number
#define ANSWER_CELLS 8
// the edition of all messages
#define EDITION KNOTSAFFRON_FIRST_EDITION

// the functions of knotsaffron.h, which the straight-line C and an older archive have as well
typedef void Read(uint64_t type_number, const uint8_t *bytes, size_t bytes_len, int64_t *sheet, size_t sheet_len, uint64_t answer[]);
typedef void Write(uint64_t edition, uint64_t type_number, const int64_t *sheet, size_t sheet_len, uint8_t *bytes, size_t bytes_len,
                   uint64_t answer[]);

typedef struct {
    const char *name;
    Read *read;
    Write *write;
} Codec;

// base is the other archive that is measured, with no functions where there is none
extern const Codec ours, base, straight;

typedef struct {
    char table[16], kind[32], size[16];
    uint64_t type, bits, cells;
    size_t length;
    uint8_t *bytes;
    int64_t *sheet;
    void *value;
} Message;

extern Message messages[MOST_MESSAGES];
extern int message_count;

void stop(const char *why, const char *what);

// Loads the lines of messages.py.
void load(const char *path);

// Keeps the messages that Knotsaffron and asn1c read to the same cells and write back byte for byte, and says which are left out.
void keep_checked(void);

// The message as asn1c decodes it; NULL where it refuses.
void *decoded(const Message *message);

#endif
