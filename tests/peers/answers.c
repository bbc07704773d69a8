// Answers a batch of messages, by Knotsaffron's archive or by asn1c's codec, a line for each.
// Use: answers knotsaffron|asn1c FIRST <BATCH     BATCH as for the program cases_read; the records before FIRST are left out
// A record with an unnamed type gets 'unnamed'. Other lines of Knotsaffron:
//   refused EDITION TYPE NUMBER PLACE ROW LACKING
//   accepted EDITION TYPE BITS same|other CELL CELL ..       whether writing the cells, by the edition and the type number that
//                                                            reading told, gives the message back
// of asn1c:
//   refused
//   accepted BITS held|broken same|other|not CELL CELL ..    whether asn1c's own check of constraints holds, and whether asn1c
//                                                            encodes the value to the same bits, to others or not at all;
//                                                            one cell '?' for a value that no sheet has
#include <stdint.h>
#include <stdio.h>
#include <stdlib.h>
#include <string.h>

#include "asn1c_value.h"
#include "knotsaffron.h"

#define MOST_CELLS 16384
#define MOST_RECORD 65535

static int64_t cells[MOST_CELLS];

static void print_cells(long count) {
    for (long i = 0; i < count; i++) printf(" %lld", (long long)cells[i]);
    printf("\n");
}

static int writes_back(uint64_t edition, uint64_t type, size_t count, const uint8_t *bytes, size_t length) {
    uint8_t room[KNOTSAFFRON_MOST_BYTES];
    uint64_t answer[4];
    knotsaffron_write(edition, type, cells, count, room, sizeof room, answer);
    return answer[0] == 0 && answer[3] == length && memcmp(room, bytes, length) == 0;
}

static void answer_knotsaffron(uint64_t type, const uint8_t *bytes, size_t length) {
    uint64_t answer[8];
    knotsaffron_read(type, bytes, length, cells, MOST_CELLS, answer);
    if (answer[0] == 2) {
        printf("unnamed\n");
        return;
    }
    printf("%s %llu %llu", answer[0] == 0 ? "accepted" : "refused", (unsigned long long)answer[6], (unsigned long long)answer[7]);
    if (answer[0] != 0) {
        printf(" %llu %llu %llu %llu\n", (unsigned long long)answer[0], (unsigned long long)answer[1], (unsigned long long)answer[4],
               (unsigned long long)answer[5]);
    } else {
        printf(" %llu %s", (unsigned long long)answer[2], writes_back(answer[6], answer[7], answer[3], bytes, length) ? "same" : "other");
        print_cells((long)answer[3]);
    }
}

// Whether the value's own encoding is the bits that it was decoded from.
static const char *encodes(asn_TYPE_descriptor_t *of, void *value, const uint8_t *bytes, size_t bits) {
    static uint8_t room[MOST_RECORD];
    memset(room, 0, sizeof room);
    asn_enc_rval_t r = uper_encode_to_buffer(of, value, room, sizeof room);
    if (r.encoded < 0) return "not";
    if (r.encoded != (long)bits || memcmp(room, bytes, bits / 8)) return "other";
    return bits % 8 == 0 || room[bits / 8] >> (8 - bits % 8) == bytes[bits / 8] >> (8 - bits % 8) ? "same" : "other";
}

static void answer_asn1c(uint64_t type, const uint8_t *bytes, size_t length) {
    asn_TYPE_descriptor_t *of = asn1c_named(type);
    void *value = NULL;
    if (!of) {
        printf("unnamed\n");
        return;
    }
    asn_dec_rval_t r = uper_decode(NULL, of, &value, bytes, length, 0, 0);
    if (r.code != RC_OK) {
        printf("refused\n");
    } else {
        printf("accepted %zu %s %s", r.consumed, asn_check_constraints(of, value, NULL, NULL) == 0 ? "held" : "broken",
               encodes(of, value, bytes, r.consumed));
        long count = asn1c_cells(of, value, cells, MOST_CELLS);
        if (count < 0 || count > MOST_CELLS) printf(" ?\n");
        else print_cells(count);
    }
    ASN_STRUCT_FREE(*of, value);
}

int main(int count, char **words) {
    static uint8_t record[MOST_RECORD];
    if (count != 3) return 2;
    int ours = !strcmp(words[1], "knotsaffron");
    for (long number = 0, first = atol(words[2]);; number++) {
        int high = getchar(), low = getchar();
        size_t length = (size_t)(high << 8 | low);
        if (high < 0 || low < 0 || fread(record, 1, length, stdin) != length) return 0;
        if (number < first) continue;
        if (length < 2) {
            printf("unnamed\n");
        } else {
            uint64_t type = (uint64_t)record[0] << 8 | record[1];
            (ours ? answer_knotsaffron : answer_asn1c)(type, record + 2, length - 2);
        }
        // where asn1c breaks down, the lines before tell at which record
        if (!ours) fflush(stdout);
    }
}
