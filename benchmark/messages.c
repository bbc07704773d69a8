// Loads the messages of the benchmark, and keeps those that Knotsaffron and asn1c read and write alike.
#include "messages.h"

#include <stdio.h>
#include <stdlib.h>
#include <string.h>

#ifdef WITH_BASE
Read base_knotsaffron_read;
#ifdef BASE_WITHOUT_EDITION
// The other archive is of before writing asked for an edition, and is called without one.
void base_knotsaffron_write(uint64_t type_number, const int64_t *sheet, size_t sheet_len, uint8_t *bytes, size_t bytes_len, uint64_t answer[]);
static void base_write(uint64_t edition, uint64_t type_number, const int64_t *sheet, size_t sheet_len, uint8_t *bytes, size_t bytes_len,
                       uint64_t answer[]) {
    (void)edition;
    base_knotsaffron_write(type_number, sheet, sheet_len, bytes, bytes_len, answer);
}
const Codec base = {"base", base_knotsaffron_read, base_write};
#else
Write base_knotsaffron_write;
const Codec base = {"base", base_knotsaffron_read, base_knotsaffron_write};
#endif
#else
const Codec base = {"base", NULL, NULL};
#endif
const Codec ours = {"Knotsaffron", knotsaffron_read, knotsaffron_write};
const Codec straight = {"straight C", straight_read, straight_write};

Message messages[MOST_MESSAGES];
int message_count;

void stop(const char *why, const char *what) {
    fprintf(stderr, "%s: %s\n", why, what);
    exit(2);
}

static void *room_for(size_t bytes) {
    void *room = malloc(bytes);
    if (!room) stop("no memory", "for the messages");
    return room;
}

void load(const char *path) {
    FILE *file = fopen(path, "r");
    char hexadecimal[2 * KNOTSAFFRON_MOST_BYTES + 1];
    if (!file) stop("no such file", path);
    for (Message *m = messages;; m++, message_count++) {
        if (message_count == MOST_MESSAGES) stop("too many messages", path);
        if (fscanf(file, "%15s %31s %15s %lu %4096s", m->table, m->kind, m->size, &m->type, hexadecimal) != 5) break;
        m->length = strlen(hexadecimal) / 2;
        m->bytes = room_for(m->length);
        for (size_t i = 0; i < m->length; i++) sscanf(hexadecimal + 2 * i, "%2hhx", &m->bytes[i]);
    }
    fclose(file);
}

void *decoded(const Message *m) {
    void *value = NULL;
    asn_dec_rval_t r = uper_decode_complete(NULL, asn1c_named(m->type), &value, m->bytes, m->length);
    if (r.code == RC_OK) return value;
    ASN_STRUCT_FREE(*asn1c_named(m->type), value);
    return NULL;
}

// Whether Knotsaffron reads the message and writes it back byte for byte; what goes wrong else.
static const char *checked_by_us(Message *m) {
    static int64_t cells[KNOTSAFFRON_MOST_CELLS];
    static uint8_t bytes[KNOTSAFFRON_MOST_BYTES];
    uint64_t answer[ANSWER_CELLS];
    knotsaffron_read(m->type, m->bytes, m->length, cells, KNOTSAFFRON_MOST_CELLS, answer);
    if (answer[0] != KNOTSAFFRON_DONE) return "Knotsaffron refuses it";
    m->bits = answer[2], m->cells = answer[3];
    m->sheet = room_for(sizeof(int64_t) * m->cells);
    memcpy(m->sheet, cells, sizeof(int64_t) * m->cells);
    knotsaffron_write(answer[6], answer[7], m->sheet, m->cells, bytes, sizeof bytes, answer);
    if (answer[0] != KNOTSAFFRON_DONE || answer[3] != m->length || memcmp(bytes, m->bytes, m->length)) return "Knotsaffron writes it otherwise";
    return NULL;
}

// Whether asn1c reads the message to the same cells and writes it back byte for byte; what goes wrong else.
static const char *checked_by_them(Message *m) {
    static int64_t cells[KNOTSAFFRON_MOST_CELLS];
    static uint8_t bytes[KNOTSAFFRON_MOST_BYTES];
    m->value = decoded(m);
    if (!m->value) return "asn1c refuses it";
    long count = asn1c_cells(asn1c_named(m->type), m->value, cells, KNOTSAFFRON_MOST_CELLS);
    if (count != (long)m->cells || memcmp(cells, m->sheet, sizeof(int64_t) * m->cells)) return "asn1c reads another value";
    asn_enc_rval_t r = uper_encode_to_buffer(asn1c_named(m->type), m->value, bytes, sizeof bytes);
    if (r.encoded != (long)m->bits || memcmp(bytes, m->bytes, m->length)) return "asn1c writes it otherwise";
    return NULL;
}

static void keep_those(const char *(*check)(Message *)) {
    int left = 0;
    for (int i = 0; i < message_count; i++) {
        const char *why = check(&messages[i]);
        if (why) printf("left out: %s %s %s, %zu bytes: %s\n", messages[i].table, messages[i].kind, messages[i].size, messages[i].length, why);
        else messages[left++] = messages[i];
    }
    message_count = left;
}

// One after the other, so that the sheets lie one behind the other in memory, and not among asn1c's structures.
void keep_checked(void) {
    int all = message_count;
    keep_those(checked_by_us);
    keep_those(checked_by_them);
    printf("%d messages; Knotsaffron and asn1c read %d of them to the same cells and write them back byte for byte\n", all, message_count);
}
