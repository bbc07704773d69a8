// Decodes one of the worked examples of X.691 by asn1c, and prints the value as XML and its own encoding in hexadecimal.
// Use: annex_asn1c TYPE HEXADECIMAL
#include <stdio.h>
#include <string.h>

#include <asn_application.h>

#include "Children.h"
#include "Digits.h"
#include "Number.h"
#include "RecordBegins.h"
#include "RecordConstrained.h"
#include "RecordExtensible.h"
#include "RecordPlain.h"

static asn_TYPE_descriptor_t *const types[] = {
    &asn_DEF_Name,   &asn_DEF_Date,         &asn_DEF_Child,             &asn_DEF_Children,         &asn_DEF_Number,
    &asn_DEF_Digits, &asn_DEF_RecordBegins, &asn_DEF_RecordConstrained, &asn_DEF_RecordExtensible, &asn_DEF_RecordPlain,
};

static asn_TYPE_descriptor_t *type_called(const char *name) {
    for (size_t i = 0; i < sizeof types / sizeof *types; i++)
        if (!strcmp(types[i]->name, name)) return types[i];
    return NULL;
}

int main(int count, char **words) {
    static unsigned char bytes[512], room[512];
    void *value = NULL;
    asn_TYPE_descriptor_t *type = count == 3 ? type_called(words[1]) : NULL;
    if (!type) return 2;
    size_t length = strlen(words[2]) / 2;
    for (size_t i = 0; i < length; i++) sscanf(words[2] + 2 * i, "%2hhx", &bytes[i]);
    asn_dec_rval_t decoded = uper_decode(NULL, type, &value, bytes, length, 0, 0);
    if (decoded.code != RC_OK) {
        printf("refused\nrefused\n");
        return 0;
    }
    xer_fprint(stdout, type, value);
    asn_enc_rval_t encoded = uper_encode_to_buffer(type, value, room, sizeof room);
    if (encoded.encoded < 0) printf("refused");
    for (long i = 0; i < (encoded.encoded + 7) / 8; i++) printf("%02X", room[i]);
    printf("\n");
    return 0;
}
