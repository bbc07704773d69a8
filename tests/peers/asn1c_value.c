// A value that asn1c decoded, as the cells of document 01's sheet: a walk through its structure by its own descriptors.
// It takes nothing from the bits, so that a decoder and an encoder that err alike are still seen.
#include "asn1c_value.h"

#include <BIT_STRING.h>
#include <NativeEnumerated.h>
#include <NativeInteger.h>
#include <OCTET_STRING.h>
#include <asn_SEQUENCE_OF.h>
#include <constr_CHOICE.h>
#include <constr_SEQUENCE.h>
#include <constr_SEQUENCE_OF.h>
#include <string.h>

#include "Description.h"
#include "MessageFrame.h"
#include "PositionOffsetLLV.h"

typedef struct {
    int64_t *sheet;
    size_t room;
    long used;
    int wrong;
} Cells;

static void value_of(Cells *cells, asn_TYPE_descriptor_t *type, asn_per_constraints_t *constraints, const void *value);

asn_TYPE_descriptor_t *asn1c_named(uint64_t type_number) {
    switch (type_number) {
        case 0: return &asn_DEF_MessageFrame;
        case 1: return &asn_DEF_Description;
        case 2: return &asn_DEF_PositionOffsetLLV;
        default: return NULL;
    }
}

static void cell(Cells *cells, int64_t number) {
    if ((size_t)cells->used < cells->room) cells->sheet[cells->used] = number;
    cells->used += 1;
}

// The member's place in its parent; none where it is left out.
static const void *member_of(const asn_TYPE_member_t *member, const void *parent) {
    const char *place = (const char *)parent + member->memb_offset;
    return (member->flags & ATF_POINTER) ? *(const void *const *)place : place;
}

static void size_cell(Cells *cells, const asn_per_constraints_t *constraints, long size) {
    if (constraints && (constraints->size.flags & APC_CONSTRAINED) && constraints->size.lower_bound == constraints->size.upper_bound) return;
    cell(cells, size);
}

static void sequence_of(Cells *cells, asn_TYPE_descriptor_t *type, const void *value) {
    const asn_SEQUENCE_specifics_t *about = type->specifics;
    for (int i = 0; i < about->roms_count; i++) cell(cells, member_of(&type->elements[about->oms[i]], value) != NULL);
    for (int i = 0; i < type->elements_count; i++) {
        asn_TYPE_member_t *member = &type->elements[i];
        const void *part = member_of(member, value);
        if (part) value_of(cells, member->type, member->per_constraints, part);
        else if (!member->optional) cells->wrong = 1;
    }
}

static void choice_of(Cells *cells, asn_TYPE_descriptor_t *type, const void *value) {
    const asn_CHOICE_specifics_t *about = type->specifics;
    int present = 0;
    memcpy(&present, (const char *)value + about->pres_offset, sizeof present);
    if (present < 1 || present > type->elements_count) {
        cells->wrong = 1;
        return;
    }
    asn_TYPE_member_t *member = &type->elements[present - 1];
    cell(cells, present - 1);
    value_of(cells, member->type, member->per_constraints, member_of(member, value));
}

static void list_of(Cells *cells, asn_TYPE_descriptor_t *type, const asn_per_constraints_t *constraints, const void *value) {
    const asn_anonymous_sequence_ *list = _A_CSEQUENCE_FROM_VOID(value);
    size_cell(cells, constraints, list->count);
    for (int i = 0; i < list->count; i++) value_of(cells, type->elements[0].type, type->elements[0].per_constraints, list->array[i]);
}

// The index of an item is its place in the ascending order of the numbers, which is the order of asn1c's own table.
static void item_of(Cells *cells, asn_TYPE_descriptor_t *type, const void *value) {
    const asn_INTEGER_specifics_t *about = type->specifics;
    long number = *(const long *)value;
    for (int i = 0; i < about->map_count; i++) {
        if (about->value2enum[i].nat_value == number) {
            cell(cells, i);
            return;
        }
    }
    cells->wrong = 1;
}

static void string_of(Cells *cells, asn_TYPE_descriptor_t *type, const asn_per_constraints_t *constraints, const void *value) {
    const asn_OCTET_STRING_specifics_t *about = type->specifics;
    if (about && about->subvariant == ASN_OSUBV_BIT) {
        const BIT_STRING_t *bits = value;
        long size = 8L * bits->size - bits->bits_unused;
        size_cell(cells, constraints, size);
        for (long i = 0; i < size; i++) cell(cells, bits->buf[i / 8] >> (7 - i % 8) & 1);
        return;
    }
    const OCTET_STRING_t *octets = value;
    size_cell(cells, constraints, octets->size);
    for (int i = 0; i < octets->size; i++) cell(cells, octets->buf[i]);
}

static void value_of(Cells *cells, asn_TYPE_descriptor_t *type, asn_per_constraints_t *constraints, const void *value) {
    if (!constraints) constraints = type->per_constraints;
    // asn1c has no mark for the kind of a type; the decoder that the type has once it was used tells it
    if (type->uper_decoder == SEQUENCE_decode_uper) sequence_of(cells, type, value);
    else if (type->uper_decoder == CHOICE_decode_uper) choice_of(cells, type, value);
    else if (type->uper_decoder == SEQUENCE_OF_decode_uper) list_of(cells, type, constraints, value);
    else if (type->uper_decoder == NativeInteger_decode_uper) cell(cells, *(const long *)value);
    else if (type->uper_decoder == NativeEnumerated_decode_uper) item_of(cells, type, value);
    else if (type->uper_decoder == OCTET_STRING_decode_uper) string_of(cells, type, constraints, value);
    else cells->wrong = 1;
}

long asn1c_cells(asn_TYPE_descriptor_t *type, const void *value, int64_t *sheet, size_t sheet_cells) {
    Cells cells = {sheet, sheet_cells, 0, 0};
    value_of(&cells, type, NULL, value);
    return cells.wrong ? -1 : cells.used;
}
