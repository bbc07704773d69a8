// A value that asn1c decoded, as the cells of document 01's sheet.
#ifndef ASN1C_VALUE_H
#define ASN1C_VALUE_H

#include <asn_application.h>
#include <stddef.h>
#include <stdint.h>

// The descriptor of a named type, by document 01's type number; none for another number.
asn_TYPE_descriptor_t *asn1c_named(uint64_t type_number);

// Lays the cells of a decoded value into the sheet. The answer is how many there are, also where the sheet has fewer;
// -1 where the structure holds something that has no cell: an extension, or a value outside its type.
long asn1c_cells(asn_TYPE_descriptor_t *type, const void *value, int64_t *sheet, size_t sheet_cells);

#endif
