/* Knotsaffron for C and C++: the functions of libknotsaffron.a, with what each one does to the memory that it is lent.
 *
 * Messages of the LTE-V2X message layer (YD/T 3709-2020) in unaligned PER (ITU-T X.691): reading and writing them, resolving
 * positions, counting losses, checking what a roadside unit sends, planning which entry goes into which RSI. Link with
 * libknotsaffron.a; it needs nothing but memcpy and memset of the C library.
 *
 * Every function answers and returns for every input; what is said here of its answers is proved (docs/PROMISES.md). What is asked
 * of the caller is only this:
 *   - A pointer with a length leads to at least so many bytes or cells. A pointer is never NULL and is aligned for its type, also
 *     with length 0, where nothing is read or written through it.
 *   - `answer` leads to as many cells as the declaration says.
 *   - Memory that a call may change (`sheet` in reading, `bytes` in writing, a loss table, `id` in showing a row of one, `plan` in
 *     making one, `answer`) overlaps no other memory of that call, and no other thread reads or writes it meanwhile. Memory that a
 *     call only reads is changed by no one meanwhile.
 *
 * No function keeps any state, uses the heap, locks or calls back: any number of threads may call any of them at the same time.
 * All memory is the caller's, and none of it is kept after the call. On the stack, reading took up to 40 kilobytes, writing 9,
 * checking an RSI or an RSM 8, checking a signal message against a map 16, making or checking a plan 14 and a call over a loss table
 * 4 in every case that was tried; that is measured, and not proved.
 *
 * Types have numbers: 0 MessageFrame, 1 Description, 2 PositionOffsetLLV. Every other number is not named. Editions have numbers
 * too: 1 is YD/T 3709-2020, and no other is known.
 *
 * A sheet is a message as signed 64-bit cells, in the order of the message's bits:
 *   - a whole number gives a cell with its value;
 *   - an enumeration or a choice gives a cell with its index from 0, a choice before the cells of what was chosen;
 *   - a sequence gives a cell, 0 or 1, for each of its OPTIONAL components, all of them before the components that are there;
 *   - a list or a string gives a cell with its size, where sizes differ, and then its items;
 *   - an octet or a character is a cell with its number, a bit of a bit string a cell, 0 or 1;
 *   - extension bits give no cell.
 * The edition and the type number stand beside a sheet, not in its cells: reading hands them over in its answer, and whoever keeps a
 * sheet keeps both with it, since writing asks for them.
 * 16,384 cells are enough for every message that can be read, and 2,048 bytes for every message that can be written.
 */
#ifndef KNOTSAFFRON_H
#define KNOTSAFFRON_H

#include <stddef.h>
#include <stdint.h>

#ifdef __cplusplus
extern "C" {
#endif

/* The edition: YD/T 3709-2020. */
#define KNOTSAFFRON_FIRST_EDITION 1

/* Type numbers. */
#define KNOTSAFFRON_MESSAGE_FRAME 0
#define KNOTSAFFRON_DESCRIPTION 1
#define KNOTSAFFRON_POSITION_OFFSET_LLV 2

/* The longest message, in bytes, and the most cells that a message of that length can have. */
#define KNOTSAFFRON_MOST_BYTES 2048
#define KNOTSAFFRON_MOST_CELLS 16384

/* The numbers given back. Where several conditions hold, the function's own order decides; it stands with each function. */
#define KNOTSAFFRON_DONE 0
#define KNOTSAFFRON_TOO_LONG 1             /* a message, read or to be written, has more than 2,048 bytes */
#define KNOTSAFFRON_UNKNOWN_TYPE 2         /* the type number is not named */
#define KNOTSAFFRON_SHORT 3                /* the bits of a field are not all there */
#define KNOTSAFFRON_OUTSIDE 4              /* an argument of the resolver, the loss count, a report or a plan is outside its range */
#define KNOTSAFFRON_EXTENDED 5             /* an extension bit is 1 */
#define KNOTSAFFRON_SPARE_BITS 6           /* padding that is not zero, or a byte too many */
#define KNOTSAFFRON_NO_VALUE 7             /* the sheet is no value of the type; a plan: what is handed in is not of its form */
#define KNOTSAFFRON_NO_ROOM 8              /* the lent cells or bytes are too few */
#define KNOTSAFFRON_LEAVES_ITS_RANGE 9     /* a resolved latitude lies beyond a pole */
#define KNOTSAFFRON_NO_INFORMATION 10      /* the resolver: a coordinate that means "no information" */
#define KNOTSAFFRON_NO_RSI 11              /* the frame is not RSI */
#define KNOTSAFFRON_EVENT_POSITION 12      /* an event has no eventPos */
#define KNOTSAFFRON_EVENT_REACH 13         /* an event has none of eventRadius, referencePaths, referenceLinks */
#define KNOTSAFFRON_SIGN_POSITION 14       /* a sign has no signPos */
#define KNOTSAFFRON_SIGN_DESCRIPTION 15    /* a sign has no description */
#define KNOTSAFFRON_SIGN_REACH 16          /* a sign has neither referencePaths nor referenceLinks */
#define KNOTSAFFRON_TABLE_FULL 20          /* a report: a new sender, and all rows of the party are held */
#define KNOTSAFFRON_COUNT_FULL 21          /* a report: as many of this sender were received as can be counted */
#define KNOTSAFFRON_NO_RSM 22              /* the frame is not RSM */
#define KNOTSAFFRON_REPEATED_ID 23         /* RSM: a participant repeats the ptcId of an earlier one */
#define KNOTSAFFRON_UNIT_MISSING 24        /* RSM: no participant has ptcId 0, which is the unit itself */
#define KNOTSAFFRON_NO_SENDER 25           /* a report: messages of this kind have no sender */
#define KNOTSAFFRON_UNKNOWN_EDITION 26     /* writing: the edition is not known */
#define KNOTSAFFRON_NOT_HELD 28            /* a drop: the sender is not held; a row: no sender stands there */
#define KNOTSAFFRON_UNKNOWN_PARTY 29       /* a report, a drop or a row: no such party shares the loss table */
#define KNOTSAFFRON_FIELD_MISSING 30       /* RSM: a participant has no vehicleClass */
#define KNOTSAFFRON_NUMBER_OUTSIDE 41      /* reading: a whole number outside its type's range */
#define KNOTSAFFRON_ITEM_OUTSIDE 42        /* reading: the index of an enumeration above its last item */
#define KNOTSAFFRON_ALTERNATIVE_OUTSIDE 43 /* reading: the index of a choice above its last alternative */
#define KNOTSAFFRON_SIZE_OUTSIDE 44        /* reading: the size of a list or string above its largest */
#define KNOTSAFFRON_NO_SPAT_AND_MAP 50     /* signal against map: the two frames are not a SPAT and a MAP */
#define KNOTSAFFRON_REPEATED_SIGNAL 51     /* signal against map: a signal entry repeats the region and id of an earlier one */
#define KNOTSAFFRON_PHASE_NOT_LISTED 52    /* signal against map: a phase of a node that the node's signal entry does not list */
#define KNOTSAFFRON_ENTRY_NOT_ONCE 70      /* a plan: an entry does not stand in it exactly once */
#define KNOTSAFFRON_WRONG_MESSAGE 71       /* a plan: a message is empty, disordered, too full, too long, or of what is not there */
#define KNOTSAFFRON_ENTRY_TOO_LONG 72      /* making a plan: an entry is too long even alone in a message */

/* Reads a message of a type: `bytes` become the cells of `sheet`.
 *
 * answer[0] is the number, answer[1] the place, answer[2] the bits of the message without its padding, answer[3] its cells,
 * answer[4] the row, answer[5] the bits that lack, answer[6] the edition, answer[7] the type number:
 *
 *   number    place                                   bits  cells   row  lacking
 *   0         0                                       of the message  0  0
 *   2         0                                       0     0         0  0     asked first
 *   1         0                                       0     0         0  0     then
 *   3         first bit of the field that is short    0     0         0  count then 3, 41 to 44 and 5 in the order of the bits;
 *   41 to 44  first bit of the field that is outside  0     0       row  0     a field that is not wholly there is short
 *   5         the extension bit                       0     0         0  0     before it is judged
 *   6         first bit behind the message            0     0         0  0     then
 *   8         0                                       0     needed    0  0
 *
 * The row is that of the type whose range the code is outside of: the whole number's with 41, the enumeration's with 42, the
 * choice's with 43, the list's or string's with 44, and not that of the component that leads to it. docs/ROWS.md says what stands
 * in each row. Row 0 is a bit, which has no code outside: with every other number 0 stands for no row.
 * With 3, of the field's bits so many are not there: at least one, and all of them where the field would begin behind the last
 * bit. So the field ends that many bits behind the last bit that is there.
 * The edition is that by which the message was read, 1, and the type number the one that was asked for, known or not: with every
 * number, 0 or not.
 * Bits are counted from 0, most significant bit of the first byte first.
 * With number 0 the first answer[3] cells of `sheet` are the message, and the cells behind them are as they were. With every other
 * number all of `sheet` is as it was. `answer` is written with every number. `bytes` is only read.
 * To learn how many cells a message needs, lend none: the answer is 8 with that count. */
void knotsaffron_read(uint64_t type_number, const uint8_t *bytes, size_t bytes_len, int64_t *sheet, size_t sheet_len,
                      uint64_t answer[8]);

/* Writes a message of a type of an edition: the cells of `sheet` become `bytes`. The sheet is exactly one value, with no spare cell.
 *
 * answer[0] is the number, answer[1] the place, answer[2] the bits of the message without its padding, answer[3] its bytes:
 *
 *   number  place                                     bits  bytes
 *   0       0                                         of the message
 *   2       0                                         0     0      asked first
 *   26      0                                         0     0      then, whatever the sheet is
 *   7       a cell, counted from 0: the first wrong   0     0      then; the whole sheet is judged before 1 and 8
 *           one; else `sheet_len` where cells lack;
 *           else the first spare one
 *   1       0                                         0     0      then
 *   8       0                                         0     those that are needed
 *
 * With number 0 the first answer[3] of `bytes` are the message, its last byte filled up with zero bits, and the bytes behind them
 * are as they were. With every other number all of `bytes` is as it was. `answer` is written with every number. `sheet` is only
 * read. To learn how many bytes a message needs, lend none: the answer is 8 with that count. */
void knotsaffron_write(uint64_t edition, uint64_t type_number, const int64_t *sheet, size_t sheet_len, uint8_t *bytes,
                       size_t bytes_len, uint64_t answer[4]);

/* Resolves a position, in units of 0.1 microdegree: from a reference and the two numbers of a form of PositionOffsetLL.
 *
 * `first` is the longitude's number and `second` the latitude's, in the order in which the forms carry them. Forms 1 to 6 carry
 * offsets of 12, 14, 16, 18, 22 and 24 bits, which are added to the reference; form 7 carries the coordinates themselves, which
 * replace it. (A form is one more than the index of the choice in a sheet.)
 *
 * Latitude 900000001 and longitude 1800000001 mean "no information": they are of their types, and reading and writing carry them,
 * but they are no point, and nothing is added to them. The other longitudes, -1799999999 to 1800000000, are a ring of 3600000000
 * places: a sum that goes past one end of it goes on from the other.
 *
 * answer[0] is the number, answer[1] the latitude, answer[2] the longitude:
 *
 *   4   the first of these that is outside its range: the form (1 to 7), the reference latitude (-900000000 to 900000001), the
 *       reference longitude (-1799999999 to 1800000001), `first`, `second`. The reference is asked in form 7 too
 *   10  else: the reference in forms 1 to 6, or the coordinate in form 7, means "no information" on either axis. In form 7 the
 *       reference may mean it
 *   9   else: the latitude's sum lies outside -900000000 to 900000000
 *   0   else
 *
 * With every number but 0 both coordinates are 0. An answer is never one of the two numbers for "no information". */
void knotsaffron_resolve(int64_t latitude, int64_t longitude, int64_t form, int64_t first, int64_t second, int64_t answer[3]);

/* Counts the messages missed between two message counts, which run from 0 to 127 and then start again: new minus old minus 1, round
 * the ring of 128, so that equal counts give 127.
 *
 * The answer is number * 256 + missed: number 0 with the messages missed, or number 4 with 0 where a count is above 127. So it is
 * the messages missed themselves, or 1024. */
uint64_t knotsaffron_missed(uint8_t old_count, uint8_t new_count);

/* The kinds of message, by the frame's index, which is the first cell of its sheet. BSM, RSM and RSI have a sender; MAP and SPAT
 * have none. */
#define KNOTSAFFRON_BSM 0
#define KNOTSAFFRON_MAP 1
#define KNOTSAFFRON_RSM 2
#define KNOTSAFFRON_SPAT 3
#define KNOTSAFFRON_RSI 4

/* The parties that share a loss table, by their numbers, and how many there are. */
#define KNOTSAFFRON_LOGGER 0
#define KNOTSAFFRON_MAP_DISPLAY 1
#define KNOTSAFFRON_LOSS_PARTIES 2

/* The rows that each party has. */
#define KNOTSAFFRON_LOSS_ROWS 32

/* A row of a loss table. A sender is an id together with a kind of message: one id that sends two kinds is two senders. A row where
 * nothing was received is free, whatever its other members are. */
typedef struct knotsaffron_loss_sender {
    uint8_t id[8];
    uint16_t kind;
    uint8_t first;     /* the message count of the first report */
    uint8_t last;      /* that of the last report */
    uint32_t received; /* how many reports there were */
    uint64_t missed;   /* how many messages were missed between them */
} knotsaffron_loss_sender;

/* A loss table: for each sender of a drive what was received of it, and what was missed. Two parties share it, and each has rows of
 * its own: the logger, which is party 0, and the map display, which is party 1.
 *
 * It is the caller's, 1,536 bytes without padding. Begin with knotsaffron_losses_start, hand every message over with
 * knotsaffron_losses_report as it comes, and ask with knotsaffron_losses_row, row by row, whenever the numbers are wanted. A table
 * may be copied and stored, and there may be any number of them.
 *
 * Every call but the start names its party, and neither party sees the other: a party's answers and rows are those of its own
 * calls, whatever the other calls meanwhile. A sender may stand once for each party, and counts there by the reports of that party
 * alone. Row numbers are told and asked within the party, 0 to 31. But each call is lent the whole table, with the rows of both:
 * where the parties are two threads, they take turns.
 *
 * From a start on, each row says what the reports of its sender say that its party made and that were accepted since it came in:
 * `received` is how many, `first` and `last` are the first and the last count, and `missed` is the sum of what knotsaffron_missed
 * says of neighbours. A sender stands in one row of a party at most, and `missed` never comes near its end.
 *
 * What is said below holds for whatever bytes a table holds, also for one that was never started. Then a row where anything was
 * received is held, by whatever sender it names; where a sender stands in several rows of a party, the lowest is its row; nothing
 * is missed behind a last count above 127; and `missed` goes on from 0 behind its largest number. */
typedef struct knotsaffron_loss_table {
    knotsaffron_loss_sender senders[KNOTSAFFRON_LOSS_PARTIES][KNOTSAFFRON_LOSS_ROWS];
} knotsaffron_loss_table;

/* Starts a table for both parties: no row of either is held, and all bytes are 0, whatever they were. */
void knotsaffron_losses_start(knotsaffron_loss_table *table);

/* Reports a message to the rows of a party: its kind, and the id and the message count that it carries.
 *
 * answer[0] is the number, answer[1] the sender's row within the party, counted from 0, and 0 with every number but 0. The first of
 * these is told; held, new and free are meant of the party's own rows:
 *
 *   29  `party` is neither 0 (the logger) nor 1 (the map display)
 *   4   `count` is above 127
 *   25  `kind` is neither 0 (BSM) nor 2 (RSM) nor 4 (RSI). MAP and SPAT carry no id of a sender
 *   21  the sender is held, and 4294967295 of its messages were received already
 *   0   the sender is held: one more is received, what knotsaffron_missed says of `last` and `count` is added to `missed`, and
 *       `last` is `count`
 *   0   the sender is new, and takes the lowest free row: `first` and `last` are `count`, 1 is received and 0 are missed
 *   20  the sender is new, and no row is free, even where the other party has room
 *
 * With number 0 the other rows of both parties are as they were. With every other number all of `table` is as it was. `answer` is
 * written with every number. `id` is only read. */
void knotsaffron_losses_report(knotsaffron_loss_table *table, uint64_t party, uint64_t kind, const uint8_t id[8], uint8_t count,
                               uint64_t answer[2]);

/* Drops a sender of a party: its row is free again, and the party's next new sender takes it where no lower one is free. Where the
 * other party holds the sender too, it holds it still.
 *
 * answer[0] is the number, answer[1] the row within the party that the sender had, and 0 with every number but 0:
 *
 *   29  `party` is neither 0 nor 1; asked first
 *   28  the party does not hold the sender. A kind that has no senders has none that is held: it is 28 too, and not 25
 *   0   else; all bytes of the row are 0
 *
 * With number 0 the other rows of both parties are as they were. With every other number all of `table` is as it was. `answer` is
 * written with every number. `id` is only read. */
void knotsaffron_losses_drop(knotsaffron_loss_table *table, uint64_t party, uint64_t kind, const uint8_t id[8], uint64_t answer[2]);

/* Shows a row of a party, counted from 0 within it.
 *
 * answer[0] is the number, answer[1] the kind, answer[2] the first count, answer[3] the last count, answer[4] how many were
 * received, answer[5] how many were missed:
 *
 *   29  `party` is neither 0 nor 1; asked first
 *   28  no sender stands in that row, or there is no such row: the last is 31
 *   0   else; `id` is the sender's
 *
 * With every number but 0 the other cells are 0, and `id` is as it was. `answer` is written with every number. `table` is only
 * read. */
void knotsaffron_losses_row(const knotsaffron_loss_table *table, uint64_t party, uint64_t row, uint8_t id[8], uint64_t answer[6]);

/* Checks a sheet of a message frame (type number 0) against the RSI sending rules (T/ITS 0110-2024, table 11).
 *
 * answer[0] is the number, answer[1] the place. The first of these is told:
 *
 *   number    place
 *   7         a cell, as in writing: the sheet is no value of a frame. How long its bytes would be is not asked
 *   11        0
 *   12 to 16  the entry that breaks the rule, counted from 0 in its own list: the events in order, by number within each (12, 13),
 *             and then the signs in order (14, 15, 16)
 *   0         0; an RSI with neither list passes
 *
 * `sheet` is only read; `answer` is written with every number. */
void knotsaffron_check_rsi(const int64_t *sheet, size_t sheet_len, uint64_t answer[2]);

/* Checks a sheet of a message frame (type number 0) against the RSM sending profile (T/ITS 0110-2024, 6.3.3.2.1 g and h, table 9):
 * exactly one participant has ptcId 0, which is the unit itself; no two participants share a ptcId; and each participant has a
 * vehicleClass, which of the required fields is the one that the type leaves optional.
 *
 * answer[0] is the number, answer[1] the place. The first of these is told:
 *
 *   number  place
 *   7       a cell, as in writing: the sheet is no value of a frame. How long its bytes would be is not asked
 *   22      0; the message is no RSM
 *   23      the first participant that repeats the ptcId of an earlier one, counted from 0; also where that ptcId is 0
 *   24      0; no participant has ptcId 0
 *   30      the first participant without a vehicleClass, counted from 0; the unit itself is asked too
 *   0       0
 *
 * `sheet` is only read; `answer` is written with every number. */
void knotsaffron_check_rsm(const int64_t *sheet, size_t sheet_len, uint64_t answer[2]);

/* Checks a signal message against a map (T/ITS 0110-2024, 6.3.2.2.2): `signal` is the sheet of a SPAT and `map` the sheet of a MAP,
 * both of message frames (type number 0).
 *
 * A node of the map is judged where the signal message has an entry for it: every phase that a movement or a connection of the
 * node's incoming links uses must be listed in that entry. An entry is for a node where region and id are equal; a missing region
 * equals only a missing one, and not region 0. A node without an entry is not judged, and one that stands twice is judged twice.
 * Phase 0, which means no phase, is not judged, nor is a phase that is listed and not used.
 *
 * answer[0] is the number, answer[1] the node, answer[2] the phase. The first of these is told:
 *
 *   number  node                                       phase
 *   7       0                                          0      `signal` is no value of a frame. How long its bytes would be is not
 *                                                             asked, of either sheet
 *   7       1                                          0      `map` is none
 *   50      0                                          0      `signal` is no SPAT, or `map` is no MAP
 *   51      an entry of the signal message, counted    0      the first entry that repeats the region and id of an earlier one,
 *           from 0                                            whether or not the map has that node
 *   52      a node of the map, counted from 0          phase  the first phase that is not listed, in map order: the nodes in order;
 *                                                             in a node its incoming links; in a link its movements, and then its
 *                                                             lanes; in a lane its connections
 *   0       0                                          0
 *
 * `signal` and `map` are only read; `answer` is written with every number. */
void knotsaffron_check_signal(const int64_t *signal, size_t signal_len, const int64_t *map, size_t map_len, uint64_t answer[3]);

/* The kinds of entries that a plan is for: a plan is for one list of an RSI at a time. */
#define KNOTSAFFRON_EVENTS 0
#define KNOTSAFFRON_SIGNS 1

/* The most entries that a plan is for, and the most cells that a plan needs which passes its check: the count of messages, and for
 * each entry its number and, where each stands alone, the count of its message. */
#define KNOTSAFFRON_MOST_ENTRIES 64
#define KNOTSAFFRON_MOST_PLAN_CELLS 129

/* A plan says which entry goes into which RSI message, where the entries of a list are more than one message has room for. It is
 * worked out by knotsaffron_make_plan or by any other program, and knotsaffron_check_plan says whether it is good. Both take:
 *
 *   kind     0 events, 1 signs
 *   header   a sheet of a message frame (type number 0): an RSI with neither list. Every message of the plan has its fields
 *   entries  a cell with their count, 0 to 64, and then the entries one behind the other, each the cells of a value of RTEData
 *            (events) or RTSData (signs), and nothing behind
 *   limit    the most bytes that a message may have, 1 to 2,048
 *
 * A plan is a cell with the count of messages, and then for each message a cell with its count of entries and so many numbers of
 * entries, counted from 0, and nothing behind. So 3, 2, 0, 1, 1, 2, 2, 3, 4 is a plan of three messages: of entries 0 and 1, of
 * entry 2, and of entries 3 and 4.
 *
 * The sheet of a message, to be written, is the header's cells with the presence cell of the list set to 1, which is header[2] for
 * events and header[3] for signs; then a cell with the count of its entries, and then the cells of these. Its length is that in
 * bytes which writing gives it, and is more than 2,048 where writing refuses it as too long. */

/* Checks a plan: whether every entry stands in exactly one message, and every message can be sent.
 *
 * answer[0] is the number, answer[1] the place. The first of these is told:
 *
 *   number  place
 *   7       0; `kind` is neither 0 nor 1, or `header`, `entries` or `plan` is not of its form. Of a plan that is all that is asked
 *           here: a number of an entry may be any cell
 *   4       0; `limit` is outside 1 to 2,048
 *   70      the first entry, counted from 0, that does not stand exactly once in the whole plan
 *   71      the first message, counted from 0, that is empty, or names an entry that is not there, or whose numbers do not ascend,
 *           or that has more entries than its list takes, 8 events or 16 signs, or more bytes than `limit`
 *   0       0; no order is asked for across messages. Where there are no entries, the plan of no messages passes, and no other
 *
 * `header`, `entries` and `plan` are only read; `answer` is written with every number. */
void knotsaffron_check_plan(uint64_t kind, const int64_t *header, size_t header_len, const int64_t *entries, size_t entries_len,
                            const int64_t *plan, size_t plan_len, uint64_t limit, uint64_t answer[2]);

/* Makes a plan: takes the entries in order, and fills each message as far as `limit` and its list allow before it begins the next.
 * Where there are no entries it is the plan of no messages, the single cell 0. The check passes every plan that is made.
 *
 * answer[0] is the number, answer[1] the place, answer[2] the cells of the plan:
 *
 *   number  place                                          cells
 *   0       0                                              of the plan
 *   7       0                                              0      asked first: as in the check, but for the plan
 *   4       0                                              0      then: `limit` is outside 1 to 2,048
 *   72      the first entry, counted from 0, that alone    0      then; else there is a plan, and with 72 there is none, whoever
 *           in a message is longer than `limit`                   makes it
 *   8       0                                              those that are needed
 *
 * With number 0 the first answer[2] cells of `plan` are the plan, and the cells behind them are as they were. With every other
 * number all of `plan` is as it was. `answer` is written with every number. `header` and `entries` are only read.
 * KNOTSAFFRON_MOST_PLAN_CELLS are enough for every plan. To learn how many a plan needs, lend none: the answer is 8 with that
 * count. */
void knotsaffron_make_plan(uint64_t kind, const int64_t *header, size_t header_len, const int64_t *entries, size_t entries_len,
                           uint64_t limit, int64_t *plan, size_t plan_len, uint64_t answer[3]);

#ifdef __cplusplus
}
#endif

#endif
