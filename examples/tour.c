// A tour of the library in C: reads a message, meets a refusal, writes a message, resolves a position, counts losses,
// keeps a loss table for two parties, checks messages against the sending rules of RSI and RSM, and a signal message
// against a map, and packs twenty signs into messages. What it prints is stored in tour.stdout.
#include <inttypes.h>
#include <stdio.h>
#include <string.h>

#include "knotsaffron.h"

static void print_bytes(const uint8_t *bytes, size_t count)
{
    for (size_t i = 0; i < count; i++)
        printf(" %02x", bytes[i]);
}

static void print_cells(const int64_t *cells, size_t count)
{
    for (size_t i = 0; i < count; i++)
        printf(" %" PRId64, cells[i]);
}

// Reads a message and prints its cells, or the refusal.
static void read_and_print(const char *name, uint64_t type_number, const uint8_t *bytes, size_t length)
{
    int64_t sheet[KNOTSAFFRON_MOST_CELLS];
    uint64_t answer[8];
    knotsaffron_read(type_number, bytes, length, sheet, KNOTSAFFRON_MOST_CELLS, answer);
    printf("read %s from", name);
    print_bytes(bytes, length);
    // with every number: the edition, and the type number that was asked for
    printf(": edition %" PRIu64 ", type %" PRIu64, answer[6], answer[7]);
    if (answer[0] != KNOTSAFFRON_DONE) {
        printf(": refused %" PRIu64 " at bit %" PRIu64, answer[0], answer[1]);
        // with 41 to 44 a row of the type table is named, which docs/ROWS.md has
        if (answer[4] != 0)
            printf(", row %" PRIu64, answer[4]);
        // with 3, how many bits of the field are not there
        if (answer[5] != 0)
            printf(", %" PRIu64 " bits lack", answer[5]);
        printf("\n");
        return;
    }
    printf(": %" PRIu64 " bits, %" PRIu64 " cells:", answer[2], answer[3]);
    print_cells(sheet, answer[3]);
    printf("\n");
}

// Writes a sheet of an edition and prints its bytes, or the refusal; first asks how many bytes it needs.
static void write_and_print(const char *name, uint64_t edition, uint64_t type_number, const int64_t *sheet, size_t count)
{
    uint8_t bytes[KNOTSAFFRON_MOST_BYTES];
    uint64_t answer[4];
    knotsaffron_write(edition, type_number, sheet, count, bytes, 0, answer);
    if (answer[0] == KNOTSAFFRON_NO_ROOM)
        printf("%s needs %" PRIu64 " bytes\n", name, answer[3]);
    knotsaffron_write(edition, type_number, sheet, count, bytes, sizeof bytes, answer);
    printf("write %s of edition %" PRIu64 " from", name, edition);
    print_cells(sheet, count);
    if (answer[0] != KNOTSAFFRON_DONE) {
        printf(": refused %" PRIu64 " at cell %" PRIu64 "\n", answer[0], answer[1]);
        return;
    }
    printf(": %" PRIu64 " bits, %" PRIu64 " bytes:", answer[2], answer[3]);
    print_bytes(bytes, answer[3]);
    printf("\n");
}

static void resolve_and_print(int64_t latitude, int64_t longitude, int64_t form, int64_t first, int64_t second)
{
    int64_t answer[3];
    knotsaffron_resolve(latitude, longitude, form, first, second, answer);
    printf("from %" PRId64 " %" PRId64 " by form %" PRId64 " with %" PRId64 " %" PRId64, latitude, longitude, form, first, second);
    if (answer[0] == KNOTSAFFRON_DONE)
        printf(": latitude %" PRId64 ", longitude %" PRId64 "\n", answer[1], answer[2]);
    else
        printf(": refused %" PRId64 "\n", answer[0]);
}

static void count_and_print(uint8_t old_count, uint8_t new_count)
{
    uint64_t told = knotsaffron_missed(old_count, new_count);
    if (told / 256 == KNOTSAFFRON_DONE)
        printf("count %u, then %u: missed %" PRIu64 "\n", old_count, new_count, told % 256);
    else
        printf("count %u, then %u: refused %" PRIu64 "\n", old_count, new_count, told / 256);
}

// Prints the row that a report or a drop tells, or the refusal.
static void print_change(const uint8_t id[8], const uint64_t answer[2])
{
    print_bytes(id, 8);
    if (answer[0] == KNOTSAFFRON_DONE)
        printf(": row %" PRIu64 "\n", answer[1]);
    else
        printf(": refused %" PRIu64 "\n", answer[0]);
}

static void report_and_print(knotsaffron_loss_table *table, uint64_t party, uint64_t kind, const uint8_t id[8], uint8_t count)
{
    uint64_t answer[2];
    knotsaffron_losses_report(table, party, kind, id, count, answer);
    printf("party %" PRIu64 " reports kind %" PRIu64 ", count %u of", party, kind, count);
    print_change(id, answer);
}

static void drop_and_print(knotsaffron_loss_table *table, uint64_t party, uint64_t kind, const uint8_t id[8])
{
    uint64_t answer[2];
    knotsaffron_losses_drop(table, party, kind, id, answer);
    printf("party %" PRIu64 " drops kind %" PRIu64 " of", party, kind);
    print_change(id, answer);
}

static void show_and_print(const knotsaffron_loss_table *table, uint64_t party, uint64_t row)
{
    uint8_t id[8];
    uint64_t answer[6];
    knotsaffron_losses_row(table, party, row, id, answer);
    printf("party %" PRIu64 ", row %" PRIu64, party, row);
    // a refusal leaves the id as it was
    if (answer[0] != KNOTSAFFRON_DONE) {
        printf(": refused %" PRIu64 "\n", answer[0]);
        return;
    }
    printf(": kind %" PRIu64 " of", answer[1]);
    print_bytes(id, sizeof id);
    printf(": first %" PRIu64 ", last %" PRIu64 ", received %" PRIu64 ", missed %" PRIu64 "\n", answer[2], answer[3], answer[4],
           answer[5]);
}

// The check is that of an RSI or that of an RSM.
static void check_and_print(void check(const int64_t *, size_t, uint64_t *), const char *name, const int64_t *sheet, size_t count)
{
    uint64_t answer[2];
    check(sheet, count, answer);
    if (answer[0] == KNOTSAFFRON_DONE)
        printf("check %s: passes\n", name);
    else if (answer[0] == KNOTSAFFRON_UNIT_MISSING)
        printf("check %s: rule %" PRIu64 "\n", name, answer[0]);
    else
        printf("check %s: rule %" PRIu64 " at entry %" PRIu64 "\n", name, answer[0], answer[1]);
}

static void check_signal_and_print(const char *name, const int64_t *signal, size_t signal_count, const int64_t *map,
                                   size_t map_count)
{
    uint64_t answer[3];
    knotsaffron_check_signal(signal, signal_count, map, map_count, answer);
    printf("check %s: ", name);
    if (answer[0] == KNOTSAFFRON_DONE)
        printf("agrees\n");
    else if (answer[0] == KNOTSAFFRON_PHASE_NOT_LISTED)
        printf("number %" PRIu64 ", node %" PRIu64 " of the map, phase %" PRIu64 "\n", answer[0], answer[1], answer[2]);
    else if (answer[0] == KNOTSAFFRON_REPEATED_SIGNAL)
        printf("number %" PRIu64 ", entry %" PRIu64 " of the signal message\n", answer[0], answer[1]);
    else
        printf("number %" PRIu64 "\n", answer[0]);
}

// An RSI without events and signs, and one with an event that says neither where it is nor how far it reaches.
static const int64_t quiet[] = {4, 0, 0, 0, 5, 1, 2, 3, 4, 5, 6, 7, 8, 0, 399042000, 1164074000};
static const int64_t nowhere[] = {4, 0, 1, 0, 5, 1, 2, 3, 4, 5, 6, 7, 8, 0, 399042000, 1164074000, //
                                  1, 0, 0, 0, 0, 0, 0, 0, 0, 9, 100, 0};

// Up to how many participants an RSM has, which stand behind it. A participant by its ptcId, with nothing that is optional but its
// class, and one without that either.
#define ROADSIDE(participants) KNOTSAFFRON_RSM, 5, 1, 2, 3, 4, 5, 6, 7, 8, 0, 399042000, 1164074000, participants
#define TOLD(id) 1, id, 3, 500, 0, 0, 10, -10, 0, 5, 100, 200, 0, 180, 450
#define PARTICIPANT(id) 0, 0, 0, 0, 0, 1, TOLD(id), 0, 10
#define WITHOUT_CLASS(id) 0, 0, 0, 0, 0, 0, TOLD(id)
// RSMs of the unit, which is 0, and vehicle 7: with both, with vehicle 7 again, without the unit, without the vehicle's class.
static const int64_t unit_and_vehicle[] = {ROADSIDE(2), PARTICIPANT(0), PARTICIPANT(7)};
static const int64_t vehicle_twice[] = {ROADSIDE(3), PARTICIPANT(0), PARTICIPANT(7), PARTICIPANT(7)};
static const int64_t no_unit[] = {ROADSIDE(1), PARTICIPANT(7)};
static const int64_t no_class[] = {ROADSIDE(2), PARTICIPANT(0), WITHOUT_CLASS(7)};

// A signal entry without times, of a node by its id in region 3: its status, and how many phases it lists. A phase, which shows one
// light and no timing.
#define ENTRY(id, phases) 0, 0, 0, 1, 3, id, 0, 0, 0, 0, 0, 0, 0, 0, 0, 0, 0, 0, 0, 0, 0, 0, phases
#define PHASE(number) number, 1, 0, 3
// Signal messages: of node 7 with the phases 1 and 2, of the same with phase 1 alone, and of nodes 7, 8 and 7 again.
static const int64_t two_phases[] = {KNOTSAFFRON_SPAT, 0, 0, 0, 5, 1, ENTRY(7, 2), PHASE(1), PHASE(2)};
static const int64_t one_phase[] = {KNOTSAFFRON_SPAT, 0, 0, 0, 5, 1, ENTRY(7, 1), PHASE(1)};
static const int64_t node_twice[] = {KNOTSAFFRON_SPAT, 0, 0, 0, 5, 3, //
                                     ENTRY(7, 1), PHASE(1), ENTRY(8, 1), PHASE(1), ENTRY(7, 1), PHASE(2)};
// A map with node 6, which has no links, and node 7, both of region 3. One link leads to node 7 from node 6, with a movement on
// phase 1 to node 8 and one lane, whose connection to node 8 is on phase 2.
static const int64_t crossing[] = {KNOTSAFFRON_MAP, 0, 5, 2, //
                                   0, 0, 1, 3, 6, 0, 399042000, 1164074000, //
                                   0, 1, 1, 3, 7, 0, 399043000, 1164074000, 1, //
                                   0, 0, 0, 1, 1, 3, 6, 350, 1, 1, 1, 3, 8, 1, //
                                   1, 0, 0, 0, 1, 0, 0, 1, 1, 0, 1, 1, 3, 8, 2};
#define COUNT(cells) (sizeof cells / sizeof cells[0])

static void keep_losses(void)
{
    // one id that sends two kinds is two senders; kind 1, MAP, has none
    const uint8_t id[8] = {1, 2, 3, 4, 5, 6, 7, 8};
    knotsaffron_loss_table table;
    knotsaffron_losses_start(&table);
    report_and_print(&table, KNOTSAFFRON_LOGGER, KNOTSAFFRON_BSM, id, 5);
    report_and_print(&table, KNOTSAFFRON_LOGGER, KNOTSAFFRON_BSM, id, 9);
    report_and_print(&table, KNOTSAFFRON_LOGGER, KNOTSAFFRON_RSM, id, 9);
    report_and_print(&table, KNOTSAFFRON_LOGGER, KNOTSAFFRON_MAP, id, 9);
    // the map display has rows of its own, in which the sender is new; a third party there is not
    report_and_print(&table, KNOTSAFFRON_MAP_DISPLAY, KNOTSAFFRON_BSM, id, 9);
    report_and_print(&table, KNOTSAFFRON_LOSS_PARTIES, KNOTSAFFRON_BSM, id, 9);
    show_and_print(&table, KNOTSAFFRON_LOGGER, 0);
    drop_and_print(&table, KNOTSAFFRON_LOGGER, KNOTSAFFRON_BSM, id);
    show_and_print(&table, KNOTSAFFRON_LOGGER, 0);
    show_and_print(&table, KNOTSAFFRON_MAP_DISPLAY, 0);
}

static void check_messages(void)
{
    check_and_print(knotsaffron_check_rsi, "an RSI with neither list", quiet, COUNT(quiet));
    check_and_print(knotsaffron_check_rsi, "an RSI with one event", nowhere, COUNT(nowhere));

    check_and_print(knotsaffron_check_rsm, "an RSM of the unit and a vehicle", unit_and_vehicle, COUNT(unit_and_vehicle));
    // entries are counted from 0; of 24 there is none
    check_and_print(knotsaffron_check_rsm, "an RSM with a vehicle twice", vehicle_twice, COUNT(vehicle_twice));
    check_and_print(knotsaffron_check_rsm, "an RSM without the unit", no_unit, COUNT(no_unit));
    check_and_print(knotsaffron_check_rsm, "an RSM without a class", no_class, COUNT(no_class));

    check_signal_and_print("two phases against the map", two_phases, COUNT(two_phases), crossing, COUNT(crossing));
    // node 7 is the map's second, counted from 0
    check_signal_and_print("one phase against the map", one_phase, COUNT(one_phase), crossing, COUNT(crossing));
    check_signal_and_print("a node twice against the map", node_twice, COUNT(node_twice), crossing, COUNT(crossing));
    check_signal_and_print("the map against itself", crossing, COUNT(crossing), crossing, COUNT(crossing));
}

// Twenty signs, which are packed into messages of at most so many bytes; and a limit that is too low for some of them.
enum { SIGNS = 20, LIMIT = 400, LOW_LIMIT = 60 };
// Where a header has the presence cell of its signs.
enum { SIGNS_THERE = 3 };
// What the signs say, each in its turn, so that some take more room than others.
static const char *const sayings[] = {"Stop",
                                      "Give way",
                                      "No overtaking for 2 km",
                                      "Bridge: 3.5 tonnes at most",
                                      "Road works: left lane closed, keep to the right",
                                      "School: children cross from 7 to 9 and from 15 to 17"};

// Cells that are put one behind the other.
struct cells {
    int64_t cells[2000];
    size_t count;
};

// The signs behind their count, and where each of them begins; behind the last of them, where it ends.
struct signs {
    struct cells all;
    size_t starts[SIGNS + 1];
};

static void put(struct cells *to, const int64_t *more, size_t count)
{
    memcpy(to->cells + to->count, more, count * sizeof more[0]);
    to->count += count;
}

// A sign by its number: its position, what it says, and one link that it is for, from node 6 to node 7.
static void put_sign(struct cells *to, int64_t number, const char *saying)
{
    const int64_t head[] = {1, 1, 0, 0, 0, 1, number, 0, 0, 0, 100 * number, -10 * number, 0, (int64_t)strlen(saying)};
    const int64_t link[] = {1, 0, 0, 6, 0, 7};
    put(to, head, COUNT(head));
    for (; *saying != 0; saying++)
        to->cells[to->count++] = *saying;
    put(to, link, COUNT(link));
}

static void gather(struct signs *signs)
{
    const int64_t count = SIGNS;
    put(&signs->all, &count, 1);
    for (int i = 0; i < SIGNS; i++) {
        signs->starts[i] = signs->all.count;
        put_sign(&signs->all, i, sayings[i % COUNT(sayings)]);
    }
    signs->starts[SIGNS] = signs->all.count;
}

// Prints which sign goes into which message.
static void print_plan(const int64_t *plan)
{
    const int64_t *at = plan + 1;
    for (int64_t message = 0; message < plan[0]; message++, at += 1 + at[0]) {
        printf("message %" PRId64 ": signs", message);
        print_cells(at + 1, (size_t)at[0]);
        printf("\n");
    }
}

// Makes a plan and prints it, or the refusal; first asks how many cells it needs. The answer is how many it has.
static size_t plan_and_print(const struct signs *signs, uint64_t limit, int64_t plan[KNOTSAFFRON_MOST_PLAN_CELLS])
{
    uint64_t answer[3];
    const struct cells *all = &signs->all;
    knotsaffron_make_plan(KNOTSAFFRON_SIGNS, quiet, COUNT(quiet), all->cells, all->count, limit, plan, 0, answer);
    if (answer[0] == KNOTSAFFRON_NO_ROOM)
        printf("the plan needs %" PRIu64 " cells\n", answer[2]);
    knotsaffron_make_plan(KNOTSAFFRON_SIGNS, quiet, COUNT(quiet), all->cells, all->count, limit, plan, KNOTSAFFRON_MOST_PLAN_CELLS,
                          answer);
    printf("plan %d signs for messages of at most %" PRIu64 " bytes: ", SIGNS, limit);
    if (answer[0] != KNOTSAFFRON_DONE) {
        // with 72 the place is a sign that is too long even alone
        printf("number %" PRIu64 ", sign %" PRIu64 "\n", answer[0], answer[1]);
        return 0;
    }
    printf("%" PRId64 " messages\n", plan[0]);
    print_plan(plan);
    return answer[2];
}

static void check_plan_and_print(const char *name, const struct signs *signs, const int64_t *plan, size_t count)
{
    uint64_t answer[2];
    knotsaffron_check_plan(KNOTSAFFRON_SIGNS, quiet, COUNT(quiet), signs->all.cells, signs->all.count, plan, count, LIMIT, answer);
    if (answer[0] == KNOTSAFFRON_DONE)
        printf("check %s: passes\n", name);
    else
        printf("check %s: number %" PRIu64 ", %s %" PRIu64 "\n", name, answer[0],
               answer[0] == KNOTSAFFRON_ENTRY_NOT_ONCE ? "sign" : "message", answer[1]);
}

// Writes a message of a plan: the header with its signs there, how many they are, and the cells of each. As many bytes are lent as
// the plan allows, so that a longer message would be refused.
static void write_message(const struct signs *signs, int64_t message, const int64_t *named, int64_t count)
{
    struct cells sheet = {.count = 0};
    uint8_t bytes[LIMIT];
    uint64_t answer[4];
    put(&sheet, quiet, COUNT(quiet));
    sheet.cells[SIGNS_THERE] = 1;
    put(&sheet, &count, 1);
    for (int64_t i = 0; i < count; i++) {
        size_t start = signs->starts[named[i]];
        put(&sheet, signs->all.cells + start, signs->starts[named[i] + 1] - start);
    }
    knotsaffron_write(KNOTSAFFRON_FIRST_EDITION, KNOTSAFFRON_MESSAGE_FRAME, sheet.cells, sheet.count, bytes, sizeof bytes, answer);
    if (answer[0] == KNOTSAFFRON_DONE)
        printf("write message %" PRId64 ": %" PRIu64 " bytes\n", message, answer[3]);
    else
        printf("write message %" PRId64 ": refused %" PRIu64 "\n", message, answer[0]);
}

static void pack_signs(void)
{
    static struct signs signs;
    int64_t plan[KNOTSAFFRON_MOST_PLAN_CELLS];
    gather(&signs);
    size_t count = plan_and_print(&signs, LIMIT, plan);
    check_plan_and_print("the plan", &signs, plan, count);
    const int64_t *at = plan + 1;
    for (int64_t message = 0; message < plan[0]; message++, at += 1 + at[0])
        write_message(&signs, message, at + 1, at[0]);

    // the first signs of the first two messages: where one stands in place of the other, neither stands once; where they are
    // exchanged, the first message is out of order
    int64_t *one = plan + 2, *other = one + plan[1] + 1, first = *one;
    *one = *other;
    check_plan_and_print("the plan with a sign in place of another", &signs, plan, count);
    *other = first;
    check_plan_and_print("the plan with two signs exchanged", &signs, plan, count);

    plan_and_print(&signs, LOW_LIMIT, plan);
}

int main(void)
{
    const uint8_t text[] = {0x00, 0x20, 0x80};
    const uint8_t damaged[] = {0x00, 0x20, 0x81};
    const uint8_t offset[] = {0x08, 0x00, 0x7f, 0xf0};
    const uint8_t no_form[] = {0x70};
    const uint8_t cut[] = {0x08, 0x00, 0x7f};
    read_and_print("Description", KNOTSAFFRON_DESCRIPTION, text, sizeof text);
    read_and_print("Description", KNOTSAFFRON_DESCRIPTION, damaged, sizeof damaged);
    read_and_print("PositionOffsetLLV", KNOTSAFFRON_POSITION_OFFSET_LLV, offset, sizeof offset);
    read_and_print("PositionOffsetLLV", KNOTSAFFRON_POSITION_OFFSET_LLV, no_form, sizeof no_form);
    read_and_print("PositionOffsetLLV", KNOTSAFFRON_POSITION_OFFSET_LLV, cut, sizeof cut);

    // no height; form one, whose index is 0; the longitude's number, then the latitude's
    const int64_t cells[] = {0, 0, 2047, -2048};
    const int64_t too_far[] = {0, 0, 2048, 0};
    write_and_print("PositionOffsetLLV", KNOTSAFFRON_FIRST_EDITION, KNOTSAFFRON_POSITION_OFFSET_LLV, cells, 4);
    write_and_print("PositionOffsetLLV", KNOTSAFFRON_FIRST_EDITION, KNOTSAFFRON_POSITION_OFFSET_LLV, too_far, 4);
    // no other edition is known, whatever the sheet is
    write_and_print("PositionOffsetLLV", 2, KNOTSAFFRON_POSITION_OFFSET_LLV, too_far, 4);

    resolve_and_print(399042000, 1164074000, cells[1] + 1, cells[2], cells[3]);
    resolve_and_print(399042000, 1164074000, 7, 1214737000, 312304000);
    resolve_and_print(900000000, 0, 1, 0, 2);
    // round the ring, one place east of its last; and from a reference that means nothing
    resolve_and_print(-182000000, 1800000000, 1, 1, 0);
    resolve_and_print(900000001, 1800000001, 1, 1, 0);

    count_and_print(127, 0);
    count_and_print(5, 9);
    count_and_print(5, 5);
    count_and_print(5, 128);

    keep_losses();
    check_messages();
    pack_signs();
    return 0;
}
