// Calls the check of a signal message against a map (document 02, A7) on pairs that were written down cell by cell: the number, the node and
// the phase, and that both sheets and the cells behind the answer are as they were. Last line 'N passed, M failed'.
#include "sheets.h"

enum { ANSWER = 3, BEHIND = 2 };

// A reference of a node: whether there is a region, the region, the id.
#define ALONE(id) 0, id
#define WITHIN(region, id) 1, region, id

// A signal message: no time and no name, the message count; how many entries, which stand behind it. An entry: no times, the reference, 16
// bits of status; how many phases, which stand behind it. A phase: its number, one state, no timing, the light.
#define SIGNAL(entries) KNOTSAFFRON_SPAT, 0, 0, 0, 5, entries
#define ENTRY(...) 0, 0, 0, __VA_ARGS__, 0, 0, 0, 0, 0, 0, 0, 0, 0, 0, 0, 0, 0, 0, 0, 0
#define PHASE(number) number, 1, 0, 3

// A map: no time, the message count; how many nodes, which stand behind it. A node: no name, but links, the reference, a position without a
// height; how many links, which stand behind it.
#define MAP(nodes) KNOTSAFFRON_MAP, 0, 5, nodes
#define NODE(...) 0, 1, __VA_ARGS__, 0, 399042000, 1164074000
#define NODE_WITHOUT_LINKS(...) 0, 0, __VA_ARGS__, 0, 399042000, 1164074000

// A link: no name, no limits, no points, but movements, the node that it comes from, its width; how many movements, and behind them how many
// lanes. A lane: of what is optional the connections alone, its number; how many connections. Both lead to node 9.
#define LINK 0, 0, 0, 1, ALONE(9), 350
#define LINK_WITHOUT_MOVEMENTS 0, 0, 0, 0, ALONE(9), 350
#define MOVEMENT(phase) 1, ALONE(9), phase
#define MOVEMENT_WITHOUT_PHASE 0, ALONE(9)
#define LANE 0, 0, 0, 1, 0, 0, 1
#define LANE_WITHOUT_CONNECTIONS 0, 0, 0, 0, 0, 0, 1
#define CONNECTION(phase) 0, 1, ALONE(9), phase

// One link of one node that is used by phase 1, listed in one entry: by a movement, and by a connection.
#define ONE_ENTRY SIGNAL(1), ENTRY(ALONE(7)), 1, PHASE(1)
#define BY_MOVEMENT(phase) 1, LINK, 1, MOVEMENT(phase), 1, LANE_WITHOUT_CONNECTIONS
#define BY_CONNECTION(phase) 1, LINK_WITHOUT_MOVEMENTS, 1, LANE, 1, CONNECTION(phase)
#define ONE_NODE MAP(1), NODE(ALONE(7)), BY_MOVEMENT(1)

struct pair {
    const char *name;
    uint64_t answer[ANSWER];
    struct sheet signal, map;
};

// number, node, phase
static const struct pair pairs[] = {
    {"a movement's phase is listed", {0, 0, 0}, SHEET(ONE_ENTRY), SHEET(ONE_NODE)},
    {"a connection's phase is listed", {0, 0, 0}, SHEET(ONE_ENTRY), SHEET(MAP(1), NODE(ALONE(7)), BY_CONNECTION(1))},
    {"a movement's phase is not listed", {52, 0, 2}, SHEET(ONE_ENTRY), SHEET(MAP(1), NODE(ALONE(7)), BY_MOVEMENT(2))},
    {"a connection's phase is not listed", {52, 0, 255}, SHEET(ONE_ENTRY), SHEET(MAP(1), NODE(ALONE(7)), BY_CONNECTION(255))},
    {"the movement before the connection, whose phase is lower", {52, 0, 9}, SHEET(ONE_ENTRY),
        SHEET(MAP(1), NODE(ALONE(7)), 1, LINK, 2, MOVEMENT(1), MOVEMENT(9), 1, LANE, 1, CONNECTION(2))},
    {"the second link, behind one that is listed", {52, 0, 3}, SHEET(ONE_ENTRY),
        SHEET(MAP(1), NODE(ALONE(7)), 2, LINK, 1, MOVEMENT(1), 1, LANE, 2, CONNECTION(1), CONNECTION(1), LINK, 1, MOVEMENT(3), 1,
            LANE_WITHOUT_CONNECTIONS)},
    {"phase 0 and no phase", {0, 0, 0}, SHEET(ONE_ENTRY),
        SHEET(MAP(1), NODE(ALONE(7)), 1, LINK, 2, MOVEMENT(0), MOVEMENT_WITHOUT_PHASE, 1, LANE, 1, CONNECTION(0))},
    {"a node without links", {0, 0, 0}, SHEET(ONE_ENTRY), SHEET(MAP(1), NODE_WITHOUT_LINKS(ALONE(7)))},
    {"a node without an entry, and then one with", {52, 1, 2}, SHEET(ONE_ENTRY),
        SHEET(MAP(2), NODE(ALONE(8)), BY_MOVEMENT(2), NODE(ALONE(7)), BY_MOVEMENT(2))},
    {"a node that stands twice", {52, 1, 4}, SHEET(ONE_ENTRY), SHEET(MAP(2), NODE(ALONE(7)), BY_MOVEMENT(1), NODE(ALONE(7)), BY_MOVEMENT(4))},
    {"a missing region is not region 0", {0, 0, 0}, SHEET(ONE_ENTRY), SHEET(MAP(1), NODE(WITHIN(0, 7)), BY_MOVEMENT(2))},
    {"region 0 is not a missing one", {0, 0, 0}, SHEET(SIGNAL(1), ENTRY(WITHIN(0, 7)), 1, PHASE(1)), SHEET(MAP(1), NODE(ALONE(7)), BY_MOVEMENT(2))},
    {"region 0 in both", {52, 0, 2}, SHEET(SIGNAL(1), ENTRY(WITHIN(0, 7)), 1, PHASE(1)), SHEET(MAP(1), NODE(WITHIN(0, 7)), BY_MOVEMENT(2))},
    {"one id in two regions", {52, 0, 1}, SHEET(SIGNAL(2), ENTRY(WITHIN(3, 7)), 1, PHASE(1), ENTRY(WITHIN(4, 7)), 1, PHASE(2)),
        SHEET(MAP(1), NODE(WITHIN(4, 7)), BY_MOVEMENT(1))},
    {"two phases, of which the second is used", {0, 0, 0}, SHEET(SIGNAL(1), ENTRY(ALONE(7)), 2, PHASE(5), PHASE(6)),
        SHEET(MAP(1), NODE(ALONE(7)), BY_MOVEMENT(6))},
    {"an entry twice, before a phase that is not listed", {51, 1, 0}, SHEET(SIGNAL(2), ENTRY(ALONE(7)), 1, PHASE(1), ENTRY(ALONE(7)), 1, PHASE(1)),
        SHEET(MAP(1), NODE(ALONE(7)), BY_MOVEMENT(2))},
    {"an entry twice, which the map lacks", {51, 2, 0},
        SHEET(SIGNAL(3), ENTRY(ALONE(8)), 1, PHASE(1), ENTRY(ALONE(7)), 1, PHASE(1), ENTRY(ALONE(8)), 1, PHASE(1)), SHEET(ONE_NODE)},
    {"the two the other way round", {50, 0, 0}, SHEET(ONE_NODE), SHEET(ONE_ENTRY)},
    {"two signal messages", {50, 0, 0}, SHEET(ONE_ENTRY), SHEET(ONE_ENTRY)},
    {"two maps", {50, 0, 0}, SHEET(ONE_NODE), SHEET(ONE_NODE)},
    {"no cells for the signal message", {7, 0, 0}, NO_CELLS, SHEET(ONE_NODE)},
    {"no cells for the map", {7, 1, 0}, SHEET(ONE_ENTRY), NO_CELLS},
    {"no cells for both", {7, 0, 0}, NO_CELLS, NO_CELLS},
    {"a cell too many in the signal message", {7, 0, 0}, SHEET(ONE_ENTRY, 0), SHEET(ONE_NODE)},
    {"a cell too many in the map", {7, 1, 0}, SHEET(ONE_ENTRY), SHEET(ONE_NODE, 0)},
    {"a phase above 255 in the map", {7, 1, 0}, SHEET(ONE_ENTRY), SHEET(MAP(1), NODE(ALONE(7)), BY_CONNECTION(256))},
    {"7 for the map before 50", {7, 1, 0}, SHEET(ONE_NODE), SHEET(ONE_ENTRY, 0)},
};

static void try_pair(const struct pair *c)
{
    uint64_t answer[ANSWER + BEHIND] = {99, 99, 99, 99, 99};
    struct sheet signal = c->signal, map = c->map;
    knotsaffron_check_signal(signal.cells, signal.count, map.cells, map.count, answer);
    expect(c->name, memcmp(answer, c->answer, sizeof c->answer) == 0 && answer[3] == 99 && answer[4] == 99
                        && memcmp(signal.cells, c->signal.cells, sizeof signal.cells) == 0
                        && memcmp(map.cells, c->map.cells, sizeof map.cells) == 0);
}

// Every shorter part of a sheet is no value, wherever it ends.
static void try_cut(void)
{
    static const struct sheet signal = SHEET(ONE_ENTRY), map = SHEET(ONE_NODE);
    uint64_t answer[ANSWER];
    unsigned wrong = 0;
    for (size_t count = 0; count < signal.count; count++) {
        knotsaffron_check_signal(signal.cells, count, map.cells, map.count, answer);
        wrong += answer[0] != KNOTSAFFRON_NO_VALUE || answer[1] != 0 || answer[2] != 0;
    }
    expect("every part of a signal message", wrong == 0);
    for (size_t count = 0; count < map.count; count++) {
        knotsaffron_check_signal(signal.cells, signal.count, map.cells, count, answer);
        wrong += answer[0] != KNOTSAFFRON_NO_VALUE || answer[1] != 1 || answer[2] != 0;
    }
    expect("every part of a map", wrong == 0);
}

int main(void)
{
    for (size_t i = 0; i < sizeof pairs / sizeof pairs[0]; i++)
        try_pair(&pairs[i]);
    // a sheet that 7 is not told of is a message
    for (size_t i = 0; i < sizeof pairs / sizeof pairs[0]; i++)
        if (pairs[i].answer[0] != KNOTSAFFRON_NO_VALUE) {
            try_there_and_back(&pairs[i].signal);
            try_there_and_back(&pairs[i].map);
        }
    try_cut();
    return tell();
}
