// The library's check of a signal message against a map with a fault put in by hand, as in faults.c, which says what FAULT is. The archive's
// own function is linked under another name, real_check_signal.
//
// A fault of what is told changes the archive's answer. A fault of what is read needs the two messages: they are taken apart here, as lists of
// entries, nodes and uses, and judged wrongly. Fault 155 is none: it judges them rightly, and nothing may differ, or what is found of the
// faults behind it says nothing.
#include "cells.h"

#define MOST_ENTRIES 32
#define MOST_LISTED 16
#define MOST_NODES 32
// of a node's 32 links, each with 32 movements, and 32 lanes of 8 connections
#define MOST_USES (MOST_NODES * 32 * (32 + 32 * 8))
#define MAP 1
#define SPAT 3

typedef struct {
    int has_region;
    int64_t region, id;
} Reference;

typedef struct {
    Reference reference;
    int64_t listed[MOST_LISTED];
    int count;
} Entry;

// A phase that a movement or a connection uses: of which node and link, and which lane of it; a movement has lane -1. The turn is its place
// among the movements of the link, or among the connections of the lane.
typedef struct {
    int node, link, lane, turn;
    int64_t phase, region_behind;
} Use;

static Entry entries[MOST_ENTRIES];
static Reference nodes[MOST_NODES];
static Use uses[MOST_USES];
static int entry_count, node_count, use_count;

void real_check_signal(const int64_t *, size_t, const int64_t *, size_t, uint64_t *);

static volatile int64_t looked_at;

// ---- the two messages, cell by cell; both are values of a frame

static void skip_text_if(int64_t present) {
    if (present) skip(next());
}

static Reference take_reference(void) {
    Reference reference = {.has_region = (int)next()};
    if (reference.has_region) reference.region = next();
    reference.id = next();
    return reference;
}

static void skip_points_if(int64_t present) {
    for (int64_t left = present ? next() : 0; left > 0; left--) skip_offset();
}

static void skip_speed_limits_if(int64_t present) {
    if (present) skip(2 * next());
}

// Of the attributes the first kind of lane has 8 bits, and all others 16.
static void skip_attributes_if(int64_t present) {
    if (!present) return;
    skip_if(next(), 10);
    skip(next() == 0 ? 8 : 16);
}

static void take_use(Use use, int64_t present, Reference behind) {
    if (!present) return;
    use.phase = next();
    use.region_behind = behind.has_region ? behind.region : -1;
    uses[use_count++] = use;
}

static void take_movements(Use use) {
    int64_t count = next();
    for (use.turn = 0; use.turn < count; use.turn++) {
        int64_t phase = next();
        Reference behind = take_reference();
        take_use(use, phase, behind);
    }
}

static void take_connections(Use use) {
    int64_t count = next();
    for (use.turn = 0; use.turn < count; use.turn++) {
        int64_t to_lane = next(), phase = next();
        Reference behind = take_reference();
        if (to_lane) {
            int64_t maneuver = next();
            skip(1 + 12 * maneuver);
        }
        take_use(use, phase, behind);
    }
}

static void take_lane(Use use) {
    int64_t width = next(), attributes = next(), maneuvers = next(), connects = next(), limits = next(), points = next();
    skip(1);
    skip_if(width, 1);
    skip_attributes_if(attributes);
    skip_if(maneuvers, 12);
    if (connects) take_connections(use);
    skip_speed_limits_if(limits);
    skip_points_if(points);
}

static void take_link(Use use) {
    int64_t name = next(), limits = next(), points = next(), movements = next();
    skip_text_if(name);
    take_reference();
    skip_speed_limits_if(limits);
    skip(1);
    skip_points_if(points);
    use.lane = -1;
    if (movements) take_movements(use);
    int64_t lanes = next();
    for (use.lane = 0; use.lane < lanes; use.lane++) take_lane(use);
}

static void take_map(const int64_t *sheet) {
    cell = sheet + 1;
    use_count = 0;
    int64_t time = next();
    skip(1);
    skip_if(time, 1);
    node_count = (int)next();
    for (int node = 0; node < node_count; node++) {
        Use use = {.node = node};
        int64_t name = next(), links = next();
        skip_text_if(name);
        nodes[node] = take_reference();
        int64_t height = next();
        skip(2 + height);
        int64_t count = links ? next() : 0;
        for (use.link = 0; use.link < count; use.link++) take_link(use);
    }
}

// A state: a light, and of a timing an index, two numbers, and as many more as are there of five.
static void skip_state(void) {
    int64_t timing = next(), there = 0;
    skip(1);
    if (!timing) return;
    skip(1);
    for (int i = 0; i < 5; i++) there += next();
    skip(2 + there);
}

static void take_signal(const int64_t *sheet) {
    cell = sheet + 1;
    int64_t minute = next(), time = next(), name = next();
    skip(1 + minute + time);
    skip_text_if(name);
    entry_count = (int)next();
    for (int i = 0; i < entry_count; i++) {
        Entry *entry = &entries[i];
        int64_t own_minute = next(), own_time = next(), confidence = next();
        entry->reference = take_reference();
        skip(16 + own_minute + own_time + confidence);
        entry->count = (int)next();
        for (int phase = 0; phase < entry->count; phase++) {
            entry->listed[phase] = next();
            for (int64_t left = next(); left > 0; left--) skip_state();
        }
    }
}

// ---- the judge, with its faults

static int same(const Reference *one, const Reference *other) {
    int ids = one->id == other->id, regions = one->has_region == other->has_region && (!one->has_region || one->region == other->region);
    int64_t first = one->has_region ? one->region : 0, second = other->has_region ? other->region : 0;
    switch (fault()) {
        case 156: return ids && first == second;                                            // a missing region taken for 0
        case 157: return ids;                                                               // the region is not looked at
        case 158: return regions;                                                           // the id is not looked at
        case 159: return ids && (regions || !one->has_region || !other->has_region);        // a missing region equal to any
        case 160: return regions && (uint8_t)one->id == (uint8_t)other->id;                 // ids by their lowest byte
        case 161: return ids && one->has_region == other->has_region;                       // any two regions are equal
        default: return ids && regions;
    }
}

// Whether a use counts at all.
static int counts(const Use *use) {
    switch (fault()) {
        case 162: return use->phase && use->lane < 0;                         // connections not looked at
        case 163: return use->phase && use->lane >= 0;                        // movements not looked at
        case 164: return 1;                                                   // phase 0 judged
        case 165: return use->phase && use->link == 0;                        // the first link alone
        case 166: return use->phase && use->lane <= 0;                        // the first lane alone
        case 167: return use->phase && use->turn == 0;                        // the first movement and connection alone
        case 168: return use->phase && use->phase < 255;                      // phase 255 not judged
        case 169: return use->phase && use->node == 0;                        // the first node alone
        case 170: return use->phase && !(use->lane < 0 && use->region_behind == 0);  // a movement that stands for a direction left out
        default: return use->phase != 0;
    }
}

static int lists(const Entry *entry, int64_t phase) {
    int from = fault() == 172 && entry->count > 1, count = entry->count;
    if (fault() == 171) count = 1;  // the first listed phase alone; fault 172 leaves it out
    for (int i = from; i < count; i++)
        if (entry->listed[i] == phase) return 1;
    return 0;
}

// The entry in which a node's phases are looked up, or none.
static const Entry *entry_for(int node) {
    const Entry *found = NULL;
    for (int i = entry_count - 1; i >= 0; i--)
        if (same(&entries[i].reference, &nodes[node])) found = &entries[i];
    // the next node's entry, the entry at the node's own place
    if (fault() == 173 && found) return found + 1 < entries + entry_count ? found + 1 : found;
    if (fault() == 174) return node < entry_count ? &entries[node] : NULL;
    return found;
}

static int stands_before(int node) {
    for (int i = 0; i < node; i++)
        if (same(&nodes[i], &nodes[node])) return 1;
    return 0;
}

static int fails(const Use *use) {
    const Entry *entry = entry_for(use->node);
    if (!counts(use)) return 0;
    if (fault() == 175 && stands_before(use->node)) return 0;  // a node that stands twice is judged once
    if (!entry) return fault() == 176;                        // a node without an entry is judged
    for (int i = 0; fault() == 177 && i < entry_count; i++)   // listed anywhere
        if (lists(&entries[i], use->phase)) return 0;
    return !lists(entry, use->phase);
}

// Whether the one failure is told in place of the other, which stands before it in the order of the cells.
static int comes_first(const Use *use, const Use *earlier) {
    int in_node = use->node == earlier->node, in_link = in_node && use->link == earlier->link;
    switch (fault()) {
        case 178: return in_node && use->phase < earlier->phase;           // the lowest phase of the node
        case 179: return use->phase < earlier->phase;                      // the lowest phase of all
        case 180: return in_link && use->lane >= 0 && earlier->lane < 0;   // lanes before movements
        case 181: return in_node && use->lane < 0 && earlier->lane >= 0;   // the movements of all links before lanes
        case 182: return 1;                                                // the last failure
        case 183: return in_node;                                          // the last failure of the first node
        default: return 0;
    }
}

static const Use *first_failure(void) {
    const Use *first = NULL;
    for (int i = 0; i < use_count; i++)
        if (fails(&uses[i]) && (!first || comes_first(&uses[i], first))) first = &uses[i];
    return first;
}

static int is_in_map(const Reference *reference) {
    for (int i = 0; i < node_count; i++)
        if (same(&nodes[i], reference)) return 1;
    return 0;
}

// The entry that is told with 51, or -1.
static int repeated(void) {
    int told = -1;
    for (int i = 0; i < entry_count; i++)
        for (int j = 0; j < i; j++) {
            if (!same(&entries[i].reference, &entries[j].reference)) continue;
            if (fault() == 184 && j != i - 1) continue;                             // compared with its neighbour only
            if (fault() == 185 && !is_in_map(&entries[i].reference)) continue;      // only where the map has the node
            if (fault() == 186 && told < 0) return j;                               // the earlier one is named
            if (told < 0 || fault() == 187) told = i;                               // the last that repeats
        }
    return told;
}

static void tell(uint64_t *answer, uint64_t number, int node, int64_t phase) {
    answer[0] = number, answer[1] = (uint64_t)node, answer[2] = (uint64_t)phase;
}

static void judge(const int64_t *signal, const int64_t *map, uint64_t *answer) {
    take_signal(signal);
    take_map(map);
    const Use *failure = first_failure();
    int repeat = fault() == 188 ? -1 : repeated();  // repeats are not refused
    tell(answer, 0, 0, 0);
    if (failure) tell(answer, 52, failure->node, failure->phase);
    // 52 before 51
    if (repeat >= 0 && !(failure && fault() == 189)) tell(answer, 51, repeat, 0);
}

// ---- faults of what is told, and of what is done to lent memory

static void spoil(const int64_t *signal, size_t signal_len, const int64_t *map, size_t map_len, uint64_t *answer) {
    uint64_t number = answer[0], again[3];
    int of_kinds = kind_of(signal, signal_len) == SPAT && kind_of(map, map_len) == MAP;
    real_check_signal(map, map_len, signal, signal_len, again);
    switch (fault()) {
        case 190: if (number == 7 && !of_kinds) tell(answer, 50, 0, 0); break;                        // 50 before 7
        case 191: if (number == 7 && again[0] == 7 && again[1] == 0) answer[1] = 1; break;            // the map sheet is judged first
        case 192: if (number == 7) answer[1] = 0; break;                                              // 7 without which sheet
        case 193: if (number == 7) answer[1] ^= 1; break;                                             // the other sheet
        case 194: if (number == 50 && again[0] != 50 && again[0] != 7) tell(answer, 0, 0, 0); break;  // swapped ones agree
        case 195: if (number == 50 && kind_of(signal, signal_len) == kind_of(map, map_len)) tell(answer, 0, 0, 0); break;  // two of a kind
        case 196: if (number == 50) answer[1] = 1; break;                                             // a node with 50
        case 197: if (number == 51) answer[2] = 1; break;                                             // a phase with 51
        case 198: if (number == 51) answer[1] += 1; break;                                            // entries from 1
        case 199: if (number == 52) answer[1] += 1; break;                                            // nodes from 1
        case 200: if (number == 52) answer[2] = 0; break;                                             // no phase with 52
        case 201: if (is_long(signal, signal_len) || is_long(map, map_len)) tell(answer, 1, 0, 0); break;  // long messages refused
        case 202: answer[3] = 0; break;                                                               // a cell behind the answer
        case 203: if (number == 0) ((int64_t *)signal)[1] ^= 1; break;                                // the signal sheet is changed
        case 204: if (number == 52) ((int64_t *)map)[map_len - 1] ^= 1; break;                        // the map sheet is changed
        case 205: looked_at = signal[signal_len]; break;                                              // a look behind the signal sheet
        case 206: looked_at = map[map_len]; break;                                                    // a look behind the map sheet
        default: break;
    }
}

void knotsaffron_check_signal(const int64_t *signal, size_t signal_len, const int64_t *map, size_t map_len, uint64_t *answer) {
    real_check_signal(signal, signal_len, map, map_len, answer);
    int of_both = answer[0] != 7 && answer[0] != 50;
    if (fault() >= 155 && fault() < 190 && of_both) judge(signal, map, answer);
    if (fault() >= 190 && fault() <= 206) spoil(signal, signal_len, map, map_len, answer);
}
