//! Entries by chance, for which plans are made and checked in guarded memory and held against the second implementation: the answer, what is
//! only to be read, the lent plan and the memory beside them are compared. What the planner gives is handed to the check, which has to pass
//! it. The other plans that are checked put each entry into some message, and most of them are spoiled then, so that entries lack or stand
//! twice and messages are empty, name what is not there, are out of order, too full or too long. Limits are most often just enough for a
//! message, or just too low. Some headers, entries and plans are spoiled too. How often what comes is counted in packing_occasions.rs.

use crate::guard::{Guarded, Lent};
use crate::making::{self, Chance, Made};
use crate::occasions::{Demand, Occasions};
use crate::packing_occasions as seen;
use crate::plans::{self, PlanAnswer};
use crate::second::RuleAnswer;
use crate::Bench;

extern "C" {
    fn knotsaffron_check_plan(
        kind: u64, header: *const i64, header_len: usize, entries: *const i64, entries_len: usize, plan: *const i64, plan_len: usize, limit: u64,
        answer: *mut u64,
    );
    fn knotsaffron_make_plan(
        kind: u64, header: *const i64, header_len: usize, entries: *const i64, entries_len: usize, limit: u64, plan: *mut i64, plan_len: usize,
        answer: *mut u64,
    );
}

const CHECK: Demand =
    Demand { function: "check_plan", inputs: "plans", numbers: &[0, 4, 7, 70, 71], for_a_number: 20, for_an_occasion: 500, telling: 5000 };
const MAKE: Demand =
    Demand { function: "make_plan", inputs: "lists", numbers: &[0, 4, 7, 8, 72], for_a_number: 20, for_an_occasion: 500, telling: 5000 };
/// A plan that the planner gave is checked under a name of its own in the counts.
const CHECK_OF_MADE: &str = "check_plan of what make_plan gives";

/// The frame by its index, and how many there are.
pub const RSI: usize = 4;
const KINDS: u64 = 5;
/// How many entries a plan is for at most, and how many cells it needs.
pub const MOST_ENTRIES: usize = 64;
pub const MOST_PLAN_CELLS: usize = 129;
/// The highest limit.
pub const MOST_BYTES: u64 = 2048;

/// A list by its kind: the type of its entries, how many of them a message has at most, and the bits of their count.
pub struct Sort {
    item: &'static str,
    pub most: usize,
    count_bits: usize,
}

pub const EVENTS: u64 = 0;
const SORTS: [Sort; 2] = [Sort { item: "RTEData", most: 8, count_bits: 3 }, Sort { item: "RTSData", most: 16, count_bits: 4 }];

/// What is lent to the calls besides what all functions share, and how often each occasion came.
pub struct Packing {
    headers: Guarded,
    pub checked: Occasions,
    pub made: Occasions,
}

impl Packing {
    pub fn new() -> Packing {
        Packing { headers: Guarded::new(16), checked: Occasions::new(), made: Occasions::new() }
    }
}

/// A header, and entries to be packed behind it.
pub struct List<'a> {
    pub kind: u64,
    pub header: Made<'a>,
    pub entries: Vec<Made<'a>>,
}

impl List<'_> {
    pub fn sort(&self) -> &'static Sort {
        &SORTS[self.kind as usize]
    }

    /// The bytes of the message with those of these entries that are there: from the bits of its parts, and not by writing it.
    pub fn bytes(&self, message: &[i64]) -> u64 {
        let own = message.iter().filter_map(|number| self.entries.get(usize::try_from(*number).ok()?));
        let bits = self.header.bits() + self.sort().count_bits + own.map(Made::bits).sum::<usize>();
        (bits as u64 + 7) / 8
    }

    /// The entries behind their count.
    fn cells(&self) -> Vec<i64> {
        cells_behind_count(&self.entries.iter().map(|entry| entry.cells.clone()).collect::<Vec<_>>())
    }
}

fn cells_behind_count(parts: &[Vec<i64>]) -> Vec<i64> {
    std::iter::once(parts.len() as i64).chain(parts.iter().flatten().copied()).collect()
}

fn plan_cells(messages: &[Vec<i64>]) -> Vec<i64> {
    let counted = messages.iter().flat_map(|message| std::iter::once(message.len() as i64).chain(message.iter().copied()));
    std::iter::once(messages.len() as i64).chain(counted).collect()
}

/// What a call takes before the plan, and which part of it was spoiled.
pub struct Call {
    pub kind: u64,
    pub header: Vec<i64>,
    pub entries: Vec<i64>,
    pub limit: u64,
    pub spoiled: Option<Part>,
}

#[derive(Clone, Copy, PartialEq, Eq)]
pub enum Part {
    Kind,
    Header,
    Entries,
}

// ---- entries and calls by chance

fn some_list<'a>(bench: &Bench<'a>, chance: &mut Chance) -> List<'a> {
    let kind = chance.below(SORTS.len() as u64);
    let sort = &SORTS[kind as usize];
    let neither = ["rtes", "rtss"].map(|name| (name, vec![false].into_iter())).into();
    let header = making::decided_frame(bench.types, RSI, 50, chance.one_of(&[0, 50, 100]), neither, chance);
    let few = chance.between(1, 12) as usize;
    let count = chance.one_of(&[0, 1, 2, 3, few, few, few, few, sort.most, sort.most + 1, 2 * sort.most + 1, MOST_ENTRIES]);
    // of many entries each is short; of a few each may be longer than a message
    let (budget, presence) = match count {
        20.. => (chance.one_of(&[0, 0, 0, 15]), chance.one_of(&[0, 30])),
        7..=19 => (chance.one_of(&[0, 10, 40]), chance.one_of(&[0, 30, 30])),
        1..=3 if chance.holds(8) => (making::LONGEST, 100),
        _ if chance.holds(10) => (chance.one_of(&[600, 2500]), 100),
        _ => (chance.one_of(&[0, 15, 40, 150]), chance.one_of(&[20, 50, 80])),
    };
    let entries = (0..count).map(|_| making::value(bench.types, sort.item, budget, presence, chance)).collect();
    List { kind, header, entries }
}

/// A limit: most often one that is just enough for a message of so many bytes, or just too low; now and then none.
fn some_limit(bytes: u64, chance: &mut Chance) -> u64 {
    let (any, more) = (chance.number(), chance.below(60));
    match chance.below(20) {
        0 | 1 => chance.one_of(&[0, 0, MOST_BYTES + 1, MOST_BYTES + 1, 4096, (1 << 32) + bytes, (1 << 32) + 1, 1 << 32, 1 << 63, u64::MAX, any | 4096]),
        2..=5 => (bytes - 1).clamp(1, MOST_BYTES),
        6..=12 => bytes.min(MOST_BYTES),
        13..=15 => (bytes + more).min(MOST_BYTES),
        16 => chance.between(1, MOST_BYTES as i64) as u64,
        17 => chance.one_of(&[1, 10, 20]),
        _ => MOST_BYTES,
    }
}

/// A header that is none, most often.
fn other_header(bench: &Bench, list: &List, chance: &mut Chance) -> Vec<i64> {
    match chance.below(10) {
        0 => Vec::new(),
        1..=4 => making::frame(bench.types, RSI, 60, 60, chance).cells,
        5..=6 => making::frame(bench.types, chance.below(KINDS) as usize, 60, 30, chance).cells,
        _ => making::damaged_sheet(&list.header, chance),
    }
}

/// Entries that are none, most often.
fn other_entries(list: &List, chance: &mut Chance) -> Vec<i64> {
    let (mut cells, count) = (list.cells(), list.entries.len() as i64);
    let number = chance.below(count as u64 + 1) as usize;
    match (chance.below(10), list.entries.get(number)) {
        (0, _) => return Vec::new(),
        (1..=3, _) => cells[0] = chance.one_of(&[-1, count - 1, count + 1, count + 256, count + (1 << 32), i64::MIN, i64::MAX]),
        // one too many, where there is room for so many
        (4..=5, Some(entry)) if entry.cells.len() < 500 => return cells_behind_count(&vec![entry.cells.clone(); MOST_ENTRIES + 1]),
        (6..=7, Some(entry)) => {
            let mut parts: Vec<Vec<i64>> = list.entries.iter().map(|entry| entry.cells.clone()).collect();
            parts[number] = making::damaged_sheet(entry, chance);
            return cells_behind_count(&parts);
        }
        _ => making::wound_sheet(&mut cells, chance),
    }
    cells
}

fn some_call(bench: &Bench, list: &List, limit: u64, chance: &mut Chance) -> Call {
    let mut call = Call { kind: list.kind, header: list.header.cells.clone(), entries: list.cells(), limit, spoiled: None };
    match chance.below(50) {
        0..=1 => {
            call.kind = chance.one_of(&[1 - list.kind, 2, 3, 255, 256 + list.kind, (1 << 32) + list.kind, (1 << 63) + list.kind, u64::MAX]);
            call.spoiled = Some(Part::Kind);
        }
        2..=4 => {
            call.header = other_header(bench, list, chance);
            call.spoiled = Some(Part::Header);
        }
        5..=7 => {
            call.entries = other_entries(list, chance);
            call.spoiled = Some(Part::Entries);
        }
        _ => (),
    }
    call
}

// ---- plans by chance

/// Each entry goes into one of so many last messages, or into a new one; none has more entries than its list takes, or now and then one more.
/// The messages may stand in another order afterwards.
fn some_messages(list: &List, chance: &mut Chance) -> Vec<Vec<i64>> {
    let (open, filled) = (chance.one_of(&[1, 1, 2, 3, MOST_ENTRIES]), chance.one_of(&[30, 80, 100, 100]));
    let most = list.sort().most + chance.holds(30) as usize;
    let mut messages: Vec<Vec<i64>> = Vec::new();
    for entry in 0..list.entries.len() as i64 {
        let last = messages.len().saturating_sub(open);
        let into = last + chance.below(open.min(messages.len() + 1) as u64) as usize;
        match messages.get_mut(into) {
            Some(message) if message.len() < most && chance.holds(filled) => message.push(entry),
            _ => messages.push(vec![entry]),
        }
    }
    if chance.holds(25) && !messages.is_empty() {
        let first = chance.below(messages.len() as u64) as usize;
        messages.rotate_left(first);
    }
    messages
}

/// A place in a list of so many, or behind it.
fn some_place(count: usize, chance: &mut Chance) -> usize {
    chance.below(count as u64 + 1) as usize
}

/// A number of no entry, also one that is like an entry's in its lower half or its lowest byte.
fn stranger(entries: usize, chance: &mut Chance) -> i64 {
    let (count, like) = (entries as i64, some_place(entries, chance) as i64);
    let far = like + (1 << 32);
    chance.one_of(&[count, count, count + 1, -1, -1, far, far, far, like + 256, like - (1 << 32), i64::MIN, i64::MAX])
}

/// Puts a number into a message: where it belongs, most often.
fn put(message: &mut Vec<i64>, number: i64, chance: &mut Chance) {
    let belongs = message.partition_point(|other| *other < number);
    let place = if chance.holds(80) { belongs } else { some_place(message.len(), chance) };
    message.insert(place, number);
}

/// Spoils the messages in one way. What asks for an entry in a message, or for two messages, changes nothing where they are not there.
fn spoil(messages: &mut Vec<Vec<i64>>, entries: usize, chance: &mut Chance) {
    let (at, other) = (some_place(messages.len(), chance), some_place(messages.len(), chance));
    match (chance.below(14), messages.get_mut(at)) {
        (0, _) => messages.insert(at, Vec::new()),
        (1, Some(message)) => message.clear(),
        (2..=4, _) if at != other => join(messages, at, other),
        (5..=13, Some(message)) if !message.is_empty() => spoil_message(message, entries, chance),
        _ => (),
    }
}

/// Makes one message of two, in order.
fn join(messages: &mut Vec<Vec<i64>>, at: usize, other: usize) {
    let beside = messages.get(other).cloned().unwrap_or_default();
    let Some(message) = messages.get_mut(at) else { return };
    message.extend(beside);
    message.sort();
    if other < messages.len() {
        messages.remove(other);
    }
}

/// Spoils a message that is not empty: an entry lacks, stands twice, or is another; a number is no entry's; or the order is another.
fn spoil_message(message: &mut Vec<i64>, entries: usize, chance: &mut Chance) {
    let place = some_place(message.len() - 1, chance);
    let (own, any) = (message[place], some_place(entries, chance) as i64);
    match chance.below(11) {
        0 => drop(message.remove(place)),
        1 => put(message, any, chance),
        2 => put(message, own, chance),
        3 => message[place] = any,
        // like the entry in its lower half, or in its lowest byte
        4 => message[place] = own.wrapping_add(chance.one_of(&[1 << 32, 1 << 32, 256])),
        5..=7 => put(message, stranger(entries, chance), chance),
        8 if place > 0 => message.swap(place - 1, place),
        9 => message.rotate_left(place),
        _ => message.reverse(),
    }
}

/// Cells that are no plan, most often.
fn wound_plan(cells: &mut Vec<i64>, chance: &mut Chance) {
    let at = chance.one_of(&[0, 1]).min(cells.len() - 1);
    let own = cells[at];
    match chance.below(7) {
        0 => cells.clear(),
        1..=3 => cells[at] = chance.one_of(&[-1, -1, own - 1, own + 1, own + 256, own + (1 << 32), i64::MIN, i64::MAX]),
        _ => making::wound_sheet(cells, chance),
    }
}

// ---- calls

/// A handful of calls over the same entries.
pub fn run(bench: &mut Bench, chance: &mut Chance) {
    let list = some_list(bench, chance);
    for _ in 0..3 {
        make_some(bench, &list, chance);
    }
    for _ in 0..5 {
        check_some(bench, &list, chance);
    }
}

/// How many bytes the longest entry has alone, or entries that stand one behind the other.
fn some_bytes(list: &List, chance: &mut Chance) -> u64 {
    let count = list.entries.len();
    let first = some_place(count.saturating_sub(1), chance);
    let some: Vec<i64> = (first..count).map(|number| number as i64).take(chance.between(1, 17) as usize).collect();
    let longest = (0..count as i64).map(|number| list.bytes(&[number])).max().unwrap_or(1);
    match chance.below(10) {
        0..=2 => longest,
        3..=4 => list.bytes(&some),
        _ => list.bytes(&some).max(longest),
    }
}

fn make_some(bench: &mut Bench, list: &List, chance: &mut Chance) {
    let limit = some_limit(some_bytes(list, chance), chance);
    let call = some_call(bench, list, limit, chance);
    let needed = plans::make(bench.types, call.kind, &call.header, &call.entries, call.limit, &mut []).cells as usize;
    let room = crate::some_room(needed, MOST_PLAN_CELLS + 20, chance);
    if let Some(plan) = make(bench, list, &call, room, chance) {
        check_as(bench, CHECK_OF_MADE, &call, &plan, RuleAnswer { number: 0, place: 0 }, chance);
    }
}

fn check_some(bench: &mut Bench, list: &List, chance: &mut Chance) {
    let mut messages = some_messages(list, chance);
    for _ in 0..chance.one_of(&[0, 0, 1, 1, 1, 2]) {
        spoil(&mut messages, list.entries.len(), chance);
    }
    let longest = messages.iter().map(|message| list.bytes(message)).max().unwrap_or(1);
    let own = messages.get(some_place(messages.len(), chance)).map_or(longest, |message| list.bytes(message));
    let bytes = if chance.holds(75) { longest } else { own };
    let mut plan = plan_cells(&messages);
    if chance.holds(8) {
        wound_plan(&mut plan, chance);
    }
    let call = some_call(bench, list, some_limit(bytes, chance), chance);
    let wanted = plans::check(bench.types, call.kind, &call.header, &call.entries, &plan, call.limit);
    seen::see_checked(bench, list, &call, &plan, wanted);
    check_as(bench, CHECK.function, &call, &plan, wanted, chance);
}

/// Lends the header and the entries, each flush to a guard of its own.
fn lend(bench: &mut Bench, call: &Call, chance: &mut Chance) -> [Lent; 2] {
    let mut header = bench.packing.headers.lend(8 * call.header.len(), chance.holds(50), 0x96);
    let mut entries = bench.read_from.lend(8 * call.entries.len(), chance.holds(50), 0x3C);
    header.cells().copy_from_slice(&call.header);
    entries.cells().copy_from_slice(&call.entries);
    [header, entries]
}

fn are_kept([header, entries]: &mut [Lent; 2], call: &Call) -> bool {
    header.cells() == call.header && entries.cells() == call.entries && header.canaries_live() && entries.canaries_live()
}

/// Checks a plan, and holds the answer against the one that is wanted, which goes by this name in the counts.
fn check_as(bench: &mut Bench, name: &'static str, call: &Call, plan: &[i64], wanted: RuleAnswer, chance: &mut Chance) {
    let mut sheets = lend(bench, call, chance);
    let mut lent = bench.write_to.lend(8 * plan.len(), chance.holds(50), 0x69);
    lent.cells().copy_from_slice(plan);
    let mut answer = bench.lend_answer(2, chance);
    unsafe {
        let [header, entries] = [0, 1].map(|sheet| sheets[sheet].pointer() as *const i64);
        let (from, told) = (lent.pointer() as *const i64, answer.pointer() as *mut u64);
        knotsaffron_check_plan(call.kind, header, call.header.len(), entries, call.entries.len(), from, plan.len(), call.limit, told);
    }
    let kept = are_kept(&mut sheets, call) && lent.cells() == plan && lent.canaries_live() && answer.canaries_live();
    let told = answer.cells().to_vec();
    let right = kept && told == [wanted.number as i64, wanted.place as i64];
    let Call { kind, header, entries, limit, .. } = call;
    bench.note(name, wanted.number, right, || format!("kind {kind}, {header:?}, {entries:?}, {plan:?}, limit {limit}: {told:?}, wanted {wanted:?}"));
}

/// Makes a plan; the answer is the library's, where there is one.
fn make(bench: &mut Bench, list: &List, call: &Call, room: usize, chance: &mut Chance) -> Option<Vec<i64>> {
    let mut sheets = lend(bench, call, chance);
    let filling = chance.number() as i64;
    let mut lent = bench.write_to.lend(8 * room, chance.holds(50), 0x69);
    lent.cells().fill(filling);
    let mut answer = bench.lend_answer(3, chance);
    unsafe {
        let [header, entries] = [0, 1].map(|sheet| sheets[sheet].pointer() as *const i64);
        let (to, told) = (lent.pointer() as *mut i64, answer.pointer() as *mut u64);
        knotsaffron_make_plan(call.kind, header, call.header.len(), entries, call.entries.len(), call.limit, to, room, told);
    }
    let mut expected = vec![filling; room];
    let wanted = plans::make(bench.types, call.kind, &call.header, &call.entries, call.limit, &mut expected);
    seen::see_made(bench, list, call, &expected, wanted);
    let kept = are_kept(&mut sheets, call) && lent.canaries_live() && answer.canaries_live();
    let PlanAnswer { number, place, cells } = wanted;
    let told = answer.cells().to_vec();
    let right = kept && told == [number, place, cells].map(|cell| cell as i64) && lent.cells() == expected;
    let given = lent.cells().to_vec();
    let Call { kind, header, entries, limit, .. } = call;
    bench.note(MAKE.function, number, right, || {
        format!("kind {kind}, {header:?}, {entries:?}, limit {limit}, {room} cells lent: {told:?}, {given:?}, wanted {wanted:?}, {expected:?}")
    });
    (told[0] == 0).then(|| given[..(told[2] as usize).min(room)].to_vec())
}

pub fn print_occasions(bench: &Bench) {
    bench.packing.checked.print(CHECK.function);
    bench.packing.made.print(MAKE.function);
}

/// Prints what came too seldom; the answer is how many numbers and occasions did.
pub fn print_seldom(bench: &Bench) -> u64 {
    CHECK.print_seldom(bench, &bench.packing.checked) + MAKE.print_seldom(bench, &bench.packing.made)
}
