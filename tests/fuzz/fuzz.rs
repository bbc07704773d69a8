//! Holds the exported functions of the archive against the second implementation, over inputs by chance and with guarded memory.
//!
//! fuzz TYPES ROWS SEED FIRST INPUTS SECONDS [CASES]    the inputs from FIRST on, until there are INPUTS of them or SECONDS are over.
//! TYPES is the path of tests/asn1/types.txt, ROWS that of docs/ROWS.md; CASES is a batch of records as the program cases_read takes it,
//! which are read as well: of a refusal the program prints neither the row nor the bits that a field lacks, the edition or the type number.
//! An input is made from the seed and its own number alone. For each input the answer, every lent byte or cell afterwards, the bytes beside
//! them and what was only to be read are compared. An input of the loss table is a whole history of calls (histories.rs), one of the check of
//! a signal message against a map a handful of pairs (pairs.rs), one of the check of an RSM a handful of sheets (profiles.rs), one of plans a
//! handful of them made and checked (packing.rs). The count of lacking bits is judged besides by the answers to the same message with bytes
//! put behind it, and of a good message that is cut by where its fields stand. From a place that the resolver gave, the way back and a second
//! form are tried too. Prints each difference, the counts by number, how many rows were named, how many counts of lacking bits were given and
//! how often each occasion of the resolver, of the loss table, of pairs, of RSMs and of plans came; a number or an occasion of these that came
//! too seldom counts as a difference. The last line is 'N inputs, 0 differ'.

mod guard;
mod histories;
#[path = "../second/losses.rs"]
#[allow(dead_code)]
mod losses;
mod making;
mod occasions;
mod packing;
mod packing_occasions;
mod pairs;
#[path = "../second/participants.rs"]
#[allow(dead_code)]
mod participants;
#[path = "../second/plans.rs"]
#[allow(dead_code)]
mod plans;
mod profiles;
#[path = "../second/second.rs"]
#[allow(dead_code)]
mod second;
#[path = "../second/signals.rs"]
#[allow(dead_code)]
mod signals;

use guard::{Guarded, Lent};
use histories::Histories;
use making::Chance;
use occasions::{Demand, Occasions};
use packing::Packing;
use second::{Kind, ResolveAnswer, RuleAnswer, Types};
use std::collections::{BTreeMap, BTreeSet};
use std::process::exit;
use std::sync::atomic::{AtomicU64, Ordering};
use std::time::Instant;

extern "C" {
    fn knotsaffron_read(type_number: u64, bytes: *const u8, bytes_len: usize, sheet: *mut i64, sheet_len: usize, answer: *mut u64);
    fn knotsaffron_write(
        edition: u64, type_number: u64, sheet: *const i64, sheet_len: usize, bytes: *mut u8, bytes_len: usize, answer: *mut u64,
    );
    fn knotsaffron_resolve(latitude: i64, longitude: i64, form: i64, first: i64, second: i64, answer: *mut i64);
    fn knotsaffron_missed(old_count: u8, new_count: u8) -> u64;
    fn knotsaffron_check_rsi(sheet: *const i64, sheet_len: usize, answer: *mut u64);
    fn signal(number: i32, handler: extern "C" fn(i32)) -> usize;
    fn _exit(status: i32) -> !;
}

/// The answer of reading: number, place, bits, cells, row, lacking bits, edition and type number.
const READ_CELLS: usize = 8;
type ReadCells = [i64; READ_CELLS];

/// What a lent answer holds before the call, which no type number and no other cell of an answer is.
const UNTOLD: i64 = 0x5A5A_5A5A_5A5A_5A5A;

/// The number that tells a field of which bits lack.
const SHORT: i64 = 3;
/// No field has more bits, since a type spans at most 2^32 values.
const WIDEST_FIELD: usize = 32;

/// The latitudes and the longitudes that are places; the number behind the highest means "no information" (document 02, A3).
const LATITUDES: (i64, i64) = (-900000000, 900000000);
const LONGITUDES: (i64, i64) = (-1799999999, 1800000000);
const NO_LATITUDE: i64 = LATITUDES.1 + 1;
const NO_LONGITUDE: i64 = LONGITUDES.1 + 1;

/// The lowest offset of each of forms one to six without its sign, which is one more than the highest.
const REACHES: [i64; 6] = [1 << 11, 1 << 13, 1 << 15, 1 << 17, 1 << 21, 1 << 23];

const RESOLVER: Demand =
    Demand { function: "resolve", inputs: "inputs", numbers: &[0, 4, 9, 10], for_a_number: 20, for_an_occasion: 500, telling: 5000 };

/// A check of one sheet in the library.
type SheetCheck = unsafe extern "C" fn(*const i64, usize, *mut u64);

/// The input at work, for the message when a guard is touched.
static INPUT: AtomicU64 = AtomicU64::new(0);

extern "C" fn guard_touched(_: i32) {
    println!("input {}: memory that was not lent is touched", INPUT.load(Ordering::Relaxed));
    println!("1 or more differ");
    unsafe { _exit(1) }
}

/// What is lent to a call, and what was found.
struct Bench<'a> {
    types: &'a Types,
    read_from: Guarded,
    write_to: Guarded,
    answers: Guarded,
    counts: BTreeMap<(&'static str, u64), u64>,
    rows: BTreeSet<u64>,
    lacking: BTreeSet<u64>,
    lengthened: u64,
    occasions: Occasions,
    histories: Histories,
    pairs: Occasions,
    profiles: Occasions,
    packing: Packing,
    differ: u64,
}

impl Bench<'_> {
    fn new(types: &Types) -> Bench<'_> {
        // the longest sheets have some 20,000 cells
        let large = || Guarded::new(128);
        Bench {
            types,
            read_from: large(),
            write_to: large(),
            answers: Guarded::new(1),
            counts: BTreeMap::new(),
            rows: BTreeSet::new(),
            lacking: BTreeSet::new(),
            lengthened: 0,
            occasions: Occasions::new(),
            histories: Histories::new(),
            pairs: Occasions::new(),
            profiles: Occasions::new(),
            packing: Packing::new(),
            differ: 0,
        }
    }

    fn note(&mut self, function: &'static str, number: u64, right: bool, told: impl Fn() -> String) {
        *self.counts.entry((function, number)).or_insert(0) += 1;
        if !right {
            self.differ += 1;
            if self.differ <= 20 {
                println!("input {}: {}: {}", INPUT.load(Ordering::Relaxed), function, told());
            }
        }
    }

    fn count_of(&self, function: &'static str, number: u64) -> u64 {
        self.counts.get(&(function, number)).copied().unwrap_or(0)
    }

    fn inputs_of(&self, function: &str) -> u64 {
        self.counts.iter().filter(|((name, _), _)| *name == function).map(|(_, count)| count).sum()
    }

    /// Those of the numbers that one in so many inputs of a function did not give.
    fn seldom_numbers(&self, function: &'static str, numbers: &[u64], one_of: u64) -> Vec<String> {
        let rare = numbers.iter().filter(|number| self.count_of(function, **number) * one_of < self.inputs_of(function));
        rare.map(|number| format!("{number}, {} times", self.count_of(function, *number))).collect()
    }

    fn lend_answer(&mut self, cells: usize, chance: &mut Chance) -> Lent {
        let mut lent = self.answers.lend(8 * cells, chance.holds(50), 0xC3);
        lent.cells().fill(UNTOLD);
        lent
    }

    /// Reading: the message flush to one guard, the sheet to one of its own. known: the answer, where the input was made to have it.
    fn read(&mut self, type_number: u64, message: &[u8], room: usize, known: Option<ReadCells>, chance: &mut Chance) {
        let mut bytes = self.read_from.lend(message.len(), chance.holds(50), 0x3C);
        bytes.bytes().copy_from_slice(message);
        let filling = chance.number() as i64;
        let mut sheet = self.write_to.lend(8 * room, chance.holds(50), 0x69);
        sheet.cells().fill(filling);
        let mut answer = self.lend_answer(READ_CELLS, chance);
        unsafe {
            knotsaffron_read(type_number, bytes.pointer(), message.len(), sheet.pointer() as *mut i64, room, answer.pointer() as *mut u64);
        }
        let mut expected = vec![filling; room];
        let wanted = second::read(self.types, type_number, message, &mut expected);
        self.rows.insert(wanted.row);
        self.lacking.insert(wanted.lacking);
        let told = answer.cells().to_vec();
        let kept = bytes.bytes() == message && bytes.canaries_live() && sheet.canaries_live() && answer.canaries_live();
        let same = told == cells_of(&wanted) && sheet.cells() == expected && known.map_or(true, |known| told == known);
        let right = kept && same && self.count_holds(type_number, message, &told);
        self.note("read", wanted.number, right, || {
            let known = known.map_or(String::new(), |known| format!(", made for {known:?}"));
            format!("type {type_number}, {}, {room} cells lent: {told:?}, wanted {wanted:?}{known}", hexadecimal(message))
        });
    }

    /// Whether the count of lacking bits holds by the library's own answers, without the second implementation. With another number
    /// than 3 it is 0. With 3 zero bytes are put behind the message: while they are fewer bits than lack, the same field lacks so many
    /// less, and as soon as they are not, it is no longer short.
    fn count_holds(&mut self, type_number: u64, message: &[u8], told: &[i64]) -> bool {
        let (number, place, lacking) = (told[0], told[1], told[5]);
        if number != SHORT {
            return lacking == 0;
        }
        if lacking < 1 || lacking > WIDEST_FIELD as i64 {
            return false;
        }
        let needed = (lacking as usize + 7) / 8;
        // a message that gets too long is refused for that
        let most = needed.min(second::MOST_BYTES.saturating_sub(message.len()));
        self.lengthened += most as u64;
        (1..=most).all(|more| {
            let longer = read_plainly(type_number, &[message, &[0; WIDEST_FIELD / 8][..more]].concat());
            if more < needed {
                longer == short_cells(type_number, place, lacking - 8 * more as i64)
            } else {
                longer[..2] != [SHORT, place]
            }
        })
    }

    /// Writing: the same the other way round.
    fn write(&mut self, edition: u64, type_number: u64, cells: &[i64], room: usize, chance: &mut Chance) {
        let mut sheet = self.read_from.lend(8 * cells.len(), chance.holds(50), 0x3C);
        sheet.cells().copy_from_slice(cells);
        let filling = chance.number() as u8;
        let mut bytes = self.write_to.lend(room, chance.holds(50), 0x69);
        bytes.bytes().fill(filling);
        let mut answer = self.lend_answer(4, chance);
        unsafe {
            let (from, told) = (sheet.pointer() as *const i64, answer.pointer() as *mut u64);
            knotsaffron_write(edition, type_number, from, cells.len(), bytes.pointer(), room, told);
        }
        let mut expected = vec![filling; room];
        let wanted = second::write(self.types, edition, type_number, cells, &mut expected);
        let wanted_cells = [wanted.number as i64, wanted.place as i64, wanted.bits as i64, wanted.bytes as i64];
        let kept = sheet.cells() == cells && bytes.canaries_live() && sheet.canaries_live() && answer.canaries_live();
        let right = kept && answer.cells() == wanted_cells && bytes.bytes() == expected;
        let told = answer.cells().to_vec();
        self.note("write", wanted.number, right, || {
            format!("edition {edition}, type {type_number}, {cells:?}, {room} bytes lent: {told:?}, wanted {wanted:?}")
        });
    }

    /// The resolver's answer, held against the one that is wanted, which goes by a name of its own in the counts.
    fn resolve_as(&mut self, name: &'static str, given: [i64; 5], wanted: &ResolveAnswer, chance: &mut Chance) {
        let [latitude, longitude, form, first, other] = given;
        let mut answer = self.lend_answer(3, chance);
        unsafe { knotsaffron_resolve(latitude, longitude, form, first, other, answer.pointer() as *mut i64) };
        let right = answer.canaries_live() && answer.cells() == [wanted.number as i64, wanted.latitude, wanted.longitude];
        let told = answer.cells().to_vec();
        self.note(name, wanted.number, right, || format!("{given:?}: {told:?}, wanted {wanted:?}"));
    }

    fn resolve(&mut self, given: [i64; 5], chance: &mut Chance) {
        let [latitude, longitude, form, first, other] = given;
        let wanted = second::resolve(self.types, latitude, longitude, form, first, other);
        self.occasions.see(&occasions(given, wanted.number));
        self.resolve_as("resolve", given, &wanted, chance);
        if wanted.number == 0 && form < 7 {
            self.resolve_back(given, &wanted, chance);
            self.resolve_on(given, &wanted, chance);
        }
    }

    /// From the place that an offset form gave, its opposite offsets lead back, unless one is the form's lowest (document 02, A8).
    fn resolve_back(&mut self, [latitude, longitude, form, first, other]: [i64; 5], there: &ResolveAnswer, chance: &mut Chance) {
        let lowest = -REACHES[form as usize - 1];
        if first != lowest && other != lowest {
            let reference = ResolveAnswer { number: 0, latitude, longitude };
            self.resolve_as("resolve back", [there.latitude, there.longitude, form, -first, -other], &reference, chance);
        }
    }

    /// From the place that an offset form gave, a second form answers as one shift by the sums (document 02, A8), which form six carries.
    fn resolve_on(&mut self, [latitude, longitude, _, first, other]: [i64; 5], there: &ResolveAnswer, chance: &mut Chance) {
        let form = chance.between(1, 6);
        let (reach, widest) = (REACHES[form as usize - 1], REACHES[5]);
        let (east, north) = (some_offset(there.longitude, LONGITUDES, reach, chance), some_offset(there.latitude, LATITUDES, reach, chance));
        let carried = |reach: i64, offset: i64| -reach <= offset && offset < reach;
        if carried(reach, east) && carried(reach, north) && carried(widest, first + east) && carried(widest, other + north) {
            let once = second::resolve(self.types, latitude, longitude, 6, first + east, other + north);
            self.resolve_as("resolve on", [there.latitude, there.longitude, form, east, north], &once, chance);
        }
    }

    fn missed(&mut self, old: u8, new: u8) {
        let told = unsafe { knotsaffron_missed(old, new) };
        let wanted = second::missed(old as u64, new as u64);
        self.note("missed", wanted.number, told == wanted.number * 256 + wanted.missed, || format!("{old}, {new}: {told}, wanted {wanted:?}"));
    }

    /// Checks a sheet, which is only read.
    fn check_sheet(&mut self, function: &'static str, check: SheetCheck, cells: &[i64], wanted: RuleAnswer, chance: &mut Chance) {
        let mut sheet = self.read_from.lend(8 * cells.len(), chance.holds(50), 0x3C);
        sheet.cells().copy_from_slice(cells);
        let mut answer = self.lend_answer(2, chance);
        unsafe { check(sheet.pointer() as *const i64, cells.len(), answer.pointer() as *mut u64) };
        let kept = sheet.cells() == cells && sheet.canaries_live() && answer.canaries_live();
        let right = kept && answer.cells() == [wanted.number as i64, wanted.place as i64];
        let told = answer.cells().to_vec();
        self.note(function, wanted.number, right, || format!("{cells:?}: {told:?}, wanted {wanted:?}"));
    }
}

fn cells_of(answer: &second::ReadAnswer) -> ReadCells {
    let second::ReadAnswer { number, place, bits, cells, row, lacking, edition, type_number } = *answer;
    [number, place, bits, cells, row, lacking, edition, type_number].map(|cell| cell as i64)
}

/// The answer that a field at a place lacks so many bits.
fn short_cells(type_number: u64, place: i64, lacking: i64) -> ReadCells {
    [SHORT, place, 0, 0, 0, lacking, second::EDITION as i64, type_number as i64]
}

/// The library's answer to a message, with no cells lent and nothing guarded.
fn read_plainly(type_number: u64, message: &[u8]) -> ReadCells {
    let mut answer: ReadCells = [UNTOLD; READ_CELLS];
    let mut none: [i64; 0] = [];
    unsafe { knotsaffron_read(type_number, message.as_ptr(), message.len(), none.as_mut_ptr(), 0, answer.as_mut_ptr() as *mut u64) };
    answer
}

fn hexadecimal(bytes: &[u8]) -> String {
    bytes.iter().map(|byte| format!("{byte:02X}")).collect()
}

/// A type number: most often that of the value, sometimes another, named or not.
fn some_type(own: u64, chance: &mut Chance) -> u64 {
    if chance.holds(95) {
        return own;
    }
    let any = chance.number();
    chance.one_of(&[0, 1, 2, 3, 4, 255, 256, 65536, 1 << 32, (1 << 32) + 1, 1 << 63, u64::MAX, any])
}

/// An edition: most often the one that is known.
fn some_edition(chance: &mut Chance) -> u64 {
    if chance.holds(90) {
        return second::EDITION;
    }
    let any = chance.number();
    chance.one_of(&[0, 2, 3, 255, 256, 257, 65535, 65536, 65537, 1 << 32, (1 << 32) + 1, 1 << 63, (1 << 63) + 1, u64::MAX, any])
}

/// How much is lent: what is needed, somewhat less or more, none, or much.
fn some_room(needed: usize, much: usize, chance: &mut Chance) -> usize {
    let more = needed + chance.below(40) as usize;
    let part = chance.below(needed as u64 + 1) as usize;
    chance.one_of(&[needed, needed, needed, needed + 1, more, more, needed.saturating_sub(1), part, 0, much])
}

fn some_made<'a>(types: &'a Types, chance: &mut Chance) -> (u64, making::Made<'a>) {
    let number = chance.one_of(&[0, 0, 0, 0, 0, 0, 1, 2]);
    let budget = chance.one_of(&[20, 50, 50, 100, 100, 200, 400, 1000]);
    let presence = chance.one_of(&[0, 20, 50, 50, 80, 100]);
    // now and then near 2,048 bytes, or above
    let budget = if chance.holds(3) { chance.one_of(&[1500, 2500, 4000, 12000]) } else { budget };
    (number, making::value(types, second::NAMED[number as usize], budget, presence, chance))
}

fn read_some(bench: &mut Bench, chance: &mut Chance) {
    if chance.holds(10) {
        return read_cut(bench, chance);
    }
    let (own, message) = if chance.holds(10) {
        (chance.below(3), making::any_message(chance))
    } else {
        let (own, made) = some_made(bench.types, chance);
        (own, making::damaged_message(&made, chance))
    };
    let type_number = some_type(own, chance);
    read_lent(bench, type_number, &message, None, chance);
}

/// A good message that is cut: where the cut falls among its fields is known.
fn read_cut(bench: &mut Bench, chance: &mut Chance) {
    let (own, made) = some_made(bench.types, chance);
    let (message, place, lacking) = making::cut_message(&made, chance);
    read_lent(bench, own, &message, Some(short_cells(own, place as i64, lacking as i64)), chance);
}

/// The records of a batch, each behind its length in two bytes; the answer is how many were read.
fn read_cases(bench: &mut Bench, batch: &[u8], seed: u64) -> u64 {
    println!("records of the cases, by their number in the batch");
    let (mut rest, mut record_number, mut read) = (batch, 0, 0);
    while rest.len() >= 2 {
        let length = usize::from(rest[0]) << 8 | usize::from(rest[1]);
        if rest.len() - 2 < length {
            stop("the batch ends inside a record");
        }
        let (record, behind) = rest[2..].split_at(length);
        INPUT.store(record_number, Ordering::Relaxed);
        // what has no type number is a matter of the program, and not of the library
        if length >= 2 {
            let type_number = u64::from(record[0]) << 8 | u64::from(record[1]);
            read_lent(bench, type_number, &record[2..], None, &mut Chance::of(seed, record_number));
            read += 1;
        }
        (rest, record_number) = (behind, record_number + 1);
    }
    read
}

fn read_lent(bench: &mut Bench, type_number: u64, message: &[u8], known: Option<ReadCells>, chance: &mut Chance) {
    let needed = second::read(bench.types, type_number, message, &mut vec![0; 16384]).cells as usize;
    let room = some_room(needed, 16384, chance);
    bench.read(type_number, message, room, known, chance);
}

fn write_some(bench: &mut Bench, chance: &mut Chance) {
    let edition = some_edition(chance);
    // 26 comes before 1, so of an edition that is not known more sheets are long
    let (own, made) = if edition != second::EDITION && chance.holds(10) {
        (0, making::value(bench.types, second::NAMED[0], 12000, 80, chance))
    } else {
        some_made(bench.types, chance)
    };
    let cells = making::damaged_sheet(&made, chance);
    let needed = (made.bits() + 7) / 8;
    let room = some_room(needed.min(second::MOST_BYTES), 5000, chance);
    let type_number = some_type(own, chance);
    bench.write(edition, type_number, &cells, room, chance);
}

/// A number of a range, most often; its ends, those just outside, or any.
fn some_number(lowest: i64, highest: i64, chance: &mut Chance) -> i64 {
    let inside = chance.between(lowest, highest);
    let any = chance.number() as i64;
    match chance.below(12) {
        0 => lowest,
        1 => highest,
        2 => chance.one_of(&[lowest - 1, highest + 1]),
        3 => chance.one_of(&[any, any >> 20, any >> 32, i64::MIN, i64::MAX, lowest + (1 << 32), 0]),
        _ => inside,
    }
}

/// A coordinate of an axis: often one from which an offset leads past an end, or the number for no information behind the highest.
fn some_coordinate((lowest, highest): (i64, i64), reach: i64, chance: &mut Chance) -> i64 {
    let any = chance.between(0, reach);
    let near = chance.one_of(&[0, 1, any, any, any, any]);
    match chance.below(10) {
        0..=1 => lowest + near,
        2..=3 => highest - near,
        4 => highest + 1,
        _ => some_number(lowest, highest + 1, chance),
    }
}

/// An offset from a coordinate of an axis: often one that leads to an end, or just past it.
fn some_offset(from: i64, (lowest, highest): (i64, i64), reach: i64, chance: &mut Chance) -> i64 {
    let to = chance.one_of(&[lowest - 2, lowest - 1, lowest, highest, highest + 1, highest + 2]);
    match to.checked_sub(from) {
        Some(offset) if -reach <= offset && offset < reach && chance.holds(50) => offset,
        _ => some_number(-reach, reach - 1, chance),
    }
}

fn resolve_some(bench: &mut Bench, chance: &mut Chance) {
    let form = if chance.holds(95) { chance.between(1, 7) } else { chance.one_of(&[0, 8, -1, 7 + (1 << 32), i64::MIN, i64::MAX]) };
    let other = chance.one_of(&REACHES);
    let reach = if form >= 1 && form <= 6 && chance.holds(95) { REACHES[form as usize - 1] } else { other };
    let latitude = some_coordinate(LATITUDES, reach, chance);
    let longitude = some_coordinate(LONGITUDES, reach, chance);
    // offsets for the first six forms, coordinates for the seventh, and now and then the one for the other
    let (first, second) = if (form == 7) == chance.holds(95) {
        (some_coordinate(LONGITUDES, reach, chance), some_coordinate(LATITUDES, reach, chance))
    } else {
        (some_offset(longitude, LONGITUDES, reach, chance), some_offset(latitude, LATITUDES, reach, chance))
    };
    bench.resolve([latitude, longitude, form, first, second], chance);
}

/// The occasions that a run has to give the resolver, each with whether this input is one; the number is the one that is wanted.
fn occasions([latitude, longitude, form, first, second]: [i64; 5], number: u64) -> [(&'static str, bool); 13] {
    let (offsets, absolute) = (form >= 1 && form <= 6, form == 7);
    let (north, east) = (latitude.saturating_add(second), longitude.saturating_add(first));
    let (latitude_told, longitude_told) = if absolute { (second, first) } else { (latitude, longitude) };
    let (no_latitude, no_longitude) = (latitude_told == NO_LATITUDE, longitude_told == NO_LONGITUDE);
    [
        ("round the ring to the east", number == 0 && offsets && east > LONGITUDES.1),
        ("round the ring to the west", number == 0 && offsets && east < LONGITUDES.0),
        ("a sum of 1800000001", number == 0 && offsets && east == NO_LONGITUDE),
        ("past the north end", number == 9 && north > LATITUDES.1),
        ("past the south end", number == 9 && north < LATITUDES.0),
        ("a sum of 900000001", number == 9 && north == NO_LATITUDE),
        ("a reference with no latitude", number == 10 && offsets && no_latitude && !no_longitude),
        ("a reference with no longitude", number == 10 && offsets && no_longitude && !no_latitude),
        ("form seven with no latitude", number == 10 && absolute && no_latitude && !no_longitude),
        ("form seven with no longitude", number == 10 && absolute && no_longitude && !no_latitude),
        ("form seven in place of no information", number == 0 && absolute && (latitude == NO_LATITUDE || longitude == NO_LONGITUDE)),
        ("4 before 10", number == 4 && (offsets || absolute) && (no_latitude || no_longitude)),
        ("10 before 9", number == 10 && offsets && !no_latitude && (north < LATITUDES.0 || north > LATITUDES.1)),
    ]
}

fn rsi_some(bench: &mut Bench, chance: &mut Chance) {
    let (budget, presence) = (chance.one_of(&[50, 200, 600]), chance.one_of(&[50, 80, 95, 100]));
    // the frame's alternative is drawn, so most draws are thrown away
    let mut made = making::value(bench.types, second::NAMED[0], budget, presence, chance);
    while made.cells[0] != 4 && chance.holds(95) {
        made = making::value(bench.types, second::NAMED[0], budget, presence, chance);
    }
    let cells = making::damaged_sheet(&made, chance);
    bench.check_sheet("check_rsi", knotsaffron_check_rsi, &cells, second::check_rsi(bench.types, &cells), chance);
}

fn one_input(bench: &mut Bench, chance: &mut Chance) {
    match chance.below(24) {
        0..=9 => read_some(bench, chance),
        10..=17 => write_some(bench, chance),
        18 => rsi_some(bench, chance),
        19 => histories::run(bench, chance),
        20 => pairs::run(bench, chance),
        21 => profiles::run(bench, chance),
        22 => packing::run(bench, chance),
        _ => resolve_some(bench, chance),
    }
}

/// How many types have codes behind their last one, so that a refusal can name their row.
fn rows_to_name(types: &Types) -> usize {
    let spans = types.kinds().iter().map(|kind| match kind {
        Kind::Integer { lowest, highest } => (highest - lowest) as u64,
        Kind::Enumerated { items, .. } => items.len() as u64 - 1,
        Kind::Choice { alternatives, .. } => alternatives.len() as u64 - 1,
        Kind::List { least, most, .. } => (most - least) as u64,
        Kind::Sequence { .. } => 0,
    });
    spans.filter(|span| span + 1 < 1 << second::width(*span)).count()
}

fn print_counts(bench: &Bench) {
    let functions: BTreeSet<&str> = bench.counts.keys().map(|(function, _)| *function).collect();
    for function in functions {
        let numbers: Vec<(u64, u64)> = bench.counts.iter().filter(|((name, _), _)| *name == function).map(|((_, number), count)| (*number, *count)).collect();
        let told: Vec<String> = numbers.iter().map(|(number, count)| format!("{number}: {count}")).collect();
        println!("{function}: {} inputs; by number: {}", numbers.iter().map(|(_, count)| count).sum::<u64>(), told.join(", "));
    }
    // 0 stands for none in both
    let given = |numbers: &BTreeSet<u64>| numbers.iter().filter(|number| **number != 0).count();
    println!("read: rows named by 41 to 44: {} of {}", given(&bench.rows), rows_to_name(bench.types));
    println!("read: counts of lacking bits: {} of {WIDEST_FIELD}, judged by {} longer messages", given(&bench.lacking), bench.lengthened);
    bench.occasions.print(RESOLVER.function);
    histories::print_occasions(bench);
    bench.pairs.print(pairs::DEMAND.function);
    bench.profiles.print(profiles::DEMAND.function);
    packing::print_occasions(bench);
}

/// Prints what came too seldom; the answer is how many numbers and occasions did.
fn print_seldom(bench: &Bench) -> u64 {
    let checks = pairs::DEMAND.print_seldom(bench, &bench.pairs) + profiles::DEMAND.print_seldom(bench, &bench.profiles);
    RESOLVER.print_seldom(bench, &bench.occasions) + histories::print_seldom(bench) + checks + packing::print_seldom(bench)
}

fn bytes_of(path: &str) -> Vec<u8> {
    std::fs::read(path).unwrap_or_else(|error| stop(&format!("{path}: {error}")))
}

fn text_of(path: &str) -> String {
    String::from_utf8(bytes_of(path)).unwrap_or_else(|error| stop(&format!("{path}: {error}")))
}

fn number(word: &str) -> u64 {
    word.parse().unwrap_or_else(|_| stop(&format!("{word} is no number")))
}

fn stop(message: &str) -> ! {
    eprintln!("{message}");
    exit(2)
}

fn main() {
    let words: Vec<String> = std::env::args().skip(1).collect();
    if words.len() != 6 && words.len() != 7 {
        stop("use: fuzz TYPES ROWS SEED FIRST INPUTS SECONDS [CASES]");
    }
    let types = Types::parse(&text_of(&words[0]), &text_of(&words[1])).unwrap_or_else(|error| stop(&error));
    let (seed, first, inputs, seconds) = (number(&words[2]), number(&words[3]), number(&words[4]), number(&words[5]));
    unsafe {
        // the two signals of memory that is not there
        signal(11, guard_touched);
        signal(7, guard_touched);
    }
    let mut bench = Bench::new(&types);
    println!("seed {seed}, inputs from {first} on");
    let start = Instant::now();
    let mut input = first;
    while input < first + inputs && (input % 256 != 0 || start.elapsed().as_secs() < seconds) {
        INPUT.store(input, Ordering::Relaxed);
        one_input(&mut bench, &mut Chance::of(seed, input));
        input += 1;
    }
    // every pair of counts, in each run
    for pair in 0..=65535u16 {
        bench.missed((pair >> 8) as u8, pair as u8);
    }
    let cases = words.get(6).map_or(0, |path| read_cases(&mut bench, &bytes_of(path), seed));
    print_counts(&bench);
    bench.differ += print_seldom(&bench);
    println!("{} inputs by chance in {} seconds, all 65536 pairs of counts, and {cases} cases of reading", input - first, start.elapsed().as_secs());
    println!("{} inputs, {} differ", input - first + 65536 + cases, bench.differ);
    exit((bench.differ > 0) as i32)
}
