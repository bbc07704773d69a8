//! RSMs by chance, checked against their sending profile in guarded memory and held against the second implementation: the answer, the sheet
//! afterwards and the memory beside them are compared. Ids are drawn apart, or from few numbers, and the unit itself is put among them more
//! often than chance alone would have it; vehicleClass lacks in few participants. Some sheets are spoiled, and some are of other kinds.

use crate::making::{self, Chance, Made};
use crate::occasions::Demand;
use crate::participants::{self, Participant, UNIT};
use crate::second::{self, RuleAnswer};
use crate::Bench;

extern "C" {
    fn knotsaffron_check_rsm(sheet: *const i64, sheet_len: usize, answer: *mut u64);
}

pub const DEMAND: Demand =
    Demand { function: "check_rsm", inputs: "sheets", numbers: &[0, 7, 22, 23, 24, 30], for_a_number: 20, for_an_occasion: 500, telling: 5000 };
/// The frame by its index, and how many there are.
const RSM: usize = 2;
const KINDS: u64 = 5;
/// How many participants an RSM has at most, and the type of their ids with how many there are.
const MOST: usize = 16;
const IDS: &str = "ParticipantData.ptcId";
const ALL_IDS: i64 = 65536;

/// Which of the participants have the required field: all, all but one, or so many of a hundred.
fn some_classes(chance: &mut Chance) -> Vec<bool> {
    let mut there = vec![true; MOST];
    match chance.below(6) {
        0..=2 => (),
        3 => there[MOST - 1] = false,
        4 => there[chance.below(MOST as u64) as usize] = false,
        _ => {
            let percent = chance.one_of(&[0, 50, 90]);
            there.fill_with(|| chance.holds(percent));
        }
    }
    there
}

fn some_rsm<'a>(bench: &Bench<'a>, chance: &mut Chance) -> Made<'a> {
    // the most is enough for the longest
    let (budget, presence) = (chance.one_of(&[100, 400, 1500, 1500]), chance.one_of(&[0, 20, 50, 80, 100]));
    let classes = some_classes(chance).into_iter();
    making::decided_frame(bench.types, RSM, budget, presence, vec![("vehicleClass", classes)], chance)
}

/// A frame of any kind, now and then above 2,048 bytes.
fn some_frame<'a>(bench: &Bench<'a>, chance: &mut Chance) -> Made<'a> {
    let (budget, presence) = (chance.one_of(&[50, 200, 500, 12000]), chance.one_of(&[20, 50, 80]));
    making::frame(bench.types, chance.below(KINDS) as usize, budget, presence, chance)
}

/// Gives the participants other ids: apart from each other, with the unit itself at one of their places or at none. One of them, or so many
/// of a hundred, stray: they get any id that the others have, or that is left.
fn number_anew(rsm: &mut Made, chance: &mut Chance) {
    let (count, ids) = (rsm.count(IDS), MOST + 1);
    let (inside, other) = (chance.below(count as u64) as usize, chance.below(count as u64) as usize);
    let unit = chance.one_of(&[0, count - 1, inside, inside, inside, MOST]);
    let (stray, strays) = (chance.one_of(&[count - 1, other, MOST, MOST, MOST]), chance.one_of(&[0, 0, 0, 0, 10, 70]));
    // ids that are steps of 256 have one lowest byte, and those from the end one highest
    let (step, from_the_end) = (chance.one_of(&[1, 1, 255, 256, 4095]), chance.holds(40));
    rsm.redraw(IDS, |place| {
        let apart = (place + ids - unit) % ids;
        let drawn = if place == stray || chance.holds(strays) { chance.below(ids as u64) as usize } else { apart };
        let id = drawn as i64 * step;
        if from_the_end && id > 0 { ALL_IDS - id } else { id }
    });
}

/// A handful of sheets of the same RSM, each with other ids, or in its place another frame, or nothing.
pub fn run(bench: &mut Bench, chance: &mut Chance) {
    let mut rsm = some_rsm(bench, chance);
    for _ in 0..6 {
        number_anew(&mut rsm, chance);
        match chance.below(40) {
            0 => check(bench, &[], chance),
            1..=5 => check_some(bench, &some_frame(bench, chance), chance),
            _ => check_some(bench, &rsm, chance),
        }
    }
}

/// Most often as it was made, and else spoiled.
fn check_some(bench: &mut Bench, made: &Made, chance: &mut Chance) {
    let cells = if chance.holds(25) { making::damaged_sheet(made, chance) } else { made.cells.clone() };
    check(bench, &cells, chance);
}

fn check(bench: &mut Bench, cells: &[i64], chance: &mut Chance) {
    let list = participants::list_of(bench.types, cells);
    let wanted = participants::check(bench.types, cells);
    see_refused(bench, cells, wanted);
    see_ids(bench, list.as_ref().map_or(&[], |list| list), wanted);
    see_fields(bench, list.as_ref().map_or(&[], |list| list), wanted);
    bench.check_sheet(DEMAND.function, knotsaffron_check_rsm, cells, wanted, chance);
}

/// The occasions of a sheet that is no RSM.
fn see_refused(bench: &mut Bench, cells: &[i64], wanted: RuleAnswer) {
    let (no_value, other) = (wanted.number == 7, wanted.number == 22);
    let kind = cells.first().copied();
    let is_known = kind.is_some_and(|kind| 0 <= kind && kind < KINDS as i64);
    let is_long = other && second::write(bench.types, second::EDITION, 0, cells, &mut []).number == 1;
    bench.profiles.see(&[
        ("7 for no cells", no_value && cells.is_empty()),
        ("7 for an RSM", no_value && kind == Some(RSM as i64)),
        ("7 before 22", no_value && is_known && kind != Some(RSM as i64)),
        ("7 behind the last cell", no_value && !cells.is_empty() && wanted.place == cells.len() as u64),
        ("22 for a message above 2,048 bytes", is_long),
        ("22 for an RSI", other && kind == Some(KINDS as i64 - 1)),
    ]);
}

/// The occasions of ids that repeat others, and of a unit that is missing.
fn see_ids(bench: &mut Bench, list: &[Participant], wanted: RuleAnswer) {
    let (repeats, missing, place) = (wanted.number == 23, wanted.number == 24, wanted.place as usize);
    let earlier = |place: usize| list[..place].iter().position(|own| own.id == list[place].id);
    let (id, of) = if repeats { (list[place].id, earlier(place).unwrap_or(place)) } else { (-1, 0) };
    let units = list.iter().filter(|own| own.id == UNIT).count();
    let lacking = list.iter().any(|own| !own.has_class);
    let byte_alone = repeats && list[..of].iter().any(|own| own.id != id && own.id % 256 == id % 256);
    bench.profiles.see(&[
        ("23 for the neighbour of the first with this id", repeats && of + 1 == place),
        ("23 for no neighbour of the first with this id", repeats && of + 1 < place),
        ("23 for an id that is not the first entry's", repeats && of > 0),
        ("23 for a second unit", repeats && id == UNIT),
        ("23 for another id beside one unit", repeats && id != UNIT && units == 1),
        ("23 before 24", repeats && units == 0),
        ("23 before 30", repeats && lacking),
        ("23 before another that repeats", repeats && (place + 1..list.len()).any(|later| earlier(later).is_some())),
        ("23 for the last of 16", repeats && place == MOST - 1),
        ("23 behind an id of the same lowest byte", byte_alone),
        ("24 before 30", missing && lacking),
        ("24 where all have the class", missing && !lacking),
        ("24 for 16 participants", missing && list.len() == MOST),
        ("24 beside an id whose lowest byte is 0", missing && list.iter().any(|own| own.id % 256 == UNIT)),
    ]);
}

/// The occasions of participants that have the required field, and of those that don't.
fn see_fields(bench: &mut Bench, list: &[Participant], wanted: RuleAnswer) {
    let (passes, lacks, place) = (wanted.number == 0, wanted.number == 30, wanted.place as usize);
    let unit = list.iter().position(|own| own.id == UNIT);
    let one_byte = list.len() > 1 && list.iter().all(|own| own.id % 256 == 0);
    bench.profiles.see(&[
        ("30 for the unit itself", lacks && unit == Some(place)),
        ("30 for another than the unit", lacks && unit != Some(place)),
        ("30 behind one that has the class", lacks && place > 0),
        ("30 before another that lacks it", lacks && list[place + 1..].iter().any(|own| !own.has_class)),
        ("30 before one that has the class", lacks && list[place + 1..].iter().any(|own| own.has_class)),
        ("30 for the last of 16", lacks && place == MOST - 1),
        ("0 for the unit alone", passes && list.len() == 1),
        ("0 for 16 participants", passes && list.len() == MOST),
        ("0 where the unit is not the first", passes && unit > Some(0)),
        ("0 where the unit is the last of 16", passes && unit == Some(MOST - 1)),
        ("0 for ids of one lowest byte", passes && one_byte),
    ]);
}
