//! Pairs of a signal message and a map by chance, one checked against the other in guarded memory and held against the second
//! implementation: the answer, both sheets afterwards and the memory beside them are compared. References and phases are drawn from few
//! numbers, so that nodes have entries and phases are listed more often than chance alone would have it. Some sheets are spoiled, and some
//! are of other kinds, or in the other order.

use crate::making::{self, Chance, Made};
use crate::occasions::Demand;
use crate::signals::{self, Answer, Entry, Node, Reference};
use crate::Bench;

extern "C" {
    fn knotsaffron_check_signal(signal: *const i64, signal_len: usize, map: *const i64, map_len: usize, answer: *mut u64);
}

pub const DEMAND: Demand =
    Demand { function: "check_signal", inputs: "pairs", numbers: &[0, 7, 50, 51, 52], for_a_number: 50, for_an_occasion: 500, telling: 5000 };
/// The frames by their indices.
const MAP: usize = 1;
const SIGNAL: usize = 3;
const KINDS: u64 = 5;

/// A frame of a kind, of a size by chance.
fn some_frame<'a>(bench: &Bench<'a>, index: usize, chance: &mut Chance) -> Made<'a> {
    let (budget, presence) = (chance.one_of(&[50, 200, 500, 1500]), chance.one_of(&[20, 35, 50, 80, 100]));
    // now and then above 2,048 bytes
    let budget = if chance.holds(3) { 12000 } else { budget };
    making::frame(bench.types, index, budget, presence, chance)
}

/// Gives both messages the references and the phases of a few numbers.
fn relate(signal: &mut Made, map: &mut Made, chance: &mut Chance) {
    // ids that are steps of 256 have one lowest byte
    let (ids, step) = (chance.one_of(&[1, 2, 3, 6, 40]), chance.one_of(&[1, 1, 255, 256]));
    // in many pairs no two entries have one id
    let apart = chance.holds(70);
    signal.redraw("NodeID", |place| step * if apart { place as i64 } else { chance.between(0, ids - 1) });
    map.redraw("NodeID", |_| step * chance.between(0, ids - 1));
    let regions: &[i64] = chance.one_of(&[&[0], &[0], &[0, 1], &[0, 256], &[65535, 65534]]);
    signal.redraw("RoadRegulatorID", |_| chance.one_of(regions));
    map.redraw("RoadRegulatorID", |_| chance.one_of(regions));
    let (first, count) = (chance.one_of(&[0, 1, 1, 240, 254]), chance.one_of(&[1, 1, 2, 3, 6, 16]));
    let phase = |place: i64| (first + place).min(255);
    // of so many of a hundred phases that are used any is drawn, and of others 0
    let (strange, none) = (chance.one_of(&[0, 0, 2, 20]), chance.one_of(&[0, 10, 80]));
    signal.redraw("PhaseID", |place| phase(place as i64 % count));
    map.redraw("PhaseID", |_| match chance.below(100) {
        below if below < strange => chance.between(0, 255),
        below if below < strange + none => 0,
        _ => phase(chance.between(0, count - 1)),
    });
}

/// A handful of pairs of the same two messages, each with other references and phases.
pub fn run(bench: &mut Bench, chance: &mut Chance) {
    let (mut signal, mut map) = (some_frame(bench, SIGNAL, chance), some_frame(bench, MAP, chance));
    for _ in 0..6 {
        relate(&mut signal, &mut map, chance);
        match chance.below(20) {
            0 => check_some(bench, &map, &signal, chance),
            1 => check_some(bench, &signal, &signal, chance),
            2 => check_some(bench, &map, &map, chance),
            3 => check_some(bench, &some_frame(bench, chance.below(KINDS) as usize, chance), &map, chance),
            4 => check_some(bench, &signal, &some_frame(bench, chance.below(KINDS) as usize, chance), chance),
            _ => check_some(bench, &signal, &map, chance),
        }
    }
}

/// Most often both as they were made, and else one of them spoiled, or both.
fn check_some(bench: &mut Bench, signal: &Made, map: &Made, chance: &mut Chance) {
    let kept = (false, false);
    let (first, second) = chance.one_of(&[kept, kept, kept, kept, kept, kept, (true, false), (false, true), (true, true)]);
    let signal = if first { making::damaged_sheet(signal, chance) } else { signal.cells.clone() };
    let map = if second { making::damaged_sheet(map, chance) } else { map.cells.clone() };
    check(bench, &signal, &map, chance);
}

/// Lends both sheets, each flush to a guard of its own, and compares the answer.
fn check(bench: &mut Bench, signal: &[i64], map: &[i64], chance: &mut Chance) {
    let mut signal_lent = bench.read_from.lend(8 * signal.len(), chance.holds(50), 0x3C);
    let mut map_lent = bench.write_to.lend(8 * map.len(), chance.holds(50), 0x69);
    signal_lent.cells().copy_from_slice(signal);
    map_lent.cells().copy_from_slice(map);
    let mut answer = bench.lend_answer(3, chance);
    unsafe {
        let (signal_at, map_at) = (signal_lent.pointer() as *const i64, map_lent.pointer() as *const i64);
        knotsaffron_check_signal(signal_at, signal.len(), map_at, map.len(), answer.pointer() as *mut u64);
    }
    let lists = signals::lists_of(bench.types, signal, map);
    let wanted = signals::check(bench.types, signal, map);
    see(bench, signal, map, &lists, wanted);
    let sheets_kept = signal_lent.cells() == signal && map_lent.cells() == map;
    let kept = sheets_kept && signal_lent.canaries_live() && map_lent.canaries_live() && answer.canaries_live();
    let told = answer.cells().to_vec();
    let right = kept && told == [wanted.number as i64, wanted.node as i64, wanted.phase as i64];
    bench.note(DEMAND.function, wanted.number, right, || format!("{signal:?}, {map:?}: {told:?}, wanted {wanted:?}"));
}

/// Counts the occasions of a pair.
fn see(bench: &mut Bench, signal: &[i64], map: &[i64], lists: &Result<(Vec<Entry>, Vec<Node>), Answer>, wanted: Answer) {
    let of_kinds = signal.first() == Some(&(SIGNAL as i64)) && map.first() == Some(&(MAP as i64));
    let mut seen = vec![
        ("7 for the signal sheet", wanted.number == 7 && wanted.node == 0),
        ("7 for the map sheet", wanted.number == 7 && wanted.node == 1),
        ("7 before 50", wanted.number == 7 && !of_kinds),
        ("swapped", wanted.number == 50 && signal[0] == MAP as i64 && map[0] == SIGNAL as i64),
    ];
    let empty = (Vec::new(), Vec::new());
    let (entries, nodes) = lists.as_ref().unwrap_or(&empty);
    seen.extend(see_entries(entries, nodes, wanted));
    seen.extend(see_nodes(entries, nodes, wanted));
    bench.pairs.see(&seen);
}

/// The occasions of entries that repeat others, and of references that are alike.
fn see_entries(entries: &[Entry], nodes: &[Node], wanted: Answer) -> [(&'static str, bool); 6] {
    let place = wanted.node as usize;
    let repeats = wanted.number == 51;
    let of_map = |entry: &Entry| nodes.iter().any(|node| node.reference == entry.reference);
    let known = |node: &Node| entries.iter().find(|entry| entry.reference == node.reference);
    let fails = |node: &Node| known(node).is_some_and(|entry| node.used.iter().any(|phase| *phase != 0 && !entry.listed.contains(phase)));
    let alike = |one: Reference, other: Reference, regions| one.id == other.id && (one.region, other.region) == regions;
    let beside = |regions| {
        let mut strangers = nodes.iter().filter(|node| known(node).is_none());
        strangers.any(|node| entries.iter().any(|entry| alike(node.reference, entry.reference, regions)))
    };
    [
        ("51 for an entry that is no neighbour of the earlier one", repeats && entries[place - 1].reference != entries[place].reference),
        ("51 for a node that the map lacks", repeats && !of_map(&entries[place])),
        ("51 before 52", repeats && nodes.iter().any(fails)),
        ("a node without a region beside an entry in region 0", !repeats && beside((None, Some(0)))),
        ("a node in region 0 beside an entry without a region", !repeats && beside((Some(0), None))),
        ("a node beside an entry of its id in another region", !repeats && beside((Some(0), Some(1)))),
    ]
}

/// The occasions of nodes and their phases.
fn see_nodes(entries: &[Entry], nodes: &[Node], wanted: Answer) -> [(&'static str, bool); 8] {
    let (passes, fails, place, phase) = (wanted.number == 0, wanted.number == 52, wanted.node as usize, wanted.phase as i64);
    let known = |node: &Node| entries.iter().find(|entry| entry.reference == node.reference);
    let strangers_use = nodes.iter().any(|node| known(node).is_none() && node.used.iter().any(|phase| *phase != 0));
    let zeros = nodes.iter().any(|node| known(node).is_some_and(|entry| node.used.contains(&0) && !entry.listed.contains(&0)));
    let own = if fails { known(&nodes[place]) } else { None };
    let lower = own.is_some_and(|entry| nodes[place].used.iter().any(|other| 0 < *other && *other < phase && !entry.listed.contains(other)));
    [
        ("0 where phases are judged", passes && nodes.iter().any(|node| known(node).is_some() && node.used.iter().any(|phase| *phase != 0))),
        ("0 where a node without an entry uses phases", passes && strangers_use),
        ("phase 0 used and not listed", passes && zeros),
        ("52 behind another node", fails && place > 0),
        ("52 behind a phase that is listed", fails && nodes[place].used.iter().find(|other| **other != 0) != Some(&phase)),
        ("52 before a lower phase of its node", lower),
        ("52 for a phase that another entry lists", fails && entries.iter().any(|entry| entry.listed.contains(&phase))),
        ("52 for a node that stands twice", fails && nodes.iter().filter(|node| node.reference == nodes[place].reference).count() > 1),
    ]
}
