//! The check of a signal message against a map a second time: written plainly from document 02 (A7), and from nothing of the proved check,
//! so that it has something to be held against.
//!
//! The values are taken from the two sheets by second.rs, and what is asked of them by the names of their components. Nothing here touches a
//! file, a stream or the command line.

use crate::second::{self, number, Part, Types};

/// "A no names number, node and phase (0 where none is meant) of the first failure".
#[derive(Clone, Copy, Debug, PartialEq, Eq)]
pub struct Answer {
    pub number: u64,
    pub node: u64,
    pub phase: u64,
}

fn answer(number: u64, node: usize, phase: i64) -> Answer {
    Answer { number, node: node as u64, phase: phase as u64 }
}

/// The kinds of frame, by the names of the alternatives.
const SIGNAL: &str = "spatFrame";
const MAP: &str = "mapFrame";

/// A region, where there is one, and an id: "equal region and id, a missing region equal only to a missing one".
#[derive(Clone, Copy, Debug, PartialEq, Eq)]
pub struct Reference {
    pub region: Option<i64>,
    pub id: i64,
}

/// A signal entry, and a node of the map with the phases that it uses, in map order.
pub struct Entry {
    pub reference: Reference,
    pub listed: Vec<i64>,
}

pub struct Node {
    pub reference: Reference,
    pub used: Vec<i64>,
}

/// The entries of the one sheet and the nodes of the other, "however long its bytes would be", as document 01 says of the RSI rules; or
/// the answer where there are none: "7 for the signal sheet, 7 for the map sheet, 50 where the two are not SPAT and MAP".
pub fn lists_of(types: &Types, signal: &[i64], map: &[i64]) -> Result<(Vec<Entry>, Vec<Node>), Answer> {
    let signal = second::frame_of(types, signal).map_err(|_| answer(7, 0, 0))?;
    let map = second::frame_of(types, map).map_err(|_| answer(7, 1, 0))?;
    let ((signal_name, signal), (map_name, map)) = (second::message(types, &signal), second::message(types, &map));
    if signal_name != SIGNAL || map_name != MAP {
        return Err(answer(50, 0, 0));
    }
    Ok((entries_of(types, signal), nodes_of(types, map)))
}

pub fn check(types: &Types, signal: &[i64], map: &[i64]) -> Answer {
    lists_of(types, signal, map).map_or_else(|refused| refused, |(entries, nodes)| judged(&entries, &nodes))
}

/// "51 two signal entries with equal region and id, 52 a phase not listed".
pub fn judged(entries: &[Entry], nodes: &[Node]) -> Answer {
    for (place, entry) in entries.iter().enumerate() {
        if entries[..place].iter().any(|earlier| earlier.reference == entry.reference) {
            return answer(51, place, 0);
        }
    }
    for (place, node) in nodes.iter().enumerate() {
        let Some(entry) = entries.iter().find(|entry| entry.reference == node.reference) else { continue };
        // "every phase number other than 0"
        if let Some(phase) = node.used.iter().find(|phase| **phase != 0 && !entry.listed.contains(phase)) {
            return answer(52, place, *phase);
        }
    }
    answer(0, 0, 0)
}

fn entries_of(types: &Types, signal: Part) -> Vec<Entry> {
    let entry = |part: Part| Entry {
        reference: reference(types, part, "intersectionId"),
        listed: items(types, part, "phases").into_iter().filter_map(|phase| number(types, phase, "id")).collect(),
    };
    items(types, signal, "intersections").into_iter().map(entry).collect()
}

/// "Used by a movement or a connection of that node's incoming links".
fn nodes_of(types: &Types, map: Part) -> Vec<Node> {
    let node = |part: Part| Node {
        reference: reference(types, part, "id"),
        used: items(types, part, "inLinks").into_iter().flat_map(|link| link_phases(types, link)).collect(),
    };
    items(types, map, "nodes").into_iter().map(node).collect()
}

/// In the order of the map: a link's movements stand before its lanes.
fn link_phases(types: &Types, link: Part) -> Vec<i64> {
    let movements = items(types, link, "movements").into_iter();
    let connections = items(types, link, "lanes").into_iter().flat_map(|lane| items(types, lane, "connectsTo"));
    movements.chain(connections).filter_map(|turn| number(types, turn, "phaseId")).collect()
}

fn reference(types: &Types, (of, value): Part, name: &str) -> Reference {
    let own = second::part(types, of, value, name).expect("a reference is always there");
    Reference { region: number(types, own, "region"), id: number(types, own, "id").expect("an id is always there") }
}

/// The items of the list of this name; none if it isn't there.
fn items<'a>(types: &Types, (of, value): Part<'a>, name: &str) -> Vec<Part<'a>> {
    second::entries(types, of, value, name)
}

// ---------------------------------------------------------------------------------------------
// Batches of pairs

/// The lines for a batch as tests/signals has them: of each pair the signal message's sheet and the map's.
pub fn lines(types: &Types, input: &[u8]) -> String {
    let (mut out, mut rest) = (String::new(), input);
    while !rest.is_empty() {
        let (signal, map) = (second::first_sheet(&mut rest), second::first_sheet(&mut rest));
        let Answer { number, node, phase } = check(types, &signal, &map);
        out += &format!("{number} {node} {phase}\n");
    }
    out
}
