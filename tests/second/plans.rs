//! Which entry goes into which RSI message a second time, a plan checked and a plan made: written plainly from document 02 (A9), and from nothing
//! of the proved check and planner, so that they have something to be held against.
//!
//! The values are taken from the sheets by second.rs, and a message's length is learned by writing it: nothing here knows how long a part is.
//! Nothing here touches a file, a stream or the command line.

use crate::second::{self, Kind, RuleAnswer, Types};

/// "At most 64 entries".
const MOST_ENTRIES: i64 = 64;
/// "The byte limit the caller gives (1 to 2,048)".
const LIMITS: std::ops::RangeInclusive<u64> = 1..=second::MOST_BYTES as u64;
/// The kind of frame, by the name of its alternative, and the type number of a frame.
const RSI: &str = "rsiFrame";
const FRAME: u64 = 0;
/// The lists by their kind: the name of each, and the cell of an RSI's sheet that says whether it is there.
const LISTS: [(&str, usize); 2] = [("rtes", 2), ("rtss", 3)];

/// What making a plan gives back; the plan is in the lent cells.
#[derive(Clone, Copy, Debug, PartialEq, Eq)]
pub struct PlanAnswer {
    pub number: u64,
    pub place: u64,
    pub cells: u64,
}

// ---------------------------------------------------------------------------------------------
// What is handed in

/// "One list at a time, events or signs, each with the same header fields".
pub struct Entries<'a> {
    types: &'a Types,
    /// The header's cells, where the list is said to be there, and how many entries "its list type allows".
    front: Vec<i64>,
    most: usize,
    cells: Vec<&'a [i64]>,
}

impl<'a> Entries<'a> {
    /// None where it "is no such list".
    pub fn of(types: &'a Types, kind: u64, header: &[i64], entries: &'a [i64]) -> Option<Entries<'a>> {
        let (name, presence) = *LISTS.get(usize::try_from(kind).ok()?)?;
        let (most, item) = list_in_header(types, header, name)?;
        let mut front = header.to_vec();
        front[presence] = 1;
        Some(Entries { types, front, most, cells: each_entry(types, item, entries)? })
    }

    /// The bytes of the message with these entries; None where it is above 2,048.
    fn bytes(&self, numbers: &[i64]) -> Option<u64> {
        let mut sheet = self.front.clone();
        sheet.push(numbers.len() as i64);
        numbers.iter().for_each(|number| sheet.extend(self.cells[*number as usize]));
        let answer = second::write(self.types, second::EDITION, FRAME, &sheet, &mut [0; second::MOST_BYTES]);
        match answer.number {
            0 => Some(answer.bytes),
            1 => None,
            number => unreachable!("{number} for a message of entries"),
        }
    }

    /// Whether a message is none of: "empty, names an entry not there, is out of order, too full or too long".
    fn takes(&self, message: &[i64], limit: u64) -> bool {
        let there = message.iter().all(|number| (0..self.cells.len() as i64).contains(number));
        let in_order = message.windows(2).all(|pair| pair[0] < pair[1]);
        let by_count = !message.is_empty() && message.len() <= self.most;
        by_count && there && in_order && self.bytes(message).is_some_and(|bytes| bytes <= limit)
    }

    /// "A simple planner that fills messages in order": an entry goes into the last message, or else into one of its own.
    fn filled(&self, limit: u64) -> Vec<Vec<i64>> {
        let mut plan: Vec<Vec<i64>> = Vec::new();
        for entry in 0..self.cells.len() as i64 {
            let grown = plan.last().map(|last| [&last[..], &[entry]].concat());
            match (plan.last_mut(), grown) {
                (Some(last), Some(grown)) if self.takes(&grown, limit) => *last = grown,
                _ => plan.push(vec![entry]),
            }
        }
        plan
    }
}

/// How many entries the list of this name may have, and of which type, where the header is an RSI with neither list.
fn list_in_header(types: &Types, header: &[i64], name: &str) -> Option<(usize, usize)> {
    let frame = second::frame_of(types, header).ok()?;
    let (message, (of, body)) = second::message(types, &frame);
    if message != RSI || LISTS.iter().any(|(list, _)| second::part(types, of, body, list).is_some()) {
        return None;
    }
    let Kind::Sequence { components, .. } = types.kind(of) else { return None };
    let list = components.iter().find(|component| component.name == name)?;
    match types.kind(list.of) {
        Kind::List { most, item, .. } => Some((*most as usize, *item)),
        _ => None,
    }
}

/// The cells of each entry: their count comes first, then the entries one behind the other, and nothing behind them.
fn each_entry<'a>(types: &Types, item: usize, cells: &'a [i64]) -> Option<Vec<&'a [i64]>> {
    let (count, mut rest) = cells.split_first()?;
    if !(0..=MOST_ENTRIES).contains(count) {
        return None;
    }
    let mut found = Vec::new();
    for _ in 0..*count {
        let (entry, behind) = rest.split_at(first_value(types, item, rest)?);
        found.push(entry);
        rest = behind;
    }
    rest.is_empty().then_some(found)
}

/// How many cells the value has that the cells begin with. Where the cells are no value, the walk stops at a place: what stands before it is
/// the value if the place is that of a spare cell, and none if a cell is wrong there or lacks.
fn first_value(types: &Types, of: usize, cells: &[i64]) -> Option<usize> {
    let end = second::value_of(types, of, cells).err().unwrap_or(cells.len());
    second::value_of(types, of, &cells[..end]).is_ok().then_some(end)
}

/// The messages of a plan, each the numbers of its entries, which may be any; None where it "is no such list".
pub fn plan_of(cells: &[i64]) -> Option<Vec<&[i64]>> {
    let (count, mut rest) = cells.split_first()?;
    let mut messages = Vec::new();
    for _ in 0..u64::try_from(*count).ok()? {
        let (own, behind) = rest.split_first()?;
        let numbers = behind.get(..usize::try_from(*own).ok()?)?;
        messages.push(numbers);
        rest = &behind[numbers.len()..];
    }
    rest.is_empty().then_some(messages)
}

fn cells_of(plan: &[Vec<i64>]) -> Vec<i64> {
    let messages = plan.iter().flat_map(|message| std::iter::once(message.len() as i64).chain(message.iter().copied()));
    std::iter::once(plan.len() as i64).chain(messages).collect()
}

// ---------------------------------------------------------------------------------------------
// Checking and making

/// "7 for input that is no such list, 4 for a limit outside 1 to 2,048 (both place 0)", and then what is said of a plan.
pub fn check(types: &Types, kind: u64, header: &[i64], entries: &[i64], plan: &[i64], limit: u64) -> RuleAnswer {
    match (Entries::of(types, kind, header, entries), plan_of(plan)) {
        (Some(list), Some(plan)) if LIMITS.contains(&limit) => judged(&list, &plan, limit),
        (Some(_), Some(_)) => answer(4, 0),
        _ => answer(7, 0),
    }
}

/// "70 and the first entry not standing exactly once, 71 and the first message that" is not taken.
pub fn judged(list: &Entries, plan: &[&[i64]], limit: u64) -> RuleAnswer {
    let standing = |entry: usize| plan.iter().flat_map(|message| message.iter()).filter(|number| **number == entry as i64).count();
    if let Some(entry) = (0..list.cells.len()).find(|entry| standing(*entry) != 1) {
        return answer(70, entry);
    }
    plan.iter().position(|message| !list.takes(message, limit)).map_or(answer(0, 0), |place| answer(71, place))
}

fn answer(number: u64, place: usize) -> RuleAnswer {
    RuleAnswer { number, place: place as u64 }
}

/// 7 and 4 as above; then 72 and the first entry that "alone is over the limit"; then 8, where the plan has no room.
pub fn make(types: &Types, kind: u64, header: &[i64], entries: &[i64], limit: u64, lent: &mut [i64]) -> PlanAnswer {
    let told = |number, place: usize, cells: usize| PlanAnswer { number, place: place as u64, cells: cells as u64 };
    let Some(list) = Entries::of(types, kind, header, entries) else { return told(7, 0, 0) };
    if !LIMITS.contains(&limit) {
        return told(4, 0, 0);
    }
    if let Some(entry) = (0..list.cells.len()).find(|entry| !list.takes(&[*entry as i64], limit)) {
        return told(72, entry, 0);
    }
    let cells = cells_of(&list.filled(limit));
    if cells.len() > lent.len() {
        return told(8, 0, cells.len());
    }
    lent[..cells.len()].copy_from_slice(&cells);
    told(0, 0, cells.len())
}

// ---------------------------------------------------------------------------------------------
// Batches

/// The first number of a call: which of the two it is.
const CHECKED: i64 = 0;
const MADE: i64 = 1;

/// The lines for a batch of calls, as tests/plans has them: of each which call it is, with its kind and its limit, the header, the entries, and
/// the plan that is checked or the cells that are lent for one, which are told as they are afterwards.
pub fn lines(types: &Types, input: &[u8]) -> String {
    let (mut out, mut rest) = (String::new(), input);
    while !rest.is_empty() {
        let (call, header) = (second::first_sheet(&mut rest), second::first_sheet(&mut rest));
        let (entries, mut plan) = (second::first_sheet(&mut rest), second::first_sheet(&mut rest));
        let (kind, limit) = (call[1] as u64, call[2] as u64);
        match call[0] {
            CHECKED => {
                let RuleAnswer { number, place } = check(types, kind, &header, &entries, &plan, limit);
                out += &format!("{number} {place}");
            }
            MADE => {
                let PlanAnswer { number, place, cells } = make(types, kind, &header, &entries, limit, &mut plan);
                out += &format!("{number} {place} {cells}");
                plan.iter().for_each(|cell| out += &format!(" {cell}"));
            }
            _ => panic!("no such call"),
        }
        out += "\n";
    }
    out
}

/// The lines for a batch of sheets of frames: the number that writing gives, and how many bytes are written.
pub fn lengths(types: &Types, input: &[u8]) -> String {
    let (mut out, mut rest) = (String::new(), input);
    while !rest.is_empty() {
        let answer = second::write(types, second::EDITION, FRAME, &second::first_sheet(&mut rest), &mut [0; second::MOST_BYTES]);
        out += &format!("{} {}\n", answer.number, answer.bytes);
    }
    out
}
