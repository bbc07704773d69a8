//! The occasions of plans: for each plan that is checked and each that is made, which of them it is, so that a run shows each number, each
//! reason of 71 and each kind of entries often. The number is the one that is wanted.

use crate::packing::{Call, List, Part, EVENTS, MOST_BYTES, MOST_ENTRIES, MOST_PLAN_CELLS, RSI};
use crate::plans::{self, PlanAnswer};
use crate::second::{self, RuleAnswer};
use crate::Bench;

type Seen = Vec<(&'static str, bool)>;
type Messages<'a> = Vec<&'a [i64]>;

/// Counts the occasions of a plan that is checked.
pub fn see_checked(bench: &mut Bench, list: &List, call: &Call, plan: &[i64], wanted: RuleAnswer) {
    let whole = call.spoiled.is_none();
    let mut seen = refused(bench, call, wanted.number);
    seen.extend(plan_refused(bench, call, plan, wanted.number));
    // the list tells what is in a call that was not spoiled
    let messages = if whole { plans::plan_of(plan) } else { None }.unwrap_or_default();
    seen.extend(not_once(list, call, &messages, wanted, whole));
    seen.extend(wrong_message(list, call, &messages, wanted, whole));
    seen.extend(passes(list, call, &messages, whole && wanted.number == 0));
    bench.packing.checked.see(&seen);
}

/// Counts the occasions of a plan that is made.
pub fn see_made(bench: &mut Bench, list: &List, call: &Call, lent: &[i64], wanted: PlanAnswer) {
    let whole = call.spoiled.is_none();
    let mut seen = refused(bench, call, wanted.number);
    seen.extend(too_long(list, call, lent.len(), wanted, whole));
    let plan = if whole && wanted.number == 0 { plans::plan_of(&lent[..wanted.cells as usize]) } else { None };
    seen.extend(made(list, call, &plan.unwrap_or_default(), whole && wanted.number == 0));
    seen.extend(rooms(lent.len() as u64, wanted));
    bench.packing.made.see(&seen);
}

/// 7 for what both functions take, and 4.
fn refused(bench: &Bench, call: &Call, number: u64) -> Seen {
    let (no_value, outside, limit) = (number == 7, number == 4, call.limit);
    let header = no_value && call.spoiled == Some(Part::Header);
    let entries = no_value && call.spoiled == Some(Part::Entries);
    let is_frame = header && second::frame_of(bench.types, &call.header).is_ok();
    let is_rsi = call.header.first() == Some(&(RSI as i64));
    vec![
        ("7 for the kind", no_value && call.spoiled == Some(Part::Kind)),
        ("7 for a kind by its lower half", no_value && call.kind > u64::from(u32::MAX) && call.kind as u32 <= 1),
        ("7 for no cells of a header", header && call.header.is_empty()),
        ("7 for a header that is no value", header && !is_frame),
        ("7 for a header with a list", is_frame && is_rsi),
        ("7 for a header that is another message", is_frame && !is_rsi),
        ("7 for no cells of entries", entries && call.entries.is_empty()),
        ("7 for 65 entries", entries && call.entries.first() == Some(&(MOST_ENTRIES as i64 + 1))),
        ("7 for a count of entries below 0", entries && call.entries.first().is_some_and(|count| *count < 0)),
        ("7 for entries that are not their count", entries && call.entries.first().is_some_and(|count| 0 <= *count && *count <= MOST_ENTRIES as i64)),
        ("7 before 4", no_value && (limit == 0 || limit > MOST_BYTES)),
        ("4 for 0", outside && limit == 0),
        ("4 for 2,049", outside && limit == MOST_BYTES + 1),
        ("4 by its lower half", outside && limit > u64::from(u32::MAX) && 1 <= limit as u32 && limit as u32 <= MOST_BYTES as u32),
        ("4 for no entries", outside && call.entries.first() == Some(&0)),
    ]
}

/// 7 for a plan, and which numbers 4 comes before.
fn plan_refused(bench: &Bench, call: &Call, plan: &[i64], number: u64) -> Seen {
    let own = number == 7 && call.spoiled.is_none();
    let behind = |limit| if number == 4 { plans::check(bench.types, call.kind, &call.header, &call.entries, plan, limit).number } else { number };
    vec![
        ("7 for a plan", own),
        ("7 for no cells of a plan", own && plan.is_empty()),
        ("7 for a count of messages below 0", own && plan.first().is_some_and(|count| *count < 0)),
        ("7 for a first message with a count below 0", own && plan.get(1).is_some_and(|count| *count < 0)),
        ("4 before 70", number == 4 && behind(MOST_BYTES) == 70),
        ("4 before 71", number == 4 && behind(MOST_BYTES) == 71),
        ("4 where the plan is good", number == 4 && behind(MOST_BYTES) == 0),
    ]
}

/// What is wrong with a message: each of the reasons of 71.
struct Reasons {
    empty: bool,
    above: bool,
    below: bool,
    disordered: bool,
    full: bool,
    long: bool,
}

impl Reasons {
    fn of(list: &List, limit: u64, message: &[i64]) -> Reasons {
        let count = list.entries.len() as i64;
        Reasons {
            empty: message.is_empty(),
            above: message.iter().any(|number| *number >= count),
            below: message.iter().any(|number| *number < 0),
            disordered: message.windows(2).any(|pair| pair[0] >= pair[1]),
            full: message.len() > list.sort().most,
            long: !message.is_empty() && list.bytes(message) > limit,
        }
    }

    fn each(&self) -> [bool; 6] {
        [self.empty, self.above, self.below, self.disordered, self.full, self.long]
    }

    fn any(&self) -> bool {
        self.each().contains(&true)
    }

    /// There is this reason, which is one of the above, and no other.
    fn only(&self, reason: bool) -> bool {
        reason && self.each().iter().filter(|holds| **holds).count() == 1
    }
}

/// 70, by how the entry stands.
fn not_once(list: &List, call: &Call, messages: &Messages, wanted: RuleAnswer, whole: bool) -> Seen {
    let (here, place) = (whole && wanted.number == 70, wanted.place as i64);
    let often = |entry: i64| messages.iter().flat_map(|message| message.iter()).filter(|number| **number == entry).count();
    let in_one = messages.iter().any(|message| message.iter().filter(|number| **number == place).count() > 1);
    let like = messages.iter().flat_map(|message| message.iter()).any(|number| *number != place && *number as u32 == place as u32);
    let count = list.entries.len() as i64;
    let wrong = here && messages.iter().any(|message| Reasons::of(list, call.limit, message).any());
    vec![
        ("70 for an event", here && list.kind == EVENTS),
        ("70 for a sign", here && list.kind != EVENTS),
        ("70 for an entry that stands nowhere", here && often(place) == 0),
        ("70 for an entry in two messages", here && often(place) == 2 && !in_one),
        ("70 for an entry twice in a message", here && in_one),
        ("70 for the first entry", here && place == 0),
        ("70 for the last entry", here && place == count - 1 && place > 0),
        ("70 before another", here && (place + 1..count).any(|other| often(other) != 1)),
        ("70 before 71", wrong),
        ("70 where all messages are good", here && !wrong && !messages.is_empty()),
        ("70 beside a number of the same lower half", here && like),
    ]
}

/// 71, by the reason, and where the message stands.
fn wrong_message(list: &List, call: &Call, messages: &Messages, wanted: RuleAnswer, whole: bool) -> Seen {
    let here = whole && wanted.number == 71;
    let place = if here { wanted.place as usize } else { 0 };
    let message = if here { messages[place] } else { &[][..] };
    let why = Reasons::of(list, call.limit, message);
    let (events, bytes) = (list.kind == EVENTS, list.bytes(message));
    let like = message.iter().any(|number| *number > i64::from(u32::MAX) && ((*number as u32) as usize) < list.entries.len());
    let later = |from: usize| messages.iter().skip(from).any(|message| Reasons::of(list, call.limit, message).any());
    vec![
        ("71 for an empty message", here && why.only(why.empty)),
        ("71 for an entry above the last", here && why.only(why.above)),
        ("71 for an entry by its lower half", here && why.only(why.above) && like),
        ("71 for an entry below 0", here && why.only(why.below)),
        ("71 for events out of order", here && why.only(why.disordered) && events),
        ("71 for signs out of order", here && why.only(why.disordered) && !events),
        ("71 for too many events", here && why.only(why.full) && events),
        ("71 for too many signs", here && why.only(why.full) && !events),
        ("71 for events that are too long", here && why.only(why.long) && events),
        ("71 for signs that are too long", here && why.only(why.long) && !events),
        ("71 by one byte", here && why.only(why.long) && bytes == call.limit + 1),
        ("71 for a message above 2,048 bytes", here && why.only(why.long) && bytes > MOST_BYTES),
        ("71 for the first message", here && place == 0),
        ("71 behind a good message", here && place > 0),
        ("71 for the last message", here && place > 0 && place + 1 == messages.len()),
        ("71 before another", here && later(place + 1)),
        ("71 where there are no entries", here && list.entries.is_empty()),
    ]
}

/// Plans that pass.
fn passes(list: &List, call: &Call, messages: &Messages, here: bool) -> Seen {
    let most = |count: usize| here && messages.iter().any(|message| message.len() == count);
    let bytes: Vec<u64> = messages.iter().map(|message| list.bytes(message)).collect();
    let skips = |message: &&[i64]| message.windows(2).any(|pair| pair[1] > pair[0] + 1);
    vec![
        ("0 for events", here && list.kind == EVENTS && !messages.is_empty()),
        ("0 for signs", here && list.kind != EVENTS && !messages.is_empty()),
        ("0 for no entries", here && messages.is_empty()),
        ("0 for 64 entries", here && list.entries.len() == MOST_ENTRIES),
        ("0 at the limit", here && bytes.contains(&call.limit)),
        ("0 for a full message of events", most(8) && list.kind == EVENTS),
        ("0 for more than 8 signs", here && list.kind != EVENTS && messages.iter().any(|message| message.len() > 8)),
        ("0 for a full message of signs", most(16)),
        ("0 where messages are not in order", here && messages.windows(2).any(|pair| pair[0][0] > pair[1][0])),
        ("0 where messages take turns", here && messages.iter().any(skips)),
    ]
}

/// 72, by where the entry stands and how long it is.
fn too_long(list: &List, call: &Call, room: usize, wanted: PlanAnswer, whole: bool) -> Seen {
    let (here, place, count) = (whole && wanted.number == 72, wanted.place as usize, list.entries.len());
    let alone = |entry: usize| list.bytes(&[entry as i64]);
    vec![
        ("72 for an event", here && list.kind == EVENTS),
        ("72 for a sign", here && list.kind != EVENTS),
        ("72 for the first entry", here && place == 0),
        ("72 behind another", here && place > 0),
        ("72 for the last of several", here && place > 0 && place + 1 == count),
        ("72 before another", here && (place + 1..count).any(|other| alone(other) > call.limit)),
        ("72 before one that fits", here && (place + 1..count).any(|other| alone(other) <= call.limit)),
        ("72 by one byte", here && alone(place) == call.limit + 1),
        ("72 for an entry above 2,048 bytes", here && alone(place) > MOST_BYTES),
        ("72 where nothing is lent", here && room == 0),
    ]
}

/// Plans that are made, by why their messages end.
fn made(list: &List, call: &Call, messages: &Messages, here: bool) -> Seen {
    let most = list.sort().most;
    let with_next = |message: &&[i64]| [message, &[message[message.len() - 1] + 1][..]].concat();
    let ended: Vec<&&[i64]> = messages.iter().take(messages.len().saturating_sub(1)).collect();
    let room_for = |message: &[i64], entry: i64| message.len() < most && list.bytes(&[message, &[entry]].concat()) <= call.limit;
    let later_fits = ended.iter().any(|message| (message[message.len() - 1] + 2..list.entries.len() as i64).any(|entry| room_for(message, entry)));
    vec![
        ("0 for events", here && list.kind == EVENTS && !messages.is_empty()),
        ("0 for signs", here && list.kind != EVENTS && !messages.is_empty()),
        ("0 for no entries", here && messages.is_empty()),
        ("0 for 64 entries", here && list.entries.len() == MOST_ENTRIES),
        ("0 with a message of events that its list ends", here && most == 8 && ended.iter().any(|message| message.len() == most)),
        ("0 with a message of signs that its list ends", here && most == 16 && ended.iter().any(|message| message.len() == most)),
        ("0 with a message that the limit ends", here && ended.iter().any(|message| message.len() < most)),
        ("0 with a message at the limit", here && messages.iter().any(|message| list.bytes(message) == call.limit)),
        ("0 with a message that one byte ends", here && ended.iter().any(|message| list.bytes(&with_next(message)) == call.limit + 1)),
        ("0 where a later entry would fit into an earlier message", here && later_fits),
    ]
}

/// How much is lent, beside what is needed.
fn rooms(room: u64, wanted: PlanAnswer) -> Seen {
    let (done, lacks, needed) = (wanted.number == 0, wanted.number == 8, wanted.cells);
    vec![
        ("0 with just the room", done && room == needed),
        ("0 with more room", done && room > needed),
        ("8 where nothing is lent", lacks && room == 0),
        ("8 by one cell", lacks && room + 1 == needed),
        ("8 by more", lacks && room > 0 && room + 1 < needed),
        ("8 for the single cell", lacks && needed == 1),
        ("0 or 8 for a plan of 129 cells", needed == MOST_PLAN_CELLS as u64),
    ]
}
