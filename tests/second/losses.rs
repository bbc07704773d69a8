//! The loss table of a drive a second time, and the lines of the losses program: written plainly from document 02 (A4, and A10 for its two
//! parties), and from nothing of the proved table, so that it has something to be held against.
//!
//! A row is held as the caller's memory has it, with all its numbers also where it is free: what a call leaves alone stays as it was.
//! Nothing here touches a file, a stream or the command line.

use crate::second::{self, Kind, Types, Value};

/// "Each party has 32 of the 64 rows": the logger, party 0, and the map display, party 1.
pub const PARTIES: usize = 2;
pub const ROWS: usize = 32;
/// The party that the losses program is.
const LOGGER: usize = 0;
/// The bytes of a row in the caller's memory, of a party's rows, and of the table.
pub const ROW_BYTES: usize = 24;
pub const PARTY_BYTES: usize = ROWS * ROW_BYTES;
pub const TABLE_BYTES: usize = PARTIES * PARTY_BYTES;

/// The kinds of message that have a sender, by the frame's index, with their names in the lines of the program.
pub const KINDS: [(u64, &str); 3] = [(0, "BSM"), (2, "RSM"), (4, "RSI")];

/// "Received at 4,294,967,295 refuses with 21".
pub const MOST_RECEIVED: u32 = 4294967295;

pub type Id = [u8; 8];

/// "A sender is the eight bytes of id held with its first count, last count, received, missed and kind of message."
#[derive(Clone, Copy, Debug, PartialEq, Eq)]
pub struct Sender {
    pub id: Id,
    pub kind: u16,
    pub first: u8,
    pub last: u8,
    pub received: u32,
    pub missed: u64,
}

const NOBODY: Sender = Sender { id: [0; 8], kind: 0, first: 0, last: 0, received: 0, missed: 0 };

impl Sender {
    /// A sender that is held was received once at least.
    pub fn is_held(&self) -> bool {
        self.received > 0
    }

    /// "One id that sends two kinds is two senders."
    pub fn is(&self, kind: u64, id: &Id) -> bool {
        self.is_held() && u64::from(self.kind) == kind && self.id == *id
    }

    fn of_bytes(bytes: &[u8]) -> Sender {
        let part = |from: usize, count: usize| bytes[from..from + count].iter().rev().fold(0u64, |high, byte| high << 8 | u64::from(*byte));
        Sender {
            id: bytes[..8].try_into().expect("eight bytes"),
            kind: part(8, 2) as u16,
            first: bytes[10],
            last: bytes[11],
            received: part(12, 4) as u32,
            missed: part(16, 8),
        }
    }

    fn put_bytes(&self, bytes: &mut [u8]) {
        bytes[..8].copy_from_slice(&self.id);
        bytes[8..10].copy_from_slice(&self.kind.to_le_bytes());
        bytes[10..12].copy_from_slice(&[self.first, self.last]);
        bytes[12..16].copy_from_slice(&self.received.to_le_bytes());
        bytes[16..].copy_from_slice(&self.missed.to_le_bytes());
    }
}

/// What a report and a drop answer: the number, and the row, which is 0 with any number but 0.
#[derive(Clone, Copy, Debug, PartialEq, Eq)]
pub struct Answer {
    pub number: u64,
    pub row: u64,
}

fn refused(number: u64) -> Answer {
    Answer { number, row: 0 }
}

fn done(row: usize) -> Answer {
    Answer { number: 0, row: row as u64 }
}

/// What is shown of a row: 0 and the sender, or 28 or 29 and none.
pub type Shown = Result<Sender, u64>;

/// "A party number but 0 and 1 is 29, before all others."
const UNKNOWN_PARTY: u64 = 29;

/// The rows of one party. "A party's answers, refusals and printed rows depend on its own calls only": nothing here knows of another.
#[derive(Clone, Copy, Debug, PartialEq, Eq)]
pub struct Share {
    pub rows: [Sender; ROWS],
}

impl Share {
    pub fn is_full(&self) -> bool {
        self.rows.iter().all(Sender::is_held)
    }

    pub fn holds(&self, kind: u64, id: &Id) -> bool {
        self.row_of(kind, id).is_some()
    }

    fn row_of(&self, kind: u64, id: &Id) -> Option<usize> {
        self.rows.iter().position(|row| row.is(kind, id))
    }

    fn free_row(&self) -> Option<usize> {
        self.rows.iter().position(|row| !row.is_held())
    }

    /// One message of a sender. "A count above 127 is 4, before all others"; "25, after 4 and before the rest". "A new sender beyond 32 is
    /// 20, even if the other has room".
    pub fn report(&mut self, kind: u64, id: &Id, count: u8) -> Answer {
        if count > 127 {
            return refused(4);
        }
        if !has_sender(kind) {
            return refused(25);
        }
        if let Some(row) = self.row_of(kind, id) {
            return self.count_on(row, count);
        }
        match self.free_row() {
            None => refused(20),
            Some(row) => {
                self.rows[row] = Sender { id: *id, kind: kind as u16, first: count, last: count, received: 1, missed: 0 };
                done(row)
            }
        }
    }

    /// "A report of a known sender adds one to received and adds 01's loss count to missed". Of a last count that no report has, which
    /// only lent memory can hold, 01's answer is 4 and zero: zero is added.
    fn count_on(&mut self, row: usize, count: u8) -> Answer {
        let sender = &mut self.rows[row];
        if sender.received == MOST_RECEIVED {
            return refused(21);
        }
        let loss = second::missed(sender.last.into(), count.into());
        sender.missed = sender.missed.wrapping_add(loss.missed);
        sender.received += 1;
        sender.last = count;
        done(row)
    }

    /// "A sender can be dropped, and its row is used again; dropping one that isn't held is 28 and changes nothing." A kind that has no
    /// senders has none that is held.
    pub fn drop(&mut self, kind: u64, id: &Id) -> Answer {
        let held = if has_sender(kind) { self.row_of(kind, id) } else { None };
        match held {
            None => refused(28),
            Some(row) => {
                self.rows[row] = NOBODY;
                done(row)
            }
        }
    }

    /// "Row numbers are printed within the party, 0 to 31."
    pub fn row(&self, row: u64) -> Shown {
        let there = usize::try_from(row).ok().and_then(|row| self.rows.get(row));
        there.copied().filter(Sender::is_held).ok_or(28)
    }
}

/// The rows of both parties, by their numbers. "A sender may stand once for each party."
#[derive(Clone, Debug, PartialEq, Eq)]
pub struct Table {
    pub parties: [Share; PARTIES],
}

impl Table {
    pub fn empty() -> Table {
        Table { parties: [Share { rows: [NOBODY; ROWS] }; PARTIES] }
    }

    /// The table that the caller's memory holds, on a machine that stores the low byte first: any bytes are one.
    pub fn of_bytes(bytes: &[u8]) -> Table {
        let mut table = Table::empty();
        for (row, held) in table.rows_mut().zip(bytes.chunks_exact(ROW_BYTES)) {
            *row = Sender::of_bytes(held);
        }
        table
    }

    pub fn put_bytes(&self, bytes: &mut [u8]) {
        for (row, held) in self.rows().zip(bytes.chunks_exact_mut(ROW_BYTES)) {
            row.put_bytes(held);
        }
    }

    /// The rows as they lie in memory: those of party 0, and behind them those of party 1.
    pub fn rows(&self) -> impl Iterator<Item = &Sender> {
        self.parties.iter().flat_map(|share| share.rows.iter())
    }

    pub fn rows_mut(&mut self) -> impl Iterator<Item = &mut Sender> {
        self.parties.iter_mut().flat_map(|share| share.rows.iter_mut())
    }

    /// The rows of a party, where there is such a party.
    pub fn share(&self, party: u64) -> Option<&Share> {
        usize::try_from(party).ok().and_then(|party| self.parties.get(party))
    }

    fn share_mut(&mut self, party: u64) -> Option<&mut Share> {
        usize::try_from(party).ok().and_then(|party| self.parties.get_mut(party))
    }

    pub fn report(&mut self, party: u64, kind: u64, id: &Id, count: u8) -> Answer {
        self.share_mut(party).map_or(refused(UNKNOWN_PARTY), |own| own.report(kind, id, count))
    }

    pub fn drop(&mut self, party: u64, kind: u64, id: &Id) -> Answer {
        self.share_mut(party).map_or(refused(UNKNOWN_PARTY), |own| own.drop(kind, id))
    }

    pub fn row(&self, party: u64, row: u64) -> Shown {
        self.share(party).ok_or(UNKNOWN_PARTY)?.row(row)
    }
}

/// "MAP and SPAT have no sender id: a report of one, or of no known kind, is 25".
fn has_sender(kind: u64) -> bool {
    KINDS.iter().any(|(known, _)| *known == kind)
}

// ---------------------------------------------------------------------------------------------
// The losses program

/// What the losses program, which is party 0, prints for an input: a line for each record that is not counted, the held rows, and the counts.
pub fn lines(types: &Types, input: &[u8]) -> String {
    let mut table = Table::empty();
    let mut out = String::new();
    let (mut records, mut counted, mut rest) = (0u64, 0u64, input);
    while !rest.is_empty() {
        let (record, behind) = cut_off(rest);
        match record.map_or(Some("3 at bit 0".to_string()), |frame| counted_frame(types, &mut table, frame)) {
            None => counted += 1,
            Some(why) => out += &format!("record {records} refused {why}\n"),
        }
        (rest, records) = (behind, records + 1);
    }
    for (place, sender) in table.parties[LOGGER].rows.iter().enumerate().filter(|(_, sender)| sender.is_held()) {
        out += &row_line(place, sender);
    }
    out + &format!("{records} records, {counted} counted\n")
}

/// The first record's frame and what stands behind it: no frame where the record is cut.
fn cut_off(input: &[u8]) -> (Option<&[u8]>, &[u8]) {
    if input.len() < 2 {
        return (None, &[]);
    }
    let length = usize::from(input[0]) << 8 | usize::from(input[1]);
    if input.len() - 2 < length {
        return (None, &[]);
    }
    let (frame, behind) = input[2..].split_at(length);
    (Some(frame), behind)
}

/// Reports a frame to the table; where it isn't counted, what the line says behind "refused".
fn counted_frame(types: &Types, table: &mut Table, frame: &[u8]) -> Option<String> {
    // as many cells as the longest message has bits: no frame needs more
    let mut lent = vec![0; 8 * second::MOST_BYTES];
    let answer = second::read(types, 0, frame, &mut lent);
    if answer.number != 0 {
        return Some(format!("{} at bit {}", answer.number, answer.place));
    }
    let number = match sender_of(types, &lent[..answer.cells as usize]) {
        None => 25,
        Some((kind, id, count)) => table.report(LOGGER as u64, kind, &id, count).number,
    };
    if number == 0 { None } else { Some(number.to_string()) }
}

/// Kind, id and count of the frame in a sheet, by the names of the components; none where the message has no sender.
fn sender_of(types: &Types, sheet: &[i64]) -> Option<(u64, Id, u8)> {
    let frame = types.place(second::NAMED[0]).expect("the frame is named");
    let (index, message, body) = match (types.kind(frame), second::value_of(types, frame, sheet)) {
        (Kind::Choice { alternatives, .. }, Ok(Value::Choice(index, body))) => (index, alternatives[index].of, body),
        _ => unreachable!("what was read is a frame"),
    };
    if !has_sender(index as u64) {
        return None;
    }
    let named = |name| second::part(types, message, &body, name).expect("always there").1;
    let byte = |value: &Value| match value {
        Value::Number(number) => *number as u8,
        _ => unreachable!("a count and an octet are numbers"),
    };
    let id: Vec<u8> = match named("id") {
        Value::List(octets) => octets.iter().map(byte).collect(),
        _ => unreachable!("an id is a list"),
    };
    Some((index as u64, id.try_into().expect("an id has eight bytes"), byte(named("msgCnt"))))
}

fn row_line(place: usize, sender: &Sender) -> String {
    let Sender { id, kind, first, last, received, missed } = sender;
    let name = KINDS.iter().find(|(known, _)| known == &u64::from(*kind)).expect("reports have these kinds alone").1;
    let digits: String = id.iter().map(|byte| format!("{byte:02x}")).collect();
    format!("row {place} {name} {digits} first {first} last {last} received {received} missed {missed}\n")
}
