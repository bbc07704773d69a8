//! Histories of calls of both parties by chance over a loss table in guarded memory, held against the second implementation: after each
//! call the answer, all bytes of the table, the id that was lent and the memory beside them are compared. A history begins with the empty
//! table, or with wild bytes, of which any are a table: with numbers near their ends, a sender that stands twice, last counts above 127.
//! Besides, without the second implementation: no call changes the other party's bytes; a call gives the same, and makes the same of its own
//! party's bytes, where the other's are wild; and in a history from the empty table the law of the ring holds.

use crate::guard::{Guarded, Lent};
use crate::losses::{self, Answer, Id, Sender, Share, Table};
use crate::making::Chance;
use crate::occasions::Occasions;
use crate::Bench;

extern "C" {
    fn knotsaffron_losses_start(table: *mut u8);
    fn knotsaffron_losses_report(table: *mut u8, party: u64, kind: u64, id: *const u8, count: u8, answer: *mut u64);
    fn knotsaffron_losses_drop(table: *mut u8, party: u64, kind: u64, id: *const u8, answer: *mut u64);
    fn knotsaffron_losses_row(table: *const u8, party: u64, row: u64, id: *mut u8, answer: *mut u64);
}

/// The functions with the numbers that each has to give.
const NUMBERS: [(&str, &[u64]); 3] =
    [("losses_report", &[0, 4, 20, 21, 25, 29]), ("losses_drop", &[0, 28, 29]), ("losses_row", &[0, 28, 29])];
/// Of so many calls of a function one has to give each of its numbers, and of so many calls of all one has to be each occasion.
const CALLS_FOR_A_NUMBER: u64 = 200;
const CALLS_FOR_AN_OCCASION: u64 = 2000;
/// Fewer calls say nothing about how often something comes.
const TELLING_CALLS: u64 = 20000;

/// What is lent to the calls over a table, and how often each occasion came.
pub struct Histories {
    tables: Guarded,
    ids: Guarded,
    occasions: Occasions,
}

impl Histories {
    pub fn new() -> Histories {
        Histories { tables: Guarded::new(1), ids: Guarded::new(1), occasions: Occasions::new() }
    }
}

/// A history at work: the table that is lent, what it has to hold, wild rows to stand beside a party's in place of the other's, the senders
/// that the calls are about, and of a hundred calls of the two parties how many are the display's.
struct History {
    lent: Lent,
    table: Table,
    beside: Table,
    senders: Vec<(u64, Id)>,
    of_display: u64,
}

/// The bytes of a table, and the same where a caller's table may lie.
type Bytes = [u8; losses::TABLE_BYTES];
#[repr(C, align(8))]
struct Aligned(Bytes);

/// The bytes of a party's rows; of a party that there is not, none.
fn own_bytes(bytes: &[u8], party: u64) -> &[u8] {
    bytes.chunks_exact(losses::PARTY_BYTES).nth(party.min(losses::PARTIES as u64) as usize).unwrap_or(&[])
}

/// Whether the bytes of all parties but this one are the same.
fn others_same(before: &[u8], after: &[u8], party: u64) -> bool {
    (0..losses::PARTIES as u64).all(|other| other == party || own_bytes(before, other) == own_bytes(after, other))
}

/// One of the two parties, or a number that is none, also where its lowest bytes are one.
fn some_party(history: &History, chance: &mut Chance) -> u64 {
    let any = chance.number();
    if chance.holds(6) {
        return chance.one_of(&[2, 3, 255, 256, 257, 1 << 32, (1 << 32) + 1, 1 << 63, (1 << 63) + 1, u64::MAX, any | 2]);
    }
    chance.holds(history.of_display) as u64
}

/// Which of the kinds that have senders, or any other number.
fn some_kind(chance: &mut Chance) -> u64 {
    let any = chance.number();
    if chance.holds(50) {
        return chance.one_of(&[0, 2, 4]);
    }
    chance.one_of(&[1, 3, 5, 6, 255, 256, 258, 65535, 65536, 65538, 1 << 32, (1 << 32) + 4, 1 << 63, u64::MAX, any])
}

/// Ids that are alike but for one byte, most often, so that kinds and bytes have to tell them apart.
fn some_id(like: &Id, chance: &mut Chance) -> Id {
    let any = chance.number();
    if chance.holds(10) {
        return chance.one_of(&[[0; 8], [255; 8], any.to_be_bytes()]);
    }
    let mut id = *like;
    id[chance.below(8) as usize] = chance.one_of(&[0, 1, 127, 128, 255, any as u8]);
    id
}

/// The sender that a call is about: one of the history's, or what a row of either party has, which may be of a kind without senders.
fn some_sender(history: &History, chance: &mut Chance) -> (u64, Id) {
    let share = chance.one_of(&history.table.parties);
    let row = chance.one_of(&share.rows);
    let (kind, id) = if chance.holds(10) { (row.kind.into(), row.id) } else { chance.one_of(&history.senders) };
    (if chance.holds(90) { kind } else { some_kind(chance) }, id)
}

fn some_senders(chance: &mut Chance) -> Vec<(u64, Id)> {
    let like = chance.number().to_be_bytes();
    let count = chance.one_of(&[1, 3, 10, 36, 40, 50]);
    (0..count).map(|_| (chance.one_of(&[0, 2, 4]), some_id(&like, chance))).collect()
}

/// A row of a wild table: any bytes, one of the history's senders near an end of its numbers, or a free one with bytes left in it.
fn wild_row(senders: &[(u64, Id)], chance: &mut Chance) -> Sender {
    let (kind, id) = chance.one_of(senders);
    let (any, other) = (chance.number(), chance.number());
    let wild_kind = chance.one_of(&[kind as u16, kind as u16, kind as u16, kind as u16, 1, 3, 256, any as u16]);
    let (few, more) = (chance.below(4) as u32, any as u32);
    let received = chance.one_of(&[0, 1, 2, few, more, losses::MOST_RECEIVED - 1, losses::MOST_RECEIVED, losses::MOST_RECEIVED]);
    let near = u64::MAX - chance.below(200);
    Sender {
        id: if chance.holds(80) { id } else { other.to_be_bytes() },
        kind: wild_kind,
        first: any as u8,
        last: if chance.holds(70) { chance.below(128) as u8 } else { chance.one_of(&[128, 129, 255, other as u8]) },
        received,
        missed: chance.one_of(&[0, 5, near, near, u64::MAX, other]),
    }
}

fn wild_table(senders: &[(u64, Id)], chance: &mut Chance) -> Table {
    let mut bytes = [0; losses::TABLE_BYTES];
    bytes.fill_with(|| chance.number() as u8);
    let mut table = Table::of_bytes(&bytes);
    for share in table.parties.iter_mut() {
        let (planted, free) = (chance.one_of(&[30, 95]), chance.one_of(&[0, 0, 20]));
        for row in share.rows.iter_mut() {
            if chance.holds(planted) {
                *row = wild_row(senders, chance);
            }
            if chance.holds(free) {
                row.received = 0;
            } else if row.received == 0 && free == 0 {
                // no row is free
                row.received = 7;
            }
        }
    }
    table
}

/// A count: the next one, the same again, any, or one outside.
fn some_count(last: u8, chance: &mut Chance) -> u8 {
    let any = chance.number() as u8;
    match chance.below(20) {
        0..=8 => last.wrapping_add(1) % 128,
        9..=11 => last % 128,
        12 => chance.one_of(&[0, 126, 127]),
        13 => chance.one_of(&[128, 129, 255, any | 128]),
        _ => any % 128,
    }
}

/// A history from its first call to its last, each compared.
pub fn run(bench: &mut Bench, chance: &mut Chance) {
    let lent = bench.histories.tables.lend(losses::TABLE_BYTES, chance.holds(50), 0x96);
    let senders = some_senders(chance);
    let (wild, beside) = (wild_table(&senders, chance), wild_table(&senders, chance));
    let mut history = History { lent, table: Table::empty(), beside, senders, of_display: chance.one_of(&[10, 50, 50, 90]) };
    wild.put_bytes(history.lent.bytes());
    let is_wild = chance.holds(40);
    if is_wild {
        history.table = wild;
    } else {
        unsafe { knotsaffron_losses_start(history.lent.pointer()) };
        note(bench, &mut history, "losses_start", 0, true, &|| "a table that is started".to_string());
    }
    let calls = chance.one_of(&[3, 20, 60, 120, 250]);
    for _ in 0..calls {
        match chance.below(20) {
            0..=14 => report(bench, &mut history, chance),
            15..=16 => drop_one(bench, &mut history, chance),
            _ => show_row(bench, &mut history, chance),
        }
    }
    if !is_wild {
        judge_ring(bench, &mut history);
    }
}

/// Counts a call, which is right where `right` holds, the table is as it has to be and nothing beside it is touched.
fn note(bench: &mut Bench, history: &mut History, function: &'static str, number: u64, right: bool, told: &dyn Fn() -> String) {
    let bytes = bytes_of(&history.table);
    let same = history.lent.bytes() == bytes;
    let kept = history.lent.canaries_live();
    bench.note(function, number, right && same && kept, || {
        format!("{}; the table is {}", told(), if same { "right" } else { "another" })
    });
    // a difference is told once, and not again with every call behind it
    history.table.put_bytes(history.lent.bytes());
}

fn bytes_of(table: &Table) -> Bytes {
    let mut bytes = [0; losses::TABLE_BYTES];
    table.put_bytes(&mut bytes);
    bytes
}

fn see(bench: &mut Bench, seen: &[(&'static str, bool)]) {
    bench.histories.occasions.see(seen);
}

/// A report or a drop: its party, kind, id and count, of which a drop has none.
struct Change {
    party: u64,
    kind: u64,
    id: Id,
    count: Option<u8>,
}

impl Change {
    fn call(&self, table: *mut u8, id: *const u8, answer: *mut u64) {
        match self.count {
            Some(count) => unsafe { knotsaffron_losses_report(table, self.party, self.kind, id, count, answer) },
            None => unsafe { knotsaffron_losses_drop(table, self.party, self.kind, id, answer) },
        }
    }

    /// Whether the call gives this answer, and makes the same of its own party's bytes, also where the other's rows are those of `beside`.
    fn is_apart(&self, before: &Bytes, after: &[u8], told: &[i64], beside: &Table) -> bool {
        let mut mixed = beside.clone();
        if let (Some(own), Some(share)) = (Table::of_bytes(before).share(self.party), mixed.parties.get_mut(self.party as usize)) {
            *share = *own;
        }
        let (start, mut lent, mut answer) = (bytes_of(&mixed), Aligned(bytes_of(&mixed)), [u64::MAX; 2]);
        self.call(lent.0.as_mut_ptr(), self.id.as_ptr(), answer.as_mut_ptr());
        let own_same = own_bytes(&lent.0, self.party) == own_bytes(after, self.party);
        told == [answer[0] as i64, answer[1] as i64] && own_same && others_same(&start, &lent.0, self.party)
    }
}

/// Makes a call, whose id is only read, and compares it with what is wanted and what `history.table` is by now.
fn make(bench: &mut Bench, history: &mut History, function: &'static str, change: Change, wanted: Answer, chance: &mut Chance) {
    let mut before = [0; losses::TABLE_BYTES];
    before.copy_from_slice(history.lent.bytes());
    let mut lent_id = bench.histories.ids.lend(8, chance.holds(50), 0x3C);
    lent_id.bytes().copy_from_slice(&change.id);
    let mut answer = bench.lend_answer(2, chance);
    change.call(history.lent.pointer(), lent_id.pointer(), answer.pointer() as *mut u64);
    let kept = lent_id.bytes() == change.id && lent_id.canaries_live() && answer.canaries_live();
    let told = answer.cells().to_vec();
    let others_kept = others_same(&before, history.lent.bytes(), change.party);
    let apart = change.is_apart(&before, history.lent.bytes(), &told, &history.beside);
    let right = kept && others_kept && apart && told == [wanted.number as i64, wanted.row as i64];
    let Change { party, kind, id, count } = change;
    note(bench, history, function, wanted.number, right, &|| {
        let beside = if others_kept && apart { "apart" } else { "not apart" };
        format!("party {party}, kind {kind}, {id:?}, count {count:?}: {told:?}, wanted {wanted:?}; the parties are {beside}")
    });
}

/// The rows of a party and those of the other, where there is such a party.
fn shares_of(table: &Table, party: u64) -> Option<(&Share, &Share)> {
    table.share(party).map(|own| (own, &table.parties[1 - party as usize]))
}

fn report(bench: &mut Bench, history: &mut History, chance: &mut Chance) {
    let (party, (kind, id)) = (some_party(history, chance), some_sender(history, chance));
    let known = history.table.share(party).and_then(|own| own.rows.iter().find(|row| row.is(kind, &id)).copied());
    let count = some_count(known.map_or(64, |sender| sender.last), chance);
    let before = history.table.clone();
    let wanted = history.table.report(party, kind, &id, count);
    let own_after = history.table.share(party).copied();
    match (shares_of(&before, party), own_after) {
        (Some((own, other)), Some(after)) => {
            see_report(bench, own, &after, (kind, id, count), known, wanted);
            see_report_beside(bench, own, other, (kind, id), known.is_none(), wanted);
        }
        _ => see_stranger(bench, &before, (kind, id), Some(count)),
    }
    make(bench, history, "losses_report", Change { party, kind, id, count: Some(count) }, wanted, chance);
}

/// The occasions of a report or a drop of a party that there is not.
fn see_stranger(bench: &mut Bench, table: &Table, (kind, id): (u64, Id), count: Option<u8>) {
    see(bench, &[
        ("29 before 4", count.is_some_and(|count| count > 127)),
        ("29 before 25", count.is_some() && losses::KINDS.iter().all(|(known, _)| *known != kind)),
        ("29 and no free row", count.is_some() && table.parties.iter().any(Share::is_full)),
        ("29 before 28", count.is_none() && table.parties.iter().all(|share| !share.holds(kind, &id))),
        ("29 for a sender that is held", table.parties.iter().any(|share| share.holds(kind, &id))),
    ]);
}

/// The occasions of a report, from the rows of its party and of the other before it.
fn see_report_beside(bench: &mut Bench, own: &Share, other: &Share, (kind, id): (u64, Id), is_new: bool, wanted: Answer) {
    let (entered, elsewhere) = (wanted.number == 0 && is_new, other.holds(kind, &id));
    let at = other.rows.iter().position(|row| row.is(kind, &id));
    let others_differ = at.is_some_and(|row| own.rows[wanted.row as usize].received != other.rows[row].received);
    let counts_on = at.is_some_and(|row| other.rows[row].received < losses::MOST_RECEIVED);
    see(bench, &[
        ("20 while the other has room", wanted.number == 20 && !other.is_full()),
        ("20 while the other has none", wanted.number == 20 && other.is_full()),
        ("20 for a sender that the other holds", wanted.number == 20 && elsewhere),
        ("a new sender while the other has no room", entered && other.is_full()),
        ("a new sender that the other holds", entered && elsewhere),
        ("a known sender that the other holds with other numbers", wanted.number == 0 && !is_new && others_differ),
        ("a sender of both in different rows", wanted.number == 0 && at.is_some_and(|row| row as u64 != wanted.row)),
        ("21 for a sender that the other counts on", wanted.number == 21 && counts_on),
    ]);
}

/// The occasions of a report, from the rows of its party before and after it.
fn see_report(bench: &mut Bench, before: &Share, after: &Share, (kind, id, count): (u64, Id, u8), known: Option<Sender>, wanted: Answer) {
    let (entered, counted) = (wanted.number == 0 && known.is_none(), wanted.number == 0 && known.is_some());
    let row = &after.rows[wanted.row as usize];
    let old = known.unwrap_or(*row);
    let full = before.is_full();
    let here: Vec<usize> = (0..losses::ROWS).filter(|row| before.rows[*row].is(kind, &id)).collect();
    let held_above = before.rows[wanted.row as usize..].iter().any(Sender::is_held);
    let left_over = before.rows.iter().any(|row| !row.is_held() && row.id == id && u64::from(row.kind) == kind);
    let free_below = here.first().map_or(false, |row| before.rows[..*row].iter().any(|row| !row.is_held()));
    see(bench, &[
        ("a new sender", entered),
        ("a known sender", counted),
        ("a new sender below a held row", entered && held_above),
        ("a known sender above a free row", counted && free_below),
        ("a known sender in a full table", counted && full),
        ("a second kind of an id", entered && before.rows.iter().any(|row| row.is_held() && row.id == id)),
        ("equal counts", counted && count == old.last),
        ("a count that goes round", counted && count < old.last && old.last < 128),
        ("4 before 25", wanted.number == 4 && losses::KINDS.iter().all(|(known, _)| *known != kind)),
        ("4 in a full table", wanted.number == 4 && full && known.is_none()),
        ("25 in a full table", wanted.number == 25 && full),
        ("a last count above 127", counted && old.last > 127),
        ("missed past the end of 64 bits", counted && row.missed < old.missed),
        ("a sender that stands twice", counted && here.len() > 1),
        ("a free row with the sender's id and kind", entered && left_over),
    ]);
}

fn drop_one(bench: &mut Bench, history: &mut History, chance: &mut Chance) {
    let (party, (kind, id)) = (some_party(history, chance), some_sender(history, chance));
    let like = some_id(&id, chance);
    let id = if chance.holds(80) { id } else { like };
    let before = history.table.clone();
    let wanted = history.table.drop(party, kind, &id);
    if let Some((own, other)) = shares_of(&before, party) {
        let held_so = own.rows.iter().any(|row| row.is_held() && row.id == id && u64::from(row.kind) == kind % 65536);
        let elsewhere = other.holds(kind, &id) && losses::KINDS.iter().any(|(known, _)| *known == kind);
        see(bench, &[
            ("a drop", wanted.number == 0),
            ("a drop of a kind without senders that a wild row has", wanted.number == 28 && held_so),
            ("a drop of a sender of both", wanted.number == 0 && elsewhere),
            ("28 for a sender that the other alone holds", wanted.number == 28 && elsewhere),
        ]);
    } else {
        see_stranger(bench, &before, (kind, id), None);
    }
    make(bench, history, "losses_drop", Change { party, kind, id, count: None }, wanted, chance);
}

fn show_row(bench: &mut Bench, history: &mut History, chance: &mut Chance) {
    let (party, any, rows) = (some_party(history, chance), chance.number(), losses::ROWS as u64);
    let far = [rows - 1, rows, 2 * rows - 1, 2 * rows, 128, 256, 1 << 32, 1 << 63, u64::MAX, any];
    let row = if chance.holds(80) { chance.below(rows) } else if chance.holds(50) { chance.below(2 * rows) } else { chance.one_of(&far) };
    let shown = history.table.row(party, row);
    see_row(bench, &history.table, party, row);
    let mut id = bench.histories.ids.lend(8, chance.holds(50), 0x3C);
    id.bytes().copy_from_slice(&any.to_le_bytes());
    let mut answer = bench.lend_answer(6, chance);
    unsafe { knotsaffron_losses_row(history.lent.pointer(), party, row, id.pointer(), answer.pointer() as *mut u64) };
    let (number, wanted, wanted_id) = match shown {
        Ok(s) => (0, [0, s.kind.into(), s.first.into(), s.last.into(), s.received.into(), s.missed as i64], s.id),
        Err(number) => (number, [number as i64, 0, 0, 0, 0, 0], any.to_le_bytes()),
    };
    let right = id.bytes() == wanted_id && answer.cells() == wanted && id.canaries_live() && answer.canaries_live();
    let told = answer.cells().to_vec();
    note(bench, history, "losses_row", number, right, &|| format!("party {party}, row {row}: {told:?}, wanted {wanted:?}"));
}

/// The occasions of a look at a row.
fn see_row(bench: &mut Bench, table: &Table, party: u64, row: u64) {
    let there = row < losses::ROWS as u64;
    let Some((own, other)) = shares_of(table, party) else {
        let held = (0..losses::PARTIES as u64).any(|party| table.row(party, row).is_ok());
        return see(bench, &[("29 for a row that is not there", !there), ("29 for a row that is held", held)]);
    };
    let (mine, theirs, beyond) = (own.row(row), other.row(row), row.checked_sub(losses::ROWS as u64));
    see(bench, &[
        ("a row that is not there", !there),
        ("a free row with bytes left in it", there && mine.is_err() && own.rows[row as usize].missed > 0),
        ("a row where the other holds another sender", mine.is_ok() && theirs.is_ok() && mine != theirs),
        ("a free row where the other holds a sender", there && mine.is_err() && theirs.is_ok()),
        ("a row beyond a party's that the whole table would have", beyond.is_some_and(|row| table.row(1, row).is_ok())),
    ]);
}

/// "Received minus 1 plus missed agrees with last minus first round the ring of 128", by the library's own answers.
fn judge_ring(bench: &mut Bench, history: &mut History) {
    let law = (0..losses::PARTIES * losses::ROWS).all(|place| {
        let (party, row) = (place / losses::ROWS, place % losses::ROWS);
        let (mut id, mut answer) = ([0u8; 8], [0u64; 6]);
        unsafe { knotsaffron_losses_row(history.lent.pointer(), party as u64, row as u64, id.as_mut_ptr(), answer.as_mut_ptr()) };
        let [number, _, first, last, received, missed] = answer;
        number != 0 || received.wrapping_sub(1).wrapping_add(missed) % 128 == last.wrapping_sub(first) % 128
    });
    note(bench, history, "losses_ring", 0, law, &|| "received minus 1 plus missed, and last minus first".to_string());
}

pub fn print_occasions(bench: &Bench) {
    bench.histories.occasions.print("losses");
}

/// Prints which numbers and occasions came too seldom; the answer is how many.
pub fn print_seldom(bench: &Bench) -> u64 {
    let all: u64 = NUMBERS.iter().map(|(function, _)| bench.inputs_of(function)).sum();
    if all < TELLING_CALLS {
        return 0;
    }
    let mut seldom = bench.histories.occasions.seldom(all, CALLS_FOR_AN_OCCASION);
    for (function, numbers) in NUMBERS {
        seldom.extend(bench.seldom_numbers(function, numbers, CALLS_FOR_A_NUMBER).into_iter().map(|what| format!("{function} with {what}")));
    }
    for what in &seldom {
        println!("losses: too seldom in {all} calls: {what}");
    }
    seldom.len() as u64
}
