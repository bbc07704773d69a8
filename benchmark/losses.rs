//! Measures reports to a loss table: Knotsaffron's library beside the second implementation (tests/second/losses.rs), in the same rounds.
//! One party with 1 sender, and with 32: with the last row's sender always, which a report finds last; with all by chance; and with a
//! sender that is not held, for which no row is free; then both parties, with 32 senders each, by chance. The library and the second
//! implementation are first held against each other over the same reports; where they differ nothing is measured.
//! Built by benchmark/run, with the archive linked.

#[path = "../tests/second/losses.rs"]
#[allow(dead_code)]
mod losses;
#[path = "../tests/second/second.rs"]
#[allow(dead_code)]
mod second;

use losses::{Answer, Id, Table, PARTIES, ROWS, TABLE_BYTES};
use std::hint::black_box;

const ROUNDS: usize = 61;
/// The reports of a sample, and before each sample half as many without the clock.
const REPORTS: usize = 20000;
const UNCOUNTED: usize = REPORTS / 2;
const PROCESS_TIME: i32 = 2;
const NANOSECONDS_OF_A_SECOND: f64 = 1e9;

#[repr(C)]
struct Time {
    seconds: i64,
    nanoseconds: i64,
}

/// The table as the library is lent it.
#[repr(C, align(8))]
struct Lent([u8; TABLE_BYTES]);

extern "C" {
    fn knotsaffron_losses_report(table: *mut Lent, party: u64, kind: u64, id: *const u8, count: u8, answer: *mut u64);
    fn clock_gettime(clock: i32, time: *mut Time) -> i32;
}

/// A report: party, kind, id and count.
type Report = (u64, u64, Id, u8);

/// What is measured: a table to begin with, and the reports of a sample.
struct Case {
    name: &'static str,
    table: Table,
    reports: Vec<Report>,
}

/// The processor's time of this program, so that others on the machine count as little as can be.
fn now() -> f64 {
    let mut time = Time { seconds: 0, nanoseconds: 0 };
    unsafe { clock_gettime(PROCESS_TIME, &mut time) };
    NANOSECONDS_OF_A_SECOND * time.seconds as f64 + time.nanoseconds as f64
}

/// The id of a sender by its number; ids differ in their last byte, so that all eight are compared.
fn id_of(number: usize) -> Id {
    [0x4B, 0x4E, 0x4F, 0x54, 0, 0, 0, number as u8]
}

/// A table with so many senders for each party.
fn table_of(senders: usize) -> Table {
    let mut table = Table::empty();
    for (party, number) in (0..PARTIES as u64).flat_map(|party| (0..senders).map(move |number| (party, number))) {
        assert!(table.report(party, 0, &id_of(number), 0) == Answer { number: 0, row: number as u64 });
    }
    table
}

/// The reports of some parties, each of a sender by chance.
fn case(name: &'static str, senders: usize, parties: usize, mut sender: impl FnMut(u64) -> usize) -> Case {
    // the same numbers in every run
    let mut state = 1u64;
    let mut chance = || {
        state = state.wrapping_mul(6364136223846793005).wrapping_add(1442695040888963407);
        state >> 33
    };
    let reports = (0..REPORTS).map(|_| (chance() % parties as u64, 0, id_of(sender(chance())), (chance() % 128) as u8)).collect();
    Case { name, table: table_of(senders), reports }
}

fn cases() -> [Case; 5] {
    [
        case("1 sender", 1, 1, |_| 0),
        case("32 senders, the last row", ROWS, 1, |_| ROWS - 1),
        case("32 senders, rows by chance", ROWS, 1, |chance| chance as usize % ROWS),
        case("32 senders, a new one (20)", ROWS, 1, |_| ROWS),
        case("both parties, rows by chance", ROWS, PARTIES, |chance| chance as usize % ROWS),
    ]
}

/// The reports to the library's table; the answer is a sum of all answers, so that none is left out.
fn by_library(table: &mut Lent, reports: &[Report]) -> u64 {
    let mut sum = 0u64;
    for (party, kind, id, count) in reports {
        let mut answer = [0u64; 2];
        unsafe { knotsaffron_losses_report(table, *party, *kind, id.as_ptr(), *count, answer.as_mut_ptr()) };
        sum = sum.wrapping_mul(31).wrapping_add(answer[0] * ROWS as u64 + answer[1]);
    }
    sum
}

/// The same to the second implementation's. It is called as a function of its own, as the library's is.
fn by_second(table: &mut Table, reports: &[Report]) -> u64 {
    #[inline(never)]
    fn report(table: &mut Table, party: u64, kind: u64, id: &Id, count: u8) -> Answer {
        table.report(party, kind, id, count)
    }
    let mut sum = 0u64;
    for (party, kind, id, count) in reports {
        let answer = report(black_box(table), *party, *kind, id, *count);
        sum = sum.wrapping_mul(31).wrapping_add(answer.number * ROWS as u64 + answer.row);
    }
    sum
}

fn lent_of(table: &Table) -> Lent {
    let mut lent = Lent([0; TABLE_BYTES]);
    table.put_bytes(&mut lent.0);
    lent
}

fn agree(case: &Case) {
    let (mut lent, mut table) = (lent_of(&case.table), case.table.clone());
    let same_answers = by_library(&mut lent, &case.reports) == by_second(&mut table, &case.reports);
    if !same_answers || lent.0 != lent_of(&table).0 {
        println!("{}: the library and the second implementation differ", case.name);
        std::process::exit(1);
    }
}

/// The time for a report of one side, in nanoseconds.
fn sample(mut work: impl FnMut(&[Report]) -> u64, reports: &[Report]) -> f64 {
    black_box(work(&reports[..UNCOUNTED]));
    let start = now();
    black_box(work(reports));
    (now() - start) / reports.len() as f64
}

fn median(samples: &mut [f64]) -> f64 {
    samples.sort_by(f64::total_cmp);
    samples[samples.len() / 2]
}

/// The samples of a round, the sides in turn: the library's and the second implementation's.
fn measure_round(case: &Case, round: usize) -> (f64, f64) {
    let (mut lent, mut table) = (lent_of(&case.table), case.table.clone());
    let mut library = || sample(|reports| by_library(&mut lent, reports), &case.reports);
    let mut second = || sample(|reports| by_second(&mut table, reports), &case.reports);
    if round % 2 == 0 {
        let first = library();
        return (first, second());
    }
    let first = second();
    (library(), first)
}

fn main() {
    let cases = cases();
    cases.iter().for_each(agree);
    let mut samples = vec![Vec::new(); cases.len()];
    for round in 0..ROUNDS {
        for (case, found) in cases.iter().zip(&mut samples) {
            found.push(measure_round(case, round));
        }
    }
    println!("Reports to a loss table, one behind the other on one core; the ratio is Knotsaffron's time over the second implementation's");
    println!("  {:28} {:>8} {:>12} {:>8} {:>12} {:>6}", "", "ns", "a second", "second", "a second", "ratio");
    for (case, found) in cases.iter().zip(&samples) {
        let time = median(&mut found.iter().map(|(ours, _)| *ours).collect::<Vec<f64>>());
        let ratio = median(&mut found.iter().map(|(ours, second)| ours / second).collect::<Vec<f64>>());
        let rate = |time: f64| NANOSECONDS_OF_A_SECOND / time;
        println!("  {:28} {:8.1} {:12.0} {:8.1} {:12.0} {:6.2}", case.name, time, rate(time), time / ratio, rate(time / ratio), ratio);
    }
}
