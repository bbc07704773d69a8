//! The second implementation as a program: reads a batch of records from standard input and prints
//! what each gives.
//!
//! second TYPES ROWS read [CELLS]
//!                           each record is two bytes of length, high byte first, and so many bytes: the standard
//!                           input of the project's program. Prints what that program prints for it, where so many
//!                           cells are lent: 8,192 if not said.
//! second TYPES ROWS carried the same records, of which the row that the answer names and the bits that the field
//!                           lacks are printed, each 0 where there is none; the project's program prints neither.
//! second TYPES ROWS write   each record is two bytes of length, high byte first, and so many bytes: two bytes of
//!                           edition and two of type number, high byte first, then the cells, 8 bytes each, two's
//!                           complement, high byte first. Prints the message in hexadecimal, or the refusal and its cell.
//! second TYPES ROWS text    the input is a text, as the project's writing program takes it. Prints what that program
//!                           prints for it.
//! second TYPES ROWS losses  the input is records with a frame in each, as the project's losses program takes them. Prints what that
//!                           program prints for it.
//! second TYPES ROWS signals the input is pairs of sheets, as tests/signals has them. Prints number, node and phase of each.
//! second TYPES ROWS participants
//!                           the input is sheets, as tests/participants has them. Prints number and place of each.
//! second TYPES ROWS plans   the input is calls about plans, as tests/plans has them. Prints the numbers of each answer, and where a plan is
//!                           made the cells that were lent for it.
//! second TYPES ROWS lengths the input is sheets of frames, as tests/plans has them. Prints number and bytes of each as it is written.
//! second TYPES ROWS fields  prints what the program cases_fields has to print.
//! second TYPES ROWS counts  prints what the program cases_counts has to print.
//! second TYPES ROWS test    the bench cases of document 01; prints those that fail and how many there are.
//!
//! TYPES is the path of tests/asn1/types.txt, ROWS that of docs/ROWS.md. Built with rustc --edition 2021 -O -o second
//! program.rs, as tests/cases/run does.

mod bench;
mod fixed;
#[allow(dead_code)]
mod losses;
mod participants;
mod plans;
mod second;
mod signals;
mod text;

use second::{Types, WriteAnswer};
use std::io::{Read, Write};
use std::process::exit;

/// The cells that are lent if nothing else is said, and the bytes.
pub const LENT_CELLS: usize = 8192;
const LENT_BYTES: usize = second::MOST_BYTES;
/// The bytes of an edition and a type number in front of the cells.
const LABEL: usize = 4;
const USE: &str = "use: second TYPES ROWS read [CELLS]|carried|write|text|losses|signals|participants|plans|lengths|fields|counts|test";

fn main() {
    let words: Vec<String> = std::env::args().skip(1).collect();
    if words.len() != 3 && !(words.len() == 4 && words[2] == "read") {
        stop(USE);
    }
    let text = |path: &String| std::fs::read_to_string(path).unwrap_or_else(|error| stop(&format!("{path}: {error}")));
    let types = Types::parse(&text(&words[0]), &text(&words[1])).unwrap_or_else(|error| stop(&format!("{}: {error}", words[0])));
    let lent = words.get(3).map_or(LENT_CELLS, |word| word.parse().unwrap_or_else(|_| stop("CELLS is no number")));
    match words[2].as_str() {
        "read" => each_record(|record, out| print_read(&types, record, lent, out)),
        "carried" => each_record(|record, out| print_carried(&types, record, out)),
        "write" => each_record(|record, out| print_written(&types, record, out)),
        "text" => print!("{}", text::written(&types, &input())),
        "losses" => print!("{}", losses::lines(&types, &input())),
        "signals" => print!("{}", signals::lines(&types, &input())),
        "participants" => print!("{}", participants::lines(&types, &input())),
        "plans" => print!("{}", plans::lines(&types, &input())),
        "lengths" => print!("{}", plans::lengths(&types, &input())),
        "fields" => print!("{}", fixed::fields(&types)),
        "counts" => print!("{}", fixed::counts(&types)),
        "test" => {
            if !bench::run(&types) {
                exit(1);
            }
        }
        _ => stop(USE),
    }
}

fn stop(message: &str) -> ! {
    eprintln!("{message}");
    exit(2)
}

/// Standard input, whole.
fn input() -> Vec<u8> {
    let mut input = Vec::new();
    std::io::stdin().lock().read_to_end(&mut input).unwrap_or_else(|error| stop(&format!("standard input: {error}")));
    input
}

/// Takes the records from standard input, one after another.
fn each_record(mut answer: impl FnMut(&[u8], &mut dyn Write) -> std::io::Result<()>) {
    let input = input();
    let mut out = std::io::BufWriter::new(std::io::stdout().lock());
    let mut rest = &input[..];
    while !rest.is_empty() {
        if rest.len() < 2 || rest.len() - 2 < number(&rest[..2]) as usize {
            stop("standard input ends inside a record");
        }
        let (record, behind) = rest[2..].split_at(number(&rest[..2]) as usize);
        answer(record, &mut out).unwrap_or_else(|error| stop(&format!("standard output: {error}")));
        rest = behind;
    }
    out.flush().unwrap_or_else(|error| stop(&format!("standard output: {error}")));
}

/// The number that the bytes are, high byte first.
fn number(bytes: &[u8]) -> u64 {
    bytes.iter().fold(0, |high, byte| high << 8 | *byte as u64)
}

pub fn print_read(types: &Types, record: &[u8], cells: usize, out: &mut dyn Write) -> std::io::Result<()> {
    if record.len() < 2 {
        return writeln!(out, "refused 2 at bit 0");
    }
    let mut lent = vec![0; cells];
    let answer = second::read(types, number(&record[..2]), &record[2..], &mut lent);
    if answer.number != 0 {
        return writeln!(out, "refused {} at bit {}", answer.number, answer.place);
    }
    writeln!(out, "edition {}", answer.edition)?;
    writeln!(out, "accepted {} bits {} cells", answer.bits, answer.cells)?;
    for cell in &lent[..answer.cells as usize] {
        writeln!(out, "{cell}")?;
    }
    Ok(())
}

fn print_carried(types: &Types, record: &[u8], out: &mut dyn Write) -> std::io::Result<()> {
    if record.len() < 2 {
        return writeln!(out, "0 0");
    }
    let answer = second::read(types, number(&record[..2]), &record[2..], &mut vec![0; LENT_CELLS]);
    writeln!(out, "{} {}", answer.row, answer.lacking)
}

pub fn print_written(types: &Types, record: &[u8], out: &mut dyn Write) -> std::io::Result<()> {
    if record.len() < LABEL {
        return writeln!(out, "refused 2 at cell 0");
    }
    let (label, cells) = record.split_at(LABEL);
    // fewer than eight bytes behind the last cell are none
    let sheet: Vec<i64> = cells.chunks_exact(8).map(|cell| number(cell) as i64).collect();
    out.write_all(message_text(types, number(&label[..2]), number(&label[2..]), &sheet).as_bytes())
}

/// What the writing program prints for a sheet: its message in hexadecimal, or the refusal.
pub fn message_text(types: &Types, edition: u64, type_number: u64, sheet: &[i64]) -> String {
    let mut lent = vec![0; LENT_BYTES];
    let WriteAnswer { number, place, bytes, .. } = second::write(types, edition, type_number, sheet, &mut lent);
    if number != 0 {
        return format!("refused {number} at cell {place}\n");
    }
    let message: String = lent[..bytes as usize].iter().map(|byte| format!("{byte:02x}")).collect();
    message + "\n"
}
