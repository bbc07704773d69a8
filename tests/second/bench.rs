//! The bench cases of document 01, with the numbers and rows of document 02 (A2), its positions (A3), the bits that a short field
//! lacks (A6) and the edition (A11), and a few more of its sentences, run against the second implementation. Each case that fails
//! is printed with what was wanted and what was given.

use crate::second::*;
use crate::{print_read, print_written, text, LENT_CELLS};
use std::fmt::Debug;

struct Bench {
    run: usize,
    failed: usize,
}

impl Bench {
    fn same<T: PartialEq + Debug>(&mut self, name: &str, wanted: T, given: T) {
        self.run += 1;
        if wanted != given {
            self.failed += 1;
            println!("FAILED: {name}\n  wanted {wanted:?}\n  given  {given:?}");
        }
    }
}

/// Runs every case; true if none fails.
pub fn run(types: &Types) -> bool {
    let mut bench = Bench { run: 0, failed: 0 };
    rows(&mut bench);
    single_types(&mut bench, types);
    short_fields(&mut bench, types);
    frame(&mut bench, types);
    description(&mut bench, types);
    position_offset(&mut bench, types);
    writing(&mut bench, types);
    editions(&mut bench, types);
    resolving(&mut bench, types);
    round_the_ring(&mut bench, types);
    past_the_poles(&mut bench, types);
    no_information(&mut bench, types);
    no_information_in_form_seven(&mut bench, types);
    missing(&mut bench);
    sending_rules(&mut bench, types);
    program(&mut bench, types);
    texts(&mut bench, types);
    println!("{} tests, {} fail", bench.run, bench.failed);
    bench.failed == 0
}

fn place(types: &Types, name: &str) -> usize {
    types.place(name).expect("a type of this name")
}

/// A value of any type as its bits, written 0 and 1.
fn bits_of(types: &Types, name: &str, sheet: &[i64]) -> String {
    let of = place(types, name);
    let value = value_of(types, of, sheet).unwrap_or_else(|at| panic!("cell {at} is no value of {name}"));
    let mut bits = Vec::new();
    put_value(types, of, &value, &mut bits);
    bits.iter().map(|bit| if *bit { '1' } else { '0' }).collect()
}

/// Bits written 0 and 1 as bytes, with zero bits to the next whole byte.
fn bytes_of(bits: &str) -> Vec<u8> {
    bits.as_bytes().chunks(8).map(|byte| (0..8).fold(0, |high, place| high << 1 | (byte.get(place) == Some(&b'1')) as u8)).collect()
}

/// Hexadecimal digits as bits written 0 and 1.
fn bits_of_hex(digits: &str) -> String {
    digits.chars().map(|digit| format!("{:04b}", digit.to_digit(16).expect("a hexadecimal digit"))).collect()
}

/// What reading a value of any type gives from these bits: its cells and the place after it, or the refusal's number, place, row
/// and lacking bits.
fn given(types: &Types, name: &str, bits: &str) -> Result<(Vec<i64>, usize), (u64, usize, u64, usize)> {
    let tuple = |refusal: Refusal| (refusal.number, refusal.place, refusal.row, refusal.lacking);
    read_value(types, place(types, name), &bytes_of(bits), 0).map_err(tuple)
}

fn both_ways(bench: &mut Bench, types: &Types, name: &str, value: i64, bits: &str) {
    bench.same(&format!("{name} {value} written"), bits.to_string(), bits_of(types, name, &[value]));
    bench.same(&format!("{name} {value} read"), Ok((vec![value], bits.len())), given(types, name, bits));
}

/// How the page of the rows is understood: on it a component has a row of its own, before or behind that of its type.
fn rows(bench: &mut Bench) {
    let text = "list Description.a closed 1 2 PositionOffsetLLV\nsequence Description closed 1\n  component a Description.a mandatory\n\
                enumerated MessageFrame extensible 1\n  item 0 x\ninteger PositionOffsetLLV 0 1\n";
    let page = "| Row | Name | Section | Kind | Values | Bits | A code outside |\n|---|---|---|---|---|---|---|\n\
                | 7 | PositionOffsetLLV | 1 | whole number | 0 to 1 | 1 | *never* |\n| 8 | type of Description.a | 2 | list | 1 to 2 | 1 | *never* |\n\
                | 9 | Description.a |  | component |  |  | row 8 |\n| 10 | Description | 2 | sequence | 1 components |  | *no field* |\n\
                | 11 | MessageFrame | 3 | enumeration, extensible | index 0 to 0 | 0 | *no field* |\n";
    let found = |page: &str| {
        let types = Types::parse(text, page)?;
        Ok(["PositionOffsetLLV", "Description.a", "Description", "MessageFrame"].map(|name| types.row(place(&types, name))))
    };
    bench.same("rows by name", Ok([7, 8, 10, 11]), found(page));
    for (what, gone, instead) in [
        ("no row for a type", "| 11 | MessageFrame |", "| 11 | Frame |"),
        ("only the row of a component", "type of Description.a", "type of Description.b"),
        ("the row of another kind", "enumeration, extensible", "choice, extensible"),
        ("two rows of a name", "| 10 | Description |", "| 12 | PositionOffsetLLV | 1 | whole number | | | |\n| 10 | Description |"),
    ] {
        let given: Result<[u64; 4], String> = found(&page.replace(gone, instead));
        bench.same(what, true, given.is_err());
    }
}

// The rows are written as numbers below, from docs/ROWS.md, so that how the page itself is understood is tried too.
fn single_types(bench: &mut Bench, types: &Types) {
    both_ways(bench, types, "MinuteOfTheYear", 527040, &bits_of_hex("80AC0"));
    bench.same("MinuteOfTheYear takes 20 bits", 20, bits_of(types, "MinuteOfTheYear", &[0]).len());
    bench.same("MinuteOfTheYear code 80AC1", Err((41, 0, 46, 0)), given(types, "MinuteOfTheYear", &bits_of_hex("80AC1")));
    both_ways(bench, types, "Longitude", -1799999999, &"0".repeat(32));
    both_ways(bench, types, "Longitude", 0, &bits_of_hex("6B49D1FF"));
    both_ways(bench, types, "Longitude", 1800000001, &bits_of_hex("D693A400"));
    bench.same("Longitude code D693A401", Err((41, 0, 45, 0)), given(types, "Longitude", &bits_of_hex("D693A401")));
    // reading and writing "still carry the two special numbers unchanged" (document 02, A3); of the hexadecimal digits the 31 lower bits
    both_ways(bench, types, "Latitude", 900000000, &bits_of_hex("6B49D200")[1..]);
    both_ways(bench, types, "Latitude", 900000001, &bits_of_hex("6B49D201")[1..]);
    both_ways(bench, types, "OffsetLL-B12", -2048, "000000000000");
    both_ways(bench, types, "OffsetLL-B12", 0, "100000000000");
    let protected_green = match types.kind(place(types, "LightState")) {
        Kind::Enumerated { items, .. } => items.iter().position(|item| item == "protected-green"),
        _ => None,
    };
    both_ways(bench, types, "LightState", protected_green.expect("an item of this name") as i64, "00110");
    bench.same("LightState 01001", Err((42, 1, 44, 0)), given(types, "LightState", "01001"));
    for bits in ["10000", "10110", "11111"] {
        bench.same("LightState, first bit 1", Err((5, 0, 0, 0)), given(types, "LightState", bits));
    }
    // a field not wholly there is short before it is judged
    bench.same("MinuteOfTheYear, two bytes of ones", Err((3, 0, 0, 4)), given(types, "MinuteOfTheYear", &bits_of_hex("FFFF")));
    bench.same("MsgCount from bit 1 of a byte", Ok((vec![127], 8)), read_value(types, place(types, "MsgCount"), &[0x7F], 1));
    for (span, bits) in [(0, 0), (1, 1), (2, 2), (3, 2), (4, 3), (255, 8), (256, 9), (527040, 20), (u32::MAX as u64, 32)] {
        bench.same(&format!("bits for a span of {span}"), bits, width(span));
    }
}

/// What a field lacks that isn't wholly there: its width less the bits from its place to the last one, counted by hand.
fn short_fields(bench: &mut Bench, types: &Types) {
    for (name, bytes, from, at, lacking) in [
        // 20 bits
        ("MinuteOfTheYear", &[0x80, 0xAC][..], 0, 0, 4),
        ("MinuteOfTheYear", &[0x80], 0, 0, 12),
        ("MinuteOfTheYear", &[0xFF, 0xFF], 6, 6, 10),
        ("MinuteOfTheYear", &[0x80, 0xAC, 0x00], 5, 5, 1),
        // 32 bits, of which none are there, or one, or all but one
        ("Longitude", &[], 0, 0, 32),
        ("Longitude", &[0x6B], 7, 7, 31),
        ("Longitude", &[0x6B, 0x49, 0xD1, 0xFF], 1, 1, 1),
        // an extension bit, and behind it an index of 4 bits
        ("LightState", &[], 0, 0, 1),
        ("LightState", &[0x00], 7, 8, 4),
        ("LightState", &[0x00], 6, 7, 3),
        ("LightState", &[0x00], 4, 5, 1),
        // 7 bits, from places at and behind the last bit
        ("MsgCount", &[0x00], 4, 4, 3),
        ("MsgCount", &[0x00], 8, 8, 7),
        ("MsgCount", &[0x00], 9, 9, 7),
        ("MsgCount", &[0x00], 100, 100, 7),
        ("MsgCount", &[0x00], usize::MAX, usize::MAX, 7),
    ] {
        let title = format!("{name} from bit {from} of {} bytes", bytes.len());
        bench.same(&title, Err(Refusal::short(at, lacking)), read_value(types, place(types, name), bytes, from));
    }
}

/// What reading a whole message gives: the answer and the lent cells afterwards.
fn reads(types: &Types, type_number: u64, bytes: &[u8], lent: usize) -> (ReadAnswer, Vec<i64>) {
    // a number that no cell of these cases has shows which cells were touched
    let mut sheet = vec![-77; lent];
    let answer = read(types, type_number, bytes, &mut sheet);
    (answer, sheet)
}

fn refused(bench: &mut Bench, types: &Types, name: &str, type_number: u64, bytes: &[u8], number: u64, place: u64) {
    outside(bench, types, name, type_number, bytes, (number, place, 0));
}

/// The same with a number, place and row of its own.
fn outside(bench: &mut Bench, types: &Types, name: &str, type_number: u64, bytes: &[u8], (number, place, row): (u64, u64, u64)) {
    let wanted = (ReadAnswer { number, place, bits: 0, cells: 0, row, lacking: 0, edition: 1, type_number }, vec![-77; 9000]);
    bench.same(name, wanted, reads(types, type_number, bytes, 9000));
}

/// The same with number 3: the field's place, and how many of its bits are not there.
fn short(bench: &mut Bench, types: &Types, name: &str, type_number: u64, bytes: &[u8], (place, lacking): (u64, u64)) {
    let wanted = (ReadAnswer { number: 3, place, bits: 0, cells: 0, row: 0, lacking, edition: 1, type_number }, vec![-77; 9000]);
    bench.same(name, wanted, reads(types, type_number, bytes, 9000));
}

fn accepted(bench: &mut Bench, types: &Types, name: &str, type_number: u64, bytes: &[u8], bits: u64, cells: &[i64]) {
    let mut sheet = cells.to_vec();
    sheet.resize(cells.len() + 2, -77);
    let answer = ReadAnswer { number: 0, place: 0, bits, cells: cells.len() as u64, row: 0, lacking: 0, edition: 1, type_number };
    bench.same(&format!("{name}, read"), (answer, sheet), reads(types, type_number, bytes, cells.len() + 2));
    let exact = (answer, cells.to_vec());
    bench.same(&format!("{name}, read with the cells lent that it needs"), exact, reads(types, type_number, bytes, cells.len()));
    let mut message = bytes.to_vec();
    message.resize(bytes.len() + 2, 0xEE);
    let wanted = (WriteAnswer { number: 0, place: 0, bits, bytes: bytes.len() as u64 }, message);
    bench.same(&format!("{name}, written"), wanted, writes(types, (1, type_number), cells, bytes.len() + 2));
}

fn frame(bench: &mut Bench, types: &Types) {
    outside(bench, types, "frame, byte 50", 0, &[0x50], (43, 1, 413));
    refused(bench, types, "frame, byte 80", 0, &[0x80], 5, 0);
    short(bench, types, "frame, no bytes", 0, &[], (0, 1));
    refused(bench, types, "frame, 2,049 bytes", 0, &[0; 2049], 1, 0);
    refused(bench, types, "type number 3", 3, &[], 2, 0);
    refused(bench, types, "type number 3, 2,049 bytes", 3, &[0; 2049], 2, 0);
    refused(bench, types, "the greatest type number", u64::MAX, &[0], 2, 0);
}

fn description(bench: &mut Bench, types: &Types) {
    accepted(bench, types, "Description \"A\"", 1, &[0x00, 0x20, 0x80], 17, &[0, 1, 65]);
    refused(bench, types, "Description 00 20 81", 1, &[0x00, 0x20, 0x81], 6, 17);
    refused(bench, types, "Description 00 20 80 00", 1, &[0x00, 0x20, 0x80, 0x00], 6, 17);
    short(bench, types, "Description 00 20", 1, &[0x00, 0x20], (10, 1));
    refused(bench, types, "Description, 2,048 bytes", 1, &[0; 2048], 6, 17);
    refused(bench, types, "Description, 2,049 bytes", 1, &[0; 2049], 1, 0);
    let needed = (ReadAnswer { number: 8, place: 0, bits: 0, cells: 3, row: 0, lacking: 0, edition: 1, type_number: 1 }, vec![-77; 2]);
    bench.same("Description \"A\", 2 cells lent", needed, reads(types, 1, &[0x00, 0x20, 0x80], 2));
    accepted(bench, types, "Description GB2312", 1, &[0x80, 0x2C, 0x28, 0x40], 26, &[1, 2, 0xB0, 0xA1]);
    // 1, then nine ones for the size
    outside(bench, types, "Description GB2312, size code 511", 1, &[0xFF, 0xC0, 0x28, 0x40], (44, 1, 126));
    let padding = (ReadAnswer { number: 6, place: 17, bits: 0, cells: 0, row: 0, lacking: 0, edition: 1, type_number: 1 }, vec![-77; 2]);
    bench.same("Description \"A\" with padding set, 2 cells lent", padding, reads(types, 1, &[0x00, 0x20, 0x81], 2));
    // the choice index is bit 0, the size bits 1 to 9, the octets stand from 10 and from 18 on
    short(bench, types, "Description, no bytes", 1, &[], (0, 1));
    short(bench, types, "Description GB2312, one byte", 1, &[0x80], (1, 2));
    short(bench, types, "Description GB2312, two bytes", 1, &[0x80, 0x2C], (10, 2));
    short(bench, types, "Description GB2312, three bytes", 1, &[0x80, 0x2C, 0x28], (18, 2));
}

fn position_offset(bench: &mut Bench, types: &Types) {
    accepted(bench, types, "PositionOffsetLLV, form one", 2, &[0x08, 0x00, 0x7F, 0xF0], 28, &[0, 0, 0, -1]);
    outside(bench, types, "PositionOffsetLLV, choice index 7", 2, &[0x70], (43, 1, 225));
    // form seven has a longitude of 32 bits and a latitude of 31 behind its index; what they mean is no matter of reading and writing
    let nowhere = [0x6D, 0x69, 0x3A, 0x40, 0x0D, 0x69, 0x3A, 0x40, 0x20];
    accepted(bench, types, "PositionOffsetLLV, form seven with no information", 2, &nowhere, 67, &[0, 6, NO_LONGITUDE, NO_LATITUDE]);
    // a presence bit, an index of 3 bits, and two offsets of 12 bits, the second from bit 16 on
    short(bench, types, "PositionOffsetLLV, no bytes", 2, &[], (0, 1));
    short(bench, types, "PositionOffsetLLV, one byte", 2, &[0x08], (4, 8));
    short(bench, types, "PositionOffsetLLV, two bytes", 2, &[0x08, 0x00], (16, 12));
    short(bench, types, "PositionOffsetLLV, three bytes", 2, &[0x08, 0x00, 0x7F], (16, 4));
}

/// What writing a sheet of an edition and a type number gives: the answer and the lent bytes afterwards.
fn writes(types: &Types, (edition, type_number): (u64, u64), sheet: &[i64], lent: usize) -> (WriteAnswer, Vec<u8>) {
    let mut bytes = vec![0xEE; lent];
    let answer = write(types, edition, type_number, sheet, &mut bytes);
    (answer, bytes)
}

fn not_written(bench: &mut Bench, types: &Types, name: &str, type_number: u64, sheet: &[i64], lent: usize, wanted: WriteAnswer) {
    bench.same(name, (wanted, vec![0xEE; lent]), writes(types, (1, type_number), sheet, lent));
}

fn writing(bench: &mut Bench, types: &Types) {
    let answer = |number, place| WriteAnswer { number, place, bits: 0, bytes: 0 };
    not_written(bench, types, "unnamed type", 3, &[0, 1, 65], 9, answer(2, 0));
    not_written(bench, types, "unnamed type and no value", 3, &[7, 7], 9, answer(2, 0));
    not_written(bench, types, "first cell wrong", 1, &[2, 1, 65], 9, answer(7, 0));
    not_written(bench, types, "last cell wrong", 1, &[0, 1, 128], 9, answer(7, 2));
    not_written(bench, types, "wrong and lacking", 1, &[0, 513], 9, answer(7, 1));
    not_written(bench, types, "lacking", 1, &[0, 2, 65], 9, answer(7, 3));
    not_written(bench, types, "no cells", 1, &[], 9, answer(7, 0));
    not_written(bench, types, "a spare cell", 1, &[0, 1, 65, 0, 0], 9, answer(7, 3));
    not_written(bench, types, "wrong and spare", 1, &[0, 1, -1, 0], 9, answer(7, 2));
    not_written(bench, types, "the least cell", 1, &[0, 1, i64::MIN], 9, answer(7, 2));
    not_written(bench, types, "the greatest cell", 1, &[i64::MAX, 1, 65], 9, answer(7, 0));
    not_written(bench, types, "no room", 1, &[0, 1, 65], 2, WriteAnswer { number: 8, place: 0, bits: 0, bytes: 3 });
    not_written(bench, types, "no value before no room", 1, &[0, 1, 165], 2, answer(7, 2));
    // eight events, each with 512 octets
    let mut long = rsi(&vec![event(1, 0, 0, 0); 8], &[]);
    not_written(bench, types, "above 2,048 bytes", 0, &long, 9000, answer(1, 0));
    not_written(bench, types, "above 2,048 bytes before no room", 0, &long, 9, answer(1, 0));
    long.push(0);
    not_written(bench, types, "no value before above 2,048 bytes", 0, &long, 9, answer(7, long.len() as u64 - 1));
}

/// Only edition 1 is known; the edition is asked for behind the type number, and before the sheet.
fn editions(bench: &mut Bench, types: &Types) {
    let refused = |number| WriteAnswer { number, place: 0, bits: 0, bytes: 0 };
    let long = rsi(&vec![event(1, 0, 0, 0); 8], &[]);
    for edition in [0, 2, 3, 255, 256, 257, 65535, 65536, 65537, 1 << 32, (1 << 32) + 1, 1 << 63, u64::MAX] {
        let name = |what: &str| format!("edition {edition}, {what}");
        for (what, type_number, sheet, lent) in [
            ("a value", 1, &[0, 1, 65][..], 9),
            ("a value of another type", 2, &[0, 0, 0, -1], 9),
            ("last cell wrong", 1, &[0, 1, 128], 9),
            ("lacking", 1, &[0, 1], 9),
            ("no cells", 0, &[], 9),
            ("a spare cell", 1, &[0, 1, 65, 0], 9),
            ("no room", 1, &[0, 1, 65], 2),
            ("above 2,048 bytes", 0, &long, 9),
        ] {
            bench.same(&name(what), (refused(26), vec![0xEE; lent]), writes(types, (edition, type_number), sheet, lent));
        }
        for type_number in [3, 255, u64::MAX] {
            bench.same(&name("unnamed type"), (refused(2), vec![0xEE; 9]), writes(types, (edition, type_number), &[0, 1, 65], 9));
        }
    }
}

// The ends of the positions: the last latitudes and longitudes that are places, and behind them the two that mean "no information".
const NORTH: i64 = 900000000;
const SOUTH: i64 = -900000000;
const EAST: i64 = 1800000000;
const WEST: i64 = -1799999999;
const NO_LATITUDE: i64 = 900000001;
const NO_LONGITUDE: i64 = 1800000001;

/// The bits of an offset in forms one to six, by the form.
const OFFSET_BITS: [(i64, usize); 6] = [(1, 12), (2, 14), (3, 16), (4, 18), (5, 22), (6, 24)];

/// One case of the resolver: the reference, the form with its two numbers, and the number and the place wanted.
fn resolved(bench: &mut Bench, types: &Types, name: &str, from: (i64, i64), form: (i64, i64, i64), wanted: (u64, i64, i64)) {
    let wanted = ResolveAnswer { number: wanted.0, latitude: wanted.1, longitude: wanted.2 };
    bench.same(&format!("{name}, from {from:?} by {form:?}"), wanted, resolve(types, from.0, from.1, form.0, form.1, form.2));
}

fn resolving(bench: &mut Bench, types: &Types) {
    let mut case = |name: &str, from, form, wanted| resolved(bench, types, name, from, form, wanted);
    case("form one", (20, 100), (1, 2, -1), (0, 19, 102));
    case("form seven replaces the reference", (20, 100), (7, 2, -1), (0, -1, 2));
    for (latitude, longitude) in [(NORTH, EAST), (NORTH, WEST), (SOUTH, EAST), (SOUTH, WEST)] {
        case("form seven at the ends", (20, 100), (7, longitude, latitude), (0, latitude, longitude));
        case("no offset at the ends", (latitude, longitude), (1, 0, 0), (0, latitude, longitude));
    }
    for (form, bits) in OFFSET_BITS {
        let half = 1i64 << (bits - 1);
        case("greatest offsets", (0, 0), (form, half - 1, half - 1), (0, half - 1, half - 1));
        case("least offsets", (0, 0), (form, -half, -half), (0, -half, -half));
        for (first, second) in [(half, 0), (-half - 1, 0), (0, half), (0, -half - 1)] {
            case("an offset outside", (5, 5), (form, first, second), (4, 0, 0));
            // 4 comes before 10 and before 9
            case("an offset outside and no longitude", (5, NO_LONGITUDE), (form, first, second), (4, 0, 0));
            case("an offset outside and no latitude", (NO_LATITUDE, 5), (form, first, second), (4, 0, 0));
            case("an offset outside at the north end", (NORTH, 5), (form, first, second), (4, 0, 0));
        }
    }
    for form in [0, 8, -1, i64::MIN, i64::MAX] {
        case("no form", (5, 5), (form, 0, 0), (4, 0, 0));
        case("no form and no information", (NO_LATITUDE, NO_LONGITUDE), (form, 0, 0), (4, 0, 0));
    }
    for outside in [NO_LATITUDE + 1, SOUTH - 1, i64::MAX, i64::MIN] {
        case("reference latitude outside", (outside, 0), (1, 0, 0), (4, 0, 0));
        case("reference latitude outside and no longitude", (outside, NO_LONGITUDE), (1, 0, 0), (4, 0, 0));
        case("latitude of form seven outside", (5, 5), (7, 0, outside), (4, 0, 0));
        case("latitude of form seven outside and no longitude", (5, 5), (7, NO_LONGITUDE, outside), (4, 0, 0));
    }
    for outside in [NO_LONGITUDE + 1, WEST - 1, i64::MAX, i64::MIN] {
        case("reference longitude outside", (0, outside), (1, 0, 0), (4, 0, 0));
        case("reference longitude outside and no latitude", (NO_LATITUDE, outside), (1, 0, 0), (4, 0, 0));
        case("longitude of form seven outside", (5, 5), (7, outside, 0), (4, 0, 0));
        case("longitude of form seven outside and no latitude", (5, 5), (7, outside, NO_LATITUDE), (4, 0, 0));
    }
    // the widths of document 01 are those of the types
    for (_, bits) in OFFSET_BITS {
        let (name, half) = (format!("OffsetLL-B{bits}"), 1i64 << (bits - 1));
        bench.same("bits of an offset", 2 * bits, bits_of(types, &name, &[-half]).len() + bits_of(types, &name, &[half - 1]).len());
    }
}

/// "An east or west sum goes round it and is never refused" (document 02, A3).
fn round_the_ring(bench: &mut Bench, types: &Types) {
    let mut case = |name: &str, from, form, wanted| resolved(bench, types, name, from, form, wanted);
    for (form, bits) in OFFSET_BITS {
        let half = 1i64 << (bits - 1);
        case("to the east end", (0, EAST - 1), (form, 1, 0), (0, 0, EAST));
        case("to the west end", (0, WEST + 1), (form, -1, 0), (0, 0, WEST));
        case("past the east end by one", (0, EAST), (form, 1, 0), (0, 0, WEST));
        case("past the west end by one", (0, WEST), (form, -1, 0), (0, 0, EAST));
        case("past the east end by two", (0, EAST), (form, 2, 0), (0, 0, WEST + 1));
        case("past the west end by two", (0, WEST), (form, -2, 0), (0, 0, EAST - 1));
        // the sum is the number for no information, which is no longitude to end at
        case("a sum of 1800000001", (0, EAST - (half - 2)), (form, half - 1, 0), (0, 0, WEST));
        case("on both axes", (7, EAST), (form, 1, -8), (0, -1, WEST));
        case("least offset from the west end", (0, WEST), (form, -half, 0), (0, 0, EAST - (half - 1)));
        case("greatest offset from the east end", (0, EAST), (form, half - 1, 0), (0, 0, WEST + (half - 2)));
        case("and back again", (0, WEST + (half - 2)), (form, 1 - half, 0), (0, 0, EAST));
    }
    // written out, so that the two ways round stand here as numbers too
    case("past the east end by 8,388,607", (0, 1800000000), (6, 8388607, 0), (0, 0, -1791611393));
    case("past the west end by 8,388,608", (0, -1799999999), (6, -8388608, 0), (0, 0, 1791611393));
}

/// "A latitude sum outside −900,000,000 to 900,000,000 is 9" (document 02, A3), though the type has one number more.
fn past_the_poles(bench: &mut Bench, types: &Types) {
    let mut case = |name: &str, from, form, wanted| resolved(bench, types, name, from, form, wanted);
    for (form, bits) in OFFSET_BITS {
        let half = 1i64 << (bits - 1);
        case("to the north end", (NORTH - 1, 0), (form, 0, 1), (0, NORTH, 0));
        case("to the south end", (SOUTH + 1, 0), (form, 0, -1), (0, SOUTH, 0));
        case("to the north end by the greatest offset", (NORTH - (half - 1), 0), (form, 0, half - 1), (0, NORTH, 0));
        case("to the south end by the least offset", (SOUTH + half, 0), (form, 0, -half), (0, SOUTH, 0));
        case("a sum of 900000001", (NORTH, 0), (form, 0, 1), (9, 0, 0));
        case("a sum of 900000001 by the greatest offset", (NORTH - (half - 2), 0), (form, 0, half - 1), (9, 0, 0));
        case("past the north end by two", (NORTH, 0), (form, 0, 2), (9, 0, 0));
        case("past the south end by one", (SOUTH, 0), (form, 0, -1), (9, 0, 0));
        case("past the south end by one, by the least offset", (SOUTH + (half - 1), 0), (form, 0, -half), (9, 0, 0));
        case("past the north end and round the ring", (NORTH, EAST), (form, 1, 1), (9, 0, 0));
        case("past the south end and round the ring", (SOUTH, WEST), (form, -1, -1), (9, 0, 0));
    }
}

/// 10 "where the reference in forms one to six ... has such a number" (document 02, A3).
fn no_information(bench: &mut Bench, types: &Types) {
    let mut case = |name: &str, from, form, wanted| resolved(bench, types, name, from, form, wanted);
    for (form, bits) in OFFSET_BITS {
        let half = 1i64 << (bits - 1);
        for offset in [0, 1, -1, half - 1, -half] {
            // the sums are places again with some of these offsets, and it is no place that they start from
            case("no longitude", (5, NO_LONGITUDE), (form, offset, 0), (10, 0, 0));
            case("no latitude", (NO_LATITUDE, 5), (form, 0, offset), (10, 0, 0));
            case("neither", (NO_LATITUDE, NO_LONGITUDE), (form, offset, offset), (10, 0, 0));
            case("no longitude, and an offset of latitude", (5, NO_LONGITUDE), (form, 0, offset), (10, 0, 0));
            case("no latitude, and an offset of longitude", (NO_LATITUDE, 5), (form, offset, 0), (10, 0, 0));
        }
        // 10 comes before 9
        case("no longitude, past the north end", (NORTH, NO_LONGITUDE), (form, 0, 1), (10, 0, 0));
        case("no longitude, past the south end", (SOUTH, NO_LONGITUDE), (form, 0, -1), (10, 0, 0));
        // an axis has its own number, and the other's is a place on it
        case("no latitude's number as a longitude", (5, NO_LATITUDE), (form, 0, 0), (0, 5, NO_LATITUDE));
    }
}

/// 10 where "the coordinate in form seven, has such a number" (document 02, A3). A reference that has it is no fault there.
fn no_information_in_form_seven(bench: &mut Bench, types: &Types) {
    let mut case = |name: &str, from, form, wanted| resolved(bench, types, name, from, form, wanted);
    for from in [(5, 5), (NO_LATITUDE, 5), (5, NO_LONGITUDE), (NO_LATITUDE, NO_LONGITUDE)] {
        case("form seven", from, (7, 2, -1), (0, -1, 2));
        case("form seven at the north-east end", from, (7, EAST, NORTH), (0, NORTH, EAST));
        case("form seven without longitude", from, (7, NO_LONGITUDE, -1), (10, 0, 0));
        case("form seven without latitude", from, (7, 2, NO_LATITUDE), (10, 0, 0));
        case("form seven without either", from, (7, NO_LONGITUDE, NO_LATITUDE), (10, 0, 0));
        case("form seven with a longitude outside", from, (7, NO_LONGITUDE + 1, 0), (4, 0, 0));
        case("form seven with a latitude outside", from, (7, 0, SOUTH - 1), (4, 0, 0));
    }
    for from in [(NO_LATITUDE + 1, 5), (5, WEST - 1)] {
        case("form seven without either, reference outside", from, (7, NO_LONGITUDE, NO_LATITUDE), (4, 0, 0));
    }
}

fn missing(bench: &mut Bench) {
    let answer = |number, missed| MissedAnswer { number, missed };
    bench.same("old 127, new 0", answer(0, 0), missed(127, 0));
    bench.same("old 5, new 5", answer(0, 127), missed(5, 5));
    bench.same("old 5, new 6", answer(0, 0), missed(5, 6));
    bench.same("old 5, new 9", answer(0, 3), missed(5, 9));
    bench.same("old 9, new 5", answer(0, 123), missed(9, 5));
    bench.same("old 0, new 127", answer(0, 126), missed(0, 127));
    for (old, new) in [(128, 0), (0, 128), (u64::MAX, 0), (0, u64::MAX)] {
        bench.same("a count above 127", answer(4, 0), missed(old, new));
    }
}

/// The cells of an event: with a position, a radius, a reference path, a reference link if 1; its description is 512 octets.
fn event(position: i64, radius: i64, path: i64, link: i64) -> Vec<i64> {
    // presence of eventPos, eventRadius, description, timeDetails, priority, referencePaths, referenceLinks, eventConfidence
    let mut cells = vec![position, radius, 1, 0, 0, path, link, 0, 7, 600, 2];
    if position == 1 {
        cells.extend([0, 0, 5, -5]);
    }
    if radius == 1 {
        cells.push(300);
    }
    cells.extend([1, 512]);
    cells.extend([0xB0; 512]);
    add_references(&mut cells, path, link);
    cells
}

/// The cells of a sign: with a position, a description, a reference path, a reference link if 1.
fn sign(position: i64, description: i64, path: i64, link: i64) -> Vec<i64> {
    // presence of signPos, description, timeDetails, priority, referencePaths, referenceLinks
    let mut cells = vec![position, description, 0, 0, path, link, 9, 12];
    if position == 1 {
        cells.extend([0, 0, 5, -5]);
    }
    if description == 1 {
        cells.extend([0, 1, 65]);
    }
    add_references(&mut cells, path, link);
    cells
}

fn add_references(cells: &mut Vec<i64>, path: i64, link: i64) {
    if path == 1 {
        // one path of two points, and its radius
        cells.extend([1, 2, 0, 0, 1, 1, 0, 0, 2, 2, 50]);
    }
    if link == 1 {
        // one link without its lanes
        cells.extend([1, 0, 0, 11, 0, 12]);
    }
}

/// A sheet of type 0 that is an RSI with these events and signs; a list without entries isn't present.
fn rsi(events: &[Vec<i64>], signs: &[Vec<i64>]) -> Vec<i64> {
    let mut cells = vec![4, 0, !events.is_empty() as i64, !signs.is_empty() as i64, 3, 1, 2, 3, 4, 5, 6, 7, 8, 0, 400000000, 1160000000];
    for list in [events, signs] {
        if !list.is_empty() {
            cells.push(list.len() as i64);
            cells.extend(list.concat());
        }
    }
    cells
}

fn sending_rules(bench: &mut Bench, types: &Types) {
    let answer = |number, place| RuleAnswer { number, place };
    let good_event = event(1, 1, 0, 0);
    let good_sign = sign(1, 1, 1, 0);
    let check = |events: &[Vec<i64>], signs: &[Vec<i64>]| check_rsi(types, &rsi(events, signs));
    bench.same("RSI with neither list", answer(0, 0), check(&[], &[]));
    bench.same("RSI with all it should have", answer(0, 0), check(&[good_event.clone(), good_event.clone()], &[good_sign.clone(), good_sign.clone()]));
    bench.same("event with a path alone", answer(0, 0), check(&[event(1, 0, 1, 0)], &[]));
    bench.same("event with a link alone", answer(0, 0), check(&[event(1, 0, 0, 1)], &[]));
    bench.same("sign with a link alone", answer(0, 0), check(&[], &[sign(1, 1, 0, 1)]));
    bench.same("event without position", answer(12, 0), check(&[event(0, 1, 0, 0)], &[]));
    bench.same("second event without position", answer(12, 1), check(&[good_event.clone(), event(0, 0, 0, 0)], &[]));
    bench.same("event without area", answer(13, 0), check(&[event(1, 0, 0, 0), event(0, 0, 0, 0)], &[]));
    bench.same("sign without position", answer(14, 1), check(&[good_event.clone()], &[good_sign.clone(), sign(0, 0, 0, 0)]));
    bench.same("sign without description", answer(15, 0), check(&[], &[sign(1, 0, 0, 0), sign(0, 0, 0, 0)]));
    bench.same("sign without area", answer(16, 2), check(&[], &[good_sign.clone(), good_sign.clone(), sign(1, 1, 0, 0)]));
    bench.same("events before signs", answer(13, 1), check(&[good_event.clone(), event(1, 0, 0, 0)], &[sign(0, 0, 0, 0)]));
    // five of these are longer than 2,048 bytes
    bench.same("RSI too long to be written", answer(12, 4), check(&[vec![good_event.clone(); 4], vec![event(0, 1, 0, 0)]].concat(), &[]));
    let mut sheet = rsi(&[event(0, 0, 0, 0)], &[]);
    sheet.push(0);
    bench.same("no value before the rules", answer(7, sheet.len() as u64 - 1), check_rsi(types, &sheet));
    bench.same("no cells", answer(7, 0), check_rsi(types, &[]));
    // a SPAT with one intersection, one phase, one state
    let spat = [vec![3, 0, 0, 0, 9, 1, 0, 0, 0, 0, 77], vec![0; 16], vec![1, 4, 1, 0, 3]].concat();
    bench.same("a SPAT", answer(11, 0), check_rsi(types, &spat));
    bench.same("no value before not RSI", answer(7, 1), check_rsi(types, &[3, 5]));
}

fn program(bench: &mut Bench, types: &Types) {
    let printed = |record: &[u8]| {
        let mut out = Vec::new();
        print_read(types, record, LENT_CELLS, &mut out).expect("room in memory");
        String::from_utf8(out).expect("plain text")
    };
    let description = "edition 1\naccepted 17 bits 3 cells\n0\n1\n65\n";
    bench.same("the program, 00 01 00 20 80", description.to_string(), printed(&[0x00, 0x01, 0x00, 0x20, 0x80]));
    bench.same("the program, 00 00 50", "refused 43 at bit 1\n".to_string(), printed(&[0x00, 0x00, 0x50]));
    bench.same("the program, no bytes", "refused 2 at bit 0\n".to_string(), printed(&[]));
    bench.same("the program, one byte", "refused 2 at bit 0\n".to_string(), printed(&[0x00]));
    let written = |record: &[u8]| {
        let mut out = Vec::new();
        print_written(types, record, &mut out).expect("room in memory");
        String::from_utf8(out).expect("plain text")
    };
    let cells = [&[0; 24][..], &[0xFF; 8]].concat();
    for (what, label, told) in [
        ("cells 0, 0, 0, -1", [0, 1, 0, 2], "08007ff0\n"),
        ("the same of edition 0", [0, 0, 0, 2], "refused 26 at cell 0\n"),
        ("the same of edition 256", [1, 0, 0, 2], "refused 26 at cell 0\n"),
        ("the same of edition 257", [1, 1, 0, 2], "refused 26 at cell 0\n"),
        ("the same of type 512 and edition 0", [0, 0, 2, 0], "refused 2 at cell 0\n"),
    ] {
        bench.same(&format!("writing, {what}"), told.to_string(), written(&[&label[..], &cells].concat()));
    }
    bench.same("writing, half a cell behind the last", "08007ff0\n".to_string(), written(&[&[0, 1, 0, 2][..], &cells, &[0; 4]].concat()));
    for length in 0..4 {
        bench.same("writing, fewer than four bytes", "refused 2 at cell 0\n".to_string(), written(&[0, 1, 0][..length]));
    }
    bench.same("writing, four bytes", "refused 7 at cell 0\n".to_string(), written(&[0, 1, 0, 1]));
}

fn texts(bench: &mut Bench, types: &Types) {
    let many = |cells: usize| ["edition 1\n1\n", &"0\n".repeat(cells)].concat();
    for (text, told) in [
        ("edition 1\n1\n0\n1\n65\n", "002080"),
        ("edition 1\n1\n0\n1\n65", "002080"),
        ("edition 001\n-0\n4\n", "refused 7 at cell 1"),
        ("edition 1\n1\n", "refused 7 at cell 0"),
        ("edition 2\n1\n", "refused 26 at cell 0"),
        ("edition 2\n3\n", "refused 2 at cell 0"),
        ("edition -0\n1\n0\n1\n65\n", "refused 26 at cell 0"),
        ("edition 18446744073709551615\n1\n", "refused 26 at cell 0"),
        ("edition 18446744073709551616\n1\n", "line 1 is no 64-bit number"),
        ("edition -1\n1\n", "line 1 is no 64-bit number"),
        ("", "line 1 is no edition"),
        ("\n", "line 1 is no edition"),
        ("1\n0\n1\n65\n", "line 1 is no edition"),
        ("edition 1", "line 2 is no number"),
        ("edition 1\n", "line 2 is no number"),
        ("edition 1\n\n", "line 2 is no number"),
        ("edition 1\n18446744073709551615\n", "refused 2 at cell 0"),
        ("edition 1\n18446744073709551616\n", "line 2 is no 64-bit number"),
        ("edition 1\n1\n\n1\n65\n", "line 3 is no number"),
        ("edition 2\n3\n0\n1\n65 \n", "line 5 is no number"),
        ("edition 1\n1\n9223372036854775807\n-9223372036854775808\n", "refused 7 at cell 0"),
        ("edition 1\n1\n9223372036854775808\n", "line 3 is no 64-bit number"),
        ("edition 1\n1\n0\n-9223372036854775809\n", "line 4 is no 64-bit number"),
        (many(16384).as_str(), "refused 7 at cell 1"),
        (many(16385).as_str(), "no room for 16385 cells"),
        ((many(16385) + "x").as_str(), "line 16388 is no number"),
    ] {
        bench.same(&format!("the text {:?}", &text[..text.len().min(60)]), format!("{told}\n"), text::written(types, text.as_bytes()));
    }
    for first in [
        "Edition 1", "edition  1", "edition", "edition ", "edition 1 ", "edition 1\r", "edition +1", "edition --1", " edition 1", "edition\t1",
        "edition1",
    ] {
        let text = format!("{first}\n1\n0\n1\n65\n");
        bench.same(&format!("the first line {first:?}"), "line 1 is no edition\n".to_string(), text::written(types, text.as_bytes()));
    }
    // zeros before the last cell, up to the longest text and one more
    let padded = |length: usize| {
        let (before, behind) = ("edition 1\n1\n0\n1\n", "65\n");
        [before, &"0".repeat(length - before.len() - behind.len()), behind].concat()
    };
    bench.same("a text of 393,215 bytes", "002080\n".to_string(), text::written(types, padded(393215).as_bytes()));
    bench.same("a text of 393,216 bytes", "text of more than 393215 bytes\n".to_string(), text::written(types, padded(393216).as_bytes()));
}
