//! What the programs cases_fields and cases_counts must print, by the second implementation: both take no input, so their
//! cases stand here a second time, by the names of types.

use crate::second::{self, Kind, Refusal, Types};
use std::collections::BTreeSet;
use std::fmt::Write;

/// The lines of cases_fields: single fields by name and by width, fields that aren't wholly there, memory without room, and
/// codes of X.691's worked examples.
pub fn fields(types: &Types) -> String {
    let mut out = String::new();
    for (name, bytes) in [
        ("MinuteOfTheYear", &[0x80u8, 0xAC, 0x00][..]),
        ("MinuteOfTheYear", &[0x80, 0xAC, 0x10]),
        ("OffsetLL-B12", &[0x00, 0x00]),
        ("OffsetLL-B12", &[0x80, 0x00]),
        ("Longitude", &[0x00, 0x00, 0x00, 0x00]),
        ("Longitude", &[0x6B, 0x49, 0xD1, 0xFF]),
        ("Longitude", &[0xD6, 0x93, 0xA4, 0x00]),
        ("Longitude", &[0xD6, 0x93, 0xA4, 0x01]),
        ("LightState", &[0x30]),
        ("LightState", &[0x48]),
        ("LightState", &[0x80]),
        ("MessageFrame", &[0x30]),
    ] {
        line(&mut out, "value", single(types, name, bytes, 0));
    }
    for width in [20, 32, 17] {
        line(&mut out, "code", coded(types, width, &[0x80, 0xAC, 0x00], 0));
    }
    // four bits of twelve are there, none of eight, and none far behind the last bit; of a row's twenty the first ten
    for (width, place) in [(12, 4), (8, 8), (5, 20)] {
        line(&mut out, "code", coded(types, width, &[0xFF], place));
    }
    line(&mut out, "value", single(types, "MinuteOfTheYear", &[0xFF, 0xFF], 6));
    without_room(types, &mut out);
    codes(types, 6, 12, &[0x0C, 0xBA, 0xA3, 0xA5, 0x11, 0x14, 0xA2, 0x4B, 0xE3], &mut out);
    codes(types, 4, 8, &[0x19, 0x71, 0x09, 0x17], &mut out);
    out
}

fn line(out: &mut String, what: &str, answer: Result<(i64, usize), Refusal>) {
    match answer {
        Ok((number, next)) => writeln!(out, "{what} {number} up to bit {next}"),
        Err(why) => writeln!(out, "refused {} at bit {} row {} lacking {}", why.number, why.place, why.row, why.lacking),
    }
    .unwrap();
}

/// A whole number or an enumeration at a place; any other type is no single field.
fn single(types: &Types, name: &str, bytes: &[u8], place: usize) -> Result<(i64, usize), Refusal> {
    let of = types.place(name).unwrap_or_else(|| panic!("{name} is no type"));
    match types.kind(of) {
        Kind::Integer { .. } | Kind::Enumerated { .. } => second::read_value(types, of, bytes, place).map(|(cells, next)| (cells[0], next)),
        _ => Err(Refusal::bare(2, 0)),
    }
}

/// The widths of all fields that the types have: values, indices, sizes that are coded, and single bits.
fn widths(types: &Types) -> BTreeSet<usize> {
    let mut held = BTreeSet::from([1]);
    for kind in types.kinds() {
        held.insert(match kind {
            Kind::Integer { lowest, highest } => second::width((highest - lowest) as u64),
            Kind::Enumerated { items, .. } => second::width(items.len() as u64 - 1),
            Kind::Choice { alternatives, .. } => second::width(alternatives.len() as u64 - 1),
            Kind::List { least, most, .. } => second::width((most - least) as u64),
            Kind::Sequence { .. } => continue,
        });
    }
    held.remove(&0);
    held
}

fn coded(types: &Types, width: usize, bytes: &[u8], place: usize) -> Result<(i64, usize), Refusal> {
    if !widths(types).contains(&width) {
        return Err(Refusal::bare(2, 0));
    }
    // counted bit by bit, and not as reading counts them
    let lacking = (place..place + width).filter(|at| *at >= bytes.len() * 8).count();
    if lacking > 0 {
        return Err(Refusal::short(place, lacking));
    }
    let code = (place..place + width).fold(0, |code, at| code * 2 + i64::from(bytes[at / 8] >> (7 - at % 8) & 1));
    Ok((code, place + width))
}

/// Description "A" into two cells and into two bytes: number, what is needed, and the lent memory afterwards.
fn without_room(types: &Types, out: &mut String) {
    let mut cells = [7i64; 2];
    let read = second::read(types, 1, &[0x00, 0x20, 0x80], &mut cells);
    writeln!(out, "{} needed {} then {} {}", read.number, read.cells, cells[0], cells[1]).unwrap();
    let mut bytes = [7u8; 2];
    let written = second::write(types, second::EDITION, 1, &[0, 1, 65], &mut bytes);
    writeln!(out, "{} needed {} then {} {}", written.number, written.bytes, bytes[0], bytes[1]).unwrap();
}

fn codes(types: &Types, width: usize, count: usize, bytes: &[u8], out: &mut String) {
    out.push_str("codes");
    let mut place = 0;
    for _ in 0..count {
        let (code, next) = coded(types, width, bytes, place).expect("the example has so many codes");
        write!(out, " {code}").unwrap();
        place = next;
    }
    out.push('\n');
}

/// The lines of cases_counts: old and new count, number and missed; then form, number, latitude and longitude.
pub fn counts(types: &Types) -> String {
    let mut out = String::new();
    for (old, new) in [(127, 0), (5, 5), (6, 5), (128, 0), (0, 128)] {
        let loss = second::missed(old, new);
        writeln!(out, "{old} {new} {} {}", loss.number, loss.missed).unwrap();
    }
    for (latitude, longitude, form, first, second_number) in [
        (399042000, 1164074000, 1, -2048, 2047),
        (399042000, 1164074000, 2, -8192, 8191),
        (399042000, 1164074000, 3, -32768, 32767),
        (399042000, 1164074000, 4, -131072, 131071),
        (399042000, 1164074000, 5, -2097152, 2097151),
        (399042000, 1164074000, 6, -8388608, 8388607),
        (399042000, 1164074000, 7, -1799999999, -900000000),
        (0, 0, 8, 0, 0),
        (900000002, 0, 1, 0, 0),
        (0, -1800000000, 7, 0, 0),
        (0, 0, 1, 2048, 0),
        // to each end of the ring, and past it by one
        (0, 1799999999, 1, 1, 0),
        (0, 1800000000, 1, 1, 0),
        (0, -1799999998, 1, -1, 0),
        (0, -1799999999, 1, -1, 0),
        // round the ring by more
        (0, 1800000000, 2, 8191, 0),
        (0, -1799999999, 3, -32768, 0),
        (0, 1799868930, 4, 131071, 0),
        (0, -1797902848, 5, -2097152, 0),
        (0, 1800000000, 6, 8388607, 0),
        (0, -1799999999, 6, -8388608, 0),
        // to each end of the latitudes, and past it by one
        (899999999, 0, 1, 0, 1),
        (900000000, 0, 1, 0, 1),
        (891611394, 0, 6, 0, 8388607),
        (-899999999, 0, 1, 0, -1),
        (-900000000, 0, 1, 0, -1),
        (-891611393, 0, 6, 0, -8388608),
        // a reference without longitude, and one without latitude
        (0, 1800000001, 1, 0, 0),
        (0, 1800000001, 2, -1, 0),
        (0, 1800000001, 3, 1, 0),
        (0, 1800000001, 4, -131072, 0),
        (0, 1800000001, 5, 2097151, 0),
        (0, 1800000001, 6, -8388608, 8388607),
        (900000001, 0, 1, 0, 0),
        (900000001, 0, 2, 0, -1),
        (900000001, 0, 3, 0, 1),
        (900000001, 0, 4, 0, -131072),
        (900000001, 0, 5, 0, 2097151),
        (900000001, 0, 6, 8388607, -8388608),
        // form seven without the one or the other, or outside, and from references without
        (0, 0, 7, 1800000000, 900000000),
        (0, 0, 7, 1800000001, 900000000),
        (0, 0, 7, 1800000000, 900000001),
        (0, 0, 7, 1800000001, 900000001),
        (0, 0, 7, 1800000001, 900000002),
        (0, 0, 7, 1800000002, 900000001),
        (900000001, 0, 7, 2, -1),
        (0, 1800000001, 7, 2, -1),
        (900000001, 1800000001, 7, -1799999999, -900000000),
        (900000001, 1800000001, 7, 2, 900000001),
        // 4 before 10, and 10 before 9
        (900000001, 1800000001, 0, 0, 0),
        (900000002, 1800000001, 1, 0, 0),
        (900000001, 1800000002, 1, 0, 0),
        (900000001, 1800000001, 1, 2048, 0),
        (900000001, 1800000001, 1, 0, -2049),
        (900000000, 1800000001, 1, 0, 1),
        (-900000000, 1800000001, 1, 0, -1),
        (900000001, 1800000001, 1, 1, 1),
    ] {
        let there = second::resolve(types, latitude, longitude, form, first, second_number);
        writeln!(out, "{form} {} {} {}", there.number, there.latitude, there.longitude).unwrap();
    }
    out
}
