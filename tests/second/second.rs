//! The codec a second time: reading, writing, resolving a position, counting what was missed and
//! the RSI sending rules, written plainly from document 01 (the description of the build and its
//! rules), as document 02 amends it (A2, A3, A6, A11), and from nothing else, so that the proved codec
//! has something to be held against.
//!
//! The types aren't written here: they are parsed from the text of tests/asn1/types.txt, and their rows
//! from the text of docs/ROWS.md, by name. Nothing here touches a file, a stream or the command line, so
//! that the same module serves a program and a library.

use std::collections::HashMap;

/// No message is longer than this, read or written.
pub const MOST_BYTES: usize = 2048;

/// The edition that is known: YD/T 3709-2020.
pub const EDITION: u64 = 1;

/// The names of the types that have a type number; the number is the place in this list.
pub const NAMED: [&str; 3] = ["MessageFrame", "Description", "PositionOffsetLLV"];

// ---------------------------------------------------------------------------------------------
// The types

/// What a type is made of. A type is referred to by its place in the list of all types.
pub enum Kind {
    Integer { lowest: i64, highest: i64 },
    Enumerated { extensible: bool, items: Vec<String> },
    Sequence { extensible: bool, components: Vec<Component> },
    Choice { extensible: bool, alternatives: Vec<Alternative> },
    List { extensible: bool, least: i64, most: i64, item: usize },
}

pub struct Component {
    pub name: String,
    pub of: usize,
    pub optional: bool,
}

pub struct Alternative {
    pub name: String,
    pub of: usize,
}

/// All types, the row of each in the type table, and where each name stands.
pub struct Types {
    kinds: Vec<Kind>,
    rows: Vec<u64>,
    places: HashMap<String, usize>,
}

impl Types {
    /// The types from the text of types.txt, whose form is described at its top, with the rows that the text of
    /// ROWS.md has for their names.
    pub fn parse(text: &str, page: &str) -> Result<Types, String> {
        let lines: Vec<(usize, Vec<&str>)> = text
            .lines()
            .enumerate()
            .filter(|(_, line)| !line.starts_with('#') && !line.trim().is_empty())
            .map(|(index, line)| (index + 1, line.split_whitespace().collect()))
            .collect();
        // a type may refer to one that stands below it, so the names come first
        let mut places = HashMap::new();
        for (number, words) in &lines {
            if !matches!(words[0], "item" | "component" | "alternative") {
                let name = *words.get(1).ok_or(format!("line {number}: a name is missing"))?;
                if places.insert(name.to_string(), places.len()).is_some() {
                    return Err(format!("line {number}: {name} stands twice"));
                }
            }
        }
        let mut kinds = Vec::new();
        let mut next = 0;
        while next < lines.len() {
            let (number, words) = &lines[next];
            next += 1;
            let wrong = || format!("line {number}: not understood");
            let mark = |word: &str| match word {
                "closed" => Ok(false),
                "extensible" => Ok(true),
                _ => Err(wrong()),
            };
            let whole = |word: &str| word.parse::<i64>().map_err(|_| wrong());
            let place = |word: &str| places.get(word).copied().ok_or(format!("{word} is no type, near line {number}"));
            // the lines that belong to a type with COUNT of them
            let mut parts = |word: &str, count: &str| -> Result<Vec<Vec<&str>>, String> {
                let count = count.parse::<usize>().map_err(|_| wrong())?;
                let found: Vec<Vec<&str>> = lines[next..].iter().take_while(|line| line.1[0] == word).map(|line| line.1.clone()).collect();
                next += found.len();
                if found.len() == count && count > 0 { Ok(found) } else { Err(wrong()) }
            };
            kinds.push(match words[..] {
                ["integer", _, lowest, highest] => {
                    let (lowest, highest) = (whole(lowest)?, whole(highest)?);
                    if lowest > highest {
                        return Err(wrong());
                    }
                    Kind::Integer { lowest, highest }
                }
                ["enumerated", _, extensible, count] => Kind::Enumerated {
                    extensible: mark(extensible)?,
                    items: parts("item", count)?
                        .iter()
                        .map(|part| match part[..] {
                            ["item", _, name] => Ok(name.to_string()),
                            _ => Err(wrong()),
                        })
                        .collect::<Result<_, _>>()?,
                },
                ["sequence", _, extensible, count] => Kind::Sequence {
                    extensible: mark(extensible)?,
                    components: parts("component", count)?
                        .iter()
                        .map(|part| match part[..] {
                            ["component", name, of, "mandatory"] => Ok(Component { name: name.to_string(), of: place(of)?, optional: false }),
                            ["component", name, of, "optional"] => Ok(Component { name: name.to_string(), of: place(of)?, optional: true }),
                            _ => Err(wrong()),
                        })
                        .collect::<Result<_, _>>()?,
                },
                ["choice", _, extensible, count] => Kind::Choice {
                    extensible: mark(extensible)?,
                    alternatives: parts("alternative", count)?
                        .iter()
                        .map(|part| match part[..] {
                            ["alternative", name, of] => Ok(Alternative { name: name.to_string(), of: place(of)? }),
                            _ => Err(wrong()),
                        })
                        .collect::<Result<_, _>>()?,
                },
                ["list", _, extensible, least, most, item] => {
                    let (least, most) = (whole(least)?, whole(most)?);
                    if least < 0 || least > most {
                        return Err(wrong());
                    }
                    Kind::List { extensible: mark(extensible)?, least, most, item: place(item)? }
                }
                _ => return Err(wrong()),
            });
        }
        let rows = rows_of(&kinds, &places, page)?;
        let types = Types { kinds, rows, places };
        for name in NAMED {
            types.place(name).ok_or(format!("{name} is missing"))?;
        }
        Ok(types)
    }

    /// Where the type of this name stands.
    pub fn place(&self, name: &str) -> Option<usize> {
        self.places.get(name).copied()
    }

    pub fn kind(&self, place: usize) -> &Kind {
        &self.kinds[place]
    }

    pub fn kinds(&self) -> &[Kind] {
        &self.kinds
    }

    /// The row that the type has in the type table.
    pub fn row(&self, place: usize) -> u64 {
        self.rows[place]
    }

    fn named(&self, type_number: u64) -> Option<usize> {
        let name = NAMED.get(usize::try_from(type_number).ok()?)?;
        self.place(name)
    }
}

/// The row of each type, by its name on the page of the rows. types.txt calls a type that stands inside another
/// without a name of its own Parent.component; on the page that is the name of the component, and the type is called
/// "type of Parent.component". Every other type has the same name on both. A component's row is no type's. A type
/// without a row, or with the row of another kind, is an error.
fn rows_of(kinds: &[Kind], places: &HashMap<String, usize>, page: &str) -> Result<Vec<u64>, String> {
    let on_page = rows_on(page)?;
    let mut rows = vec![0; kinds.len()];
    for (name, place) in places {
        let called = if name.contains('.') { format!("type of {name}") } else { name.clone() };
        let (row, kind) = on_page.get(called.as_str()).ok_or(format!("{name} has no row: the page has no {called}"))?;
        let wanted = match kinds[*place] {
            Kind::Integer { .. } => "whole number",
            Kind::Enumerated { .. } => "enumeration",
            Kind::Sequence { .. } => "sequence",
            Kind::Choice { .. } => "choice",
            Kind::List { .. } => "list",
        };
        if *kind != wanted {
            return Err(format!("{called} is a {kind} on the page of the rows, and no {wanted}"));
        }
        rows[*place] = *row;
    }
    Ok(rows)
}

/// Row and kind of each name that isn't a component's, from the lines of the page's table: | Row | Name | Section | Kind | ..
fn rows_on(page: &str) -> Result<HashMap<&str, (u64, &str)>, String> {
    let mut found = HashMap::new();
    for line in page.lines() {
        let columns: Vec<&str> = line.split('|').map(str::trim).collect();
        // the first and the last are what stands outside the table; the head and the line below it have no number
        let row = match columns[..] {
            ["", row, _, _, _, _, _, _, ""] => row.parse::<u64>(),
            _ => continue,
        };
        // "list, extensible" is a list
        let kind = columns[4].split(',').next().unwrap_or("");
        if let (Ok(row), true) = (row, kind != "component") {
            if found.insert(columns[2], (row, kind)).is_some() {
                return Err(format!("{} stands twice on the page of the rows", columns[2]));
            }
        }
    }
    Ok(found)
}

/// The fewest bits that hold the span.
pub fn width(span: u64) -> usize {
    let mut bits = 0;
    while bits < 64 && span >> bits > 0 {
        bits += 1;
    }
    bits
}

// ---------------------------------------------------------------------------------------------
// Reading

/// What reading gives back; the sheet is in the lent cells. The edition by which it was read and the type number that was
/// asked for are told with every number.
#[derive(Clone, Copy, Debug, PartialEq, Eq)]
pub struct ReadAnswer {
    pub number: u64,
    pub place: u64,
    pub bits: u64,
    pub cells: u64,
    pub row: u64,
    pub lacking: u64,
    pub edition: u64,
    pub type_number: u64,
}

/// Why a field isn't read, the bit it is said of, with 41 to 44 the row of the type that owns the field, and with 3 how many
/// of the field's bits are not there; each of these two is else 0.
#[derive(Clone, Copy, Debug, PartialEq, Eq)]
pub struct Refusal {
    pub number: u64,
    pub place: usize,
    pub row: u64,
    pub lacking: usize,
}

impl Refusal {
    /// A refusal that names no row and counts no bits.
    pub fn bare(number: u64, place: usize) -> Refusal {
        Refusal { number, place, row: 0, lacking: 0 }
    }

    /// Number 3: so many of the field's bits are not there.
    pub fn short(place: usize, lacking: usize) -> Refusal {
        Refusal { lacking, ..Refusal::bare(3, place) }
    }
}

/// Reads a whole message of the named type into the lent cells.
pub fn read(types: &Types, type_number: u64, bytes: &[u8], lent: &mut [i64]) -> ReadAnswer {
    // what every answer has; those that count or name something put it in
    let told = |number, place: usize| ReadAnswer {
        number,
        place: place as u64,
        bits: 0,
        cells: 0,
        row: 0,
        lacking: 0,
        edition: EDITION,
        type_number,
    };
    let of = match types.named(type_number) {
        Some(of) => of,
        None => return told(2, 0),
    };
    if bytes.len() > MOST_BYTES {
        return told(1, 0);
    }
    let (cells, end) = match read_value(types, of, bytes, 0) {
        Ok(done) => done,
        Err(refusal) => return ReadAnswer { row: refusal.row, lacking: refusal.lacking as u64, ..told(refusal.number, refusal.place) },
    };
    let padding_is_zero = (end..bytes.len() * 8).all(|place| !bit(bytes, place));
    if bytes.len() != (end + 7) / 8 || !padding_is_zero {
        return told(6, end);
    }
    if cells.len() > lent.len() {
        return ReadAnswer { cells: cells.len() as u64, ..told(8, 0) };
    }
    lent[..cells.len()].copy_from_slice(&cells);
    ReadAnswer { bits: end as u64, cells: cells.len() as u64, ..told(0, 0) }
}

/// Reads one value of any type from a place on: its cells and the place after it.
pub fn read_value(types: &Types, of: usize, bytes: &[u8], place: usize) -> Result<(Vec<i64>, usize), Refusal> {
    let mut reading = Reading { types, bytes, place, cells: Vec::new() };
    reading.value(of)?;
    Ok((reading.cells, reading.place))
}

fn bit(bytes: &[u8], place: usize) -> bool {
    bytes[place / 8] >> (7 - place % 8) & 1 == 1
}

struct Reading<'a> {
    types: &'a Types,
    bytes: &'a [u8],
    place: usize,
    cells: Vec<i64>,
}

impl Reading<'_> {
    /// A code of so many bits: short if they are not all there.
    fn code(&mut self, bits: usize) -> Result<u64, Refusal> {
        // a place may be handed in that is far behind the last bit: then none are left
        let left = (self.bytes.len() * 8).saturating_sub(self.place);
        if bits > left {
            return Err(Refusal::short(self.place, bits - left));
        }
        let mut code = 0u64;
        for _ in 0..bits {
            code = code * 2 + bit(self.bytes, self.place) as u64;
            self.place += 1;
        }
        Ok(code)
    }

    /// A bounded whole number, which gives a cell: short before it is judged. One that is outside is told by the kind
    /// and the row of the type that owns it.
    fn cell(&mut self, owner: usize, lowest: i64, highest: i64) -> Result<i64, Refusal> {
        let (place, span) = (self.place, (highest - lowest) as u64);
        let code = self.code(width(span))?;
        if code > span {
            let number = match self.types.kind(owner) {
                Kind::Integer { .. } => 41,
                Kind::Enumerated { .. } => 42,
                Kind::Choice { .. } => 43,
                Kind::List { .. } => 44,
                Kind::Sequence { .. } => unreachable!("a sequence has no number of its own"),
            };
            return Err(Refusal { row: self.types.row(owner), ..Refusal::bare(number, place) });
        }
        let value = lowest + code as i64;
        self.cells.push(value);
        Ok(value)
    }

    /// A presence bit, which gives a cell; no code of a bit is outside.
    fn presence_bit(&mut self) -> Result<bool, Refusal> {
        let code = self.code(1)?;
        self.cells.push(code as i64);
        Ok(code == 1)
    }

    fn extension_bit(&mut self, extensible: bool) -> Result<(), Refusal> {
        let place = self.place;
        if extensible && self.code(1)? == 1 {
            return Err(Refusal::bare(5, place));
        }
        Ok(())
    }

    fn value(&mut self, of: usize) -> Result<(), Refusal> {
        let types = self.types;
        match types.kind(of) {
            Kind::Integer { lowest, highest } => {
                self.cell(of, *lowest, *highest)?;
            }
            Kind::Enumerated { extensible, items } => {
                self.extension_bit(*extensible)?;
                self.cell(of, 0, items.len() as i64 - 1)?;
            }
            Kind::Sequence { extensible, components } => {
                self.extension_bit(*extensible)?;
                let mut present = Vec::with_capacity(components.len());
                for component in components {
                    present.push(!component.optional || self.presence_bit()?);
                }
                for (component, present) in components.iter().zip(present) {
                    if present {
                        self.value(component.of)?;
                    }
                }
            }
            Kind::Choice { extensible, alternatives } => {
                self.extension_bit(*extensible)?;
                let index = self.cell(of, 0, alternatives.len() as i64 - 1)?;
                self.value(alternatives[index as usize].of)?;
            }
            Kind::List { extensible, least, most, item } => {
                self.extension_bit(*extensible)?;
                let size = if least == most { *least } else { self.cell(of, *least, *most)? };
                for _ in 0..size {
                    self.value(*item)?;
                }
            }
        }
        Ok(())
    }
}

// ---------------------------------------------------------------------------------------------
// Values, taken from a sheet

/// A value as a tree; a number stands for whole numbers and for the index of an enumeration.
pub enum Value {
    Number(i64),
    Sequence(Vec<Option<Value>>),
    Choice(usize, Box<Value>),
    List(Vec<Value>),
}

/// The value that the sheet is, or the place of number 7: the first wrong cell, else the sheet's
/// length if cells lack, else the first spare cell. The sheet is walked in cell order, so each of
/// the three is the cell where the walk stops.
pub fn value_of(types: &Types, of: usize, sheet: &[i64]) -> Result<Value, usize> {
    let mut taking = Taking { types, sheet, next: 0 };
    let value = taking.value(of)?;
    if taking.next < sheet.len() {
        return Err(taking.next);
    }
    Ok(value)
}

struct Taking<'a> {
    types: &'a Types,
    sheet: &'a [i64],
    next: usize,
}

impl Taking<'_> {
    fn cell(&mut self, lowest: i64, highest: i64) -> Result<i64, usize> {
        match self.sheet.get(self.next) {
            Some(cell) if lowest <= *cell && *cell <= highest => {
                self.next += 1;
                Ok(*cell)
            }
            // wrong, or lacking: then the place is the sheet's length
            _ => Err(self.next),
        }
    }

    fn value(&mut self, of: usize) -> Result<Value, usize> {
        let types = self.types;
        Ok(match types.kind(of) {
            Kind::Integer { lowest, highest } => Value::Number(self.cell(*lowest, *highest)?),
            Kind::Enumerated { items, .. } => Value::Number(self.cell(0, items.len() as i64 - 1)?),
            Kind::Sequence { components, .. } => {
                let mut present = Vec::with_capacity(components.len());
                for component in components {
                    present.push(!component.optional || self.cell(0, 1)? == 1);
                }
                let mut parts = Vec::with_capacity(components.len());
                for (component, present) in components.iter().zip(present) {
                    parts.push(if present { Some(self.value(component.of)?) } else { None });
                }
                Value::Sequence(parts)
            }
            Kind::Choice { alternatives, .. } => {
                let index = self.cell(0, alternatives.len() as i64 - 1)? as usize;
                Value::Choice(index, Box::new(self.value(alternatives[index].of)?))
            }
            Kind::List { least, most, item, .. } => {
                let size = if least == most { *least } else { self.cell(*least, *most)? };
                let mut items = Vec::new();
                for _ in 0..size {
                    items.push(self.value(*item)?);
                }
                Value::List(items)
            }
        })
    }
}

// ---------------------------------------------------------------------------------------------
// Writing

/// What writing gives back; the message is in the lent bytes.
#[derive(Clone, Copy, Debug, PartialEq, Eq)]
pub struct WriteAnswer {
    pub number: u64,
    pub place: u64,
    pub bits: u64,
    pub bytes: u64,
}

/// Writes the sheet as a whole message of the named type of an edition into the lent bytes.
pub fn write(types: &Types, edition: u64, type_number: u64, sheet: &[i64], lent: &mut [u8]) -> WriteAnswer {
    let refused = |number, place: usize| WriteAnswer { number, place: place as u64, bits: 0, bytes: 0 };
    let of = match types.named(type_number) {
        Some(of) => of,
        None => return refused(2, 0),
    };
    // before anything is said of the sheet
    if edition != EDITION {
        return refused(26, 0);
    }
    let value = match value_of(types, of, sheet) {
        Ok(value) => value,
        Err(place) => return refused(7, place),
    };
    let mut bits = Vec::new();
    put_value(types, of, &value, &mut bits);
    let length = (bits.len() + 7) / 8;
    if length > MOST_BYTES {
        return refused(1, 0);
    }
    if length > lent.len() {
        return WriteAnswer { number: 8, place: 0, bits: 0, bytes: length as u64 };
    }
    for (place, byte) in lent[..length].iter_mut().enumerate() {
        *byte = 0;
        for of_byte in 0..8 {
            // behind the last bit, zero bits to the next whole byte
            let one = bits.get(place * 8 + of_byte).copied().unwrap_or(false);
            *byte = *byte * 2 + one as u8;
        }
    }
    WriteAnswer { number: 0, place: 0, bits: bits.len() as u64, bytes: length as u64 }
}

/// Adds the bits of a value that is known to be one of the type.
pub fn put_value(types: &Types, of: usize, value: &Value, bits: &mut Vec<bool>) {
    match (types.kind(of), value) {
        (Kind::Integer { lowest, highest }, Value::Number(number)) => put_field(*number, *lowest, *highest, bits),
        (Kind::Enumerated { extensible, items }, Value::Number(index)) => {
            put_extension_bit(*extensible, bits);
            put_field(*index, 0, items.len() as i64 - 1, bits);
        }
        (Kind::Sequence { extensible, components }, Value::Sequence(parts)) => {
            put_extension_bit(*extensible, bits);
            for (component, part) in components.iter().zip(parts) {
                if component.optional {
                    bits.push(part.is_some());
                }
            }
            for (component, part) in components.iter().zip(parts) {
                if let Some(part) = part {
                    put_value(types, component.of, part, bits);
                }
            }
        }
        (Kind::Choice { extensible, alternatives }, Value::Choice(index, chosen)) => {
            put_extension_bit(*extensible, bits);
            put_field(*index as i64, 0, alternatives.len() as i64 - 1, bits);
            put_value(types, alternatives[*index].of, chosen, bits);
        }
        (Kind::List { extensible, least, most, item }, Value::List(items)) => {
            put_extension_bit(*extensible, bits);
            // a single size takes no bits
            put_field(items.len() as i64, *least, *most, bits);
            for one in items {
                put_value(types, *item, one, bits);
            }
        }
        _ => unreachable!("a value was taken for another type than its own"),
    }
}

fn put_extension_bit(extensible: bool, bits: &mut Vec<bool>) {
    if extensible {
        bits.push(false);
    }
}

fn put_field(number: i64, lowest: i64, highest: i64, bits: &mut Vec<bool>) {
    let code = (number - lowest) as u64;
    for power in (0..width((highest - lowest) as u64)).rev() {
        bits.push(code >> power & 1 == 1);
    }
}

// ---------------------------------------------------------------------------------------------
// Positions and counts

/// What the resolver gives back; the place is 0 whatever the number.
#[derive(Clone, Copy, Debug, PartialEq, Eq)]
pub struct ResolveAnswer {
    pub number: u64,
    pub latitude: i64,
    pub longitude: i64,
}

/// The numbers that mean "no information" and are no place on their axis (document 02, A3).
const NO_LATITUDE: i64 = 900000001;
const NO_LONGITUDE: i64 = 1800000001;

/// The latitudes that a sum may be, and the longitudes, which "are a full ring" (document 02, A3). The types have the numbers above
/// besides, so these ends are not those of the types.
const LATITUDES: (i64, i64) = (-900000000, 900000000);
const LONGITUDES: (i64, i64) = (-1799999999, 1800000000);

/// The position that a form of PositionOffsetLL gives, seen from a reference. Form 1 to 6 are
/// offsets, form 7 is a position of its own; of the two numbers the longitude's comes first.
pub fn resolve(types: &Types, reference_latitude: i64, reference_longitude: i64, form: i64, longitude_number: i64, latitude_number: i64) -> ResolveAnswer {
    let refused = |number| ResolveAnswer { number, latitude: 0, longitude: 0 };
    if form < 1 || form > 7 {
        return refused(4);
    }
    let latitude_ends = ends(types, "Latitude");
    let longitude_ends = ends(types, "Longitude");
    if !within(reference_latitude, latitude_ends) {
        return refused(4);
    }
    if !within(reference_longitude, longitude_ends) {
        return refused(4);
    }
    let (longitude_number_ends, latitude_number_ends) = match form {
        7 => (longitude_ends, latitude_ends),
        _ => {
            let offset_bits = [12, 14, 16, 18, 22, 24][form as usize - 1];
            let half = 1i64 << (offset_bits - 1);
            ((-half, half - 1), (-half, half - 1))
        }
    };
    if !within(longitude_number, longitude_number_ends) {
        return refused(4);
    }
    if !within(latitude_number, latitude_number_ends) {
        return refused(4);
    }
    // where the form begins: form seven asks nothing of the reference but that it is in its type
    let (latitude, longitude) = match form {
        7 => (latitude_number, longitude_number),
        _ => (reference_latitude, reference_longitude),
    };
    if latitude == NO_LATITUDE || longitude == NO_LONGITUDE {
        return refused(10);
    }
    if form == 7 {
        return ResolveAnswer { number: 0, latitude, longitude };
    }
    let latitude = latitude + latitude_number;
    if !within(latitude, LATITUDES) {
        return refused(9);
    }
    ResolveAnswer { number: 0, latitude, longitude: round_the_ring(i128::from(longitude) + i128::from(longitude_number)) }
}

/// The longitude that any whole number comes to when it is counted on round the ring, however often.
fn round_the_ring(number: i128) -> i64 {
    let (first, last) = (i128::from(LONGITUDES.0), i128::from(LONGITUDES.1));
    let places = last - first + 1;
    (first + (number - first).rem_euclid(places)) as i64
}

fn ends(types: &Types, name: &str) -> (i64, i64) {
    match types.place(name).map(|place| types.kind(place)) {
        Some(Kind::Integer { lowest, highest }) => (*lowest, *highest),
        _ => panic!("{name} is no whole number of the types"),
    }
}

fn within(number: i64, (lowest, highest): (i64, i64)) -> bool {
    lowest <= number && number <= highest
}

/// What the loss count gives back; the place is 0 whatever the number.
#[derive(Clone, Copy, Debug, PartialEq, Eq)]
pub struct MissedAnswer {
    pub number: u64,
    pub missed: u64,
}

/// How many messages were missed between an old and a new message count.
pub fn missed(old: u64, new: u64) -> MissedAnswer {
    if old > 127 || new > 127 {
        return MissedAnswer { number: 4, missed: 0 };
    }
    // two rounds of the ring are added, so that the difference is never below zero
    MissedAnswer { number: 0, missed: (new + 2 * 128 - old - 1) % 128 }
}

// ---------------------------------------------------------------------------------------------
// RSI sending rules

/// What a check of one sheet gives back.
#[derive(Clone, Copy, Debug, PartialEq, Eq)]
pub struct RuleAnswer {
    pub number: u64,
    pub place: u64,
}

/// The RSI sending rules over a sheet of type 0, however long its bytes would be.
pub fn check_rsi(types: &Types, sheet: &[i64]) -> RuleAnswer {
    let answer = |number, place: usize| RuleAnswer { number, place: place as u64 };
    let frame = match frame_of(types, sheet) {
        Ok(frame) => frame,
        Err(place) => return answer(7, place),
    };
    let (name, (message, body)) = message(types, &frame);
    if name != "rsiFrame" {
        return answer(11, 0);
    }
    for (entry, event) in entries(types, message, body, "rtes").into_iter().enumerate() {
        let has = |name| part(types, event.0, event.1, name).is_some();
        if !has("eventPos") {
            return answer(12, entry);
        }
        if !has("eventRadius") && !has("referencePaths") && !has("referenceLinks") {
            return answer(13, entry);
        }
    }
    for (entry, sign) in entries(types, message, body, "rtss").into_iter().enumerate() {
        let has = |name| part(types, sign.0, sign.1, name).is_some();
        if !has("signPos") {
            return answer(14, entry);
        }
        if !has("description") {
            return answer(15, entry);
        }
        if !has("referencePaths") && !has("referenceLinks") {
            return answer(16, entry);
        }
    }
    answer(0, 0)
}

// ---------------------------------------------------------------------------------------------
// Frames, and what is in them, by names

/// A part of a message: its type, and its value.
pub type Part<'a> = (usize, &'a Value);

/// The frame that a sheet of type 0 is, however long its bytes would be; or the place of 7.
pub fn frame_of(types: &Types, sheet: &[i64]) -> Result<Value, usize> {
    value_of(types, types.named(0).expect("the frame is named"), sheet)
}

/// The message in a frame, behind the name of its alternative.
pub fn message<'a>(types: &'a Types, frame: &'a Value) -> (&'a str, Part<'a>) {
    match (types.kind(types.named(0).expect("the frame is named")), frame) {
        (Kind::Choice { alternatives, .. }, Value::Choice(index, body)) => (&alternatives[*index].name, (alternatives[*index].of, body)),
        _ => unreachable!("the frame is a choice"),
    }
}

/// The component of this name, with its type, if it is present.
pub fn part<'a>(types: &Types, of: usize, value: &'a Value, name: &str) -> Option<Part<'a>> {
    match (types.kind(of), value) {
        (Kind::Sequence { components, .. }, Value::Sequence(parts)) => {
            let index = components.iter().position(|component| component.name == name).expect("a component of this name");
            parts[index].as_ref().map(|part| (components[index].of, part))
        }
        _ => unreachable!("only a sequence has components"),
    }
}

/// The entries of the list of this name, with their type; none if the list isn't present.
pub fn entries<'a>(types: &Types, of: usize, value: &'a Value, name: &str) -> Vec<Part<'a>> {
    match part(types, of, value, name) {
        None => Vec::new(),
        Some((list, Value::List(items))) => match types.kind(list) {
            Kind::List { item, .. } => items.iter().map(|one| (*item, one)).collect(),
            _ => unreachable!("a list has the kind of a list"),
        },
        Some(_) => unreachable!("{name} is a list"),
    }
}

/// The number of this name, if it is present.
pub fn number(types: &Types, (of, value): Part, name: &str) -> Option<i64> {
    part(types, of, value, name).map(|(_, part)| match part {
        Value::Number(number) => *number,
        _ => unreachable!("{name} is a number"),
    })
}

// ---------------------------------------------------------------------------------------------
// Batches of sheets

/// The first sheet of a batch, taken off it: 4 bytes for the count of its cells and 8 for each cell, low byte first.
pub fn first_sheet(rest: &mut &[u8]) -> Vec<i64> {
    let (count, behind) = rest.split_at(4);
    let count = u32::from_le_bytes(count.try_into().expect("four bytes")) as usize;
    let (cells, behind) = behind.split_at(8 * count);
    *rest = behind;
    cells.chunks_exact(8).map(|cell| i64::from_le_bytes(cell.try_into().expect("eight bytes"))).collect()
}
