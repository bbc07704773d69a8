//! Inputs by chance: values of the types, and damage to their messages and sheets. The same seed gives the same inputs.

use crate::second::{self, Component, Kind, Types};

/// Random numbers (splitmix64).
pub struct Chance(u64);

impl Chance {
    /// The chance of one input: by the seed and the input's number, so that an input can be made alone.
    pub fn of(seed: u64, input: u64) -> Chance {
        let mut chance = Chance(seed ^ input.wrapping_mul(0xD1B54A32D192ED03));
        chance.number();
        chance
    }

    pub fn number(&mut self) -> u64 {
        self.0 = self.0.wrapping_add(0x9E3779B97F4A7C15);
        let mut mixed = self.0;
        mixed = (mixed ^ (mixed >> 30)).wrapping_mul(0xBF58476D1CE4E5B9);
        mixed = (mixed ^ (mixed >> 27)).wrapping_mul(0x94D049BB133111EB);
        mixed ^ (mixed >> 31)
    }

    pub fn below(&mut self, end: u64) -> u64 {
        self.number() % end
    }

    pub fn between(&mut self, lowest: i64, highest: i64) -> i64 {
        lowest + self.below((highest - lowest) as u64 + 1) as i64
    }

    pub fn holds(&mut self, percent: u64) -> bool {
        self.below(100) < percent
    }

    pub fn one_of<T: Copy>(&mut self, things: &[T]) -> T {
        things[self.below(things.len() as u64) as usize]
    }
}

/// A field of a message: where its bits stand, its range, and its cell, if it gives one.
pub struct Field {
    pub place: usize,
    pub width: usize,
    pub lowest: i64,
    pub highest: i64,
    pub cell: Option<usize>,
}

/// The name of an optional component, and whether it is there each time that it could be, which is not left to chance; behind the last it is.
pub type Decided = (&'static str, std::vec::IntoIter<bool>);

/// A value of a type: its cells, and its fields in the order of the bits; and of each whole number its type and its cell.
pub struct Made<'a> {
    types: &'a Types,
    pub cells: Vec<i64>,
    pub fields: Vec<Field>,
    numbers: Vec<(usize, usize)>,
    place: usize,
    presence: u64,
    decided: Vec<Decided>,
    budget: usize,
}

/// With a budget of so many cells nearly all lists and strings are as long as they can be.
pub const LONGEST: usize = 20000;

/// A value by chance, of at most about so many cells; what is optional is there in so many of a hundred.
pub fn value<'a>(types: &'a Types, name: &str, budget: usize, presence: u64, chance: &mut Chance) -> Made<'a> {
    let mut made = Made::new(types, budget, presence);
    made.add(types.place(name).expect("a named type"), chance);
    made
}

/// A frame by chance with the message of this index in it.
pub fn frame<'a>(types: &'a Types, index: usize, budget: usize, presence: u64, chance: &mut Chance) -> Made<'a> {
    let mut made = Made::new(types, budget, presence);
    made.add_frame(index, chance);
    made
}

/// The same, with some optional components of which it is decided beforehand where they are there.
pub fn decided_frame<'a>(types: &'a Types, index: usize, budget: usize, presence: u64, decided: Vec<Decided>, chance: &mut Chance) -> Made<'a> {
    let mut made = Made { decided, ..Made::new(types, budget, presence) };
    made.add_frame(index, chance);
    made
}

impl Made<'_> {
    fn new(types: &Types, budget: usize, presence: u64) -> Made<'_> {
        Made { types, cells: Vec::new(), fields: Vec::new(), numbers: Vec::new(), place: 0, presence, decided: Vec::new(), budget }
    }

    fn add_frame(&mut self, index: usize, chance: &mut Chance) {
        match self.types.kind(self.types.place(second::NAMED[0]).expect("the frame is named")) {
            Kind::Choice { extensible, alternatives } => {
                self.extension(*extensible);
                self.field(index as i64, 0, alternatives.len() as i64 - 1, true);
                self.add(alternatives[index].of, chance);
            }
            _ => unreachable!("the frame is a choice"),
        }
    }

    fn field(&mut self, number: i64, lowest: i64, highest: i64, gives_cell: bool) {
        let width = second::width((highest - lowest) as u64);
        let cell = if gives_cell { Some(self.cells.len()) } else { None };
        self.fields.push(Field { place: self.place, width, lowest, highest, cell });
        self.place += width;
        if gives_cell {
            self.cells.push(number);
        }
    }

    fn extension(&mut self, extensible: bool) {
        if extensible {
            self.field(0, 0, 1, false);
        }
    }

    fn spent(&self) -> bool {
        self.cells.len() > self.budget
    }

    fn size(&self, least: i64, most: i64, chance: &mut Chance) -> i64 {
        // what is to be long gets there by long lists
        let (shortest, longest) = match self.budget {
            0..=1499 => (30, 8),
            LONGEST.. => (0, 95),
            _ => (30, 40),
        };
        if self.spent() || chance.holds(shortest) {
            least
        } else if chance.holds(longest) {
            most
        } else {
            chance.between(least, most.min(least + 9))
        }
    }

    fn is_there(&mut self, component: &Component, presence: u64, chance: &mut Chance) -> bool {
        match self.decided.iter_mut().find(|(name, _)| *name == component.name) {
            _ if !component.optional => true,
            Some((_, there)) => there.next().unwrap_or(true),
            None => chance.holds(presence),
        }
    }

    fn components(&mut self, components: &[Component], chance: &mut Chance) {
        let presence = if self.spent() { 0 } else { self.presence };
        let present: Vec<bool> = components.iter().map(|component| self.is_there(component, presence, chance)).collect();
        for (_, here) in components.iter().zip(&present).filter(|(component, _)| component.optional) {
            self.field(*here as i64, 0, 1, true);
        }
        for (component, _) in components.iter().zip(&present).filter(|(_, here)| **here) {
            self.add(component.of, chance);
        }
    }

    fn add(&mut self, of: usize, chance: &mut Chance) {
        let types = self.types;
        match types.kind(of) {
            Kind::Integer { lowest, highest } => {
                let inside = chance.between(*lowest, *highest);
                let number = chance.one_of(&[*lowest, *highest, inside, inside, inside, inside]);
                self.numbers.push((of, self.cells.len()));
                self.field(number, *lowest, *highest, true);
            }
            Kind::Enumerated { extensible, items } => {
                self.extension(*extensible);
                self.field(chance.below(items.len() as u64) as i64, 0, items.len() as i64 - 1, true);
            }
            Kind::Sequence { extensible, components } => {
                self.extension(*extensible);
                self.components(components, chance);
            }
            Kind::Choice { extensible, alternatives } => {
                self.extension(*extensible);
                let index = chance.below(alternatives.len() as u64) as usize;
                self.field(index as i64, 0, alternatives.len() as i64 - 1, true);
                self.add(alternatives[index].of, chance);
            }
            Kind::List { extensible, least, most, item } => {
                self.extension(*extensible);
                let size = if least == most { *least } else { self.size(*least, *most, chance) };
                if least != most {
                    self.field(size, *least, *most, true);
                }
                for _ in 0..size {
                    self.add(*item, chance);
                }
            }
        }
    }

    /// How many bits there are.
    pub fn bits(&self) -> usize {
        self.place
    }

    /// How many whole numbers of a type there are.
    pub fn count(&self, name: &str) -> usize {
        let of = self.types.place(name).expect("a type of this name");
        self.numbers.iter().filter(|(owner, _)| *owner == of).count()
    }

    /// Gives the whole numbers of a type other values, which have to be of it; the place counts these numbers.
    pub fn redraw(&mut self, name: &str, mut draw: impl FnMut(usize) -> i64) {
        let of = self.types.place(name).expect("a type of this name");
        for (place, (_, cell)) in self.numbers.iter().filter(|(owner, _)| *owner == of).enumerate() {
            self.cells[*cell] = draw(place);
        }
    }

    /// The message: each field's code, then zero bits to the next whole byte. A code of a field may be another than its cell's.
    pub fn message(&self, other: Option<(usize, u64)>) -> Vec<u8> {
        let mut bytes = vec![0; (self.place + 7) / 8];
        for (number, field) in self.fields.iter().enumerate() {
            let code = match other {
                Some((place, code)) if place == number => code,
                _ => field.cell.map_or(0, |cell| (self.cells[cell] - field.lowest) as u64),
            };
            for bit in (0..field.width).filter(|bit| code >> (field.width - 1 - bit) & 1 == 1) {
                let at = field.place + bit;
                bytes[at / 8] |= 128 >> (at % 8);
            }
        }
        bytes
    }

    /// A field with a code that is refused: past its end, or an extension bit of 1.
    fn refused_code(&self, chance: &mut Chance) -> Option<(usize, u64)> {
        for _ in 0..20 {
            let number = chance.below(self.fields.len() as u64) as usize;
            let field = &self.fields[number];
            let span = (field.highest - field.lowest) as u64;
            if field.cell.is_none() {
                return Some((number, 1));
            }
            if span + 1 < 1 << field.width {
                let past = chance.between(span as i64 + 1, (1 << field.width) - 1) as u64;
                return Some((number, chance.one_of(&[span + 1, past, (1 << field.width) - 1])));
            }
        }
        None
    }
}

/// A message with damage of some kind, or none.
pub fn damaged_message(made: &Made, chance: &mut Chance) -> Vec<u8> {
    let other = if chance.holds(25) { made.refused_code(chance) } else { None };
    let mut bytes = made.message(other);
    let wounds = chance.one_of(&[0, 0, 0, 1, 1, 2, 3]);
    for _ in 0..wounds {
        wound_message(&mut bytes, chance);
    }
    bytes
}

/// A good message cut by whole bytes, with the place of the first field that isn't wholly there and how many of its bits lack: by the
/// fields that the message was made of, and not by reading it.
pub fn cut_message(made: &Made, chance: &mut Chance) -> (Vec<u8>, usize, usize) {
    let mut bytes = made.message(None);
    // of a message that is too long, more is cut off, so that it is read
    let most = bytes.len().min(second::MOST_BYTES + 1);
    bytes.truncate(chance.below(most as u64) as usize);
    let bits = 8 * bytes.len();
    let field = made.fields.iter().find(|field| field.place + field.width > bits).expect("the bytes that are cut off have bits of a field");
    (bytes, field.place, field.place + field.width - bits)
}

fn wound_message(bytes: &mut Vec<u8>, chance: &mut Chance) {
    let length = bytes.len();
    let at = if length == 0 { 0 } else { chance.below(length as u64) as usize };
    match chance.below(9) {
        0 | 1 if length > 0 => bytes[at] ^= 128 >> chance.below(8),
        2 if length > 0 => bytes[at] = chance.one_of(&[0, 255, 1, 128, 127]),
        3 => bytes.truncate(at),
        4 => bytes.push(chance.one_of(&[0, 0, 1, 128, 255])),
        5 if length > 0 => drop(bytes.remove(at)),
        6 => bytes.insert(at, chance.number() as u8),
        // the padding, most often
        7 if length > 0 => bytes[length - 1] |= 1 << chance.below(8),
        8 if chance.holds(20) => bytes.resize(chance.one_of(&[2047, 2048, 2049, 2050, 3000, 4000]), chance.one_of(&[0, 255])),
        _ => (),
    }
}

/// Bytes by chance, which begin like a frame more often than not.
pub fn any_message(chance: &mut Chance) -> Vec<u8> {
    let length = chance.one_of(&[0, 1, 2, 3, 5, 9, 20, 60, 200]) + chance.below(4);
    let mut bytes: Vec<u8> = (0..length).map(|_| chance.number() as u8).collect();
    if let Some(first) = bytes.first_mut() {
        *first = *first % 16 + chance.one_of(&[0, 16, 32, 48, 64, 80, 128]);
    }
    bytes
}

/// A sheet with damage of some kind, or none.
pub fn damaged_sheet(made: &Made, chance: &mut Chance) -> Vec<i64> {
    let mut cells = made.cells.clone();
    let wounds = chance.one_of(&[0, 0, 0, 1, 1, 2, 3]);
    for _ in 0..wounds {
        let field = &made.fields[chance.below(made.fields.len() as u64) as usize];
        match field.cell {
            Some(cell) if cell < cells.len() && chance.holds(60) => cells[cell] = wrong_cell(field, chance),
            _ => wound_sheet(&mut cells, chance),
        }
    }
    cells
}

fn wrong_cell(field: &Field, chance: &mut Chance) -> i64 {
    let far = [i64::MIN, i64::MAX, i64::MIN + 1, i64::MAX - 1, -1, 1 << 32, -(1 << 32), (1 << 40) - 2147483648, 1097364144127, -2147483649];
    let other = chance.between(field.lowest, field.highest);
    let any = chance.number() as i64;
    match chance.below(5) {
        0 => field.lowest - 1,
        1 => field.highest + 1,
        2 => other,
        3 => any,
        _ => chance.one_of(&far),
    }
}

pub fn wound_sheet(cells: &mut Vec<i64>, chance: &mut Chance) {
    let at = if cells.is_empty() { 0 } else { chance.below(cells.len() as u64) as usize };
    match chance.below(4) {
        0 => cells.truncate(at),
        1 => cells.push(chance.one_of(&[0, 1, -1, i64::MIN, i64::MAX])),
        2 if !cells.is_empty() => drop(cells.remove(at)),
        _ => cells.insert(at, chance.one_of(&[0, 1, 2, 255])),
    }
}
