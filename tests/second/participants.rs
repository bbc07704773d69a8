//! The check of an RSM against its sending profile a second time: written plainly from document 02 (A1), and from nothing of the proved check,
//! so that it has something to be held against.
//!
//! The value is taken from the sheet by second.rs, and what is asked of it by the names of its components. Nothing here touches a file, a
//! stream or the command line.

use crate::second::{self, Part, RuleAnswer, Types};

/// The kind of frame, by the name of its alternative.
const RSM: &str = "rsmFrame";
/// "Exactly one participant has ptcId 0, the unit itself".
pub const UNIT: i64 = 0;

/// What is asked of a participant: its ptcId, and whether it has the required field that its type leaves optional.
pub struct Participant {
    pub id: i64,
    pub has_class: bool,
}

fn answer(number: u64, place: usize) -> RuleAnswer {
    RuleAnswer { number, place: place as u64 }
}

/// The participants of a sheet, "however long its bytes would be"; or the answer where there are none: 7 at its place, "22 not an RSM".
pub fn list_of(types: &Types, sheet: &[i64]) -> Result<Vec<Participant>, RuleAnswer> {
    let frame = second::frame_of(types, sheet).map_err(|place| answer(7, place))?;
    let (name, (of, body)) = second::message(types, &frame);
    if name != RSM {
        return Err(answer(22, 0));
    }
    Ok(second::entries(types, of, body, "participants").into_iter().map(|part| participant(types, part)).collect())
}

fn participant(types: &Types, (of, value): Part) -> Participant {
    let id = second::number(types, (of, value), "ptcId").expect("an id is always there");
    Participant { id, has_class: second::part(types, of, value, "vehicleClass").is_some() }
}

pub fn check(types: &Types, sheet: &[i64]) -> RuleAnswer {
    list_of(types, sheet).map_or_else(|refused| refused, |list| judged(&list))
}

/// "23 a repeated id (place: the first entry that repeats an earlier one), 24 no entry with id 0", then 30 "entry by entry".
pub fn judged(list: &[Participant]) -> RuleAnswer {
    for (place, own) in list.iter().enumerate() {
        if list[..place].iter().any(|earlier| earlier.id == own.id) {
            return answer(23, place);
        }
    }
    if list.iter().all(|own| own.id != UNIT) {
        return answer(24, 0);
    }
    list.iter().position(|own| !own.has_class).map_or(answer(0, 0), |place| answer(30, place))
}

/// The lines for a batch of sheets, as tests/participants has them.
pub fn lines(types: &Types, input: &[u8]) -> String {
    let (mut out, mut rest) = (String::new(), input);
    while !rest.is_empty() {
        let RuleAnswer { number, place } = check(types, &second::first_sheet(&mut rest));
        out += &format!("{number} {place}\n");
    }
    out
}
