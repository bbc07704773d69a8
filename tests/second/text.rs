//! What the writing program must print for a text, by the second implementation: the edition on the first line, the type number
//! on the second, then a cell on each line. Document 01 says nothing of texts; their form is that of docs/PROGRAMS.md.

use crate::message_text;
use crate::second::Types;

/// The longest text that is taken, in bytes, and the most cells.
const MOST_TEXT: usize = 393215;
const MOST_CELLS: usize = 16384;

/// What stands on the first line before the number.
const EDITION_WORD: &[u8] = b"edition ";

/// What is wrong with a line that has to be a number.
const NO_NUMBER: &str = "no number";
const NO_64_BITS: &str = "no 64-bit number";

pub fn written(types: &Types, text: &[u8]) -> String {
    if text.len() > MOST_TEXT {
        return format!("text of more than {MOST_TEXT} bytes\n");
    }
    match sheet_of(text) {
        Ok((_, _, cells)) if cells.len() > MOST_CELLS => format!("no room for {} cells\n", cells.len()),
        Ok((edition, type_number, cells)) => message_text(types, edition, type_number, &cells),
        Err((line, wrong)) => format!("line {line} is {wrong}\n"),
    }
}

/// The edition, the type number and the cells of a text; or the first line that is wrong, counted from 1, and what it is.
fn sheet_of(text: &[u8]) -> Result<(u64, u64, Vec<i64>), (usize, &'static str)> {
    let lines = lines_of(text);
    // a line that isn't there is as an empty one
    let line = |index: usize| lines.get(index).copied().unwrap_or(b"");
    let edition = match line(0).strip_prefix(EDITION_WORD).map(number::<u64>) {
        Some(Ok(edition)) => edition,
        Some(Err(NO_64_BITS)) => return Err((1, NO_64_BITS)),
        _ => return Err((1, "no edition")),
    };
    let type_number = number::<u64>(line(1)).map_err(|wrong| (2, wrong))?;
    let cells = lines.iter().enumerate().skip(2).map(|(index, cell)| number::<i64>(cell).map_err(|wrong| (index + 1, wrong)));
    Ok((edition, type_number, cells.collect::<Result<_, _>>()?))
}

/// What stands between the ends of lines; the last line needs none, and behind the last end there is no line.
fn lines_of(text: &[u8]) -> Vec<&[u8]> {
    match text.strip_suffix(b"\n").unwrap_or(text) {
        [] if text.is_empty() => Vec::new(),
        rest => rest.split(|byte| *byte == b'\n').collect(),
    }
}

/// A line as a number that the type holds: an optional minus sign and one or more digits, however many zeros are among them.
fn number<T: TryFrom<i128>>(line: &[u8]) -> Result<T, &'static str> {
    let digits = line.strip_prefix(b"-").unwrap_or(line);
    if digits.is_empty() || !digits.iter().all(u8::is_ascii_digit) {
        return Err(NO_NUMBER);
    }
    // a number that is too large for this stays far outside of 64 bits
    let size = digits.iter().fold(0i128, |high, digit| high.saturating_mul(10).saturating_add((digit - b'0').into()));
    T::try_from(if digits.len() < line.len() { -size } else { size }).map_err(|_| NO_64_BITS)
}
