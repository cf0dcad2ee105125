//! Loading and the checks of asking, read a second time: written from document 01 alone, so that the checker's own reading of it
//! can be compared with another.

pub mod kinds;
pub mod tables;

use crate::sheet::{Refused, Row, Sheet, State};
use kinds::KINDS;

/// The lines that are left, and the number of the line read last.
struct Lines<'a> {
    left: &'a [u8],
    last: usize,
}

impl<'a> Lines<'a> {
    fn refused<T>(&self, number: u32) -> Result<T, Refused> {
        Err(Refused { number, place: self.last })
    }

    /// What stands after its key on the next line. 1: "missing .. line, wrong key, a last line without byte 10".
    fn after_key(&mut self, key: &str) -> Result<&'a [u8], Refused> {
        self.last += 1;
        let Some(end) = self.left.iter().position(|byte| *byte == 10) else {
            return self.refused(1);
        };
        let line = &self.left[..end];
        self.left = &self.left[end + 1..];
        match line.strip_prefix(key.as_bytes()) {
            Some(text) => Ok(text),
            None => self.refused(1),
        }
    }

    /// The number of the next line, which 3 wants in this range.
    fn number(&mut self, key: &str, least: u32, most: u32) -> Result<usize, Refused> {
        let text = self.after_key(key)?;
        match decimal(text) {
            None => self.refused(2),
            Some(n) if n < least || n > most => self.refused(3),
            Some(n) => Ok(n as usize),
        }
    }

    /// 4: "a name outside 1..64 bytes, with a byte outside 33..126, or not above the one before it in byte order".
    fn name(&mut self, before: Option<&String>) -> Result<String, Refused> {
        let text = self.after_key("name=")?;
        let above = before.is_none_or(|name| name.as_bytes() < text);
        if text.is_empty() || text.len() > 64 || !text.iter().all(|b| (33..=126).contains(b)) || !above {
            return self.refused(4);
        }
        Ok(text.iter().map(|b| *b as char).collect())
    }

    /// `row=kind side lo hi end`: 1 for the fields, 2 for the numbers, 5 for the word, 6 for the side.
    fn row(&mut self, names: usize) -> Result<Row, Refused> {
        let text = self.after_key("row=")?;
        let fields: Vec<&[u8]> = text.split(|byte| *byte == b' ').collect();
        let [word, side, lo, hi, end] = fields[..] else {
            return self.refused(1);
        };
        let (Some(side), Some(lo), Some(hi), Some(end)) = (decimal(side), decimal(lo), decimal(hi), decimal(end)) else {
            return self.refused(2);
        };
        let Some(kind) = kinds::numbered(word) else {
            return self.refused(5);
        };
        if !tables::side_allowed(kind, side, names) {
            return self.refused(6);
        }
        Ok(Row { kind, side, lo, hi, end: end as usize })
    }
}

/// 2: "a number that is empty, has a non-digit, has a leading zero and more digits, or is above 4,294,967,295".
fn decimal(text: &[u8]) -> Option<u32> {
    if text.is_empty() || !text.iter().all(u8::is_ascii_digit) || (text.len() > 1 && text[0] == b'0') {
        return None;
    }
    std::str::from_utf8(text).expect("digits").parse().ok()
}

/// The lines of a sheet, from the first to the last.
fn lines(bytes: &[u8]) -> Result<Sheet, Refused> {
    let mut lines = Lines { left: bytes, last: 0 };
    lines.number("sheet=", 1, 1)?;
    let count = lines.number("names=", 1, 500)?;
    let mut names: Vec<String> = Vec::new();
    for _ in 0..count {
        let name = lines.name(names.last())?;
        names.push(name);
    }
    let local = lines.number("local=", 0, count as u32 - 1)?;
    let start = lines.number("start=", 0, 1)?;
    let sole = lines.number("sole=", 0, 1)?;
    let count = lines.number("rows=", 1, 2000)?;
    let mut rows = Vec::new();
    for _ in 0..count {
        rows.push(lines.row(names.len())?);
    }
    if !lines.left.is_empty() {
        lines.last += 1;
        return lines.refused(1);
    }
    Ok(Sheet { names, local, start: start == 1, sole: sole == 1, rows })
}

/// A sheet's bytes loaded into tables that are long enough, as document 01 orders the refusals: "10; then 1 to 6, first line first,
/// lowest number on one line; 21; then 7 and 8 in row order, 7 before 8; then 9 in row order".
pub fn load(bytes: &[u8]) -> Result<Sheet, Refused> {
    if bytes.len() > 65_536 {
        return Err(Refused { number: 10, place: 0 });
    }
    let sheet = lines(bytes)?;
    match tables::ends(&sheet.rows).or_else(|| tables::children(&sheet.rows)) {
        Some((number, row)) => Err(Refused { number, place: sheet.names.len() + 7 + row }),
        None => Ok(sheet),
    }
}

/// 22: "counts outside the ranges of 3, a local not below names, a start or sole above 1, or tables too short for it".
fn record_right(state: &State) -> bool {
    (1..=500).contains(&state.names)
        && (1..=2000).contains(&state.rows)
        && state.local < state.names
        && state.start <= 1
        && state.sole <= 1
        && state.row_table.len() as u64 >= 5 * state.rows
        && state.name_table.len() as u64 >= 3 * state.names
}

/// The rows of a table, or the first whose kind (5) or side (6) is none.
fn rows_of(state: &State) -> Result<Vec<Row>, usize> {
    let numbers = state.row_table.chunks_exact(5).take(state.rows as usize);
    numbers
        .enumerate()
        .map(|(i, row)| {
            let kind = row[0] as usize;
            if kind >= KINDS.len() || !tables::side_allowed(kind, row[1], state.names as usize) {
                return Err(i);
            }
            Ok(Row { kind, side: row[1], lo: row[2], hi: row[3], end: row[4] as usize })
        })
        .collect()
}

/// What a record and tables hold, or asking's refusal: "22, then marks, then fields, ends and depth, children, each in row order".
/// A name has no text here but one that tells its number and its mark.
pub fn held(state: &State) -> Result<Sheet, Refused> {
    if !record_right(state) {
        return Err(Refused { number: 22, place: 0 });
    }
    let marks: Vec<u32> = state.name_table.chunks_exact(3).take(state.names as usize).map(|name| name[2]).collect();
    if marks.iter().any(|mark| *mark > 1) {
        return Err(Refused { number: 23, place: 0 });
    }
    let wrong = |place| Refused { number: 23, place };
    let rows = rows_of(state).map_err(wrong)?;
    if let Some((_, row)) = tables::ends(&rows).or_else(|| tables::children(&rows)) {
        return Err(wrong(row));
    }
    let name = |(i, mark): (usize, &u32)| if *mark == 1 { format!("$break${i}") } else { format!("n{i}") };
    Ok(Sheet {
        names: marks.iter().enumerate().map(name).collect(),
        local: state.local as usize,
        start: state.start == 1,
        sole: state.sole == 1,
        rows,
    })
}
