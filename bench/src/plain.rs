//! Reading a sheet as one would for production: each line once, words by a match, ends and children with a stack.
//!
//! The oracle's reading is there to be compared with a document, and is slow at some of it. A library is not to look fast beside that,
//! so this reading gives the same sheets and the same refusals without the detours, and the tables have both.

use oracle::reading::kinds::{Class, Item, Side, KINDS};
use oracle::sheet::{Refused, Row, Sheet};

struct Lines<'a> {
    left: &'a [u8],
    last: usize,
}

impl<'a> Lines<'a> {
    fn refused(&self, number: u32) -> Refused {
        Refused { number, place: self.last }
    }

    fn after_key(&mut self, key: &[u8]) -> Result<&'a [u8], Refused> {
        self.last += 1;
        self.left.strip_prefix(key).ok_or(self.refused(1))
    }

    /// Why no numbers could be read of a line that has so many fields: 1 for its shape, else 2.
    #[cold]
    fn unreadable(&self, line: &[u8], fields: usize) -> Refused {
        let end = line.iter().position(|byte| *byte == b'\n');
        let shaped = end.is_some_and(|end| fields == 1 || line[..end].split(|byte| *byte == b' ').count() == fields);
        self.refused(if shaped { 2 } else { 1 })
    }

    fn number(&mut self, key: &[u8], least: u32, most: u32) -> Result<u32, Refused> {
        let line = self.after_key(key)?;
        let (n, left) = number_before(b'\n', line).ok_or_else(|| self.unreadable(line, 1))?;
        self.left = left;
        (least..=most).contains(&n).then_some(n).ok_or(self.refused(3))
    }

    fn name(&mut self, before: Option<&String>) -> Result<String, Refused> {
        let line = self.after_key(b"name=")?;
        let end = line.iter().position(|byte| *byte == b'\n').ok_or(self.refused(1))?;
        let (text, left) = (&line[..end], &line[end + 1..]);
        self.left = left;
        let fits = (1..=64).contains(&text.len()) && text.iter().all(|byte| (33..=126).contains(byte));
        if !fits || before.is_some_and(|name| name.as_bytes() >= text) {
            return Err(self.refused(4));
        }
        Ok(String::from_utf8(text.to_vec()).expect("bytes below 127"))
    }

    fn row(&mut self, names: u32) -> Result<Row, Refused> {
        let line = self.after_key(b"row=")?;
        let (word, [side, lo, hi, end], left) = row_fields(line).ok_or_else(|| self.unreadable(line, 5))?;
        self.left = left;
        let kind = kind_of(word).ok_or(self.refused(5))?;
        let allowed = if let Side::UpTo(most) = KINDS[kind].side { side <= most } else { side < names };
        allowed.then_some(Row { kind, side, lo, hi, end: end as usize }).ok_or(self.refused(6))
    }
}

/// A number with this byte after it, and what stands after both.
fn number_before(last: u8, text: &[u8]) -> Option<(u32, &[u8])> {
    let mut n = 0u64;
    for (i, byte) in text.iter().enumerate() {
        let digit = byte.wrapping_sub(b'0');
        if digit > 9 {
            let spelled = *byte == last && (1..=10).contains(&i) && (i == 1 || text[0] != b'0');
            return if spelled { Some((u32::try_from(n).ok()?, &text[i + 1..])) } else { None };
        }
        n = n.wrapping_mul(10).wrapping_add(u64::from(digit));
    }
    None
}

/// The word and the numbers of a row, and the lines after it.
fn row_fields(line: &[u8]) -> Option<(&[u8], [u32; 4], &[u8])> {
    let space = line.iter().position(|byte| matches!(byte, b' ' | b'\n'))?;
    let (side, left) = number_before(b' ', line[space..].strip_prefix(b" ")?)?;
    let (lo, left) = number_before(b' ', left)?;
    let (hi, left) = number_before(b' ', left)?;
    let (end, left) = number_before(b'\n', left)?;
    Some((&line[..space], [side, lo, hi, end], left))
}

#[rustfmt::skip]
fn kind_of(word: &[u8]) -> Option<usize> {
    Some(match word {
        b"none" => 0, b"path" => 1, b"seg" => 2, b"delay" => 3, b"intra" => 4, b"star" => 5, b"list" => 6, b"event" => 7,
        b"match" => 8, b"default" => 9, b"decl" => 10, b"blocking" => 11, b"nonblocking" => 12, b"if" => 13, b"return" => 14,
        b"case" => 15, b"for" => 16, b"while" => 17, b"repeat" => 18, b"forever" => 19, b"block" => 20, b"fork" => 21,
        b"systask" => 22, b"task" => 23, b"randstmt" => 24, b"delayctrl" => 25, b"eventctrl" => 26, b"trigger" => 27,
        b"wait" => 28, b"disable" => 29, b"waitfork" => 30, b"concurrent" => 31, b"passign" => 32, b"deassign" => 33,
        b"force" => 34, b"release" => 35, b"deferred" => 36, b"cover" => 37, b"null" => 38, b"error" => 39, b"lit" => 40,
        b"ident" => 41, b"unary" => 42, b"binary" => 43, b"ternary" => 44, b"bitsel" => 45, b"partsel" => 46, b"indexed" => 47,
        b"mtm" => 48, b"concat" => 49, b"syscall" => 50, b"pattern" => 51, b"replicate" => 52, b"method" => 53, b"call" => 54,
        b"paren" => 55, b"cast" => 56, b"namedarg" => 57, b"new" => 58, b"opaque" => 59, b"lident" => 60, b"lbit" => 61,
        b"lpart" => 62, b"lidx" => 63, b"lconcat" => 64, b"lerror" => 65,
        _ => return None,
    })
}

#[rustfmt::skip]
fn is_of(kind: usize, class: Class) -> bool {
    let (first, last) = match class {
        Class::Path => (1, 1), Class::Seg => (2, 2), Class::Delay => (3, 3), Class::Intra => (4, 4), Class::StarOrList => (5, 6),
        Class::Event => (7, 7), Class::Arm => (8, 9), Class::Decl => (10, 10), Class::S => (11, 39), Class::E => (40, 59),
        Class::L => (60, 65),
    };
    first <= kind && kind <= last
}

/// What a row still waits for after a child of this kind; nothing where it does not fit.
fn after_child(mut wanted: &'static [Item], kind: usize) -> Option<&'static [Item]> {
    while let [item, later @ ..] = wanted {
        match *item {
            Item::Any(class) if is_of(kind, class) => return Some(wanted),
            Item::Any(_) => wanted = later,
            Item::One(class) => return is_of(kind, class).then_some(later),
            Item::Maybe(class) => return (kind == 0 || is_of(kind, class)).then_some(later),
        }
    }
    None
}

/// Refusals 7 and 8, with the row; then 9, for the first row whose children do not fit. A row stays open up to its end.
fn nested(rows: &[Row]) -> Result<(), (u32, usize)> {
    let mut unfit = if is_of(rows[0].kind, Class::S) { rows.len() } else { 0 };
    let mut open: Vec<(usize, Option<&[Item]>)> = Vec::with_capacity(100);
    for i in 0..=rows.len() {
        while let Some((row, wanted)) = open.last().filter(|(row, _)| rows[*row].end <= i) {
            let complete = wanted.is_some_and(|items| items.iter().all(|item| matches!(item, Item::Any(_))));
            unfit = if complete { unfit } else { unfit.min(*row) };
            open.pop();
        }
        let Some(row) = rows.get(i) else { break };
        let most = open.last().map_or(rows.len(), |(outer, _)| rows[*outer].end);
        if row.end <= i || row.end > most || (i == 0 && row.end != most) {
            return Err((7, i));
        } else if open.len() == 100 {
            return Err((8, i));
        }
        if let Some((_, wanted)) = open.last_mut() {
            *wanted = wanted.and_then(|items| after_child(items, row.kind));
        }
        open.push((i, Some(KINDS[row.kind].children)));
    }
    (unfit == rows.len()).then_some(()).ok_or((9, unfit))
}

/// A sheet's bytes loaded, or the refusal that goes before all others.
pub fn load(bytes: &[u8]) -> Result<Sheet, Refused> {
    if bytes.len() > 65_536 {
        return Err(Refused { number: 10, place: 0 });
    }
    let mut lines = Lines { left: bytes, last: 0 };
    lines.number(b"sheet=", 1, 1)?;
    let count = lines.number(b"names=", 1, 500)?;
    let mut names = Vec::with_capacity(count as usize);
    for _ in 0..count {
        names.push(lines.name(names.last())?);
    }
    let local = lines.number(b"local=", 0, count - 1)? as usize;
    let start = lines.number(b"start=", 0, 1)? == 1;
    let sole = lines.number(b"sole=", 0, 1)? == 1;
    let length = lines.number(b"rows=", 1, 2000)?;
    let mut rows = Vec::with_capacity(length as usize);
    for _ in 0..length {
        rows.push(lines.row(count)?);
    }
    if !lines.left.is_empty() {
        return Err(Refused { number: 1, place: lines.last + 1 });
    }
    nested(&rows).map_err(|(number, row)| Refused { number, place: names.len() + 7 + row })?;
    Ok(Sheet { names, local, start, sole, rows })
}
