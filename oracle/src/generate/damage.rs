//! Damaged sheets: a good one with a few changes of its bytes, lines, fields, ends, sides or children, or at one of the limits. What the
//! refusal must be is not known here: the second reading says it.

use super::draft::{leaf, node, Draft, Node, Spans};
use crate::random::Random;
use crate::reading::kinds::KINDS;

type Damage = fn(&mut Random, &Draft) -> Vec<u8>;

/// Ways to damage a sheet, by name.
pub const WAYS: [(&str, Damage); 13] = [
    ("bytes", bytes),
    ("lines", lines),
    ("numbers", numbers),
    ("header", header),
    ("names", names),
    ("fields", fields),
    ("ends", ends),
    ("sides", sides),
    ("words", words),
    ("children", children),
    ("several", several),
    ("limits", limits),
    ("depth", deep),
];

/// A sheet damaged in this way.
pub fn damaged(random: &mut Random, way: usize, draft: &Draft) -> Vec<u8> {
    WAYS[way].1(random, draft)
}

fn split(text: &[u8]) -> Vec<Vec<u8>> {
    text.split_inclusive(|byte| *byte == 10).map(<[u8]>::to_vec).collect()
}

fn any_byte(random: &mut Random) -> u8 {
    match random.below(4) {
        0 => *random.pick(b"\n =0129-+\r\t\0x"),
        1 => random.between(32, 127) as u8,
        2 => random.between(48, 57) as u8,
        _ => random.next() as u8,
    }
}

fn change_byte(random: &mut Random, text: &mut Vec<u8>) {
    let at = random.below(text.len().max(1));
    match random.below(5) {
        0 if !text.is_empty() => text[at] = any_byte(random),
        1 => {
            let byte = any_byte(random);
            text.insert(at.min(text.len()), byte);
        }
        2 if !text.is_empty() => {
            text.remove(at);
        }
        3 if at + 1 < text.len() => text.swap(at, at + 1),
        _ => {
            let keep = random.below(text.len() + 1);
            if random.percent(20) {
                text.truncate(keep)
            } else {
                text.push(any_byte(random))
            }
        }
    }
}

fn bytes(random: &mut Random, draft: &Draft) -> Vec<u8> {
    let mut text = draft.text();
    for _ in 0..random.between(1, 2) {
        change_byte(random, &mut text);
    }
    text
}

/// Lines lost, doubled, exchanged, added, not ended.
fn lines(random: &mut Random, draft: &Draft) -> Vec<u8> {
    let mut lines = split(&draft.text());
    let at = random.below(lines.len());
    let other = random.below(lines.len());
    match random.below(8) {
        0 => {
            lines.remove(at);
        }
        1 => lines.insert(at, lines[at].clone()),
        2 => lines.swap(at, other),
        3 => lines.insert(at, b"\n".to_vec()),
        4 => lines.push(lines[other].clone()),
        5 => {
            let last = lines.len() - 1;
            lines[last].pop();
        }
        6 => lines.truncate(at),
        _ => lines[at].insert(0, *random.pick(b" nrsl=")),
    }
    lines.concat()
}

/// What may stand for a number: around it, at the limits, or no number.
fn number_text(random: &mut Random, now: &[u8]) -> Vec<u8> {
    let value: u64 = std::str::from_utf8(now).ok().and_then(|text| text.parse().ok()).unwrap_or(0);
    let text = match random.below(16) {
        0 => value.wrapping_sub(1).to_string(),
        1 | 2 => value.wrapping_add(1).to_string(),
        3 => "0".to_string(),
        4 => "4294967295".to_string(),
        5 => "4294967296".to_string(),
        6 => "18446744073709551616".to_string(),
        7 => format!("0{value}"),
        8 => String::new(),
        9 => format!("{value}x"),
        10 => format!("-{value}"),
        11 => format!("+{value}"),
        12 => "00".to_string(),
        13 => format!("{value}0000000000"),
        14 => format!("{:x}", value.wrapping_add(10)),
        _ => random.below(3000).to_string(),
    };
    text.into_bytes()
}

/// A line of a sheet taken apart: its key, and the fields after it.
struct Line {
    key: Vec<u8>,
    fields: Vec<Vec<u8>>,
}

/// Changes one line of a sheet.
fn change_line(lines: &mut [Vec<u8>], at: usize, change: impl FnOnce(&mut Line)) {
    let text = lines[at].strip_suffix(b"\n").unwrap_or(&lines[at]);
    let key = text.iter().position(|byte| *byte == b'=').map_or(0, |at| at + 1);
    let fields = text[key..].split(|byte| *byte == b' ').map(<[u8]>::to_vec).collect();
    let mut line = Line { key: text[..key].to_vec(), fields };
    change(&mut line);
    lines[at] = [line.key, line.fields.join(&b' '), b"\n".to_vec()].concat();
}

/// A sheet with one line changed, which is chosen from its lines.
fn with_line(draft: &Draft, choose: impl FnOnce(&[Vec<u8>]) -> usize, change: impl FnOnce(&mut Line)) -> Vec<u8> {
    let mut lines = split(&draft.text());
    let at = choose(&lines);
    change_line(&mut lines, at, change);
    lines.concat()
}

/// A number anywhere.
fn numbers(random: &mut Random, draft: &Draft) -> Vec<u8> {
    let which = random.next() as usize;
    with_line(
        draft,
        |lines| which % lines.len(),
        |line| {
            let field = random.below(line.fields.len());
            line.fields[field] = number_text(random, &line.fields[field]);
        },
    )
}

/// The lines that hold one number.
fn header(random: &mut Random, draft: &Draft) -> Vec<u8> {
    let count = draft.names.len();
    let at = *random.pick(&[0, 1, count + 2, count + 3, count + 4, count + 5]);
    with_line(
        draft,
        |_| at,
        |line| {
            line.fields[0] = match random.below(4) {
                0 => random.pick(&["0", "1", "2", "3", "500", "501", "2000", "2001"]).as_bytes().to_vec(),
                1 => count.to_string().into_bytes(),
                _ => number_text(random, &line.fields[0]),
            }
        },
    )
}

/// Names too long, empty, out of order, repeated, or with a byte that no name has.
fn names(random: &mut Random, draft: &Draft) -> Vec<u8> {
    let mut draft = draft.clone();
    let count = draft.names.len();
    let at = random.below(count);
    let other = random.below(count);
    match random.below(7) {
        0 => draft.names[at] = Vec::new(),
        1 => draft.names[at] = vec![*random.pick(b"!a~"); random.between(63, 67)],
        2 => draft.names.swap(at, other),
        3 => draft.names[at] = draft.names[other].clone(),
        4 => {
            let place = random.below(draft.names[at].len() + 1);
            draft.names[at].insert(place, *random.pick(&[0, 9, 13, 31, 32, 33, 126, 127, 128, 255]));
        }
        5 => {
            draft.names[at].pop();
        }
        _ => draft.names[at].push(*random.pick(b"!~0")),
    }
    draft.text()
}

/// A sheet with the line of some row changed.
fn with_row(random: &mut Random, draft: &Draft, change: impl FnOnce(&mut Random, &mut Line)) -> Vec<u8> {
    let row = random.below(draft.root.rows());
    with_line(draft, |lines| lines.len() - 1 - row, |line| change(random, line))
}

/// More or fewer fields, or spaces elsewhere.
fn fields(random: &mut Random, draft: &Draft) -> Vec<u8> {
    with_row(random, draft, |random, line| {
        let field = random.below(line.fields.len());
        match random.below(7) {
            0 => drop(line.fields.remove(field)),
            1 => line.fields.insert(field, b"0".to_vec()),
            2 => line.fields.insert(field, Vec::new()),
            3 => line.fields.push(Vec::new()),
            4 => line.fields[field] = Vec::new(),
            5 => line.fields[field].push(*random.pick(b"\t\r;,=")),
            _ => line.key = random.pick(&["row ", "row", "Row=", "rows=", "name=", "=", ""]).as_bytes().to_vec(),
        }
    })
}

/// Another end for a row with this number: around it, or at a limit.
fn other_end(random: &mut Random, row: usize, end: usize, rows: usize) -> usize {
    match random.below(8) {
        0 => end.saturating_sub(1),
        1 => end + 1,
        2 => row,
        3 => row + 1,
        4 => rows,
        5 => rows + 1,
        6 => 0,
        _ => random.below(rows + 2),
    }
}

/// The ends of one row or two.
fn ends(random: &mut Random, draft: &Draft) -> Vec<u8> {
    let mut lines = split(&draft.text());
    let rows = draft.root.rows();
    let first = lines.len() - rows;
    for _ in 0..random.between(1, 2) {
        let row = random.below(rows);
        change_line(&mut lines, first + row, |line| {
            let end = std::str::from_utf8(&line.fields[4]).expect("digits").parse().expect("an end");
            line.fields[4] = other_end(random, row, end, rows).to_string().into_bytes();
        });
    }
    lines.concat()
}

/// The side of a row.
fn sides(random: &mut Random, draft: &Draft) -> Vec<u8> {
    let names = draft.names.len();
    with_row(random, draft, |random, line| {
        let side = match random.below(4) {
            0 => random.between(0, 9).to_string(),
            1 => names.to_string(),
            2 => (names - 1).to_string(),
            _ => random.pick(&["1", "2", "3", "4", "7", "8", "4294967295"]).to_string(),
        };
        line.fields[1] = side.into_bytes();
    })
}

/// The word of a row: another kind's, or none.
fn words(random: &mut Random, draft: &Draft) -> Vec<u8> {
    with_row(random, draft, |random, line| {
        let word = random.pick(&KINDS).word;
        let other = match random.below(6) {
            0 | 1 => word.to_string(),
            2 => word[..word.len() - 1].to_string(),
            3 => format!("{word}{}", *random.pick(b"asx0") as char),
            4 => word.to_uppercase(),
            _ => word.chars().rev().collect(),
        };
        line.fields[0] = other.into_bytes();
    })
}

/// Some row with the smallest children that fit it, as a thing to put where it may not stand.
fn stray(random: &mut Random) -> Node {
    let path = || node("path", 0, vec![]);
    match random.below(8) {
        0 => leaf("none"),
        1 => path(),
        2 => node("seg", 0, vec![]),
        3 => node("ident", 0, vec![path()]),
        4 => node("lident", 0, vec![path()]),
        5 => node("decl", 0, vec![leaf("none")]),
        6 => node("default", 0, vec![leaf("null")]),
        _ => Node { kind: random.below(KINDS.len()), side: 0, children: vec![] },
    }
}

fn change_children(random: &mut Random, root: &mut Node) {
    let row = random.below(root.rows());
    let node = root.at_mut(row);
    let count = node.children.len();
    match random.below(6) {
        0 if count > 0 => {
            node.children.remove(random.below(count));
        }
        1 if count > 0 => {
            let child = random.below(count);
            node.children.insert(child, node.children[child].clone());
        }
        2 if count > 1 => {
            let (a, b) = (random.below(count), random.below(count));
            node.children.swap(a, b);
        }
        3 if count > 0 => node.children[random.below(count)] = stray(random),
        4 => {
            node.kind = random.below(KINDS.len());
            node.side = 0;
        }
        _ => {
            let at = random.below(count + 1);
            node.children.insert(at, stray(random));
        }
    }
}

/// Children too few, too many, in another order, of another kind; the ends follow.
fn children(random: &mut Random, draft: &Draft) -> Vec<u8> {
    let mut draft = draft.clone();
    for _ in 0..random.between(1, 2) {
        change_children(random, &mut draft.root);
    }
    draft.text()
}

/// Several faults at once, a lost last line among them: which comes first is a matter of the order.
fn several(random: &mut Random, draft: &Draft) -> Vec<u8> {
    let mut draft = draft.clone();
    if random.percent(50) {
        change_children(random, &mut draft.root);
    }
    let mut lines = split(&draft.text());
    for _ in 0..random.between(2, 3) {
        let at = random.below(lines.len());
        change_line(&mut lines, at, |line| {
            let field = random.below(line.fields.len());
            match random.below(4) {
                0 => line.fields[field] = number_text(random, &line.fields[field]),
                1 => line.fields[field] = b"zz".to_vec(),
                2 => line.fields.push(b"1".to_vec()),
                _ => line.fields[field] = random.below(9).to_string().into_bytes(),
            }
        });
    }
    if random.percent(25) {
        lines.pop();
    }
    lines.concat()
}

/// So many names of four bytes.
fn many_names(count: usize) -> Vec<Vec<u8>> {
    (0..count).map(|i| format!("n{i:03}").into_bytes()).collect()
}

/// Blocks in blocks, so deep.
fn nested(depth: usize) -> Node {
    let mut inner = leaf("null");
    for _ in 1..depth {
        inner = node("block", 0, vec![inner]);
    }
    inner
}

/// A sheet of exactly so many bytes, by the lengths of its names.
fn sized(size: usize, kind: &str) -> Vec<u8> {
    let root = node("block", 0, vec![leaf(kind); 1000]);
    let mut draft = Draft { names: many_names(500), local: 0, start: 0, sole: 1, spans: Spans::Any(7), root };
    let mut missing = size - draft.text().len();
    for name in &mut draft.names {
        let more = missing.min(60);
        name.extend(vec![b'+'; more]);
        missing -= more;
    }
    assert_eq!(missing, 0, "names of 64 bytes make a sheet of {size}");
    draft.text()
}

/// Around depth 100, alone or with another fault.
fn deep(random: &mut Random, draft: &Draft) -> Vec<u8> {
    let mut draft = draft.clone();
    let chain = nested(random.between(98, 102));
    draft.root = if random.percent(50) { chain } else { node("block", 0, vec![chain, draft.root]) };
    match random.below(3) {
        0 => draft.text(),
        1 => ends(random, &draft),
        _ => children(random, &draft),
    }
}

/// At the limits, and one past them.
fn limits(random: &mut Random, draft: &Draft) -> Vec<u8> {
    let mut draft = draft.clone();
    match random.below(5) {
        0 => {
            draft.names = many_names(random.between(499, 501));
            draft.local = random.between(498, 501);
        }
        1 => {
            let rows = random.between(1999, 2001);
            draft.root = node("block", 0, vec![leaf("null"); rows - 1]);
        }
        2 => {
            let kind = random.pick(&["null", "null", "lit"]);
            return sized(random.between(65_535, 65_538), kind);
        }
        3 => draft.names[0] = vec![b'!'; random.between(63, 66)],
        _ => return deep(random, &draft),
    }
    draft.text()
}
