//! Records and tables that loading did not leave: those of a sheet, with numbers of the record, marks, rows or lengths changed.

use crate::generate::draft::{is_jump, kind_of};
use crate::generate::Generator;
use crate::random::Random;
use crate::reading;
use crate::sheet::{Row, Sheet, State};
use crate::states;

/// The record and tables that loading leaves, with room to spare or none.
pub fn loaded(sheet: &Sheet, spare: usize) -> State {
    let mut row_table: Vec<u32> = Vec::new();
    for row in &sheet.rows {
        row_table.extend([row.kind as u32, row.side, row.lo, row.hi, row.end as u32]);
    }
    row_table.resize(row_table.len() + spare, 0);
    let mut name_table: Vec<u32> = Vec::new();
    let mut offset = format!("sheet=1\nnames={}\nname=", sheet.names.len()).len();
    for name in &sheet.names {
        name_table.extend([offset as u32, name.len() as u32, u32::from(is_jump(name.as_bytes()))]);
        offset += name.len() + 6;
    }
    name_table.resize(name_table.len() + spare, 0);
    State {
        names: sheet.names.len() as u64,
        rows: sheet.rows.len() as u64,
        local: sheet.local as u64,
        start: u64::from(sheet.start),
        sole: u64::from(sheet.sole),
        row_table,
        name_table,
    }
}

/// A number near this one, at a limit, or any.
fn other_number(random: &mut Random, now: u64) -> u64 {
    match random.below(8) {
        0 => now.saturating_add(1),
        1 => now.saturating_sub(1),
        2 => 0,
        3 => *random.pick(&[1, 2, 500, 501, 2000, 2001]),
        4 => u64::from(u32::MAX),
        5 => u64::MAX,
        6 => 1 << 32,
        _ => random.below(70) as u64,
    }
}

fn change_record(random: &mut Random, state: &mut State) {
    let number = match random.below(5) {
        0 => &mut state.names,
        1 => &mut state.rows,
        2 => &mut state.local,
        3 => &mut state.start,
        _ => &mut state.sole,
    };
    *number = other_number(random, *number);
}

fn change_length(random: &mut Random, state: &mut State) {
    let table = if random.percent(50) { &mut state.row_table } else { &mut state.name_table };
    let size = table.len();
    let to = match random.below(3) {
        0 => size.saturating_sub(1),
        1 => random.below(size + 1),
        _ => size + random.below(20),
    };
    table.resize(to, 0);
}

fn change_table(random: &mut Random, table: &mut [u32], width: usize, field: usize) {
    let rows = table.len() / width;
    if rows == 0 {
        return;
    }
    let at = random.below(rows) * width + field;
    table[at] = (other_number(random, u64::from(table[at])) % (1 << 32)) as u32;
}

fn change(random: &mut Random, state: &mut State) {
    match random.below(9) {
        0 | 1 => change_record(random, state),
        2 => change_length(random, state),
        3 => change_table(random, &mut state.name_table, 3, 2),
        4 => change_table(random, &mut state.name_table, 3, 0),
        5 => change_table(random, &mut state.row_table, 5, 0),
        6 => change_table(random, &mut state.row_table, 5, 1),
        7 => change_table(random, &mut state.row_table, 5, 4),
        _ => change_table(random, &mut state.row_table, 5, 2),
    }
}

/// Blocks in blocks, around depth 100.
fn nested(depth: usize) -> Sheet {
    let row = |i| Row { kind: kind_of(if i + 1 == depth { "null" } else { "block" }), side: 0, lo: 0, hi: 0, end: depth };
    Sheet { names: vec!["x".to_string()], local: 0, start: false, sole: true, rows: (0..depth).map(row).collect() }
}

/// A sheet to take the tables of: the next good one from this number on that is not long, or a deep one.
fn taken(generator: &Generator, random: &mut Random, number: usize) -> Sheet {
    if random.percent(3) {
        return nested(random.between(99, 102));
    }
    let loaded = (number..).filter_map(|from| reading::load(&generator.sheet(from).bytes).ok());
    loaded.into_iter().find(|sheet| sheet.rows.len() < 200 && sheet.names.len() < 50).expect("good sheets do not end")
}

/// The state of this number, and where it comes from.
pub fn made(generator: &Generator, seed: u64, number: usize) -> (Vec<u8>, String) {
    let mut random = Random::new(seed ^ 0x5747, number as u64);
    let sheet = taken(generator, &mut random, number);
    let spare = *random.pick(&[0, 0, 1, 7]);
    let mut state = loaded(&sheet, spare);
    let changes = random.below(4);
    for _ in 0..changes {
        change(&mut random, &mut state);
    }
    (states::write(&format!("state {number}"), &state), format!("damaged {changes} times"))
}
