//! The text of a state, as `ask_cases` reads it: `title|names rows local start sole|R|numbers|N|numbers`, a row table of R numbers and a
//! name table of N, with these numbers first and zeros after them.

use crate::sheet::State;

fn numbers(text: &str) -> Vec<u64> {
    text.split(' ').filter(|word| !word.is_empty()).map(|word| word.parse().expect("a number")).collect()
}

fn table(count: &str, text: &str) -> Vec<u32> {
    let mut table: Vec<u32> = numbers(text).iter().map(|n| u32::try_from(*n).expect("a table's number")).collect();
    table.resize(count.parse().expect("a count"), 0);
    table
}

pub fn read(frame: &[u8]) -> (String, State) {
    let text = std::str::from_utf8(frame).expect("text");
    let parts: Vec<&str> = text.split('|').collect();
    let [title, record, rows, row_numbers, names, name_numbers] = parts[..] else {
        panic!("six parts: {text}");
    };
    let record = numbers(record);
    let state = State {
        names: record[0],
        rows: record[1],
        local: record[2],
        start: record[3],
        sole: record[4],
        row_table: table(rows, row_numbers),
        name_table: table(names, name_numbers),
    };
    (title.to_string(), state)
}

fn spelled(table: &[u32]) -> String {
    let used = table.iter().rposition(|n| *n != 0).map_or(0, |last| last + 1);
    let words: Vec<String> = table[..used].iter().map(u32::to_string).collect();
    format!("{}|{}", table.len(), words.join(" "))
}

pub fn write(title: &str, state: &State) -> Vec<u8> {
    let record = format!("{} {} {} {} {}", state.names, state.rows, state.local, state.start, state.sole);
    format!("{title}|{record}|{}|{}", spelled(&state.row_table), spelled(&state.name_table)).into_bytes()
}
