//! A sheet as SystemVerilog: a task for its statement, with every read, write and choice a call that logs itself (`runs.sv`).

mod expressions;
mod statements;
mod targets;

use oracle::path::Table;
use oracle::runs::view::View;

/// The text of a row, or the form that leaves its sheet out.
pub type Written = Result<String, &'static str>;

pub struct Writer<'a> {
    view: View<'a>,
    /// The sheet's number, which names its blocks and shifts which operator stands where a sheet does not say.
    number: usize,
    /// The loops whose bodies are being written, the nearest last.
    loops: Vec<usize>,
}

/// The task of a sheet.
pub fn task(table: Table, number: usize) -> Written {
    let mut writer = Writer { view: View(table), number, loops: Vec::new() };
    let body = writer.statement(0)?;
    Ok(format!("task sheet_{number};\nbegin : run_{number}\n{body}end\nendtask\n"))
}

/// One of several, by a number.
fn one_of(of: &[&'static str], number: usize) -> &'static str {
    of[number % of.len()]
}

/// Operands as the arguments of one call.
fn together(mut values: Vec<String>) -> String {
    if values.is_empty() {
        return "16'd2".to_string();
    }
    while values.len() > 4 {
        let rest = values.split_off(values.len() - 4);
        values.push(format!("of4({})", rest.join(", ")));
    }
    format!("of{}({})", values.len(), values.join(", "))
}
