//! What the library is to keep to, and whether it does.

use crate::parts::{Costs, Part};
use crate::sheets::Family;
use crate::tables::{self, ratio, whole, Measured};

#[derive(Clone)]
struct Target {
    what: String,
    sheet: String,
    most: f64,
    measured: Option<f64>,
}

impl Target {
    fn line(&self) -> Vec<String> {
        let shown = if self.most > 100.0 || self.most == 0.0 { whole } else { ratio };
        let kept = match self.measured {
            None => "-",
            Some(measured) if measured <= self.most => "met",
            Some(_) => "missed",
        };
        vec![self.what.clone(), self.sheet.clone(), shown(Some(self.most)), shown(self.measured), kept.to_string()]
    }
}

/// By instructions; by times where there are none.
fn costs(one: &Measured) -> &Costs {
    one.instructions.as_ref().unwrap_or(&one.times)
}

fn target(what: &str, one: &Measured, most: f64, measured: Option<f64>) -> Target {
    Target { what: what.to_string(), sheet: one.case.name.clone(), most, measured }
}

fn full_size(measured: &[Measured]) -> impl Iterator<Item = &Measured> {
    measured.iter().filter(|one| one.case.rows == 2000)
}

fn halves(measured: &[Measured]) -> Vec<Target> {
    let against =
        |what: &'static str, reading| full_size(measured).map(move |one| target(what, one, 0.5, costs(one).whole_ratio(reading)));
    against("(a) load+ask / Rust's read, tree, da_stmt and drop", Part::Read)
        .chain(against("(a) the same, plain reading", Part::ReadPlain))
        .collect()
}

fn walks(measured: &[Measured]) -> Vec<Target> {
    let puzzles = measured.iter().filter(|one| one.case.family == Family::Puzzle);
    full_size(measured).chain(puzzles).map(|one| target("(b) ask / da_stmt", one, 3.2, costs(one).walk_ratio())).collect()
}

/// One sheet's cost to another's.
fn growth(large: &Measured, small: &Measured, of: fn(&Costs) -> Option<f64>) -> Option<f64> {
    Some(of(costs(large))? / of(costs(small))?)
}

fn ask(costs: &Costs) -> Option<f64> {
    costs.of(Part::Ask)
}

fn doubled(measured: &[Measured]) -> Vec<Target> {
    let mut targets = Vec::new();
    for large in full_size(measured) {
        let small = measured.iter().find(|one| one.case.family == large.case.family && one.case.rows == 1000);
        let small = small.expect("each family has both sizes");
        let against = |what, of| Target {
            sheet: format!("{} / {}", large.case.name, small.case.name),
            ..target(what, large, 2.2, growth(large, small, of))
        };
        targets.push(against("(c) twice the rows: load+ask", Costs::ours));
        targets.push(against("(c) twice the rows: ask", ask));
    }
    targets
}

fn nested(measured: &[Measured]) -> Vec<Target> {
    let of = |nested: usize| measured.iter().find(|one| one.case.nested == nested).expect("a sheet of the curve");
    let (large, small) = (of(98), of(49));
    let against =
        |what, of| Target { sheet: "and-98 / and-49".to_string(), ..target(what, large, 2.2, growth(large, small, of)) };
    vec![against("(d) twice the nested &&: load+ask", Costs::ours), against("(d) twice the nested &&: ask", ask)]
}

fn memory(measured: &[Measured]) -> Vec<Target> {
    let blocks = measured.iter().map(|one| one.heaps.ours.blocks).max().expect("sheets");
    let deepest = measured.iter().max_by_key(|one| one.stacks.ours()).expect("sheets");
    vec![
        Target { sheet: "all".to_string(), ..target("(e) blocks from the heap", deepest, 0.0, Some(blocks as f64)) },
        target("(f) bytes of stack, the most of all", deepest, 65_536.0, Some(deepest.stacks.ours() as f64)),
    ]
}

pub fn print(measured: &[Measured]) {
    let targets = [halves(measured), walks(measured), doubled(measured), nested(measured), memory(measured)].concat();
    let lines: Vec<Vec<String>> = targets.iter().map(Target::line).collect();
    tables::print("Targets", &["target", "sheet", "at most", "measured", "kept"], &lines);
}
