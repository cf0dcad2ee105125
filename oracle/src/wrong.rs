//! The known-wrong walks and readings, and which sheets and states tell them from the right ones.

use crate::answer::Answer;
use crate::asking::Tree;
use crate::fill::{Way, WAYS};
use crate::reading::{self, kinds::KINDS};
use crate::right;
use crate::sheet::{Refused, Sheet, State};
use crate::states;
use crate::tree::tree;
use crate::{WRONG_READINGS, WRONG_WALKS};

/// A walk of a tree with this start and sole, and a reading of a sheet's bytes, or of a state.
pub type Walk = fn(&Tree, bool, bool) -> Option<Answer>;
pub type Load = fn(&[u8]) -> Result<Sheet, Refused>;
pub type Held = fn(&State) -> Result<Sheet, Refused>;

/// One known mistake.
pub struct Wrong {
    pub name: &'static str,
    pub title: &'static str,
    kind: Kind,
}

enum Kind {
    Walk(Walk),
    Reading(Load, Held),
}

/// All of them, walks first.
pub fn all() -> Vec<Wrong> {
    let walks = WRONG_WALKS.iter().map(|(name, title, walk)| Wrong { name, title, kind: Kind::Walk(*walk) });
    let readings =
        WRONG_READINGS.iter().map(|(name, title, load, held)| Wrong { name, title, kind: Kind::Reading(*load, *held) });
    walks.chain(readings).collect()
}

fn walked(sheet: &Sheet, walk: Walk) -> Option<Answer> {
    walk(&tree(sheet, Way::Mixed), sheet.start, sheet.sole)
}

/// Whether a wrong reading's line differs. What the right one refuses and the wrong one reads is not walked: it need not be a tree.
fn differs(right: &Result<Sheet, Refused>, wrong: &Result<Sheet, Refused>) -> bool {
    match (right, wrong) {
        (Ok(right), Ok(wrong)) => right != wrong && walked(right, right::asked) != walked(wrong, right::asked),
        _ => right != wrong,
    }
}

/// How deep && and || may nest in a sheet that is tried: a wrong walk may take long where the right one does not, and ask nothing.
const NESTED: usize = 12;

/// How deep && and || nest in a sheet.
fn nested(sheet: &Sheet) -> usize {
    let mut open: Vec<usize> = Vec::new();
    let mut most = 0;
    for (i, row) in sheet.rows.iter().enumerate() {
        open.retain(|end| *end > i);
        if KINDS[row.kind].word == "binary" && row.side > 0 {
            open.push(row.end);
            most = most.max(open.len());
        }
    }
    most
}

/// The numbers of the mistakes that an input tells, given how each reading reads it.
fn told(wrongs: &[Wrong], right: &Result<Sheet, Refused>, read: impl Fn(Load, Held) -> Result<Sheet, Refused>) -> Vec<usize> {
    if right.as_ref().is_ok_and(|sheet| nested(sheet) > NESTED) {
        return Vec::new();
    }
    let trees = right.as_ref().ok().map(|sheet| (sheet, WAYS.map(|way| tree(sheet, way))));
    let answer = trees.as_ref().and_then(|(sheet, trees)| right::asked(&trees[0], sheet.start, sheet.sole));
    let tells = |wrong: &Wrong| match wrong.kind {
        Kind::Walk(walk) => trees.as_ref().zip(answer).is_some_and(|((sheet, trees), answer)| {
            // A walk that looks at what sheets drop shows in one way of filling it in or another.
            let ways = if wrong.name.starts_with("dropped_") { &trees[..] } else { &trees[..1] };
            ways.iter().any(|tree| walk(tree, sheet.start, sheet.sole).is_some_and(|wrong| wrong != answer))
        }),
        Kind::Reading(load, held) => differs(right, &read(load, held)),
    };
    (0..wrongs.len()).filter(|i| tells(&wrongs[*i])).collect()
}

/// The mistakes that a sheet tells.
pub fn told_by_sheet(wrongs: &[Wrong], bytes: &[u8]) -> Vec<usize> {
    told(wrongs, &reading::load(bytes), |load, _| load(bytes))
}

/// The mistakes that a state tells.
pub fn told_by_state(wrongs: &[Wrong], frame: &[u8]) -> Vec<usize> {
    let (_, state) = states::read(frame);
    told(wrongs, &reading::held(&state), |_, held| held(&state))
}
