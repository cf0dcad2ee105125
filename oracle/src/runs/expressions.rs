//! The runs of expressions and targets.

use super::lists::{nothing, one};
use super::Lister;
use crate::path::{Event, Run, Truth, Truths};
use std::iter;

/// The runs of an expression whose truth is asked, by how it comes out.
pub struct Outcomes {
    pub is_true: Vec<Run>,
    pub is_false: Vec<Run>,
    pub is_unknown: Vec<Run>,
}

impl Lister<'_> {
    /// The runs of an expression, or of a row of expressions, whose truth is not asked.
    pub fn value(&self, i: usize) -> Vec<Run> {
        match self.view.word(i) {
            // "An ident whose first segment is the local reads; so does opaque."
            "ident" if self.view.begins(i) => one(Event::Read),
            "opaque" => one(Event::Read),
            "call" => self.call(i),
            "ternary" => self.conditional(i),
            // "Evaluated operands of &&, || and `!` always have their truth asked."
            "binary" | "unary" if self.view.side(i) > 0 => self.any_outcome(i),
            _ => self.values(&self.view.children(i)),
        }
    }

    /// "Everything else evaluates its children in row order"; in free order "in any order: operands of an operator that is
    /// neither && nor ||, parts of a concatenation, arguments, selects, expressions of a delay, an event list, an event with its iff,
    /// arguments of a system task".
    pub(super) fn values(&self, rows: &[usize]) -> Vec<Run> {
        self.ordered(rows.iter().map(|row| self.value(*row)))
    }

    /// "A call with side 1 writes the whole local"; "a call path beginning with the local reads unless side is 1." "A call's own path is
    /// one of its children."
    fn call(&self, i: usize) -> Vec<Run> {
        if self.view.side(i) == 1 {
            return one(Event::Write);
        }
        let path = if self.view.begins(i) { one(Event::Read) } else { nothing() };
        let arguments = self.view.children(i).split_off(1);
        self.ordered(iter::once(path).chain(arguments.into_iter().map(|argument| self.value(argument))))
    }

    /// "A conditional expression evaluates its condition and one arm"; with an unknown condition it "evaluates both arms", in free order
    /// "both arms after an unknown condition" in any order. "A condition before its arms."
    fn conditional(&self, i: usize) -> Vec<Run> {
        let children = self.view.children(i);
        let condition = self.outcomes(children[0]);
        let (first, second) = (self.value(children[1]), self.value(children[2]));
        self.lists.either([
            self.lists.then(&condition.is_true, &first),
            self.lists.then(&condition.is_false, &second),
            self.lists.then(&condition.is_unknown, &self.ordered([first.clone(), second.clone()])),
        ])
    }

    fn any_outcome(&self, i: usize) -> Vec<Run> {
        let Outcomes { is_true, is_false, is_unknown } = self.outcomes(i);
        self.lists.either([is_true, is_false, is_unknown])
    }

    /// The runs of a condition, or of "an operand whose truth is asked".
    pub(super) fn outcomes(&self, i: usize) -> Outcomes {
        let operand = |n: usize| self.outcomes(self.view.children(i)[n]);
        match (self.view.word(i), self.view.side(i)) {
            ("binary", 1) => self.and(operand(0), operand(1)),
            ("binary", 2) => self.or(operand(0), operand(1)),
            ("unary", 1) => flipped(operand(0)),
            // "Paren passes."
            ("paren", _) => operand(0),
            _ => self.free(i),
        }
    }

    /// It "is evaluated and then is freely true or false", or unknown.
    fn free(&self, i: usize) -> Outcomes {
        let value = self.value(i);
        let chosen = |truth: Truth| self.lists.then(&value, &one(Event::Choice(truth as usize)));
        let unknown = match self.truths {
            Truths::Two => Vec::new(),
            Truths::Three => chosen(Truth::Unknown),
        };
        Outcomes { is_true: chosen(Truth::True), is_false: chosen(Truth::False), is_unknown: unknown }
    }

    /// "&& goes on to its right unless the left is false"; after a true left the right "gives the truth"; "after an unknown left, && is false
    /// if the right is", and unknown otherwise.
    fn and(&self, left: Outcomes, right: Outcomes) -> Outcomes {
        let not_false = self.lists.either([right.is_true.clone(), right.is_unknown.clone()]);
        Outcomes {
            is_true: self.lists.then(&left.is_true, &right.is_true),
            is_false: self.lists.either([
                left.is_false,
                self.lists.then(&left.is_true, &right.is_false),
                self.lists.then(&left.is_unknown, &right.is_false),
            ]),
            is_unknown: self
                .lists
                .either([self.lists.then(&left.is_true, &right.is_unknown), self.lists.then(&left.is_unknown, &not_false)]),
        }
    }

    /// "|| unless the left is true"; after a false left the right "gives the truth"; after an unknown left "|| is true if the right is", and
    /// unknown otherwise.
    fn or(&self, left: Outcomes, right: Outcomes) -> Outcomes {
        let not_true = self.lists.either([right.is_false.clone(), right.is_unknown.clone()]);
        Outcomes {
            is_true: self.lists.either([
                left.is_true,
                self.lists.then(&left.is_false, &right.is_true),
                self.lists.then(&left.is_unknown, &right.is_true),
            ]),
            is_false: self.lists.then(&left.is_false, &right.is_false),
            is_unknown: self
                .lists
                .either([self.lists.then(&left.is_false, &right.is_unknown), self.lists.then(&left.is_unknown, &not_true)]),
        }
    }

    /// The runs of the target of an assignment: "target selects, then the write".
    pub fn store(&self, i: usize) -> Vec<Run> {
        self.lists.then(&self.selects(i), &self.written(i))
    }

    /// The selects of a target.
    pub(super) fn selects(&self, i: usize) -> Vec<Run> {
        self.value(i)
    }

    /// "The write if the target is the plain local"; "a select of it, or a longer path, is neither read nor written".
    pub(super) fn written(&self, i: usize) -> Vec<Run> {
        if self.view.is_plain_local(i) {
            return one(Event::Write);
        }
        nothing()
    }
}

/// "`!` flips", and "keeps it unknown".
fn flipped(operand: Outcomes) -> Outcomes {
    Outcomes { is_true: operand.is_false, is_false: operand.is_true, is_unknown: operand.is_unknown }
}
