//! The runs of statements.

use super::lists::{caught, nothing, one, stop};
use super::Lister;
use crate::path::{Ending, Event, Order, Run};
use std::iter;

impl Lister<'_> {
    /// The runs of a statement, of a declaration, or of `none` where a statement may be missing.
    pub fn statement(&self, i: usize) -> Vec<Run> {
        let children = self.view.children(i);
        match self.view.word(i) {
            "blocking" => self.assignment(i),
            "nonblocking" => self.nonblocking(i),
            "if" => self.either_side(i),
            // "Return evaluates its value and ends the path."
            "return" => self.lists.then(&self.value(children[0]), &stop()),
            "case" => self.case(i),
            "for" => self.for_loop(i),
            "while" => self.while_loop(i),
            "repeat" => self.repeat(i),
            "forever" => self.forever(i),
            // "Block: initialisers, then statements."
            "block" => self.lists.in_turn(children.iter().map(|child| self.statement(*child))),
            "decl" => self.value(children[0]),
            // "A systask evaluates its arguments."
            "systask" => self.values(&children),
            "task" => self.task(i),
            // "Delay, event, wait: their expressions, then the body."
            "delayctrl" => self.lists.then(&self.value(children[0]), &self.statement(children[1])),
            "eventctrl" => self.lists.then(&self.value(children[0]), &self.statement(children[1])),
            "wait" => self.wait(i),
            "disable" => self.disable(i),
            // "Null does nothing."
            "null" | "none" => nothing(),
            // "Fork counts as a read, and so do the unmodelled forms."
            _ => one(Event::Outside),
        }
    }

    /// "Assignment: right side, delay, event, target selects, then the write if the target is the plain local"; in free order "right side,
    /// delay, event and target selects of a blocking assignment in any order, all before its write".
    fn assignment(&self, i: usize) -> Vec<Run> {
        let children = self.view.children(i);
        let [delay, event, target, right] = children[..] else { panic!("an assignment has four children") };
        let parts = [self.value(right), self.value(delay), self.value(event), self.selects(target)];
        self.lists.then(&self.ordered(parts), &self.written(target))
    }

    /// "Nonblocking: right side only"; in free order "its right side, and its delay, event and selects each as one whole child that is
    /// evaluated or not, in any order".
    fn nonblocking(&self, i: usize) -> Vec<Run> {
        let children = self.view.children(i);
        let [delay, event, target, right] = children[..] else { panic!("an assignment has four children") };
        let right = self.value(right);
        if self.order == Order::Row {
            return right;
        }
        let others = [self.value(delay), self.value(event), self.selects(target)].map(|part| self.lists.or_not(part));
        self.ordered(iter::once(right).chain(others))
    }

    /// A condition "may be unknown: `if` then takes the else side".
    fn either_side(&self, i: usize) -> Vec<Run> {
        let children = self.view.children(i);
        let condition = self.outcomes(children[0]);
        let (met, unmet) = (self.statement(children[1]), self.statement(children[2]));
        self.lists.either([
            self.lists.then(&condition.is_true, &met),
            self.lists.then(&condition.is_false, &unmet),
            self.lists.then(&condition.is_unknown, &unmet),
        ])
    }

    /// "Case: scrutinee, then labels in row order through the chosen arm's (all of them for a default or no arm), then that arm; no arm only
    /// where no default stands": where one stands, the last run only stops. "A case gives, after its scrutinee and before its labels, the
    /// arm's number from 0, or the count of arms for none." In free order "the scrutinee before labels" too, and "all labels for a default
    /// or no arm".
    fn case(&self, i: usize) -> Vec<Run> {
        let children = self.view.children(i);
        let (scrutinee, arms) = (children[0], &children[1..]);
        let is_default = |arm: &usize| self.view.word(*arm) == "default";
        let all = self.labels(arms);
        let mut entries = Vec::new();
        for (number, arm) in arms.iter().enumerate() {
            let labels = if is_default(arm) { all.clone() } else { self.labels_through(&arms[..number], *arm) };
            let body = self.statement(self.view.children(*arm)[0]);
            entries.push(self.lists.in_turn([one(Event::Choice(number)), labels, body]));
        }
        if arms.iter().any(is_default) {
            entries.push(stop());
        } else {
            entries.push(self.lists.then(&one(Event::Choice(arms.len())), &all));
        }
        self.lists.then(&self.value(scrutinee), &self.lists.either(entries))
    }

    /// The labels of these arms, "labels in row order".
    fn labels(&self, arms: &[usize]) -> Vec<Run> {
        self.lists.in_turn(arms.iter().map(|arm| self.all_of(&self.view.children(*arm)[1..])))
    }

    /// "All labels of the arms before" the chosen one, and then its own.
    fn labels_through(&self, before: &[usize], chosen: usize) -> Vec<Run> {
        let before = self.labels(before);
        let own = &self.view.children(chosen)[1..];
        let own = match self.order {
            Order::Row => self.all_of(own),
            Order::Free => self.up_to_any(own),
        };
        self.lists.then(&before, &own)
    }

    /// All labels of an arm.
    fn all_of(&self, labels: &[usize]) -> Vec<Run> {
        self.lists.in_turn(labels.iter().map(|label| self.value(*label)))
    }

    /// "The labels of the chosen arm up to any one of them."
    fn up_to_any(&self, labels: &[usize]) -> Vec<Run> {
        match labels {
            [] => nothing(),
            [last] => self.value(*last),
            [first, left @ ..] => self.lists.then(&self.value(*first), &self.lists.either([nothing(), self.up_to_any(left)])),
        }
    }

    /// "For: init, then condition, body, step in turn"; "a loop ends" by an unknown condition.
    fn for_loop(&self, i: usize) -> Vec<Run> {
        let children = self.view.children(i);
        let [init, condition, step, body] = children[..] else { panic!("a for has four children") };
        let condition = self.outcomes(condition);
        let step = caught(Ending::Again, self.statement(step));
        let round = self.lists.in_turn([condition.is_true, self.body(body), step]);
        let end = self.lists.either([condition.is_false, condition.is_unknown]);
        self.lists.then(&self.statement(init), &self.looped(i, &round, &end))
    }

    /// "While asks its condition before each round."
    fn while_loop(&self, i: usize) -> Vec<Run> {
        let children = self.view.children(i);
        let condition = self.outcomes(children[0]);
        let round = self.lists.then(&condition.is_true, &self.body(children[1]));
        self.looped(i, &round, &self.lists.either([condition.is_false, condition.is_unknown]))
    }

    /// "Repeat its count once"; it gives "1 before a round, or .. 0 to run no more".
    fn repeat(&self, i: usize) -> Vec<Run> {
        let children = self.view.children(i);
        let round = self.lists.then(&one(Event::Choice(1)), &self.body(children[1]));
        self.lists.then(&self.value(children[0]), &self.looped(i, &round, &one(Event::Choice(0))))
    }

    /// "Forever ends only by jump": after its rounds a run only stops.
    fn forever(&self, i: usize) -> Vec<Run> {
        let round = self.lists.then(&one(Event::Choice(1)), &self.body(self.view.children(i)[0]));
        self.looped(i, &round, &stop())
    }

    /// The body of a loop, in one round of it: a jump out of the round ends the body.
    fn body(&self, i: usize) -> Vec<Run> {
        caught(Ending::Again, self.statement(i))
    }

    /// "Loops run any number of rounds, at least one with side 1"; a jump out of the loop ends it.
    fn looped(&self, i: usize, round: &[Run], end: &[Run]) -> Vec<Run> {
        let more = self.lists.rounds(self.rounds, round);
        let rounds = if self.view.side(i) == 1 { self.lists.then(round, &more) } else { more };
        caught(Ending::Leaves, self.lists.then(&rounds, end))
    }

    /// A loop jump "leaves the nearest loop or only its round, either one freely"; it "gives 0 to leave the loop, 1 its round". What
    /// another disable does is left out by the premises: here it does nothing.
    fn disable(&self, i: usize) -> Vec<Run> {
        if !self.view.is_loop_jump(i) {
            return nothing();
        }
        let jump = |number, ending| Run { events: vec![Event::Choice(number)], ending };
        vec![jump(0, Ending::Leaves), jump(1, Ending::Again)]
    }

    /// "A task with effect 1 writes, 0 does nothing, 2 and 3 read; but a two-segment task path with no mention, arguments included, does
    /// nothing at any effect." Its side "is effect plus 4 if it suspends".
    fn task(&self, i: usize) -> Vec<Run> {
        let mentions = self.view.begins(i) || self.view.refers(i);
        if self.view.segments(i).len() == 2 && !mentions {
            return nothing();
        }
        match self.view.side(i) % 4 {
            0 => nothing(),
            1 => one(Event::Write),
            _ => one(Event::Read),
        }
    }

    /// "A wait goes on only when its expression is true."
    fn wait(&self, i: usize) -> Vec<Run> {
        let children = self.view.children(i);
        let condition = self.outcomes(children[0]);
        self.lists.either([
            self.lists.then(&condition.is_true, &self.statement(children[1])),
            self.lists.then(&condition.is_false, &stop()),
            self.lists.then(&condition.is_unknown, &stop()),
        ])
    }
}
