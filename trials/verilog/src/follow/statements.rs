//! Statements, followed.

use super::expressions::Part;
use super::{either, Ends, Follower, Told};
use crate::logs::What;

fn falling(falls: Told) -> Ends {
    Ends { falls, ..Ends::default() }
}

impl Ends {
    /// Adds where one more way ends.
    fn add(&mut self, other: Ends) {
        self.falls.extend(other.falls);
        self.add_jumps(other.stops, other.leaves, other.again);
    }

    fn add_jumps(&mut self, stops: Told, leaves: Told, again: Told) {
        self.stops.extend(stops);
        self.leaves.extend(leaves);
        self.again.extend(again);
    }
}

impl Follower<'_> {
    /// A statement, a declaration, or `none` where a statement may be missing.
    pub(super) fn statement(&self, i: usize, told: Told) -> Ends {
        if told.is_empty() {
            return Ends::default();
        }
        let at = self.view.children(i);
        match self.view.word(i) {
            "blocking" => falling(self.blocking(i, &told)),
            "nonblocking" => falling(self.nonblocking(&at, &told)),
            "if" => {
                let [no, yes, unknown] = self.outcomes(at[0], &told);
                let mut ends = self.statement(at[1], yes);
                ends.add(self.statement(at[2], either(no, unknown)));
                ends
            }
            "return" => Ends { stops: self.value(at[0], &told), ..Ends::default() },
            "case" => self.case(i, &told),
            "for" => self.then(self.statement(at[0], told), |told| self.conditional_loop(i, at[1], at[3], Some(at[2]), told)),
            "while" => self.conditional_loop(i, at[0], at[1], None, told),
            "repeat" => self.repeat(i, &told),
            "forever" => self.forever(i, told),
            "block" => at.iter().fold(falling(told), |ends, row| self.then(ends, |told| self.statement(*row, told))),
            "decl" => falling(self.value(at[0], &told)),
            "systask" => falling(self.parts(&parts(&at, false), &told)),
            "task" => falling(self.task(i, told)),
            "delayctrl" | "eventctrl" => self.statement(at[1], self.value(at[0], &told)),
            "wait" => {
                let [no, yes, unknown] = self.outcomes(at[0], &told);
                let mut ends = self.statement(at[1], yes);
                ends.stops.extend(either(no, unknown));
                ends
            }
            "disable" => {
                let to = |number| self.event(&told, i, |what| what == What::Jump(number));
                Ends { leaves: to(0), again: to(1), ..Ends::default() }
            }
            "null" | "none" => falling(told),
            _ => falling(self.read(&told, i)),
        }
    }

    /// What stands next, where the first falls.
    fn then(&self, first: Ends, next: impl FnOnce(Told) -> Ends) -> Ends {
        let Ends { falls, stops, leaves, again } = first;
        let mut ends = next(falls);
        ends.add_jumps(stops, leaves, again);
        ends
    }

    fn blocking(&self, i: usize, told: &Told) -> Told {
        let at = self.view.children(i);
        let evaluated = self.parts(&parts(&[at[3], at[0], at[1], at[2]], false), told);
        if self.view.is_plain_local(at[2]) {
            return self.write(&evaluated, i);
        }
        evaluated
    }

    fn nonblocking(&self, at: &[usize], told: &Told) -> Told {
        let right = parts(&at[3..], false);
        self.parts(&[right, parts(&at[..3], true)].concat(), told)
    }

    /// Labels in turn, each of which is logged, up to the first that matches.
    fn case(&self, i: usize, told: &Told) -> Ends {
        let at = self.view.children(i);
        let mut told = self.event(&self.value(at[0], told), i, |what| what == What::Scrutinee);
        let mut ends = Ends::default();
        let mut defaults = Vec::new();
        for arm in &at[1..] {
            let rows = self.view.children(*arm);
            if self.view.word(*arm) == "default" {
                defaults.push(*arm);
                continue;
            }
            let labels = if rows.len() == 1 { &[*arm][..] } else { &rows[1..] };
            for label in labels {
                let value = if label == arm { told } else { self.value(*label, &told) };
                let matched = |matches: bool| self.event(&value, *label, |what| what == What::Label { matches });
                ends.add(self.statement(rows[0], matched(true)));
                told = matched(false);
            }
        }
        ends.add(self.default(&defaults, told));
        ends
    }

    /// Of several defaults, each but the last is logged as taken or not.
    fn default(&self, defaults: &[usize], told: Told) -> Ends {
        let Some((arm, others)) = defaults.split_first() else { return falling(told) };
        let body = self.view.children(*arm)[0];
        if others.is_empty() {
            return self.statement(body, told);
        }
        let chosen = |taken: bool| self.event(&told, *arm, |what| what == What::Default { taken });
        let mut ends = self.statement(body, chosen(true));
        ends.add(self.default(others, chosen(false)));
        ends
    }

    /// One round's body, and the step after it; what leaves the loop and what ends the path goes to `out`.
    fn round(&self, body: usize, step: Option<usize>, told: Told, out: &mut Ends) -> Told {
        let Ends { falls, stops, leaves, again } = self.statement(body, told);
        out.falls.extend(leaves);
        out.stops.extend(stops);
        let told = either(falls, again);
        let Some(step) = step else { return told };
        let after = self.statement(step, told);
        out.stops.extend(after.stops);
        after.falls
    }

    /// A while, or a for after its init: with side 1 the first condition is true.
    fn conditional_loop(&self, i: usize, condition: usize, body: usize, step: Option<usize>, mut told: Told) -> Ends {
        let mut out = Ends::default();
        let mut always = self.view.side(i) == 1;
        while !told.is_empty() {
            let [no, yes, unknown] = self.outcomes(condition, &told);
            if !always {
                out.falls.extend(either(no, unknown));
            }
            always = false;
            told = self.round(body, step, yes, &mut out);
        }
        out
    }

    fn repeat(&self, i: usize, told: &Told) -> Ends {
        let at = self.view.children(i);
        let counted = self.value(at[0], told);
        let mut out = Ends::default();
        for rounds in self.view.side(i) as usize..=2 {
            let mut told = self.event(&counted, i, |what| what == What::Rounds(rounds));
            for _ in 0..rounds {
                told = self.round(at[1], None, told, &mut out);
            }
            out.falls.extend(told);
        }
        out
    }

    fn forever(&self, i: usize, mut told: Told) -> Ends {
        let mut out = Ends::default();
        while !told.is_empty() {
            out.stops.extend(&told);
            let round = self.event(&told, i, |what| what == What::Round);
            told = self.round(self.view.children(i)[0], None, round, &mut out);
        }
        out
    }

    fn task(&self, i: usize, told: Told) -> Told {
        let mentions = self.view.begins(i) || self.view.refers(i);
        match self.view.side(i) % 4 {
            _ if self.view.segments(i).len() == 2 && !mentions => told,
            0 => told,
            1 => self.write(&told, i),
            _ => self.read(&told, i),
        }
    }
}

fn parts(rows: &[usize], may_lack: bool) -> Vec<Part> {
    rows.iter().map(|row| Part { row: *row, may_lack }).collect()
}
