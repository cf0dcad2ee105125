//! Statements at random, as players mix them, such that every read of the local comes after a write: a sheet of them is walked whole
//! and accepted.

use crate::forms::*;
use oracle::generate::draft::Node;
use oracle::random::Random;

const VARIABLES: [&str; 10] = ["a", "b", "c", "d", "err", "q", "req", "sum", "t", "y"];

pub struct Mix {
    random: Random,
    /// Whether the local is written where the next statement stands, so that it may be read there.
    written: bool,
}

impl Mix {
    pub fn new(seed: u64, written: bool) -> Mix {
        Mix { random: Random::new(seed, 0), written }
    }

    fn variable(&mut self) -> &'static str {
        VARIABLES[self.random.below(VARIABLES.len())]
    }

    fn name(&mut self) -> &'static str {
        if self.written && self.random.percent(30) {
            LOCAL
        } else {
            self.variable()
        }
    }

    fn expr(&mut self, deep: usize) -> Node {
        let form = if deep == 0 { self.random.below(6) } else { self.random.below(14) };
        match form {
            0..=3 => ident(self.name()),
            4..=5 => lit(),
            6..=8 => binary(self.expr(deep - 1), self.expr(deep - 1)),
            9 => unary(self.expr(deep - 1)),
            10 => ternary(self.expr(deep - 1), self.expr(deep - 1), self.expr(deep - 1)),
            11 => bitsel(ident(self.name()), self.expr(deep - 1)),
            12 => concat(vec![self.expr(deep - 1), self.expr(deep - 1)]),
            _ => call("next", INERT, vec![self.expr(deep - 1)]),
        }
    }

    /// A condition, and whether it has written the local where it is true.
    fn cond(&mut self) -> (Node, bool) {
        let plain = self.expr(1);
        match self.random.below(5) {
            0 => (and(plain, writing_call("w")), true),
            1 => (and(plain, self.expr(1)), self.written),
            2 => (or(not(plain), self.expr(1)), self.written),
            _ => (plain, self.written),
        }
    }

    /// The statements of a branch or round that starts with the local written or not. Some write it first.
    fn body(&mut self, written: bool, deep: usize) -> Node {
        let before = std::mem::replace(&mut self.written, written);
        let mut stmts = Vec::new();
        if self.random.percent(40) {
            stmts.push(blocking(LOCAL, self.expr(1)));
            self.written = true;
        }
        for _ in 0..self.random.between(1, 2) {
            stmts.push(self.stmt(deep));
        }
        self.written = before;
        block(stmts)
    }

    fn branch(&mut self, deep: usize) -> Node {
        let (cond, when_true) = self.cond();
        let then = self.body(when_true, deep - 1);
        if self.random.percent(50) {
            return if_then(cond, then);
        }
        if_else(cond, then, self.body(self.written, deep - 1))
    }

    /// A case without a default, so that it leaves the local as it was.
    fn choice(&mut self, deep: usize) -> Node {
        let scrutinee = self.expr(1);
        let mut arms = Vec::new();
        for _ in 0..self.random.between(2, 4) {
            let labels = self.random.between(1, 2);
            arms.push(arm(labels, self.body(self.written, deep - 1)));
        }
        case(scrutinee, arms)
    }

    /// A loop that may run no round, or may be left in its first: it leaves the local as it was.
    fn repeated(&mut self, deep: usize) -> Node {
        match self.random.below(3) {
            0 => {
                let leave = if_then(self.expr(1), break_loop());
                for_loop("i", block(vec![leave, self.body(self.written, deep - 1)]))
            }
            1 => {
                let (cond, when_true) = self.cond();
                while_loop(MAYBE, cond, self.body(when_true, deep - 1))
            }
            _ => repeat_loop(self.expr(1), self.body(self.written, deep - 1)),
        }
    }

    /// A statement that leaves the local written or not, as it was.
    pub fn stmt(&mut self, deep: usize) -> Node {
        let form = if deep == 0 { self.random.below(9) } else { self.random.below(20) };
        match form {
            0..=5 => blocking(self.name(), self.expr(2)),
            6 => nonblocking(self.variable(), self.expr(2)),
            7 => task("next", if self.written { READS } else { INERT }, vec![self.expr(1)]),
            8 => systask(vec![self.expr(1), self.expr(0)]),
            9..=10 => blocking(self.variable(), self.expr(3)),
            11..=14 => self.branch(deep),
            15 => self.choice(deep),
            16..=17 => self.repeated(deep),
            18 => after_delay(self.stmt(deep - 1)),
            _ => at_edge("clk", self.stmt(deep - 1)),
        }
    }
}
