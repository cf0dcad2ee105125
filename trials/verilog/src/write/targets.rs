//! Targets of assignments.

use super::{together, Writer, Written};

impl Writer<'_> {
    /// A target, with the variable that stands for the plain local.
    pub(super) fn target(&self, i: usize, local: &str) -> Written {
        match self.view.word(i) {
            "lident" if self.view.is_plain_local(i) => Ok(local.to_string()),
            "lident" => Ok("v".to_string()),
            "lconcat" => self.parts(i, local),
            "lerror" => Err("lerror: a target that is none"),
            _ => self.select_of(i, local),
        }
    }

    fn parts(&self, i: usize, local: &str) -> Written {
        let parts: Result<Vec<String>, &str> = self.view.children(i).into_iter().map(|part| self.target(part, local)).collect();
        match parts?.join(", ") {
            none if none.is_empty() => Err("lconcat: a concatenated target without parts"),
            some => Ok(format!("{{{some}}}")),
        }
    }

    /// A select, or selects in each other: one of the variable, at a place that all their expressions are evaluated for.
    fn select_of(&self, i: usize, local: &str) -> Written {
        let mut base = i;
        let mut selects = Vec::new();
        while matches!(self.view.word(base), "lbit" | "lpart" | "lidx") {
            let at = self.view.children(base);
            selects.splice(0..0, self.values(&at[1..])?);
            base = at[0];
        }
        if self.view.word(base) != "lident" {
            return Err("lbit, lpart, lidx: a select of what is no variable");
        }
        let width = if self.view.word(i) == "lbit" { "" } else { " +: 2" };
        Ok(format!("{}[place({}){width}]", self.target(base, local)?, together(selects)))
    }
}
