//! Expressions, as values and where their truth is asked.

use super::{one_of, together, Writer, Written};

/// For operators that a sheet does not tell apart. Icarus takes the right operand of > and >= first.
const TWO: [&str; 14] = ["+", ">", "-", ">=", "*", "<", "&", ">", "==", "^", ">=", "<<", "|", "<="];
const ONE: [&str; 4] = ["~", "-", "|", "^"];

/// How a condition is to come out before the first round of the loop at a row.
#[derive(Clone, Copy)]
pub struct First {
    pub of: usize,
    pub as_true: bool,
}

impl Writer<'_> {
    /// An expression whose truth is not asked.
    pub(super) fn value(&self, i: usize) -> Written {
        let at = self.view.children(i);
        match (self.view.word(i), self.view.side(i)) {
            ("lit", _) => Ok(format!("16'd{}", 1 + i % 5)),
            ("ident", _) => Ok(if self.view.begins(i) { self.read(i) } else { "v".to_string() }),
            ("opaque", _) => Ok(self.read(i)),
            ("binary" | "unary", 1 | 2) => self.truth(i, None),
            ("unary", _) => Ok(format!("({}({}))", one_of(&ONE, self.number + i), self.value(at[0])?)),
            ("binary", _) => {
                let operator = one_of(&TWO, self.number + i);
                Ok(format!("({} {operator} {})", self.value(at[0])?, self.value(at[1])?))
            }
            ("ternary", _) => Ok(format!("({} ? {} : {})", self.truth(at[0], None)?, self.value(at[1])?, self.value(at[2])?)),
            ("paren", _) => Ok(format!("({})", self.value(at[0])?)),
            ("bitsel" | "partsel" | "indexed", _) => self.select(i),
            ("concat" | "pattern", _) => self.joined(&at),
            ("replicate", _) => self.repeated(&at),
            ("syscall", _) if at.len() == 1 => Ok(format!("$unsigned({})", self.value(at[0])?)),
            ("cast", _) if self.view.word(at[1]) == "none" => Ok(format!("16'({})", self.value(at[0])?)),
            ("call", 1) => Ok(format!("wrote({i})")),
            ("call", _) => self.call(i),
            // `cast` with a size, `mtm`, `method`, `new`, `namedarg`, and `syscall` with other than one argument.
            _ => Ok(together(self.values(&at)?)),
        }
    }

    fn read(&self, i: usize) -> String {
        format!("read({i}, x)")
    }

    /// Those of these rows that are there.
    pub(super) fn values(&self, rows: &[usize]) -> Result<Vec<String>, &'static str> {
        rows.iter().filter(|row| self.view.word(**row) != "none").map(|row| self.value(*row)).collect()
    }

    /// A select of bits: of a variable as it is, of anything else as a call.
    fn select(&self, i: usize) -> Written {
        let at = self.view.children(i);
        if self.view.word(at[0]) != "ident" {
            return Ok(together(self.values(&at)?));
        }
        let width = if at.len() == 2 { "" } else { " +: 4" };
        let place = format!("[far({}){width}]", together(self.values(&at[1..])?));
        Ok(if self.view.begins(at[0]) { format!("read({}, x{place})", at[0]) } else { format!("v{place}") })
    }

    fn joined(&self, parts: &[usize]) -> Written {
        if parts.is_empty() {
            return Ok("16'd2".to_string());
        }
        Ok(format!("of1({{{}}})", self.values(parts)?.join(", ")))
    }

    fn repeated(&self, at: &[usize]) -> Written {
        let count = self.value(at[0])?;
        if at.len() == 1 {
            return Ok(format!("of1({count})"));
        }
        Ok(format!("of2({count}, {{2{{{}}}}})", self.values(&at[1..])?.join(", ")))
    }

    /// A call that does not write: its arguments, and a read where its path begins with the local.
    fn call(&self, i: usize) -> Written {
        let mut values = self.values(&self.view.children(i)[1..])?;
        if self.view.begins(i) {
            values.insert(0, self.read(i));
        }
        Ok(together(values))
    }

    /// An expression whose truth is asked, in one bit. Icarus 11 evaluates both operands of && and || always; with a conditional operator
    /// the right one is evaluated only where the left does not settle it, and an unknown left gives Paper 2's table.
    pub(super) fn truth(&self, i: usize, first: Option<First>) -> Written {
        let at = self.view.children(i);
        let both = |as_true: bool| first.filter(|first| first.as_true == as_true);
        match (self.view.word(i), self.view.side(i)) {
            ("binary", 1) => Ok(format!("({} ? {} : 1'b0)", self.truth(at[0], both(true))?, self.truth(at[1], first)?)),
            ("binary", 2) => Ok(format!("({} ? 1'b1 : {})", self.truth(at[0], both(false))?, self.truth(at[1], first)?)),
            ("unary", 1) => {
                let flipped = first.map(|first| First { as_true: !first.as_true, ..first });
                Ok(format!("(!{})", self.truth(at[0], flipped)?))
            }
            ("paren", _) => Ok(format!("({})", self.truth(at[0], first)?)),
            _ => self.free(i, first),
        }
    }

    /// An expression whose truth the list of choices says.
    fn free(&self, i: usize, first: Option<First>) -> Written {
        let value = self.value(i)?;
        Ok(match first {
            None => format!("truth({i}, {value})"),
            Some(First { of, as_true }) => format!("wanted({i}, {of}, 1'b{}, {value})", u32::from(as_true)),
        })
    }
}
