//! Statements.

use super::expressions::First;
use super::{together, Writer, Written};

/// The delay or event of an assignment.
struct Timing {
    /// What stands before the value, nothing where the assignment stores at once.
    text: String,
    /// What is evaluated beside the right side.
    beside: Vec<String>,
}

/// A loop: what stands before its rounds, its head, what stands at the start of its body's block, its body, and what stands after that
/// block in each round.
#[derive(Default)]
struct Loop {
    before: String,
    head: String,
    start: String,
    body: usize,
    after: String,
}

impl Writer<'_> {
    /// A statement, a declaration, or `none` where a statement may be missing, in lines.
    pub(super) fn statement(&mut self, i: usize) -> Written {
        let at = self.view.children(i);
        match self.view.word(i) {
            "blocking" => self.blocking(i),
            "nonblocking" => self.nonblocking(i),
            "if" => self.either(&at),
            "return" => self.returned(&at),
            "case" => self.case(i),
            "for" => self.for_loop(i),
            "while" => self.while_loop(i),
            "repeat" => self.repeat(i),
            "forever" => self.forever(i),
            "block" => Ok(format!("begin\n{}end\n", self.all(&at)?)),
            "decl" => Ok(self.evaluated(self.values(&at)?)),
            "systask" => Ok(format!("$fdisplay({});\n", [vec!["nowhere".to_string()], self.values(&at)?].concat().join(", "))),
            "task" => Ok(self.task(i)),
            "delayctrl" => {
                let delay = self.delay(at[0])?;
                Ok(format!("#({delay})\n{}", self.block(at[1])?))
            }
            "eventctrl" => {
                let events = self.events(at[0])?;
                Ok(format!("begin\n{}@(tick);\n{}end\n", self.evaluated(events), self.block(at[1])?))
            }
            "wait" => {
                let condition = self.truth(at[0], None)?;
                Ok(format!("begin\nheld = {condition};\nstuck = held !== 1'b1;\nwait (held)\n{}end\n", self.block(at[1])?))
            }
            "disable" => self.jump(i),
            "null" | "none" => Ok(";\n".to_string()),
            // A fork and the unmodelled forms count as reads.
            _ => Ok(format!("v = read({i}, x);\n")),
        }
    }

    fn all(&mut self, rows: &[usize]) -> Written {
        rows.iter().map(|row| self.statement(*row)).collect()
    }

    fn block(&mut self, i: usize) -> Written {
        Ok(format!("begin\n{}end\n", self.statement(i)?))
    }

    /// Expressions evaluated for nothing else.
    fn evaluated(&self, values: Vec<String>) -> String {
        if values.is_empty() {
            return String::new();
        }
        format!("v = known({});\n", together(values))
    }

    fn delay(&self, i: usize) -> Written {
        Ok(format!("delay({i}, {})", together(self.values(&self.view.children(i))?)))
    }

    /// The expressions of a star or a list of events.
    fn events(&self, i: usize) -> Result<Vec<String>, &'static str> {
        let events = self.view.children(i).into_iter();
        Ok(events.map(|event| self.values(&self.view.children(event))).collect::<Result<Vec<_>, _>>()?.concat())
    }

    /// Verilog has a delay or an event on an assignment, not both. Icarus makes nets of an event's expressions, and evaluates them whenever
    /// they change: here they are evaluated beside the right side, and the event that is waited for is the clock's.
    fn timing(&self, delay: usize, intra: usize) -> Result<Timing, &'static str> {
        let has = |i: usize| self.view.word(i) != "none";
        if !has(intra) {
            let text = if has(delay) { format!("#({}) ", self.delay(delay)?) } else { String::new() };
            return Ok(Timing { text, beside: Vec::new() });
        }
        let at = self.view.children(intra);
        let mut beside = if has(delay) { vec![self.delay(delay)?] } else { Vec::new() };
        beside.extend(self.events(at[1])?);
        let count = if has(at[0]) { format!("repeat (events({intra}, {})) ", self.value(at[0])?) } else { String::new() };
        Ok(Timing { text: format!("{count}@(tick) "), beside })
    }

    /// Target and value of an assignment with its timing between them, and whether it stores at once.
    fn assignment(&self, i: usize, local: &str, sign: &str) -> Result<(String, bool), &'static str> {
        let at = self.view.children(i);
        let Timing { text, beside } = self.timing(at[0], at[1])?;
        let mut value = self.value(at[3])?;
        if !beside.is_empty() {
            value = together([vec![value], beside].concat());
        }
        let at_once = text.is_empty();
        let logged = at_once && sign == "=" && self.view.is_plain_local(at[2]);
        let value = if logged { format!("stored({i}, {value})") } else { format!("known({value})") };
        Ok((format!("{} {sign} {text}{value}", self.target(at[2], local)?), at_once))
    }

    fn blocking(&self, i: usize) -> Written {
        let (text, at_once) = self.assignment(i, "x", "=")?;
        let writes = self.view.is_plain_local(self.view.children(i)[2]);
        Ok(if writes && !at_once { format!("begin\n{text};\n$write(\" w{i}\");\nend\n") } else { format!("{text};\n") })
    }

    /// What is stored later is no write of a path: the local itself stays as it is.
    fn nonblocking(&self, i: usize) -> Written {
        Ok(format!("{};\n", self.assignment(i, "later", "<=")?.0))
    }

    fn either(&mut self, at: &[usize]) -> Written {
        let condition = self.truth(at[0], None)?;
        Ok(format!("if ({condition})\n{}else\n{}", self.block(at[1])?, self.block(at[2])?))
    }

    fn returned(&self, at: &[usize]) -> Written {
        Ok(format!("begin\n{}disable run_{};\nend\n", self.evaluated(self.values(at)?), self.number))
    }

    /// The simulator compares scrutinee and labels and picks the arm. Verilog has one default: of several, a choice says which.
    fn case(&mut self, i: usize) -> Written {
        let at = self.view.children(i);
        let scrutinee = format!("scrutinee({i}, {})", self.value(at[0])?);
        let (mut arms, mut defaults) = (String::new(), Vec::new());
        for arm in &at[1..] {
            let body = self.block(self.view.children(*arm)[0])?;
            if self.view.word(*arm) == "default" {
                defaults.push((*arm, body));
            } else {
                arms += &format!("{}:\n{body}", self.labels(*arm)?);
            }
        }
        if at.len() == 1 {
            return Ok(format!("v = {scrutinee};\n"));
        }
        Ok(format!("case ({scrutinee})\n{arms}{}endcase\n", one_default(defaults)))
    }

    /// The labels of an arm, each of which matches or not by a choice; an arm without labels has one of its own.
    fn labels(&self, arm: usize) -> Written {
        let rows = self.view.children(arm);
        if rows.len() == 1 {
            return Ok(format!("label({arm}, 16'd2)"));
        }
        let labels: Result<Vec<String>, &str> =
            rows[1..].iter().map(|row| Ok(format!("label({row}, {})", self.value(*row)?))).collect();
        Ok(labels?.join(", "))
    }

    /// How the condition of a loop is to come out before its first round, if it always runs one.
    fn first(&self, i: usize) -> Option<First> {
        (self.view.side(i) == 1).then_some(First { of: i, as_true: true })
    }

    /// A loop that can be left; a disable of the body's block leaves a round.
    fn looped(&mut self, i: usize, of: Loop) -> Written {
        let always = self.view.side(i) == 1;
        let mark = |to: u32| if always { format!("first[{i}] = {to};\n") } else { String::new() };
        self.loops.push(i);
        let body = self.statement(of.body)?;
        self.loops.pop();
        let mut round = format!("begin : body_{}_{i}\n{}{}{body}end\n", self.number, mark(0), of.start);
        if !of.after.is_empty() {
            round = format!("begin\n{round}{}end\n", of.after);
        }
        Ok(format!("begin : loop_{}_{i}\n{}{}{}\n{round}end\n", self.number, of.before, mark(1), of.head))
    }

    /// A for, if its init and step are assignments without timing, or nothing; otherwise a while with the same in turn.
    fn for_loop(&mut self, i: usize) -> Written {
        let at = self.view.children(i);
        let condition = self.truth(at[1], self.first(i))?;
        if let (Some(init), Some(step)) = (self.in_head(at[0])?, self.in_head(at[2])?) {
            let head = format!("for ({init}; {condition}; {step})");
            return self.looped(i, Loop { head, body: at[3], ..Loop::default() });
        }
        let (before, after) = (self.statement(at[0])?, self.statement(at[2])?);
        self.looped(i, Loop { before, head: format!("while ({condition})"), body: at[3], after, ..Loop::default() })
    }

    /// An init or step as it stands in the head of a for.
    fn in_head(&self, i: usize) -> Result<Option<String>, &'static str> {
        match self.view.word(i) {
            "null" => Ok(Some("v = 16'd4".to_string())),
            "blocking" => {
                let (text, at_once) = self.assignment(i, "x", "=")?;
                Ok(at_once.then_some(text))
            }
            _ => Ok(None),
        }
    }

    fn while_loop(&mut self, i: usize) -> Written {
        let at = self.view.children(i);
        let condition = self.truth(at[0], self.first(i))?;
        self.looped(i, Loop { head: format!("while ({condition})"), body: at[1], ..Loop::default() })
    }

    fn repeat(&mut self, i: usize) -> Written {
        let at = self.view.children(i);
        let count = format!("rounds({i}, {}, {})", self.view.side(i), self.value(at[0])?);
        self.looped(i, Loop { head: format!("repeat ({count})"), body: at[1], ..Loop::default() })
    }

    /// Where the choices are over the run ends before the next round.
    fn forever(&mut self, i: usize) -> Written {
        let body = self.view.children(i)[0];
        let start = format!("if (!again({i})) disable run_{};\n", self.number);
        self.looped(i, Loop { head: "forever".to_string(), start, body, ..Loop::default() })
    }

    /// A loop jump, either way by a choice.
    fn jump(&self, i: usize) -> Written {
        match self.loops.last() {
            Some(of) if self.view.is_loop_jump(i) => {
                let name = format!("{}_{of}", self.number);
                Ok(format!("if (leaves({i})) disable loop_{name};\nelse disable body_{name};\n"))
            }
            _ => Err("disable: no loop jump in a loop"),
        }
    }

    /// A task by its effect, and time where it suspends; its arguments are not evaluated.
    fn task(&self, i: usize) -> String {
        let quiet = self.view.segments(i).len() == 2 && !self.view.begins(i) && !self.view.refers(i);
        let text = match self.view.side(i) % 4 {
            _ if quiet => ";\n".to_string(),
            0 => ";\n".to_string(),
            1 => format!("writes({i});\n"),
            _ => format!("v = read({i}, x);\n"),
        };
        if self.view.side(i) >= 4 {
            return format!("begin\n{text}#1;\nend\n");
        }
        text
    }
}

/// The one default that Verilog allows: each body but the last is taken or not by a choice.
fn one_default(defaults: Vec<(usize, String)>) -> String {
    let mut bodies = defaults.into_iter().rev();
    let Some((_, mut text)) = bodies.next() else { return String::new() };
    for (row, body) in bodies {
        text = format!("if (chosen({row}))\n{body}else\n{text}");
    }
    format!("default:\n{text}")
}
