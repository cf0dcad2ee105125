//! What the definitions of a file come to.

use super::parse::{Equation, Expr, Node, Source};
use std::cell::RefCell;
use std::collections::HashMap;
use std::rc::Rc;

/// A row by its word and side, with its children.
#[derive(Clone, PartialEq, Eq, Hash, Debug)]
pub struct Tree {
    pub word: String,
    pub side: usize,
    pub children: Vec<Tree>,
}

#[derive(Clone)]
pub enum Value {
    Number(usize),
    Text(String),
    List(Vec<Value>),
    Tuple(Vec<Value>),
    Record(Rc<Record>),
    Row(Rc<Tree>),
    /// A name that a `data` declares, with its arguments.
    Made(String, Vec<Value>),
    Function(Rc<Function>, Vec<Value>),
}

/// A record, and the application that it is the result of, if it is that of one.
pub struct Record {
    pub fields: HashMap<String, Value>,
    pub from: Option<Origin>,
}

/// An application: its file, the name that is applied, where it begins, and where its last argument does and ends.
#[derive(Clone, PartialEq, Eq, PartialOrd, Ord, Debug)]
pub struct Origin {
    pub file: usize,
    pub head: String,
    pub begin: usize,
    pub last: usize,
    pub end: usize,
}

pub enum Function {
    Defined(String, Vec<Equation>, usize),
    Lambda(Vec<String>, Rc<Expr>, Scope),
    Known(Known),
}

/// What is not evaluated by its definition.
#[derive(Clone, Copy)]
pub enum Known {
    Row,
    Map,
    Eqb,
}

impl Function {
    fn arity(&self) -> usize {
        match self {
            Function::Defined(_, equations, _) => equations[0].patterns.len(),
            Function::Lambda(names, ..) => names.len(),
            Function::Known(Known::Row) => 3,
            Function::Known(_) => 2,
        }
    }
}

/// The file that names are looked up in first, and the names that are bound.
#[derive(Clone)]
pub struct Scope {
    file: usize,
    bound: Rc<HashMap<String, Value>>,
}

/// The names that the files take from `data` declarations.
const MADE: [&str; 21] = [
    "read",
    "write",
    "outside",
    "choice",
    "falls",
    "stops",
    "leaves",
    "again",
    "is_true",
    "is_false",
    "is_unknown",
    "as_value",
    "as_target",
    "as_truth",
    "whole",
    "up_to",
    "true",
    "false",
    "nowhere",
    "at_row",
    "nil",
];

/// Files, each of which may use the names of others.
pub struct Files {
    pub sources: Vec<Source>,
    uses: Vec<&'static [usize]>,
    known: RefCell<HashMap<(usize, String), Value>>,
}

impl Files {
    pub fn new(texts: Vec<String>, uses: Vec<&'static [usize]>) -> Files {
        Files { sources: texts.into_iter().map(Source::new).collect(), uses, known: RefCell::new(HashMap::new()) }
    }

    /// The files that a file's names are looked up in: itself, then those that it uses.
    pub fn seen_from(&self, file: usize) -> impl Iterator<Item = usize> {
        [file].into_iter().chain(self.uses[file].iter().copied())
    }

    /// What a name of a file comes to.
    pub fn value(&self, file: usize, name: &str) -> Value {
        let key = (file, name.to_string());
        if let Some(value) = self.known.borrow().get(&key) {
            return value.clone();
        }
        let value = self.looked_up(file, name);
        self.known.borrow_mut().insert(key, value.clone());
        value
    }

    fn looked_up(&self, file: usize, name: &str) -> Value {
        let known = match name {
            "row" => Some(Known::Row),
            "map" => Some(Known::Map),
            "eqb" => Some(Known::Eqb),
            _ => None,
        };
        if let Some(known) = known {
            return Value::Function(Rc::new(Function::Known(known)), Vec::new());
        }
        for at in self.seen_from(file) {
            if let Some(equations) = self.sources[at].equations(name) {
                return self.defined(name, equations, at);
            }
        }
        assert!(MADE.contains(&name), "nothing is known of {name}");
        Value::Made(name.to_string(), Vec::new())
    }

    fn defined(&self, name: &str, equations: Vec<Equation>, file: usize) -> Value {
        if equations[0].patterns.is_empty() {
            return self.evaluated(&equations[0].right, &Scope { file, bound: Rc::new(HashMap::new()) });
        }
        Value::Function(Rc::new(Function::Defined(name.to_string(), equations, file)), Vec::new())
    }

    fn evaluated(&self, expr: &Expr, scope: &Scope) -> Value {
        match &expr.node {
            Node::Name(name) => scope.bound.get(name).cloned().unwrap_or_else(|| self.value(scope.file, name)),
            Node::Number(number) => Value::Number(*number),
            Node::Text(text) => Value::Text(text.clone()),
            Node::Empty => Value::List(Vec::new()),
            Node::Cons(first, rest) => {
                let mut list = vec![self.evaluated(first, scope)];
                list.extend(self.evaluated(rest, scope).list());
                Value::List(list)
            }
            Node::Append(first, rest) => {
                Value::List([self.evaluated(first, scope).list(), self.evaluated(rest, scope).list()].concat())
            }
            Node::Apply(function, argument) => {
                let result = self.applied(self.evaluated(function, scope), self.evaluated(argument, scope));
                from_here(result, scope.file, function, argument)
            }
            Node::Field(of, field) => self.evaluated(of, scope).field(field),
            Node::Tuple(parts) => Value::Tuple(parts.iter().map(|part| self.evaluated(part, scope)).collect()),
            Node::Record(fields) => {
                let fields = fields.iter().map(|(name, expr)| (name.clone(), self.evaluated(expr, scope))).collect();
                Value::Record(Rc::new(Record { fields, from: None }))
            }
            Node::Lambda(names, body) => {
                let lambda = Function::Lambda(names.clone(), Rc::clone(body), scope.clone());
                Value::Function(Rc::new(lambda), Vec::new())
            }
        }
    }

    pub fn applied(&self, function: Value, argument: Value) -> Value {
        match function {
            Value::Made(name, arguments) => Value::Made(name, [arguments, vec![argument]].concat()),
            Value::Function(function, arguments) => {
                let arguments = [arguments, vec![argument]].concat();
                if arguments.len() < function.arity() {
                    return Value::Function(function, arguments);
                }
                self.called(&function, arguments)
            }
            _ => panic!("something that is no function has an argument"),
        }
    }

    fn called(&self, function: &Function, arguments: Vec<Value>) -> Value {
        match function {
            Function::Known(known) => self.by_rule(*known, arguments),
            Function::Lambda(names, body, scope) => {
                let mut bound = (*scope.bound).clone();
                bound.extend(names.iter().cloned().zip(arguments));
                self.evaluated(body, &Scope { file: scope.file, bound: Rc::new(bound) })
            }
            Function::Defined(name, equations, file) => {
                let (equation, bound) = equations
                    .iter()
                    .find_map(|equation| Some((equation, matched(&equation.patterns, &arguments)?)))
                    .unwrap_or_else(|| panic!("no equation of {name} fits"));
                self.evaluated(&equation.right, &Scope { file: *file, bound: Rc::new(bound) })
            }
        }
    }

    fn by_rule(&self, known: Known, arguments: Vec<Value>) -> Value {
        match (known, &arguments[..]) {
            (Known::Row, [word, side, children]) => Value::Row(Rc::new(Tree {
                word: word.text(),
                side: side.number(),
                children: children.clone().list().iter().map(Value::row).collect(),
            })),
            (Known::Map, [function, list]) => {
                Value::List(list.clone().list().into_iter().map(|item| self.applied(function.clone(), item)).collect())
            }
            (Known::Eqb, [a, b]) => Value::Made((a.number() == b.number()).to_string(), Vec::new()),
            _ => unreachable!("called with as many arguments as it has"),
        }
    }
}

/// A result that is a record, with the application that it is the result of.
fn from_here(result: Value, file: usize, function: &Expr, argument: &Expr) -> Value {
    let Value::Record(record) = result else { return result };
    let mut head = function;
    while let Node::Apply(inner, _) = &head.node {
        head = inner;
    }
    let Node::Name(head) = &head.node else { return Value::Record(record) };
    let (begin, last, end) = (function.span.start, argument.span.start, argument.span.end);
    let from = Some(Origin { file, head: head.clone(), begin, last, end });
    Value::Record(Rc::new(Record { fields: record.fields.clone(), from }))
}

/// What the patterns bind, where the arguments fit them: a name of a `data` fits itself, every other name anything.
fn matched(patterns: &[Expr], arguments: &[Value]) -> Option<HashMap<String, Value>> {
    let mut bound = HashMap::new();
    for (pattern, argument) in patterns.iter().zip(arguments) {
        match (&pattern.node, argument) {
            (Node::Name(name), Value::Made(made, _)) if MADE.contains(&name.as_str()) => {
                if name != made {
                    return None;
                }
            }
            (Node::Name(name), _) => {
                bound.insert(name.clone(), argument.clone());
            }
            (Node::Empty, Value::List(list)) if list.is_empty() => {}
            (Node::Cons(first, rest), Value::List(list)) => {
                let (head, tail) = list.split_first()?;
                let parts = [head.clone(), Value::List(tail.to_vec())];
                bound.extend(matched(std::slice::from_ref::<Expr>(first), &parts[..1])?);
                bound.extend(matched(std::slice::from_ref::<Expr>(rest), &parts[1..])?);
            }
            _ => return None,
        }
    }
    Some(bound)
}

impl Value {
    pub fn number(&self) -> usize {
        match self {
            Value::Number(number) => *number,
            _ => panic!("no number where one must stand"),
        }
    }

    fn text(&self) -> String {
        match self {
            Value::Text(text) => text.clone(),
            _ => panic!("no text where one must stand"),
        }
    }

    pub fn list(self) -> Vec<Value> {
        match self {
            Value::List(list) => list,
            _ => panic!("no list where one must stand"),
        }
    }

    pub fn row(&self) -> Tree {
        match self {
            Value::Row(tree) => (**tree).clone(),
            _ => panic!("no row where one must stand"),
        }
    }

    /// A name of a `data`, with its arguments.
    pub fn made(&self) -> (&str, &[Value]) {
        match self {
            Value::Made(name, arguments) => (name, arguments),
            _ => panic!("no name of a data where one must stand"),
        }
    }

    pub fn record(&self) -> &Record {
        match self {
            Value::Record(record) => record,
            _ => panic!("no record where one must stand"),
        }
    }

    /// A field of a record, or a part of a tuple by its number.
    pub fn field(&self, name: &str) -> Value {
        match self {
            Value::Tuple(parts) => parts[name.parse::<usize>().expect("the number of a part")].clone(),
            _ => self.record().fields.get(name).unwrap_or_else(|| panic!("no field {name}")).clone(),
        }
    }
}
