//! Document 01's table of kinds: "each word, its side numbers and its children".

/// What may stand at a place: one of the document's letters, or a kind that the document names there.
#[derive(Clone, Copy, PartialEq, Eq, Debug)]
pub enum Class {
    Path,
    Seg,
    Delay,
    Intra,
    StarOrList,
    Event,
    Arm,
    Decl,
    S,
    E,
    L,
}

/// An entry of a kind's children: one row, one row that "may be `none`", or "any count".
#[derive(Clone, Copy, PartialEq, Eq, Debug)]
pub enum Item {
    One(Class),
    Maybe(Class),
    Any(Class),
}

/// "Side is 0 unless given."
#[derive(Clone, Copy, PartialEq, Eq, Debug)]
pub enum Side {
    UpTo(u32),
    Name,
}

pub struct Kind {
    pub word: &'static str,
    pub side: Side,
    pub children: &'static [Item],
}

const fn kind(word: &'static str, side: u32, children: &'static [Item]) -> Kind {
    Kind { word, side: Side::UpTo(side), children }
}

const fn naming(word: &'static str, children: &'static [Item]) -> Kind {
    Kind { word, side: Side::Name, children }
}

use Class::{Arm, Decl, Delay, Event, Intra, Path, Seg, StarOrList, E, L, S};
use Item::{Any, Maybe, One};

const ASSIGNMENT: &[Item] = &[Maybe(Delay), Maybe(Intra), One(L), One(E)];

/// "Kind numbers count from 0 in this order."
pub const KINDS: [Kind; 66] = [
    kind("none", 0, &[]),
    kind("path", 0, &[Any(Seg)]),
    naming("seg", &[]),
    kind("delay", 0, &[Any(E)]),
    kind("intra", 0, &[Maybe(E), One(StarOrList)]),
    kind("star", 0, &[]),
    kind("list", 0, &[Any(Event)]),
    kind("event", 0, &[One(E), Maybe(E)]),
    kind("match", 0, &[One(S), Any(E)]),
    kind("default", 0, &[One(S)]),
    naming("decl", &[Maybe(E)]),
    // Statements.
    kind("blocking", 0, ASSIGNMENT),
    kind("nonblocking", 0, ASSIGNMENT),
    kind("if", 0, &[One(E), One(S), Maybe(S)]),
    kind("return", 0, &[Maybe(E)]),
    kind("case", 0, &[One(E), Any(Arm)]),
    kind("for", 1, &[One(S), One(E), One(S), One(S)]),
    kind("while", 1, &[One(E), One(S)]),
    kind("repeat", 1, &[One(E), One(S)]),
    kind("forever", 1, &[One(S)]),
    kind("block", 0, &[Any(Decl), Any(S)]),
    kind("fork", 0, &[Any(S)]),
    kind("systask", 0, &[Any(E)]),
    kind("task", 7, &[One(Path), Any(E)]),
    kind("randstmt", 0, &[]),
    kind("delayctrl", 0, &[One(Delay), Maybe(S)]),
    kind("eventctrl", 0, &[One(StarOrList), Maybe(S)]),
    kind("trigger", 0, &[]),
    kind("wait", 0, &[One(E), Maybe(S)]),
    kind("disable", 0, &[One(Path)]),
    kind("waitfork", 0, &[]),
    kind("concurrent", 0, &[Maybe(S), Maybe(S)]),
    kind("passign", 0, &[]),
    kind("deassign", 0, &[]),
    kind("force", 0, &[]),
    kind("release", 0, &[]),
    kind("deferred", 0, &[One(S), One(S)]),
    kind("cover", 0, &[]),
    kind("null", 0, &[]),
    kind("error", 0, &[]),
    // Expressions.
    kind("lit", 0, &[]),
    kind("ident", 0, &[One(Path)]),
    kind("unary", 1, &[One(E)]),
    kind("binary", 2, &[One(E), One(E)]),
    kind("ternary", 0, &[One(E), One(E), One(E)]),
    kind("bitsel", 0, &[One(E), One(E)]),
    kind("partsel", 0, &[One(E), One(E), One(E)]),
    kind("indexed", 0, &[One(E), One(E), One(E)]),
    kind("mtm", 0, &[One(E), One(E), One(E)]),
    kind("concat", 0, &[Any(E)]),
    kind("syscall", 0, &[Any(E)]),
    kind("pattern", 0, &[Any(E)]),
    kind("replicate", 0, &[One(E), Any(E)]),
    kind("method", 0, &[One(E), Any(E)]),
    kind("call", 3, &[One(Path), Any(E)]),
    kind("paren", 0, &[One(E)]),
    kind("cast", 0, &[One(E), Maybe(E)]),
    kind("namedarg", 0, &[Maybe(E)]),
    kind("new", 0, &[One(E), Maybe(E)]),
    kind("opaque", 0, &[]),
    // Targets.
    kind("lident", 0, &[One(Path)]),
    kind("lbit", 0, &[One(L), One(E)]),
    kind("lpart", 0, &[One(L), One(E), One(E)]),
    kind("lidx", 0, &[One(L), One(E), One(E)]),
    kind("lconcat", 0, &[Any(L)]),
    kind("lerror", 0, &[]),
];

/// The kind that a word names.
pub fn numbered(word: &[u8]) -> Option<usize> {
    KINDS.iter().position(|kind| kind.word.as_bytes() == word)
}

/// Whether a kind is of a class, by where the document lists it.
pub fn is_of(kind: usize, class: Class) -> bool {
    let word = KINDS[kind].word;
    match class {
        Class::Path => word == "path",
        Class::Seg => word == "seg",
        Class::Delay => word == "delay",
        Class::Intra => word == "intra",
        Class::StarOrList => word == "star" || word == "list",
        Class::Event => word == "event",
        Class::Arm => word == "match" || word == "default",
        Class::Decl => word == "decl",
        Class::S => (11..=39).contains(&kind),
        Class::E => (40..=59).contains(&kind),
        Class::L => kind >= 60,
    }
}

/// Whether children of these kinds are those that the items ask for.
pub fn fit(items: &[Item], children: &[usize]) -> bool {
    let Some((item, later)) = items.split_first() else {
        return children.is_empty();
    };
    let first = children.first().copied();
    match *item {
        Item::One(class) => first.is_some_and(|k| is_of(k, class)) && fit(later, &children[1..]),
        Item::Maybe(class) => first.is_some_and(|k| k == 0 || is_of(k, class)) && fit(later, &children[1..]),
        Item::Any(class) => {
            let taken = children.iter().take_while(|k| is_of(**k, class)).count();
            fit(later, &children[taken..])
        }
    }
}
