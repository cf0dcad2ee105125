//! Every kind with one child that does not fit, or with a side that it has not: the smallest sheets for refusals 6 and 9.

use super::draft::{leaf, node, Node};
use crate::reading::kinds::{is_of, Class, Item, KINDS};

const CLASSES: [Class; 11] = [
    Class::Path,
    Class::Seg,
    Class::Delay,
    Class::Intra,
    Class::StarOrList,
    Class::Event,
    Class::Arm,
    Class::Decl,
    Class::S,
    Class::E,
    Class::L,
];

/// A row of this kind with the children that it must have, and one where it may have any count.
fn smallest(kind: usize) -> Node {
    let children = KINDS[kind].children.iter().map(|item| match *item {
        Item::One(class) | Item::Any(class) => smallest(plainest(class)),
        Item::Maybe(_) => leaf("none"),
    });
    Node { kind, side: 0, children: children.collect() }
}

/// The kind of a class that holds least.
fn plainest(class: Class) -> usize {
    let of_class = (0..KINDS.len()).filter(|kind| is_of(*kind, class));
    of_class.min_by_key(|kind| KINDS[*kind].children.len()).expect("a kind of the class")
}

/// A first row that holds this one at a place where its kind may stand.
fn housed(inner: Node) -> Node {
    let none = || leaf("none");
    let Some(class) = CLASSES.into_iter().find(|class| is_of(inner.kind, *class)) else {
        return node("return", 0, vec![inner]);
    };
    match class {
        Class::S => inner,
        Class::E => node("return", 0, vec![inner]),
        Class::L => node("blocking", 0, vec![none(), none(), inner, leaf("lit")]),
        Class::Path => node("disable", 0, vec![inner]),
        Class::Seg => node("disable", 0, vec![node("path", 0, vec![inner])]),
        Class::Delay => node("delayctrl", 0, vec![inner, none()]),
        Class::Intra => node("blocking", 0, vec![none(), inner, leaf("lerror"), leaf("lit")]),
        Class::StarOrList => node("eventctrl", 0, vec![inner, none()]),
        Class::Event => node("eventctrl", 0, vec![node("list", 0, vec![inner]), none()]),
        Class::Arm => node("case", 0, vec![leaf("lit"), inner]),
        Class::Decl => node("block", 0, vec![inner]),
    }
}

/// What may be taken for a child of a class: `none`, the kinds next to the class in the table, and a statement or an expression.
fn strays(class: Class) -> Vec<Node> {
    let of_class: Vec<usize> = (0..KINDS.len()).filter(|kind| is_of(*kind, class)).collect();
    let mut found = vec![leaf("none"), leaf("null"), leaf("lit")];
    found.extend(of_class[0].checked_sub(1).map(smallest));
    found.extend(Some(of_class[of_class.len() - 1] + 1).filter(|kind| *kind < KINDS.len()).map(smallest));
    found
}

/// The row with one of its children lost, doubled, exchanged for a stray one, or followed by one.
fn changed(whole: &Node) -> Vec<Node> {
    let mut found = Vec::new();
    let mut add = |change: &dyn Fn(&mut Vec<Node>)| {
        let mut node = whole.clone();
        change(&mut node.children);
        found.push(node);
    };
    for (place, item) in KINDS[whole.kind].children.iter().enumerate() {
        let (Item::One(class) | Item::Maybe(class) | Item::Any(class)) = *item;
        add(&|children| drop(children.remove(place)));
        add(&|children| children.insert(place, smallest(plainest(class))));
        for stray in strays(class) {
            add(&|children| children[place] = stray.clone());
        }
    }
    for class in CLASSES {
        add(&|children| children.push(smallest(plainest(class))));
    }
    found
}

/// All of them, with the kinds as first rows, and each kind with the sides up to 9.
pub fn all() -> Vec<Node> {
    let mut found = Vec::new();
    for kind in 0..KINDS.len() {
        found.push(smallest(kind));
        found.extend(changed(&smallest(kind)).into_iter().map(housed));
        found.extend((0..10).map(|side| housed(Node { side, ..smallest(kind) })));
    }
    found
}
