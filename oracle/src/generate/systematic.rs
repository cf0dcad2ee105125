//! Small sheets by the plan: every small expression in every place of a statement, and every statement within every other.

use super::draft::{leaf, node, Draft, Node, Spans};

/// The names of all these sheets, in byte order. `w` is the name of calls, which write with side 1.
const NAMES: [&str; 8] = ["$break$1", "$continue$2", "c", "f", "g", "w", "x", "y"];

fn numbered(name: &str) -> u32 {
    NAMES.iter().position(|n| *n == name).unwrap_or_else(|| panic!("no name {name}")) as u32
}

/// A path with these segments, dots between them.
fn path(text: &str) -> Node {
    let segments = text.split('.').filter(|name| !name.is_empty());
    node("path", 0, segments.map(|name| node("seg", numbered(name), vec![])).collect())
}

fn none() -> Node {
    leaf("none")
}

fn ident(text: &str) -> Node {
    node("ident", 0, vec![path(text)])
}

fn call(side: u32, text: &str, args: Vec<Node>) -> Node {
    node("call", side, [vec![path(text)], args].concat())
}

fn lit() -> Node {
    leaf("lit")
}

fn c() -> Node {
    ident("c")
}

fn x() -> Node {
    ident("x")
}

/// `w(x)`, which writes.
fn wx() -> Node {
    call(1, "w", vec![x()])
}

fn two(side: u32, left: &Node, right: &Node) -> Node {
    node("binary", side, vec![left.clone(), right.clone()])
}

fn one(word: &str, side: u32, operand: &Node) -> Node {
    node(word, side, vec![operand.clone()])
}

/// Expressions that hold none, or one in an argument.
fn atoms() -> Vec<Node> {
    let mut found = vec![lit(), c(), x(), ident("x.f"), ident("f.x"), ident(""), leaf("opaque")];
    for side in 0..4 {
        found.push(call(side, "w", vec![]));
        found.push(call(side, "w", vec![x()]));
        found.push(call(side, "x", vec![c()]));
        found.push(call(side, "x.f", vec![]));
    }
    found.push(call(1, "f.x", vec![lit()]));
    found.push(call(0, "", vec![c(), x()]));
    found
}

/// The atoms that an operand needs: quiet, reading, writing with a mention and without, and a call that only refers.
fn few() -> Vec<Node> {
    vec![c(), x(), wx(), call(1, "w", vec![]), call(2, "w", vec![x()])]
}

/// Kinds with one operand, with two and with three, and with any count.
const ONE: [&str; 7] = ["paren", "namedarg", "concat", "syscall", "pattern", "replicate", "method"];
const ONE_OR_NONE: [&str; 2] = ["cast", "new"];
const TWO: [&str; 8] = ["bitsel", "concat", "syscall", "pattern", "replicate", "method", "cast", "new"];
const THREE: [&str; 6] = ["ternary", "partsel", "indexed", "mtm", "concat", "method"];

/// Operators over atoms, one of the two any atom.
fn operators() -> Vec<Node> {
    let mut found = Vec::new();
    for a in &atoms() {
        found.extend([one("unary", 0, a), one("unary", 1, a), one("paren", 0, a)]);
        for b in &few() {
            found.extend((0..3).flat_map(|side| [two(side, a, b), two(side, b, a)]));
        }
    }
    found
}

/// Every other kind of expression over these atoms.
fn forms(of: &[Node]) -> Vec<Node> {
    let mut found: Vec<Node> = ["concat", "syscall", "pattern"].map(leaf).to_vec();
    found.push(one("namedarg", 0, &none()));
    for a in of {
        found.extend(ONE.map(|word| one(word, 0, a)));
        found.extend(ONE_OR_NONE.map(|word| node(word, 0, vec![a.clone(), none()])));
    }
    for (a, b) in of.iter().flat_map(|a| of.iter().map(move |b| (a, b))) {
        found.extend(TWO.map(|word| node(word, 0, vec![a.clone(), b.clone()])));
        found.extend((0..4).map(|side| call(side, "w", vec![a.clone(), b.clone()])));
        for d in of {
            found.extend(THREE.map(|word| node(word, 0, vec![a.clone(), b.clone(), d.clone()])));
        }
    }
    found
}

/// Every kind of expression over atoms, and these first.
fn one_layer() -> Vec<Node> {
    [atoms(), operators(), forms(&few())].concat()
}

/// Operators over operators: what the short circuit and the two outcomes turn on.
fn two_layers() -> Vec<Node> {
    let atoms = [c(), x(), wx()];
    let mut inner = Vec::new();
    for a in &atoms {
        inner.push(one("unary", 1, a));
        for b in &atoms {
            inner.extend((0..3).map(|side| two(side, a, b)));
            inner.push(node("ternary", 0, vec![c(), a.clone(), b.clone()]));
            inner.push(node("ternary", 0, vec![a.clone(), b.clone(), c()]));
        }
    }
    let mut found = Vec::new();
    for part in &inner {
        found.extend([one("unary", 1, part), one("unary", 0, part), one("paren", 0, part), one("concat", 0, part)]);
        found.push(one("unary", 1, &one("paren", 0, part)));
        found.push(one("unary", 1, &one("unary", 1, part)));
        for a in &atoms {
            for side in 0..3 {
                found.extend([two(side, part, a), two(side, a, part), two(side, &one("unary", 1, part), a)]);
            }
            found.push(node("ternary", 0, vec![part.clone(), a.clone(), c()]));
            found.push(node("ternary", 0, vec![part.clone(), c(), a.clone()]));
            found.push(node("ternary", 0, vec![a.clone(), part.clone(), c()]));
            found.push(node("ternary", 0, vec![c(), a.clone(), part.clone()]));
        }
    }
    found
}

fn lident(text: &str) -> Node {
    node("lident", 0, vec![path(text)])
}

fn lx() -> Node {
    lident("x")
}

fn ly() -> Node {
    lident("y")
}

/// An assignment with its delay and event.
fn timed(word: &str, delay: Node, intra: Node, target: Node, value: Node) -> Node {
    node(word, 0, vec![delay, intra, target, value])
}

fn assign(target: Node, value: Node) -> Node {
    timed("blocking", none(), none(), target, value)
}

fn later(target: Node, value: Node) -> Node {
    timed("nonblocking", none(), none(), target, value)
}

fn delay(values: Vec<Node>) -> Node {
    node("delay", 0, values)
}

fn event(of: Node, iff: Node) -> Node {
    node("event", 0, vec![of, iff])
}

fn list(events: Vec<Node>) -> Node {
    node("list", 0, events)
}

fn intra(repeat: Node, control: Node) -> Node {
    node("intra", 0, vec![repeat, control])
}

/// `x = c;`
fn write_x() -> Node {
    assign(lx(), c())
}

/// `y = x;`
fn read_x() -> Node {
    assign(ly(), x())
}

fn null() -> Node {
    leaf("null")
}

fn block(parts: Vec<Node>) -> Node {
    node("block", 0, parts)
}

fn if_else(cond: Node, then: Node, otherwise: Node) -> Node {
    node("if", 0, vec![cond, then, otherwise])
}

fn arm(body: Node, labels: Vec<Node>) -> Node {
    node("match", 0, [vec![body], labels].concat())
}

fn default(body: Node) -> Node {
    node("default", 0, vec![body])
}

fn case(of: Node, arms: Vec<Node>) -> Node {
    node("case", 0, [vec![of], arms].concat())
}

fn while_loop(side: u32, cond: Node, body: Node) -> Node {
    node("while", side, vec![cond, body])
}

fn repeat(side: u32, count: Node, body: Node) -> Node {
    node("repeat", side, vec![count, body])
}

fn forever(side: u32, body: Node) -> Node {
    node("forever", side, vec![body])
}

fn for_loop(side: u32, init: Node, cond: Node, step: Node, body: Node) -> Node {
    node("for", side, vec![init, cond, step, body])
}

fn returned(value: Node) -> Node {
    node("return", 0, vec![value])
}

fn disable(text: &str) -> Node {
    node("disable", 0, vec![path(text)])
}

fn task(side: u32, text: &str, args: Vec<Node>) -> Node {
    node("task", side, [vec![path(text)], args].concat())
}

fn decl(name: &str, init: Node) -> Node {
    node("decl", numbered(name), vec![init])
}

fn systask(args: Vec<Node>) -> Node {
    node("systask", 0, args)
}

/// Statements with one expression in them, for each place where its effect or its outcome tells.
fn telling_places(e: &Node) -> Vec<Node> {
    let e = || e.clone();
    vec![
        assign(ly(), e()),
        assign(lx(), e()),
        timed("blocking", delay(vec![e()]), none(), ly(), c()),
        later(ly(), e()),
        if_else(e(), null(), none()),
        if_else(e(), read_x(), none()),
        if_else(e(), null(), read_x()),
        if_else(e(), write_x(), none()),
        if_else(e(), write_x(), write_x()),
        block(vec![if_else(e(), null(), none()), read_x()]),
        block(vec![if_else(e(), write_x(), returned(none())), read_x()]),
        block(vec![if_else(e(), returned(none()), write_x()), read_x()]),
        returned(e()),
        case(e(), vec![arm(read_x(), vec![c()])]),
        case(e(), vec![default(read_x())]),
        case(c(), vec![arm(null(), vec![e()])]),
        block(vec![case(e(), vec![arm(null(), vec![c()])]), read_x()]),
        for_loop(0, null(), e(), null(), read_x()),
        for_loop(0, null(), e(), read_x(), write_x()),
        for_loop(1, null(), e(), null(), write_x()),
        while_loop(0, e(), null()),
        while_loop(0, e(), read_x()),
        while_loop(1, e(), write_x()),
        block(vec![while_loop(1, e(), write_x()), read_x()]),
        repeat(0, e(), null()),
        repeat(0, e(), read_x()),
        block(vec![decl("c", e()), null()]),
        systask(vec![e()]),
        node("wait", 0, vec![e(), none()]),
        node("wait", 0, vec![e(), read_x()]),
        block(vec![assign(ly(), e()), read_x()]),
        block(vec![later(ly(), e()), read_x()]),
        block(vec![node("wait", 0, vec![e(), none()]), read_x()]),
        block(vec![repeat(0, e(), null()), read_x()]),
    ]
}

/// Statements with one expression in them, for each place that an expression can stand at: the telling ones, and then the others.
fn places(e: &Node) -> Vec<Node> {
    let telling = telling_places(e);
    let e = || e.clone();
    let star = || leaf("star");
    let on = |of: Node| list(vec![event(of, none())]);
    let others = vec![
        assign(node("lbit", 0, vec![lx(), c()]), e()),
        assign(node("lbit", 0, vec![lx(), e()]), c()),
        assign(node("lbit", 0, vec![ly(), e()]), c()),
        assign(node("lbit", 0, vec![ly(), x()]), e()),
        assign(node("lpart", 0, vec![ly(), e(), c()]), c()),
        assign(node("lpart", 0, vec![ly(), c(), e()]), wx()),
        assign(node("lidx", 0, vec![ly(), e(), c()]), c()),
        assign(node("lidx", 0, vec![ly(), c(), e()]), wx()),
        assign(node("lconcat", 0, vec![lx(), ly()]), e()),
        assign(node("lconcat", 0, vec![ly(), node("lbit", 0, vec![ly(), e()])]), c()),
        assign(lident("x.f"), e()),
        assign(lident("f.x"), e()),
        assign(leaf("lerror"), e()),
        timed("blocking", delay(vec![e()]), none(), lx(), c()),
        timed("blocking", delay(vec![c(), e()]), none(), ly(), wx()),
        timed("blocking", delay(vec![e(), x()]), none(), lx(), e()),
        timed("blocking", none(), intra(none(), on(e())), lx(), c()),
        timed("blocking", none(), intra(none(), list(vec![event(c(), e())])), lx(), c()),
        timed("blocking", none(), intra(e(), star()), lx(), c()),
        timed("blocking", none(), intra(e(), on(c())), ly(), wx()),
        timed("blocking", delay(vec![e()]), intra(none(), on(x())), ly(), x()),
        timed("blocking", none(), intra(none(), on(x())), ly(), e()),
        timed("blocking", none(), intra(e(), star()), node("lbit", 0, vec![lx(), c()]), c()),
        timed("blocking", delay(vec![e()]), none(), node("lbit", 0, vec![lx(), c()]), c()),
        timed("blocking", none(), intra(none(), on(e())), ly(), c()),
        later(lx(), e()),
        later(node("lbit", 0, vec![lx(), c()]), e()),
        later(node("lbit", 0, vec![ly(), e()]), c()),
        timed("nonblocking", delay(vec![e()]), none(), ly(), c()),
        timed("nonblocking", none(), intra(none(), on(e())), lx(), c()),
        timed("nonblocking", none(), intra(e(), star()), lx(), c()),
        later(node("lpart", 0, vec![ly(), e(), c()]), c()),
        later(node("lidx", 0, vec![ly(), c(), e()]), c()),
        timed("nonblocking", none(), intra(none(), list(vec![event(c(), e())])), ly(), c()),
        if_else(e(), returned(none()), returned(none())),
        if_else(c(), assign(ly(), e()), none()),
        case(e(), vec![]),
        case(e(), vec![arm(write_x(), vec![c()]), default(write_x())]),
        case(e(), vec![arm(returned(none()), vec![c()]), default(disable("$break$1"))]),
        case(c(), vec![arm(write_x(), vec![c(), e()]), default(write_x())]),
        case(c(), vec![default(write_x()), arm(write_x(), vec![e()])]),
        case(c(), vec![default(read_x()), arm(null(), vec![e()])]),
        case(c(), vec![arm(read_x(), vec![c()]), arm(null(), vec![e(), x()])]),
        case(wx(), vec![arm(null(), vec![e()])]),
        for_loop(0, null(), e(), null(), null()),
        for_loop(0, assign(ly(), e()), c(), null(), read_x()),
        for_loop(1, null(), c(), assign(ly(), e()), write_x()),
        repeat(1, e(), write_x()),
        forever(1, assign(ly(), e())),
        block(vec![decl("x", e()), read_x()]),
        block(vec![decl("c", none()), decl("y", e()), write_x()]),
        systask(vec![c(), e()]),
        task(0, "f", vec![e()]),
        task(1, "f", vec![e()]),
        task(2, "f", vec![c(), e()]),
        task(3, "f", vec![e()]),
        task(5, "f", vec![e()]),
        task(3, "f.g", vec![e()]),
        task(6, "f.g", vec![e()]),
        task(3, "f.g.f", vec![e()]),
        task(2, "x", vec![e()]),
        task(2, "x.g", vec![e()]),
        node("delayctrl", 0, vec![delay(vec![e()]), none()]),
        node("delayctrl", 0, vec![delay(vec![c(), e()]), read_x()]),
        node("eventctrl", 0, vec![on(e()), none()]),
        node("eventctrl", 0, vec![list(vec![event(c(), e())]), write_x()]),
        node("eventctrl", 0, vec![list(vec![event(c(), none()), event(e(), e())]), read_x()]),
        node("fork", 0, vec![assign(ly(), e())]),
    ];
    [telling, others].concat()
}

/// Each kind that holds statements, with this one in each of its places and nothing that refers in the others.
fn compound(s: &Node) -> Vec<Node> {
    let s = || s.clone();
    vec![
        if_else(c(), s(), none()),
        if_else(c(), null(), s()),
        case(c(), vec![arm(s(), vec![c()])]),
        case(c(), vec![arm(null(), vec![c()]), default(s())]),
        for_loop(0, s(), c(), null(), null()),
        for_loop(0, null(), c(), s(), null()),
        for_loop(0, null(), c(), null(), s()),
        while_loop(0, c(), s()),
        repeat(0, c(), s()),
        forever(0, s()),
        block(vec![null(), s()]),
        node("fork", 0, vec![null(), s()]),
        node("delayctrl", 0, vec![delay(vec![c()]), s()]),
        node("eventctrl", 0, vec![leaf("star"), s()]),
        node("wait", 0, vec![c(), s()]),
        node("concurrent", 0, vec![s(), none()]),
        node("concurrent", 0, vec![none(), s()]),
        node("deferred", 0, vec![s(), null()]),
        node("deferred", 0, vec![null(), s()]),
    ]
}

/// Statements to put into others.
fn statements() -> Vec<Node> {
    let on = |of: Node| list(vec![event(of, none())]);
    let mut found = vec![
        null(),
        assign(ly(), c()),
        read_x(),
        write_x(),
        assign(lx(), x()),
        assign(node("lbit", 0, vec![lx(), c()]), c()),
        assign(ly(), wx()),
        assign(node("lbit", 0, vec![lx(), c()]), wx()),
        later(lx(), c()),
        later(ly(), x()),
        later(ly(), wx()),
        later(ly(), c()),
        timed("nonblocking", delay(vec![c()]), none(), lx(), c()),
        if_else(c(), write_x(), none()),
        if_else(c(), write_x(), returned(none())),
        if_else(c(), disable("$continue$2"), write_x()),
        if_else(c(), disable("$break$1"), none()),
        if_else(wx(), null(), none()),
        returned(none()),
        returned(x()),
        returned(wx()),
        disable("$break$1"),
        disable("$continue$2"),
        disable("c"),
        disable("x"),
        disable("$break$1.c"),
        disable("c.$break$1"),
        disable(""),
        node("fork", 0, vec![]),
        node("fork", 0, vec![assign(ly(), c())]),
        node("fork", 0, vec![write_x(), read_x()]),
        node("fork", 0, vec![node("delayctrl", 0, vec![delay(vec![]), none()])]),
        systask(vec![]),
        systask(vec![x()]),
        systask(vec![wx()]),
        task(1, "f", vec![x()]),
        task(2, "f", vec![x()]),
        task(3, "", vec![]),
        task(7, "f.g", vec![]),
        task(2, "f.g", vec![]),
        task(2, "x.g", vec![]),
        task(2, "f.g.c", vec![]),
        task(2, "f.g", vec![c(), x()]),
        node("delayctrl", 0, vec![delay(vec![c()]), none()]),
        node("delayctrl", 0, vec![delay(vec![]), write_x()]),
        node("delayctrl", 0, vec![delay(vec![x()]), none()]),
        node("eventctrl", 0, vec![leaf("star"), none()]),
        node("eventctrl", 0, vec![leaf("star"), write_x()]),
        node("eventctrl", 0, vec![on(x()), none()]),
        node("eventctrl", 0, vec![on(c()), disable("$break$1")]),
        node("wait", 0, vec![c(), none()]),
        node("wait", 0, vec![c(), write_x()]),
        node("wait", 0, vec![x(), none()]),
        node("wait", 0, vec![wx(), none()]),
        timed("blocking", delay(vec![c()]), none(), lx(), c()),
        timed("blocking", none(), intra(none(), on(c())), lx(), c()),
        timed("blocking", none(), intra(none(), on(x())), lx(), c()),
        timed("blocking", delay(vec![c()]), none(), ly(), c()),
        node("concurrent", 0, vec![none(), none()]),
        node("concurrent", 0, vec![write_x(), none()]),
        node("concurrent", 0, vec![none(), node("wait", 0, vec![c(), none()])]),
        node("concurrent", 0, vec![null(), returned(none())]),
        node("deferred", 0, vec![null(), null()]),
        node("deferred", 0, vec![write_x(), disable("c")]),
        node("deferred", 0, vec![leaf("waitfork"), null()]),
        while_loop(0, c(), write_x()),
        while_loop(1, c(), write_x()),
        while_loop(1, c(), if_else(c(), disable("$break$1"), write_x())),
        repeat(1, c(), write_x()),
        forever(0, write_x()),
        forever(1, write_x()),
        forever(1, disable("$break$1")),
        for_loop(1, null(), c(), null(), write_x()),
        for_loop(0, write_x(), c(), null(), null()),
        case(c(), vec![arm(write_x(), vec![c()])]),
        case(c(), vec![default(write_x())]),
        case(c(), vec![default(returned(none()))]),
        case(wx(), vec![default(returned(none()))]),
        block(vec![]),
        block(vec![write_x(), read_x()]),
        block(vec![decl("y", x())]),
        block(vec![decl("y", wx()), read_x()]),
    ];
    found.extend(compound(&null()));
    found.extend(compound(&disable("$break$1")));
    found.extend((0..8).map(|side| task(side, "f", vec![])));
    for word in ["randstmt", "trigger", "waitfork", "passign", "deassign", "force", "release", "cover", "error"] {
        found.push(leaf(word));
    }
    found
}

/// A statement in every place that a statement can stand at.
fn around(s: &Node) -> Vec<Node> {
    let s = || s.clone();
    let mut found = vec![
        s(),
        block(vec![s()]),
        block(vec![s(), read_x()]),
        block(vec![write_x(), s(), read_x()]),
        block(vec![returned(none()), s()]),
        block(vec![disable("$break$1"), s()]),
        block(vec![disable("c"), s()]),
        block(vec![decl("c", wx()), s()]),
        if_else(c(), s(), none()),
        if_else(c(), null(), s()),
        if_else(c(), s(), s()),
        if_else(c(), s(), returned(none())),
        if_else(c(), s(), write_x()),
        if_else(c(), write_x(), s()),
        if_else(c(), disable("$continue$2"), s()),
        if_else(wx(), s(), none()),
        if_else(two(1, &c(), &wx()), s(), none()),
        if_else(two(1, &c(), &wx()), null(), s()),
        if_else(two(2, &c(), &wx()), s(), none()),
        if_else(two(2, &c(), &wx()), null(), s()),
        if_else(one("unary", 1, &two(2, &c(), &wx())), s(), none()),
        case(c(), vec![arm(s(), vec![c()])]),
        case(c(), vec![default(s())]),
        case(c(), vec![arm(s(), vec![c()]), default(write_x())]),
        case(c(), vec![arm(write_x(), vec![]), default(s())]),
        case(c(), vec![default(s()), arm(returned(none()), vec![c(), lit()])]),
        case(c(), vec![default(write_x()), default(s())]),
        case(wx(), vec![arm(s(), vec![c()])]),
        case(wx(), vec![default(s())]),
        for_loop(0, s(), c(), null(), null()),
        for_loop(1, s(), c(), null(), write_x()),
        for_loop(0, null(), c(), s(), null()),
        for_loop(1, null(), c(), s(), write_x()),
        for_loop(1, null(), two(1, &c(), &wx()), s(), null()),
        for_loop(0, null(), c(), null(), s()),
        for_loop(1, null(), c(), null(), s()),
        for_loop(1, write_x(), c(), read_x(), s()),
        while_loop(0, two(1, &c(), &wx()), s()),
        while_loop(1, wx(), s()),
        forever(0, s()),
        node("wait", 0, vec![c(), s()]),
        node("wait", 0, vec![wx(), s()]),
        node("delayctrl", 0, vec![delay(vec![c()]), s()]),
        node("eventctrl", 0, vec![leaf("star"), s()]),
        node("eventctrl", 0, vec![list(vec![event(c(), x())]), s()]),
        node("fork", 0, vec![s(), null()]),
        node("concurrent", 0, vec![s(), none()]),
        node("concurrent", 0, vec![none(), s()]),
        node("deferred", 0, vec![s(), null()]),
        node("deferred", 0, vec![null(), s()]),
        block(vec![block(vec![s()]), read_x()]),
    ];
    for side in 0..2 {
        found.extend([
            while_loop(side, c(), s()),
            repeat(side, c(), s()),
            block(vec![for_loop(side, null(), c(), null(), s()), read_x()]),
            block(vec![while_loop(side, c(), s()), read_x()]),
            block(vec![while_loop(side, c(), block(vec![write_x(), s()])), read_x()]),
            block(vec![repeat(side, c(), block(vec![s(), write_x()])), read_x()]),
            block(vec![forever(side, block(vec![s(), write_x()])), read_x()]),
            block(vec![while_loop(1, c(), block(vec![while_loop(side, c(), s()), write_x()])), read_x()]),
        ]);
    }
    found
}

/// Two statements beside each other.
fn beside(a: &Node, b: &Node) -> Vec<Node> {
    let (a, b) = (|| a.clone(), || b.clone());
    vec![
        block(vec![a(), b()]),
        if_else(c(), a(), b()),
        case(c(), vec![arm(a(), vec![c()]), default(b())]),
        for_loop(1, null(), c(), a(), b()),
    ]
}

/// The plan's parts, to be numbered through.
pub struct Systematic {
    /// Expressions for every place, the atoms first, and expressions for the telling places.
    simple: Vec<Node>,
    nested: Vec<Node>,
    statements: Vec<Node>,
    /// How many sheets each part has.
    parts: [usize; 5],
}

/// Starts and soles, the unwritten start of a sole writer first.
const RUNS: [(u32, u32); 4] = [(0, 1), (0, 0), (1, 1), (1, 0)];

/// A sheet with these names, from the start of a sole writer that has not written.
pub fn unwritten(root: Node) -> Draft {
    draft(root, RUNS[0])
}

fn draft(root: Node, (start, sole): (u32, u32)) -> Draft {
    let names = NAMES.iter().map(|name| name.as_bytes().to_vec()).collect();
    Draft { names, local: numbered("x") as usize, start, sole, spans: Spans::Apart, root }
}

impl Systematic {
    pub fn new() -> Systematic {
        let (simple, nested, statements) = (one_layer(), two_layers(), statements());
        let (places, telling) = (places(&c()).len(), telling_places(&c()).len());
        let parts = [
            simple.len() * places,
            atoms().len() * places * 3,
            nested.len() * telling,
            statements.len() * around(&null()).len() * 4,
            statements.len() * statements.len() * beside(&null(), &null()).len() * 2,
        ];
        Systematic { simple, nested, statements, parts }
    }

    pub fn count(&self) -> usize {
        self.parts.iter().sum()
    }

    /// The sheet of this number, below the count: the part that the number falls into, and then its digits, one for each choice.
    pub fn sheet(&self, number: usize) -> Draft {
        let mut left = number;
        let mut part = 0;
        while left >= self.parts[part] {
            left -= self.parts[part];
            part += 1;
        }
        let pick = &mut |count: usize| {
            let digit = left % count;
            left /= count;
            digit
        };
        match part {
            0 => draft(one_of(places(&self.simple[pick(self.simple.len())]), pick), RUNS[0]),
            1 => draft(one_of(places(&self.simple[pick(atoms().len())]), pick), RUNS[1 + pick(3)]),
            2 => draft(one_of(telling_places(&self.nested[pick(self.nested.len())]), pick), RUNS[0]),
            3 => draft(one_of(around(self.statement(pick)), pick), RUNS[pick(4)]),
            _ => draft(one_of(beside(self.statement(pick), self.statement(pick)), pick), RUNS[pick(2)]),
        }
    }

    fn statement(&self, pick: &mut impl FnMut(usize) -> usize) -> &Node {
        &self.statements[pick(self.statements.len())]
    }

    /// A statement in two others, one around the other: too many to go through.
    pub fn three_layers(&self, pick: &mut impl FnMut(usize) -> usize) -> Draft {
        let middle = one_of(around(self.statement(pick)), pick);
        draft(one_of(around(&middle), pick), RUNS[pick(4)])
    }
}

fn one_of(mut of: Vec<Node>, pick: &mut impl FnMut(usize) -> usize) -> Node {
    let which = pick(of.len());
    of.swap_remove(which)
}
