//! Small answers as players send them, each with its Verilog. The local is `x`.

use crate::forms::*;
use oracle::generate::draft::Node;

/// ```verilog
/// begin
///   if (rst) x = 0;
///   else if (en) x = q + 1;
///   else x = q;
///   if (x == 15) begin x = 0; t = 1; end
///   else t = 0;
///   q <= x;
/// end
/// ```
fn counter() -> Node {
    let counted = if_else(ident("en"), blocking("x", binary(ident("q"), lit())), blocking("x", ident("q")));
    let wrapped = block(vec![blocking("x", lit()), blocking("t", lit())]);
    block(vec![
        if_else(ident("rst"), blocking("x", lit()), counted),
        if_else(binary(ident("x"), lit()), wrapped, blocking("t", lit())),
        nonblocking("q", ident("x")),
    ])
}

/// The arms of the decoder, without its default.
fn decoded() -> Vec<Node> {
    let shifted = block(vec![blocking("t", binary(ident("b"), lit())), blocking("x", binary(ident("t"), ident("a")))]);
    vec![
        arm(1, blocking("x", binary(ident("a"), ident("b")))),
        arm(1, blocking("x", binary(ident("a"), ident("b")))),
        arm(2, blocking("x", binary(ident("a"), ident("b")))),
        arm(1, shifted),
    ]
}

/// ```verilog
/// begin
///   case (mode)
///     0: x = a + b;
///     1: x = a - b;
///     2, 3: x = a & b;
///     4: begin t = b << 1; x = t | a; end
///     default: x = 0;
///   endcase
///   y = x;
///   err = x == 0;
/// end
/// ```
fn decoder() -> Node {
    let arms = [decoded(), vec![default(blocking("x", lit()))]].concat();
    block(vec![case(ident("mode"), arms), blocking("y", ident("x")), blocking("err", binary(ident("x"), lit()))])
}

/// The decoder with its default forgotten, which is not accepted.
fn forgotten() -> Node {
    block(vec![case(ident("mode"), decoded()), blocking("y", ident("x")), blocking("err", binary(ident("x"), lit()))])
}

/// ```verilog
/// begin
///   x = 8;
///   for (i = 0; i < 8; i = i + 1)
///     if (req[i]) begin x = i; break; end
///   y = x < 8 ? x : 0;
/// end
/// ```
fn arbiter() -> Node {
    let found = block(vec![blocking("x", ident("i")), break_loop()]);
    block(vec![
        blocking("x", lit()),
        for_loop("i", if_then(bitsel(ident("req"), ident("i")), found)),
        blocking("y", ternary(binary(ident("x"), lit()), ident("x"), lit())),
    ])
}

/// ```verilog
/// begin
///   sum = 0;
///   n = 0;
///   while (n < 16 && next(x) == 1) begin sum = sum + x; n = n + 1; end
///   if (next(x) == 1) y = x;
///   else y = sum;
/// end
/// ```
fn reader() -> Node {
    let one_more = || binary(writing_call("next"), lit());
    let body = block(vec![blocking("sum", binary(ident("sum"), ident("x"))), blocking("n", binary(ident("n"), lit()))]);
    block(vec![
        blocking("sum", lit()),
        blocking("n", lit()),
        while_loop(MAYBE, and(binary(ident("n"), lit()), one_more()), body),
        if_else(one_more(), blocking("y", ident("x")), blocking("y", ident("sum"))),
    ])
}

/// ```verilog
/// begin
///   #1 x = d;
///   @(posedge clk) y = x;
///   t = #1 x ^ q;
///   if (t) #1 y = {x, t};
/// end
/// ```
fn delays() -> Node {
    block(vec![
        after_delay(blocking("x", ident("d"))),
        at_edge("clk", blocking("y", ident("x"))),
        delayed("t", binary(ident("x"), ident("q"))),
        if_then(ident("t"), after_delay(blocking("y", concat(vec![ident("x"), ident("t")])))),
    ])
}

/// ```verilog
/// begin
///   x = 0;
///   for (i = 0; i < 8; i = i + 1) begin
///     fb = x[7] ^ d[i];
///     x = x << 1;
///     if (fb) x = x ^ poly;
///   end
///   case (mode)
///     0: y = x;
///     1: y = ~x;
///     default: y = 0;
///   endcase
///   if (!valid || x == 0) begin err = 1; return; end
///   err = 0;
///   $display(y);
/// end
/// ```
fn checksum() -> Node {
    let feedback = binary(bitsel(ident("x"), lit()), bitsel(ident("d"), ident("i")));
    let round = block(vec![
        blocking("fb", feedback),
        blocking("x", binary(ident("x"), lit())),
        if_then(ident("fb"), blocking("x", binary(ident("x"), ident("poly")))),
    ]);
    let shown = vec![arm(1, blocking("y", ident("x"))), arm(1, blocking("y", unary(ident("x")))), default(blocking("y", lit()))];
    block(vec![
        blocking("x", lit()),
        for_loop("i", round),
        case(ident("mode"), shown),
        if_then(or(not(ident("valid")), binary(ident("x"), lit())), block(vec![blocking("err", lit()), return_none()])),
        blocking("err", lit()),
        systask(vec![ident("y")]),
    ])
}

/// Each with its name and what it is.
pub fn all() -> Vec<(&'static str, &'static str, Node)> {
    vec![
        ("counter", "a counter that wraps: if and else", counter()),
        ("decoder", "a case with a default, then reads", decoder()),
        ("forgotten", "the same without the default: gives up at the first read", forgotten()),
        ("arbiter", "a for loop with a break", arbiter()),
        ("reader", "a while loop on `&&` and a call that writes", reader()),
        ("delays", "delays and an edge", delays()),
        ("checksum", "a loop, a case and a return", checksum()),
    ]
}
