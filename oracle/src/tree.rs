//! The `hdl_ast` tree that a sheet's rows stand for.

use crate::asking::{loop_address, path_address, Tree};
use crate::fill::{Fill, Way};
use crate::hdl_ast::*;
use crate::reading::kinds::KINDS;
use crate::reading::tables::children_of;
use crate::sheet::{Row, Sheet};
use std::cell::Cell;
use std::collections::HashMap;

struct Builder<'a> {
    sheet: &'a Sheet,
    fill: Fill,
    calls: HashMap<usize, u32>,
    tasks: HashMap<usize, u32>,
    loops: HashMap<usize, u32>,
}

/// A number that depends on all rows, so that no two sheets are filled in the same way.
fn seed(sheet: &Sheet) -> u64 {
    let number = |row: &Row| u64::from(row.lo ^ row.side) + row.kind as u64;
    sheet.rows.iter().fold(0, |sum: u64, row| sum.wrapping_mul(31).wrapping_add(number(row)))
}

/// The tree of a sheet, with what the sheet drops filled in this way.
pub fn tree(sheet: &Sheet, way: Way) -> Tree {
    let local = sheet.names[sheet.local].clone();
    let fill = Fill::new(way, &local, seed(sheet));
    let mut builder = Builder { sheet, fill, calls: HashMap::new(), tasks: HashMap::new(), loops: HashMap::new() };
    let stmt = builder.stmt(0);
    let Builder { calls, tasks, loops, .. } = builder;
    Tree { stmt, local, calls, tasks, loops, questions: Cell::new(0) }
}

impl Builder<'_> {
    fn row(&self, i: usize) -> Row {
        self.sheet.rows[i]
    }

    fn word(&self, i: usize) -> &'static str {
        KINDS[self.row(i).kind].word
    }

    fn span(&self, i: usize) -> Span {
        Span::new(self.row(i).lo, self.row(i).hi)
    }

    fn children(&self, i: usize) -> Vec<usize> {
        children_of(&self.sheet.rows, i)
    }

    /// What a row stands for, unless it is `none`.
    fn maybe<T>(&mut self, i: usize, built: fn(&mut Self, usize) -> T) -> Option<T> {
        if self.word(i) == "none" {
            None
        } else {
            Some(built(self, i))
        }
    }

    fn named(&mut self, i: usize) -> Ident {
        Ident { name: self.sheet.names[self.row(i).side as usize].clone(), span: self.fill.span() }
    }

    /// A path has room for a segment even where it has none, so that it has an address.
    fn path(&mut self, i: usize) -> HierPath {
        let of = self.children(i);
        let mut segments = Vec::with_capacity(of.len().max(1));
        for seg in of {
            segments.push(self.named(seg));
        }
        HierPath { segments, span: self.fill.span() }
    }

    /// The path of a call, whose side number is told by its address.
    fn call_path(&mut self, i: usize, side: u32) -> HierPath {
        let path = self.path(i);
        self.calls.insert(path_address(&path), side);
        path
    }

    fn task_path(&mut self, i: usize, side: u32) -> HierPath {
        let path = self.path(i);
        self.tasks.insert(path_address(&path), side);
        path
    }

    fn boxed(&mut self, i: usize) -> Box<Expr> {
        Box::new(self.expr(i))
    }

    fn exprs(&mut self, of: &[usize]) -> Vec<Expr> {
        of.iter().map(|i| self.expr(*i)).collect()
    }

    fn expr(&mut self, i: usize) -> Expr {
        let kind = self.expr_kind(i);
        Expr { kind, span: self.span(i) }
    }

    fn expr_kind(&mut self, i: usize) -> ExprKind {
        let side = self.row(i).side;
        let at = self.children(i);
        match self.word(i) {
            "lit" => self.fill.literal(),
            "ident" => ExprKind::Ident(self.path(at[0])),
            "unary" => {
                let op = if side == 1 { UnOp::LogNot } else { self.fill.unary() };
                ExprKind::Unary { op, operand: self.boxed(at[0]) }
            }
            "binary" => {
                let op = match side {
                    1 => BinOp::LogAnd,
                    2 => BinOp::LogOr,
                    _ => self.fill.binary(),
                };
                ExprKind::Binary { op, lhs: self.boxed(at[0]), rhs: self.boxed(at[1]) }
            }
            "ternary" => ExprKind::Ternary { cond: self.boxed(at[0]), then_e: self.boxed(at[1]), else_e: self.boxed(at[2]) },
            "bitsel" => ExprKind::BitSelect { base: self.boxed(at[0]), index: self.boxed(at[1]) },
            "partsel" => ExprKind::PartSelect { base: self.boxed(at[0]), msb: self.boxed(at[1]), lsb: self.boxed(at[2]) },
            "indexed" => ExprKind::IndexedPart {
                base: self.boxed(at[0]),
                offset: self.boxed(at[1]),
                width: self.boxed(at[2]),
                dir: self.fill.direction(),
            },
            "mtm" => ExprKind::MinTypMax { min: self.boxed(at[0]), typ: self.boxed(at[1]), max: self.boxed(at[2]) },
            "concat" => ExprKind::Concat { parts: self.exprs(&at) },
            "syscall" => ExprKind::SysCall { name: self.fill.system_name(), args: self.exprs(&at) },
            "pattern" => ExprKind::AssignPattern(self.exprs(&at)),
            "replicate" => ExprKind::Replicate { count: self.boxed(at[0]), value: self.exprs(&at[1..]) },
            "method" => {
                ExprKind::MethodCall { recv: self.boxed(at[0]), method: self.fill.method_name(), args: self.exprs(&at[1..]) }
            }
            "call" => ExprKind::Call { name: self.call_path(at[0], side), args: self.exprs(&at[1..]) },
            "paren" => ExprKind::Paren { inner: self.boxed(at[0]) },
            "cast" => {
                let expr = self.boxed(at[0]);
                let target = match self.maybe(at[1], Self::boxed) {
                    Some(size) => CastTarget::Size(size),
                    None => self.fill.cast_type(),
                };
                ExprKind::Cast { target, expr }
            }
            "namedarg" => ExprKind::NamedArg { formal: self.fill.ident(), value: self.maybe(at[0], Self::boxed) },
            "new" => ExprKind::New { size: self.boxed(at[0]), src: self.maybe(at[1], Self::boxed) },
            "opaque" => self.fill.opaque(),
            word => panic!("{word} is no expression"),
        }
    }

    fn lvalue(&mut self, i: usize) -> Lvalue {
        let at = self.children(i);
        let span = self.fill.span();
        match self.word(i) {
            "lident" => Lvalue::Ident(self.path(at[0])),
            "lbit" => Lvalue::BitSelect { base: Box::new(self.lvalue(at[0])), index: self.boxed(at[1]), span },
            "lpart" => {
                Lvalue::PartSelect { base: Box::new(self.lvalue(at[0])), msb: self.boxed(at[1]), lsb: self.boxed(at[2]), span }
            }
            "lidx" => Lvalue::IndexedPart {
                base: Box::new(self.lvalue(at[0])),
                offset: self.boxed(at[1]),
                width: self.boxed(at[2]),
                dir: self.fill.direction(),
                span,
            },
            "lconcat" => Lvalue::Concat { parts: at.iter().map(|part| self.lvalue(*part)).collect(), span },
            "lerror" => Lvalue::Error(span),
            word => panic!("{word} is no target"),
        }
    }

    fn delay(&mut self, i: usize) -> Delay {
        let at = self.children(i);
        Delay { values: self.exprs(&at), span: self.fill.span() }
    }

    fn sensitivity(&mut self, i: usize) -> Sensitivity {
        if self.word(i) == "star" {
            return Sensitivity::Star;
        }
        Sensitivity::List(self.children(i).iter().map(|event| self.event(*event)).collect())
    }

    fn event(&mut self, i: usize) -> EventExpr {
        let at = self.children(i);
        EventExpr { edge: self.fill.edge(), expr: self.expr(at[0]), iff: self.maybe(at[1], Self::expr), span: self.fill.span() }
    }

    fn intra(&mut self, i: usize) -> IntraEvent {
        let at = self.children(i);
        IntraEvent { repeat: self.maybe(at[0], Self::expr), ctrl: self.sensitivity(at[1]) }
    }

    fn body(&mut self, i: usize) -> Box<Stmt> {
        Box::new(self.stmt(i))
    }

    fn arm(&mut self, i: usize) -> CaseItem {
        let at = self.children(i);
        let span = self.fill.span();
        let body = self.body(at[0]);
        match self.word(i) {
            "match" => CaseItem::Match { labels: self.exprs(&at[1..]), body, span },
            "default" => CaseItem::Default { body, span },
            word => panic!("{word} is no arm"),
        }
    }

    /// The declarations of a block, several names to one where it so falls.
    fn declarations(&mut self, of: &[usize]) -> Vec<NetVarDecl> {
        let mut found: Vec<NetVarDecl> = Vec::new();
        for i in of {
            let at = self.children(*i);
            let name = self.named(*i);
            let init = self.maybe(at[0], Self::expr);
            let name = self.fill.declared(name, init);
            match found.last_mut() {
                Some(last) if self.fill.flag() => last.names.push(name),
                _ => found.push(self.fill.declaration(vec![name])),
            }
        }
        found
    }

    /// A loop, whose side number is told by its address.
    fn looped(&mut self, stmt: Stmt, side: u32) -> Stmt {
        self.loops.insert(loop_address(&stmt), side);
        stmt
    }

    fn stmt(&mut self, i: usize) -> Stmt {
        let span = self.span(i);
        let side = self.row(i).side;
        let at = self.children(i);
        let word = self.word(i);
        if let Some(stmt) = self.fill.unmodelled(word, span) {
            return stmt;
        }
        match word {
            "blocking" => {
                let (delay, event) = (self.maybe(at[0], Self::delay), self.maybe(at[1], Self::intra));
                Stmt::Blocking { lhs: self.lvalue(at[2]), delay, event, rhs: self.expr(at[3]), span }
            }
            "nonblocking" => {
                let (delay, event) = (self.maybe(at[0], Self::delay), self.maybe(at[1], Self::intra));
                Stmt::NonBlocking { lhs: self.lvalue(at[2]), delay, event, rhs: self.expr(at[3]), span }
            }
            "if" => Stmt::If {
                cond: self.expr(at[0]),
                then_s: self.body(at[1]),
                else_s: self.maybe(at[2], Self::body),
                span,
                assertion: self.fill.pick(&[None, Some(AssertDirective::Assert), Some(AssertDirective::Assume)]),
            },
            "return" => Stmt::Return { value: self.maybe(at[0], Self::expr), span },
            "case" => Stmt::Case {
                kind: self.fill.pick(&[CaseKind::Case, CaseKind::Casez, CaseKind::Casex, CaseKind::Inside]),
                scrutinee: self.expr(at[0]),
                items: at[1..].iter().map(|arm| self.arm(*arm)).collect(),
                span,
            },
            "for" => {
                let (init, cond) = (self.body(at[0]), self.expr(at[1]));
                let (step, body) = (self.body(at[2]), self.body(at[3]));
                self.looped(Stmt::For { init, cond, step, body, span }, side)
            }
            "while" => {
                let (cond, body) = (self.expr(at[0]), self.body(at[1]));
                self.looped(Stmt::While { cond, body, span }, side)
            }
            "repeat" => {
                let (count, body) = (self.expr(at[0]), self.body(at[1]));
                self.looped(Stmt::Repeat { count, body, span }, side)
            }
            "forever" => {
                let body = self.body(at[0]);
                self.looped(Stmt::Forever { body, span }, side)
            }
            "block" => {
                let declared = at.iter().take_while(|child| self.word(**child) == "decl").count();
                let decls = self.declarations(&at[..declared]);
                let stmts = at[declared..].iter().map(|child| self.stmt(*child)).collect();
                Stmt::Block { label: self.fill.maybe(Fill::ident), decls, stmts, span }
            }
            "fork" => Stmt::Fork {
                label: self.fill.maybe(Fill::ident),
                decls: self.fill.fork_declarations(),
                stmts: at.iter().map(|child| self.stmt(*child)).collect(),
                join: self.fill.pick(&[JoinKind::Join, JoinKind::JoinAny, JoinKind::JoinNone]),
                span,
            },
            "systask" => Stmt::SysTaskCall { name: self.fill.system_name(), args: self.exprs(&at), span },
            "task" => Stmt::UserTaskCall { name: self.task_path(at[0], side), args: self.exprs(&at[1..]), span },
            "delayctrl" => Stmt::DelayCtrl { delay: self.delay(at[0]), body: self.maybe(at[1], Self::body), span },
            "eventctrl" => Stmt::EventCtrl { ctrl: self.sensitivity(at[0]), body: self.maybe(at[1], Self::body), span },
            "wait" => Stmt::Wait { cond: self.expr(at[0]), body: self.maybe(at[1], Self::body), span },
            "disable" => Stmt::Disable { target: self.path(at[0]), span },
            "concurrent" => Stmt::ConcurrentAssert {
                clock: self.fill.sensitivity(),
                disable_iff: self.fill.maybe(Fill::expr),
                antecedent: self.fill.sequence(),
                implication_kind: self.fill.pick(&[ImplicationKind::Overlap, ImplicationKind::NonOverlap]),
                consequent: self.fill.sequence(),
                consequent_clock: self.fill.maybe(Fill::sensitivity),
                pass: self.maybe(at[0], Self::body),
                fail: self.maybe(at[1], Self::body),
                prop_expr: self.fill.maybe(Fill::property),
                local_vars: self.fill.local_variables(),
                span,
            },
            "deferred" => Stmt::DeferredAssert {
                region: self.fill.pick(&[AssertDefer::Observed, AssertDefer::Reactive]),
                cond: self.fill.expr(),
                then_s: self.body(at[0]),
                else_s: self.body(at[1]),
                span,
                directive: self.fill.pick(&[AssertDirective::Assert, AssertDirective::Assume]),
            },
            "null" => Stmt::Null(span),
            word => panic!("{word} is no statement"),
        }
    }
}
