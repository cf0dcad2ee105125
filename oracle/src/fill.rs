//! What a sheet drops, put back: labels, names of types, operators with side 0, which literal, which opaque form, what an unmodelled
//! statement holds, spans that no give-up carries.
//!
//! `da_stmt` must not depend on any of it, so a tree is built in several ways, and all must get one answer: with nothing that names
//! the local, with the local wherever a name or expression is free, and with either at random.

use crate::hdl_ast::*;
use crate::random::Random;

#[derive(Clone, Copy, PartialEq, Eq, Debug)]
pub enum Way {
    WithoutLocal,
    WithLocal,
    Mixed,
}

pub const WAYS: [Way; 3] = [Way::WithoutLocal, Way::WithLocal, Way::Mixed];

pub struct Fill {
    way: Way,
    random: Random,
    local: String,
}

impl Fill {
    pub fn new(way: Way, local: &str, seed: u64) -> Fill {
        Fill { way, random: Random::new(seed, way as u64), local: local.to_string() }
    }

    pub fn pick<T: Copy>(&mut self, of: &[T]) -> T {
        *self.random.pick(of)
    }

    pub fn flag(&mut self) -> bool {
        self.random.percent(50)
    }

    /// Something, or nothing.
    pub fn maybe<T>(&mut self, made: fn(&mut Fill) -> T) -> Option<T> {
        if self.flag() {
            Some(made(self))
        } else {
            None
        }
    }

    /// None, one or two.
    fn some<T>(&mut self, made: fn(&mut Fill) -> T) -> Vec<T> {
        (0..self.random.below(3)).map(|_| made(self)).collect()
    }

    fn names_local(&mut self) -> bool {
        match self.way {
            Way::WithoutLocal => false,
            Way::WithLocal => true,
            Way::Mixed => self.flag(),
        }
    }

    pub fn span(&mut self) -> Span {
        Span::new(self.random.next() as u32, self.random.next() as u32)
    }

    /// The local, or one of these names that it is not.
    fn name_of(&mut self, others: &[&str]) -> String {
        if self.names_local() {
            return self.local.clone();
        }
        let local = self.local.clone();
        let others: Vec<&str> = others.iter().copied().filter(|name| *name != local).collect();
        self.pick(&others).to_string()
    }

    fn ident_of(&mut self, others: &[&str]) -> Ident {
        Ident { name: self.name_of(others), span: self.span() }
    }

    pub fn ident(&mut self) -> Ident {
        self.ident_of(&["zz", "q", "$break$9", "string"])
    }

    pub fn system_name(&mut self) -> Ident {
        self.ident_of(&["$display", "$finish", "$fatal", "$sscanf", "$random"])
    }

    pub fn method_name(&mut self) -> Ident {
        self.ident_of(&["size", "delete", "push_back", "atoi"])
    }

    pub fn path(&mut self) -> HierPath {
        HierPath { segments: self.some(Fill::ident), span: self.span() }
    }

    pub fn literal(&mut self) -> ExprKind {
        let raw = self.name_of(&["0", "1", "1'b1", "'1", "2.5", "\"s\""]);
        match self.random.below(5) {
            0 => ExprKind::IntLit { kind: self.pick(&[IntLitKind::Decimal, IntLitKind::Sized, IntLitKind::UnsizedBased]), raw },
            1 => ExprKind::RealLit { kind: self.pick(&[RealLitKind::Fixed, RealLitKind::Exp]), raw },
            2 => ExprKind::StrLit { raw },
            3 => ExprKind::Null,
            _ => ExprKind::Dollar,
        }
    }

    /// An expression in a place that the sheet does not keep. It may be a call: a walk that asked about it would end the run.
    pub fn expr(&mut self) -> Expr {
        let kind = if !self.names_local() {
            self.literal()
        } else if self.flag() {
            ExprKind::Ident(HierPath { segments: vec![self.ident()], span: self.span() })
        } else {
            ExprKind::Call { name: self.path(), args: vec![Expr { kind: ExprKind::Ident(self.path()), span: self.span() }] }
        };
        Expr { kind, span: self.span() }
    }

    fn boxed(&mut self) -> Box<Expr> {
        Box::new(self.expr())
    }

    /// One of the eight forms that `opaque` stands for.
    pub fn opaque(&mut self) -> ExprKind {
        match self.random.below(8) {
            0 => ExprKind::PkgScoped { pkg: self.ident(), name: self.ident() },
            1 => ExprKind::RandomizeWith(Box::new(RandomizeWithExpr {
                name: self.path(),
                args: self.some(Fill::expr),
                constraints: self.some(Fill::expr),
            })),
            2 => ExprKind::ArrayMethodWith(Box::new(ArrayMethodWithExpr {
                recv: self.path(),
                method: self.method_name(),
                iter_var: self.maybe(Fill::ident),
                with_expr: self.expr(),
            })),
            3 => ExprKind::ClassNew { args: self.some(Fill::expr) },
            4 => ExprKind::TimeLit { num: self.boxed(), unit_exp: self.pick(&[0, -3, -6, -9, -12, -15]) },
            5 => ExprKind::Dist { value: self.boxed(), items: self.some(Fill::dist_item) },
            6 => ExprKind::AssignPatternKeyed(self.some(Fill::keyed)),
            _ => ExprKind::Error,
        }
    }

    fn dist_item(&mut self) -> DistItem {
        DistItem { lo: self.boxed(), hi: self.maybe(Fill::boxed), weight: self.boxed(), per_range: self.flag() }
    }

    fn keyed(&mut self) -> (AssignPatternKey, Expr) {
        let key = if self.flag() { AssignPatternKey::Default } else { AssignPatternKey::Member(self.ident().name) };
        (key, self.expr())
    }

    pub fn unary(&mut self) -> UnOp {
        use UnOp::*;
        self.pick(&[Plus, Minus, BitNot, RedAnd, RedNand, RedOr, RedNor, RedXor, RedXnor])
    }

    pub fn binary(&mut self) -> BinOp {
        use BinOp::*;
        self.pick(&[
            Add, Sub, Mul, Div, Mod, Pow, Shl, Shr, AShl, AShr, Lt, Le, Gt, Ge, Eq, Ne, CaseEq, CaseNe, WildEq, WildNe, BitAnd,
            BitXor, BitXnor, BitOr, InsideEq,
        ])
    }

    pub fn direction(&mut self) -> PartDir {
        self.pick(&[PartDir::PlusColon, PartDir::MinusColon])
    }

    /// A cast's type where it is no size.
    pub fn cast_type(&mut self) -> CastTarget {
        use CastPrim::*;
        match self.random.below(4) {
            0 => CastTarget::Prim(self.pick(&[Int, Integer, Byte, Shortint, Longint, Bit, Logic, Reg, Time, Real])),
            1 => CastTarget::Signing { signed: self.flag() },
            2 => CastTarget::Named(HierPath { segments: vec![self.ident()], span: self.span() }),
            _ => CastTarget::SigningParam { shape_param: self.ident() },
        }
    }

    fn lvalue(&mut self) -> Lvalue {
        let span = self.span();
        let base = Box::new(Lvalue::Ident(self.path()));
        match self.random.below(6) {
            0 => *base,
            1 => Lvalue::BitSelect { base, index: self.boxed(), span },
            2 => Lvalue::PartSelect { base, msb: self.boxed(), lsb: self.boxed(), span },
            3 => Lvalue::IndexedPart { base, offset: self.boxed(), width: self.boxed(), dir: self.direction(), span },
            4 => Lvalue::Concat { parts: vec![*base], span },
            _ => Lvalue::Error(span),
        }
    }

    pub fn edge(&mut self) -> Edge {
        self.pick(&[Edge::Posedge, Edge::Negedge, Edge::NoEdge])
    }

    fn event(&mut self) -> EventExpr {
        EventExpr { edge: self.edge(), expr: self.expr(), iff: self.maybe(Fill::expr), span: self.span() }
    }

    pub fn sensitivity(&mut self) -> Sensitivity {
        if self.flag() {
            Sensitivity::Star
        } else {
            Sensitivity::List(self.some(Fill::event))
        }
    }

    fn delay(&mut self) -> Delay {
        Delay { values: self.some(Fill::expr), span: self.span() }
    }

    fn range(&mut self) -> Range {
        Range { msb: self.expr(), lsb: self.expr(), span: self.span() }
    }

    pub fn dim(&mut self) -> Dim {
        match self.random.below(4) {
            0 => Dim::Range(self.range()),
            1 => Dim::Size(self.expr()),
            2 => Dim::Dyn,
            _ => Dim::Queue(self.maybe(Fill::expr)),
        }
    }

    /// What stands beside a declared name.
    pub fn declared(&mut self, name: Ident, init: Option<Expr>) -> DeclName {
        DeclName { name, unpacked: self.some(Fill::dim), init, span: self.span() }
    }

    /// A declaration of these names.
    pub fn declaration(&mut self, names: Vec<DeclName>) -> NetVarDecl {
        let kind = self.pick(&[NetVarKind::Logic, NetVarKind::Int, NetVarKind::Wire, NetVarKind::ClassHandle]);
        NetVarDecl {
            dtype: DataType::new_net(kind, self.flag(), self.maybe(Fill::range), self.some(Fill::range)),
            delay: self.maybe(Fill::delay),
            names,
            lifetime: self.pick(&[None, Some(false), Some(true)]),
            class_type: self.maybe(Fill::ident),
            class_args: self.some(Fill::expr),
            const_param: self.flag(),
            shape_param: self.maybe(Fill::ident),
            integral_typedef: self.flag(),
            pattern_members: vec![PatternMember { name: self.ident().name, width: 1, two_state: self.flag() }],
            span: self.span(),
        }
    }

    /// A declaration of names that the sheet drops too.
    pub fn dropped_declaration(&mut self) -> NetVarDecl {
        let names = self.some(|fill| {
            let (name, init) = (fill.ident(), fill.maybe(Fill::expr));
            fill.declared(name, init)
        });
        self.declaration(names)
    }

    /// The declarations of a fork, which the walk ignores.
    pub fn fork_declarations(&mut self) -> Vec<NetVarDecl> {
        self.some(Fill::dropped_declaration)
    }

    pub fn sequence(&mut self) -> Sequence {
        match self.random.below(3) {
            0 => Sequence::Boolean(self.expr()),
            1 => Sequence::Instance { name: self.ident(), args: self.some(Fill::expr), span: self.span() },
            _ => {
                let (lhs, rhs) = (Box::new(Sequence::Boolean(self.expr())), Box::new(Sequence::Boolean(self.expr())));
                Sequence::Delay { min: 1, max: Some(1), lhs, rhs }
            }
        }
    }

    pub fn property(&mut self) -> PropExpr {
        PropExpr::Not(Box::new(PropExpr::Seq(self.sequence())))
    }

    pub fn local_variables(&mut self) -> Vec<SvaLocalDecl> {
        self.some(|fill| SvaLocalDecl {
            name: fill.ident(),
            width: 1,
            signed: fill.flag(),
            unsupported_type: fill.flag(),
            init: fill.maybe(Fill::expr),
            span: fill.span(),
        })
    }

    /// The statement of a word of which the sheet keeps nothing else; nothing for any other word.
    pub fn unmodelled(&mut self, word: &str, span: Span) -> Option<Stmt> {
        Some(match word {
            "randstmt" => {
                Stmt::RandomizeWith { name: self.path(), args: self.some(Fill::expr), constraints: self.some(Fill::expr), span }
            }
            "trigger" => Stmt::EventTrigger { name: self.path(), span },
            "passign" => Stmt::Assign { lhs: self.lvalue(), rhs: self.expr(), span },
            "deassign" => Stmt::Deassign { lhs: self.lvalue(), span },
            "force" => Stmt::Force { lhs: self.lvalue(), rhs: self.expr(), span },
            "release" => Stmt::Release { lhs: self.lvalue(), span },
            "cover" => {
                Stmt::CoverProperty { clock: self.sensitivity(), disable_iff: self.maybe(Fill::expr), seq: self.sequence(), span }
            }
            "waitfork" => Stmt::WaitFork { span },
            "error" => Stmt::Error(span),
            _ => return None,
        })
    }
}
