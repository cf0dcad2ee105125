//! Not published, and never reached by `da_stmt`.

use super::Expr;

pub fn syscall_read_args<'a>(_: &str, _: &'a [Expr]) -> &'a [Expr] {
    unreachable!("sysfn is not published")
}

pub fn syscall_writes_arg(_: &str, _: usize) -> bool {
    unreachable!("sysfn is not published")
}
