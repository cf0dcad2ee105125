//! Not published, and never reached by `da_stmt`.

pub fn decimal_i64(_: &str) -> Option<i64> {
    unreachable!("value_rules is not published")
}
