//! Not published, and never reached by `da_stmt`.

pub fn low_high(_: u32, _: u32) -> (u32, u32) {
    unreachable!("range_rules is not published")
}

pub fn span_i64(_: i64, _: i64) -> i64 {
    unreachable!("range_rules is not published")
}
