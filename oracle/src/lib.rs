//! The published Rust as the judge of the checker's answers. See README.md beside this crate.

pub mod accepted;
pub mod answer;
pub mod asking;
pub mod compare;
pub mod damage_states;
pub mod facts;
pub mod fill;
pub mod frames;
pub mod generate;
pub mod judge;
#[cfg(feature = "wrong")]
pub mod list;
pub mod listing;
pub mod parallel;
pub mod path;
pub mod premises;
pub mod random;
pub mod reading;
pub mod runs;
pub mod sheet;
pub mod states;
pub mod tree;
#[cfg(feature = "wrong")]
pub mod wrong;
#[cfg(feature = "wrong-runs")]
pub mod wrong_runs;

include!(concat!(env!("OUT_DIR"), "/published.rs"));

/// Not published, and never reached by `da_stmt`.
pub mod struct_arm {
    pub fn arm_reads_ident(_: &crate::hdl_ast::Expr, _: &str) -> bool {
        unreachable!("struct_arm is not published")
    }
}
