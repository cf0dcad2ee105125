//! Not published. Nothing that is published uses what it holds.
