//! Stands in for the name table, which only XML uses.
pub struct NameTable;
