//! A second implementation of the ranked safety filter of document 01, made
//! to compare the proved one with. It follows that document's sentences literal
//! by literal and is meant to be read beside it, not to be fast.

pub mod answer;
pub mod by_hand;
pub mod chance;
pub mod corpus;
pub mod damage;
pub mod file;
pub mod filter;
pub mod finding;
pub mod lent;
pub mod machine;
pub mod making;
pub mod program;
pub mod raw;
pub mod records;
pub mod set;
pub mod text;
pub mod verdict;
