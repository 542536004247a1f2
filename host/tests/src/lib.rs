//! Compares a library with the reference through the C face, on systematic, random and hostile
//! calls.

pub mod call;
pub mod compare;
pub mod failure;
pub mod groups;
pub mod numbers;
pub mod words;

mod instrument;
mod library;
mod random;
mod shapes;
